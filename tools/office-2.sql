-- What an office of version 1, that of office-1.sql, lacks of version 2, with a mark and a minute.
CREATE TABLE holds (registry TEXT NOT NULL, value INTEGER NOT NULL, PRIMARY KEY (registry, value), FOREIGN KEY (registry, value) REFERENCES entries (registry, value)) STRICT;
CREATE TABLE minutes (account TEXT NOT NULL, reference TEXT NOT NULL, minute TEXT NOT NULL, PRIMARY KEY (account, reference), FOREIGN KEY (account, reference) REFERENCES requests (account, reference)) STRICT;
UPDATE office SET version = 2;
INSERT INTO holds VALUES ('bits', 7);
INSERT INTO minutes VALUES ('alice', 'n-4', 'of May');
