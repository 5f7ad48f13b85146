-- What an office of version 2, that of office-2.sql, lacks of version 3, with an agent.
CREATE TABLE agents (principal TEXT NOT NULL, agent TEXT NOT NULL, PRIMARY KEY (principal, agent), UNIQUE (agent, principal)) STRICT;
UPDATE office SET version = 3;
INSERT INTO agents VALUES ('alice', 'bob');
