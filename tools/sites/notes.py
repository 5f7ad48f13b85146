"""Notes of an authority: where they are shown, that one on a value without an entry has no effect, and how files of notes are refused."""
import re
import shutil

from sites import history, pages
from sites.running import contents, marks, others
from sites.steps import YEAR
from sites.trials import LATER

HEADER = 'registry,value,title,reference,note\n'
MOST = 1_048_576
ROWS = [
    ('', '', 'Büro für Nummern & "mehr"', 'https://registry.example.org/apply?a=1&b=2 to the desk', "Wir vergeben <b>Werte</b>, 'alle'."),
    ('', 'desk', 'Schalter & <more>', 'http://desk.example.org/?a=1&b=2', '<i>Anträge</i>'),
    ('codes', '', 'Farben – Цвета', 'RFC 8126', '</td><script>alert(1)</script>'),
    ('codes', '64', 'Bleu & 青', 'RFC 1234, Section 5', ''),
    ('codes', '100', '', 'draft-x-00', ']]>'),
    ('bits', '1', '', '', '"quoted"'),
]
# About a value above the registry's largest, one without an entry, and a registry that is not there.
ABOUT_NOTHING = [('alpha', '4294967295', 'above', '', ''), ('codes', '7', 'a secret title', 'https://secret.example.org', 'a secret note'), ('nope', '', 'no registry', '', '')]


def text_of(rows):
    return (HEADER.encode() + b''.join(map(history.line_of, rows))).decode()


class Noting:
    """Runs over copies of one site with files of notes."""

    def __init__(self, year):
        self.year, self.tally, self.program = year, year.tally, year.program
        self.office, self.path = year.office_of(len(YEAR)), year.folder / 'notes.csv'

    def published(self, notes, folder):
        """A run with these notes: what it gave, and the files."""
        self.path.write_text(notes, encoding='utf-8')
        shutil.rmtree(folder, ignore_errors=True)
        shutil.copytree(self.year.folder / f'site-{len(YEAR)}', folder)
        done = self.program.done(['publish', self.office, folder, '--notes', self.path], LATER)
        self.tally.judge(done.returncode == 0 and done.stdout.startswith('published 3 registries, '), f'publish with notes gave {done}')
        return done.stderr, contents(folder)


def judge_notes(year, pictures):
    noting, folder = Noting(year), year.folder / 'noted'
    plain = year.site_of(len(YEAR))
    year.publish(noting.office, LATER, plain)
    said, files = noting.published(text_of(ROWS), folder)
    year.tally.judge(not said, f'notes that are all shown gave {said!r}')
    judge_shown(year, folder, files)
    pages.take_pictures(year.tally, folder, ['index.html', 'registries/codes.html'], pictures)
    judge_others(year, contents(plain), files)
    said, with_more = noting.published(text_of([*ROWS[:3], *ABOUT_NOTHING, *ROWS[3:]]), folder)
    year.tally.judge(with_more == files, f'notes about nothing changed {others(with_more, files)}')
    year.tally.judge(re.search(rf'\b{len(ABOUT_NOTHING)}\b', said) and all(re.search(rf'\b{word}\b', said) for word in ABOUT_NOTHING[0][:2]) and said.count('\n') == 1, f'notes about nothing gave {said!r}')
    said, none = noting.published(HEADER, folder)
    year.tally.judge(not said and none == contents(plain), f'no notes changed {others(none, contents(plain))}')
    judge_faults(noting, plain)


def judge_shown(year, site, files):
    """Each note is where it belongs, as text, and a reference is a link if it names one."""
    for path in ['index.html', 'changes.html', 'blocks.html', 'registries/alpha.html', 'registries/bits.html', 'registries/codes.html']:
        pages.judge_page(year.tally, site, path)
        page = pages.Page(files[path].decode())
        year.tally.judge({'https://registry.example.org/apply?a=1&b=2', ROWS[1][3]} <= {*page.links}, f'{path} does not say where to apply')
        year.tally.judge(all(text in ''.join(page.texts) for text in ROWS[1][2:]), f'{path} lacks the note on the desk')
    page = pages.Page(files['index.html'].decode())
    year.tally.judge(all(text in ''.join(page.texts) for text in ROWS[0][2:]), 'index.html does not have the note of the authority')
    [head] = [row[0] for table in page.tables for row in table if 'codes' in row[0]]
    year.tally.judge(head.startswith(f'{ROWS[2][2]}codes'), f'index.html has the registry {head}')
    page = pages.Page(files['registries/codes.html'].decode())
    [row] = [row for table in page.tables for row in table if row[0] == '64']
    year.tally.judge(row[1:3] == [f'Blue{ROWS[3][2]}', ROWS[3][3]], f'the row of 64 is {row}')
    year.tally.judge('https://www.rfc-editor.org/rfc/rfc1234' in page.links and 'https://www.rfc-editor.org/rfc/rfc8126' in page.links, f'the links are {page.links[:9]}')
    year.tally.judge(all(text in ''.join(page.texts) for text in ROWS[2][2:]) and 'draft-x-00' in ''.join(page.texts), 'codes.html lacks a note')
    registry = pages.well_formed(year.tally, site / 'registries/codes.xml')
    found = {record.findtext(f'{pages.IANA}value'): [*record.findall(f'{pages.IANA}xref')] for record in registry.iter(f'{pages.IANA}record')}
    said = [(xref.get('type'), xref.get('data')) for value in ('64', '100', '0') for xref in found[value]]
    year.tally.judge(registry.findtext(f'{pages.IANA}title') == ROWS[2][2] and said == [('rfc', 'rfc1234'), ('text', 'draft-x-00')], f'codes.xml has {said}')
    pages.judge_feed(year.tally, site, history.judge_site(site, files), ROWS[0][2])


def judge_others(year, plain, files):
    """No file that programs compare with an answer of the office has another byte."""
    same = [name for name in files if re.search(r'(\.csv|registries/.*\.json|pool\.json|\.css)$', name)]
    year.tally.judge(len(same) > 9 and all(files[name] == plain[name] for name in same), f'notes changed {[name for name in same if files[name] != plain[name]]}')


# ---- Files of notes that are refused

# What is wrong with a file, and the row that is named, if one is.
FAULTS = [
    (b'', None), (b'registry,value,title,reference\n', None), (b'registry,value,title,reference,notes\n', None), (b'codes,64,a,b,c\n', None),
    (HEADER.encode() + b'codes,64,a,b\n', 1), (HEADER.encode() + b'codes,64,a,b,c,d\n', 1), (HEADER.encode() + b'codes,64,a,b,c\ncodes,64,a,b,c\n', 2),
    (HEADER.encode() + b'codes,,a,b,c\nbits,,a,b,c\ncodes,,,,\n', 3), (HEADER.encode() + b',,a,b,c\n,,a,b,c\n', 2), (HEADER.encode() + b'CODES,64,a,b,c\n', 1),
    (HEADER.encode() + b'codes,064,a,b,c\n', 1), (HEADER.encode() + b'codes,4294967296,a,b,c\n', 1), (HEADER.encode() + b'codes,-1,a,b,c\n', 1),
    (HEADER.encode() + b',64,a,b,c\n', 1), (HEADER.encode() + b',Desk,a,b,c\n', 1), (HEADER.encode() + b',desk,,,\n,desk,,,\n', 2), (HEADER.encode() + b'codes,64,a\tb,b,c\n', 1), (HEADER.encode() + b'codes,64,"a\nb",b,c\n', 1),
    (HEADER.encode() + b'codes,64,\xff,b,c\n', 1), (HEADER.encode() + b'codes,64,' + b'a' * 1001 + b',b,c\n', 1), (HEADER.encode() + 'codes,64,\uffff,b,c\n'.encode(), 1),
    (HEADER.encode() + 'codes,64,\u0085,b,c\n'.encode(), 1),
]


def judge_faults(noting, site):
    """A malformed file is `fault: notes` with the row that is at fault, too large a one `fault: large`; nothing is written."""
    before, marked = contents(site), marks(site)
    words = ['publish', noting.office, site, '--notes', noting.path]
    for data, row in FAULTS:
        noting.path.write_bytes(data)
        done = noting.program.done(words, LATER + 60)
        lines = done.stderr.splitlines()
        good = (done.returncode, done.stdout, lines[:1]) == (1, '', ['fault: notes']) and len(lines) == 2
        noting.tally.judge(good and (row is None or re.search(rf'\brow {row}\b', lines[1])), f'{data[:90]} gave {done}')
    noting.path.write_bytes(HEADER.encode() + b'\n' * (MOST - len(HEADER) + 1))
    noting.program.faults(words, 'fault: large\n', LATER + 60)
    noting.path.unlink()
    noting.program.faults(words, 'fault: read\n', LATER + 60)
    noting.tally.judge(contents(site) == before and marks(site) == marked, 'notes that are refused changed the site')
    rows = [('codes', str(number), 'x' * 1000, '', '') for number in range(1030)]
    data = text_of([*ROWS, *((name, value, title[:MOST // 1060 - 20], *rest) for name, value, title, *rest in rows if value not in ('64', '100'))])
    noting.path.write_text(data + '\n' * (MOST - len(data.encode())), encoding='utf-8')
    done = noting.program.done(words, LATER)
    noting.tally.judge(noting.path.stat().st_size == MOST and done.returncode == 0, f'notes of {noting.path.stat().st_size} bytes gave {done}')
