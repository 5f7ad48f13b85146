"""What a site refuses: offices that lost something, histories that were edited, and notes that are malformed; and what it is made of."""
import re
import shutil

from lib.office import CLERK
from sites import history
from sites.running import contents, marks, others
from sites.steps import BEGAN, DAY, YEAR, asked, granted, moment_of

LATER = BEGAN + 372 * DAY
LINE_FEED = b'\n'


def fault_of(program, words, moment=None):
    """The second line of a job that ends with `fault: history`, or none if it does not."""
    done = program.done(words, moment)
    lines = done.stderr.splitlines()
    good = (done.returncode, done.stdout, lines[:1], len(lines)) == (1, '', ['fault: history'], 2)
    program.tally.judge(good, f'{words[0]} gave {done.returncode} {done.stdout!r} {done.stderr!r}, not fault: history')
    return lines[1] if good else None


def refused(program, office, site, moment=LATER):
    """The second line of a run that ends with `fault: history` and leaves each file, to the byte and the moment."""
    before, marked = contents(site), marks(site)
    line = fault_of(program, ['publish', office, site], moment)
    program.tally.judge(contents(site) == before and marks(site) == marked, f'{line}: the run wrote {others(marked, marks(site))}')
    return line


def names(line, what):
    """Whether a second line names this register and this value, or these digits."""
    register, _, value = what
    return line is not None and all(re.search(rf'(?<![\w-]){re.escape(word)}(?![\w-])', line) for word in (register, value) if word)


# ---- An older copy of the office

def judge_older_copies(year):
    """An office that lacks what was published, or has less of it, is not published. One that lacks a mark is."""
    for number, step in enumerate(YEAR[1:], 2):
        office, site = year.office_of(number - 1), year.site_of(number)
        lost = [what for what in step.changes if step.what not in ('a mark', 'a mark that is removed')]
        if lost:
            line = refused(year.program, office, site)
            year.tally.judge(any(names(line, what) for what in lost), f'the copy before step {number} is at fault by {line!r}, and lost {lost}')
        else:
            year.publish(office, LATER, site)
            year.tally.judge(len(history.judge_site(site, contents(site))) >= len(step.changes), f'step {number}: no history')
    office, site = year.office_of(3), year.site_of(len(YEAR))
    line = refused(year.program, office, site)
    year.tally.judge(names(line, ('', 'prefix', '001A2B')), f'a copy of the first days is at fault by {line!r}')
    with year.program.serving(office, LATER) as address:
        year.tally.judge(refused(year.program, address, site) == line, 'a served older copy is at fault in other words')
    year.publish(year.office_of(len(YEAR)), LATER, site)


# ---- Edits of a history

def edits_of(data):
    """Histories that were edited, each with the number of the first record that is wrong then, if it is a record that is."""
    lines = data.splitlines(keepends=True)
    count = len(lines) - 1
    starts = [sum(map(len, lines[:number])) for number in range(len(lines) + 1)]
    for number in 0, 1, (count + 1) // 2, count:
        for at in range(starts[number], starts[number + 1]):
            yield number, data[:at] + bytes([data[at] ^ 1]) + data[at + 1:]
            yield number, data[:at] + data[at + 1:]
    for number in range(1, count + 1):
        yield number, data[:starts[number] + 30]
        yield number, data[:starts[number]] + data[starts[number + 1]:] if number < count else data[:-1]
    yield count + 1, data + lines[-1]
    yield count + 1, data + b'x'
    yield count + 1, data + LINE_FEED
    yield 0, b''
    yield 0, b'\xef\xbb\xbf' + data
    yield 0, data.replace(LINE_FEED, b'\r\n')


def judge_edits(year):
    """A history that was edited anywhere, cut or replaced is at fault, by `publish` and by `verify`."""
    office, site = year.office_of(len(YEAR)), year.site_of(len(YEAR))
    path, data = site / 'changes.csv', (site / 'changes.csv').read_bytes()
    for place, (number, edited) in enumerate(edits_of(data)):
        path.write_bytes(edited)
        said = [fault_of(year.program, ['verify', site])]
        if place % 5 == 0:
            said.append(refused(year.program, office, site))
            year.tally.judge(year.said_by_check_site(site).returncode == 1, f'check-site.py does not see an edit of record {number}')
        for line in said:
            year.tally.judge(line is not None and (f'record {number} ' in f'{line} ' or not number and 'changes.csv does not begin' in line),
                             f'an edit of record {number} is said to be {line!r}')
    path.write_bytes(data)
    judge_cuts(year, office, site, data)
    judge_replaced(year, office, site)


def judge_cuts(year, office, site, data):
    """A history that was cut at the end of a record lacks that of the index."""
    lines = data.splitlines(keepends=True)
    for number in range(1, len(lines)):
        (site / 'changes.csv').write_bytes(b''.join(lines[:number]))
        for line in refused(year.program, office, site), fault_of(year.program, ['verify', site]):
            year.tally.judge(line is not None and 'index.json' in line, f'a cut before record {number} is said to be {line!r}')
        year.tally.judge(year.said_by_check_site(site).returncode == 1, f'check-site.py does not see a cut before record {number}')
    (site / 'changes.csv').write_bytes(data)


def judge_replaced(year, office, site):
    """A history that another folder began is at fault; one without an index is not; a folder with neither begins at number 1."""
    kept, fresh = contents(site), year.folder / 'fresh'
    year.publish(office, LATER, fresh)
    records = history.judge_site(fresh, contents(fresh))
    year.tally.judge(len(records) < len(year.records) and all(record['Change'] != 'term' for record in records), 'a fresh history has changes of terms')
    (site / 'changes.csv').write_bytes(contents(fresh)['changes.csv'])
    line = refused(year.program, office, site)
    year.tally.judge(line is not None and 'index.json' in line, f'another history is said to be {line!r}')
    (site / 'changes.csv').unlink()
    line = refused(year.program, office, site)
    year.tally.judge(line is not None and 'changes.csv' in line, f'no history is said to be {line!r}')
    (site / 'changes.csv').write_bytes(kept['changes.csv'])
    (site / 'index.json').unlink()
    year.publish(office, LATER, site)
    year.tally.judge(contents(site)['changes.csv'] == kept['changes.csv'], 'a folder without an index has another history')
    for name in 'changes.csv', 'index.json':
        (site / name).unlink()
    year.publish(office, LATER, site)
    year.tally.judge(contents(site) == contents(fresh), 'a folder with neither file does not begin at number 1')
    shutil.rmtree(fresh)


# ---- Edits of the files beside it

def judge_other_files(year):
    """A file that is not what the history says, or of none of its registries, is named by `verify`, and seen by check-site.py."""
    site = year.site_of(len(YEAR))
    for path, old, new in [
        ('registries/codes.json', b'"label":"Blue"', b'"label":"Bleu"'), ('registries/codes.csv', b'64,Blue,', b'64,Bleu,'),
        ('registries/bits.json', b'"first":"2025-12-02"', b'"first":"2025-12-03"'), ('registries/bits.csv', b',bob\n', b',rob\n'),
        ('registries/alpha.json', b'"hi":9,', b'"hi":8,'), ('pool.json', b'"001A2B"', b'"001A2C"'), ('blocks.csv', b'8C1F64001', b'8C1F64002'),
        ('index.json', b'"digest":"', b'"digest":"0'), ('index.json', b'"changes":', b'"changes":1'),
    ]:
        data = (site / path).read_bytes()
        year.tally.judge(old in data, f'{path} has no {old}')
        for edited in data.replace(old, new, 1), None:
            (site / path).write_bytes(edited) if edited else (site / path).unlink()
            line = fault_of(year.program, ['verify', site])
            year.tally.judge(line is not None and path in line, f'{path} with {new} is said to be {line!r}')
            year.tally.judge(year.said_by_check_site(site).returncode == 1, f'check-site.py does not see {path} with {new}')
        (site / path).write_bytes(data)
    for path in 'registries/other.json', 'registries/other.csv':
        (site / path).write_bytes((site / path.replace('other', 'codes')).read_bytes())
        line = fault_of(year.program, ['verify', site])
        year.tally.judge(line == f'{path} is of no registry of the history', f'{path} is said to be {line!r}')
        year.tally.judge(year.said_by_check_site(site).returncode == 1, f'check-site.py does not see {path}')
        (site / path).unlink()
    for digest in year.records[-1]['Digest'][:-1] + '#', 'f' * 16, '0' * 64:
        done = year.program.done(['verify', site, '--digest', digest])
        year.tally.judge(done.returncode > 0 and not done.stdout and done.stderr.startswith('fault: '), f'the digest {digest} gave {done}')
        year.tally.judge(year.said_by_check_site(site, digest).returncode == 1, f'check-site.py finds the digest {digest}')


# ---- Two offices

def judge_alike(year):
    """Two offices with the same published registers leave the same bytes in copies of one folder, whatever else they have."""
    other = year.folder / 'other.db'
    year.program.run(['init', other, '--clerk', CLERK], 'ready\n')
    extra = [granted('dave'), asked('dave', 'd-1', 'code', registry='codes', value=7, label='Waits', contact='dave')]
    script = []
    for number, step in enumerate(YEAR):
        lines = [(token, method, path, body.replace('"contact": "c"', '"contact": "another"')) for token, method, path, body in step.lines]
        script += [' '.join([str(moment_of(step) + 60), *line]).replace('\n', '\t').rstrip(' ') for line in [*lines, *(extra if number == 1 else [])]]
    done = year.program.done(['script', '--file', other, '--clerk', CLERK], given='\n'.join(script) + '\n')
    year.tally.judge(done.returncode == 0 and all(line.startswith('20') for line in done.stdout.splitlines()), f'the other office gave {done}')
    found = []
    for office in year.office_of(len(YEAR)), other:
        for number in 1, 12, len(YEAR):
            site = year.site_of(number)
            year.publish(office, LATER, site)
            found.append(contents(site))
    year.tally.judge(found[:3] == found[3:], f'two offices leave other bytes: {[others(*pair) for pair in zip(found[:3], found[3:])]}')
