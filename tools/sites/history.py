"""The history of a published site, and the files that it has to agree with, read without the program.

Nothing here is taken from the program or from the page that describes the site: a mistake in one of the two is found by the other.
"""
import csv
import hashlib
import io
import json
import re
import subprocess

COLUMNS = ['Number', 'Moment', 'Register', 'Change', 'Value', 'Description', 'Policy', 'First', 'Expires', 'Held', 'Assignee', 'Digest']
# Which fields a change has besides its number, moment, change, value and digest.
HAS = {
    'range': {'Register', 'Description', 'Policy'}, 'entry': {'Register', 'Description', 'First', 'Expires', 'Held', 'Assignee'},
    'term': {'Register', 'Expires', 'Held'}, 'prefix': set(), 'block': set(),
}
MOMENT = re.compile(r'\d{4}-\d\d-\d\dT\d\d:\d\d:\d\dZ')
KINDS = ['html', 'csv', 'json', 'xml']
FILES = ['changes.csv', 'changes.html', 'changes.atom', 'blocks.html', 'blocks.csv', 'oui.csv', 'mam.csv', 'oui36.csv', 'pool.json', 'style.css',
         'index.html', 'index.json', 'SHA256SUMS']


class Wrong(Exception):
    """A history, or a file beside it, is not as it has to be."""


def wants(good, complaint):
    if not good:
        raise Wrong(complaint)


def rows_of(data):
    """The rows of a file of CSV below its header, as dictionaries."""
    return list(csv.DictReader(io.StringIO(data.decode(), newline='')))


def line_of(fields):
    """A record as CSV, with a line feed."""
    out = io.StringIO()
    csv.writer(out, lineterminator='\n').writerow(fields)
    return out.getvalue().encode()


# ---- The records

def records_of(data):
    """The records of a history, of which each was read from just its bytes, and follows from those before it."""
    wants(data.startswith(line_of(COLUMNS)) and data.endswith(b'\n'), 'changes.csv has another header, or is cut')
    records, digest, moment = [], '', ''
    for number, line in enumerate(data[:-1].split(b'\n')[1:], 1):
        [fields] = csv.reader([line.decode()])
        wants(len(fields) == len(COLUMNS) and line_of(fields) == line + b'\n', f'record {number} is written in another way')
        record = dict(zip(COLUMNS, fields))
        digest = hashlib.sha256(digest.encode() + line[:-64]).hexdigest()
        wants(record['Number'] == str(number) and record['Digest'] == digest, f'record {number} does not follow')
        wants(MOMENT.fullmatch(record['Moment']) and record['Moment'] >= moment, f'record {number} has the moment {record["Moment"]}')
        empty = {*COLUMNS[2:-1]} - HAS[record['Change']] - {'Change', 'Value'}
        wants(not any(record[name] for name in empty), f'record {number} has fields that its change has not')
        moment = record['Moment']
        records.append(record)
    return records


def said_by(records):
    """What records say in the end, by register, kind and value."""
    said = {}
    for record in records:
        kind = 'entry' if record['Change'] == 'term' else record['Change']
        what = record['Register'], kind, record['Value']
        wants((what in said) == (record['Change'] == 'term'), f'record {record["Number"]} is of what was there before, or was not')
        details = {name: record[name] for name in sorted(HAS[record['Change']])}
        wants(record['Change'] != 'term' or details != {name: said[what][name] for name in details}, f'record {record["Number"]} changes nothing')
        said[what] = {**said.get(what, {}), **details}
    return said


def place_in_run(record):
    """Where a record stands among those of one run."""
    kind, value = record['Change'], record['Value']
    if kind == 'prefix':
        return 1, int(value, 16), 0
    if kind == 'block':
        return 2, int(value.ljust(12, '0'), 16), 0
    return 0, record['Register'], 0 if kind == 'range' else 1, int(value.split('-')[0])


def judge_order(records):
    """Records of one run are in the order in which the site says that they come."""
    places = [place_in_run(record) for record in records]
    wants(all(first < second for first, second in zip(places, places[1:])), f'the run at {records[:1]} has another order')


# ---- The registers

def run_text(lo, hi):
    return f'{lo}' if lo == hi else f'{lo}-{hi}'


def shown_by(files):
    """What the registers have by their files, by register, kind and value."""
    shown = {}
    for name in names_of(files):
        page = json.loads(files[f'registries/{name}.json'])
        wants(page['name'] == name, f'{name}.json is of another registry')
        for part in page['ranges']:
            shown[name, 'range', run_text(part['lo'], part['hi'])] = {'Register': name, 'Description': part['note'], 'Policy': part['treatment']}
        for entry in page['entries']:
            shown[name, 'entry', str(entry['value'])] = {
                'Register': name, 'Description': entry['label'], 'First': entry['first'], 'Expires': entry.get('expires', ''),
                'Held': 'held' if entry.get('held') else '', 'Assignee': entry['assignee']}
        judge_listing(page, rows_of(files[f'registries/{name}.csv']))
    shown |= {('', 'prefix', digits): {} for digits in json.loads(files['pool.json'])}
    return shown | {('', 'block', row['Assignment']): {} for row in rows_of(files['blocks.csv'])}


def names_of(files):
    return sorted(path.removeprefix('registries/').removesuffix('.json') for path in files if path.startswith('registries/') and path.endswith('.json'))


def judge_listing(page, rows):
    """The listing of a registry has its entries, in rows that cover each value once."""
    entries = [[str(entry['value']), entry['label'], entry['status'], entry['first'], entry.get('expires', ''), entry['assignee']] for entry in page['entries']]
    listed = [[row['Value'], row['Description'], row['Status'], row['First'], row['Expires'], row['Assignee']] for row in rows if row['First']]
    wants(entries == listed, f'{page["name"]}.csv has other entries than {page["name"]}.json')
    runs = [[int(end) for end in (row['Value'].split('-') * 2)[:2]] for row in rows]
    ends = [-1, *(hi for _, hi in runs)]
    wants([lo for lo, _ in runs] == [end + 1 for end in ends[:-1]] and ends[-1] == page['max'], f'{page["name"]}.csv does not cover its values')


# ---- The whole site

def judge_site(folder, files):
    """The files of a site agree with its history, and with one another. Gives the records."""
    records = records_of(files['changes.csv'])
    said, shown = said_by(records), shown_by(files)
    odd = sorted(what for what in said.keys() | shown.keys() if said.get(what) != shown.get(what))
    wants(not odd, f'the history and the registers differ at {odd[:3]}')
    wanted = {*FILES, *(f'registries/{name}.{kind}' for name in names_of(files) for kind in KINDS)}
    wants({*files} == wanted, f'the files are others: {sorted({*files} ^ wanted)}')
    judge_blocks(files)
    judge_index(files, records)
    judge_sums(folder, files)
    return records


def judge_blocks(files):
    """IEEE's three files have the rows of the listing of the blocks by their sizes."""
    lines = files['blocks.csv'].splitlines(keepends=True)
    for path, size in [('oui.csv', b'MA-L'), ('mam.csv', b'MA-M'), ('oui36.csv', b'MA-S')]:
        wants(files[path] == b''.join([lines[0], *(line for line in lines[1:] if line.startswith(size + b','))]), f'{path} has other rows')


def judge_index(files, records):
    """The index for programs names the last record, and each register with its files, its counts and its last change."""
    index = json.loads(files['index.json'])
    last = records[-1]['Digest'] if records else ''
    wants((index['changes'], index['digest']) == (len(records), last), f'index.json names record {index["changes"]}')
    wants(MOMENT.fullmatch(index['moment']) and all(record['Moment'] <= index['moment'] for record in records), f'index.json has the moment {index["moment"]}')
    wants([row['name'] for row in index['registers']] == names_of(files), 'index.json has other registers')
    for row in index['registers']:
        name = row['name']
        wants(row['files'] == [f'registries/{name}.{kind}' for kind in KINDS], f'index.json has other files of {name}')
        own = [record['Moment'] for record in records if record['Register'] == name]
        wants(row['changed'] == own[-1], f'index.json: {name} was changed at {row["changed"]}')
        statuses = [one['Status'] for one in rows_of(files[f'registries/{name}.csv'])]
        counts = [row['assigned'], row['temporary'], row['expired']]
        wants(counts == [statuses.count(word) for word in ('Assigned', 'Temporary', 'Expired')], f'index.json: {name} has the counts {counts}')


def judge_sums(folder, files):
    """The sums are those of all other files, by name, and sha256sum takes them."""
    said = dict(line.split('  ')[::-1] for line in files['SHA256SUMS'].decode().splitlines())
    wants(said == {path: hashlib.sha256(data).hexdigest() for path, data in files.items() if path != 'SHA256SUMS'}, 'SHA256SUMS has other sums')
    done = subprocess.run(['sha256sum', '--strict', '--quiet', '-c', 'SHA256SUMS'], cwd=folder, capture_output=True, text=True)
    wants((done.returncode, done.stdout, done.stderr) == (0, '', ''), f'sha256sum gave {done}')
