# Checks a published site with Python alone: its history, and that the JSON and the listings of its registries, its pool and its blocks are
# what the history says (docs/reference/SITE.md).
#
# usage: python3 check-site.py FOLDER [DIGEST]
#
# DIGEST is, or begins, a digest of a change that you noted. It prints what `reg_cli verify` prints, or which file, record or subject is wrong.
import csv, hashlib, json, pathlib, sys

folder, *noted = sys.argv[1:]
columns = 'Number,Moment,Register,Change,Value,Description,Policy,First,Expires,Held,Assignee,Digest'
said, shown, digests, last = {}, {}, [''], ''

def text(path):
    return open(f'{folder}/{path}', encoding='utf-8', newline='').read()

def rows(path):
    return list(csv.reader(text(path).split('\n')[1:-1]))

def check(good, what):
    good or sys.exit(f'{what} is wrong')

head, *lines, end = text('changes.csv').split('\n')
check((head, end) == (columns, ''), 'the header or the end of changes.csv')
for line in lines:
    [[number, moment, name, change, value, *rest, digest]] = csv.reader([line])
    own = hashlib.sha256((digests[-1] + line[:-64]).encode()).hexdigest()
    check((number, digest) == (str(len(digests)), own) and last <= moment, f'record {len(digests)}')
    if change == 'term':
        said[name, 'entry', value][3:5] = rest[3:5]
    else:
        said[name, change, value] = rest
    digests.append(own)
    last = moment

names = {name for name, change, _ in said if change == 'range'}
for name in names:
    page, listed = json.loads(text(f'registries/{name}.json')), []
    for one in page['ranges']:
        values = f"{one['lo']}-{one['hi']}" if one['lo'] < one['hi'] else str(one['lo'])
        shown[name, 'range', values] = [one['note'], one['treatment'], '', '', '', '']
    for one in page['entries']:
        value, label, first, expires, holder = str(one['value']), one['label'], one['first'], one.get('expires', ''), one['assignee']
        shown[name, 'entry', value] = [label, '', first, expires, 'held' if one.get('held') else '', holder]
        listed.append([value, label, first, expires, holder])
    check([[*row[:2], *row[4:]] for row in rows(f'registries/{name}.csv') if row[4]] == listed, f'registries/{name}.csv')
shown |= {('', 'prefix', digits): [''] * 6 for digits in json.loads(text('pool.json'))}
shown |= {('', 'block', row[1]): [''] * 6 for row in rows('blocks.csv')}
for what in said.keys() | shown.keys():
    check(said.get(what) == shown.get(what), what)
for file in pathlib.Path(folder, 'registries').glob('*.*'):
    name, _, ending = file.name.rpartition('.')
    check(name in names or ending not in ('json', 'csv'), file)
index = json.loads(text('index.json'))
check(index['digest'] in digests[index['changes']:][:1], 'the record of index.json')
check(all(any(own.startswith(digest) for own in digests) for digest in noted), 'the digest')
print(f'verified {len(digests) - 1} changes' + (f', last {digests[-1]}' if lines else ''))
