"""Pages, feeds and files in XML of a published site, read as a browser, a feed reader and a parser read them."""
import html.parser
import re
import subprocess
import xml.etree.ElementTree

from sites.running import SECONDS

VOID = {'meta', 'link', 'rect', 'br', 'hr', 'img', 'input', 'wbr', 'col'}
# The policies by the words of range files, and by the names of RFC 8126.
NAMES = {
    'private-use': 'Private Use', 'experimental-use': 'Experimental Use', 'hierarchical-allocation': 'Hierarchical Allocation',
    'first-come-first-served': 'First Come First Served', 'expert-review': 'Expert Review', 'specification-required': 'Specification Required',
    'rfc-required': 'RFC Required', 'ietf-review': 'IETF Review', 'standards-action': 'Standards Action', 'iesg-approval': 'IESG Approval',
    'reserved': 'Reserved', '': '',
}


# ---- Pages

class Page(html.parser.HTMLParser):
    """A page that is read strictly: each element is closed in its turn. It keeps the texts of its tables, row by row, and its links."""

    def __init__(self, text):
        super().__init__(convert_charrefs=True)
        self.open, self.tags, self.faults, self.ids, self.links = [], set(), [], [], []
        self.tables, self.cell, self.texts, self.source = [], None, [], text
        self.feed(text)
        self.close()
        if self.open:
            self.faults.append(f'these are not closed: {self.open}')

    def handle_starttag(self, tag, attributes):
        self.tags.add(tag)
        names = [name for name, _ in attributes]
        if len({*names}) < len(names) or any(value is None for _, value in attributes) or any(name.startswith('on') for name in names):
            self.faults.append(f'{tag} has {attributes}')
        self.ids += [value for name, value in attributes if name == 'id']
        self.links += [value for name, value in attributes if name == 'href']
        if tag == 'table':
            self.tables.append([])
        if tag == 'tr':
            self.tables[-1].append([])
        if tag in ('td', 'th'):
            self.cell = []
        if tag not in VOID:
            self.open.append(tag)

    def handle_startendtag(self, tag, attributes):
        self.handle_starttag(tag, attributes)
        if tag not in VOID:
            self.open.pop()

    def handle_endtag(self, tag):
        if tag in VOID:
            return
        if not self.open or self.open.pop() != tag:
            self.faults.append(f'</{tag}> closes nothing')
        if tag in ('td', 'th') and self.cell is not None:
            self.tables[-1][-1].append(''.join(self.cell))
            self.cell = None

    def handle_data(self, data):
        self.texts.append(data)
        if self.cell is not None:
            self.cell.append(data)


def judge_page(tally, site, path):
    text = (site / path).read_text()
    page = Page(text)
    tally.judge(not page.faults, f'{path}: {page.faults[:3]}')
    tally.judge('script' not in page.tags and 'onerror' not in page.tags, f'{path} has {page.tags}')
    tally.judge(len({*page.ids}) == len(page.ids), f'{path} has an anchor twice')
    tally.judge('<html lang="en">' in text and '<caption>' in text + '<caption>' * ('<table' not in text), f'{path} has no language or caption')
    feed = '../changes.atom' if '/' in path else 'changes.atom'
    tally.judge(f'<link rel="alternate" type="application/atom+xml" href="{feed}">' in text, f'{path} does not name the feed')
    done = subprocess.run(['tidy', '-q', '-e', '--drop-empty-elements', 'no', str(site / path)], capture_output=True, text=True, timeout=SECONDS)
    tally.judge(done.returncode == 0, f'{path}: tidy says {done.stderr[:600]}')


def judge_links(tally, site):
    """Each link of a page or a feed into the site leads to a file, and to an anchor if it names one."""
    ids = {path: {*Page(path.read_text()).ids} for path in site.rglob('*.html')}
    links = [(path, link) for path in ids for link in Page(path.read_text()).links]
    links += [(site / 'changes.atom', link.get('href')) for link in xml.etree.ElementTree.parse(site / 'changes.atom').iter(f'{ATOM}link')]
    for path, link in links:
        name, _, anchor = link.partition('#')
        target = (path.parent / name).resolve() if name else path
        leads = link.startswith(('https://', 'http://')) or target.is_file() and (not anchor or anchor in ids.get(target, ()))
        if not leads:
            tally.judge(False, f'{path.name} has a link to {link}')
            return
    tally.judge(True, '')


MADE = {'range': 'registry defined', 'entry': 'assigned', 'prefix': 'prefix added', 'block': 'block assigned'}


def said(record):
    """What a change did, in the words of the page and of the feed."""
    if record['Change'] in MADE:
        return MADE[record['Change']]
    if not record['Expires']:
        return 'now permanent'
    return 'now held' if record['Held'] else f'now until {record["Expires"]}'


def shown_records(records):
    """The last 200 records, the newest first, without the ranges of a registry but its first, which stands for the registry."""
    return [record for record in records[:-201:-1] if record['Change'] != 'range' or record['Value'].partition('-')[0] == '0']


def texts_of(record):
    """The register, the value and the description that are shown of a change."""
    return ('', record['Register'], '') if record['Change'] == 'range' else (record['Register'], record['Value'], record['Description'])


def judge_changes(tally, site, records):
    """The page of the changes has the last 200 below their months, the newest first, each linked to what was changed."""
    page = Page((site / 'changes.html').read_text())
    shown = [tuple(row) for table in page.tables for row in table[1:]]
    wanted, month = [], ''
    for record in shown_records(records):
        register, value, description = texts_of(record)
        if record['Moment'][:7] != month:
            month = record['Moment'][:7]
            wanted.append((month,))
        wanted.append((record['Number'], record['Moment'], register, said(record), value, description))
    tally.judge(shown == wanted, f'changes.html shows {len(shown)} rows: {shown[:2]}, not {wanted[:2]}')


# ---- Chromium

def chromium(words):
    return subprocess.run(['chromium', '--headless', '--no-sandbox', '--disable-gpu', '--disable-dev-shm-usage', '--hide-scrollbars', *words],
                          capture_output=True, text=True, timeout=SECONDS)


def shown(name, rows, held):
    """The rows of the listing of a registry as its page shows them, with these entries held, and no references."""
    head = [{'First': 'Since'}.get(field, field) for field in rows[0]]
    return [[*head[:2], 'Reference', *head[2:]],
            *([value, words, '', 'Temporary (held)' if (name, value) in held else status, NAMES[policy], *rest]
              for value, words, status, policy, *rest in rows[1:])]


def by_prefix(rows):
    """The rows of the listing of the blocks as their page shows them: each prefix stands above its blocks."""
    head, *blocks = rows
    shown = [head]
    for before, block in zip([None, *blocks], blocks):
        if before is None or before[1][:6] != block[1][:6]:
            shown.append([block[1][:6]])
        shown.append(block)
    return shown


def judge_table(tally, site, path, rows):
    """What Chromium makes of a page has a table with just these rows."""
    done = chromium(['--dump-dom', (site / path).as_uri()])
    page = Page(done.stdout)
    tables = [table for table in page.tables if table and table[0] == rows[0]]
    tally.judge(len(tables) == 1, f'{path}: Chromium shows {[table[:1] for table in page.tables]}')
    if tables:
        odd = [pair for pair in zip(tables[0], rows) if pair[0] != pair[1]]
        tally.judge(tables[0] == rows, f'{path}: Chromium shows {len(tables[0])} rows of {len(rows)}: {odd[:2]}')
    tally.judge('script' not in page.tags, f'{path}: there is a script for Chromium')


def take_pictures(tally, site, paths, folder):
    """Pictures of pages, at two widths, light and dark. A narrow page stands in a frame, since no window is as narrow."""
    folder.mkdir(parents=True, exist_ok=True)
    for page in paths:
        for width, height in [(1280, 1600), (390, 1600)]:
            frame = site.parent / 'frame.html'
            frame.write_text(f'<!DOCTYPE html><body style="margin:0"><iframe src="{site.name}/{page}" width="{width}" height="{height}" style="border:0">')
            for look, number in [('light', 1), ('dark', 0)]:
                picture = folder / f'{page.replace("/", "-").removesuffix(".html")}-{width}-{look}.png'
                picture.unlink(missing_ok=True)
                chromium([f'--screenshot={picture}', f'--window-size={max(width, 600)},{height}', f'--blink-settings=preferredColorScheme={number}',
                          '--allow-file-access-from-files', frame.as_uri()])
                tally.judge(picture.exists(), f'there is no picture {picture}')


# ---- XML

IANA, ATOM = '{http://www.iana.org/assignments}', '{http://www.w3.org/2005/Atom}'


def well_formed(tally, path):
    """The root of a file that xmllint takes."""
    done = subprocess.run(['xmllint', '--noout', '--nonet', str(path)], capture_output=True, text=True, timeout=SECONDS)
    tally.judge(done.returncode == 0, f'{path.name}: xmllint says {done.stderr[:600]}')
    return xml.etree.ElementTree.parse(path).getroot()


def judge_xml(tally, site, name, ranges, rows):
    """The registry in IANA's form has these ranges, by values and policies, and records of the rows of its listing."""
    registry = well_formed(tally, site / f'registries/{name}.xml')
    tally.judge((registry.tag, registry.get('id')) == (f'{IANA}registry', name), f'{name}.xml is of {registry.tag} {registry.get("id")}')
    found = [(item.findtext(f'{IANA}value'), item.findtext(f'{IANA}registration_rule')) for item in registry.iter(f'{IANA}range')]
    tally.judge(found == [(values, NAMES[policy]) for values, policy in ranges], f'{name}.xml has the ranges {found}')
    records = [(item.findtext(f'{IANA}value'), item.get('date', ''), item.findtext(f'{IANA}description')) for item in registry.iter(f'{IANA}record')]
    tally.judge([record[:2] for record in records] == [(row[0], row[4]) for row in rows], f'{name}.xml has other records')
    said = [record[2] == row[1] for record, row in zip(records, rows) if row[2] == 'Assigned']
    tally.judge(all(said), f'{name}.xml describes {said.count(False)} entries in other words')
    early = [record[2].startswith(f'{row[1]} ({row[2].upper()} - registered {row[4]}, expires {row[5]}') for record, row in zip(records, rows)
             if row[2] in ('Temporary', 'Expired')]
    tally.judge(all(early), f'{name}.xml describes {early.count(False)} early allocations in other words')


# ---- The feed

# The elements that a feed and an entry may have here, and how often (RFC 4287, sections 4.1.1 and 4.1.2).
FEED = {'id': (1, 1), 'title': (1, 1), 'updated': (1, 1), 'author': (1, 9), 'link': (0, 1), 'entry': (0, 100)}
ENTRY = {'id': (1, 1), 'title': (1, 1), 'updated': (1, 1), 'link': (1, 1), 'summary': (0, 1)}
# A date as RFC 3339 has it (section 5.6), and what begins an IRI that is not relative.
DATE, ABSOLUTE = re.compile(r'\d{4}-(0\d|1[0-2])-([0-2]\d|3[01])T([01]\d|2[0-3]):[0-5]\d:([0-5]\d|60)(\.\d+)?(Z|[+-]\d\d:\d\d)'), re.compile(r'[A-Za-z][A-Za-z0-9+.-]*:\S+')


def element_faults(element, allowed):
    """Where an element of a feed has children that it may not have, lacks one, or has a date or an id in another form."""
    tags = [child.tag for child in element]
    yield from (f'has {tag}' for tag in {*tags} - {f'{ATOM}{name}' for name in allowed})
    yield from (f'has {tags.count(ATOM + name)} of {name}' for name, (least, most) in allowed.items() if not least <= tags.count(ATOM + name) <= most)
    yield from (f'has the id {child.text}' for child in element.findall(f'{ATOM}id') if not ABSOLUTE.fullmatch(child.text or ''))
    yield from (f'has the date {child.text}' for child in element.findall(f'{ATOM}updated') if not DATE.fullmatch(child.text or ''))
    yield from (f'has a link {link.attrib}' for link in element.findall(f'{ATOM}link') if not link.get('href') or {*link.attrib} - {'href', 'rel', 'type'})
    yield from ('has text between its elements' for text in [element.text, *(child.tail for child in element)] if (text or '').strip())


def judge_feed(tally, site, records, title):
    """The feed is one of RFC 4287, and has the last 100 changes, the newest first."""
    feed = well_formed(tally, site / 'changes.atom')
    entries = feed.findall(f'{ATOM}entry')
    faults = [*element_faults(feed, FEED), *(fault for entry in entries for fault in element_faults(entry, ENTRY))]
    faults += ['an author has no name' for author in feed.findall(f'{ATOM}author') if not author.findtext(f'{ATOM}name')]
    tally.judge(feed.tag == f'{ATOM}feed' and not faults, f'changes.atom: {feed.tag} {faults[:3]}')
    ids = [feed.findtext(f'{ATOM}id'), *(entry.findtext(f'{ATOM}id') for entry in entries)]
    tally.judge(len({*ids}) == len(ids), 'changes.atom has an id twice')
    last = shown_records(records)[:100]
    told = [(entry.findtext(f'{ATOM}id'), entry.findtext(f'{ATOM}updated'), entry.findtext(f'{ATOM}summary') or '') for entry in entries]
    tally.judge(told == [(f'urn:sha256:{record["Digest"]}', record['Moment'], texts_of(record)[2]) for record in last], f'changes.atom has {told[:2]}')
    titles = [entry.findtext(f'{ATOM}title') for entry in entries]
    wanted = [f'{" ".join(texts_of(record)[:2])}: {said(record)}'.lstrip() for record in last]
    tally.judge(titles == wanted, f'changes.atom has the titles {titles[:2]}, not {wanted[:2]}')
    tally.judge(feed.findtext(f'{ATOM}title') == title, f'changes.atom has the title {feed.findtext(f"{ATOM}title")}')
    tally.judge(not last or feed.findtext(f'{ATOM}updated') == last[0]['Moment'], 'changes.atom was updated at another moment')
    return ids[0]
