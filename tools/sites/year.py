"""An office over a year, published after each step, and each time checked by all who can check it."""
import json
import pathlib
import random
import re
import shutil
import subprocess
import sys

from lib.office import CLERK, ask
from sites import history, pages
from sites.running import contents, marks, others, text_of
from sites.steps import YEAR, moment_of

TOP = pathlib.Path(__file__).resolve().parent.parent.parent
PAGES = ['index.html', 'changes.html', 'blocks.html']
# What is written although nothing changed.
ALWAYS = ['SHA256SUMS', 'index.html', 'index.json']
# What checks a site without the program.
CHECK_SITE = TOP / 'packaging/examples/check-site.py'


def whole_files(folder):
    """The files of a folder, without one that was being written when a run was killed."""
    return {name: data for name, data in contents(folder).items() if not name.endswith('.new')}


class Year:
    """An office in a file, its site, and copies of both after each step."""

    def __init__(self, program, folder):
        self.program, self.tally, self.folder = program, program.tally, folder
        self.file, self.site, self.records = folder / 'office.db', folder / 'site', []
        self.feeds = set()
        folder.mkdir()
        program.run(['init', self.file, '--clerk', CLERK], 'ready\n')

    def go(self):
        for number, step in enumerate(YEAR, 1):
            failed = self.tally.failed
            self.take(step)
            self.keep(number)
            if self.tally.failed > failed:
                print(f'this was step {number}: {step.what}', flush=True)

    # ---- What is sent

    def send(self, lines, moment):
        """Has the office answer lines of a script."""
        script = ''.join(' '.join([str(moment), *line]).replace('\n', '\t').rstrip(' ') + '\n' for line in lines)
        done = self.program.done(['script', '--file', self.file, '--clerk', CLERK], given=script)
        odd = [pair for pair in zip(lines, done.stdout.splitlines()) if not pair[1].startswith('20')]
        self.tally.judge(done.returncode == 0 and done.stdout.count('\n') == len(lines) and not odd, f'the office gave {done.stderr!r} {odd[:2]}')

    def ask(self, address, lines):
        """Sends lines over HTTP."""
        for token, method, path, body in lines:
            status, text = ask(int(address.rpartition(':')[2]), method, path, token, body)
            self.tally.judge(status in (200, 201), f'{method} {path} was answered {status} {text}')

    # ---- A step

    def take(self, step):
        moment, before = moment_of(step), contents(self.site) if self.site.exists() else {}
        marked = marks(self.site) if before else {}
        if step.how == 'restarted':
            for part in step.lines[::2], step.lines[1::2]:
                with self.program.serving(self.file, moment) as address:
                    self.ask(address, part)
        elif step.lines:
            self.send(step.lines, moment)
        if step.how == 'killed':
            self.kill(moment + 60, before)
        if step.how in ('served', 'restarted'):
            with self.program.serving(self.file, moment + 3600) as address:
                self.publish(address, moment + 3600)
        else:
            self.publish(self.file, moment + 3600)
        self.check(step, before, text_of(moment + 3600))
        if step is YEAR[-1]:
            self.tally.judge(others(marked, marks(self.site)) == ALWAYS, f'a run after which nothing changed wrote {others(marked, marks(self.site))}')

    def publish(self, source, moment, folder=None, words=()):
        """A run that does what it is to do, at a moment at which the clock stands still."""
        done = self.program.done(['publish', source, folder or self.site, *words], moment)
        good = done.returncode == 0 and re.fullmatch(r'published \d+ registries, \d+ entries, \d+ blocks\n', done.stdout) and not done.stderr
        self.tally.judge(good, f'publish gave {done}')

    def kill(self, moment, before):
        """Ends runs as soon as they have published a file: each file is whole, and the history is the old one or goes on from it."""
        middle = 0
        for path in ['changes.csv', 'registries/codes.html', 'registries/codes.xml', 'changes.html', 'index.html', 'index.json']:
            folder = self.folder / 'killed'
            shutil.copytree(self.site, folder)
            process, mark = self.program.begun(['publish', self.file, folder], moment), marks(folder).get(path)
            while process.poll() is None and self.mark_of(folder / path) == mark:
                pass
            process.kill()
            process.communicate()
            left = whole_files(folder)
            middle += left != before and left['index.json'] == before['index.json']
            self.tally.judge(left['changes.csv'].startswith(before['changes.csv']), f'an end at {path} left another history')
            history.records_of(left['changes.csv'])
            self.publish(self.file, moment + 60, folder)
            again = whole_files(folder)
            wanted = self.whole(moment + 60, left['changes.csv'])
            odd = [name for name, data in left.items() if data not in (before.get(name), wanted.get(name)) and name not in ALWAYS]
            self.tally.judge(not odd and again == wanted, f'an end at {path} left {odd}, and the next run {others(again, wanted)}')
            shutil.rmtree(folder)
        self.tally.judge(middle, 'no run was killed in its middle')

    def mark_of(self, path):
        try:
            return path.stat().st_ino, path.stat().st_mtime_ns
        except FileNotFoundError:
            return None

    def whole(self, moment, data):
        """The site that is published at a moment into a folder with nothing but this history."""
        folder = self.folder / 'whole'
        folder.mkdir()
        (folder / 'changes.csv').write_bytes(data)
        self.publish(self.file, moment, folder)
        found = contents(folder)
        shutil.rmtree(folder)
        return found

    # ---- What is checked after each step

    def check(self, step, before, moment):
        files = contents(self.site)
        try:
            records = history.judge_site(self.site, files)
            new = records[len(self.records):]
            history.judge_order(new)
        except (history.Wrong, KeyError, ValueError) as wrong:
            self.tally.judge(False, f'{type(wrong).__name__}: {wrong}')
            return
        self.tally.judge(files['changes.csv'].startswith(before.get('changes.csv', b'')), 'the history does not go on from what it was')
        changes = [(record['Register'], record['Change'], record['Value']) for record in new]
        self.tally.judge(changes == step.changes, f'recorded were {changes}, not {step.changes}')
        self.tally.judge(all(record['Moment'] == moment for record in new), f'the changes have {[record["Moment"] for record in new]}, not {moment}')
        self.records = records
        self.judge_programs()
        self.judge_readers(files, moment)

    def judge_programs(self):
        """`verify` and check-site.py find the history whole, with a digest that was noted and without one."""
        last = f', last {self.records[-1]["Digest"]}' if self.records else ''
        noted = [[], *([random.choice(self.records)['Digest'][:random.choice([16, 30, 64])]] for _ in self.records[:1])]
        for digest in noted:
            said = f'verified {len(self.records)} changes{last}\n'
            self.program.run(['verify', self.site, *(['--digest', *digest] if digest else [])], said)
            done = self.said_by_check_site(self.site, *digest)
            self.tally.judge((done.returncode, done.stdout, done.stderr) == (0, said, ''), f'check-site.py gave {done}')

    def said_by_check_site(self, site, *digest):
        """What check-site.py gives."""
        return subprocess.run([sys.executable, '-S', '-E', CHECK_SITE, str(site), *digest], capture_output=True, text=True)

    def judge_readers(self, files, moment):
        """Pages, XML and the feed are well formed and say what the history and the listings say."""
        names = history.names_of(files)
        for page in [*PAGES, *(f'registries/{name}.html' for name in names)]:
            pages.judge_page(self.tally, self.site, page)
        pages.judge_links(self.tally, self.site)
        pages.judge_changes(self.tally, self.site, self.records)
        if self.records:
            self.feeds.add(pages.judge_feed(self.tally, self.site, self.records, 'Registries'))
            self.tally.judge(len(self.feeds) == 1, f'the feed has had the ids {self.feeds}')
        index = json.loads(files['index.json'])
        self.tally.judge((index['title'], index['moment']) == ('Registries', moment), f'index.json is of {index["title"]} at {index["moment"]}')
        for name in names:
            tree = json.loads(files[f'registries/{name}.json'])
            ranges = [(history.run_text(part['lo'], part['hi']), part['treatment']) for part in tree['ranges']]
            rows = [list(row.values()) for row in history.rows_of(files[f'registries/{name}.csv'])]
            pages.judge_xml(self.tally, self.site, name, ranges, rows)
            last = [record['Moment'] for record in self.records if record['Register'] == name][-1]
            for page in f'registries/{name}.html', 'index.html':
                self.tally.judge(f'Last changed <time>{last}</time>' in files[page].decode(), f'{page} does not say that {name} was changed at {last}')

    # ---- Copies

    def keep(self, number):
        shutil.copytree(self.site, self.folder / f'site-{number}')
        for end in '', '-wal':
            path = pathlib.Path(f'{self.file}{end}')
            if path.exists():
                shutil.copy(path, self.folder / f'office-{number}.db{end}')

    def office_of(self, number):
        """A copy of the office after a step that a job may open."""
        copy = self.folder / 'copy.db'
        for end in '', '-wal':
            kept = self.folder / f'office-{number}.db{end}'
            pathlib.Path(f'{copy}{end}').unlink(missing_ok=True)
            if kept.exists():
                shutil.copy(kept, f'{copy}{end}')
        return copy

    def site_of(self, number):
        """A copy of the site after a step."""
        copy = self.folder / 'copy'
        shutil.rmtree(copy, ignore_errors=True)
        shutil.copytree(self.folder / f'site-{number}', copy, copy_function=shutil.copy2)
        return copy
