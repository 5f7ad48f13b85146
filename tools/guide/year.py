"""An office that the page sets up, and that is served for a year by a clock that goes on day by day."""
import collections
import csv
import datetime
import io
import json
import math
import os
import re
import shlex
import subprocess
import time

from guide.books import DAYS, EVE, FIRST, HOLDERS, UPGRADE, Books, day_of
from guide.page import BEFORE, take
from guide.system import DATABASE, KEY, MAIL, OFFICE, PAGE, TIMERS, TOP, blocks
from sites import history
from sites.running import contents
from sites.steps import RANGES

PUBLIC, SITE, COPIES = 'https://registry.example.org', 'srv/www/registers', 'var/backups/registry'
# Where files have the time of the clock, since the machine gives them its own.
DATED = [SITE, 'var/lib/registry/site']
# Each process reads the clock's difference from that of the machine whenever it asks for the time. The journal keeps the machine's time.
CLOCK = {'LD_PRELOAD': '/usr/$LIB/faketime/libfaketime.so.1', 'FAKETIME_TIMESTAMP_FILE': '/etc/clock', 'FAKETIME_NO_CACHE': '1',
         'FAKETIME_DONT_FAKE_MONOTONIC': '1', 'NO_FAKE_STAT': '1', 'FAKETIME_SKIP_CMDS': 'journalctl'}
# A day takes about a second, and by itself systemd starts a job only five times in ten.
OFTEN = '[Unit]\nStartLimitIntervalSec=0\n'
# The blocks that set up an office, by their headings.
SETUP = {'As a service': range(9), 'A proxy with TLS': [0, 1], 'Publishing': range(3), 'The desk in the browser': range(9), 'Monitoring': range(9)}
# When the jobs of timers are run that are due then: the second on the first day of a month, and people send their requests before the last.
MORNING, EVENING = ['04:30', '06:00'], '20:20'
# The office's own file as the version before left it. It had no journal.
OLDER = f'runuser -u registry -- sqlite3 {DATABASE} "DROP TABLE journal; UPDATE office SET version = 3"'
LOGS = 'journalctl -q --rotate; logrotate --force /etc/logrotate.d/nginx'
HOOK = re.search(r'--deploy-hook "([^"]*)"', PAGE.read_text())[1]
REACHED = re.search(r"`(curl [^`]*cannot be reached[^`]*)`", PAGE.read_text())[1]
# The clients here trust the new certificate alone, so they wait until nginx has it.
RENEW = f'{KEY}; {HOOK}; for n in $(seq 50); do curl -sf -o /dev/null {PUBLIC}/registries && break; sleep 0.2; done'
PROCESS = 'systemctl show -p MainPID --value registry'
# What each timer of the package says of itself.
DUE = {name: re.search('OnCalendar=(.*)', (TOP / f'packaging/units/{name}.timer').read_text())[1] for name in TIMERS}


def commands(heading, place):
    """The commands of a block, with what each has to print."""
    [found] = [block for own, block in blocks() if own == (heading, place)]
    return found


def command(*parts):
    """The one command of the page that has these parts."""
    [found] = {line for _, block in blocks() for line, _ in block if '\n' not in line and all(part in line for part in parts)}
    return found


def is_due(calendar, moment):
    """Whether a timer is due at a moment: every some minutes, or on the first day of each month."""
    every, first = re.fullmatch(r'\*:0/(\d+)', calendar), re.fullmatch(r'\*-\*-01 (\d\d:\d\d)', calendar)
    return moment.minute % int(every[1]) == 0 if every else f'{moment:%d %H:%M}' == f'01 {first[1]}'


def kept(moments, now):
    """Of the moments of copies, newest first, those that are kept: all of three hours, the last of each hour of a day and of each day of a month."""
    seen = set()
    for moment in moments:
        ago = now - moment
        form = '%c' if ago <= datetime.timedelta(hours=3) else '%F %H' if ago <= datetime.timedelta(days=1) else '%F'
        if moment.date() >= now.date() - datetime.timedelta(31) and moment.strftime(form) not in seen:
            seen.add(moment.strftime(form))
            yield moment


def rows_of(text):
    return list(csv.reader(io.StringIO(text)))[1:]


class Year:
    """The office, its books, the processes that served it with their first days, and how often the job of each timer was run."""

    def __init__(self, system):
        self.system, self.root, self.judge = system, system.root, system.tally.judge
        self.books, self.processes, self.digest, self.moment, self.copied = Books(), [], '', None, []
        self.ran = collections.Counter()

    # ---- The clock

    def set_clock(self, day, text):
        """Sets the clock of the service and of all commands, to less than a second after this time.

        What libfaketime leaves in memory is removed: numbers of processes come again.
        """
        self.moment = datetime.datetime.fromisoformat(f'{day} {text}+00:00')
        (self.root / 'etc/clock').write_text(f'{math.ceil(self.moment.timestamp() - time.time()):+}\n')
        for left in (self.root / 'dev/shm').glob('*faketime*'):
            left.unlink()

    def expect(self, line, wanted=''):
        """Runs a command, and gives the files that it wrote the time of the clock: the machine gave them its own."""
        began = time.time_ns()
        printed = self.system.expect(line, wanted)
        for top in DATED:
            for path in (self.root / top).rglob('*'):
                if path.lstat().st_ctime_ns >= began:
                    os.utime(path, (self.moment.timestamp(),) * 2, follow_symlinks=False)
        return printed

    def judge_same(self, what, got, wanted):
        """Two texts, numbers or lists are the same. Of lists only the first differences are printed."""
        shown = [[one for one in first if one not in second][:3] for first, second in ((got, wanted), (wanted, got))] if isinstance(got, list) else [got, wanted]
        self.judge(got == wanted, f'{self.moment}: {what} gave {shown[0]}, not {shown[1]}')

    # ---- The office before the year

    def set_up(self):
        """Sets up the office by the page, on the last day of the year before."""
        for name in ('registry', *TIMERS):
            unit = self.root / f'etc/systemd/system/{name}.service.d/clock.conf'
            unit.parent.mkdir()
            unit.write_text(OFTEN * (name in TIMERS) + '[Service]\n' + ''.join(f'Environment={word}={value}\n' for word, value in CLOCK.items()))
        self.system.clock = CLOCK
        self.set_clock(EVE, '09:00')
        for place, block in blocks():
            if place == ('Tokens', 0):
                for account in (*HOLDERS, 'xan'):
                    self.grant(account, 'expert' if account == 'xan' else 'applicant')
            elif place[1] in SETUP.get(place[0], ()):
                for step in (*BEFORE.get(place, ()), *block):
                    take(self, step)
        self.copied = [self.moment]
        self.bring_in()

    def bring_in(self):
        """Brings in a registry, as the page says of the served office."""
        most, ranges = RANGES['bits']
        (self.root / 'root/ranges.csv').write_bytes(b''.join(map(history.line_of, [('lo', 'hi', 'treatment', 'note'), *ranges])))
        (self.root / 'root/old.csv').write_text(self.books.brought_in())
        self.expect('systemctl stop registry; install -m 400 -o registry -g registry clerk.token ranges.csv old.csv /var/lib/registry')
        for line, wanted in commands('Importing a registry', 0)[3:-1]:
            own = line.replace('moved.db', 'office.db').replace(' codes', ' bits').replace(' 255 ', f' {most} ')
            own = f'cd /var/lib/registry; runuser -u registry -- sh -c {shlex.quote(own)}'
            self.expect(own, str(3 * len(self.books.entries)) if wanted == '9' else wanted.replace('codes', 'bits'))
        self.expect('rm ranges.csv old.csv; cd /var/lib/registry; rm clerk.token ranges.csv old.csv answers.txt')
        self.expect('systemctl start registry')

    # ---- Tokens

    def grant(self, account, kind='applicant', until='2030-01-01'):
        """Gives an account a token by the page, whose owner keeps it as ACCOUNT.head."""
        moment = int(datetime.datetime.fromisoformat(f'{until}T00:00+00:00').timestamp())

        def own(text):
            return text.replace('alice', account).replace('applicant', kind).replace('2030-01-01', until).replace('1893456000', str(moment))

        for line, wanted in commands('Tokens', 0):
            self.expect(own(line), own(wanted))
        self.expect(command('>clerk.head', 'clerk.token').replace('clerk', account))
        self.expect(own(command('shred -u alice.token')))

    def listed_tokens(self, account):
        """The capabilities of an account, as clerks see them."""
        told = json.loads(self.expect(command('-H @clerk.head http://127.0.0.1:880/desk/tokens')))
        return [row for row in told if row['account'] == account]

    def judge_token(self, account, status, head=''):
        """The token in a file of curl's is answered with this status."""
        address = f'{OFFICE}/desk/counts' if account == 'clerk' else f'{PUBLIC}/requests'
        self.expect(f"curl -s -o /dev/null -w '%{{http_code}}\\n' -H @{head or account}.head {address}", status)

    def replace_token(self, month):
        """A person loses a token, or leaves and comes again: the old one is taken away in one of the ways of the page."""
        account, ways = HOLDERS[month % 3], [self.take_digits, self.take_account, self.take_by_job, self.take_account_by_job]
        self.expect(f'cp {account}.head old.head')
        ways[month % len(ways)](account, self.listed_tokens(account))
        self.grant(account)
        self.judge_token(account, '401', 'old')
        self.judge_token(account, '200')
        self.expect('rm old.head')

    def valid_one(self, listed):
        """The one capability that is valid: those with which a register was brought in are over."""
        [found] = [row for row in listed if row['until'] > self.moment.timestamp()]
        return found

    def take_digits(self, account, listed):
        line, found = command('-X DELETE http://127.0.0.1:880/desk/tokens/'), self.valid_one(listed)
        told = self.expect(re.sub('[0-9a-f]{12}$', found['digest'], line))
        self.judge_same(line, json.loads(told), [found])

    def take_account(self, account, listed):
        line = command('-X DELETE http://127.0.0.1:880/desk/accounts/')
        told = self.expect(line.replace('alice', account))
        self.judge_same(line, json.loads(told), listed)

    def by_job(self, words, wanted):
        """Has the job `revoke` take away what the job `tokens` lists."""
        line = command('reg_cli tokens')
        before, told = rows_of(self.expect(line)), rows_of(self.expect(line.replace('tokens', 'revoke', 1) + words))
        after = rows_of(self.expect(line))
        self.judge_same(f'revoke{words}', [[row[0], row[3]] for row in told], [[row['account'], row['digest']] for row in wanted])
        self.judge_same('tokens', sorted(after + told), sorted(before))

    def take_by_job(self, account, listed):
        found = self.valid_one(listed)
        self.by_job(f' --digest {found["digest"]}', [found])

    def take_account_by_job(self, account, listed):
        self.by_job(f' --account {account}', listed)

    def replace_clerk(self):
        """The clerk's token is replaced by the page, which is done once a year. It cannot take away itself."""
        self.expect('cp clerk.head old.head')
        for line, wanted in commands('Tokens', 3):
            self.expect(line, wanted)
        self.judge_token('clerk', '401', 'old')
        self.judge_token('clerk', '200')
        self.expect('rm old.head')
        line = command('-X DELETE http://127.0.0.1:880/desk/accounts/')
        self.expect(line.replace('alice', 'clerk'), '{"error":"own"}')

    # ---- A day

    def go(self):
        self.set_clock(EVE, EVENING)
        self.run_timers()
        for number in range(DAYS):
            failed = self.system.tally.failed
            try:
                self.live(number)
            except (ValueError, OSError, subprocess.SubprocessError) as fault:
                self.judge(False, f'{self.moment}: the day ended with {type(fault).__name__}: {fault}')
            if self.system.tally.failed > failed:
                print(f'this was {self.books.day}', flush=True)

    def live(self, number):
        """A day: the morning, what is done once in a while, the requests of people, and the evening."""
        day = self.books.day = day_of(number)
        for text in MORNING if day.day == 1 else MORNING[:1]:
            self.step(text)
        self.judge_registers()
        if day == UPGRADE:
            self.upgrade()
        self.once_in_a_while(number)
        self.set_clock(day, '20:15')
        self.send(self.books.lines(number))
        self.step(EVENING)
        self.judge_registers()
        self.judge_copy()
        if day_of(number + 1).day == 1:
            self.end_month()

    def step(self, text):
        """What is due at a time is run, and the office answers: the probe of the page prints nothing."""
        self.set_clock(self.books.day, text)
        self.run_timers()
        status, process = self.expect(f"{REACHED}; curl -s -o /dev/null -w '%{{http_code}}\\n' {PUBLIC}/registries/bits; {PROCESS}").split('\n')[:2]
        self.judge_same('a probe', status, '200')
        if [process] != [last for _, last in self.processes[-1:]]:
            self.processes.append((self.books.day, process))

    def run_timers(self):
        """Runs the jobs of the timers that are due. They mail nothing, except the list of the first of a month."""
        for name, calendar in DUE.items():
            if is_due(calendar, self.moment):
                mailed = self.expect(f'truncate -s 0 {MAIL}; systemctl start {name}; cat {MAIL}')
                self.ran[name] += 1
                if name == 'registry-due':
                    self.judge_same('the mail', rows_of(mailed), self.books.due(60))
                else:
                    self.judge_same(name, mailed, '')
                if name == 'registry-publish':
                    self.copied = [*kept([self.moment, *self.copied], self.moment)]

    def send(self, lines):
        """Has people send requests by curl, applicants and experts through the proxy, each with their own token."""
        sent = []
        for token, method, path, body in lines:
            account = token.partition('-')[0]
            address = (OFFICE if account == 'clerk' else PUBLIC) + path
            sent.append(f"curl -s -o /dev/null -w '%{{http_code}}\\n' -H @{account}.head -X {method} --data-binary {shlex.quote(body)} {address}")
        wanted = ['201' if line[1] == 'PUT' and line[2].startswith('/requests/') else '200' for line in lines]
        if sent:
            self.expect('\n'.join(sent), ', '.join(wanted))

    # ---- What is compared each day

    def judge_registers(self):
        """Listings, pages and `due` show what was sent, with the status of the day."""
        for name in sorted({name for name, _ in self.books.entries}):
            rows = rows_of(self.expect(f'curl -s {OFFICE}/listings/registries/{name}'))
            self.judge_same(f'the listing of {name}', [row[:3] + row[4:] for row in rows if row[4]], self.books.listed(name))
            page = (self.root / SITE / f'registries/{name}.html').read_text()
            shown = re.findall(r'<tr id="v(\d+)">.*?</th><td>.*?</td><td>.*?</td><td>(.*?)</td><td>[^<]*</td><td>\d', page)
            self.judge_same(f'the page of {name}', shown, self.books.shown(name))
        self.judge_same('due', rows_of(self.expect(command('reg_cli due'))), self.books.due(30))

    def judge_copy(self):
        """The copy of the day is well kept and has what the office counts. Copies of a month are there."""
        copies = sorted(path.name for path in (self.root / COPIES).glob('2*'))
        checked = self.expect(f'reg_cli check /{COPIES}/{copies[-1]}/office.db', 'version 4, well kept, ..')
        counted = {word: int(count) for word, count in re.findall(r'^(\w+) (\d+)$', checked, re.M)}
        told = json.loads(self.expect(command('/desk/counts')))
        self.judge_same('counts', told, {word: count for word, count in counted.items() if word in told})
        self.judge_same('pending', self.expect(command('/desk/pending')).strip(), str(self.books.waiting))
        self.judge_same('check', counted.get('pending'), self.books.waiting)
        self.judge_same('copies', [name[:16] for name in copies], [f'{moment:%Y-%m-%dT%H-%M}' for moment in reversed(self.copied)])

    # ---- What is done once in a while

    def once_in_a_while(self, number):
        day = self.books.day
        if number % 60 == 59:
            self.expect(RENEW)
        if day.day == 15:
            self.replace_token(day.month)
        if (day.month, day.day) == (9, 1):
            self.replace_clerk()
        if (day.month, day.day) == (2, 1):
            self.grant('dora', until=f'{day.year}-04-01')
        if (day.month, day.day) in ((3, 31), (4, 1)):
            self.judge_token('dora', '200' if day.month == 3 else '401')
        if (day.month, day.day) == (4, 1):
            self.expect('rm dora.head')

    def upgrade(self):
        """The upgrade of the page, from the file that the version before left. Nobody reaches the office meanwhile."""
        self.expect('systemctl stop registry')
        self.expect(REACHED, 'The office cannot be reached.')
        self.expect(OLDER)
        for line, wanted in commands('Upgrade', 0):
            self.expect(line, wanted)
        self.expect('systemctl start registry')

    def end_month(self):
        """Each copy is still well kept, the last one is restored, the site verified, also without the program, a mirror made, and logs are rotated."""
        self.expect(f'for copy in /{COPIES}/2*; do reg_cli check $copy/office.db; done | grep -c "^well kept"', str(len([*(self.root / COPIES).glob('2*')])))
        checked, restored, drill = (line for line, _ in commands('Backups', 0))
        for path in ('/registries', '/listings/registries/bits', '/listings/registries/codes'):
            self.expect(f'{checked}; {restored}', 'version 4, well kept, ..')
            printed = self.expect(drill.replace('/registries)', f'{path})'))
            self.judge_same('the restored copy', printed, 'listening on 127.0.0.1:8090\n' + self.expect(f'curl -s {OFFICE}{path}'))
        self.judge_history()
        self.expect(LOGS)

    def judge_history(self):
        """Each public change is in the history with its day, and nothing else."""
        folder = self.root / SITE
        try:
            records = history.judge_site(folder, contents(folder))
        except (history.Wrong, KeyError, ValueError) as wrong:
            self.judge(False, f'{self.moment}: {type(wrong).__name__}: {wrong}')
            return
        recorded = [(record['Moment'][:10], record['Register'], record['Change'], record['Value']) for record in records]
        self.judge_same('the history', sorted(recorded), sorted(self.books.changes))
        said, noted = f'verified {len(records)} changes, last {records[-1]["Digest"]}', self.digest and f' --digest {self.digest}'
        [[verify, _]] = commands('Publishing', 1)
        self.expect(verify + noted, said)
        for line, wanted in commands('Publishing', 3):
            self.expect(line, wanted and said)
        self.digest = records[-1]['Digest'][:16]

    # ---- The end of the year

    def lying(self):
        """The files of people and jobs, without those that an office, its site, its copies and its mirror have. The machine may have hidden ones."""
        tops = ['tmp', 'var/lib/registry', 'etc/reg-cli', 'srv']
        paths = [*(self.root / 'root').glob('[!.]*'), *(path for top in tops for path in (self.root / top).rglob('*'))]
        names = {str(path.relative_to(self.root)) for path in paths if path.is_file()}
        return {name for name in names if not name.startswith(('srv/www/registers/', 'srv/mirror/', 'var/lib/registry/site/'))}

    def judge_end(self, before):
        """One stop, one process, and nothing that lies about."""
        self.judge_same('the processes', [day for day, _ in self.processes], [FIRST, UPGRADE])
        often = DAYS * 2 + DAYS // 30 + 1
        self.judge_same('the timers', self.ran, {'registry-publish': often, 'registry-watch': often, 'registry-due': DAYS // 30})
        self.judge_same('the new files', sorted(self.lying() - before), [])
        self.judge_same('files that are half written', [str(path) for path in (self.root / SITE).rglob('*.new')], [])
        self.expect(command('NRestarts'), '0')
        self.expect('ps -u registry -o args=', '/usr/bin/reg_cli serve /var/lib/registry/office.db --port 880 --log')
        self.expect('systemctl is-active registry nginx; systemctl is-failed registry-alert@registry || true', 'active, active, inactive')
        self.judge_history()


def run_year(system):
    year = Year(system)
    year.set_up()
    before = year.lying()
    year.go()
    year.judge_end(before)
