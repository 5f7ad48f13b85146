"""What people send to an office in a year, and what it has to have then, reckoned without the program."""
import datetime

from sites.steps import EARLY, RFC, advised, approved, asked, block, blocks, defined, early, entries, given, held, prefix, ranges, sent, term, value

FIRST, DAYS = datetime.date(2027, 1, 1), 365
EVE, UPGRADE = FIRST - datetime.timedelta(1), datetime.date(2027, 7, 1)
HOLDERS = ['alice', 'bob', 'carol']
# What becomes of the early allocation that is to expire in a month, by its value.
FATES = ['expires', 'is renewed', 'is held, and released after its day', 'is renewed after its day', 'becomes permanent']


def day_of(number):
    """A day of the year by its number, from 0 on."""
    return FIRST + datetime.timedelta(number)


def year_after(day):
    return day.replace(year=day.year + 1)


def holder_of(number):
    return HOLDERS[number % 3]


class Books:
    """The entries by register and value, the public changes by day, and the requests that wait."""

    def __init__(self):
        self.entries, self.changes, self.waiting, self.day = {}, [], 0, EVE

    # ---- What changes

    def note(self, changes):
        """Notes public changes of today, each a register, a kind and a value."""
        self.changes += [(str(self.day), *change) for change in changes]

    def give(self, name, number, label, holder, expires=None, first=None):
        self.entries[name, number] = {'label': label, 'first': first or self.day, 'expires': expires, 'held': False, 'holder': holder}
        self.note(entries(name, number))

    def turn(self, number, **parts):
        """Gives an entry of `bits` another term."""
        self.entries['bits', number].update(parts)
        self.note(term(number))

    # ---- What has to be seen

    def status(self, entry):
        if not entry['expires']:
            return 'Assigned'
        return 'Temporary' if entry['held'] or self.day < entry['expires'] else 'Expired'

    def found(self, name):
        return [(number, entry) for (register, number), entry in sorted(self.entries.items()) if register == name]

    def listed(self, name):
        """The rows of a listing that have entries, without their policies."""
        return [[str(number), entry['label'], self.status(entry), str(entry['first']), str(entry['expires'] or ''), entry['holder']]
                for number, entry in self.found(name)]

    def shown(self, name):
        """The values and statuses of a page."""
        return [(str(number), self.status(entry) + (' (held)' if entry['held'] else '')) for number, entry in self.found(name)]

    def due(self, within):
        """The rows of `due`."""
        last = self.day + datetime.timedelta(within)
        found = [(entry['expires'], number, entry) for number, entry in self.found('bits') if self.status(entry) == 'Temporary' and entry['expires'] <= last]
        return [['bits', str(number), entry['label'], entry['holder'], str(expires), 'held' if entry['held'] else '']
                for expires, number, entry in sorted(found, key=lambda row: row[:2])]

    # ---- What is sent

    def brought_in(self):
        """The rows of a register whose early allocations expire one a month, as `import` reads them."""
        self.note(ranges('bits'))
        for number in range(12):
            expires = datetime.date(FIRST.year, number + 1, 14)
            self.give('bits', number, f'Early {number}', holder_of(number), expires, expires.replace(year=EVE.year))
        titles = 'Value,Description,Status,Policy,First,Expires,Assignee,Draft,Chair,Director,Stable,Interest'
        rows = [f'{row[0]},{row[1]},{row[2]},standards-action,{row[3]},{row[4]},{row[5]},draft-x-00,wg,ad,true,true' for row in self.listed('bits')]
        return '\n'.join([titles, *rows, ''])

    def lines(self, number):
        """What people send on a day of the year, each line a token, a method, a path and a body."""
        self.day = day_of(number)
        begun = [defined('codes'), sent('clerk', 'PUT', '/desk/pool/8C1F64')] if number == 0 else []
        self.note([*ranges('codes'), *prefix('8C1F64')] if begun else [])
        later = [defined('alpha'), sent('bob', 'PUT', '/agents/alice', {'reads': True})] if self.day == UPGRADE + datetime.timedelta(9) else []
        self.note(ranges('alpha') if later else [])
        return [*begun, *later, *self.values(number), *self.ends(number), *(line for early in range(12) for line in self.terms(early))]

    def values(self, number):
        """Values by first come, by an expert's advice and for a year, and blocks."""
        lines = []
        if number % 4 == 0:
            self.give('codes', number // 4, f'Value {number}', holder_of(number // 4))
            lines += value(holder_of(number // 4), number // 4, f'Value {number}')
        if number % 14 == 1:
            own = number // 14 + 100
            self.give('codes', own, f'Advised {own}', 'bob')
            lines += [asked('bob', f'x-{own}', 'code', registry='codes', value=own, label=f'Advised {own}', contact='c'), *advised('bob', f'x-{own}'),
                      approved('bob', f'x-{own}')]
        if number % 30 == 2:
            own = number // 30
            self.give('bits', 20 + own, f'New {own}', 'carol', year_after(self.day))
            self.note(blocks(f'8C1F64{own:03X}'))
            lines += [*early('carol', 20 + own, f'New {own}'), *block('carol', f'b-{own}', 'MA-S')]
        return lines

    def ends(self, number):
        """Requests that end without anything: one waits for two days and is declined, one is withdrawn."""
        if number % 30 == 5:
            self.waiting += 1
            return [asked('alice', f'd-{number}', 'code', registry='codes', value=99, label='Declined', contact='c')]
        if number % 30 == 7:
            self.waiting -= 1
            return [sent('clerk', 'PUT', f'/desk/decline/alice/d-{number - 2}', {'reason': 'no'})]
        withdrawn = asked('bob', f'w-{number}', 'code', registry='codes', value=98, label='Withdrawn', contact='c')
        return [withdrawn, sent('bob', 'DELETE', f'/requests/w-{number}')] if number % 30 == 9 else []

    def terms(self, number):
        """What becomes of an early allocation that was brought in: before its expiry day, or after it."""
        entry, holder = self.entries['bits', number], holder_of(number)
        days, fate = (self.day - datetime.date(FIRST.year, number + 1, 14)).days, FATES[number % len(FATES)]
        if (fate, days) in (('is renewed', -5), ('is renewed after its day', 9)):
            self.turn(number, expires=year_after(max(self.day, entry['expires'])))
            return given(holder, f'n-{number}', 'renew', registry='bits', value=number, **EARLY)
        if fate.startswith('is held') and days in (-4, 9):
            self.turn(number, held=days < 0)
            return [held(number, days < 0)]
        if (fate, days) == ('becomes permanent', -5):
            self.turn(number, expires=None)
            return given(holder, f'p-{number}', 'permanent', registry='bits', value=number, contact='c', rfc=RFC)
        return []
