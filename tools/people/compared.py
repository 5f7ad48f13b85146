"""Whether the page shows what the office answers."""
import hashlib
import re
import time

from people.office import CLERK
from people.person import judge

COUNTS = {'registries': 'Registries', 'entries': 'Entries', 'temporary': 'Temporary entries', 'expired': 'Expired entries', 'held': 'Held entries',
          'prefixes': 'Prefixes', 'blocks': 'Assigned blocks', 'agents': 'Agents', 'capabilities': 'Tokens', 'valid': 'Valid tokens'}


def day_of(moment):
    return time.strftime('%Y-%m-%d', time.gmtime(moment)) if moment is not None else ''


def ends_as_shown(until):
    """The last day of a capability, or that it has ended, as the page says it."""
    return day_of(until - 1) if until > time.time() else f'Expired on {day_of(until)}'


def waits_as_shown(submitted):
    """When a request was made that waits, as the page says it."""
    days = 0 if submitted is None else int(time.time()) // 86400 - submitted // 86400
    return submitted and f'{day_of(submitted)}, {("today", "waits 1 day")[days] if days < 2 else f"waits {days} days"}' or ''


def newest_first(rows, times):
    """The references of requests in the order in which the page lists them."""
    since = {one['reference']: one.get('submitted', 0) for one in times}
    numbers = lambda name: [int(part) if part.isdigit() else part for part in re.split(r'(\d+)', name)]
    return sorted((one['reference'] for one in rows), key=lambda name: (since.get(name, 0), numbers(name)), reverse=True)


def same_tokens(office, clerk, more):
    """The page lists just the office's tokens."""
    told = office.ask('GET', '/desk/tokens', CLERK)
    own = hashlib.sha256(CLERK.encode()).hexdigest()[:12]
    right = [[one['account'], one['kind'].capitalize(), ends_as_shown(one['until']), one['digest'] + ' (you)' * (one['digest'] == own)] for one in told]
    shown = [row[:4] for row in clerk.rows('All tokens')]
    judge(shown == right, f'{more} the page lists the tokens {shown} in place of {right}')
    return told


def counted(office, clerk):
    """The page shows the office's counts."""
    clerk.go('Counts')
    shown = clerk.script('return [...document.querySelectorAll("main dl > div")].map(one => [one.firstChild.textContent, one.lastChild.textContent])')
    told, waiting = office.ask('GET', '/desk/counts', CLERK), len(office.ask('GET', '/desk/pending', CLERK))
    right = [['Waiting requests', str(waiting)], *([title, str(told[name])] for name, title in COUNTS.items())]
    judge(shown == right and len(told) == len(COUNTS), f'the page counts {shown} in place of {told}')


def same_waiting(office, clerk):
    """The page lists just the office's waiting requests, in its order, each with its day and what its experts recommend."""
    clerk.go('Waiting')
    told = office.ask('GET', '/desk/pending', CLERK)
    verdicts = [{one['expert']: one['verdict'] for one in row['advice']} for row in told]
    experts = ['; '.join(f'{name}: {given.get(name, "no advice yet")}' for name in row['experts']) for row, given in zip(told, verdicts)]
    right = [[row['account'], row['reference'], waits_as_shown(row.get('submitted')), said] for row, said in zip(told, experts)]
    shown = [[row[0], row[1], *row[3:5]] for row in clerk.rows('Waiting requests')]
    judge(shown == right, f'what waits is {shown} in place of {right}')
    return told
