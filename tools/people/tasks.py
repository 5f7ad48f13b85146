"""Tasks with the clicks that they take, and the office in which they are done."""
import contextlib

from lib import office as offices
from people.office import CLERK
from people.person import judge

RANGES = 'lo,hi,treatment,note\n0,999,first-come-first-served,\n1000,1999,expert-review,\n2000,2999,standards-action,\n3000,3000,first-come-first-served,\n3001,3099,specification-required,\n3100,9999,reserved,\n'
EARLY = {'chair': 'wg', 'director': 'ad', 'draft': 'draft-x-00', 'interest': True, 'kind': 'early', 'registry': 'ports', 'stable': True}


@contextlib.contextmanager
def within(person, most, task):
    """The task that is done here takes at most so many clicks."""
    person.clicks = 0
    yield
    print(f'{task}: {person.clicks} clicks')
    judge(person.clicks <= most, f'{task} takes {person.clicks} clicks, more than {most}')


def token_of(account):
    return f'{account}-token-00000000001'


def asks(office, account, reference, **more):
    """A request of this account, made without the page."""
    body = {'contact': 'C', 'kind': 'code', 'label': f'{account} {reference}', 'registry': 'ports', **more}
    told = office.ask('PUT', f'/requests/{reference}', token_of(account), {name: value for name, value in body.items() if value is not None})
    judge('error' not in told, f'{account} is answered {told}')


def prepared(office):
    """A registry with a contested value, several requests that wait, and early allocations."""
    offices.ask(office.port, 'PUT', '/desk/registries/ports/9999', CLERK, RANGES)
    offices.ask(office.port, 'PUT', '/desk/registries/flags/255', CLERK, 'lo,hi,treatment,note\n0,255,first-come-first-served,\n')
    for account, kind in [('acme', 'applicant'), ('zephyr', 'applicant'), ('oceanic', 'applicant'), ('zz', 'applicant'), ('moduya', 'expert')]:
        office.grant(account, kind, token_of(account))
    asks(office, 'acme', 'p-843', value=843)
    asks(office, 'acme', 'x-1', value=1000, specification='https://example.org/spec, 2nd edition')
    asks(office, 'zephyr', 'p-843', value=843)
    for number in range(3):
        asks(office, 'oceanic', f'o-{number}', least='first-come-first-served')
    for number in range(10):
        asks(office, 'zz', f'z-{number}', value=700 + number)
    for account in ('acme', 'zephyr'):
        asks(office, account, 'early', **EARLY, contact=None, least='standards-action')
        office.ask('PUT', f'/desk/approve/{account}/early', CLERK)
