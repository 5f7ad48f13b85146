"""Thirty steps of an office over a year: what is sent to it, and which changes its site then has to record."""
import json
from typing import NamedTuple

from sites.history import line_of, run_text
from lib.office import CLERK

# 2025-11-28T08:00:00Z, when the year begins.
BEGAN, DAY = 1_764_316_800, 86_400
END = 4_000_000_000
RANGES = {
    'alpha': (9, [(0, 9, 'first-come-first-served', '')]),
    'bits': (1023, [(0, 255, 'standards-action', ''), (256, 1023, 'specification-required', 'with a "specification"')]),
    'codes': (255, [(0, 99, 'first-come-first-served', ''), (100, 149, 'expert-review', ''), (150, 199, 'private-use', 'by & by'),
                    (200, 255, 'reserved', 'kept for </ul> & "later"')]),
}
HOSTILE = ['</td><script>alert(1)</script>', '&amp;', '"quoted", twice', "'onmouseover='alert(1)", ']]>', '<!-- -->', '=1+1', ' both ends ', '&#39;', 'x' * 200]
EARLY = {'chair': 'wg', 'director': 'ad', 'draft': 'draft-x-00', 'interest': True, 'stable': True}
RFC = {'number': 9999, 'stream': 'ietf', 'track': 'standards'}


class Step(NamedTuple):
    """What happens on a day of the year, and the changes by register, kind and value that are recorded then."""
    day: int
    what: str
    lines: list
    changes: list
    # '': the office in its file is published; 'served': over HTTP; 'restarted': after the process was killed and begun again; 'killed':
    # after runs that were ended by SIGKILL.
    how: str = ''


# ---- What is sent: a token, a method, a path and a body

def sent(account, method, path, body=''):
    return CLERK if account == 'clerk' else f'{account}-s-token-00001', method, path, body if isinstance(body, str) else json.dumps(body)


def granted(account, kind='applicant'):
    return sent('clerk', 'PUT', '/desk/tokens', {'account': account, 'kind': kind, 'token': f'{account}-s-token-00001', 'until': END})


def defined(name):
    most, ranges = RANGES[name]
    return sent('clerk', 'PUT', f'/desk/registries/{name}/{most}', b''.join(map(line_of, [('lo', 'hi', 'treatment', 'note'), *ranges])).decode())


def asked(account, reference, kind, **parts):
    return sent(account, 'PUT', f'/requests/{reference}', {'kind': kind, **parts})


def approved(account, reference):
    return sent('clerk', 'PUT', f'/desk/approve/{account}/{reference}')


def advised(account, reference):
    return [sent('clerk', 'PUT', f'/desk/experts/{account}/{reference}/xan'), sent('xan', 'PUT', f'/queue/{account}/{reference}', {'text': 'fine', 'verdict': 'for'})]


def given(account, reference, kind, **parts):
    return [asked(account, reference, kind, **parts), approved(account, reference)]


def value(account, number, label, registry='codes'):
    return given(account, f'{registry}-{number}', 'code', registry=registry, value=number, label=label, contact='c')


def early(account, number, label):
    return given(account, f'early-{number}', 'early', registry='bits', value=number, label=label, **EARLY)


def block(account, reference, size):
    return given(account, reference, 'block', size=size, organization=f'{account} & Co', address='1 "Road", <Town>')


def held(number, mark):
    return sent('clerk', 'PUT', f'/desk/holds/bits/{number}', {'held': mark})


def private(account, digits, mark=True):
    return sent(account, 'PUT', f'/holdings/{digits}', {'private': mark})


# ---- What is recorded

def ranges(name):
    return [(name, 'range', run_text(lo, hi)) for lo, hi, *_ in RANGES[name][1]]


def entries(name, *numbers):
    return [(name, 'entry', str(number)) for number in numbers]


def term(number):
    return [('bits', 'term', str(number))]


def prefix(*digits):
    return [('', 'prefix', one) for one in digits]


def blocks(*digits):
    return [('', 'block', one) for one in digits]


SPECIFIED = {'registry': 'bits', 'value': 300, 'label': 'Specified', 'will_be_rfc': True, **EARLY}
YEAR = [
    Step(0, 'an office without anything', [], []),
    Step(1, 'a registry', [defined('codes'), *map(granted, ['alice', 'bob', 'carol'])], ranges('codes')),
    Step(2, 'a request that waits', [asked('alice', 'a-1', 'code', registry='codes', value=64, label='Blue', contact='c')], []),
    Step(3, 'and is approved', [approved('alice', 'a-1')], entries('codes', 64)),
    Step(4, 'early allocations in a new registry', [defined('bits'), *early('bob', 2, 'Two'), *early('bob', 1, 'One')], [*ranges('bits'), *entries('bits', 1, 2)]),
    Step(20, 'an expert who is for it', [sent('clerk', 'PUT', '/desk/tokens', {'account': 'xan', 'kind': 'expert', 'token': 'xan-s-token-00001', 'until': END}),
                                         asked('alice', 'a-2', 'code', registry='codes', value=100, label='Expert', contact='c'), *advised('alice', 'a-2'),
                                         approved('alice', 'a-2')], entries('codes', 100)),
    Step(21, 'the least value', given('bob', 'b-1', 'code', registry='codes', least='first-come-first-served', label='Least', contact='c'),
         entries('codes', 0), 'served'),
    Step(30, 'a pool, and a block of it', [sent('clerk', 'PUT', '/desk/pool/8C1F64'), *block('carol', 's-1', 'MA-S')],
         [*prefix('8C1F64'), *blocks('8C1F64000')]),
    Step(40, 'a mark', [held(2, True)], term(2)),
    Step(50, 'requests that end without anything', [
        asked('alice', 'a-3', 'code', registry='codes', value=7, label='Declined', contact='c'), sent('clerk', 'PUT', '/desk/decline/alice/a-3', {'reason': 'no'}),
        asked('alice', 'a-4', 'code', registry='codes', value=8, label='Withdrawn', contact='c'), sent('alice', 'DELETE', '/requests/a-4')], [], 'served'),
    Step(60, 'a holder who becomes private', [private('carol', '8C1F64000')], []),
    Step(75, 'a prefix before the other', [sent('clerk', 'PUT', '/desk/pool/001A2B'), *block('bob', 'l-1', 'MA-L')], [*prefix('001A2B'), *blocks('001A2B')]),
    Step(90, 'hostile texts', [line for number, label in enumerate(HOSTILE) for line in value('alice', 10 + number, label)],
         entries('codes', *range(10, 10 + len(HOSTILE)))),
    Step(100, 'a restart', [*value('alice', 30, 'Before'), *value('alice', 31, 'After')], entries('codes', 30, 31), 'restarted'),
    Step(120, 'a mark that is removed', [held(2, False)], term(2)),
    Step(130, 'another early allocation', [asked('carol', 'e-3', 'early', **SPECIFIED), *advised('carol', 'e-3'), approved('carol', 'e-3')],
         entries('bits', 300), 'served'),
    Step(150, 'runs that are killed', [line for number in range(40, 50) for line in value('bob', number, f'Killed {number}')], entries('codes', *range(40, 50)), 'killed'),
    Step(170, 'an early allocation for good', [*early('alice', 3, 'Three'), *given('alice', 'p-3', 'permanent', registry='bits', value=3, contact='c', rfc=RFC)],
         entries('bits', 3)),
    Step(171, 'and one that was published before', [asked('carol', 'p-1', 'permanent', registry='bits', value=300, contact='c', specification='s'), *advised('carol', 'p-1'),
                                                    approved('carol', 'p-1')], term(300)),
    Step(180, 'an agent', [sent('bob', 'PUT', '/agents/alice', {'reads': True})], [], 'served'),
    Step(200, 'a registry without entries', [defined('alpha')], ranges('alpha')),
    Step(220, 'values of two registries', [*value('bob', 60, 'Later'), *value('bob', 59, 'Earlier'), *value('carol', 9, 'Last', 'alpha'), *value('carol', 0, 'First', 'alpha')],
         [*entries('alpha', 0, 9), *entries('codes', 59, 60)]),
    Step(250, 'blocks of all sizes', [sent('clerk', 'PUT', '/desk/pool/ACDE48'), *block('alice', 'm-1', 'MA-M'), *block('alice', 's-2', 'MA-S'), *block('alice', 'l-2', 'MA-L')],
         [*prefix('ACDE48'), *blocks('8C1F64001', '8C1F641', 'ACDE48')], 'served'),
    Step(270, 'holders who become private, and one who no longer is', [private('alice', '8C1F641'), private('carol', '8C1F64000', False)], []),
    Step(300, 'a renewal that waits', [asked('bob', 'n-1', 'renew', registry='bits', value=1, **EARLY)], []),
    Step(320, 'and is approved', [approved('bob', 'n-1')], term(1), 'served'),
    Step(340, 'a mark beside another entry', [held(1, True), *value('alice', 61, 'Beside')], [*term(1), *entries('codes', 61)]),
    Step(369, 'an allocation that expires', [], [], 'served'),
    Step(370, 'a renewal after it expired, and a further one', [*given('bob', 'n-2', 'renew', registry='bits', value=2, **EARLY),
                                                                *given('bob', 'n-3', 'renew', registry='bits', value=1, iesg='M-7', **EARLY)], [*term(1), *term(2)]),
    Step(371, 'nothing', [], []),
]


def moment_of(step):
    """When the lines of a step are sent."""
    return BEGAN + step.day * DAY
