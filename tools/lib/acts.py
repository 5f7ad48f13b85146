"""The acts of a journal, as an office shows them, by the rows of their table."""
import datetime
import hashlib
import re

DIGITS = {'MA-L': 6, 'MA-M': 7, 'MA-S': 9}
HEADER = 'Number,Moment,By,Token,Kind,Account,Reference,Registry,Value,Block,Other,Digest'
# What the column `other` names.
NAMED = {'grant': 'digest', 'revoke': 'digest', 'assign': 'expert', 'advise': 'expert', 'appoint': 'agent', 'dismiss': 'agent'}
DECISIONS = ('approve', 'decline', 'withdraw')
MOMENTS = re.compile(rb'"(decided|moment|submitted)":[0-9]+')


def timeless(answer):
    """An answer without its moments, which differ where an office is asked at others."""
    return MOMENTS.sub(rb'"\1":0', answer)


def moment_of(act):
    """The moment of an act, if it has one."""
    return None if act['day'] is None else 86400 * act['day'] + act['second']


def about(act):
    """What an act names by a number: the prefix, the block or the value."""
    if act['kind'] == 'pool':
        return {'pool': f'{act["value"]:06X}'}
    if act['size']:
        return {'block': f'{act["value"]:012X}'[:DIGITS[act['size']]]}
    return {'value': act['value']}


def shown(act):
    """An act as an answer shows it."""
    members = {name: act[name] for name in ('kind', 'token', 'account', 'reference', 'verdict', 'registry')}
    members |= {'by': act['actor'], 'moment': moment_of(act), **about(act)}
    if act['other']:
        members[NAMED[act['kind']]] = act['other']
    return {name: member for name, member in sorted(members.items()) if member is not None}


def times(acts, account, reference, is_pending):
    """When a request came and was decided, as an answer shows it."""
    own = [act for act in acts if (act['account'], act['reference']) == (account, reference)]
    came = [moment_of(act) for act in own if act['kind'] == 'submit']
    went = [moment_of(act) for act in own if act['kind'] in DECISIONS and not is_pending]
    moments = {'decided': went[-1] if went else None, 'reference': reference, 'submitted': came[-1] if came else None}
    return {name: moment for name, moment in moments.items() if moment is not None}


def answers(acts, states):
    """What is answered to a clerk who lists the acts, and to applicants who ask for times, by caller and path. `states` has the state of
    each request by account and reference."""
    def listed(path, is_meant):
        return {('clerk', f'/desk/journal/{path}'): [shown(act) for act in acts if is_meant(act)]}

    wanted = {}
    for day in {act['day'] for act in acts} - {None}:
        wanted |= listed(f'days/{datetime.date(1970, 1, 1) + datetime.timedelta(day)}', lambda act, day=day: act['day'] == day)
    for actor in {act['actor'] for act in acts} - {None}:
        wanted |= listed(f'actors/{actor}', lambda act, actor=actor: act['actor'] == actor)
    for account, reference in states:
        wanted |= listed(f'requests/{account}/{reference}', lambda act, name=(account, reference): (act['account'], act['reference']) == name)
    for account in {account for account, _ in states}:
        wanted[account, '/times'] = [times(acts, *name, state == 'pending') for name, state in sorted(states.items()) if name[0] == account]
    return wanted


def written(moment):
    """A moment in UTC, or nothing."""
    return '' if moment is None else datetime.datetime.fromtimestamp(moment, datetime.timezone.utc).strftime('%Y-%m-%dT%H:%M:%SZ')


def printed(acts):
    """The acts as the job `journal` prints them, each with the digest of all before it."""
    lines, digest = [HEADER], ''
    for act in acts:
        said = about(act)
        other = said.get('pool') or ' '.join(filter(None, (act['other'], act['verdict'])))
        cells = (act['number'], written(moment_of(act)), act['actor'], act['token'], act['kind'], act['account'], act['reference'],
                 act['registry'], said.get('value'), said.get('block'), other)
        front = ','.join('' if cell is None else str(cell) for cell in cells) + ','
        digest = hashlib.sha256((digest + front).encode()).hexdigest()
        lines.append(front + digest)
    return '\n'.join(lines) + '\n'
