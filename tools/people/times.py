"""Whether the page tells when things were done, by whom, and whose token it is."""
import time

from people.applicants import begun
from people.compared import day_of, newest_first
from people.office import CLERK
from people.person import judge
from people.tasks import asks, token_of, within

# As many rows as a list shows at a time.
SHOWN = 100
HIGHEST = '''const height = node => { const range = document.createRange(); range.selectNodeContents(node); return range.getBoundingClientRect().height };
    return Math.max(...[...document.querySelectorAll('tbody th')].map(height))'''


def headed(office, person, token):
    """The head of the page says whose token it is, of what kind, and when it ends."""
    told = office.ask('GET', '/token', token)
    right = f'Signed in as {told["account"]} ({told["kind"]}). Your token is valid through {day_of(told["until"] - 1)}.'
    shown = person.script('return document.querySelector("#who span").textContent')
    judge(shown == right, f'the head says {shown!r} in place of {right!r}')


def same_acts(office, clerk, caption, path):
    """The page lists the office's acts, each with its minute and who did it, and by which token if that is a column."""
    told = office.ask('GET', f'/desk/journal/{path}', CLERK)
    minute = lambda moment: time.strftime('%Y-%m-%d %H:%M', time.gmtime(moment))
    right = [[minute(act['moment']), act.get('by', 'The operator'), act.get('token', '')] for act in told][:SHOWN]
    rows = clerk.until(lambda: clerk.rows(caption), caption)
    shown = [[row[0], row[1], row[3] if len(row) > 3 else act[2]] for row, act in zip(rows, right)]
    judge(shown == right and len(rows) == len(right), f'{caption} has {rows} in place of {right}')
    return rows


def clerks_times(office, clerk):
    """The time line of a request, and what was done on a day and by an account."""
    headed(office, clerk, CLERK)
    clerk.go('All requests')
    clerk.named('input', 'Search: All requests').send_keys('x-1')
    clerk.click('Open x-1 of acme')
    rows = same_acts(office, clerk, 'Time line', 'requests/acme/x-1')
    said = ['Made the request x-1 of acme', 'Assigned x-1 of acme to moduya', 'Advised for x-1 of acme', 'Approved x-1 of acme: value 1000 of ports']
    judge([row[2] for row in rows] == said, f'the time line says {rows}')
    today = day_of(time.time())
    with within(clerk, 1, 'what was done today'):
        clerk.go('Acts')
        same_acts(office, clerk, f'Acts on {today}', f'days/{today}')
    highest = clerk.script(HIGHEST)
    judge(highest < 30, f'the text of a moment is {highest} pixels high, so it has more than one line')
    judge(clerk.named('button', 'Next day').get_attribute('aria-disabled') == 'true', 'there is a day after today')
    clerk.click('Next day')
    clerk.click('Previous day')
    clerk.sees('Nothing was done on this day.')
    with within(clerk, 1, 'the next day'):
        clerk.click('Next day')
        same_acts(office, clerk, f'Acts on {today}', f'days/{today}')
    clerk.control('Day (UTC)').send_keys('01152026')
    clerk.sees('Acts on 2026-01-15')
    with within(clerk, 1, 'what an account did'):
        clerk.fill('Account', 'moduya')
        clerk.click('Show')
        same_acts(office, clerk, 'Acts of moduya', 'actors/moduya')
    clerk.click('Open x-1 of acme')
    clerk.sees('Time line')
    clerk.driver.back()
    same_acts(office, clerk, 'Acts of moduya', 'actors/moduya')
    judge(clerk.script('return document.activeElement.getAttribute("aria-label")') == 'Open x-1 of acme', 'the focus is not where it was')
    clerk.fill('Account', 'Nobody')
    clerk.click('Show')
    clerk.sees('Use 1 to 32 small letters')
    clerk.go('Acts')
    clerk.until(lambda: clerk.rows(f'Acts on {today}'), 'today again')


def applicants_times(office, person):
    """When an applicant asked, when it was decided, and the references of new requests."""
    token = token_of('zephyr')
    person.sign_in(token)
    person.sees('Details')
    headed(office, person, token)
    told = [office.ask('GET', path, token) for path in ('/requests', '/times')]
    rows, today = person.rows('My requests'), day_of(time.time())
    judge([row[0] for row in rows] == newest_first(*told), f'the requests are listed as {[row[0] for row in rows]}')
    right = {one['reference']: [day_of(one.get(name)) for name in ('submitted', 'decided')] for one in told[1]}
    judge({row[0]: row[2:4] for row in rows} == right and ['', ''] not in right.values(), f'the times are {rows} in place of {right}')
    person.click('Details of p-843')
    person.sees('Declined. Reason: Somebody else has it.')
    shown = dict(person.script('return [...document.querySelectorAll("main dl > div")].map(one => [one.firstChild.textContent, one.lastChild.textContent])'))
    judge([shown.get('Asked'), shown.get('Decided')] == right['p-843'], f'the details are {shown}')
    asks(office, 'zephyr', f'{today}-2', least='first-come-first-served')
    # (moments are seconds: what comes next is newer from the next one on)
    time.sleep(1)
    for number in (1, 3):
        begun(person)
        reference = person.control('Your reference').get_attribute('value')
        judge(reference == f'{today}-{number}', f'the reference is {reference} and not {today}-{number}')
        person.fill('Name of the value', f'Number {number}')
        person.fill('Contact', 'Zephyr')
        person.click('Send the request')
        person.status(f'Request {today}-{number} is received.')
    judge([row[0] for row in person.rows('My requests')][:2] == [f'{today}-3', f'{today}-1'], 'the newest does not come first')
    person.sign_out()
