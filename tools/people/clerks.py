"""What clerks come for."""
import datetime

from people.office import CLERK
from people.person import judge
from people.tasks import asks, token_of, within

RED = 'rgb(179, 38, 30)'
OFFERED = 'return [...document.querySelectorAll("dialog button")].map(one => [one.textContent, getComputedStyle(one).backgroundColor])'


def in_lists(office, clerk):
    """Lists are counted, searched in what is seen, and ordered; from a case the way leads to the same place, by a button and by the browser."""
    waiting = office.ask('GET', '/desk/pending', CLERK)
    with within(clerk, 1, 'how many wait'):
        clerk.go('Waiting')
        clerk.sees(f'{len(waiting)} in all')
    contested = [(row[0], row[2].split('. ', 1)[1]) for row in clerk.rows('Waiting requests') if 'this value.' in row[2]]
    said = [(account, f'1 other request wants this value. {which}') for account, which in (('acme', 'This one came first.'), ('zephyr', 'p-843 of acme came earlier.'))]
    judge(contested == said, f'contested in the list are {contested}')
    search = clerk.named('input', 'Search: Waiting requests')
    for text, right in [('kind', 0), ('FIRST COME FIRST SERVED', sum(row['ask'].get('least') == 'first-come-first-served' for row in waiting)), ('oceanic', 3)]:
        search.clear()
        search.send_keys(text)
        clerk.until(lambda: len(clerk.rows('Waiting requests')) == right, f'{right} rows with {text}')
    clerk.sees(f'3 found, {len(waiting)} in all')
    order = clerk.named('select', 'Order: Waiting requests')
    [one for one in order.find_elements('css selector', 'option') if one.text == 'By Reference, last first'][0].click()
    listed = lambda: [row[1] for row in clerk.rows('Waiting requests')]
    clerk.until(lambda: listed() == ['o-2', 'o-1', 'o-0'], 'the order')
    for back in (lambda: clerk.click('Back to the list'), clerk.driver.back):
        clerk.click('Open o-1 of oceanic')
        clerk.sees('Approve gives oceanic')
        judge(clerk.script('return location.hash') == '#waiting', 'the address names a request')
        back()
        clerk.until(lambda: listed() == ['o-2', 'o-1', 'o-0'], 'the list as it was left')
        focus = clerk.until(lambda: clerk.script('return document.activeElement.getAttribute("aria-label")'), 'the focus')
        judge(focus == 'Open o-1 of oceanic', f'the focus is on {focus}')
        judge(clerk.script('return document.querySelector("input[type=search]").value') == 'oceanic', 'the search is lost')
    with within(clerk, 1, 'what an account has'):
        clerk.go('All requests')
        clerk.named('input', 'Search: All requests').send_keys('oceanic')
        clerk.until(lambda: [row[1] for row in clerk.rows('All requests')] == ['o-0', 'o-1', 'o-2'], 'what an account has')
    clerk.go('Waiting')
    judge(len(listed()) == len(waiting), 'a section that is chosen anew has a search')


def broken_texts(office, clerk):
    """A reference of 32 letters leaves room for the rest."""
    asks(office, 'acme', 'm' * 32, least='first-come-first-served')
    clerk.go('Waiting')
    wide = clerk.script('return [...document.querySelectorAll("tbody td:nth-child(2)")].map(one => one.getBoundingClientRect().width)')
    judge(max(wide) < 200, f'the references are {max(wide)} pixels wide')
    office.ask('DELETE', f'/requests/{"m" * 32}', token_of('acme'))


def clerks_tasks(office, clerk):
    """What a clerk does, once `prepared` has run. The requests that wait are listed as they came."""
    in_lists(office, clerk)
    broken_texts(office, clerk)
    clerk.go('Waiting')
    with within(clerk, 1, 'open a contested request'):
        clerk.click('Open p-843 of acme')
        clerk.sees('Approve gives acme value 843 of ports.')
    clerk.sees('1 other request wants this value. This one came first. The first to be approved gets it.')
    with within(clerk, 2, 'the next decision'):
        clerk.click('Approve')
        clerk.click('Approve and open the next')
        clerk.status('Approved: p-843 of acme. Value 843')
    too_early(office, clerk)
    noted(clerk)
    followed(office, clerk)
    plain(clerk)
    lost(office, clerk)
    clerk.click('Next waiting request')
    clerk.until(lambda: 'Waiting' in clerk.script('return document.querySelector("main dl").textContent'), 'the next that waits')
    blocks(office, clerk)
    expiring(office, clerk)
    tokens_of_others(clerk)
    office.relay.mode = ['foreign']
    with within(clerk, 2, 'the desk from home'):
        clerk.click('Waiting')
        clerk.sees("Clerks can use the desk only from the office's network.")
        clerk.click('Try again')
        clerk.sees('in all')


def plain(clerk):
    """Three requests that need nobody else, one after another."""
    with within(clerk, 8, 'approve three plain requests'):
        clerk.go('Waiting')
        clerk.click('Open o-0 of oceanic')
        for number in range(3):
            clerk.sees(f'Approve gives oceanic value {number} of ports, the lowest that is free now.')
            clerk.click('Approve')
            clerk.click('Approve and open the next')
            clerk.status(f'Approved: o-{number} of oceanic. Value {number}')


def tokens_of_others(clerk):
    """A token for a new applicant, handed over with the address of the page, and its end. The list is found by the account."""
    with within(clerk, 3, 'a token for a new applicant'):
        clerk.go('Tokens')
        clerk.fill('Account', 'newcomer')
        clerk.choose('Kind', 'Applicant')
        clerk.click('Make a token')
        clerk.sees('The token of newcomer')
    judge(clerk.address in clerk.text(), 'the address of the page is not said')
    clerk.click('Copy')
    clerk.click('Done, hide it')
    clerk.status('The token is hidden.')
    digest = next(row[3] for row in clerk.rows('All tokens') if row[0] == 'newcomer')
    clerk.sees("The first 12 digits of a token's SHA-256 tell them apart.")
    with within(clerk, 2, 'revoke a token'):
        clerk.click(f'Revoke {digest} of newcomer')
        asks_in_red(clerk, 'Revoke')
        clerk.click('Revoke')
        clerk.status('The token of newcomer is revoked.')
    clerk.go('Counts')
    clerk.sees('Waiting requests')


def asks_in_red(clerk, verb):
    """What declines or revokes is red in the question, too, where the focus is on the way back."""
    shown = clerk.until(lambda: clerk.script(OFFERED), 'a question')
    judge([name for name, colour in shown if colour == RED] == [verb], f'the question has {shown}')
    judge(clerk.script('return document.activeElement.textContent') == 'Cancel', 'the focus of the question is not on Cancel')


def too_early(office, clerk):
    """A request that needs an expert, as the next one: it cannot be approved yet, and a mistyped account is asked about."""
    clerk.sees('No expert is assigned. You can approve once an expert recommends it.')
    office.relay.log.clear()
    with within(clerk, 1, 'approve too early'):
        clerk.click('Approve')
        clerk.status('No expert is assigned.')
    judge(clerk.script('return document.querySelector("dialog") === null') and not any('approve' in line for line in office.relay.log), 'Approve does something without advice')
    clerk.control('Account of the expert').click()
    offered = clerk.until(lambda: clerk.script('return [...document.querySelectorAll("#experts option")].map(one => one.value)'), 'the experts')
    judge('moduya' in offered and 'acme' not in offered, f'the experts to choose from are {offered}')
    clerk.fill('Account of the expert', 'acme')
    clerk.click('Assign')
    clerk.sees('Applicants cannot be their own experts.')
    clerk.fill('Account of the expert', 'moduyaa')
    clerk.click('Assign')
    clerk.sees("moduyaa has no expert's token.")
    clerk.click('Cancel')
    clerk.fill('Account of the expert', 'moduya')
    with within(clerk, 1, 'assign an expert'):
        clerk.click('Assign')
        clerk.status('x-1 of acme is assigned to moduya.')
    clerk.sees('moduya has not advised yet.')
    judge(clerk.control('Account of the expert').get_attribute('value') == '', 'the expert who was assigned is still in the form')
    judge(office.ask('GET', '/desk/requests/acme/x-1', CLERK)['experts'] == ['moduya'], 'a mistyped account was assigned')
    office.ask('PUT', '/queue/acme/x-1', token_of('moduya'), {'text': 'fine', 'verdict': 'for'})


def followed(office, clerk):
    """Where a row is gone, the focus comes to the one in its place."""
    for number in (35, 36):
        asks(office, 'zz', f'z-{number}', value=700 + number)
    clerk.go('Waiting')
    clerk.click('Open z-35 of zz')
    clerk.sees('Approve gives zz')
    office.ask('DELETE', '/requests/z-35', token_of('zz'))
    clerk.click('Back to the list')
    name = clerk.until(lambda: clerk.script('return document.activeElement.getAttribute("aria-label")'), 'the focus')
    judge(name == 'Open z-36 of zz', f'after a row is gone the focus is on {name}')


def noted(clerk):
    """After an approval the line for notes.csv and the next request come first, and the news cover no title."""
    clerk.go('Waiting')
    clerk.click('Open x-1 of acme')
    clerk.sees('Approve gives acme value 1000 of ports.')
    clerk.click('Approve')
    clerk.click('Approve')
    clerk.sees('Line for notes.csv, from x-1 of acme')
    line = clerk.script('return document.querySelector("output").textContent')
    judge(line == 'ports,1000,,"https://example.org/spec, 2nd edition",', f'the line for notes.csv is {line}')
    clerk.click('Copy')
    clerk.status('The line is copied.')
    onward, told = [clerk.script(f'return document.querySelector("main {css}").getBoundingClientRect().top') for css in ('.actions button:only-child:not(.plain)', 'dl')]
    judge(onward < told, 'after a decision the next request is below the one that was decided')
    clerk.driver.set_window_size(1280, 500)
    clerk.script('scrollTo(0, document.body.scrollHeight)')
    clerk.script('document.querySelector("h2").blur(); document.querySelector("h2").focus()')
    shown = clerk.script('return ["#status", "h2"].map(one => document.querySelector(one).getBoundingClientRect()).map(({ top, bottom }) => [top, bottom])')
    judge(shown[0][1] <= shown[1][0], f'the news and the title are at {shown} pixels')
    clerk.driver.set_window_size(1280, 1000)
    noted_later(clerk, line)


def noted_later(clerk, line):
    """A request that was approved before has its line, too, below what was asked. One that names no reference has none."""
    with within(clerk, 2, 'the line for notes.csv of a request that was approved before'):
        clerk.go('All requests')
        clerk.named('input', 'Search: All requests').send_keys('acme')
        clerk.click('Open x-1 of acme')
        clerk.sees('Line for notes.csv, from x-1 of acme')
    judge(clerk.script('return [...document.querySelectorAll("output")].map(one => one.textContent)') == [line], 'the line is another, or there are two')
    judge(clerk.script('return document.querySelector("main dl").compareDocumentPosition(document.querySelector("output"))') == 4, 'the line is above the request')
    clerk.click('Back to the list')
    clerk.click('Open p-843 of acme')
    clerk.sees('Value 843')
    judge('notes.csv' not in clerk.text(), 'there is a line without a reference')


def lost(office, clerk):
    """A value that somebody else got meanwhile, before and after the case was opened."""
    clerk.go('Waiting')
    clerk.click('Open p-843 of zephyr')
    clerk.sees('Value 843 was assigned to acme meanwhile. Decline this request.')
    clerk.fill('Reason', 'Somebody else has it.')
    clerk.click('Decline')
    asks_in_red(clerk, 'Decline')
    clerk.click('Decline')
    clerk.status('Declined: p-843 of zephyr.')
    for account in ('acme', 'zephyr'):
        asks(office, account, 'last', value=3000)
    clerk.go('Waiting')
    asks(office, 'zz', 'late', value=3000)
    clerk.click('Open last of zephyr')
    clerk.sees('Approve gives zephyr value 3000 of ports.')
    clerk.sees('2 other requests want this value. last of acme came earlier.')
    office.ask('PUT', '/desk/approve/acme/last', CLERK)
    clerk.click('Approve')
    clerk.click('Approve')
    clerk.status('last of zephyr was not approved')
    clerk.sees('Value 3000 was assigned to acme meanwhile. Decline this request.')
    for account, reference in (('zephyr', 'last'), ('zz', 'late')):
        office.ask('PUT', f'/desk/decline/{account}/{reference}', CLERK, {'reason': 'taken'})


def blocks(office, clerk):
    """The block that is due, and none of a size once there is no whole prefix for it."""
    office.ask('PUT', '/desk/pool/8C1F64', CLERK)
    for account, size in (('acme', 'MA-L'), ('zephyr', 'MA-L'), ('zz', 'MA-S')):
        office.ask('PUT', '/requests/block-1', token_of(account), {'kind': 'block', 'size': size, 'organization': account, 'address': '1 Road'})
    for account in ('acme', 'zz'):
        clerk.go('Waiting')
        clerk.click(f'Open block-1 of {account}')
        clerk.sees(f'Approve gives {account} block ')
        due = clerk.script('return document.querySelector("#prospect").textContent').split(' block ')[1].split(',')[0]
        clerk.click('Approve')
        clerk.click('Approve')
        clerk.status(f'Approved: block-1 of {account}. Block {due}')
    clerk.go('Waiting')
    clerk.click('Open block-1 of zephyr')
    clerk.sees('No block of size MA-L is free. Add a prefix, or decline this request.')
    office.ask('DELETE', '/requests/block-1', token_of('zephyr'))


def expiring(office, clerk):
    with within(clerk, 1, 'what expires'):
        clerk.go('Due to expire')
    right = [[entry['expires'], name, str(entry['value'])] for name in office.ask('GET', '/registries') for entry in office.ask('GET', f'/registries/{name}')['entries']
             if 'expires' in entry]
    shown = [row[:3] for row in clerk.rows('Due to expire')]
    judge(shown == sorted(right, key=lambda row: row[0]) and len(shown) > 1, f'due to expire are {shown} in place of {right}')
    clerk.sees(f'Nothing expires by {datetime.datetime.now(datetime.UTC).date() + datetime.timedelta(30)}.')
    clerk.click('Hold value 2001 of ports')
    clerk.status('Value 2001 of ports is held')
    judge(clerk.rows('Due to expire')[-1][5] == 'Held', 'what is held does not come last')
    focus = clerk.script('return document.activeElement.getAttribute("aria-label")')
    judge(focus == 'Release value 2001 of ports', f'after Hold the focus is on {focus}')
    clerk.click('Release value 2001 of ports')
    clerk.status('Value 2001 of ports is released')
