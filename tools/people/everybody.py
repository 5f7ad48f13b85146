"""What must hold for everybody: how pages look, the reader's own colours, the keyboard, narrow screens, sessions."""
from people.clerks import RED
from people.office import CLERK
from people.person import judge, narrow
from people.tasks import asks, token_of, within

# Whether the button's name begins with what is seen of it, for each button and link.
NAMES = '''return [...document.querySelectorAll('button, a')].filter(one => one.checkVisibility() && one.hasAttribute('aria-label'))
    .filter(one => !one.getAttribute('aria-label').startsWith(one.textContent)).map(one => `${one.textContent} / ${one.getAttribute('aria-label')}`)'''
ROLES = '''const roles = { TABLE: 'table', THEAD: 'rowgroup', TBODY: 'rowgroup', TR: 'row', TD: 'cell' };
    return [...document.querySelectorAll('main table, main thead, main tbody, main tr, main td, main th')]
        .filter(one => one.getAttribute('role') !== (roles[one.tagName] ?? (one.scope === 'col' ? 'columnheader' : 'rowheader'))).map(one => one.outerHTML.slice(0, 80))'''
MARKS = '''const shows = (node, part) => { const style = getComputedStyle(node, part); return [style.backgroundColor, style.borderBottomColor, style.appearance] };
    const tab = is => document.querySelector(is ? 'nav a[aria-current]' : 'nav a:not([aria-current])');
    const marks = ['pending', 'approved', 'declined', 'withdrawn'].map(state => document.querySelector(`.badge.${state}`)).map(one => shows(one, '::before')[0]);
    return { paper: getComputedStyle(document.body).backgroundColor, marks,
        tabs: [true, false].map(is => shows(tab(is))[1]) }'''


COLOURS = '''return [...document.querySelectorAll('main button')].filter(one => one.checkVisibility()).map(one => [one.textContent, getComputedStyle(one).backgroundColor])'''
# Where texts begin: the footer and the content from the left, the first text of a row and its button from the top.
EDGES = '''const first = node => { const range = document.createRange(); range.selectNodeContents(node); return range.getBoundingClientRect() };
    const [row] = document.querySelector('tbody').rows;
    return { sides: ['footer a', 'main h2'].map(css => document.querySelector(css).getBoundingClientRect().left), tops: [row.cells[0], row.querySelector('button')].map(node => first(node).top),
        rule: ['footer', 'main table'].map(css => document.querySelector(css).getBoundingClientRect().width) }'''
GREEN = 'rgb(11, 107, 58)'


def emulated(person, **features):
    person.driver.execute_cdp_cmd('Emulation.setEmulatedMedia', {'features': [{'name': name.replace('_', '-'), 'value': value} for name, value in features.items()]})


def forced_colours(person):
    """With colours of the reader's own, marks, tabs and switches still tell their state."""
    person.go('My requests')
    emulated(person, forced_colors='active')
    judge(person.script('return matchMedia("(forced-colors: active)").matches'), 'the colours are not forced')
    shown = person.script(MARKS)
    judge(shown['paper'] not in shown['marks'], f'the marks of states vanish: {shown}')
    judge(shown['tabs'][0] != shown['paper'] == shown['tabs'][1], f'the open section is not told apart: {shown}')
    person.go('My blocks')
    looks = person.script('return [...document.querySelectorAll("input[role=switch]")].map(one => getComputedStyle(one).appearance)')
    judge(looks and all(look == 'auto' for look in looks), f'the switches look {looks}')
    emulated(person)


def looks(office, clerk):
    """One action of a case is green and what declines is red, texts and lines begin where others do, and a list's search comes below its title."""
    clerk.go('Waiting')
    edges = clerk.script(EDGES)
    judge(all(abs(one - other) <= 1.5 for one, other in edges.values()), f'the edges are {edges}')
    judge('State' not in clerk.script('return [...document.querySelectorAll("thead th")].map(one => one.textContent)'), 'what waits has a column that says so')
    row = next(one for one in office.ask('GET', '/desk/pending', CLERK) if one['ask'].get('least') == 'first-come-first-served')
    clerk.click(f'Open {row["reference"]} of {row["account"]}')
    clerk.sees('the lowest that is free now.')
    colours = clerk.script(COLOURS)
    judge([name for name, colour in colours if colour == GREEN] == ['Approve'], f'the colours are {colours}')
    judge([name for name, colour in colours if colour == RED] == ['Decline'], f'the colours are {colours}')
    headings = clerk.script('return [...document.querySelectorAll("main h3")].map(one => one.textContent)')
    judge(sorted(headings) == ['Ask an expert', 'Decline', 'Experts', 'Time line'], f'the headings of a case are {headings}')
    judge(clerk.script(NAMES) == [], f'in a case names do not begin with what is seen: {clerk.script(NAMES)}')
    without_advice(office, clerk)
    clerk.go('Registries')
    clerk.click('Open ports')
    clerk.sees('Early allocations')
    judge(clerk.script(NAMES) == [], f'in a registry names do not begin with what is seen: {clerk.script(NAMES)}')
    clerk.go('Tokens')
    tools = clerk.script('return [...document.querySelectorAll(".tools")].map(one => one.previousElementSibling?.textContent)')
    judge(tools == ['All tokens'], f'the searches are below {tools}')


def without_advice(office, clerk):
    """Where an expert is needed and none is assigned, that comes first, and Approve looks off, also with colours of the reader's own."""
    asks(office, 'zephyr', 'x-3', value=1002)
    clerk.go('Waiting')
    clerk.click('Open x-3 of zephyr')
    clerk.sees('No expert is assigned.')
    colours = clerk.script(COLOURS)
    judge([name for name, colour in colours if colour == GREEN] == ['Assign'], f'the colours are {colours}')
    emulated(clerk, forced_colors='active')
    off = clerk.script('const { color, opacity } = getComputedStyle(document.querySelector("button[aria-disabled]")); return [opacity, color !== getComputedStyle(document.body).color]')
    judge(off == ['1', True], f'a button that is off looks {off}')
    emulated(clerk)


def skipped(clerk):
    """The first key leads to the content of the same section."""
    from selenium.webdriver.common.keys import Keys
    clerk.go('Tokens')
    clerk.script('document.querySelector(".skip").focus()')
    clerk.press(Keys.ENTER)
    clerk.until(lambda: clerk.script('return document.activeElement.id') == 'main', 'the focus on the content')
    judge(clerk.script('return [location.hash, document.querySelector("h2").textContent]') == ['#tokens', 'Tokens'], 'the way to the content leads to another section')


def sessions(person):
    """Nothing is shown after signing out, and a second tab has a session of its own."""
    person.sign_in(token_of('acme'))
    person.sees('Details')
    first = person.driver.current_window_handle
    person.driver.switch_to.new_window('tab')
    person.driver.get(person.address)
    person.sees('Your token')
    person.driver.close()
    person.driver.switch_to.window(first)
    person.go('My values')
    person.sign_out()
    person.driver.back()
    person.sees('Your token')
    judge(not person.rows('My values') and person.script('return location.hash') == '', 'Back shows something after signing out')


def fits(person, name):
    """At each width the page is no wider than the window, and tables have their roles: cards up to 56rem, and a column of its own width from 64rem."""
    for width in (320, 390, 641, 768, 896, 897, 1025):
        narrow(person, True, width)
        wide = person.script('return document.documentElement.scrollWidth')
        judge(wide <= width, f'{name} is {wide} pixels wide at {width}')
        judge(person.script(ROLES) == [], f'{name} at {width}: without roles are {person.script(ROLES)[:3]}')
    narrow(person, False)


def by_name_and_role(clerk):
    """Each name begins with what is seen, and tables keep their roles on narrow screens."""
    for section in ('Waiting', 'All requests', 'Due to expire', 'Acts', 'Registries', 'Prefixes', 'Tokens'):
        clerk.go(section)
        judge(clerk.script(NAMES) == [], f'{section}: names do not begin with what is seen: {clerk.script(NAMES)}')
        fits(clerk, section)


def focus_stays(clerk):
    """On the last page the button that led there keeps the focus."""
    from selenium.webdriver.common.keys import Keys
    clerk.go('All requests')
    clerk.script('[...document.querySelectorAll("button")].find(one => one.textContent === "Next page").focus()')
    for _ in range(200):
        if 'true' == clerk.script('return document.activeElement.getAttribute("aria-disabled")'):
            break
        clerk.press(Keys.ENTER)
    focus = clerk.script('return document.activeElement.textContent')
    judge(focus == 'Next page' and clerk.rows('All requests'), f'on the last page the focus is on {focus[:40]!r}')


def everybody(office, clerk, person):
    """The clerk is signed in, the other person is not."""
    office.ask('PUT', '/requests/block', token_of('acme'), {'kind': 'block', 'size': 'MA-S', 'organization': 'Acme', 'address': '1 Road'})
    office.ask('PUT', '/desk/approve/acme/block', CLERK)
    person.sign_in(token_of('acme'))
    person.sees('Details')
    forced_colours(person)
    for section in ('My requests', 'New request', 'My values', 'My blocks', 'Agents'):
        person.go(section)
        judge(person.script(NAMES) == [], f'{section}: names do not begin with what is seen: {person.script(NAMES)}')
        fits(person, section)
    person.sign_out()
    sessions(person)
    person.sign_in(token_of('moduya'))
    person.sees('Requests to review')
    judge(person.script(NAMES) == [], f'names do not begin with what is seen: {person.script(NAMES)}')
    fits(person, 'Requests to review')
    person.sign_out()
    by_name_and_role(clerk)
    looks(office, clerk)
    skipped(clerk)
    held = next(one for one in office.ask('GET', '/holdings', token_of('acme')) if one['size'] == 'MA-S')
    with within(clerk, 1, 'who holds a block'):
        clerk.go('All requests')
        clerk.named('input', 'Search: All requests').send_keys(held['block'])
        clerk.until(lambda: [row[0] for row in clerk.rows('All requests')] == ['acme'], 'the holder')
