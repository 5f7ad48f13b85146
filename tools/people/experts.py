"""What experts come for."""
from people.office import CLERK
from people.person import judge
from people.tasks import asks, token_of, within


def experts_tasks(office, person):
    """An expert's first request: those that wait for advice come first, and the filter is kept after the advice."""
    asks(office, 'zephyr', 'x-2', value=1001, specification='https://example.org/x-2')
    for path in ('zephyr/x-2', *(f'zz/z-{number}' for number in range(10))):
        office.ask('PUT', f'/desk/experts/{path}/moduya', CLERK)
    person.sign_in(token_of('moduya'))
    person.sees('Requests to review')
    listed = lambda: [row[1] for row in person.rows('Requests assigned to me')]
    person.until(lambda: [listed()[0], listed()[-1], len(listed())] == ['x-2', 'x-1', 12], 'the list with what waits first')
    person.sees('11 requests wait for your advice.')
    state = person.named('select', 'State: Requests assigned to me')
    [one for one in state.find_elements('css selector', 'option') if one.text == 'Waiting'][0].click()
    person.until(lambda: len(listed()) == 11, 'those that wait')
    with within(person, 3, 'advise on a request'):
        person.click('Give advice: x-2 of zephyr')
        links = person.until(lambda: person.script('return [...document.querySelectorAll("dd a")].map(one => [one.getAttribute("href"), one.target, one.rel])'), 'the links')
        person.choose('Your recommendation', 'Against: I do not recommend approval')
        person.fill('Your advice', 'Too\nvague')
        person.click('Send my advice')
        person.status('is recorded')
    judge(links == [[place, '_blank', 'noopener noreferrer'] for place in ('../registries/ports.html', 'https://example.org/x-2')], f'a request links to {links}')
    person.sees('10 requests wait for your advice.')
    judge(person.rows('Requests assigned to me')[10][4] == 'Against: Too vague' and len(listed()) == 11, 'the advice is not in the list, or the state is chosen no more')
    person.sign_out()
