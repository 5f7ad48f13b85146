"""People at browsers of their own, and what is judged of what they see."""
import base64
import contextlib
import json
import os
import socket
import struct
import time
import urllib.request

from lib.office import Tally

WATCH = '''window.seen = []; window.skip = 0; const now = Date.now; Date.now = () => now() + window.skip;
addEventListener('securitypolicyviolation', event => window.seen.push(event.violatedDirective + ' ' + event.blockedURI));
window.longest = 0; try { new PerformanceObserver(list => { for (const one of list.getEntries()) window.longest = Math.max(window.longest, one.duration); })
  .observe({ type: 'longtask', buffered: true }); } catch {}'''
TALLY = Tally()


def judge(good, complaint):
    TALLY.judge(good, f'FAILED: {complaint}')


def driver_of(profile, dark=False):
    from selenium import webdriver
    options = webdriver.ChromeOptions()
    for word in ['--headless=new', '--no-sandbox', '--disable-gpu', '--disable-dev-shm-usage', '--hide-scrollbars', '--ignore-certificate-errors', f'--user-data-dir={profile}', '--window-size=1280,1000', '--lang=en-US']:
        options.add_argument(word)
    options.set_capability('goog:loggingPrefs', {'browser': 'ALL'})
    driver = webdriver.Chrome(service=webdriver.chrome.service.Service('/usr/bin/chromedriver'), options=options)
    driver.execute_cdp_cmd('Page.addScriptToEvaluateOnNewDocument', {'source': WATCH})
    return driver


class Person:
    """Somebody at a browser of their own, who clicks and types."""

    def __init__(self, profile, address):
        self.profile, self.address, self.clicks = profile, address, 0
        self.driver = driver_of(profile)
        self.driver.get(address)

    def script(self, text, *words):
        return self.driver.execute_script(text, *words)

    def until(self, test, what):
        for _ in range(400):
            with contextlib.suppress(Exception):
                found = test()
                if found:
                    return found
            time.sleep(0.05)
        raise AssertionError(f'{what} does not come; the page says: {self.text()[:600]!r}')

    def text(self):
        return self.script('return document.body.innerText')

    def sees(self, text):
        return self.until(lambda: text in self.text(), f'{text!r}')

    def status(self, text):
        return self.until(lambda: text in self.script('return document.getElementById("status").textContent'), f'the status {text!r}')

    def named(self, css, name):
        """The shown element of this kind whose name or text this is."""
        find = '''const [css, name] = arguments;
            return [...(document.querySelector('dialog[open]') ?? document).querySelectorAll(css)].find(one => one.checkVisibility() && (one.getAttribute('aria-label') ?? one.textContent).trim() === name)'''
        return self.until(lambda: self.script(find, css, name), f'{css} {name!r}')

    def click(self, name):
        self.clicks += 1
        found = self.named('button, a, summary', name)
        # (the news stand above what is scrolled to the top)
        self.script('arguments[0].scrollIntoView({ block: "nearest" })', found)
        found.click()

    def click_twice(self, name):
        from selenium.webdriver.common.action_chains import ActionChains
        self.clicks += 2
        ActionChains(self.driver).double_click(self.named('button', name)).perform()

    def control(self, label):
        find = '''const label = [...document.querySelectorAll('label')].find(one => one.checkVisibility() && one.textContent.replace(' (optional)', '') === arguments[0]); return label && label.control'''
        return self.until(lambda: self.script(find, label), f'the field {label!r}')

    def fill(self, label, text):
        box = self.control(label)
        box.clear()
        box.send_keys(text)

    def choose(self, label, option):
        self.clicks += 1
        box = self.control(label)
        self.until(lambda: [one for one in box.find_elements('css selector', 'option') if one.text == option], f'{option!r} of {label!r}')[0].click()

    def tick(self, label):
        self.clicks += 1
        self.control(label).click()

    def press(self, *keys):
        from selenium.webdriver.common.action_chains import ActionChains
        ActionChains(self.driver).send_keys(*keys).perform()

    def reach(self, name):
        """Goes to the element of this name by the keyboard alone."""
        from selenium.webdriver.common.keys import Keys
        at = '''const one = document.activeElement; return one.getAttribute('aria-label') ?? (one.labels?.length ? one.labels[0].textContent : one.textContent).trim()'''
        for _ in range(80):
            if self.script(at) == name:
                outline = self.script('return getComputedStyle(document.activeElement).outlineStyle')
                judge(outline != 'none', f'the focus on {name} is not seen')
                return
            self.press(Keys.TAB)
        raise AssertionError(f'no key leads to {name}')

    def sign_in(self, token):
        self.fill('Your token', token)
        self.click('Sign in')

    def sign_out(self):
        self.click('Sign out')
        self.status('You are signed out.')

    def go(self, section):
        self.clicks += 1
        self.script('window.old = document.querySelector("h2")')
        self.named('nav a', section).click()
        self.until(lambda: self.script('const one = document.querySelector("h2"); return one !== window.old && one.textContent') == section, section)

    def rows(self, caption):
        """The rows of a table on the page, cell by cell."""
        find = '''const table = [...document.querySelectorAll('table')].find(one => one.caption?.textContent === arguments[0]);
            return table && table.checkVisibility() ? [...table.tBodies[0].rows].map(row => [...row.cells].map(cell => cell.textContent)) : []'''
        return self.script(find, caption)

    def quiet(self, who):
        """The content security policy reported nothing, and nothing else went wrong on the page."""
        judge(self.script('return window.seen') == [], f'{who}: the policy reported {self.script("return window.seen")}')
        odd = [line['message'] for line in self.driver.get_log('browser') if line['level'] == 'SEVERE' and 'Failed to load resource' not in line['message']]
        judge(not odd, f'{who}: the browser says {odd[:3]}')
        outside = [name for name in self.script('return performance.getEntriesByType("resource").map(one => one.name)') if not name.startswith(self.address.split('/site/')[0])]
        judge(not outside, f'{who}: the page loaded {outside}')

    def end(self):
        self.driver.quit()


def narrow(person, is_narrow, width=390):
    if is_narrow:
        person.driver.execute_cdp_cmd('Emulation.setDeviceMetricsOverride', {'width': width, 'height': 844, 'deviceScaleFactor': 1, 'mobile': False})
    else:
        person.driver.execute_cdp_cmd('Emulation.clearDeviceMetricsOverride', {})


def devtools(person, method, **parameters):
    """What Chromium's own socket of the page answers to one command, and the chunks of a snapshot of the heap that it sends before."""
    port = person.driver.capabilities['goog:chromeOptions']['debuggerAddress']
    pages = json.load(urllib.request.urlopen(f'http://{port}/json'))
    path = next(page for page in pages if page['type'] == 'page')['webSocketDebuggerUrl'].split(port)[1]
    host, number = port.split(':')
    with socket.create_connection((host, int(number)), timeout=60) as peer:
        key = base64.b64encode(os.urandom(16)).decode()
        peer.sendall(f'GET {path} HTTP/1.1\r\nHost: {port}\r\nUpgrade: websocket\r\nConnection: Upgrade\r\nSec-WebSocket-Key: {key}\r\nSec-WebSocket-Version: 13\r\n\r\n'.encode())
        stream = peer.makefile('rb')
        while stream.readline().strip():
            pass
        data = json.dumps({'id': 1, 'method': method, 'params': parameters}).encode()
        peer.sendall(struct.pack('>BBH4x', 0x81, 0x80 | 126, len(data)) + data)
        chunks, message = [], b''
        while True:
            first, size = stream.read(2)
            size = {126: lambda: struct.unpack('>H', stream.read(2))[0], 127: lambda: struct.unpack('>Q', stream.read(8))[0]}.get(size, lambda: size)()
            message += stream.read(size)
            if not first & 0x80:
                continue
            told, message = json.loads(message), b''
            if told.get('id') == 1:
                return ''.join(chunks)
            chunks.append(told.get('params', {}).get('chunk', ''))
