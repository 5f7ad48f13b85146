"""The office that the page in desk/ asks, a relay before it, and a proxy before that."""
import contextlib
import json
import pathlib
import re
import shutil
import socketserver
import sqlite3
import sys
import threading
import time

from lib import office as offices
from lib import proxies
from lib.office import Served, free_port

TOP = pathlib.Path(__file__).resolve().parent.parent.parent
CLERK = 'clerk-token-0000000001'


# What the relay answers in place of the office: as the office that cannot save, and as proxies do.
SAID = {'storage': (503, 'application/json', '{"error":"storage"}'), 'busy': (429, 'text/html', '<h1>429</h1>'), 'foreign': (403, 'text/html', '<h1>403</h1>')}


class Relay(socketserver.ThreadingTCPServer):
    """Hands each connection on to the office. As told by `mode` it is slow, loses answers, cannot be reached, or answers itself."""
    daemon_threads, allow_reuse_address = True, True

    def __init__(self, office):
        super().__init__(('127.0.0.1', 0), Handed)
        self.office, self.mode, self.log = office, [], []
        threading.Thread(target=self.serve_forever, daemon=True).start()


    def handle_error(self, request, client_address):
        """A peer that goes away is what is tried here."""


class Handed(socketserver.BaseRequestHandler):
    def handle(self):
        data, server = b'', self.server
        while b'\r\n\r\n' not in data or len(data.split(b'\r\n\r\n', 1)[1]) < int((re.search(rb'(?i)content-length: *(\d+)', data) or [0, 0])[1]):
            more = self.request.recv(65536)
            if not more:
                return
            data += more
        line = ' '.join(part.decode() for part in data.split(b' ', 2)[:2])
        server.log.append(line)
        mode = server.mode.pop(0) if server.mode else 'pass'
        if mode == 'down':
            return
        if mode == 'slow':
            time.sleep(6)
        if mode in SAID:
            status, kind, body = SAID[mode]
            head = f'HTTP/1.1 {status} Said\r\nContent-Type: {kind}\r\nContent-Length: {len(body)}\r\nConnection: close\r\n\r\n'
            self.request.sendall((head + body).encode())
            return
        answer = offices.exchange(server.office, data, seconds=None)
        if mode != 'lost':
            self.request.sendall(answer)


class Office:
    """An office in a file, its relay, and what it answers without the page."""

    def __init__(self, program, folder):
        self.program, self.file, self.port = program, folder / 'office.db', free_port()
        offices.begin(program, self.file, CLERK)
        self.process, self.relay = None, Relay(self.port)

    def start(self):
        self.process = Served(self.program, self.file, port=self.port)
        if not self.process.listens():
            sys.exit(f'nobody listens on {self.port}')

    def stop(self):
        self.process.terminate()
        self.process.wait()

    def ask(self, method, path, token=None, body=None):
        _, text = offices.ask(self.port, method, path, token, '' if body is None else json.dumps(body))
        return json.loads(text) if text[:1] in '[{' else text

    def grant(self, account, kind, token, seconds=100000):
        return self.ask('PUT', '/desk/tokens', CLERK, {'account': account, 'kind': kind, 'token': token, 'until': int(time.time()) + seconds})

    def fill(self, rows):
        """Adds requests while the office is stopped."""
        self.stop()
        self.port = self.relay.office = free_port()
        with sqlite3.connect(self.file) as store:
            names = 'account, reference, kind, registry, value, label, contact, state'
            store.executemany(f'INSERT INTO requests ({names}) VALUES (?, ?, ?, ?, ?, ?, ?, ?)', rows)
        store.close()
        self.start()


def installed(desk):
    """The page is in this folder as the package has it."""
    desk.mkdir()
    for path in [*(TOP / 'desk').iterdir(), TOP / 'docs/reference/openapi.yaml']:
        shutil.copy(path, desk)
    shutil.copy(TOP / 'docs/use/APPLYING.md', desk / 'apply.txt')


@contextlib.contextmanager
def proxied(proxy, folder, office):
    """The address of the page behind a proxy. The published site and the page are in the folder."""
    with proxies.proxied(proxy, folder, office) as (own, _):
        yield f'https://localhost:{own}/site/desk/'
