"""Clients that cost a proxy more than they should, and what they cost it."""
import contextlib
import http.server
import os
import pathlib
import socket
import sqlite3
import ssl
import tempfile
import threading
import time

from lib.office import ALICE, CLERK, GRANT, RANGES, ask, begin, served
from lib.proxies import KEPT, SITE, caddy, nginx, proxied

# Crowds come from the first address, and who wants nothing odd from the second.
CROWD, HONEST = '127.0.0.1', '127.0.0.3'
# The first bytes of what a client by TLS says first.
HALF_GREETING = b'\x16\x03\x01\x02\x00\x01\x00\x01\xfc\x03\x03'
HALF = b'GET /registries HTTP/1.1\r\nHost: localhost\r\nX-Half: '
HALF_BODY = b'PUT /agents/bob HTTP/1.1\r\nHost: localhost\r\nContent-Length: 9\r\n\r\nhalf'
# What the system keeps for a reader that does not read.
ROOM = 4096
MEGABYTE = bytes(1000000)
TLS = ssl.SSLContext(ssl.PROTOCOL_TLS_CLIENT)
TLS.check_hostname, TLS.verify_mode = False, ssl.CERT_NONE
HEADS, READERS = 3200, 200
# Readers of all places that nginx gives an address, and of those of three addresses.
PLACES, ADDRESSES = 8, ['127.0.1.1', '127.0.1.2', '127.0.1.3']
# The seconds after which a proxy has given back the connections, and the most that it may hold meanwhile: seconds, and megabytes of memory, of all
# temporary files, and of those on the disk.
FREE, MOST = 80, {'wait': 1, 'memory': 250, 'kept': 129, 'disk': 1}
# What readers of three addresses may take of that together: all that nginx has for temporary files. Two hundred of one address take 17.
MORE = {'addresses': {'kept': 257}, 'readers': {'kept': 33}}
# The crowds, and those that ask for so large answers that only nginx keeps anything of them.
CROWDS = {'greetings': HEADS, 'heads': HEADS, 'bodies': READERS, 'idle': READERS, 'readers': READERS, 'strangers': READERS, 'files': READERS}
LARGE = {'address': PLACES, 'addresses': PLACES * len(ADDRESSES)}
# What Debian's Caddy cannot bound, since it counts no requests of an address: others wait while the office answers a crowd that has a token.
UNBOUNDED = {(caddy, 'readers'): {'wait'}}
# Without these lines a crowd does harm: what does it, what is replaced in which file, and what is more than it may be.
BUFFERED = '        buffer_requests\n', '        buffer_requests\n        buffer_responses\n'
HARMS = [(nginx, 'greetings', ('worker_connections 8192', 'worker_connections 768'), 'wait'),
         (nginx, 'greetings', ('LimitNOFILE=65536\n', ''), 'wait'),
         (nginx, 'heads', ('    client_header_timeout 10s;\n', '    client_header_timeout 120s;\n'), 'free'),
         (nginx, 'bodies', ('    client_body_timeout 10s;\n', '    client_body_timeout 120s;\n'), 'free'),
         (nginx, 'readers', ('        limit_conn registry_office 8;\n', ''), 'kept'),
         (nginx, 'idle', ('    keepalive_timeout 20s;\n', '    keepalive_timeout 120s;\n'), 'free'),
         (nginx, 'readers', ('    send_timeout 10s;\n', '    send_timeout 120s;\n'), 'free'),
         (nginx, 'address', ('TemporaryFileSystem=/var/lib/nginx:mode=0755,size=256M\n', ''), 'disk'),
         (nginx, 'address', ('        proxy_max_temp_file_size 16m;\n', ''), 'kept'),
         (nginx, 'addresses', (',size=256M', ''), 'kept'),
         (caddy, 'heads', ('            read_header 10s\n            read_body 10s\n', ''), 'free'),
         (caddy, 'bodies', ('            read_body 10s\n', ''), 'free'),
         (caddy, 'idle', ('            idle 1m\n', ''), 'free'),
         (caddy, 'readers', BUFFERED, 'memory'),
         (caddy, 'strangers', ('        ~^GET::/registries/([a-z0-9-]+)$ /registries/${1}.json\n', ''), 'wait'),
         (caddy, 'files', ('            write 60s\n', ''), 'free')]


def reached(port, address, seconds, room=None):
    """A connection from an address."""
    plain = socket.socket()
    if room:
        plain.setsockopt(socket.SOL_SOCKET, socket.SO_RCVBUF, room)
    plain.settimeout(seconds)
    plain.bind((address, 0))
    plain.connect(('127.0.0.1', port))
    return plain


def connected(port, address, seconds, room=None):
    """A connection by TLS from an address."""
    return TLS.wrap_socket(reached(port, address, seconds, room), server_hostname='localhost')


def asks(path, token=''):
    """The bytes of a request."""
    head = f'Authorization: Bearer {token}\r\n' if token else ''
    return f'GET {path} HTTP/1.1\r\nHost: localhost\r\n{head}\r\n'.encode()


def crowd(port, count, sent, room=None, address=CROWD, come=connected, seconds=10):
    """So many connections on which these bytes were sent, or fewer if the proxy takes no more."""
    peers = []
    with contextlib.suppress(OSError):
        for _ in range(count):
            peers.append(come(port, address, seconds, room))
            peers[-1].sendall(sent)
    return peers


def waited(port, path='/registries'):
    """How many seconds an ordinary client waits for its answer, twenty if there is none."""
    began = time.monotonic()
    with contextlib.suppress(OSError), connected(port, HONEST, 20) as peer:
        peer.sendall(asks(path))
        if b' 200 ' in peer.recv(100):
            return time.monotonic() - began
    return 20.0


class Watched:
    """What a proxy holds: the most since it was watched. `process` is its first process, and `folder` the one for its temporary files."""

    def __init__(self, process, folder, port):
        self.process, self.folder, self.port = process, str(folder), port
        self.before, self.device = self.sockets(), folder.stat().st_dev
        self.most = dict.fromkeys(MOST, 0.0)

    def processes(self):
        children = pathlib.Path(f'/proc/{self.process}/task/{self.process}/children').read_text().split()
        return [pathlib.Path('/proc', name) for name in [str(self.process), *children]]

    def descriptors(self):
        """Each open file of the proxy, with what it names."""
        for own in self.processes():
            with contextlib.suppress(OSError):
                for path in (own / 'fd').iterdir():
                    with contextlib.suppress(OSError):
                        yield path, os.readlink(path)

    def sockets(self):
        return sum(name.startswith('socket:') for _, name in self.descriptors())

    def files(self):
        """The megabytes of all temporary files, and of those on the disk. They have no names any more."""
        kept = disk = 0
        for path, name in self.descriptors():
            if name.startswith(self.folder):
                with contextlib.suppress(OSError):
                    found = path.stat()
                    kept += found.st_blocks
                    disk += found.st_blocks * (found.st_dev == self.device)
        return kept / 2048, disk / 2048

    def memory(self):
        """The megabytes of memory."""
        lines = [line for own in self.processes() for line in (own / 'smaps_rollup').read_text().splitlines() if line.startswith('Pss:')]
        return sum(int(line.split()[1]) for line in lines) / 1024

    def look(self):
        """Looks once, and asks as an ordinary client."""
        for what, found in zip(MOST, (waited(self.port), self.memory(), *self.files()), strict=True):
            self.most[what] = max(self.most[what], found)

    def look_until_free(self, seconds):
        """Looks on until the proxy has given back its connections. Whether it has within a while."""
        end = time.monotonic() + seconds
        while time.monotonic() < end:
            self.look()
            if self.sockets() <= self.before + 5:
                return True
            time.sleep(1)
        return False


# ---- The crowds

def filled(program, file):
    """An office in a new file. The answer about the requests of ALICE's token has 5 MB, and so has the one about the registry `large`."""
    begin(program, file)
    with served(program, file) as port:
        for name in ('codes', 'large'):
            ask(port, 'PUT', f'/desk/registries/{name}/65535', CLERK, RANGES)
        ask(port, 'PUT', '/desk/tokens', CLERK, GRANT)
    with contextlib.closing(sqlite3.connect(file)) as store, store:
        rows = [('alice', f'm-{number:05}', 'code', 'codes', number, 'x' * 190, 'x' * 190, 'withdrawn') for number in range(10000)]
        store.executemany('INSERT INTO requests (account, reference, kind, registry, value, label, contact, state) VALUES (?, ?, ?, ?, ?, ?, ?, ?)', rows)
        rows = [('large', number, 'x' * 190, 'acme', 18262, 0) for number in range(18000)]
        store.executemany('INSERT INTO entries (registry, value, label, assignee, first, renewed) VALUES (?, ?, ?, ?, ?, ?)', rows)


class Quick(http.server.BaseHTTPRequestHandler):
    """Answers as the quickest office would: about somebody's requests 40 MB, and else nothing."""

    timeout = 10

    def do_GET(self):
        parts = 40 if self.path == '/requests' else 0
        self.send_response(200)
        self.send_header('Content-Length', str(parts * len(MEGABYTE)))
        self.end_headers()
        with contextlib.suppress(OSError):
            for _ in range(parts):
                self.wfile.write(MEGABYTE)

    def log_message(self, *words):
        pass


@contextlib.contextmanager
def quick():
    """The port of the quickest office."""
    with http.server.ThreadingHTTPServer(('127.0.0.1', 0), Quick) as server:
        threading.Thread(target=server.serve_forever).start()
        try:
            yield server.server_port
        finally:
            server.shutdown()


@contextlib.contextmanager
def full(program, file):
    """The port of an office in a new file. The answer about the requests of ALICE's token has 5 MB, and so has the one about the registry `large`."""
    filled(program, file)
    with served(program, file) as port:
        yield port


def bounds(what):
    """The most that a crowd may cost."""
    return {**MOST, 'free': FREE, **MORE.get(what, {})}


def begun(what, port):
    """The clients of a crowd, each with its request sent."""
    if what == 'greetings':
        return crowd(port, HEADS, HALF_GREETING, come=reached, seconds=3)
    if what == 'heads':
        return crowd(port, HEADS, HALF)
    if what == 'bodies':
        return crowd(port, READERS, HALF_BODY)
    if what == 'idle':
        return crowd(port, READERS, asks('/registries'))
    if what == 'readers':
        return crowd(port, READERS, asks('/requests', ALICE), ROOM)
    if what in LARGE:
        return [peer for address in ADDRESSES[:LARGE[what] // PLACES] for peer in crowd(port, PLACES, asks('/requests', ALICE), ROOM, address)]
    return crowd(port, READERS, asks('/registries/large' if what == 'strangers' else '/site/large.csv'), ROOM)


def costs(program, proxy, what, changes=None, harm='free'):
    """What a crowd costs a proxy at most, and in `free` how many seconds pass until it has given back the connections; FREE if it has not, or if
    there was harm before."""
    with tempfile.TemporaryDirectory() as name:
        folder = pathlib.Path(name)
        begins = quick() if what in LARGE else full(program, folder / 'office.db')
        with begins as office, proxied(proxy, folder, office, changes) as (port, process):
            (folder / SITE / 'registries').mkdir()
            for file in ('large.csv', 'registries/large.json'):
                (folder / SITE / file).write_bytes(os.urandom(5000000))
            watched = Watched(process, folder / KEPT, port)
            peers = begun(what, port)
            watched.look()
            began = time.monotonic()
            is_free = (harm == 'free' or watched.most[harm] < bounds(what)[harm]) and watched.look_until_free(FREE)
            for peer in peers:
                peer.close()
            return {**watched.most, 'free': time.monotonic() - began if is_free else FREE, 'came': len(peers)}


def harms(proxy, what, found):
    """What a crowd cost a proxy too much of."""
    return {name for name, most in bounds(what).items() if found[name] >= most} - UNBOUNDED.get((proxy, what), set())


def crowds(tally, program, proxy):
    """Each crowd does no harm."""
    for what, count in {**CROWDS, **(LARGE if proxy == nginx else {})}.items():
        found = costs(program, proxy, what)
        print(f'{proxy.__name__}, {what}:', {name: round(value, 2) for name, value in found.items()}, flush=True)
        tally.judge(not harms(proxy, what, found) and found['came'] == count, f'{proxy.__name__}: {what} cost {found}')


def weaker(tally, program):
    """Each line that keeps a crowd off is needed: without it the crowd does harm."""
    for proxy, what, (old, new), harm in HARMS:
        found = costs(program, proxy, what, {old: new}, harm)
        print(f'{proxy.__name__}, {what}, without {old.strip()}:', {name: round(value, 2) for name, value in found.items()}, flush=True)
        tally.judge(found[harm] >= bounds(what)[harm], f'{proxy.__name__}: {what} did no harm without {old.strip()}: {found}')
