"""Offices of the built program as tools need them: begun, served, asked and stopped, and a count of what was right."""
import contextlib
import http.client
import json
import pathlib
import socket
import subprocess
import sys
import time

CLERK, ALICE = 'clerk-token-00001', 'alice-token-00001'
# The body that makes ALICE's token one of the applicant alice, until the end of the year 2999.
GRANT = json.dumps({'account': 'alice', 'kind': 'applicant', 'token': ALICE, 'until': 32503680000})
RANGES = 'lo,hi,treatment,note\n0,65535,first-come-first-served,\n'
SECONDS = 120


class Tally:
    """Counts what is right and what is not, and prints a line for what is not."""

    def __init__(self):
        self.passed = self.failed = 0

    def judge(self, good, complaint):
        self.passed += bool(good)
        self.failed += not good
        if not good:
            print(complaint, flush=True)
        return good

    def end(self):
        """Prints the last line, and gives the exit status."""
        print(f'{self.passed} passed, {self.failed} failed')
        return 1 if self.failed else 0


# ---- Starting and stopping

def free_port():
    """A port of 127.0.0.1 that nobody uses."""
    with socket.create_server(('127.0.0.1', 0)) as free:
        return free.getsockname()[1]


def reachable(port):
    """Waits until somebody listens at a port, for a minute at most."""
    for _ in range(1200):
        with socket.socket() as probe:
            if probe.connect_ex(('127.0.0.1', port)) == 0:
                return
        time.sleep(0.05)
    sys.exit(f'nobody listens on {port}')


def begin(program, file, clerk=CLERK):
    """Begins an office in a new file."""
    subprocess.run([program, 'init', file, '--clerk', clerk], stdout=subprocess.DEVNULL, check=True)


class Served(subprocess.Popen):
    """A process that serves the office in a file, at this port or at one that is free; in a `with`, it is killed at the end.

    `line` is what it printed first. The words are more arguments of `serve`, and the options those of Popen.
    """

    def __init__(self, program, file, *words, port=None, **options):
        self.port = port or free_port()
        words = map(str, [program, 'serve', file, '--port', self.port, *words])
        super().__init__([*words], **{'stdout': subprocess.PIPE, **options})
        try:
            self.line = self.stdout.readline().decode()
        except BaseException:
            # (nobody has the process yet to end it)
            self.kill()
            raise

    def listens(self):
        """Whether it printed that it listens."""
        return self.line == f'listening on 127.0.0.1:{self.port}\n'

    def __exit__(self, *fault):
        self.kill()
        super().__exit__(*fault)


def memory(process, name):
    """The bytes of a process's memory that Linux counts under this name."""
    for line in pathlib.Path(f'/proc/{process.pid}/status').read_text().splitlines():
        if line.startswith(f'{name}:'):
            return 1024 * int(line.split()[1])
    sys.exit(f'Linux counts no {name}')


@contextlib.contextmanager
def served(program, file, *words, **options):
    """The port of an office that is served meanwhile."""
    with Served(program, file, *words, **options) as server:
        if not server.listens():
            sys.exit('the program does not listen')
        yield server.port


# ---- Asking

def ask(port, method, path, token='', body='', seconds=SECONDS):
    """The status and the text of the answer to a request on a connection of its own."""
    connection = http.client.HTTPConnection('127.0.0.1', port, timeout=seconds)
    try:
        connection.request(method, path, body.encode() or None, {'Authorization': f'Bearer {token}'} if token else {})
        answer = connection.getresponse()
        return answer.status, answer.read().decode()
    finally:
        connection.close()


def exchange(port, data, ends=False, seconds=SECONDS):
    """The bytes that are answered to these bytes; with `ends`, the connection is closed for more of them."""
    with socket.create_connection(('127.0.0.1', port), timeout=seconds) as peer:
        peer.sendall(data)
        if ends:
            peer.shutdown(socket.SHUT_WR)
        return b''.join(iter(lambda: peer.recv(65536), b''))


# ---- An office in a file

class Office(Tally):
    """An office in a new file, with a registry `codes` of 65,536 values, and a count of what was right about it."""

    def __init__(self, program, file, ranges):
        super().__init__()
        self.program, self.file = str(pathlib.Path(program).resolve()), file
        ranges.write_text(RANGES)
        self.judge_run((0, 'ready\n', ''), 'init', file, '--clerk', CLERK)
        self.judge_run((0, '200 {"defined":"codes"}\n', ''), 'define', file, 'codes', '65535', ranges, '--clerk', CLERK)

    def run(self, *words, output=subprocess.PIPE):
        """What a job gives: the exit status, standard output and standard error."""
        done = subprocess.run([self.program, *map(str, words)], stdin=subprocess.DEVNULL, stdout=output, stderr=subprocess.PIPE,
                              timeout=SECONDS, check=False)
        return done.returncode, (done.stdout or b'').decode(), done.stderr.decode()

    def judge_run(self, wanted, *words, output=subprocess.PIPE):
        """Whether a job gives this."""
        given = self.run(*words, output=output)
        self.judge(given == wanted, f'{words[0]} gave {given}, and not {wanted}')


def wish(contact):
    """The body of a request for the least value of `codes`."""
    return json.dumps({'contact': contact, 'kind': 'code', 'label': 'L', 'least': 'first-come-first-served', 'registry': 'codes'})
