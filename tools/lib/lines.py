"""Offices that are asked by lines, over lists or over a file, and how long the answers take. A line has no moment: `TOKEN METHOD PATH BODY`."""
import subprocess
import sys
import time

from lib.office import CLERK, Served, exchange, free_port, memory

MOMENT = 1700000000
UNTIL = 4102444800
# How many lines are sent before their answers are read.
LINES = 250


class Lines:
    """A running program that answers lines over lists. In a `with`, it is ended at the end, or killed after a fault."""

    def __init__(self, program):
        # The pipes have room for long answers, so that the program does not wait for this one to read them.
        self.process = subprocess.Popen([program, 'script', '--clerk', CLERK], stdin=subprocess.PIPE, stdout=subprocess.PIPE,
                                        pipesize=1 << 20)

    def ask(self, lines, status):
        """Sends the lines, a few at a time, and gives the seconds until all are answered, each with this status."""
        return sum(self.ask_few(lines[first:first + LINES], status) for first in range(0, len(lines), LINES))

    def ask_few(self, lines, status):
        text = ''.join(f'{MOMENT} {line}\n' for line in lines).encode()
        start = time.perf_counter()
        self.process.stdin.write(text)
        self.process.stdin.flush()
        for line in lines:
            answer = self.process.stdout.readline()
            if not answer.startswith(status):
                sys.exit(f'{line}\n  is answered {answer.decode().strip()!r}')
        return time.perf_counter() - start

    def answer(self, line):
        """The answer to one line."""
        self.process.stdin.write(f'{MOMENT} {line}\n'.encode())
        self.process.stdin.flush()
        return self.process.stdout.readline()

    def memory(self, name):
        """The bytes of the program's memory that Linux counts under this name."""
        return memory(self.process, name)

    def end(self):
        self.process.stdin.close()
        if self.process.wait():
            sys.exit('the program failed')

    def __enter__(self):
        return self

    def __exit__(self, kind, *fault):
        if kind:
            self.process.kill()
            self.process.wait()
        else:
            self.end()


class FiledLines(Lines):
    """The same over a file, served over HTTP: each line is a request on a connection of its own."""

    def __init__(self, program, file):
        self.program, self.file = program, file
        self.open()

    def open(self):
        """Serves the office, and gives the seconds until the program listens."""
        port = free_port()
        start = time.perf_counter()
        self.process = Served(self.program, self.file, port=port)
        if not self.process.listens():
            sys.exit('the program does not listen')
        return time.perf_counter() - start

    def ask_few(self, lines, status):
        requests = [request(line) for line in lines]
        start = time.perf_counter()
        answers = [exchange(self.process.port, asked, seconds=None) for asked in requests]
        seconds = time.perf_counter() - start
        for line, answer in zip(lines, map(as_of_line, answers)):
            if not answer.startswith(status):
                sys.exit(f'{line}\n  is answered {answer.decode().strip()!r}')
        return seconds

    def answer(self, line):
        return as_of_line(exchange(self.process.port, request(line), seconds=None))

    def end(self):
        self.process.terminate()
        self.process.wait()


def as_of_line(answer):
    """The answer over HTTP as a line of a script is answered: the status and the body."""
    head, _, body = answer.partition(b'\r\n\r\n')
    return head[9:13] + body


def request(line):
    """The request over HTTP that a line of a script spells."""
    who, method, path, *rest = line.split(' ', 3)
    body = rest[0].replace('\t', '\n') if rest else ''
    shown = '' if who == '-' else f'Authorization: Bearer {who}\r\n'
    kind = 'application/json' if body.startswith('{') else 'text/csv'
    about = f'Content-Type: {kind}\r\nContent-Length: {len(body)}\r\n' if body else ''
    return f'{method} {path} HTTP/1.1\r\nHost: localhost\r\n{shown}{about}\r\n{body}'.encode()


def token(account):
    return f'token-of-account-{account}'


def grant(kind, account):
    return f'{CLERK} PUT /desk/tokens {{"account":"{account}","kind":"{kind}","token":"{token(account)}","until":{UNTIL}}}'
