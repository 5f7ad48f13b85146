"""A case: a folder in which steps are taken, and what a step wants."""
import ast
import contextlib
import os
import pathlib
import shutil
import sqlite3
import subprocess

# How the lines end that are said plainly, and those whose bytes are written as Python writes them.
PLAIN, WRITTEN = {'': b'\n', '|': b''}, {'\\': b'\n', '\\|': b'', ':': b'\r\n'}
JSON = 'HTTP/1.1 {}\nContent-Type: application/json\nContent-Length: {}\nConnection: close\n\n{}'
# The head of a file of a site.
FILE = ("HTTP/1.1 200 OK\nContent-Type: {}\nContent-Length: {}\nCache-Control: no-cache\nReferrer-Policy: no-referrer\nX-Content-Type-Options: nosniff\n"
        "Content-Security-Policy: default-src 'none'; script-src 'self'; style-src 'self'; img-src 'self'; connect-src 'self'; base-uri 'none'; "
        "form-action 'none'; frame-ancestors 'none'\nConnection: close\n\n{}")
ANSWERS = {'json': JSON, 'file': FILE}
NEVER, MAYBE, ALWAYS = range(3)


def said(kind, text):
    """The bytes that a line of a text stands for, by what follows its `>` or `<`."""
    if kind.startswith('='):
        numbers, _, line = text.partition(' ')
        first, _, last = numbers.rpartition('..')
        numbers = range(int(first), int(last) + 1) if first else range(int(last))
        return b''.join(said(kind[1:], line.replace('#', str(number))) for number in numbers)
    if kind == '*':
        count, _, repeated = text.partition(' ')
        return ast.literal_eval(f"b'{repeated or 'x'}'") * int(count)
    if kind in ANSWERS:
        first, _, body = text.partition(': ')
        return ANSWERS[kind].format(first, len(body.encode()), body).replace('\n', '\r\n').encode()
    if kind in WRITTEN:
        return ast.literal_eval(f"b'{text}'") + WRITTEN[kind]
    return text.encode() + PLAIN[kind]


class Step:
    """A line that says what is done, and what it is given and what is wanted of it."""

    def __init__(self, line):
        self.line, self.given, self.wanted = line, b'', b''

    def put(self, line):
        """Reads a line below the first."""
        mark, _, text = line.partition(' ')
        if mark[0] == '>':
            self.given += said(mark[1:], text)
        else:
            self.wanted += said(mark[1:], text)


class Differs(Exception):
    """Something is otherwise than a step wants it."""


def wants(found, wanted, what):
    if found != wanted:
        raise Differs(f'{what}: {found!r}, and not {wanted!r}')


class Case:
    """The folder of a case, in which steps are taken one after the other."""

    def __init__(self, program, shim, folder):
        self.program, self.shim, self.folder = program, shim, pathlib.Path(folder)
        # The moment of the clock, if it is not that of the machine.
        self.moment = None

    def surroundings(self, **named):
        """The environment of the program, in which these names have these values: those of tools/lib/shims.py, STANDING."""
        if self.moment:
            named['MOMENT'] = self.moment
        return dict(os.environ, LD_PRELOAD=self.shim, **named) if named else None

    def run(self, words, given=b'', before=(), **streams):
        """What the program gives, after these words: the exit status, standard output and standard error."""
        words = ['' if word == "''" else word for word in words.split(' ')] if words else []
        streams = {'input': given, 'stdout': subprocess.PIPE, 'stderr': subprocess.PIPE, 'env': self.surroundings(), **streams}
        ran = subprocess.run([*before, self.program, *words], cwd=self.folder, timeout=60, **streams)
        return ran.returncode, ran.stdout, ran.stderr

    def path(self, file):
        return self.folder / file

    def copy(self, file, new):
        if self.path(file).is_dir():
            for path, data in self.below(file).items():
                self.path(f'{new}/{path}').parent.mkdir(parents=True, exist_ok=True)
                self.path(f'{new}/{path}').write_bytes(data)
            return
        for ending in ('', '-wal'):
            self.path(new + ending).unlink(missing_ok=True)
            if self.path(file + ending).exists():
                shutil.copyfile(self.path(file + ending), self.path(new + ending))

    def found(self, file, statement):
        """The rows that SQLite finds by a statement in a file, if it finds any; or what it carries out there."""
        with contextlib.closing(sqlite3.connect(self.path(file), isolation_level=None)) as database:
            database.execute('PRAGMA foreign_keys = ON')
            return database.execute(statement).fetchall()

    def files(self):
        return {path.name: path.read_bytes() for path in self.folder.iterdir() if path.is_file()}

    def below(self, folder):
        """The bytes of each file below a folder, by its path from there. There is one at least."""
        top = self.path(folder)
        files = {path.relative_to(top).as_posix(): path.read_bytes() for path in top.rglob('*') if path.is_file()}
        wants(bool(files), True, f'files below {folder}')
        return files

    def take(self, step, steps):
        """Takes a step, by a table of what is done, and when something is given or wanted."""
        word, _, rest = step.line.partition(' ')
        if word not in steps:
            raise ValueError(step.line)
        call, *when = steps[word]
        for text, may in zip((step.given, step.wanted), when):
            if may == NEVER and text or may == ALWAYS and not text:
                raise ValueError(step.line)
        call(self, rest, step.given, step.wanted)
