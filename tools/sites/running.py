"""Runs of the built program, at moments of a clock that can be set, and what became of them."""
import contextlib
import datetime
import os
import pathlib
import subprocess

from lib.office import served

SECONDS = 600


def text_of(moment):
    """A moment, in seconds since 1970, as the files of a site show it."""
    return datetime.datetime.fromtimestamp(moment, datetime.timezone.utc).strftime('%Y-%m-%dT%H:%M:%SZ')


# A clock that stands still, laid over that of the system.
CLOCK = r'''
#define _GNU_SOURCE
#include <stdlib.h>
#include <sys/syscall.h>
#include <time.h>
#include <unistd.h>
int clock_gettime(clockid_t clock, struct timespec *now) {
    const char *moment = getenv("STOPPED_CLOCK");
    if (clock != CLOCK_REALTIME || !moment) return syscall(SYS_clock_gettime, clock, now);
    now->tv_sec = atoll(moment);
    now->tv_nsec = 0;
    return 0;
}
'''


class Program:
    """The built program, with a folder for the clock that it is given."""

    def __init__(self, path, tally, folder):
        self.path, self.tally, self.shim = str(pathlib.Path(path).resolve()), tally, str(folder / 'clock.so')
        source = folder / 'clock.c'
        source.write_text(CLOCK)
        subprocess.run(['cc', '-shared', '-fPIC', '-O1', '-o', self.shim, source], check=True)

    def clock(self, moment):
        """The environment in which the clock stands still at this moment, or that of this process."""
        return None if moment is None else {**os.environ, 'LD_PRELOAD': self.shim, 'STOPPED_CLOCK': str(moment)}

    def done(self, words, moment=None, given=''):
        """What a job gave, with this on standard input."""
        return subprocess.run([self.path, *map(str, words)], input=given, capture_output=True, text=True, timeout=SECONDS, env=self.clock(moment))

    def run(self, words, wanted, moment=None, given=''):
        """A job that prints just this, and nothing on standard error."""
        self.ends(words, (0, wanted, ''), moment, given)

    def faults(self, words, fault, moment=None):
        """A job that prints nothing, and says this on standard error."""
        self.ends(words, (1, '', fault), moment)

    def ends(self, words, wanted, moment=None, given=''):
        done = self.done(words, moment, given)
        self.tally.judge((done.returncode, done.stdout, done.stderr) == wanted, f'{" ".join(map(str, words))} gave {done.returncode} '
                         f'{done.stdout[-300:]!r} {done.stderr[-300:]!r}, not {wanted}')

    def begun(self, words, moment=None):
        """A job that goes on."""
        return subprocess.Popen([self.path, *map(str, words)], stdin=subprocess.DEVNULL, stdout=subprocess.PIPE, stderr=subprocess.PIPE,
                                text=True, env=self.clock(moment))

    @contextlib.contextmanager
    def serving(self, file, moment=None):
        """The address of an office that is served meanwhile."""
        with served(self.path, file, stdin=subprocess.DEVNULL, stderr=subprocess.DEVNULL, env=self.clock(moment)) as port:
            yield f'http://127.0.0.1:{port}'


# ---- Files

def files_below(folder):
    """Each file below a folder, but for that of its lock."""
    return [path for path in folder.rglob('*') if path.is_file() and path.name != '.lock']


def contents(folder):
    return {str(path.relative_to(folder)): path.read_bytes() for path in files_below(folder)}


def marks(folder):
    """When and where each file was written."""
    return {str(path.relative_to(folder)): (path.stat().st_ino, path.stat().st_mtime_ns) for path in files_below(folder)}


def others(first, second):
    """The names under which two dictionaries have other things."""
    return sorted(name for name in first.keys() | second.keys() if first.get(name) != second.get(name))
