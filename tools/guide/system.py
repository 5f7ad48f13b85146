"""systemd in namespaces of its own, where the commands of docs/use/OPERATING.md are run and what they print is compared."""
import contextlib
import os
import pathlib
import re
import signal
import subprocess
import time

from lib.office import Tally

TOP = pathlib.Path(__file__).resolve().parent.parent.parent
PAGE = TOP / 'docs/use/OPERATING.md'
KEYS = '/etc/letsencrypt/live/registry.example.org'
DATABASE, OFFICE = '/var/lib/registry/office.db', 'http://127.0.0.1:880'
# Where mail goes, and the timers. They are started, but not waited for.
MAIL, TIMERS = '/var/mail/trial', ['registry-publish', 'registry-watch', 'registry-due']
# Lays a folder of memory over the files of a system, and has systemd be the first process there. The package and an older office are in /root.
BOOT = r'''set -e; mount -t tmpfs tmpfs "$1"; cd "$1"; mkdir u w m
mount -t overlay overlay -o lowerdir="$4",upperdir=u,workdir=w m; cd m
cp "$2" "$3/tools/office-1.sql" "$3/tools/guide/odd.py" root/
mount -t tmpfs tmpfs dev -o mode=755; mkdir dev/pts dev/shm; ln -s pts/ptmx dev/ptmx
mount -t devpts devpts dev/pts -o newinstance,ptmxmode=666
for n in null zero full random urandom tty; do touch dev/$n; mount --bind /dev/$n dev/$n; done
mount -t proc proc proc; mount --bind proc/sys proc/sys; mount -o remount,ro,bind proc/sys
mount -t sysfs -o ro sysfs sys; mount -t tmpfs tmpfs sys/fs/cgroup; mount -t cgroup2 cgroup2 sys/fs/cgroup
mount -t tmpfs tmpfs run -o mode=755; mount -t tmpfs tmpfs tmp -o mode=1777; hostname trial
mkdir old; pivot_root . old; umount -l old; rmdir old
exec setpriv --bounding-set -sys_time,-sys_module,-sys_rawio,-syslog --inh-caps -sys_time,-sys_module,-sys_rawio,-syslog \
  env -i container=other PATH=/usr/sbin:/usr/bin:/sbin:/bin /lib/systemd/systemd --system --unit=basic.target'''
KEY = f'''openssl req -x509 -newkey rsa:2048 -nodes -days 90 -subj /CN=registry.example.org -addext subjectAltName=DNS:registry.example.org \\
  -keyout {KEYS}/privkey.pem -out {KEYS}/fullchain.pem 2>&1; chmod 644 {KEYS}/privkey.pem'''
CERTIFICATE = f'''set -e; echo 127.0.0.1 registry.example.org >>/etc/hosts; mkdir -p {KEYS}
{KEY}
touch {MAIL}; chmod 666 {MAIL}; printf '#!/bin/sh\ncat >>{MAIL}\n' >/usr/local/bin/mail; chmod 755 /usr/local/bin/mail
for name in {' '.join(TIMERS)}; do
    mkdir -p /etc/systemd/system/$name.timer.d
    printf '[Timer]\nOnCalendar=\nOnCalendar=2150-01-01\n' >/etc/systemd/system/$name.timer.d/trial.conf
done'''
# What the kills left in the journal is not to be found.
FORGET = 'journalctl -q --rotate; journalctl -q --vacuum-time=1s'


class System:
    """systemd in namespaces of its own, over the files of this machine or of another folder, with a package in /root.

    `root` is its folder `/`, and `clock` the variables that give its commands another time.
    """

    def __init__(self, folder, package, below='/'):
        self.tally, self.clock = Tally(), {}
        mounts = [line.split() for line in pathlib.Path('/proc/self/mounts').read_text().splitlines()]
        self.group = pathlib.Path(next(mount[1] for mount in mounts if mount[2] == 'cgroup2')) / f'try-running-{os.getpid()}'
        self.group.mkdir()
        inside = 'exec unshare --pid --fork --mount --uts --ipc --net --cgroup --propagation private "$@"'
        self.outer = subprocess.Popen(['sh', '-c', f'echo $$ >{self.group}/cgroup.procs; {inside}', 'sh', 'sh', '-c', BOOT, 'sh', folder, package, TOP, below],
                                      stdin=subprocess.DEVNULL)
        children = pathlib.Path(f'/proc/{self.outer.pid}/task/{self.outer.pid}/children')
        while self.outer.poll() is None and not children.read_text().split():
            time.sleep(0.1)
        self.first = int((children.read_text().split() or [self.outer.pid])[0])
        self.root = pathlib.Path(f'/proc/{self.first}/root')

    def run(self, command):
        """What a command prints, what it says on standard error, and its exit status."""
        words = ['nsenter', '-t', str(self.first), '-p', '-m', '-u', '-i', '-n', '-C', 'env', *(f'{name}={value}' for name, value in self.clock.items()),
                 'sh', '-c', f'cd /root; {command}']
        env = {'PATH': '/usr/local/sbin:/usr/local/bin:/usr/sbin:/usr/bin:/sbin:/bin', 'HOME': '/root', 'CURL_CA_BUNDLE': f'{KEYS}/fullchain.pem'}
        try:
            done = subprocess.run(words, env=env, capture_output=True, timeout=120, check=False)
        except subprocess.TimeoutExpired:
            return '', 'it took more than two minutes', 1
        return done.stdout.decode(), done.stderr.decode(), done.returncode

    def expect(self, command, wanted):
        """Runs a command, and compares what it prints, its lines joined by commas. `..` at one end stands for anything."""
        printed, errors, status = self.run(command)
        got = ', '.join(printed.splitlines())
        pattern = '.*'.join(map(re.escape, wanted.split('..'))) if wanted.startswith('..') or wanted.endswith('..') else re.escape(wanted)
        self.tally.judge(status == 0 and (not wanted or re.fullmatch(pattern, got)),
                         f'FAILED: {command}\n  printed {got!r}, {errors!r}, status {status}, in place of {wanted!r}')
        return printed

    def is_up(self):
        """Whether systemd is up within a while."""
        for _ in range(100):
            if self.run('systemctl is-system-running')[0].strip() in ('running', 'degraded'):
                return True
            time.sleep(0.3)
        return False

    def end(self):
        """Kills all of it, with its groups."""
        for process in (self.outer.pid, self.first):
            os.kill(process, signal.SIGKILL)
        self.outer.wait()
        while self.group.is_dir():
            time.sleep(0.1)
            for group in [*sorted((path for path in self.group.rglob('*') if path.is_dir()), reverse=True), self.group]:
                with contextlib.suppress(OSError):
                    group.rmdir()


def packaged(program, folder, *words):
    """The package that tools/package makes of the program, in a folder."""
    printed = subprocess.run([TOP / 'tools/package', program, folder, *words], stdout=subprocess.PIPE, encoding='utf-8', check=True).stdout
    return pathlib.Path(printed.split()[0])


def blocks():
    """Of each block of commands of the page its heading and its place below that, and its commands with what each has to print."""
    for part in PAGE.read_text().split('\n## ')[1:]:
        for place, block in enumerate(re.findall(r'^```sh\n(.*?)^```', part, re.M | re.S)):
            yield (part.split('\n')[0], place), [line.partition(' # ')[::2] for line in block.splitlines()]
