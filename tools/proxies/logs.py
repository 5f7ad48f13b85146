"""What the proxies log of requests that only one caller may know of."""
import pathlib
import tempfile

from guide import odd
from lib.office import free_port
from lib.proxies import caddy, nginx, proxied

# Without these lines a log has private paths.
LINES = [(nginx, (' alert;', ' error;')),
         (nginx, (' registry if=$is_logged;', ' combined;')),
         (caddy, ('        exclude http.log http.handlers\n', '')),
         (caddy, ('                request>uri delete\n', '')),
         (caddy, ('                request>headers delete\n', ''))]


def named(proxy, changes=None):
    """How many lines of all logs name something secret, after odd requests to a proxy whose office cannot be reached."""
    with tempfile.TemporaryDirectory() as name:
        folder = pathlib.Path(name)
        with proxied(proxy, folder, free_port(), changes) as (own, _):
            for data in (data for path in odd.PATHS for kind in (odd.lines, odd.heads) for data in kind(path)):
                for by_tls in (True, False):
                    odd.send(data.replace(odd.NAME.encode(), f'localhost:{own}'.encode()), own, by_tls, 'localhost')
        logs = b''.join(path.read_bytes() for path in folder.glob('*.log'))
        return sum(odd.WORD.encode() in line for line in logs.split(b'\n'))


def logs(tally, proxy):
    """No log names anything secret."""
    found = named(proxy)
    tally.judge(found == 0, f'{proxy.__name__}: {found} lines of its logs have a private path')


def weaker_logs(tally):
    """Each line that keeps private paths out of a log is needed."""
    for proxy, (old, new) in LINES:
        found = named(proxy, {old: new})
        print(f'{proxy.__name__}, without {old.strip()}: {found} lines have a private path', flush=True)
        tally.judge(found > 0, f'{proxy.__name__}: no line has a private path without {old.strip()}')
