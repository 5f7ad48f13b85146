"""What the proxies answer from the published files."""
import pathlib
import subprocess
import tempfile

from lib.office import ALICE, CLERK, GRANT, RANGES, Served, ask, begin
from lib.proxies import SITE, proxied

# What a request without a token gets from a file, and what has no file.
FILES, OFFICES = ['/registries/codes', '/listings/registries/codes', '/listings/blocks', '/pool'], ['/registries', '/registries/other', '/registries/codes?a']


def filled(port):
    """A registry, an applicant, and a value that it asked for and got."""
    ask(port, 'PUT', '/desk/registries/codes/65535', CLERK, RANGES)
    ask(port, 'PUT', '/desk/tokens', CLERK, GRANT)
    ask(port, 'PUT', '/desk/pool/8C1F64', CLERK)
    for reference, wanted in (('a', '{"kind":"code","registry":"codes","value":7,"label":"Seven","contact":"Alice"}'),
                              ('b', '{"kind":"block","size":"MA-S","organization":"Acme","address":"1 Road"}')):
        ask(port, 'PUT', f'/requests/{reference}', ALICE, wanted)
        ask(port, 'PUT', f'/desk/approve/alice/{reference}', CLERK)


def published(tally, program, proxy, by_tls):
    """Without a token, a file with the same bytes as the office's answer, also while the office is stopped; by a token, the office's answer."""
    with tempfile.TemporaryDirectory() as name:
        folder = pathlib.Path(name)
        begin(program, folder / 'office.db')
        with Served(program, folder / 'office.db') as office:
            filled(office.port)
            with proxied(proxy, folder, office.port) as (own, _):
                def asked(path, token=''):
                    return by_tls(own, folder / 'fullchain.pem', ('GET', path, token, ''))

                subprocess.run([program, 'publish', f'http://127.0.0.1:{office.port}', folder / SITE], stdout=subprocess.DEVNULL, check=True)
                right = {path: asked(path, ALICE) for path in FILES}
                tally.judge(all(status.startswith('200 ') and body for status, body in right.values()), f'{proxy.__name__}: the office answered {right}')
                office.kill()
                office.wait()
                for path in FILES:
                    got = asked(path)
                    tally.judge(got == right[path], f'{proxy.__name__}: {path}\n  gave {got!r}\n  in place of {right[path]!r}')
                for path, token in [*((path, ALICE) for path in FILES), *((path, '') for path in OFFICES)]:
                    got = asked(path, token)[0]
                    tally.judge(got.startswith('502'), f'{proxy.__name__}: {path} gave {got} while the office was stopped')
