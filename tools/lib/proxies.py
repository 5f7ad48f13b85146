"""nginx and Caddy before an office, by the files that the package has for them, each in a folder and on a port of its own."""
import contextlib
import os
import pathlib
import re
import resource
import subprocess

from lib.office import free_port, reachable

TOP = pathlib.Path(__file__).resolve().parent.parent.parent
EXAMPLES = TOP / 'packaging/examples'
KEYS = '/etc/letsencrypt/live/registry.example.org'
# The folder has these parts: the published site, the page in desk/, what is kept for slow readers, and the log.
PARTS = SITE, DESK, KEPT = 'site', 'desk', 'kept'
LOG = 'access.log'
# What systemd gives a service that does not say: descriptors, and the options of a folder in memory.
DESCRIPTORS, ROOM = 1024, 'nodev,mode=0755,size=10%,nr_inodes=400k'


def changed(text, changes):
    """A text with each of these parts replaced, all of which it has."""
    for old, new in changes.items():
        if old not in text:
            raise LookupError(f'there is no {old!r}')
        text = text.replace(old, new)
    return text


def parted(text, changes):
    """Those of the changes that are about a text, and the others."""
    return {old: new for old, new in changes.items() if old in text}, {old: new for old, new in changes.items() if old not in text}


def own_places(folder, office):
    """What the files of both proxies name, and what stands for it here."""
    return {'127.0.0.1:880': f'127.0.0.1:{office}', '/srv/www/registers': f'{folder}/{SITE}', '/usr/share/reg-cli/desk': f'{folder}/{DESK}'}


def limited(folder, words, service):
    """The words that start nginx with the limits that this text gives its service, which only root can set: descriptors, or as many as there may be here, and
    a folder in memory."""
    if os.geteuid():
        return words
    files = re.search('^LimitNOFILE=(.*)$', service, re.M)
    room = re.search('^TemporaryFileSystem=/var/lib/nginx:(.*)$', service, re.M)
    limits = [f'ulimit -S -n {min(int(files[1]) if files else DESCRIPTORS, resource.getrlimit(resource.RLIMIT_NOFILE)[1])}']
    limits += [f'mount -t tmpfs -o {ROOM},{room[1]} tmpfs {folder}/{KEPT}'] if room else []
    return ['unshare', '--mount', 'sh', '-ec', f'{"; ".join(limits)}; exec "$@"', 'sh', *words]


def nginx(folder, office, own, changes):
    """The words that start nginx as its service does, by Debian's nginx.conf with the lines of docs/use/OPERATING.md that change it."""
    syslog = 'syslog:server=unix:/dev/log,nohostname,tag=registry_nginx'
    server = changed((EXAMPLES / 'nginx-registry.conf').read_text(), {
        **own_places(folder, office), '    listen [::]:443 ssl default_server;\n': '', 'listen 443 ': f'listen 127.0.0.1:{own} ',
        'registry.example.org;': 'localhost;', f'{KEYS}/': f'{folder}/', f'access_log {syslog}': f'access_log {folder}/{LOG}',
        f'error_log {syslog}': f'error_log {folder}/error.log'})
    own_changes, others = parted(server, changes)
    (folder / 'registry.conf').write_text(changed(server, own_changes))
    service = (EXAMPLES / 'nginx-service.conf').read_text()
    of_service, others = parted(service, others)
    [line] = re.findall(r"^sed -i '(.*)' /etc/nginx/nginx.conf", (TOP / 'docs/use/OPERATING.md').read_text(), re.M)
    text = subprocess.run(['sed', line, '/etc/nginx/nginx.conf'], capture_output=True, text=True, check=True).stdout
    kept = ''.join(f'{kind}_temp_path {folder}/{KEPT}/{kind}; ' for kind in ('client_body', 'proxy', 'fastcgi', 'uwsgi', 'scgi'))
    (folder / 'nginx.conf').write_text(changed(text, {
        **others, 'worker_processes auto;': 'worker_processes 2;',
        '/run/nginx.pid': f'{folder}/pid', '/var/log/nginx/error.log': f'{folder}/error.log', '/var/log/nginx/access.log': f'{folder}/other.log',
        'include /etc/nginx/conf.d/*.conf;': f'{kept}\n', 'include /etc/nginx/sites-enabled/*;': f'include {folder}/registry.conf;'}))
    words = ['nginx', '-e', folder / 'error.log', '-p', folder, '-c', folder / 'nginx.conf', '-g', 'daemon off;']
    return limited(folder, words, changed(service, of_service))


def caddy(folder, office, own, changes):
    """The words that start Caddy. It gets no certificate from elsewhere, and leaves port 80 alone."""
    text = changed((EXAMPLES / 'Caddyfile').read_text(), {
        **own_places(folder, office), '/var/log/caddy/registry.log': f'{folder}/{LOG}',
        '\n{\n': f'\n{{\n    admin off\n    auto_https disable_redirects\n    storage file_system {folder}\n',
        'registry.example.org {': f'https://localhost:{own} {{\n    bind 127.0.0.1\n    tls {folder}/fullchain.pem {folder}/privkey.pem'})
    (folder / 'Caddyfile').write_text(changed(text, changes))
    return ['caddy', 'run', '--config', folder / 'Caddyfile', '--adapter', 'caddyfile']


def with_key(folder):
    """Makes a key, and a certificate of `localhost` that is valid for a day."""
    subprocess.run(['openssl', 'req', '-x509', '-newkey', 'ec', '-pkeyopt', 'ec_paramgen_curve:prime256v1', '-nodes', '-days', '1', '-subj', '/CN=localhost',
                    '-addext', 'subjectAltName=DNS:localhost', '-keyout', folder / 'privkey.pem', '-out', folder / 'fullchain.pem'],
                   check=True, capture_output=True)


@contextlib.contextmanager
def proxied(proxy, folder, office, changes=None):
    """The port of a proxy before an office, and its first process. `changes` are parts of its file that are replaced."""
    own = free_port()
    folder.chmod(0o755)
    for part in PARTS:
        (folder / part).mkdir(exist_ok=True)
    with_key(folder)
    words, said = proxy(folder, office, own, changes or {}), (folder / 'said.log').open('wb')
    with said, subprocess.Popen(words, env={**os.environ, 'HOME': str(folder)}, stdout=said, stderr=said) as running:
        try:
            reachable(own)
            yield own, running.pid
        finally:
            running.terminate()
