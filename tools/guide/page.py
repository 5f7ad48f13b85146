"""The page from its first block to its last, and what is done between the blocks."""
from guide.losses import DEFINE, losses
from guide.odd import WORD
from guide.system import CERTIFICATE, DATABASE, FORGET, KEYS, MAIL, OFFICE, blocks

CADDY = f"systemctl stop nginx; sed -i 's#^registry.example.org {{#&\\n    tls {KEYS}/fullchain.pem {KEYS}/privkey.pem#' /etc/caddy/Caddyfile"
# One client sends half of a body and waits, and another asks.
SLOW = f'''python3 -c "
import socket, ssl, time
def sent(text):
    peer = ssl.create_default_context(cafile='{KEYS}/fullchain.pem').wrap_socket(
        socket.create_connection(('127.0.0.1', 443)), server_hostname='registry.example.org')
    peer.sendall(text.replace('|', '\\r\\n').encode())
    return peer
slow = sent('PUT /agents/bob HTTP/1.1|Host: registry.example.org|Content-Length: 9||half')
time.sleep(0.5)
start = time.monotonic()
answer = sent('GET /registries HTTP/1.1|Host: registry.example.org||').recv(12)
print(answer.decode(), 'at once' if time.monotonic() - start < 3 else 'late')"'''

# ---- What proxies log

# Requests about something secret: odd ones, too many, one from elsewhere, and one while the office is stopped. No file and no journal has their path.
SECRET = f'https://registry.example.org/requests/{WORD}'
ODD = f'''python3 /root/odd.py; sleep 6
curl -s -o /dev/null --interface 127.0.0.2 https://registry.example.org/desk/approve/alice/{WORD}
curl -s -o /dev/null -w '%{{http_code}}\\n' '{SECRET}#[1-300]' | sort -u
systemctl stop registry; sleep 3; curl -s -o /dev/null -w '%{{http_code}}\\n' {SECRET}; systemctl start registry'''
FOUND = f'''journalctl -q --no-pager -o export | grep -ac {WORD}
grep -rla {WORD} /var/log /var/lib/nginx /var/lib/caddy /srv /tmp | grep -v '^/var/log/journal' | wc -l'''
ROOM = 'for process in $(pidof nginx); do nsenter -t $process -m df --output=fstype,size /var/lib/nginx | tail -n 1; done | tr -s " " | sort -u'
SENTENCE = 'grep -c "Clerks can use the desk only from the office\'s network" /usr/share/reg-cli/desk/errors.js'
PACKED = '''for path in /site/changes.csv /registries/codes /requests; do
    curl -s -o /dev/null -D - -H 'Accept-Encoding: gzip' https://registry.example.org$path | grep -ic '^content-encoding: gzip'; done; true'''
BY_SIX = '''curl -s -k -o /dev/null -w '%{http_code}\\n' 'https://[::1]/registries'; curl -s -o /dev/null -w '%{http_code}\\n' 'http://[::1]/' '''

# An address of IPv6 counts by its network: a second one of the same is refused for what the first asked, and one of another is not.
NETWORKS = '''for address in 2001:db8::1 2001:db8::2 2001:db8:0:1::1; do ip -6 addr add $address/128 dev lo nodad; done
curl -s -k -o /dev/null --interface 2001:db8::1 'https://[::1]/registries#[1-300]'
for address in 2001:db8::2 2001:db8:0:1::1; do
    curl -s -k -o /dev/null -w '%{http_code}\\n' --interface $address 'https://[::1]/registries#[1-20]' | sort -u | tail -n 1
done'''
# Who names another host is sent nowhere else.
HOSTS = '''for address in https://registry.example.org/ http://registry.example.org/x; do
    curl -s -o /dev/null -D - -H 'Host: evil.example' $address | tr -d '\\r' | grep ^Location:; done
curl -s -o /dev/null -D - https://registry.example.org/site/ | grep -c '^Strict-Transport-Security: max-age=31536000' '''

# ---- Who is shut out

# Who is refused 60 times is shut out, at both ports, until somebody lets them in; not who is refused 59 times, and no other address of a network.
# (70, since nginx leaves out lines that the journal does not take at once. What NETWORKS sent may still count.)
GUESS = '''for n in $(seq 60); do fail2ban-client ping >/dev/null 2>&1 && break; sleep 0.5; done
for n in 1 2; do ip -6 addr add 2001:db8:0:2::$n/128 dev lo nodad; done
guess() { curl -s -k -o /dev/null --rate 20/s --interface $1 -H 'Authorization: Bearer wrong-token-00001' "https://$2/requests#[1-$3]"; }
guess 127.0.0.2 127.0.0.1 70; guess 127.0.0.3 127.0.0.1 59; guess 2001:db8:0:2::1 '[::1]' 70; guess 2001:db8:0:2::2 '[::1]' 59'''
BANNED = r'''banned() { grep -o '\[registry\] Ban .*' /var/log/fail2ban.log | cut -d ' ' -f 3 | grep -v '^2001:db8::1$' | sort -u; }
for n in $(seq 60); do [ $(banned | wc -l) -ge 2 ] && break; sleep 0.5; done; sleep 3; banned'''
SHUT_OUT = r'''asked() { curl -s -k -m 5 -o /dev/null -w '%{http_code}\n' --interface $1 "$2/registries" || true; }
for place in https://127.0.0.1 http://127.0.0.1; do asked 127.0.0.2 $place; asked 127.0.0.3 $place; done
for n in 1 2; do asked 2001:db8:0:2::$n 'https://[::1]'; done
fail2ban-client set registry unbanip 127.0.0.2; asked 127.0.0.2 https://127.0.0.1'''

# ---- The service, and the office of the version before

# While the service is stopped nobody without rights can listen in its place, or change the page into which tokens are typed.
PLACE = '''systemctl stop registry; runuser -u nobody -- python3 -c 'import socket; socket.create_server(("127.0.0.1", 880))' 2>&1 | grep -o 'Permission denied'
systemctl start registry; cd /; runuser -u registry -- find -L /usr/share/reg-cli/desk -writable | wc -l'''

KILLS = 'for n in $(seq 7); do systemctl kill --signal=KILL registry; sleep 1.3; done; systemctl start registry; systemctl is-active registry'
OLDER = f'''set -e; systemctl stop registry; rm {DATABASE}*; sqlite3 {DATABASE} <office-1.sql; touch {DATABASE}-wal
chown registry: {DATABASE}*; chmod 600 {DATABASE}*
sqlite3 {DATABASE} "SELECT value || '|' || label || '|' || assignee FROM entries WHERE registry = 'codes' ORDER BY value" >entries'''
SAME = f'''curl -s {OFFICE}/listings/registries/codes | python3 -c "
import csv, sys
print(*('|'.join((row[0], row[1], row[6])) for row in csv.reader(sys.stdin) if row[2] in ('Assigned', 'Temporary', 'Expired')), sep='\\n')
" | diff - entries && wc -l <entries'''
NEWEST = f'systemctl stop registry; reg_cli check {DATABASE} | head -n 2; systemctl start registry'
LATER = 'sqlite3 later.db <office-1.sql; sqlite3 later.db "UPDATE office SET version = 5"; reg_cli check later.db 2>&1 | head -n 1'

# ---- What timers mail

MAILED = f'truncate -s 0 {MAIL}; systemctl start {{}} || true; sleep 1; cat {MAIL}'
WATCHED = MAILED.format('registry-watch')
DUE = 'Registry,Value,Description,Assignee,Expires,Held'
# Another machine tells the time: a server here, first one with the right clock and then one with a wrong clock.
TIME = '''(setsid python3 -m http.server 8099 --bind 127.0.0.1 --directory /srv/www >/dev/null 2>&1 &)
sed -i 's#https://time.example.org/#http://127.0.0.1:8099/#' /etc/reg-cli/office.conf; sleep 1'''
WRONG_TIME = r'''(setsid python3 -c "
import socketserver
class Late(socketserver.StreamRequestHandler):
    def handle(self):
        self.rfile.readline(); self.wfile.write(b'HTTP/1.0 200 OK\r\nDate: Sat, 01 Jan 2000 00:00:00 GMT\r\n\r\n')
socketserver.TCPServer(('127.0.0.1', 8098), Late).serve_forever()" >/dev/null 2>&1 &)
sleep 1; sed -i 's#:8099/#:8098/#' /etc/reg-cli/office.conf'''
LATE_RECORD = 'cp -p /srv/www/registers/changes.csv kept.csv; echo 9,2999-01-01T00:00:00Z, >>/srv/www/registers/changes.csv'
ON_TIME = 'mv kept.csv /srv/www/registers/changes.csv; sed -i s#:8098/#:8099/# /etc/reg-cli/office.conf'
APART = 'The clock is wrong: it differs from that of http://127.0.0.1:8098/ by ..'
DAMAGE = f'''truncate -s 0 {MAIL}; systemctl stop registry; mkdir kept; mv {DATABASE}* kept; systemctl reset-failed registry
install -m 600 -o registry -g registry /usr/bin/reg_cli {DATABASE}; systemctl start --no-block registry
for n in $(seq 100); do systemctl is-failed -q registry && break; sleep 1; done; sleep 2; grep ^fault {MAIL} | sort -u'''
MENDED = f'rm {DATABASE}*; mv kept/* /var/lib/registry; systemctl reset-failed registry; systemctl start registry'


def with_codes(system):
    """A registry is there and published."""
    system.expect(DEFINE.format(name='codes'), '{"defined":"codes"}')
    system.expect('sleep 1; systemctl start registry-publish', '')


def careful_mirror(system):
    """A mirror shows nothing that is wrong: an edited history, and a right one that does not go on from what was shown."""
    mirror = '/usr/share/reg-cli/examples/registry-mirror /root/wrong /srv/mirror 2>&1'
    same = '| tail -n 1; readlink /srv/mirror/current | diff before -'
    system.expect('readlink /srv/mirror/current >before; cp -a /srv/www/registers wrong; sed -i s/codes/cedes/ wrong/changes.csv', '')
    system.expect(f'{mirror} {same}', '..did NOT match')
    system.expect('(cd wrong; find . -type f ! -name SHA256SUMS ! -name .lock | sort | xargs sha256sum >SHA256SUMS)', '')
    system.expect(f'{mirror} {same}', 'record 1 of changes.csv is wrong')
    system.expect('rm -r wrong; reg_cli init wrong.db --clerk @clerk.token; reg_cli publish wrong.db wrong', 'ready, published ..')
    system.expect(f'{mirror} {same}', 'no digest of changes.csv begins with these digits')
    system.expect('rm -r wrong before; rm wrong.db*', '')


# What is run before and after a block, by its heading and its place below that.
BEFORE = {('As a service', 0): [(CERTIFICATE, '')],
          ('A proxy with TLS', 3): [(CADDY, '')],
          ('A proxy with TLS', 4): [('systemctl stop caddy; systemctl start nginx', '')],
          ('Publishing', 3): [with_codes],
          ('Monitoring', 1): [(TIME, ''), (FORGET, '')],
          ('Upgrade', 0): [(OLDER, '')]}
AFTER = {('As a service', 2): [(KILLS, 'active'), (f'curl -s {OFFICE}/registries', '[]'), (PLACE, 'Permission denied, 0')],
         ('A proxy with TLS', 1): [(SLOW, 'HTTP/1.1 200 at once'), (ODD, '132, 401, 429, 502'), (FOUND, '0, 0'), (ROOM, 'tmpfs 262144'), (BY_SIX, '200, 301'),
                                   (SENTENCE, '1'), (NETWORKS, '429, 200'), (HOSTS, 'Location: /site/, Location: https://registry.example.org/x, 1')],
         ('A proxy with TLS', 3): [(SLOW, 'HTTP/1.1 200 at once'), (ODD, '132, 401, 502'), (FOUND, '0, 0')],
         ('A proxy with TLS', 5): [(GUESS, ''), (BANNED, '127.0.0.2, 2001:db8:0:2::1'), (SHUT_OUT, '000, 200, 000, 301, 000, 200, 1, 200')],
         ('Publishing', 2): [(MAILED.format('registry-due'), DUE)],
         ('Publishing', 3): [careful_mirror, (PACKED, '1, 1, 0')],
         ('Monitoring', 1): [(f'{WATCHED} | wc -l', '0'), (WRONG_TIME, ''), (WATCHED, APART), (LATE_RECORD, ''),
                             (f'{WATCHED} | tail -n 1', 'The clock is wrong: the newest record of the site is of 2999-01-01T00:00:00Z.'), (ON_TIME, ''),
                             (DAMAGE, 'fault: not ours'), (f'{WATCHED} | sort -u', 'The office does not answer., fault: not ours'), (MENDED, '')],
         ('Backups', 1): [losses],
         ('Upgrade', 0): [('systemctl start registry', ''), (SAME, '6'), (NEWEST, 'version 4, well kept'), (LATER, 'fault: version 5')],
         ('Upgrade', 1): [(SAME, '6')]}


def take(system, step):
    """A function, or a command with what it has to print."""
    if callable(step):
        step(system)
    else:
        system.expect(*step)


def run_page(system):
    """Does what the page says, block by block."""
    for place, commands in blocks():
        for step in (*BEFORE.get(place, ()), *commands, *AFTER.get(place, ())):
            take(system, step)
