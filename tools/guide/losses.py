"""The disk is lost at each step of registry-publish, and the office comes back from what was sent, by the page's commands."""
import re

from guide.system import OFFICE, PAGE, blocks

# Each command of registry-publish that does something. The N-th call kills the script before it is done, or half done: then rsync has made the folder
# of a copy, and put nothing into it.
STEPS = ['reg_cli', 'rsync', 'mktemp', 'cp', 'rm']
WRAPPED = fr'''set -e; rm -rf /mnt/steps; mkdir -p /mnt/steps; chmod 777 /mnt/steps
for name in {' '.join(STEPS)}; do
    real=$(command -v $name)
    cat >/mnt/steps/$name <<ENDS
#!/bin/sh
call=\$((\$(cat /mnt/steps/calls) + 1)); echo \$call >/mnt/steps/calls
if [ \$call -eq \$(cat /mnt/steps/last) ]; then
    [ $name != rsync ] || [ ! -e /mnt/steps/half ] || mkdir -p /mnt/elsewhere/\$(ls /var/backups/registry | tail -n 1)
    kill -9 \$PPID
    exit 1
fi
exec $real "\$@"
ENDS
    chmod 755 /mnt/steps/$name
done'''
# Runs the script up to its N-th call, and prints whether it was killed, which is 137.
UP_TO = '''sleep 1; echo 0 >/mnt/steps/calls; chmod 666 /mnt/steps/calls; echo {number} >/mnt/steps/last; {half}
runuser -u registry -- env PATH=/mnt/steps:$PATH SEND_TO=/mnt/elsewhere /usr/lib/reg-cli/registry-publish >/dev/null 2>&1; echo $?'''
DEFINE = f'''printf 'lo,hi,treatment,note\\n0,1,reserved,\\n' | curl -s -X PUT -H "Authorization: Bearer $(cat clerk.token)" \\
  --data-binary @- {OFFICE}/desk/registries/{{name}}/1'''
SEEN = "tail -n 1 /srv/www/registers/changes.csv | grep -o '[0-9a-f]*$'"
LOSE = '''systemctl stop registry-publish.timer registry; systemctl reset-failed; rm -rf /root/back
find /var/lib/registry /var/backups/registry /srv/www/registers -mindepth 1 -delete'''
VERIFY = 'reg_cli verify /srv/www/registers --digest {digest}'
# The page's command of a key that may only add files: what is there can be neither replaced nor added to nor deleted nor read.
[COMMAND_OF_KEY] = re.findall('^command="(.*)",restrict ', PAGE.read_text(), re.M)
ONLY_ADDS = r"""set -e; mkdir -p /srv/office one/a none; cat >by-key <<'END'
#!/bin/sh
shift; export SSH_ORIGINAL_COMMAND="$*"
%s
END
chmod 755 by-key; echo kept >one/a/office.db; rsync -a --ignore-existing --exclude .lock -e ./by-key one/ elsewhere:
echo replaced >one/a/office.db; touch -d '1 hour' one/a/office.db
for asked in --times --inplace --append --backup --remote-option=--log-file=a/office.db; do rsync -a $asked -e ./by-key one/ elsewhere: || true; done
for asked in --delete --delete-before; do rsync -a $asked -e ./by-key none/ elsewhere: || true; done
rsync -a -e ./by-key elsewhere:a/office.db none/ || true
echo more >one/a/changes.csv; rsync -a --ignore-existing --exclude .lock -e ./by-key one/ elsewhere:
cat /srv/office/a/office.db /srv/office/a/changes.csv; ls -A /srv/office/a none | wc -l; rm -r one none by-key /srv/office""" % COMMAND_OF_KEY.replace('\\"', '"')


def restored():
    """The page's commands that restore the newest copy and publish again."""
    [found] = [block for place, block in blocks() if place == ('Backups', 1)]
    return found


def lose_at(system, number, half):
    """The script is killed at its N-th call, the disk is lost, and all that readers saw comes back. Whether the script had so many calls."""
    name = f'loss-{number}{"-half" if half else ""}'
    system.expect(DEFINE.format(name=name), f'{{"defined":"{name}"}}')
    status = system.run(UP_TO.format(number=number, half='touch /mnt/steps/half' if half else 'rm -f /mnt/steps/half'))[0].strip()
    digest = system.run(SEEN)[0].strip()
    system.expect(LOSE, '')
    for line, wanted in restored():
        system.expect(line, wanted)
    system.expect('systemctl is-failed registry-publish || true', 'inactive')
    system.expect(VERIFY.format(digest=digest), 'verified ..')
    system.tally.judge(status in ('0', '137'), f'registry-publish ended at its call {number} with {status}')
    return status == '137'


def lose_at_each_step(system):
    """Kills the script at its first call, its second, and so on, until it ends by itself."""
    system.expect(WRAPPED, '')
    for half in (False, True):
        number = 1
        while lose_at(system, number, half):
            number += 1
        system.tally.judge(number > 8, f'registry-publish made {number - 1} calls')


def restore_older(system):
    """An older copy is restored by mistake. The next copies do not stand for the newest one of before, which is found and restored."""
    note = 'sleep 1; systemctl start registry-publish; ls -d /var/backups/registry/2* | tail -n 1 >{}; sleep 1'
    restore = '/usr/lib/reg-cli/registry-restore $(cat {})/office.db'
    system.expect(note.format('older'), '')
    system.expect(DEFINE.format(name='newer'), '{"defined":"newer"}')
    system.expect(note.format('newer'), '')
    system.expect(restore.format('older'), 'well kept, To publish again: systemctl start registry-publish.timer')
    system.expect('systemctl start registry-publish 2>/dev/null || journalctl -u registry-publish -o cat -n 20 | grep -A 1 ^fault',
                  'fault: history, range 0-1 of newer was published, and is not in the office as it was')
    system.expect('ls -d /var/backups/registry/2*.of-$(basename $(cat older) | cut -c -20) | wc -l', '1')
    system.expect('reg_cli check $(cat newer)/office.db', 'version 4, well kept, ..')
    system.expect(f'sleep 1; {restore.format("newer")}', 'well kept, To publish again: systemctl start registry-publish.timer')
    system.expect(f'sleep 1; systemctl start registry-publish; curl -s {OFFICE}/registries | grep -c newer', '1')


def losses(system):
    """All of these."""
    system.expect(ONLY_ADDS, 'kept, more, 5')
    lose_at_each_step(system)
    restore_older(system)
