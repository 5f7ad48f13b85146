"""What the package has: the program with what it needs from the system, the desk, documents, units, the demonstration, and the receipt."""
import hashlib
import pathlib
import re
import subprocess
import time

from packing import completions, help, manual
from packing.archive import Archive

TOP = pathlib.Path(__file__).resolve().parent.parent.parent
PACKAGING = TOP / 'packaging'
# The C library of each system.
SYSTEMS = {'Debian 11': '2.31', 'Debian 12': '2.36', 'Debian 13': '2.41', 'Ubuntu 20.04': '2.31', 'Ubuntu 22.04': '2.35', 'Ubuntu 24.04': '2.39'}
# The packages of the libraries that the program may need.
LIBRARIES = {'libc.so.6': 'libc6', 'libm.so.6': 'libc6', 'libgcc_s.so.1': 'libgcc-s1', 'ld-linux-x86-64.so.2': 'libc6'}


def lines_of(*words):
    """What a command prints, run at the top of the tree."""
    return subprocess.run(words, cwd=TOP, capture_output=True, encoding='utf-8', check=True).stdout


def number(version):
    return [int(part) for part in version.split('.')]


def needs_of(program):
    """The packages that the program needs, and the version of the C library that it needs at least."""
    libraries = re.findall(r'NEEDED +(\S+)', lines_of('objdump', '-p', program))
    unknown = [library for library in libraries if library not in LIBRARIES]
    if unknown:
        raise SystemExit(f'the program needs more than the C library: {" ".join(unknown)}')
    least = max(re.findall(r'\bGLIBC_([0-9.]+)', lines_of('objdump', '-T', program)), key=number)
    packages = sorted({LIBRARIES[library] for library in libraries})
    return [f'libc6 (>= {least})' if package == 'libc6' else package for package in packages], least


def kit():
    """The version of the kit on this machine."""
    try:
        return lines_of('rt', '--version').splitlines()[0]
    except (OSError, subprocess.CalledProcessError):
        return 'unknown: the package was made without it'


def receipt(program, line, least):
    """What the package was made from, and how that was proved."""
    changed = ', with changes that were not committed' if lines_of('git', 'status', '--porcelain') else ''
    runs_on = ', '.join(name for name, has in SYSTEMS.items() if number(has) >= number(least))
    return f'''The receipt of this package

program  {line}
sha256   {hashlib.sha256(program.read_bytes()).hexdigest()}
commit   {lines_of('git', 'rev-parse', 'HEAD').strip()}{changed}
kit      {kit()}
runs on  x86-64 with a C library (glibc) of {least} or later: {runs_on}

The program has this sum at /usr/lib/reg-cli/program. It was built from the tree of this commit by `rt run` in crates/reg_cli, which leaves no program
unless each function of it and of its libraries is proved to meet its contract. `.ci/run` repeats these proofs from nothing, tries wrong versions that the prover
must refuse, and tests the program. docs/assurance/PROMISES.md says what is proved, docs/assurance/TRUSTED.md what is trusted, and docs/assurance/TESTED.md
what is only tested. Whoever made the package vouches that the program was built from this commit. To see it yourself, build it with this kit.

The owner has given no licence.
'''


def add_program(archive, program, names):
    """The program, its page and its completions."""
    whole, jobs = help.helps_of(program)
    archive.add('usr/lib/reg-cli/program', program, 0o755)
    archive.link('usr/bin/reg_cli', '../lib/reg-cli/reg_cli')
    date = time.strftime('%Y-%m-%d', time.gmtime(archive.moment))
    archive.add_packed('usr/share/man/man1/reg_cli.1', manual.manual_page(whole, jobs, names['version'], date))
    archive.add('usr/share/bash-completion/completions/reg_cli', completions.bash_completion(jobs))
    archive.add('usr/share/zsh/vendor-completions/_reg_cli', completions.zsh_completion(whole, jobs))


def add_documents(archive, names, text_of_receipt):
    """The documents as they are in the tree, and those that Debian asks for."""
    below = 'usr/share/doc/reg-cli'
    for name in ('README.md', 'CHANGELOG.md', 'CONTRIBUTING.md'):
        archive.add(f'{below}/{name}', TOP / name)
    archive.add_folder(f'{below}/docs', TOP / 'docs')
    archive.link(f'{below}/examples', '../../reg-cli/examples')
    archive.add(f'{below}/copyright', PACKAGING / 'debian/copyright')
    archive.add_packed(f'{below}/changelog.Debian', filled('changelog', names))
    archive.add(f'{below}/receipt', text_of_receipt)
    archive.add('usr/share/lintian/overrides/reg-cli', PACKAGING / 'debian/lintian')


def add_office(archive):
    """The desk, and what a system needs to keep an office: units, scripts, the user and the folders."""
    archive.add_folder('usr/share/reg-cli/desk', TOP / 'desk')
    archive.add_folder('usr/share/reg-cli/examples', PACKAGING / 'examples')
    archive.add('usr/share/reg-cli/desk/openapi.yaml', TOP / 'docs/reference/openapi.yaml')
    archive.add('etc/reg-cli/apply.txt', TOP / 'docs/use/APPLYING.md')
    archive.link('usr/share/reg-cli/desk/apply.txt', '/etc/reg-cli/apply.txt')
    archive.add('etc/reg-cli/office.conf', PACKAGING / 'system/office.conf')
    archive.add_folder('lib/systemd/system', PACKAGING / 'units')
    archive.add_folder('usr/lib/reg-cli', PACKAGING / 'scripts')
    archive.add('usr/lib/sysusers.d/reg-cli.conf', PACKAGING / 'system/sysusers.conf')
    archive.add('usr/lib/tmpfiles.d/reg-cli.conf', PACKAGING / 'system/tmpfiles.conf')


def add_demonstration(archive):
    """The demonstration with its data, below a folder that looks as the tree does."""
    for name in ('demo', 'lib/office.py'):
        archive.add(f'usr/share/reg-cli/tools/{name}', TOP / 'tools' / name, 0o755 if name == 'demo' else 0o644)
    archive.add_folder('usr/share/reg-cli/tools/demonstration', TOP / 'tools/demonstration')
    archive.link('usr/bin/reg_cli-demo', '../share/reg-cli/tools/demo')


def filled(name, names):
    """A file of packaging/debian with its words in @ filled in."""
    return re.sub('@([A-Z]+)@', lambda word: names[word[1].lower()], (PACKAGING / 'debian' / name).read_text())


def package_of(program, revision, moment):
    """The package, and the name of its file."""
    version, line = help.version_of(program)
    depends, least = needs_of(program)
    archive = Archive(moment)
    names = {'version': f'{version}-{revision}', 'depends': ', '.join(depends), 'date': time.strftime('%a, %d %b %Y %H:%M:%S +0000', time.gmtime(moment))}
    add_program(archive, program, names)
    add_documents(archive, names, receipt(program, line, least))
    add_office(archive)
    add_demonstration(archive)
    names['size'] = str(archive.kilobytes())
    archive.control['control'] = (filled('control', names), 0o644)
    for name in ('preinst', 'postinst', 'prerm', 'postrm'):
        archive.control[name] = (filled(name, names), 0o755)
    return archive, f'reg-cli_{names["version"]}_amd64.deb'
