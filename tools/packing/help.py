"""What the program says of itself: its jobs, with the arguments and options of each, read from its help texts."""
import dataclasses
import re
import subprocess


@dataclasses.dataclass
class Help:
    """A help text in its parts. `arguments` and `options` are pairs of a form, as `--port <N>`, and what it means."""
    about: str
    usage: str
    jobs: list
    arguments: list
    options: list
    notes: str


def printed(program, *words):
    """What the program prints."""
    return subprocess.run([program, *words], capture_output=True, encoding='utf-8', stdin=subprocess.DEVNULL, check=True).stdout


def rows_of(text):
    """The rows of a part: each a form and what it means, which can go on over lines that are indented deeper."""
    rows = []
    for line in text.splitlines():
        found = re.match(r' {2,6}(\S.*?)(?: {2,}(\S.*))?$', line)
        if found and len(line) - len(line.lstrip()) <= 6:
            rows.append([found[1], found[2] or ''])
        elif line.strip():
            rows[-1][1] = f'{rows[-1][1]} {line.strip()}'.strip()
    return [tuple(row) for row in rows]


def help_of(program, *words):
    """The help text of the program, or of the job that the words name, in its parts."""
    text = printed(program, *words, '--help')
    about, _, rest = text.partition('\n\nUsage: ')
    usage, _, rest = rest.partition('\n\n')
    parts, notes = {}, rest
    while found := re.match(r'(Commands|Arguments|Options):\n((?: .*(?:\n|$))+)\n?', notes):
        parts[found[1]], notes = rows_of(found[2]), notes[found.end():]
    if not usage or 'Options' not in parts:
        raise SystemExit(f'the help text of {" ".join(words) or "the program"} has another form')
    return Help(about.strip(), usage.strip(), parts.get('Commands', []), parts.get('Arguments', []), parts['Options'], notes.rstrip('\n'))


def helps_of(program):
    """The help text of the program, and those of its jobs by their names, in order."""
    whole = help_of(program)
    names = [name for name, _ in whole.jobs if name != 'help']
    return whole, {name: help_of(program, name) for name in names}


def version_of(program):
    """The version of the program, and the line that it prints."""
    line = printed(program, '--version').strip()
    found = re.fullmatch(r'reg_cli (\d+\.\d+\.\d+) \(office version \d+\)', line)
    if not found:
        raise SystemExit(f'the version of the program has another form: {line}')
    return found[1], line
