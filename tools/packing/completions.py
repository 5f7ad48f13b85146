"""Completions of the program's command line for bash and zsh, made from its help texts."""
import re

# What files can complete: the words that stand for a file or a folder.
FILES, FOLDERS = {'FILE', 'CSV', 'SOURCE'}, {'FOLDER'}


def options_of(help_text):
    """The long options of a job: the name of each, of its value or an empty text, and what it means."""
    found = (re.fullmatch(r'(?:-\w, )?(--\w+)(?: <(\w+)>)?', form) for form, _ in help_text.options)
    return [(match[1], match[2] or '', meaning) for match, (_, meaning) in zip(found, help_text.options, strict=True) if match]


def words_of(help_text):
    """The words of a job, in order: the name of each, and whether it can be left out."""
    return [(re.sub(r'[<>\[\]]', '', form), form.startswith('[')) for form, _ in help_text.arguments]



def bash_completion(jobs):
    """For bash: jobs first, then options where a word begins with a dash, else files."""
    cases = ''.join(f"        {name}) options='{' '.join(option for option, _, _ in options_of(help_text))}' ;;\n" for name, help_text in jobs.items())
    return f'''# Completes the command line of reg_cli.
_reg_cli() {{
    local word=${{COMP_WORDS[COMP_CWORD]}} options
    if [ "$COMP_CWORD" -eq 1 ]; then
        mapfile -t COMPREPLY < <(compgen -W '{' '.join(jobs)} help --help --version' -- "$word")
        return
    fi
    case ${{COMP_WORDS[1]}} in
        help) mapfile -t COMPREPLY < <(compgen -W '{' '.join(jobs)}' -- "$word"); return ;;
{cases}    esac
    if [[ $word == -* ]]; then
        mapfile -t COMPREPLY < <(compgen -W "$options" -- "$word")
    else
        compopt -o filenames
        mapfile -t COMPREPLY < <(compgen -f -- "$word")
    fi
}}
complete -F _reg_cli reg_cli
'''


def quoted(text):
    """A text within single quotes of zsh, and without what its specifications mean otherwise."""
    return text.replace("'", "'\\''").replace('[', '(').replace(']', ')').replace(':', '\\:')


def action(name):
    """How zsh completes a value."""
    return '_files -/' if name in FOLDERS else '_files' if name in FILES else ' '


def zsh_completion(whole, jobs):
    """For zsh: jobs with what they do, and the options and words of each."""
    listed = ''.join(f"        '{name}:{quoted(meaning)}'\n" for name, meaning in whole.jobs)
    cases = []
    for name, help_text in jobs.items():
        options = [f"'{option}[{quoted(meaning)}]" + (f":{value}:{action(value)}'" if value else "'") for option, value, meaning in options_of(help_text)]
        words = [f"'{'::' if may_miss else ':'}{word}:{action(word)}'" for word, may_miss in words_of(help_text)]
        cases.append(f'        {name}) _arguments {" ".join(options + words)} ;;\n')
    return f'''#compdef reg_cli
_reg_cli() {{
    local -a jobs
    jobs=(
{listed}    )
    if (( CURRENT == 2 )); then
        _describe job jobs
        return
    fi
    local job=$words[2]
    shift words
    (( CURRENT-- ))
    case $job in
        help) _describe job jobs ;;
{''.join(cases)}    esac
}}
_reg_cli "$@"
'''
