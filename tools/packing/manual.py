"""The manual page reg_cli(1), made from the help texts of the program."""
import re


def escaped(text):
    """A text as roff takes it."""
    text = text.replace('\\', '\\e').replace('-', '\\-').replace("'", '\\(aq')
    return re.sub(r'^(?=\.)', '\\\\&', text, flags=re.M)


def rows(pairs):
    """Forms, each with what it means."""
    return ''.join(f'.TP\n.B {escaped(form)}\n{escaped(meaning)}\n' for form, meaning in pairs if not form.startswith('-h,'))


def notes_of(text):
    """A text whose lines stay as they are."""
    return f'.PP\n.nf\n{escaped(text)}\n.fi\n' if text else ''


def job(help_text, name):
    """The part on a job."""
    return (f'.SS {name}\n{escaped(help_text.about)}.\n.PP\n.B {escaped(help_text.usage)}\n'
            f'{rows(help_text.arguments)}{rows(help_text.options)}{notes_of(help_text.notes)}')


def manual_page(whole, jobs, version, date):
    """The page."""
    parts = [f'.TH REG_CLI 1 "{date}" "reg_cli {version}" "User Commands"\n.SH NAME\nreg_cli \\- office of an assignment authority\n',
             f'.SH SYNOPSIS\n.B {escaped(whole.usage)}\n.SH DESCRIPTION\n{escaped(whole.about)}.\n{notes_of(whole.notes)}',
             '.SH JOBS\n', *(job(help_text, name) for name, help_text in jobs.items()),
             f'.SH OPTIONS\n{rows(whole.options)}',
             '.SH FILES\n.TP\n.I /var/lib/registry/office.db\nThe office of registry.service. With it belongs the file of the same name that ends in\n'
             '.IR \\-wal .\n.TP\n.I /etc/reg\\-cli/office.conf\nWhat its units read.\n',
             '.SH SEE ALSO\nThe pages below\n.IR /usr/share/doc/reg\\-cli ,\nOPERATING first.\n']
    return ''.join(parts)
