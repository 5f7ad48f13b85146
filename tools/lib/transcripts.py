"""Where transcripts are: in crates/reg_cli, but for three that tests in Rattle send too and have as texts."""
import pathlib

TOP = pathlib.Path(__file__).resolve().parent.parent.parent
FOLDER = TOP / 'crates/reg_cli/transcripts'
TESTS = TOP / 'crates/reg_office_tests/src/tests/worked'
SHARED = ('rows', 'after', 'floods')


def path_of(name):
    """The file of a transcript."""
    return TESTS / f'{name}.rt' if name in SHARED else FOLDER / f'{name}.txt'


def paths():
    """The files of all transcripts."""
    return [*sorted(FOLDER.glob('*.txt')), *map(path_of, SHARED)]
