"""Building the bench, and running it or a port on many plays."""
import os
import re
import subprocess
import tempfile
from pathlib import Path

from plays.lists import pack_list
from plays.records import read_settings

ROOT = Path(__file__).resolve().parent.parent
SOURCE = 'rs-matter-dm--src--clusters--app--level_control.rs.txt'
BENCH = ROOT / 'target/debug/oracle'


class Failed(Exception):
    """A program that did not play its list to the end."""


def source():
    """The Rust under test: beside the repository, or the folder or file that RS_MATTER_SRC names."""
    path = Path(os.environ.get('RS_MATTER_SRC') or ROOT / '../../shared/docs/src').resolve()
    return path / SOURCE if path.is_dir() else path


def build():
    command = ['cargo', 'build', '--offline', '--locked', '--quiet', '--jobs', '2', '--target-dir', 'target']
    environment = dict(os.environ)
    if environment.get('RS_MATTER_SRC'):
        environment['RS_MATTER_SRC'] = str(source())    # it may be relative to the caller's folder
    subprocess.run(command, cwd=ROOT, env=environment, check=True)


def settings():
    """The settings that the bench knows."""
    return read_settings(ROOT / 'settings.txt')


def rust(state=False):
    """The bench, called as a port is: with a list of plays on standard input."""
    return [BENCH, *['--state'] * state, '/dev/stdin']


def sheet(records):
    """The sheet of one play, from the bench."""
    return subprocess.run([BENCH], input=records, stdout=subprocess.PIPE, check=True).stdout.decode()


def sheets(program, plays):
    """The sheet of each play, from the bench or a port."""
    with tempfile.TemporaryFile() as file:
        file.write(pack_list(plays))
        file.seek(0)
        done = subprocess.run(program, stdin=file, stdout=subprocess.PIPE, cwd=ROOT)
    before, *rest = re.split(r'^# play (\d+)\n', done.stdout.decode('latin-1'), flags=re.M)
    numbers, texts = rest[::2], rest[1::2]
    if done.returncode or before or numbers != [str(number + 1) for number in range(len(plays))]:
        raise Failed('%s: status %d after %d of %d plays' % (program[0], done.returncode, len(texts), len(plays)))
    return texts


def sheet_and_states(text):
    """A sheet with the whole state after each line, taken apart: a line of the state begins with a space."""
    lines = text.splitlines(keepends=True)
    return tuple(''.join(line for line in lines if (line[0] == ' ') == of_state) for of_state in (False, True))
