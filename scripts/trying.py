"""What the tests of scripts/try_scripts share: the programs that are tried, the stored answers, and how one asks."""
import glob
import os
import subprocess
import sys

HERE = os.path.dirname(os.path.abspath(__file__))
TOP = os.path.dirname(HERE)
MISSIONS = os.path.join(TOP, 'missions')
PEOPLE = os.path.join(MISSIONS, 'people')
SOTER = os.path.join(TOP, 'soter')
BRIDGED = os.path.join(TOP, 'soter_bridge')
PROGRAMS = {}


def take_programs(words):
    """The programs that are tried: those that are named, else those of ./build. Without a guard its second program stands in."""
    for name, word in zip(('soter', 'soter_bridge', 'soter_regions', 'soter_guard'), [*words, None, None, None, None]):
        PROGRAMS[name] = os.path.abspath(word) if word else os.path.join(TOP, 'crates', name, 'out', name)
        if os.access(PROGRAMS[name], os.X_OK):
            continue
        if name != 'soter_guard' or word:
            sys.exit(f'scripts/try_scripts: no program at {PROGRAMS[name]}; ./build makes it')
        PROGRAMS[name] = os.path.join(HERE, 'observed.py')
    os.environ.update({f'{name.upper()}_PROGRAM': path for name, path in PROGRAMS.items()})


class Differs(Exception):
    """What a test saw instead."""


def want(holds, said):
    if not holds:
        raise Differs(said)


def read(path):
    with open(path, 'rb') as file:
        return file.read().decode('latin-1')


def run(words, text='', **environment):
    """Status, standard output and standard error."""
    done = subprocess.run(words, input=text.encode('latin-1'), stdout=subprocess.PIPE, stderr=subprocess.PIPE, env={**os.environ, **environment})
    return done.returncode, done.stdout.decode('latin-1'), done.stderr.decode('utf-8', 'replace')


def cases(*starts):
    """The stored answers that begin so: command, the input and the answer."""
    for path in sorted(glob.glob(os.path.join(MISSIONS, '**', '*.out'), recursive=True)):
        stem, command = path[:-len('.out')].rsplit('.', 1)
        text = stem + ('.program' if command == 'certify' else '.mission')
        if os.path.exists(text) and command != 'regions' and read(path).startswith(starts):
            yield command, text, read(path)