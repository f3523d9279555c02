"""The program, as tools call it."""
import os
import shutil
import subprocess

from .command import Fault

TOP = os.path.dirname(os.path.dirname(os.path.dirname(os.path.realpath(__file__))))
STATUSES = {4: 'there was no memory', 5: 'reading failed', 6: 'writing failed', 8: 'the system refuses the words',
            70: 'there is no program to call'}


def path():
    """The file to call: that of `MATCHBENCH` in the environment, else the script at the top of the repository or, where the tools
    are installed below share/, the one in bin/ there, else what is on the PATH.
    """
    own = os.environ.get('MATCHBENCH')
    if own:
        return own
    for script in (os.path.join(TOP, 'matchbench'), os.path.join(TOP, '..', '..', 'bin', 'matchbench')):
        if os.path.isfile(script) and os.access(script, os.X_OK):
            return os.path.normpath(script)
    found = shutil.which('matchbench')
    if found is None:
        raise Fault('matchbench is neither beside the tools nor on the PATH; MATCHBENCH in the environment names its file')
    return found


def start(words, file):
    """Starts the program with words, on the bytes of an open file."""
    return subprocess.Popen([path(), *words], stdin=file, stdout=subprocess.PIPE)


def ask(words, data):
    """The answer to words and a text. Raises where the program has none, with its status."""
    done = subprocess.run([path(), *words], input=data, stdout=subprocess.PIPE)
    if done.returncode != 0:
        raise Fault(trouble(done.stdout, done.returncode), done.returncode)
    return done.stdout


def trouble(written, status):
    """What a status that isn't 0 is told as."""
    line = written.split(b'\n')[0].decode('latin-1')
    if line.split(' ')[0] in ('refused', 'usage'):
        return f'the program says: {line}'
    return f'the program ended with {status}' + (f': {STATUSES[status]}' if status in STATUSES else '')
