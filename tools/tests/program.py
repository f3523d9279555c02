"""The program that tests call where one is there: that of `MATCHBENCH` in the environment, or the one of these sources, built or
released.
"""
import os
import subprocess

TOP = os.path.realpath(os.path.join(os.path.dirname(os.path.realpath(__file__)), '..', '..'))


def found():
    """The program's path, or None."""
    path = os.environ.get('MATCHBENCH')
    if path:
        return path
    done = subprocess.run([os.path.join(TOP, '.ci', 'program')], stdout=subprocess.PIPE)
    return done.stdout.decode().rstrip('\n') or None


PATH = found()


def ask(text, *words):
    """The program's status and what it writes for a text."""
    done = subprocess.run([PATH, *words], input=text.encode(), stdout=subprocess.PIPE)
    return done.returncode, done.stdout.decode()
