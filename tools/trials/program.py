"""The program, asked again and again: its file is called, and not the script, which takes much longer."""
import os
import tempfile

from shared.command import Fault
from shared.module import module

STATUSES = (0, 3, 7)


class Program:
    """The program's file."""

    def __init__(self):
        try:
            self.path = module().find_program()
        except module().ProgramMissing as fault:
            raise Fault(str(fault)) from None

    def call(self, words, text):
        """The status of a call and what it writes, whatever the status is. No thread and no pipe is needed for it."""
        given, got = unnamed(), unnamed()
        try:
            with open(given, 'wb', closefd=False) as file:
                file.write(text.encode())
            os.lseek(given, 0, os.SEEK_SET)
            streams = [(os.POSIX_SPAWN_DUP2, given, 0), (os.POSIX_SPAWN_DUP2, got, 1)]
            number = os.posix_spawn(self.path, [self.path, *words], os.environ, file_actions=streams)
            status = os.waitpid(number, 0)[1]
            written = os.pread(got, os.fstat(got).st_size, 0)
        finally:
            os.close(given)
            os.close(got)
        return os.WEXITSTATUS(status) if os.WIFEXITED(status) else -os.WTERMSIG(status), written.decode('ascii', 'replace')

    def ask(self, text, *words):
        """The status of an answer, and the answer."""
        status, written = self.call(words, text)
        if status not in STATUSES:
            line = written.split('\n')[0]
            raise Fault(f'the program ended `{" ".join(words)}` with {status}' + (f': {line}' if line else ''))
        return status, written


def unnamed():
    """A file without a name, in memory where the system has such files."""
    if hasattr(os, 'memfd_create'):
        return os.memfd_create('matchbench')
    with tempfile.TemporaryFile() as file:
        return os.dup(file.fileno())


def pairs_of(answer):
    """The pairs of an answer's `pair` lines."""
    return [tuple(line.split(' ')[1:]) for line in answer.split('\n') if line.startswith('pair ')]


def number_of(answer, keyword):
    """The number of an answer's line with a keyword."""
    return next(int(line.split(' ')[1]) for line in answer.split('\n') if line.startswith(keyword + ' '))
