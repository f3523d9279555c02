"""The solver under test: its processes, and what it answers to an instance."""
import csv
import json
import os
import re
import select
import signal
import subprocess
import tempfile
import time

from shared.command import Fault
from shared.table import mark_in

MOST_WRITTEN = 64 << 20
PIECE = 1 << 16
# What differs between messages of one kind: names in quotes, and words with digits.
VARYING = re.compile(r'\'[^\']*\'|"[^"]*"|\b[A-Za-z]*[0-9][\w.-]*\b')
MOST_REASON = 60


class Broken(Exception):
    """Why there is no answer: `kind` is crash, timeout or unreadable, `words` say more, and `reason` is what the words of
    failures of one kind have in common.
    """

    def __init__(self, kind, words, written='', reason=None):
        super().__init__(words)
        self.kind, self.words, self.written = kind, words, written
        self.reason = common(words) if reason is None else reason


def common(words):
    """What words have in common with those of the like failures: nothing of the instance."""
    return VARYING.sub('*', words)[:MOST_REASON].strip()


class Child:
    """One process of the solver."""

    def __init__(self, words):
        self.errors = tempfile.TemporaryFile()
        try:
            self.process = subprocess.Popen(words, bufsize=0, stdin=subprocess.PIPE, stdout=subprocess.PIPE,
                                            stderr=self.errors, start_new_session=True)
        except OSError as fault:
            raise Fault(f'{words[0]} can\'t be started: {fault.strerror}', 2) from None
        os.set_blocking(self.process.stdin.fileno(), False)
        self.written = b''

    def talk(self, data, seconds, is_line):
        """What it writes to some bytes: a line, or all until its end."""
        given, got = self.process.stdin, self.process.stdout
        last, left = time.monotonic() + seconds, memoryview(data)
        poll = select.poll()
        poll.register(got, select.POLLIN)
        if left:
            poll.register(given, select.POLLOUT)
        else:
            given.close()
        while True:
            events = dict(poll.poll(max(0, last - time.monotonic()) * 1000))
            if not events:
                raise Broken('timeout', f'it wrote no {"line" if is_line else "end"} within {seconds:g} s')
            if left and given.fileno() in events:
                left = self.give(left)
                if not left:
                    poll.unregister(given)
                    if not is_line:
                        given.close()
            if got.fileno() in events:
                piece = os.read(got.fileno(), PIECE)
                self.written += piece
                if not piece or is_line and b'\n' in piece:
                    return self.taken(is_line)
                if len(self.written) > MOST_WRITTEN:
                    raise Broken('unreadable', f'it wrote more than {MOST_WRITTEN >> 20} MB')

    def give(self, left):
        """Writes what the pipe takes of some bytes, and returns the rest; a solver needn't read all of them."""
        try:
            return left[os.write(self.process.stdin.fileno(), left[:PIECE]):]
        except BrokenPipeError:
            return left[:0]

    def taken(self, is_line):
        """What it wrote: a whole line, or all, where it ended well."""
        if is_line and b'\n' in self.written:
            line, _, rest = self.written.partition(b'\n')
            self.written = rest
            return line.decode('utf-8', 'replace')
        written, self.written = self.written.decode('utf-8', 'replace'), b''
        status = self.process.wait()
        if status == 0 and is_line:
            raise Broken('crash', 'it ended without an answer', written)
        if status:
            said = self.said()
            ended = f'signal {-status}' if status < 0 else f'status {status}'
            raise Broken('crash', f'it ended with {ended}' + (f': {said[:200]}' if said else ''), written, common(said) or ended)
        return written

    def said(self):
        """The last line that it wrote to standard error."""
        self.errors.seek(0, os.SEEK_END)
        self.errors.seek(max(0, self.errors.tell() - 4096))
        lines = self.errors.read().decode('utf-8', 'replace').strip().split('\n')
        return ''.join(it if it.isprintable() else '\ufffd' for it in lines[-1].strip())

    def end(self):
        """Ends it, with all that it has started."""
        try:
            os.killpg(self.process.pid, signal.SIGKILL)
        except ProcessLookupError:
            pass
        self.process.wait()
        for it in (self.process.stdin, self.process.stdout, self.errors):
            it.close()


class Solver:
    """Asks a process of its own for each instance, on whose standard input the instance stands, or whose folder has it."""

    def __init__(self, words, form, seconds):
        self.words, self.form, self.seconds = words, form, seconds

    def rows(self, draft):
        """The rows of the table that it writes: two cells each, and where they stand. None where it says that there is nothing."""
        written = self.written(draft)
        try:
            return written, rows_of_table(written)
        except ValueError as fault:
            raise Broken('unreadable', str(fault), written) from None

    def written(self, draft):
        """What it writes for an instance."""
        if not any('{dir}' in it for it in self.words):
            return self.ended(self.words, (draft.json() if self.form == 'json' else draft.text()).encode())
        with tempfile.TemporaryDirectory() as folder:
            put_files(draft, folder)
            return self.ended([it.replace('{dir}', folder) for it in self.words], b'')

    def ended(self, words, data):
        """What a process writes until its end."""
        child = Child(words)
        try:
            return child.talk(data, self.seconds, False)
        finally:
            child.end()

    def anew(self):
        """The same solver, which hasn't seen any instance: this one."""
        return self

    def close(self):
        """Nothing is left of it."""


class LineSolver:
    """Asks one process for all instances: a line with the instance in JSON, to which a line answers. After a failure, another
    process is started.
    """

    def __init__(self, words, seconds):
        self.words, self.seconds = words, seconds
        self.child = None

    def rows(self, draft):
        """The pairs of the line that it writes, as rows of two cells."""
        self.child = self.child or Child(self.words)
        written = ''
        try:
            written = self.child.talk(draft.json().encode(), self.seconds, True)
            if self.child.written:
                raise ValueError('it wrote more than one line')
            return written, rows_of_line(written)
        except ValueError as fault:
            self.close()
            raise Broken('unreadable', str(fault), written) from None
        except Broken:
            self.close()
            raise

    def anew(self):
        """The same solver, which hasn't seen any instance."""
        return LineSolver(self.words, self.seconds)

    def close(self):
        """Ends the process."""
        if self.child:
            self.child.end()
            self.child = None


def rows_of_table(written):
    """The rows of a table of pairs behind its header row, each with where it stands; None for the one row `none`."""
    try:
        lines = written.splitlines()
        table = enumerate(csv.reader(lines, delimiter=mark_in(lines), strict=True), 1)
        rows = [(f'row {number}', [it.strip() for it in row]) for number, row in table if any(row)]
    except csv.Error as fault:
        raise ValueError(f'this is no table: {fault}') from None
    if not rows:
        raise ValueError('the header row is missing: it wrote nothing')
    # Somebody may be called `none`, and has a second cell then.
    if len(rows) == 2 and rows[1][1] == ['none']:
        return None
    return [(where, *(row + [''])[:2]) for where, row in rows]


def rows_of_line(line):
    """The pairs of a line in JSON, each with where it stands; None for `null`."""
    try:
        value = json.loads(line)
    except (ValueError, RecursionError):
        raise ValueError(f'the line is no JSON: {shortened(line)}') from None
    if value is None:
        return None
    if isinstance(value, dict):
        value = list(value.items())
    if not isinstance(value, list):
        raise ValueError(f'the line is no array of pairs and no object: {shortened(line)}')
    rows = [('', 'proposer', 'partner')]
    for number, it in enumerate(value, 1):
        if not (isinstance(it, (list, tuple)) and len(it) == 2 and isinstance(it[0], str) and isinstance(it[1], (str, type(None)))):
            raise ValueError(f'pair {number} has not two names: {shortened(json.dumps(it))}')
        rows.append((f'pair {number}', it[0], it[1] or ''))
    return rows


def shortened(text):
    """A text of which a fault shows the beginning."""
    return repr(text if len(text) <= 60 else text[:57] + '...')


def put_files(draft, folder):
    """The instance in a folder: instance.txt, instance.json, and tables with a row for each agent."""
    rows = [[name, *row] for name, row in draft.proposers.items()]
    tables = [('persons.csv' if draft.rooms else 'proposers.csv', ['name'], rows)]
    if not draft.rooms:
        rows = [[name, draft.capacities[name], *row] for name, row in draft.reviewers.items()]
        tables.append(('reviewers.csv', ['name', 'capacity'], rows))
    for name, text in (('instance.txt', draft.text()), ('instance.json', draft.json())):
        with open(os.path.join(folder, name), 'w', encoding='ascii') as file:
            file.write(text)
    for name, head, rows in tables:
        most = max([len(head), *map(len, rows)])
        with open(os.path.join(folder, name), 'w', encoding='ascii', newline='') as file:
            table = csv.writer(file, lineterminator='\n')
            table.writerow(head + [f'choice {number + 1}' for number in range(most - len(head))])
            table.writerows(row + [''] * (most - len(row)) for row in rows)
