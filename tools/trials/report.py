"""What is told of a trial: as text, and in a folder also in JSON, as JUnit's XML, and with the least instances."""
import json
import os
import re
import shutil
import subprocess
import sys
from xml.sax.saxutils import quoteattr

from .features import ROOMS, TWO_SIDED
from .verdict import RIGHT

EXPLORE = os.path.join(os.path.dirname(os.path.dirname(os.path.realpath(__file__))), 'explore')
KINDS = (RIGHT, 'wrong', 'crash', 'timeout', 'unreadable')
SHOWN = 300
MOST_LINES = 40


class Report:
    """The trial, and the words by which it was called: without and behind `--`."""

    def __init__(self, trial, words, options):
        self.trial, self.words, self.options = trial, words, options
        self.rows = dict.fromkeys([*(ROOMS if options.rooms else TWO_SIDED)])
        self.kinds = sorted(trial.kinds.values(), key=lambda it: it.first.case.number)
        self.whys = {it.key: trial.judge.explained(it.least, it.result) for it in self.kinds}

    def head(self):
        """How many cases came to what."""
        counts = self.trial.counts
        parts = ', '.join(f'{counts[it]:,} {it}' for it in KINDS if counts[it] or it == RIGHT)
        total = sum(counts.values())
        return f'{total:,} instance{"" if total == 1 else "s"} of seed {self.options.seed}: {parts}'

    def again(self, kind):
        """The words that try the first case of a kind again; where that doesn't fail alone, with all cases before it."""
        number = kind.first.case.number
        own = ['--only', str(number)] if kind.alone else ['--cases', str(number + 1), '--jobs', '1']
        return self.words(['--seed', str(self.options.seed), *own])

    def told(self, kind):
        """What is told of a kind of failure, in lines."""
        case, result = kind.first.case, kind.result
        times = 'once' if len(kind.numbers) == 1 else f'{len(kind.numbers):,} times'
        size = 'least' if kind.is_least else 'smaller'
        lines = [f'{result.kind}, {result.reason}: {times}, first in case {case.number} (shape {case.shape}, size {case.size}). '
                 f'A {size} instance, after {kind.trials:,} trial{"" if kind.trials == 1 else "s"}:', '']
        text = kind.least.text().rstrip('\n').split('\n')
        more = [f'... and {len(text) - MOST_LINES:,} more lines'] if len(text) > MOST_LINES else []
        lines += [f'    {it}' for it in text[:MOST_LINES] + more] + ['']
        lines += told_as('its answer', [self.answer(result)])
        lines += told_as('what is wrong', self.whys[kind.key])
        if result.kind == 'wrong':
            lines += told_as('right is', [shown_pairs(self.trial.judge.right(kind.least))])
        if not kind.alone:
            lines += told_as('but', ['where it sees this instance alone, the solver doesn\'t fail so. Does it keep something from',
                                     'one instance to the next, or depend on chance?'])
        return lines + told_as('try it again', [self.again(kind)])

    def answer(self, result):
        """What the solver wrote, on one line."""
        if result.pairs is not None:
            return shown_pairs(result.pairs)
        text = '; '.join(it for it in result.written.strip().split('\n') if it)
        text = ''.join(it if it.isprintable() else '\ufffd' for it in text)
        return text[:SHOWN] + '...' if len(text) > SHOWN else text or '(nothing)'

    def table(self):
        """What was tried, in lines."""
        width = max(map(len, self.rows))
        lines = [f'{"What was tried":{width + 2}}{"instances":>11}{"failed":>8}']
        for name in self.rows:
            had, failed = self.trial.had[name], self.trial.failed[name]
            lines.append(f'  {name:{width}}{had:11,}{failed or "":>8}'.rstrip() + ('   NEVER TRIED' if not had else ''))
        return lines

    def text(self):
        """All of it."""
        lines = [self.head()]
        for kind in self.kinds:
            lines += ['', *self.told(kind)]
        shapes = wrapped('By shape, failed of all: ', [f'{shape} {failed}/{total}' for shape, failed, total in self.by_shape()])
        return '\n'.join([*lines, '', *self.table(), '', *shapes, ''])

    def value(self):
        """All of it, as a value in JSON."""
        trial = self.trial
        return {
            'seed': self.options.seed, 'size': self.options.size, 'claim': trial.judge.claim, 'command': self.options.command,
            'instances': sum(trial.counts.values()), 'counts': {it: trial.counts[it] for it in KINDS},
            'failures': [self.failure(it) for it in self.kinds],
            'tried': [{'feature': it, 'instances': trial.had[it], 'failed': trial.failed[it]} for it in self.rows],
            'shapes': {shape: {'instances': total, 'failed': failed} for shape, failed, total in self.by_shape()},
        }

    def failure(self, kind):
        """A kind of failure, as a value in JSON."""
        case, result = kind.first.case, kind.result
        return {
            'kind': result.kind, 'reason': result.reason, 'cases': kind.numbers, 'shape': case.shape, 'size': case.size,
            'least': json.loads(kind.least.json()), 'text': kind.least.text(), 'answer': result.written, 'pairs': result.pairs,
            'wrong': self.whys[kind.key], 'right': self.trial.judge.right(kind.least) if result.kind == 'wrong' else None,
            'again': self.again(kind), 'folder': folder_of(kind), 'fails_alone': kind.alone,
        }

    def by_shape(self):
        """How many instances of each shape failed, and of how many."""
        return [(shape, sum(it.values()) - it[RIGHT], sum(it.values())) for shape, it in self.trial.shapes.items()]

    def junit(self):
        """One test for each case, as build servers read it."""
        wrong = self.trial.counts['wrong']
        errors = sum(count for kind, count in self.trial.counts.items() if kind not in (RIGHT, 'wrong'))
        told = {it.key: '\n'.join(self.told(it)) for it in self.kinds}
        total = len(self.trial.results)
        lines = ['<?xml version="1.0" encoding="UTF-8"?>', f'<testsuites tests="{total}" failures="{wrong}" errors="{errors}">',
                 f'<testsuite name="challenge" tests="{total}" failures="{wrong}" errors="{errors}" skipped="0">']
        for number, shape, kind, reason, words in self.trial.results:
            head = f'<testcase classname="challenge.{shape}" name="case {number} of seed {self.options.seed}"'
            if kind == RIGHT:
                lines.append(head + '/>')
                continue
            word = 'failure' if kind == 'wrong' else 'error'
            first = next(it for it in self.kinds if it.key == (kind, reason))
            text = told[kind, reason] if first.first.case.number == number else \
                f'as case {first.first.case.number}'
            message = words or reason
            lines.append(f'{head}><{word} type={quoted(kind)} message={quoted(message)}>{escaped(text)}</{word}></testcase>')
        return '\n'.join([*lines, '</testsuite>', '</testsuites>', ''])

    def write(self, folder):
        """Writes the folder: the report in three forms, and a folder for each kind of failure."""
        os.makedirs(folder, exist_ok=True)
        forget(folder)
        put(folder, 'report.txt', self.text())
        put(folder, 'report.json', json.dumps(self.value(), indent=1) + '\n')
        put(folder, 'junit.xml', self.junit())
        for kind in self.kinds:
            own = os.path.join(folder, folder_of(kind))
            os.makedirs(own, exist_ok=True)
            first = kind.first.case.draft
            for name, text in (('least.txt', kind.least.text()), ('least.json', kind.least.json()), ('first.txt', first.text()),
                               ('first.json', first.json()), ('answer', kind.result.written),
                               ('what.txt', '\n'.join(self.told(kind)) + '\n')):
                put(own, name, text)
            if kind.result.asked:
                put(own, 'both.txt', kind.result.asked)
            self.page(own)

    @staticmethod
    def page(folder):
        """Has a page of the least instance made, where the tool for that is there and takes it."""
        if os.path.isfile(EXPLORE):
            words = [sys.executable, '-B', EXPLORE, os.path.join(folder, 'least.txt')]
            done = subprocess.run(words, stdin=subprocess.DEVNULL, stdout=subprocess.PIPE, stderr=subprocess.DEVNULL)
            if done.returncode == 0 and done.stdout:
                put(folder, 'page.html', done.stdout.decode())


def folder_of(kind):
    """What the folder of a kind of failure is called."""
    return re.sub(r'[^A-Za-z0-9.-]+', '_', '-'.join(kind.key)).strip('_')


def forget(folder):
    """Takes away the failures of an earlier report in the same folder."""
    try:
        with open(os.path.join(folder, 'report.json'), encoding='utf-8') as file:
            names = [it['folder'] for it in json.load(file)['failures']]
    except (OSError, ValueError, KeyError, TypeError):
        return
    for name in names:
        if isinstance(name, str) and os.path.isfile(os.path.join(folder, os.path.basename(name), 'what.txt')):
            shutil.rmtree(os.path.join(folder, os.path.basename(name)))


def put(folder, name, text):
    """Writes a file."""
    with open(os.path.join(folder, name), 'w', encoding='utf-8', errors='surrogateescape') as file:
        file.write(text)


def shown_pairs(pairs):
    """Pairs on one line."""
    if pairs is None:
        return 'none'
    text = '; '.join(' '.join(it) for it in pairs)
    return text[:SHOWN] + '...' if len(text) > SHOWN else text or '(no pair)'


def told_as(title, lines):
    """Lines behind a title, one below the other."""
    return [f'  {title + ":" if at == 0 else "":16}{line}' for at, line in enumerate(lines)]


def wrapped(title, items):
    """Items behind a title, on lines of at most 100 columns."""
    lines = [title]
    for at, it in enumerate(items):
        piece = it + (', ' if at + 1 < len(items) else '')
        if len(lines[-1]) + len(piece) > 100:
            lines.append('  ')
        lines[-1] += piece
    return [it.rstrip() for it in lines]


def escaped(text):
    """A text as XML has it: without characters that XML doesn't know."""
    text = re.sub(r'[^\t\n\r\x20-\ud7ff\ue000-\ufffd\U00010000-\U0010ffff]', '\ufffd', text)
    return text.replace('&', '&amp;').replace('<', '&lt;').replace('>', '&gt;')


def quoted(text):
    """A text as a value of XML, with its quotes."""
    return quoteattr(re.sub(r'[^\x20-\ud7ff\ue000-\ufffd\U00010000-\U0010ffff]', ' ', text))
