"""What an answer of the solver is: right, or wrong by the program's `check`."""
import collections
import os
import subprocess
import sys
import tempfile

from .program import number_of, pairs_of
from .solver import Broken

EXPLAIN = os.path.join(os.path.dirname(os.path.dirname(os.path.realpath(__file__))), 'explain')
CLAIMS = ('proposers', 'reviewers', 'stable', 'regret', 'weight-ranks', 'weight-given', 'roommates')
RIGHT = 'right'
SHOWN = 5

# How an instance was answered: a kind of failure or RIGHT, a reason that tells failures of a kind apart, what is wrong in words,
# what the solver wrote, its pairs where it could be read, and the verdict of `check` with what it was asked.
Result = collections.namedtuple('Result', 'kind reason words written pairs asked verdict')


def result_of(kind, reason='', words='', written='', pairs=None, asked='', verdict=''):
    return Result(kind, reason, words, written, pairs, asked, verdict)


def named_pairs(draft, rows):
    """The pairs of rows, of which the first one names the columns, in the order of the proposers; each once."""
    own = {name: place for place, name in enumerate(draft.proposers)}
    others = draft.proposers if draft.rooms else draft.reviewers
    sides = ('person', 'person') if draft.rooms else ('proposer', 'reviewer')
    head, found = rows[0], {}
    if head[1] in own and head[2] in others and all(row[1] != head[1] for row in rows[1:]):
        raise ValueError('the header row is missing: the first row has a pair')
    for where, p, r in rows[1:]:
        if p not in own:
            swapped = '; are the columns the other way round?' if p in others and r in own else ''
            raise ValueError(f'{where}: no {sides[0]} is called {p!r}{swapped}')
        if r and r not in others:
            raise ValueError(f'{where}: no {sides[1]} is called {r!r}')
        if r:
            found[p, r] = None
    pairs = dict.fromkeys(tuple(sorted(it, key=own.get)) for it in found) if draft.rooms else found
    return sorted(pairs, key=lambda it: own[it[0]])


class Judge:
    """Has answers judged for what they are claimed to be."""

    def __init__(self, program, claim):
        self.program, self.claim = program, claim

    def tried(self, solver, draft):
        """How a solver answers an instance."""
        try:
            written, rows = solver.rows(draft)
            pairs = None if rows is None else named_pairs(draft, rows)
        except Broken as fault:
            return result_of(fault.kind, fault.reason, fault.words, fault.written)
        except ValueError as fault:
            fault = Broken('unreadable', str(fault), written)
            return result_of(fault.kind, fault.reason, fault.words, fault.written)
        return self.of_none(draft, written) if pairs is None else self.of_pairs(draft, written, pairs)

    def of_none(self, draft, written):
        """What it is that there is nothing."""
        status, own = self.program.ask(draft.text(), *self.right_words(draft))
        if status == 3:
            return result_of(RIGHT, written=written)
        return result_of('wrong', 'NotNone', 'there is a matching', written)

    def of_pairs(self, draft, written, pairs):
        """What pairs are."""
        text = draft.text()
        if draft.rooms:
            head = 'answer solve\n'
        elif self.claim in ('proposers', 'reviewers'):
            head = f'answer solve side={self.claim}\n'
        else:
            head = f'answer regret\nregret {regret_of(draft, pairs)}\n'
        asked = text + head + ''.join(f'pair {p} {r}\n' for p, r in pairs) + 'end\n'
        status, verdict = self.program.ask(asked, 'check')
        if status == 7:
            return result_of('wrong', verdict.split()[4], '', written, pairs, asked, verdict)
        if draft.rooms or self.claim in ('proposers', 'reviewers', 'stable'):
            return result_of(RIGHT, written=written, pairs=pairs)
        return self.of_least(draft, written, pairs)

    def of_least(self, draft, written, pairs):
        """What pairs are that are stable and allowed, and have to be the least too."""
        status, own = self.program.ask(draft.text(), *self.right_words(draft))
        word, best = ('regret', number_of(own, 'regret')) if self.claim == 'regret' else ('weight', number_of(own, 'total'))
        got = self.worth(draft, pairs)
        if got == best:
            return result_of(RIGHT, written=written, pairs=pairs)
        return result_of('wrong', 'NotLeast', f'it is stable, but its {word} is {got}, and the least is {best}', written, pairs)

    def worth(self, draft, pairs):
        """The regret or the weight of pairs."""
        if self.claim == 'regret':
            return regret_of(draft, pairs)
        if self.claim == 'weight-given':
            return sum(draft.weights.get(it, (0,))[0] for it in pairs)
        return sum(draft.proposers[p].index(r) + draft.reviewers[r].index(p) + 2 for p, r in pairs)

    def right_words(self, draft):
        """The words to which the program's answer is right."""
        if draft.rooms:
            return ['solve']
        words = {'proposers': 'solve side=proposers', 'reviewers': 'solve side=reviewers', 'weight-ranks': 'weight by=ranks',
                 'weight-given': 'weight by=given'}
        return words.get(self.claim, 'regret').split(' ')

    def right(self, draft):
        """A right answer, which for some claims isn't the only one: its pairs, or None where there is none."""
        status, own = self.program.ask(draft.text(), *self.right_words(draft))
        return None if status == 3 else pairs_of(own)

    def explained(self, draft, result):
        """What is wrong, as `explain` says it, in lines."""
        if not result.verdict:
            return [result.words]
        with tempfile.TemporaryDirectory() as folder:
            path = os.path.join(folder, 'both.txt')
            with open(path, 'w', encoding='ascii') as file:
                file.write(result.asked)
            done = subprocess.run([sys.executable, '-B', EXPLAIN, path], input=result.verdict.encode(), stdout=subprocess.PIPE)
        # The first line says where this is, which only somebody with the file can look up.
        told = done.stdout.decode().splitlines()[1:] or [result.reason]
        return told[:1] + self.others(draft, result) if result.reason == 'NotBest' else told

    def others(self, draft, result):
        """Who has another partner than in the best matching."""
        right, has = dict(self.right(draft)), dict(result.pairs)
        off = [p for p in draft.proposers if right.get(p) != has.get(p)]
        told = [f'  {p} has {has.get(p, "nobody")}, and {right.get(p, "nobody")} is right' for p in off[:SHOWN]]
        return told + ([f'  and {len(off) - SHOWN} more'] if len(off) > SHOWN else [])


def regret_of(draft, pairs):
    """The greatest rank that an agent of a pair gives its partner; a partner that isn't on the list has none."""
    def rank(row, name):
        return row.index(name) + 1 if name in row else 0
    return max((max(rank(draft.proposers[p], r), rank(draft.reviewers[r], p)) for p, r in pairs), default=0)
