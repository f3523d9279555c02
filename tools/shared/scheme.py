"""What an answer means for a scheme: who has which place, by the names of the scheme's tables."""
from .answer import Answer
from .command import Fault, called, read
from .instance import Instance
from .names import Names, near
from .table import key_of
from .words import all_of

MATCHINGS = ('solve', 'regret', 'weight', 'meet', 'join', 'median')


class Scheme:
    """An instance of two sides, an answer with pairs, and the table of names, None where agents have the names of the instance.
    `has` is the reviewer of each proposer that has one, and `there` the proposers of each reviewer, the best first.
    """

    def __init__(self, instance, answer, names):
        self.instance, self.answer, self.names = instance, answer, names
        self.has, self.there = {}, {name: [] for name in instance.reviewers}
        if instance.kind == 'roommates':
            raise Fault(f'{instance.file}: roommates have no places')
        if any(line.keyword == 'none' for line in answer.lines):
            raise answer.fault(2, 'the answer is `none`: there is no such matching')
        if answer.job[0] not in MATCHINGS:
            raise answer.fault(1, f'an answer of `{answer.job[0]}` isn\'t one matching; those of {all_of(MATCHINGS)} are')
        for line in answer.lines:
            if line.keyword == 'pair':
                self.take(line, *line.fields)
        for r, there in self.there.items():
            there.sort(key=instance.reviewers[r].ranks.get)

    @staticmethod
    def read(instance, answer, names):
        """The scheme of three files; the instance may have too many seats."""
        return Scheme(Instance.read(called(instance), read(instance), any_seats=True), Answer.read(called(answer), read(answer)),
                      Names.read(names) if names else None)

    def take(self, line, p, r):
        """Takes a pair."""
        if not self.instance.acceptable(p, r) or p in self.has or len(self.there[r]) >= self.instance.reviewers[r].capacity:
            what = f'{p} can\'t have a place at {r}'
            raise self.answer.fault(line.number, f'this can\'t be an answer to {self.instance.file}: {what}')
        self.has[p] = r
        self.there[r].append(p)

    def original(self, side, name):
        """The name that an agent has in the scheme's tables."""
        if self.names is None:
            return name
        found = self.names.sides.get(side, {}).get(name)
        if found is None:
            raise Fault(f'{self.names.file} has no {side} {name}')
        return found

    def proposer(self, name):
        """The name of a proposer in the scheme's tables."""
        return self.original('proposer', name)

    def reviewer(self, name):
        """The name of a reviewer in the scheme's tables."""
        return self.original('reviewer', name)

    def everybody(self):
        """The proposers and those who were placed beforehand, in the order of the scheme's table: a name of the instance, or None,
        and the original.
        """
        if self.names is None:
            return [(name, name) for name in self.instance.proposers]
        return [(name, original) for name, original in self.names.listed if name is None or name in self.instance.proposers]

    def placed(self):
        """The reviewer of each person who was placed beforehand."""
        return self.names.placed if self.names else {}

    def given(self, r):
        """How many places of a reviewer were given away beforehand."""
        return sum(it == r for it in self.placed().values())

    def choice(self, p):
        """Which of its choices a proposer has, from 1, or None."""
        return self.instance.proposers[p].ranks[self.has[p]] if p in self.has else None

    def is_full(self, r):
        """Whether all places of a reviewer are taken, and it has one."""
        return 0 < self.instance.reviewers[r].capacity == len(self.there[r])

    def figures(self, p, r):
        """What ranks a proposer at a reviewer: titles and figures, first the points, then further columns, last the place in the
        lot.
        """
        titles, points = self.instance.reviewers[r].points
        found = list(zip(titles, points.get(p, ())))
        place = self.names.place('proposer', p, r) if self.names else None
        return found + ([('lot', str(place))] if place is not None else [])

    def named(self, side, text):
        """The name in the instance of a proposer or a reviewer by what it is called in the scheme's tables; of somebody who was
        placed beforehand None.
        """
        agents = self.instance.proposers if side == 'proposer' else self.instance.reviewers
        originals = {self.original(side, name): name for name in agents}
        keys = {key_of(it): name for it, name in originals.items()}
        keys.update({key_of(it): None for it in self.placed()} if side == 'proposer' else {})
        if key_of(text) in keys:
            return keys[key_of(text)]
        if text in agents:
            return text
        meant = near(text, originals)
        raise Fault(f'there is no {side} {text!r}' + (f'; is {meant!r} meant?' if meant else ''))
