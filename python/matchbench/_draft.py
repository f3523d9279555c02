"""An instance as plain data."""
from __future__ import annotations

import json
from typing import Collection, Dict, List, Mapping, Optional, Tuple

from . import Instance, Pair

Rows = Dict[str, List[str]]


class Draft:
    """An instance as plain data that may be changed, by the names that its text has.

    `proposers` and `reviewers` have the list of each agent, and `capacities` how many each reviewer takes; of roommates
    `proposers` are the persons, and there is nothing else. `weights` gives pairs one or two weights, `forced` and `forbidden`
    are pairs, and `order` the proposers of the line `order` or None. `called` has what agents of each side are called outside
    the text, if that is another name.
    """

    def __init__(self, kind: str, proposers: Rows, reviewers: Optional[Rows] = None,
                 capacities: Optional[Dict[str, int]] = None) -> None:
        self.kind, self.proposers, self.reviewers = kind, proposers, reviewers or {}
        self.capacities = capacities or dict.fromkeys(self.reviewers, 1)
        self.weights: Dict[Pair, Tuple[int, ...]] = {}
        self.forced: List[Pair] = []
        self.forbidden: List[Pair] = []
        self.order: Optional[List[str]] = None
        self.called: Tuple[Mapping[str, str], Mapping[str, str]] = ({}, {})

    @property
    def rooms(self) -> bool:
        """Whether these are roommates."""
        return self.kind == 'roommates'

    @classmethod
    def of(cls, instance: Instance) -> Draft:
        """The plain data of an instance."""
        sides = [instance._proposers, instance._reviewers]
        names = [side.names for side in sides]
        rows = [{names[at][it]: [names[1 - at][other] for other in row] for it, row in sides[at].lists.items()} for at in (0, 1)]
        if instance.kind == 'roommates':
            draft = cls('roommates', rows[0])
        else:
            places = {names[1][it]: count for it, count in instance.capacities.items()}
            draft = cls(instance.kind, rows[0], rows[1], places)
        draft.called = sides[0].originals, sides[1].originals
        p, r = names
        draft.weights = {(p[a], r[b]): numbers for (a, b), numbers in instance.weights.items()}
        draft.forced, draft.forbidden = ([(p[a], r[b]) for a, b in pairs] for pairs in (instance.forced, instance.forbidden))
        draft.order = None if instance.compared is None else [p[it] for it in instance.compared]
        return draft

    def copy(self) -> Draft:
        """The same once more, to be changed."""
        rows = [{name: row[:] for name, row in side.items()} for side in (self.proposers, self.reviewers)]
        draft = Draft(self.kind, rows[0], rows[1], dict(self.capacities))
        draft.weights, draft.forced, draft.forbidden = dict(self.weights), self.forced[:], self.forbidden[:]
        draft.order, draft.called = self.order and self.order[:], self.called
        return draft

    def text(self) -> str:
        """The text that the program reads."""
        is_second = self.order is not None or any(len(it) > 1 for it in self.weights.values())
        lines = [f'stable {2 if is_second else 1} {self.kind}']
        lines += [' '.join([f'p {name}:', *row]) for name, row in self.proposers.items()]
        for name, row in self.reviewers.items():
            lines.append(' '.join([f'r {name} [{self.capacities[name]}]:' if self.kind == 'hospitals' else f'r {name}:', *row]))
        lines += [' '.join(['weight', *pair, *map(str, numbers)]) for pair, numbers in self.weights.items()]
        lines += [f'force {p} {r}' for p, r in self.forced] + [f'forbid {p} {r}' for p, r in self.forbidden]
        lines += [] if self.order is None else [' '.join(['order', *self.order])]
        return '\n'.join(lines + ['end', ''])

    def json(self) -> str:
        """The instance in JSON: one line without spaces, with members in the order of their names."""
        agents = [{'name': name, 'list': row} for name, row in self.proposers.items()]
        if self.rooms:
            value: Dict[str, object] = {'kind': self.kind, 'persons': agents}
        else:
            others: List[Dict[str, object]] = [{'name': name, 'list': row} for name, row in self.reviewers.items()]
            if self.kind == 'hospitals':
                others = [{**it, 'capacity': count} for it, count in zip(others, self.capacities.values())]
            value = {'kind': self.kind, 'proposers': agents, 'reviewers': others}
        weights = [[*pair, *numbers] for pair, numbers in self.weights.items()]
        for word, rows in (('weights', weights), ('forced', self.forced), ('forbidden', self.forbidden), ('order', self.order)):
            if rows:
                value[word] = rows
        return json.dumps(value, separators=(',', ':'), sort_keys=True) + '\n'

    def instance(self) -> Instance:
        """The instance, whose agents are called as they were."""
        words = ('persons',) if self.rooms else ('proposers', 'reviewers')
        return Instance._of_value(json.loads(self.json()), self.text(), dict(zip(words, self.called)))

    def measure(self) -> Tuple[int, int, int]:
        """How large it is: its agents, the entries of its lists, and its places."""
        sides = self.proposers, self.reviewers
        return sum(map(len, sides)), sum(len(row) for side in sides for row in side.values()), sum(self.capacities.values())

    def without(self, names: Collection[str], of_reviewers: bool = False) -> Draft:
        """What is left without some agents of a side."""
        gone, draft = set(names), self.copy()
        own, other = (draft.reviewers, draft.proposers) if of_reviewers else (draft.proposers, draft.reviewers)
        for name in gone:
            del own[name]
            if of_reviewers:
                del draft.capacities[name]
        rows = own if self.rooms else other
        for name, row in rows.items():
            rows[name] = [it for it in row if it not in gone]
        at = 1 if of_reviewers else 0
        draft.weights = {pair: it for pair, it in draft.weights.items() if pair[at] not in gone}
        draft.forced = [pair for pair in draft.forced if pair[at] not in gone]
        draft.forbidden = [pair for pair in draft.forbidden if pair[at] not in gone]
        if draft.order is not None and not of_reviewers:
            draft.order = [it for it in draft.order if it not in gone]
        return draft
