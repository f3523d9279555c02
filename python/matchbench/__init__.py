"""Stable matchings in Python, found by the program `matchbench`.

    from matchbench import Instance
    instance = Instance.marriage({'Zoë': ['a', 'b'], 'Ólafur': ['b', 'a']}, {'a': ['Ólafur', 'Zoë'], 'b': ['Zoë', 'Ólafur']})
    instance.solve().partners()       # {'Zoë': 'a', 'Ólafur': 'b'}

Each result keeps the text that the program wrote as `text`. That text is what is proved; nothing of this module is. docs/PYTHON.md
is its guide, docs/FORMATS.md has all that the program reads and writes. This file may be copied alone as matchbench.py.

Names are any hashable values but None. Ranks and the numbers of seats, rotations and lines are counted from 1.
"""
from __future__ import annotations

import contextlib
import difflib
import json
import operator
import os
import re
import shutil
import subprocess
import sys
from collections import Counter
from dataclasses import dataclass, field
from types import MappingProxyType
from typing import Any, Dict, Iterable, Iterator, List, Mapping, NamedTuple, Optional, Sequence, Tuple, Union

try:
    from ._names import sound_names
    from ._program import Unusable, beside
    from ._reasons import REASONS, VERDICTS
    from .views import VERSION as __version__, InstanceViews, LightestViews, MatchingViews, OrderViews
except ImportError:
    # This file was copied alone.
    __version__, REASONS, VERDICTS, Unusable, beside = 'unknown', {}, {}, OSError, lambda name: None  # type: ignore
    LightestViews = MatchingViews = OrderViews = object  # type: ignore[assignment, misc]
    InstanceViews = type('InstanceViews', (), {'trimmed': None})  # type: ignore[assignment, misc]

    def sound_names(originals: Sequence[str], letter: str) -> List[str]:
        """Names of the text: the same ones where all have the form of such, else numbered ones."""
        is_sound = all(re.match(r'[A-Za-z0-9_][A-Za-z0-9_.-]{0,63}\Z', it) for it in originals)
        return [it if is_sound else f'{letter}{number}' for number, it in enumerate(originals, 1)]

__all__ = ['Couples', 'Failed', 'FlowEdge', 'Instance', 'LeastRegret', 'Level', 'Lightest', 'Matching', 'MatchbenchError',
           'Median', 'NoMatching', 'NotStable', 'ProgramMissing', 'Reduced', 'Refused', 'Rest', 'Result', 'Rotation',
           'RotationOrder', 'Route', 'Seat', 'StablePairs', 'Survey', 'Verdict', '__version__', 'find_program']

Name = Any
Pair = Tuple[Name, Name]
# What is given for each agent, in a mapping or a pandas.Series; in a sequence the agents are their numbers, from 0.
Lists = Union[Mapping[Any, Iterable[Name]], Sequence[Iterable[Name]]]
Capacities = Union[Mapping[Any, int], Sequence[int]]
# For each pair a weight, or a weight and a second one.
Weights = Mapping[Any, Union[int, Tuple[int, int]]]

MOST_LISTED = 1_000_000

# Why there is no answer, by status.
FAILURES = {2: 'a word of the command line is faulty', 4: 'there was no memory', 5: 'reading the instance failed',
            6: 'writing the answer failed', 8: 'the system refused the words of the command line',
            70: 'the script has no program to call'}
WANTED = '{} and {} would both rather have one another'


class MatchbenchError(Exception):
    """What all exceptions of this module are, but for those of wrong arguments and of what isn't installed."""


class ProgramMissing(MatchbenchError):
    """There is no program to ask, or it can't be started."""


class Refused(MatchbenchError):
    """The program doesn't take the input: `reason` is the name that docs/FORMATS.md has for it, and `sentence` explains it. `line`
    is counted over the whole input, and 0 for the text as a whole; `line_text` stands there, and `text` is the program's own line.
    """

    def __init__(self, reason: str, line: int, line_text: str, text: str) -> None:
        super().__init__(reason, line, line_text, text)
        self.reason, self.line, self.line_text, self.text = reason, line, line_text, text
        self.sentence = REASONS.get(reason, 'docs/FORMATS.md says why the program doesn\'t take this')

    def __str__(self) -> str:
        where = f'line {self.line}' if self.line else 'the text'
        shown = f', {self.line_text[:100] + "..." * (len(self.line_text) > 100)!r}' if self.line_text else ''
        return f'{where}{shown}: {self.sentence} ({self.reason})'


class NotStable(Refused):
    """The matching `which`, 'left' or 'right', isn't stable: `pair` can't be held (`cause` is 'breach') or 'blocks'; see `why`."""

    def __init__(self, line: int, line_text: str, text: str, which: str, cause: str, pair: Pair, why: str) -> None:
        super().__init__('NotStable', line, line_text, text)
        self.args = (line, line_text, text, which, cause, pair, why)
        self.which, self.cause, self.pair, self.why = which, cause, pair, why
        self.sentence = f'the {which} matching isn\'t stable: {why}'


class NoMatching(MatchbenchError):
    """No stable matching is allowed; or roommates have none, as an odd one of the `parties` of a stable partition shows."""

    def __init__(self, text: str, parties: Tuple[Tuple[Name, ...], ...] = ()) -> None:
        super().__init__(text, parties)
        self.text, self.parties = text, parties

    def __str__(self) -> str:
        return 'these roommates have no stable matching' if self.parties else 'no stable matching is allowed'


class Failed(MatchbenchError):
    """The program ended without a whole answer: with this status, negative where a signal ended it, and this last line."""

    def __init__(self, status: int, text: str) -> None:
        super().__init__(status, text)
        self.status, self.text = status, text

    def __str__(self) -> str:
        if self.status < 0:
            return f'the program was ended by signal {-self.status}'
        return f'{FAILURES.get(self.status, "the answer is not whole")} (status {self.status})'


def find_program() -> str:
    """The path of the program: of the file that the environment variable MATCHBENCH names, else of what came with this package,
    else of `matchbench` on PATH. Whether it was built from the sources as they are isn't looked at. Raises ProgramMissing.
    """
    named = os.environ.get('MATCHBENCH')
    if named:
        if os.path.isfile(named) and os.access(named, os.X_OK):
            return os.path.abspath(named)
        raise ProgramMissing(f'MATCHBENCH is {named!r}, which is no program')
    try:
        found = beside('matchbench') or shutil.which('matchbench')
    except Unusable as fault:
        raise ProgramMissing(str(fault)) from fault
    if found is None:
        raise ProgramMissing('the program is missing: `./matchbench --build` at the top of a clone of the repository proves and '
                             'builds it within an hour, and the environment variable MATCHBENCH names one elsewhere')
    return found


class Seat(NamedTuple):
    """A seat of a reviewer, and its number there. In a marriage each reviewer has the one seat 1."""
    reviewer: Name
    number: int


@dataclass(frozen=True)
class Result:
    """What a command answered, and its text."""
    text: str = field(repr=False, compare=False)


@dataclass(frozen=True)
class Matching(Result, MatchingViews):
    """A matching: `pairs` has a proposer and a reviewer for each matched proposer, and `ranks` the rank of each proposer's partner,
    or one more than its list is long where it is alone; both are in the order of the instance. That of `list` has its line as text.
    """
    instance: Instance = field(repr=False, compare=False)
    pairs: Tuple[Pair, ...]
    ranks: Tuple[int, ...]

    def partners(self) -> Dict[Name, Optional[Name]]:
        """The reviewer of each proposer, None where it is alone; of roommates the partner of each person."""
        return {**dict.fromkeys(self.instance.proposers), **dict(self._each())}

    def places(self) -> Dict[Name, Tuple[Name, ...]]:
        """The proposers of each reviewer, in the order of the instance; of roommates the partner of each person."""
        held: Dict[Name, Tuple[Name, ...]] = dict.fromkeys(self.instance.reviewers, ())
        for proposer, reviewer in self._each():
            held[reviewer] += (proposer,)
        return held

    @property
    def reviewer_ranks(self) -> Tuple[Optional[int], ...]:
        """The rank that each proposer has for its partner, None where it is alone: proposer by proposer, as `ranks`."""
        lists = self.instance.reviewers
        return tuple(None if r is None else lists[r].index(p) + 1 for p, r in self.partners().items())

    def changed(self, other: Matching) -> Dict[Name, Tuple[Optional[Name], Optional[Name]]]:
        """Each proposer that has another partner in another matching, with its partners here and there."""
        there = other.partners()
        return {p: (r, there[p]) for p, r in self.partners().items() if there[p] != r}

    def _each(self) -> Iterable[Pair]:
        """The pairs; of roommates both ways."""
        return [it for pair in self.pairs for it in (pair, pair[::-1])] if isinstance(self, Couples) else self.pairs


@dataclass(frozen=True)
class Couples(Matching):
    """A matching of roommates. `pairs` are the couples, each with the person first that comes first in the instance."""


@dataclass(frozen=True)
class Reduced(Result):
    """The reduced lists; `first` and `last` are each matched proposer's seats in the proposers' best and in the reviewers' best."""
    first: Dict[Name, Seat]
    last: Dict[Name, Seat]
    proposers: Dict[Name, Tuple[Seat, ...]]
    reviewers: Dict[Seat, Tuple[Name, ...]]


@dataclass(frozen=True)
class Rotation:
    """A rotation: `pairs` has each of its proposers with the seat that it leaves for that of the next pair, the last for that
    of the first. `needs` are rotations that have to be eliminated before; those that follow from these may be left out.
    """
    number: int
    pairs: Tuple[Tuple[Name, Seat], ...]
    needs: Tuple[int, ...]

    def moves(self) -> Tuple[Tuple[Name, Seat, Seat], ...]:
        """Each proposer with the seat that it leaves and the one to which it goes."""
        seats = [seat for _, seat in self.pairs]
        return tuple((p, old, new) for (p, old), new in zip(self.pairs, seats[1:] + seats[:1]))


@dataclass(frozen=True)
class RotationOrder(Result, OrderViews):
    """All rotations, in the order of their elimination from the proposers' best on; `first` has each proposer's seat there."""
    first: Dict[Name, Seat]
    rotations: Tuple[Rotation, ...]

    def edges(self) -> Tuple[Tuple[int, int], ...]:
        """The numbers of a rotation and of one that needs it, for each need in the answer."""
        return tuple((needed, it.number) for it in self.rotations for needed in it.needs)


@dataclass(frozen=True)
class StablePairs(Result):
    """The pairs that are together in some stable matching, by proposer and along its list, and those that are so in every one."""
    pairs: Tuple[Pair, ...]
    fixed: Tuple[Pair, ...]


@dataclass(frozen=True)
class LeastRegret(Result):
    """An allowed stable matching of the least regret, and this regret: the greatest rank in one of its pairs, 0 without one."""
    regret: int
    matching: Matching


class FlowEdge(NamedTuple):
    """What flows along an edge of the net, between the source 'S', the sink 'T' and rotations by their numbers."""
    source: Union[str, int]
    target: Union[str, int]
    amount: int


@dataclass(frozen=True)
class Level(Result):
    """A level of weights: the sum of the matching, what each rotation adds, a flow in the level's net, its value, and the cut."""
    total: int
    gains: Tuple[int, ...]
    flow: Tuple[FlowEdge, ...]
    value: int
    cut: int


@dataclass(frozen=True)
class Lightest(Level, LightestViews):
    """The lightest allowed stable matching; that each cut is equal to its value shows that none is lighter. `first` and `rotations`
    are as in a `RotationOrder`, `taken` has the numbers of the rotations that the flow still reaches, and `second` is the level of
    second weights, None where no pair has one.
    """
    matching: Matching
    first: Dict[Name, Seat]
    rotations: Tuple[Rotation, ...]
    taken: Tuple[int, ...]
    second: Optional[Level]


@dataclass(frozen=True)
class Median(Result):
    """The median of the allowed stable matchings, and how many these are."""
    listed: int
    matching: Matching


@dataclass(frozen=True)
class Route(Result):
    """A shortest way from one stable matching to another: the numbers of the rotations to take `back`, then of those `forth`."""
    back: Tuple[int, ...]
    forth: Tuple[int, ...]
    first: Dict[Name, Seat]
    rotations: Tuple[Rotation, ...]


@dataclass(frozen=True)
class Rest(Result):
    """Who of some roommates is left out, the first member of each odd party of three or more, and the couples of the others."""
    out: Tuple[Name, ...]
    matching: Matching


@dataclass(frozen=True)
class Survey(Result):
    """Figures over so many matchings: the sum of all proposers' ranks, the least and the greatest regret, how often a proposer has
    its first choice, second, third and a later one, and is alone; `last` has the last one's ranks, or None where it was the last.
    """
    listed: int
    rank_sum: int
    least_regret: int
    greatest_regret: int
    first: int
    second: int
    third: int
    later: int
    unmatched: int
    last: Optional[Tuple[int, ...]]


@dataclass(frozen=True)
class Verdict(Result):
    """Whether an answer, or a claim on a matching, is right: a verdict is true where it is. Else `reason` is the first one for
    which it isn't, `sentence` explains it, and `line` is where it shows, counted from the first of the instance. `blocking` are
    two who would both rather have one another, where that is the reason; the second one may be a `Seat`.
    """
    right: bool
    sentence: str
    reason: Optional[str] = None
    line: Optional[int] = None
    line_text: str = ''
    blocking: Optional[Pair] = None

    def __bool__(self) -> bool:
        return self.right


# A matching of one's own: one from here, a reviewer or None for each proposer, or pairs.
GivenMatching = Union[Matching, Mapping[Any, Optional[Name]], Iterable[Pair]]


class _Side:
    """The agents of one side by their own names: lists, capacities, and their names in the text."""

    def __init__(self, word: str, given: Lists, capacities: Optional[Capacities] = None,
                 names: Optional[Sequence[str]] = None) -> None:
        self.word = word
        self.lists: Dict[Name, Tuple[Name, ...]] = {}
        for name, row in _by_agent(word, given).items():
            if name is None:
                raise TypeError('None is no name: it stands for being alone')
            if isinstance(row, (str, bytes, set, frozenset, Mapping)) or not hasattr(row, '__iter__'):
                raise TypeError(f'the list of {name!r} is {row!r}, and not a list of names, best first')
            # Rows of a table are filled up with empty cells.
            entries = list(row)
            while entries and _is_empty(entries[-1]):
                entries.pop()
            self.lists[name] = tuple(entries)
        counts = Counter(map(str, self.lists))
        texts = [str(it) if isinstance(it, str) or counts[str(it)] == 1 else '' for it in self.lists]
        self.names = dict(zip(self.lists, sound_names(texts, word[0]) if names is None else names))
        self.originals = {it: name for name, it in self.names.items()}
        places = dict.fromkeys(self.lists, 1) if capacities is None else _by_agent('capacities', capacities)
        for it in places:
            self.name(it, 'the capacities')
        missing = [it for it in self.lists if it not in places]
        if missing:
            raise ValueError(f'{missing[0]!r} has no capacity' + f', nor have {len(missing) - 1} others' * (len(missing) > 1))
        self.capacities = {it: _number(f'the capacity of {it!r}', places[it], 0, 4_096) for it in self.lists}

    def name(self, original: Name, where: str) -> str:
        """The name in the text of an agent of this side; `where` says where it was named."""
        try:
            return str(self.names[original])
        except (KeyError, TypeError):
            if _is_empty(original):
                raise ValueError(f'{original!r} in {where} is no name: leave out what is empty') from None
            known = {str(it).strip().casefold(): it for it in [*self.lists][:500]}
            cutoff = 0.8 if isinstance(original, str) else 1
            near = difflib.get_close_matches(str(original).strip().casefold(), known, 1, cutoff)
            hint = f'; is {known[near[0]]!r} meant?' if near else ''
            raise ValueError(f'{original!r} in {where} is none of the {self.word}{hint}') from None

    def lines(self, keyword: str, other: _Side, with_capacities: bool) -> Iterator[str]:
        """The lines of the agents."""
        for name, row in self.lists.items():
            where = f'the list of {name!r}'
            names = [other.name(it, where) for it in row]
            if len(set(names)) < len(names):
                raise ValueError(f'{next(it for place, it in enumerate(row) if it in row[:place])!r} stands twice on {where}')
            shown = f' [{self.capacities[name]}]' if with_capacities else ''
            yield f'{keyword} {self.names[name]}{shown}: {" ".join(names)}'.rstrip()

    def seat(self, shown: str) -> Seat:
        """The seat that a field of an answer names."""
        name, _, number = shown.partition('/')
        return Seat(self.originals[name], int(number or 1))


class Instance(InstanceViews):
    """An instance: its `kind` ('marriage', 'hospitals' or 'roommates'), the lists of its `proposers` and of its `reviewers`, whose
    `capacities` say how many each takes, `proposer_names` and `reviewer_names`, those of the text, `weights`, each as one number or
    two, `forced` and `forbidden` pairs, and who is `compared` first, or None; of roommates both sides are the persons. It doesn't
    change. Two are equal if they have the same parts in the same order.

    Most methods start the program, and raise ProgramMissing, Failed, and Refused where it doesn't take the instance. `list`,
    `survey`, `regret`, `weight` and `median` speak of the allowed stable matchings, which have each forced pair and no forbidden
    one, the other methods of all. Roommates have `solve`, `list`, `rest`, `check` and `check_matching` alone.
    """

    def __init__(self, kind: str, sides: Sequence[_Side], weights: Optional[Weights] = None, forced: Iterable[Pair] = (),
                 forbidden: Iterable[Pair] = (), order: Optional[Iterable[Name]] = None, text: Optional[str] = None) -> None:
        """For the methods below, which make instances."""
        if not isinstance(kind, str):
            raise TypeError('Instance.marriage, Instance.hospitals and Instance.roommates make instances of lists')
        self.kind, self._proposers, self._reviewers = kind, sides[0], sides[-1]
        self.proposers, self.proposer_names = MappingProxyType(sides[0].lists), MappingProxyType(sides[0].names)
        self.reviewers, self.reviewer_names = MappingProxyType(sides[-1].lists), MappingProxyType(sides[-1].names)
        self.capacities = MappingProxyType(sides[-1].capacities)
        given = _by_agent('weights', {} if weights is None else weights)
        self.weights = MappingProxyType({it: _weight(it, given[it]) for it in _pairs_in(list(given), 'the weights')})
        self.forced, self.forbidden = _pairs_in(forced, 'the forced pairs'), _pairs_in(forbidden, 'the forbidden pairs')
        self.compared = None if order is None else tuple(order)
        self._text = '\n'.join([*self._lines_of_text(), 'end', '']) if text is None else text

    @classmethod
    def marriage(cls, proposers: Lists, reviewers: Lists, *, weights: Optional[Weights] = None, forced: Iterable[Pair] = (),
                 forbidden: Iterable[Pair] = (), order: Optional[Iterable[Name]] = None) -> Instance:
        """A marriage: each agent with its list, best first; in a list of lists the agents are their numbers, from 0.

        `weights` gives pairs of a proposer and a reviewer one weight or two, `forced` pairs have to be held, and `forbidden` ones
        mustn't be; `order` has the proposers by whose ranks `list` compares first. Choices that aren't returned have no effect, but
        keep their rank. Raises ValueError or TypeError for what isn't of this form.
        """
        return cls('marriage', (_Side('proposers', proposers), _Side('reviewers', reviewers)), weights, forced, forbidden, order)

    @classmethod
    def hospitals(cls, proposers: Lists, reviewers: Lists, capacities: Capacities, *, weights: Optional[Weights] = None,
                  forced: Iterable[Pair] = (), forbidden: Iterable[Pair] = (), order: Optional[Iterable[Name]] = None) -> Instance:
        """Hospitals with residents, as `marriage`, but for how many proposers each reviewer takes: from 0 to 4,096."""
        return cls('hospitals', (_Side('proposers', proposers), _Side('reviewers', reviewers, capacities)), weights, forced,
                   forbidden, order)

    @classmethod
    def roommates(cls, persons: Lists) -> Instance:
        """Roommates: each person with its list of others."""
        side = _Side('persons', persons)
        for name, row in side.lists.items():
            if name in row:
                raise ValueError(f'{name!r} stands on the list of {name!r}')
        return cls('roommates', (side,))

    @classmethod
    def from_text(cls, text: Union[str, bytes], names: Optional[str] = None) -> Instance:
        """The instance of a text in the form of docs/FORMATS.md. Its agents have the names that they have there, or those of the
        table of names at a path, which `write_names` or tools/from_csv wrote.
        """
        given = text.decode('utf-8', 'surrogateescape') if isinstance(text, bytes) else text
        originals = cls._originals(names) if names is not None else {}
        try:
            return cls._of_value(json.loads(_ask(given, 'export')), given, originals)
        except Refused as fault:
            if fault.reason != 'TooManySeats' or not hasattr(cls, '_trimmed_of'):
                raise
            trimmed: Instance = cls._trimmed_of(given, originals, fault)
            return trimmed

    @classmethod
    def make(cls, shape: str, size: int, seed: int) -> Instance:
        """A made instance of the shape 'random' (a marriage with shuffled complete lists), 'hospitals' (with an eighth as many, of
        seven places), 'rooms' (roommates), 'cycle' or 'copies'. The size goes to 512, of the last to 2,048.
        """
        _one_of('shape', shape, ('random', 'hospitals', 'rooms', 'cycle', 'copies'))
        size, seed = _number('size', size, 1, 2048 if shape == 'copies' else 512), _number('seed', seed, 0, 2 ** 64 - 1)
        return cls.from_text(_ask('', 'make', f'shape={shape}', f'size={size}', f'seed={seed}'))

    @classmethod
    def _of_value(cls, value: Mapping[str, Any], text: Optional[str] = None,
                  originals: Mapping[str, Mapping[str, str]] = MappingProxyType({})) -> Instance:
        """The instance of a value in JSON, or of its text, whose names have originals for each side."""
        words = ('persons',) if value['kind'] == 'roommates' else ('proposers', 'reviewers')
        p, r = ({it['name']: originals.get(word, {}).get(it['name'], it['name']) for it in value[word]}
                for word in (words[0], words[-1]))
        sides = []
        for word, own, other in zip(words, (p, r), (r, p)):
            lists = _once(((own[it['name']], [other.get(entry, entry) for entry in it['list']]) for it in value[word]), word)
            capacities = {own[it['name']]: it['capacity'] for it in value[word] if 'capacity' in it}
            sides.append(_Side(word, lists, capacities or None, None if text is None else list(own)))
        pairs = {word: [(p.get(a, a), r.get(b, b)) for a, b, *_ in value.get(word, ())]
                 for word in ('weights', 'forced', 'forbidden')}
        weights = _once(zip(pairs['weights'], [tuple(numbers) for _, _, *numbers in value.get('weights', ())]), 'weights')
        order = [p.get(it, it) for it in value['order']] if 'order' in value else None
        return cls(value['kind'], sides, weights, pairs['forced'], pairs['forbidden'], order, text)

    def __repr__(self) -> str:
        if self.kind == 'roommates':
            return f'<Instance of roommates: {len(self.proposers)} persons>'
        return f'<Instance of {self.kind}: {len(self.proposers)} proposers, {len(self.reviewers)} reviewers>'

    def __reduce__(self) -> Tuple[Any, ...]:
        sides = self._proposers, self._reviewers
        kept = {word: it for word, it in vars(self).items() if word == 'trimmed'}
        return Instance, (self.kind, sides, dict(self.weights), self.forced, self.forbidden, self.compared, self._text), kept

    def __eq__(self, other: object) -> bool:
        return isinstance(other, Instance) and self._parts() == other._parts()

    def __hash__(self) -> int:
        return hash(self._parts()[:4])

    def _parts(self) -> Tuple[object, ...]:
        """What two equal instances have alike; the first four can be hashed."""
        agents = tuple(self.proposers.items()), tuple(self.reviewers.items()), tuple(self.capacities.items())
        return (self.kind, *agents, {pair: (it + (0,))[:2] for pair, it in self.weights.items()}, set(self.forced),
                set(self.forbidden), list(dict.fromkeys([*(self.compared or ()), *self.proposers])))

    def _lines_of_text(self) -> Iterator[str]:
        """The lines of the text before `end`."""
        is_second = self.compared is not None or any(len(it) > 1 for it in self.weights.values())
        yield f'stable {2 if is_second else 1} {self.kind}'
        yield from self._proposers.lines('p', self._reviewers, False)
        if self.kind != 'roommates':
            yield from self._reviewers.lines('r', self._proposers, self.kind == 'hospitals')
        for pair, numbers in self.weights.items():
            yield ' '.join([*self._lines('weight', [pair], 'the weights'), *map(str, numbers)])
        yield from self._lines('force', self.forced, 'the forced pairs')
        yield from self._lines('forbid', self.forbidden, 'the forbidden pairs')
        if self.compared is not None:
            yield ' '.join(['order', *(self._proposers.name(it, 'the order') for it in self.compared)])

    def _lines(self, keyword: str, pairs: Iterable[Pair], where: str = 'the matching') -> Iterator[str]:
        """The lines of pairs, which are named somewhere."""
        return (f'{keyword} {self._proposers.name(p, where)} {self._reviewers.name(r, where)}' for p, r in pairs)

    def to_text(self) -> str:
        """The text that the program reads. Doesn't start it."""
        return self._text

    def to_json(self) -> str:
        """The instance in JSON, as `export` writes it: one line without spaces, by the names of the text."""
        return _ask(self._text, 'export')

    def solve(self, side: Optional[str] = None) -> Matching:
        """The stable matching in which every proposer has the best partner that it has in any; with the side 'reviewers' the
        reviewers' best, in which it has the worst. Of roommates, any stable matching, or NoMatching is raised.
        """
        _one_of('side', side or 'proposers', ('proposers', 'reviewers'))
        return self._matching(self._answer('solve', *([f'side={side}'] if side else [])))

    def reduced(self) -> Reduced:
        """The first and last partners and the reduced lists. On the largest lists this takes most of all commands."""
        answer = self._answer('reduced')
        seat, proposer = self._reviewers.seat, self._proposers.originals
        proposers = {proposer[p]: tuple(map(seat, row)) for p, *row in answer.of('proposer')}
        reviewers = {seat(s): tuple(proposer[it] for it in row) for s, *row in answer.of('reviewer')}
        return Reduced(answer.text, self._seats(answer, 'first'), self._seats(answer, 'last'), proposers, reviewers)

    def rotations(self) -> RotationOrder:
        """All rotations, and the order in which they can be eliminated."""
        answer = self._answer('rotations')
        return RotationOrder(answer.text, *self._chain(answer))

    def pairs(self) -> StablePairs:
        """The pairs of stable matchings, and those that are in all of them."""
        answer = self._answer('pairs')
        found = [(words[0], self._pair(words)) for words in answer.lines]
        return StablePairs(answer.text, tuple(it for _, it in found), tuple(it for word, it in found if word == 'all'))

    def list(self, after: Union[None, Matching, Sequence[int]] = None, limit: Optional[int] = None) -> Iterator[Matching]:
        """A generator of the allowed stable matchings, in the order of their ranks: the lower number first where two first
        differ. Those behind `after`, a matching or its ranks, come alone. Nobody keeps earlier ones, so a listing may be of any
        length. The program is started when the first one is asked for, and ended where the generator is closed or dropped.
        """
        ranks = after.ranks if isinstance(after, Matching) else after or ()
        cursor = ','.join(str(_number('a rank of `after`', it, 0, 2 ** 32 - 1)) for it in ranks) or '-'
        left = sys.maxsize if limit is None else _number('limit', limit, 0, sys.maxsize)
        return self._listing([] if after is None else [f'after={cursor}'], left)

    def regret(self) -> LeastRegret:
        """The allowed stable matching whose greatest rank is least, and of several the best for all proposers, or NoMatching."""
        answer = self._answer('regret')
        return LeastRegret(answer.text, answer.number('regret'), self._matching(answer))

    def weight(self, by: str = 'ranks') -> Lightest:
        """The lightest allowed stable matching, and of several the one that is best for all proposers; or NoMatching is raised. By
        'ranks' it is the sum of the ranks that the two of each pair give each other, by 'given' that of the pairs' own weights, and
        then of the second ones; 0 where a pair has none.
        """
        _one_of('by', by, ('ranks', 'given'))
        answer = self._answer('weight', f'by={by}')
        second = Level(answer.text, *answer.level('2')) if answer.of('total2') else None
        taken = tuple(map(int, answer.of('taken')[0]))
        return Lightest(answer.text, *answer.level(''), self._matching(answer), *self._chain(answer), taken, second)

    def meet(self, left: GivenMatching, right: GivenMatching) -> Matching:
        """The stable matching in which each proposer has the better of its partners in two; NotStable is raised where one isn't."""
        return self._matching(self._given('meet', left, right))

    def join(self, left: GivenMatching, right: GivenMatching) -> Matching:
        """The same with the worse of its two partners, where being alone is worst."""
        return self._matching(self._given('join', left, right))

    def median(self) -> Median:
        """The matching that gives each proposer the partner in the middle, of two the better one, when those of all allowed stable
        matchings stand best first; it is stable too. Raises NoMatching where none is allowed, and Refused where over 100,000 are.
        """
        answer = self._answer('median')
        return Median(answer.text, answer.number('listed'), self._matching(answer))

    def route(self, left: GivenMatching, right: GivenMatching) -> Route:
        """The fewest rotations back and forth that lead from one stable matching to another. Raises as `meet` does."""
        answer = self._given('route', left, right)
        back, forth = (tuple(int(it) for it, in answer.of(word)) for word in ('back', 'forth'))
        return Route(answer.text, back, forth, *self._chain(answer))

    def rest(self) -> Rest:
        """Of roommates who is left out, and a matching of the others: a stable one of all where there is one."""
        answer = self._answer('rest')
        return Rest(answer.text, tuple(self._proposers.originals[it] for it, in answer.of('out')), self._matching(answer))

    def survey(self, limit: int = MOST_LISTED) -> Survey:
        """Figures over the allowed stable matchings, or over the first so many of `list`. Takes as long as listing them."""
        answer = self._answer('survey', f'limit={_number("limit", limit, 1, MOST_LISTED)}')
        listed, (_, sums, regrets, ranks) = answer.number('listed'), [list(map(int, it[1:])) for it in answer.of('tally')]
        # The same agents are alone in all stable matchings. The program counts them by the rank behind their lists.
        alone = [p for p, r in self.solve().partners().items() if r is None]
        for p in alone:
            ranks[min(len(self.proposers[p]), 3)] -= listed
        last = _ranks(answer.tail[1]) if answer.tail[0] == 'more' else None
        first, second, third, later = ranks
        return Survey(answer.text, listed, sums[0], regrets[1], regrets[2], first, second, third, later, listed * len(alone), last)

    def check(self, answer: Union[str, Result, NoMatching]) -> Verdict:
        """Whether an answer of `solve`, `reduced`, `rotations`, `list`, `regret`, `weight`, `meet` or `join` is right: a result, or
        a text in the form in which the program writes it; docs/FORMATS.md says what a yes means. Raises Refused, with the reason
        'BadAnswer', for a text of another form. One matching of `list` is no whole answer: `check_matching` takes it.
        """
        claim, front = answer if isinstance(answer, str) else answer.text, self._front()
        written = _ask(front + claim, 'check')
        said, *where = written.split('\n')[1].split(' ')
        if said == 'yes':
            return Verdict(written, True, 'the answer is right')
        line, reason = int(where[0]), where[1]
        above = [it.rstrip('\r') for it in claim.split('\n')[:line - front.count('\n')]]
        sentence, blocking = self._told(reason, _Answer('\n'.join([*above, ''])))
        return Verdict(written, False, sentence, reason, line, above[-1], blocking)

    def check_matching(self, matching: GivenMatching, claim: str = 'stable') -> Verdict:
        """Whether a matching is 'stable', or a side's best one; where it isn't: 'NotAMatching', 'Blocked' or 'NotBest'."""
        rooms = self.kind == 'roommates'
        _one_of('claim', claim, ('stable',) if rooms else ('stable', 'proposers', 'reviewers'))
        pairs = self._pairs_of(matching)
        if rooms or claim != 'stable':
            return self.check('\n'.join(['answer solve' + f' side={claim}' * (not rooms), *self._lines('pair', pairs), 'end', '']))
        try:
            return Verdict(self._given('meet', pairs, pairs).text, True, 'the matching is stable')
        except NotStable as fault:
            reason, blocking = ('Blocked', fault.pair) if fault.cause == 'blocks' else ('NotAMatching', None)
            return Verdict(fault.text, False, fault.why, reason, fault.line, fault.line_text, blocking)

    def _told(self, reason: str, answer: _Answer) -> Tuple[str, Optional[Pair]]:
        """What is wrong at the last line of an answer, and the pair that blocks there."""
        _, command, *side = answer.head
        if command != 'solve' or ['none'] in answer.lines:
            alone = f'this line isn\'t right: docs/FORMATS.md has the reason {reason}', None
            return self._wrong(reason, answer) if reason in VERDICTS else alone
        pairs = [self._pair(words) for words in answer.lines]
        if reason == 'NotAMatching':
            return self._why(pairs, self._pair(answer.tail)), None
        blocking = self._blocking(pairs)
        return (WANTED.format(*blocking) if blocking else self._not_best(side[0].partition('=')[2], pairs)), blocking

    def _why(self, pairs: Sequence[Pair], pair: Pair) -> str:
        """Why a pair can't be held beside others; nothing where it can be."""
        if pair in pairs:
            return f'{pair[0]} and {pair[1]} stand there twice'
        why = [f'{one} doesn\'t list {other}' for one, other, lists in ((*pair, self.proposers), (*pair[::-1], self.reviewers))
               if other not in lists[one]]
        cut = self.trimmed
        if cut and (pair[1] not in cut.proposers[pair[0]] or pair[0] not in cut.reviewers[pair[1]]):
            why.append('no stable matching has the two together')
        for place, side in enumerate((self._proposers, self._reviewers)):
            one = pair[place]
            held = [it[1 - at] for it in pairs for at in ((0, 1) if self.kind == 'roommates' else (place,)) if it[at] == one]
            if len(held) >= (side.capacities[one] if place else 1):
                full = 'full ' * (len(held) > 1)
                why.append(f'{one} is {full}with {" and ".join(map(str, held))}' if held else f'{one} has no place')
        return f'{pair[0]} can\'t be with {pair[1]}, since {why[0]}' if why else ''

    def _blocking(self, pairs: Sequence[Pair]) -> Optional[Pair]:
        """A pair that blocks a matching: of roommates the first one, else the program's."""
        if self.kind != 'roommates':
            return self.check_matching(pairs).blocking
        partners = dict(it for pair in pairs for it in (pair, pair[::-1]))
        better = {one: row[:row.index(partners[one])] if one in partners else row for one, row in self.proposers.items()}
        return next(((one, other) for one in better for other in better[one] if other != one and one in better[other]), None)

    def _not_best(self, side: str, pairs: Sequence[Pair]) -> str:
        """Where a stable matching isn't the best one of a side; nothing where it is."""
        here = dict(pairs)
        others = [(p, best, here.get(p)) for p, best in self.solve(side).partners().items() if best != here.get(p)]
        told = 'the matching is stable, but in the {}\' best {} is with {}, and not with {}'
        return told.format(side, *others[0]) if others else ''

    def _front(self) -> str:
        """The text up to its line `end`: what may stand before an answer."""
        text: str = (self.trimmed or self).to_text()
        found = re.search(r'^[ \t]*end[ \t\r]*(?:#.*)?$', text, re.M)
        return (text[:found.end()] if found else text) + '\n'

    def _answer(self, *words: str) -> _Answer:
        """An answer to this instance. Raises NoMatching where it has none."""
        answer = _Answer(_ask((self.trimmed or self).to_text(), *words))
        if ['none'] in answer.lines:
            raise NoMatching(answer.text, tuple(tuple(self._proposers.originals[it] for it in row) for row in answer.of('party')))
        return answer

    def _given(self, command: str, left: GivenMatching, right: GivenMatching) -> _Answer:
        """An answer of `meet`, `join` or `route`."""
        given, front = {'left': self._pairs_of(left), 'right': self._pairs_of(right)}, self._front()
        lines = [it for word, pairs in given.items() for it in self._lines(word, pairs)]
        try:
            return _Answer(_ask(front + '\n'.join([*lines, 'end', '']), command))
        except Refused as fault:
            if fault.reason != 'NotStable':
                raise
            which, cause, *names = fault.text.split()[3:]
            pair, place = self._pair(['', *names]), fault.line - front.count('\n') - 1
            before = given[which][:place - (len(given['left']) if which == 'right' else 0)]
            why = self._why(before, pair) if cause == 'breach' else WANTED.format(*pair)
            raise NotStable(fault.line, fault.line_text, fault.text, which, cause, pair, why) from None

    def _listing(self, after: List[str], left: int) -> Iterator[Matching]:
        """The generator of `list`."""
        form, keyword = Couples if self.kind == 'roommates' else Matching, 'more'
        while keyword == 'more' and left > 0:
            for line in _stream((self.trimmed or self).to_text(), 'list', *after, f'limit={min(left, MOST_LISTED)}'):
                keyword, _, shown = line.rstrip('\n').partition(' ')
                if keyword == 'vector':
                    after, ranks = [f'after={shown}'], _ranks(shown)
                    yield form(line, self, self._pairs_at(ranks), ranks)
            left -= MOST_LISTED

    def _pairs_at(self, ranks: Tuple[int, ...]) -> Tuple[Pair, ...]:
        """The pairs of a rank vector; of roommates each couple once, with the person first that comes first."""
        pairs = {p: row[rank - 1] for (p, row), rank in zip(self.proposers.items(), ranks) if rank <= len(row)}
        if self.kind == 'roommates':
            for person in list(pairs):
                if person in pairs:
                    pairs.pop(pairs[person], None)
        return tuple(pairs.items())

    def _pair(self, words: Sequence[str]) -> Pair:
        """The pair behind the keyword of a line, without a seat's number."""
        return self._proposers.originals[words[1]], self._reviewers.originals[words[2].partition('/')[0]]

    def _matching(self, answer: _Answer) -> Matching:
        """The matching of an answer's `pair` lines."""
        return self._with(answer.text, tuple(self._pair(words) for words in answer.lines if words[0] == 'pair'))

    def _with(self, text: str, pairs: Tuple[Pair, ...]) -> Matching:
        """The matching of pairs, of which a text tells."""
        form = Couples if self.kind == 'roommates' else Matching
        partners = form(text, self, pairs, ()).partners()
        ranks = tuple(len(row) + 1 if partners[p] is None else row.index(partners[p]) + 1 for p, row in self.proposers.items())
        return form(text, self, pairs, ranks)

    def _seats(self, answer: _Answer, keyword: str) -> Dict[Name, Seat]:
        """The seats of proposers behind a keyword."""
        return {self._proposers.originals[p]: self._reviewers.seat(seat) for p, seat in answer.of(keyword)}

    def _chain(self, answer: _Answer) -> Tuple[Dict[Name, Seat], Tuple[Rotation, ...]]:
        """The first seats and the rotations of an answer."""
        rotations = []
        for (number, *row), (_, *needs) in zip(answer.of('rotation'), answer.of('needs')):
            pairs = tuple((self._proposers.originals[p], self._reviewers.seat(seat)) for p, seat in zip(row[::2], row[1::2]))
            rotations.append(Rotation(int(number), pairs, tuple(map(int, needs))))
        return self._seats(answer, 'first'), tuple(rotations)

    def _pairs_of(self, matching: GivenMatching) -> List[Pair]:
        """The pairs of a matching; of roommates each couple once."""
        given = _pairs_in(matching.pairs if isinstance(matching, Matching) else matching, 'the matching')
        pairs = [(p, r) for p, r in given if not _is_empty(r)]
        list(self._lines('pair', pairs))
        if self.kind == 'roommates':
            numbers = {name: number for number, name in enumerate(self.proposers)}
            pairs = list(dict.fromkeys((p, r) if numbers[p] <= numbers[r] else (r, p) for p, r in pairs))
        return pairs


class _Answer:
    """An answer: its text, and the words of its first line, of the others and of the last one, without the `-` of an empty list."""

    def __init__(self, text: str) -> None:
        self.text = text
        self.head, *self.lines, self.tail = [[it for it in line.split(' ') if it != '-'] for line in text.split('\n')[:-1]]

    def of(self, keyword: str) -> List[List[str]]:
        """What stands behind a keyword, for each of its lines."""
        return [words[1:] for words in self.lines if words[0] == keyword]

    def number(self, keyword: str) -> int:
        """The number behind a keyword."""
        return int(self.of(keyword)[0][0])

    def level(self, mark: str) -> Tuple[int, Tuple[int, ...], Tuple[FlowEdge, ...], int, int]:
        """The values of a level of weights, whose keywords end with a mark."""
        ends: Dict[str, Any] = {'S': 'S', 'T': 'T'}
        flow = tuple(FlowEdge(ends.get(a) or int(a), ends.get(b) or int(b), int(it)) for a, b, it in self.of(f'flow{mark}'))
        gains = tuple(int(gain) for _, gain in self.of(f'gain{mark}'))
        return self.number(f'total{mark}'), gains, flow, self.number(f'value{mark}'), self.number(f'cut{mark}')


def _ask(text: str, *words: str) -> str:
    """What one call wrote. Raises ProgramMissing, Failed and Refused."""
    return ''.join(_stream(text, *words))


def _stream(text: str, *words: str) -> Iterator[str]:
    """The lines of one call, each as soon as it is there. The program is ended with the generator. Raises as `_ask` does."""
    program, given = find_program(), text.encode('utf-8', 'surrogateescape')
    try:
        called = subprocess.Popen([program, *words], stdin=subprocess.PIPE, stdout=subprocess.PIPE)
    except OSError as fault:
        raise ProgramMissing(f'{program} can\'t be started: {fault.strerror}') from fault
    assert called.stdin is not None and called.stdout is not None
    try:
        # The program reads all of the text before it writes anything.
        with contextlib.suppress(BrokenPipeError), called.stdin:
            called.stdin.write(given)
        line = ''
        for read in called.stdout:
            line = read.decode('ascii', 'replace')
            if line.endswith('\n'):
                yield line
        status, said = called.wait(), line.split()
        if status == 1 and said[:1] == ['refused'] and len(said) in (3, 7):
            # Line 0 is the text as a whole.
            raise Refused(said[1], int(said[2]), ['', *text.split('\n'), ''][int(said[2])].rstrip('\r'), line)
        is_last = line.startswith('{') if words[0] == 'export' else said[:1] in (['end'], ['more'])
        if status not in (0, 3, 7) or not line.endswith('\n') or not is_last:
            raise Failed(status, line)
    finally:
        called.kill()
        called.wait()
        called.stdout.close()


def _one_of(what: str, given: str, allowed: Sequence[str]) -> None:
    """Raises ValueError for an argument that isn't one of these."""
    if given not in allowed:
        raise ValueError(f'{what} is {given!r}, and not {" or ".join(map(repr, allowed))}')


def _number(what: str, given: Any, least: int, most: int) -> int:
    """A whole number within bounds; one of numpy is one too, and True is none."""
    if isinstance(given, bool) or not hasattr(given, '__index__'):
        raise TypeError(f'{what} is {given!r}, and no whole number')
    number = operator.index(given)
    if not least <= number <= most:
        raise ValueError(f'{what} is {number:,}, and not from {least:,} to {most:,}')
    return number


def _weight(pair: Pair, given: Any) -> Tuple[int, ...]:
    """A weight, and perhaps a second one."""
    numbers = tuple(given) if isinstance(given, (tuple, list)) else (given,)
    if len(numbers) not in (1, 2):
        raise ValueError(f'the weight of {pair!r} is {given!r}, and not one number or two')
    return tuple(_number(f'the weight of {pair!r}', it, -10 ** 9, 10 ** 9) for it in numbers)


def _by_agent(what: str, given: Any) -> Dict[Any, Any]:
    """What is given for each agent; in a sequence agents are their numbers."""
    if hasattr(given, 'columns'):
        raise TypeError(f'the {what} are a table: Instance.from_tables reads tables')
    if isinstance(given, (str, bytes)) or not hasattr(given, '__iter__'):
        raise TypeError(f'the {what} are {given!r}, and not a dict or a list')
    return _once(given.items() if hasattr(given, 'items') else enumerate(given), what)


def _once(items: Iterable[Tuple[Any, Any]], what: str) -> Dict[Any, Any]:
    """A dict of items, of whose keys none may stand twice."""
    found: Dict[Any, Any] = {}
    for key, it in items:
        if key in found:
            raise ValueError(f'{key!r} stands twice in the {what}')
        found[key] = it
    return found


def _pairs_in(given: Any, where: str) -> Tuple[Pair, ...]:
    """Pairs, given as such, by a dict, or by the rows of a table."""
    if not hasattr(given, '__iter__'):
        raise TypeError(f'{given!r} is given for {where}, and not a dict or pairs')
    pairs = tuple(given.values if hasattr(given, 'columns') else given.items() if hasattr(given, 'items') else given)
    for it in pairs:
        if isinstance(it, (str, bytes, Mapping)) or not hasattr(it, '__getitem__') or len(it) != 2:
            raise TypeError(f'{it!r} in {where} is no pair')
    return tuple((p, r) for p, r in pairs)


def _is_empty(name: Name) -> bool:
    """Whether this stands for nobody: None, or what pandas has in an empty cell."""
    return name is None or not isinstance(name, str) and str(name) in ('nan', 'NaT', '<NA>')


def _ranks(shown: str) -> Tuple[int, ...]:
    """The numbers of a vector."""
    return () if shown == '-' else tuple(map(int, shown.split(',')))
