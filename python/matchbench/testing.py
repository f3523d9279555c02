"""Made instances for tests of allocation software, and smaller ones that still fail.

    from matchbench.testing import random, smallest

    for instance in random(1000, seed=1):
        if fails(instance):
            print(smallest(instance, fails).to_text())
            break

`made` makes one instance of a shape, and `random` many of all shapes, small ones first; `SHAPES` says what each shape is.
`smallest` leaves out of an instance what isn't needed for a failure. `instances` is a strategy of hypothesis, where that is
installed. Nothing of this module is proved, and only what you call on an instance asks the program.

The same arguments give the same instance on every machine, and in every Python from 3.8 on. Of Python's random numbers only
`random()` of a `random.Random` is used that was seeded with a whole number: its sequence is promised to stay.
"""
from __future__ import annotations

import difflib
import importlib
import operator
from typing import Any, Callable, Iterator, List, NamedTuple, Sequence, Tuple

from . import Instance
from ._draft import Draft
from ._shapes import LARGE, ROOMS, SHAPES, TWO_SIDED, Draw, named
from ._smaller import MOST_TRIALS, smallest_draft

__all__ = ['Case', 'Draft', 'FIRST_LARGE', 'LARGE', 'ROOMS', 'SHAPES', 'TWO_SIDED', 'case', 'instances', 'made', 'random',
           'smallest', 'smallest_draft']

# From this number on cases are those of LARGE.
FIRST_LARGE = 1_000_000


class Case(NamedTuple):
    """A made instance, and the arguments of `made` that make it."""

    number: int
    shape: str
    size: int
    seed: int
    draft: Draft

    def instance(self) -> Instance:
        """The instance."""
        return self.draft.instance()


def _draft(shape: str, size: int, seed: int) -> Draft:
    """The draft of a shape."""
    if shape not in SHAPES:
        near = difflib.get_close_matches(shape, SHAPES, 1, 0.6)
        raise ValueError(f'there is no shape {shape!r}' + (f'; is {near[0]!r} meant?' if near else f': {", ".join(SHAPES)}'))
    if operator.index(size) < 1:
        raise ValueError(f'the size is {size!r}, and not 1 or more')
    return SHAPES[shape].draft(Draw(shape, operator.index(size), operator.index(seed)), size)


def made(shape: str, size: int, seed: int) -> Instance:
    """An instance of a shape, with about so many agents on a side: always the same for the same arguments.

    `SHAPES` has the shapes. Raises ValueError for another one, and for a size below 1. A size of hundreds may make more than the
    program takes.
    """
    return _draft(shape, size, seed).instance()


def case(number: int, seed: int = 1, most: int = 8, shapes: Sequence[str] = TWO_SIDED) -> Case:
    """The case of a number, from 0, of a seed: the shapes take turns, and sizes rise to `most`.

    Behind the sizes 2, 3, 1 and 4 each turn is one larger than the one before; once it has come to `most` sizes are drawn. The
    instance is that of `made(shape, size, seed * 2 ** 32 + number)`. From the number FIRST_LARGE on the cases are those of LARGE.
    """
    own = operator.index(seed) * 2 ** 32 + operator.index(number)
    if number >= FIRST_LARGE:
        shape, size = LARGE[number - FIRST_LARGE]
        return Case(number, shape, size, own, _draft(shape, size, own))
    turn, at = divmod(number, len(shapes))
    size = (2, 3, 1, 4)[turn] if turn < 4 else turn + 1 if turn < most else Draw('size', own).between(1, most)
    size = max(1, min(size, most))
    return Case(number, shapes[at], size, own, _draft(shapes[at], size, own))


def random(count: int, seed: int = 1, most: int = 8, shapes: Sequence[str] = TWO_SIDED) -> Iterator[Instance]:
    """So many instances of a seed, the same each time: all shapes with two sides in turn, or those given, small ones first.

    Most have up to `most` agents on a side, and some shapes have three times as many. With `ROOMS` as shapes they are roommates.
    """
    for number in range(count):
        yield case(number, seed, most, shapes).instance()


def smallest(instance: Instance, fails: Callable[[Instance], bool], trials: int = MOST_TRIALS) -> Instance:
    """A smaller instance that fails too, of which no agent, entry, place, weight or condition alone can be left out, unless the
    trials came to their end.

    `fails` says whether an instance fails. It is called at most as often as `trials` says, more rarely where the instance is large,
    and not for the instance itself, which is given back where nothing smaller fails. What it raises is raised. To go on with one
    kind of failure, let it look for that kind alone. Agents keep their names.
    """
    draft, _, _ = smallest_draft(Draft.of(instance), lambda it: bool(fails(it.instance())), trials)
    return draft.instance()


def instances(kind: str = 'hospitals', most: int = 6) -> Any:
    """A strategy of hypothesis for instances of a kind, with at most so many agents on a side, for which hypothesis has to be
    installed. Lists leave out some, entries needn't be returned, and hospitals have from 0 to 3 places. Raises ImportError.
    """
    if kind not in ('marriage', 'hospitals', 'roommates'):
        raise ValueError(f'the kind is {kind!r}, and not \'marriage\', \'hospitals\' or \'roommates\'')
    given = importlib.import_module('hypothesis.strategies')
    # Agents are numbers here, and those that aren't there go: so agents can be left out one by one.
    row = given.lists(given.integers(0, max(0, most - 1)), unique=True, max_size=most)
    places = given.integers(0, 3) if kind == 'hospitals' else given.just(1)
    side = given.lists(given.tuples(places, row), max_size=most)

    def built(own: Sequence[Tuple[int, List[int]]], other: Sequence[Tuple[int, List[int]]]) -> Instance:
        p, r = named('p', len(own)), named('r', len(other))
        if kind == 'roommates':
            rows = {name: [p[it] for it in row if it < len(p) and p[it] != name] for name, (_, row) in zip(p, own)}
            return Draft(kind, rows).instance()
        lists = {name: [r[it] for it in row if it < len(r)] for name, (_, row) in zip(p, own)}
        rows = {name: [p[it] for it in row if it < len(p)] for name, (_, row) in zip(r, other)}
        return Draft(kind, lists, rows, {name: count for name, (count, _) in zip(r, other)}).instance()

    return given.builds(built, side, given.just([]) if kind == 'roommates' else side)
