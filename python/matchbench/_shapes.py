"""The shapes of made instances: each makes a draft of about `size` agents on a side."""
from __future__ import annotations

import hashlib
from random import Random
from typing import Callable, Dict, List, NamedTuple, Optional, Sequence, TypeVar

from ._draft import Draft, Rows

Item = TypeVar('Item')


class Draw:
    """Numbers drawn one after another. The words that it begins with decide them all."""

    def __init__(self, *words: object) -> None:
        seed = hashlib.sha256(' '.join(map(str, words)).encode()).digest()
        self._next = Random(int.from_bytes(seed, 'big')).random

    def below(self, count: int) -> int:
        """A whole number from 0, below a count."""
        return int(self._next() * count)

    def between(self, least: int, most: int) -> int:
        """A whole number within bounds."""
        return least + self.below(most - least + 1)

    def chance(self, part: float) -> bool:
        """True in such a part of all cases."""
        return self._next() < part

    def one(self, items: Sequence[Item]) -> Item:
        """One of some items."""
        return items[self.below(len(items))]

    def some(self, items: Sequence[Item], count: int) -> List[Item]:
        """So many of some items, in any order."""
        left = list(items)
        for at in range(count):
            other = at + self.below(len(left) - at)
            left[at], left[other] = left[other], left[at]
        return left[:count]

    def shuffled(self, items: Sequence[Item]) -> List[Item]:
        """All of some items, in any order."""
        return self.some(items, len(items))


Maker = Callable[[Draw, int], Draft]


class Shape(NamedTuple):
    """What a shape is, whether it has roommates, whether it has weights or conditions, and how it is made."""

    what: str
    rooms: bool
    conditions: bool
    draft: Maker


SHAPES: Dict[str, Shape] = {}
ODD_NAMES = ('007 7 true null NaN 1e5 0 None a-b x.y _ name capacity end p r A a 2027-01-02 1-1 00 list proposer none pair 1.0 '
             f'weight {"Z" * 64}').split()


def _shape(name: str, what: str, rooms: bool = False, conditions: bool = False) -> Callable[[Maker], Maker]:
    """Gives a function that makes drafts its name as a shape."""
    def known(maker: Maker) -> Maker:
        SHAPES[name] = Shape(what, rooms, conditions, maker)
        return maker
    return known


def named(letter: str, count: int) -> List[str]:
    """Names of a side."""
    return [f'{letter}{number}' for number in range(1, count + 1)]


def _market(draw: Draw, proposers: int, reviewers: int, places: Optional[Callable[[], int]] = None, density: float = 1.0,
            returned: bool = True) -> Draft:
    """Two sides whose agents list such a part of the others, in any order; each reviewer lists those that list it, or any."""
    p, r = named('p', proposers), named('r', reviewers)
    likes = {it: {other for other in r if draw.chance(density)} for it in p}
    lists = {it: draw.shuffled([other for other in r if other in likes[it]]) for it in p}
    rows = {it: draw.shuffled([other for other in p if (it in likes[other] if returned else draw.chance(density))]) for it in r}
    return Draft('hospitals' if places else 'marriage', lists, rows, {it: places() for it in r} if places else None)


def _opposed(draw: Draw, draft: Draft) -> Draft:
    """The same with lists on which those that like an agent best are liked least, but for chance: that makes many rotations."""
    score = {(p, r): draw.below(1_000_000) for p, row in draft.proposers.items() for r in row}
    for p, row in draft.proposers.items():
        keys = {r: draw.below(100_000) + score[p, r] for r in row}
        row.sort(key=keys.__getitem__)
    for r, row in draft.reviewers.items():
        keys = {p: draw.below(100_000) - score[p, r] for p in row}
        row.sort(key=keys.__getitem__)
    return draft


def _renamed(draw: Draw, draft: Draft) -> Draft:
    """The same with names that programs misread; some stand on both sides."""
    p, r = (dict(zip(side, draw.some(ODD_NAMES, len(side)))) for side in (draft.proposers, draft.reviewers))
    lists = {p[it]: [r[other] for other in row] for it, row in draft.proposers.items()}
    rows = {r[it]: [p[other] for other in row] for it, row in draft.reviewers.items()}
    return Draft(draft.kind, lists, rows, {r[it]: count for it, count in draft.capacities.items()})


@_shape('complete', 'a marriage of equal sides whose lists name everybody')
def _complete(draw: Draw, size: int) -> Draft:
    return _market(draw, size, size)


@_shape('crowded', 'schools with two places or more, too few for all that list them')
def _crowded(draw: Draw, size: int) -> Draft:
    return _market(draw, size * 3 + 1, max(2, size // 2), lambda: draw.between(2, 3 + size // 4), .9)


@_shape('incomplete', 'a marriage whose lists leave out some')
def _incomplete(draw: Draw, size: int) -> Draft:
    return _market(draw, size, size, None, .7)


@_shape('hospitals', 'opposed lists of residents, and of hospitals with two or three places: several stable matchings')
def _hospitals(draw: Draw, size: int) -> Draft:
    residents = size + 2
    hospitals = max(2, residents * 2 // 5)
    draft = _opposed(draw, _market(draw, residents, hospitals, lambda: 2, .95))
    # As many places as residents, where they are enough for that.
    for name in draw.some(list(draft.reviewers), max(0, min(hospitals, residents - 2 * hospitals))):
        draft.capacities[name] = 3
    return draft


@_shape('inert', 'many who list somebody that doesn\'t list them')
def _inert(draw: Draw, size: int) -> Draft:
    return _market(draw, size, draw.between(1, size), lambda: draw.between(1, 2), .6, False)


@_shape('exam', 'all reviewers, with one to three places, have one list')
def _exam(draw: Draw, size: int) -> Draft:
    draft = _market(draw, size + 1, max(1, size // 2), lambda: draw.between(1, 3), .8)
    score = dict(zip(draft.proposers, draw.shuffled(range(size + 1))))
    for row in draft.reviewers.values():
        row.sort(key=score.__getitem__)
    return draft


@_shape('zero', 'many reviewers without a place')
def _zero(draw: Draw, size: int) -> Draft:
    return _market(draw, size + 1, draw.between(2, size + 1), lambda: draw.one((0, 0, 1, 2)), .7)


@_shape('opposed', 'a marriage of opposed lists: many rotations')
def _opposed_marriage(draw: Draw, size: int) -> Draft:
    return _opposed(draw, _market(draw, size, size))


@_shape('empty', 'many with an empty list')
def _empty(draw: Draw, size: int) -> Draft:
    draft = _market(draw, size, draw.between(1, size), lambda: draw.between(1, 2), .7, False)
    for rows in (draft.proposers, draft.reviewers):
        for name in draw.some(list(rows), (len(rows) + 1) // 3):
            rows[name] = []
    return draft


@_shape('lot', 'reviewers who rank by a few grades, and break ties by one lot')
def _lot(draw: Draw, size: int) -> Draft:
    draft = _market(draw, size * 2, max(1, size // 2), lambda: draw.between(1, 3), .8)
    lot = dict(zip(draft.proposers, draw.shuffled(range(size * 2))))
    for row in draft.reviewers.values():
        keys = {it: draw.below(3) * len(lot) + lot[it] for it in row}
        row.sort(key=keys.__getitem__)
    return draft


@_shape('sparse', 'short lists, and reviewers with one to three places')
def _sparse(draw: Draw, size: int) -> Draft:
    return _market(draw, size, draw.between(1, size), lambda: draw.between(1, 3), .5)


@_shape('cycle', 'a marriage in which each list is the one before it, turned by one: as many stable matchings as proposers')
def _cycle(draw: Draw, size: int) -> Draft:
    p, r = named('p', size), named('r', size)
    rows = {it: p[at + 1:] + p[:at + 1] for at, it in enumerate(r)}
    return Draft('marriage', {it: r[at:] + r[:at] for at, it in enumerate(p)}, rows)


@_shape('names', 'names that programs misread, some of them on both sides')
def _names(draw: Draw, size: int) -> Draft:
    size = min(size + 2, len(ODD_NAMES))
    return _renamed(draw, _market(draw, size, size, lambda: draw.between(1, 2), .7))


@_shape('roomy', 'more places than all together need')
def _roomy(draw: Draw, size: int) -> Draft:
    return _market(draw, size, draw.between(1, size), lambda: draw.between(size, size + 3), .6)


@_shape('blocks', 'a marriage of pairs of pairs, each with two stable matchings, so a power of two of them')
def _blocks(draw: Draw, size: int) -> Draft:
    count = 2 * ((size + 1) // 2)
    p, r = draw.shuffled(named('p', count)), draw.shuffled(named('r', count))
    lists: Rows = {}
    rows: Rows = {}
    for at in range(0, count, 2):
        others = [draw.some([it for place, it in enumerate(side) if place // 2 != at // 2], min(2, count - 2)) for side in (r, p)]
        lists[p[at]], lists[p[at + 1]] = r[at:at + 2] + others[0], r[at:at + 2][::-1] + others[0]
        rows[r[at]], rows[r[at + 1]] = p[at:at + 2][::-1] + others[1], p[at:at + 2] + others[1]
    return Draft('marriage', {it: lists[it] for it in draw.shuffled(p)}, {it: rows[it] for it in draw.shuffled(r)})


@_shape('nobody', 'a side without agents, or hardly any')
def _nobody(draw: Draw, size: int) -> Draft:
    p, r = draw.one(((0, 0), (0, size), (size, 0), (1, 1)))
    return _market(draw, p, r, lambda: draw.between(0, 2), .5)


@_shape('lopsided', 'many on one side and two on the other')
def _lopsided(draw: Draw, size: int) -> Draft:
    p, r = (size * 3, 2) if draw.chance(.5) else (2, size * 3)
    return _market(draw, p, r, None, .9)


@_shape('one', 'one reviewer with places for some')
def _one(draw: Draw, size: int) -> Draft:
    return _market(draw, size + 1, 1, lambda: draw.one((1, (size + 1) // 2, size, 4096)))


@_shape('short', 'lists of a few among many')
def _short(draw: Draw, size: int) -> Draft:
    p, r = named('p', size), named('r', size)
    most = min(size, max(2, size // 64))
    lists = {it: draw.some(r, most) for it in p}
    rows: Rows = {it: [] for it in r}
    for name, row in lists.items():
        for it in row:
            rows[it].insert(draw.below(len(rows[it]) + 1), name)
    return Draft('hospitals', lists, rows, {it: draw.between(1, 2) for it in r})


@_shape('weights', 'a marriage of opposed lists with weights', conditions=True)
def _weights(draw: Draw, size: int) -> Draft:
    draft = _opposed(draw, _market(draw, size, size, None, .95))
    draft.weights = {(p, r): (draw.between(-9, 9),) for p, row in draft.proposers.items() for r in row if draw.chance(.6)}
    return draft


@_shape('conditions', 'opposed lists with weights, forbidden pairs and sometimes a forced one', conditions=True)
def _conditions(draw: Draw, size: int) -> Draft:
    draft = _opposed(draw, _market(draw, size + 1, size, lambda: draw.between(1, 2)))
    pairs = [(p, r) for p, row in draft.proposers.items() for r in row]
    draft.weights = {pair: (draw.between(-9, 9),) for pair in pairs if draw.chance(.5)}
    draft.forbidden = draw.some(pairs, min(len(pairs), draw.between(1, 2)))
    if draw.chance(.3):
        draft.forced = draw.some(pairs, 1)
    return draft


@_shape('rooms', 'roommates', rooms=True)
def _rooms(draw: Draw, size: int) -> Draft:
    names = named('p', size + 1)
    return Draft('roommates', {it: draw.shuffled([other for other in names if other != it and draw.chance(.85)]) for it in names})


@_shape('rings', 'roommates in rings of four with two stable matchings each, and others behind them on the lists', rooms=True)
def _rings(draw: Draw, size: int) -> Draft:
    return _ring_rooms(draw, [4] * max(1, size // 3))


@_shape('odd', 'roommates with a ring of three, for whom no matching is stable', rooms=True)
def _odd(draw: Draw, size: int) -> Draft:
    return _ring_rooms(draw, [3] + [4] * (size // 4))


def _ring_rooms(draw: Draw, sizes: Sequence[int]) -> Draft:
    """Persons in rings, each of whom likes the next one best and the one before next, and then others of other rings."""
    names = draw.shuffled(named('p', sum(sizes)))
    rows: Rows = {}
    start = 0
    for size in sizes:
        ring = names[start:start + size]
        others = names[:start] + names[start + size:]
        for at, it in enumerate(ring):
            rows[it] = [ring[(at + 1) % size], ring[at - 1]] + draw.some(others, draw.below(len(others) + 1))
        start += size
    return Draft('roommates', {it: rows[it] for it in named('p', sum(sizes))})


ROOMS = tuple(name for name, it in SHAPES.items() if it.rooms)
TWO_SIDED = tuple(name for name, it in SHAPES.items() if not it.rooms and not it.conditions)
# Shapes and sizes that come to the limits: 524,288 entries on lists, 4,096 agents on a side, a capacity of 4,096, and nearly as
# many entries on the lists of seats as may be.
LARGE = (('complete', 512), ('short', 4096), ('one', 1023), ('cycle', 512), ('crowded', 150))
