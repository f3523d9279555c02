"""The nets of weights without networkx: docs/FORMATS.md says which edges they have."""
from __future__ import annotations

from typing import Any, Dict, Iterable, List, Optional, Sequence, Tuple, Union

# The room of each edge of a net, None where it has no bound.
Rooms = Dict[Tuple[Union[str, int], Union[str, int]], Optional[int]]


def first_net(instance: Any, rotations: Sequence[Any], gains: Sequence[int]) -> Rooms:
    """The net of the first level."""
    rooms = _of_gains(gains)
    rooms.update({(it.number, needed): None for it in rotations for needed in it.needs})
    moves = [(it.number, p, old.reviewer, new.reviewer) for it in rotations for p, old, new in it.moves()]
    for pairs, is_forced in ((instance.forced, True), (instance.forbidden, False)):
        for p, r in pairs:
            brings: List[Any] = [number for number, one, old, new in moves if one == p and old != r == new]
            takes: List[Any] = [number for number, one, old, new in moves if one == p and old == r != new]
            if is_forced:
                rooms.update({('S', it): None for it in brings})
                rooms.update({(it, 'T'): None for it in takes})
            elif brings or takes:
                rooms[(brings or ['S'])[0], (takes or ['T'])[0]] = None
    return rooms


def second_net(rooms: Rooms, flow: Iterable[Any], gains: Sequence[int]) -> Rooms:
    """The net of the second level: what the flow of the first one may still change has no bound."""
    second, amounts = _of_gains(gains), {(it.source, it.target): it.amount for it in flow}
    for (tail, head), room in rooms.items():
        amount = amounts.get((tail, head), 0)
        if room is None or amount < room:
            second[tail, head] = None
        if amount and tail != 'S' and head != 'T':
            second[head, tail] = None
    return second


def _of_gains(gains: Sequence[int]) -> Rooms:
    """The edges of the gains."""
    rooms: Rooms = {}
    for it, gain in enumerate(gains, 1):
        if gain:
            rooms['S' if gain < 0 else it, it if gain < 0 else 'T'] = abs(gain)
    return rooms
