"""The rotations and the lattice as graphs, for which networkx has to be installed."""
from __future__ import annotations

import importlib
from typing import Any, Dict, FrozenSet, List, Optional

from . import drawing
from ._nets import Rooms, first_net, second_net

_networkx: Any = importlib.import_module('networkx')


class Graph(_networkx.DiGraph):  # type: ignore[misc]
    """A directed graph that draws itself in notebooks: of rotations or of stable matchings, or one that was made from these."""

    def __repr__(self) -> str:
        return str(self)

    def _repr_svg_(self) -> Optional[str]:
        boxes = {}
        for node, has in self.nodes(data=True):
            if 'rotation' in has:
                boxes[node] = drawing.of_rotation(has['rotation'])
            elif 'set' in has:
                colour = drawing.FIRST if not self.pred[node] else drawing.LAST if not self.succ[node] else drawing.PLAIN
                boxes[node] = drawing.of_matching(node, has['set'], colour)
            else:
                return None
        return drawing.picture(boxes, [(a, b, str(it.get('rotation', ''))) for a, b, it in self.edges(data=True)])


def order(rotations: Any) -> Graph:
    """The graph of an order of rotations."""
    graph = Graph()
    graph.add_nodes_from((it.number, {'rotation': it}) for it in rotations.rotations)
    graph.add_edges_from(rotations.edges())
    return graph


def lattice(instance: Any, most: int) -> Graph:
    """The graph of all stable matchings: of the sets of rotations that have, with each, those that it needs."""
    rotations = instance.rotations()
    start: FrozenSet[int] = frozenset()
    held: Dict[FrozenSet[int], Dict[Any, Any]] = {start: {p: seat.reviewer for p, seat in rotations.first.items()}}
    found: List[FrozenSet[int]] = [start]
    edges = []
    for closed in found:
        for it in rotations.rotations:
            if it.number not in closed and closed.issuperset(it.needs):
                more = closed | {it.number}
                if more not in held:
                    if len(found) == most:
                        raise ValueError(f'there are more than {most:,} stable matchings; lattice(most=..) takes more')
                    held[more] = {**held[closed], **{p: new.reviewer for p, _, new in it.moves()}}
                    found.append(more)
                edges.append((closed, more, it.number))
    matchings = {closed: instance._with(rotations.text, tuple(it.items())) for closed, it in held.items()}
    graph = Graph()
    for closed, it in matchings.items():
        sums = {'proposer_sum': sum(it.ranks), 'reviewer_sum': sum(rank or 0 for rank in it.reviewer_ranks)}
        graph.add_node(it, ranks=it.ranks, set=closed, **sums)
    graph.add_edges_from((matchings[a], matchings[b], {'rotation': number}) for a, b, number in edges)
    return graph


def nets(light: Any) -> List[Any]:
    """The net of each level of a lightest matching."""
    rooms = first_net(light.matching.instance, light.rotations, light.gains)
    if light.second is None:
        return [net(rooms, light)]
    return [net(rooms, light), net(second_net(rooms, light.flow, light.second.gains), light.second)]


def net(rooms: Rooms, level: Any) -> Any:
    """The net of a level."""
    graph = _networkx.DiGraph()
    graph.add_nodes_from(['S', *range(1, len(level.gains) + 1), 'T'])
    flow = {(it.source, it.target): it.amount for it in level.flow}
    for ends, room in rooms.items():
        graph.add_edge(*ends, flow=flow.get(ends, 0), **({} if room is None else {'capacity': room}))
    return graph
