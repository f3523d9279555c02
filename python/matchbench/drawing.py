"""Tables in HTML and pictures in SVG, by the standard library alone."""
from __future__ import annotations

import html
import itertools
from typing import Any, Dict, Hashable, Iterable, List, Mapping, NamedTuple, Optional, Sequence, Set, Tuple

# What a notebook shows; more is cut, or not drawn.
MOST_ROWS = 20
MOST_LINES = 12
MOST_BOXES = 300

FIRST, LAST, PLAIN = '#dcebf7', '#fbe9d3', '#ffffff'
LETTER, LINE, GAP, FALL = 6.7, 15, 24, 46


class Box(NamedTuple):
    """A box of a picture: its lines, what it says where one points at it, and its colour."""

    lines: Sequence[str]
    title: str
    colour: str


def columns_of_matching(matching: Any) -> Dict[str, List[Any]]:
    """The columns of the table of a matching."""
    partners = matching.partners()
    words = ('person', 'partner') if matching.instance.kind == 'roommates' else ('proposer', 'reviewer')
    return {words[0]: list(partners), words[1]: list(partners.values()), 'rank': list(matching.ranks),
            f'{words[1]}_rank': list(matching.reviewer_ranks)}


def columns_of_instance(instance: Any) -> Dict[str, List[Any]]:
    """The columns of the table of all pairs of whom one lists the other."""
    words = ('person', 'other') if instance.kind == 'roommates' else ('proposer', 'reviewer')
    back: Dict[Hashable, List[Hashable]] = {p: [] for p in instance.proposers}
    for r, row in instance.reviewers.items():
        for p in row:
            back[p].append(r)
    pairs = [(p, r) for p, row in instance.proposers.items() for r in dict.fromkeys([*row, *back[p]])]
    ranks: List[Dict[Tuple[Any, Any], int]] = [{(one, it): rank for one, row in lists.items() for rank, it in enumerate(row, 1)}
                                               for lists in (instance.proposers, instance.reviewers)]
    return {words[0]: [p for p, _ in pairs], words[1]: [r for _, r in pairs], 'rank': [ranks[0].get((p, r)) for p, r in pairs],
            f'{words[1]}_rank': [ranks[1].get((r, p)) for p, r in pairs]}


def table(columns: Mapping[str, Sequence[Any]]) -> str:
    """A table of columns; of many rows the first ones."""
    rows = list(zip(*columns.values()))
    shown = [''.join(f'<td>{html.escape("" if it is None else str(it))}</td>' for it in row) for row in rows[:MOST_ROWS]]
    if len(rows) > MOST_ROWS:
        shown.append(f'<td colspan="{len(columns)}">and {len(rows) - MOST_ROWS:,} more</td>')
    head = ''.join(f'<th>{html.escape(it.replace("_", " "))}</th>' for it in columns)
    return f'<table><thead><tr>{head}</tr></thead><tbody>{"".join(f"<tr>{it}</tr>" for it in shown)}</tbody></table>'


def tables_of_instance(instance: Any) -> str:
    """The lists of an instance, a table for each side."""
    sides = [('person', instance.proposers)] if instance.kind == 'roommates' else \
        [('proposer', instance.proposers), ('reviewer', instance.reviewers)]
    shown = []
    for word, lists in sides:
        columns = {word: list(lists)}
        if word == 'reviewer' and instance.kind == 'hospitals':
            columns['places'] = [instance.capacities[it] for it in lists]
        columns['list'] = [', '.join(map(str, row[:MOST_ROWS])) + ', ...' * (len(row) > MOST_ROWS) for row in lists.values()]
        shown.append(table(columns))
    return f'<div>{html.escape(repr(instance))}{"".join(shown)}</div>'


def fitting(lines: Sequence[str]) -> Sequence[str]:
    """Lines of a box, cut where they are too many."""
    return lines if len(lines) <= MOST_LINES else [*lines[:MOST_LINES - 1], f'and {len(lines) - MOST_LINES + 1} more']


def moves_of(rotation: Any, between: str) -> List[str]:
    """The moves of a rotation in words, with something between each proposer and where it goes."""
    return [f'{p}{between}{old.reviewer} to {new.reviewer}' if old.reviewer != new.reviewer else
            f'{p}{between}seat {old.number} to seat {new.number} of {new.reviewer}' for p, old, new in rotation.moves()]


def of_rotation(rotation: Any) -> Box:
    """The box of a rotation, with its moves."""
    moves = moves_of(rotation, ': ')
    return Box([f'rotation {rotation.number}', *fitting(moves)], '\n'.join(moves), PLAIN)


def of_matching(matching: Any, taken: Iterable[int], colour: str) -> Box:
    """The box of a matching: the ranks of the proposers, and the rotations that lead there."""
    ranks = ' '.join(map(str, matching.ranks))
    return Box([ranks if len(ranks) <= 40 else ranks[:37] + '...', '{' + ', '.join(map(str, sorted(taken))) + '}'],
               '\n'.join(f'{p}: {r}' for p, r in matching.pairs), colour)


def picture(boxes: Mapping[Any, Box], edges: Sequence[Tuple[Any, Any, str]]) -> Optional[str]:
    """A picture of boxes in layers, each below all from which an edge leads to it, without edges that follow from others. None
    where there are no boxes or too many, or a circle.
    """
    layers = layers_of(list(boxes), [(a, b) for a, b, _ in edges]) if 0 < len(boxes) <= MOST_BOXES else None
    if layers is None:
        return None
    edges = direct(edges)
    rows: List[List[Any]] = [[] for _ in range(max(layers.values()) + 1)]
    for it, layer in layers.items():
        rows[layer].append(it)
    # An edge over several layers goes by a point in each between.
    ways = []
    for number, (a, b, label) in enumerate(edges):
        points = [(number, layer) for layer in range(layers[a] + 1, layers[b])]
        for point in points:
            rows[point[1]].append(point)
        ways.append(([a, *points, b], label))
    sizes = {it: (max(len(line) for line in box.lines) * LETTER + 16, len(box.lines) * LINE + 10) for it, box in boxes.items()}
    in_order(rows, [link for way, _ in ways for link in zip(way, way[1:])])
    return drawn(rows, boxes, sizes, ways)


def layers_of(nodes: Sequence[Any], edges: Sequence[Tuple[Any, Any]]) -> Optional[Dict[Any, int]]:
    """The length of the longest way to each node; None where a way is a circle."""
    layers = dict.fromkeys(nodes, 0)
    for _ in nodes:
        late = [(a, b) for a, b in edges if layers[b] <= layers[a]]
        if not late:
            return layers
        for a, b in late:
            layers[b] = max(layers[b], layers[a] + 1)
    return None if any(layers[b] <= layers[a] for a, b in edges) else layers


def direct(edges: Sequence[Tuple[Any, Any, str]]) -> List[Tuple[Any, Any, str]]:
    """The edges that don't follow from others."""
    after: Dict[Any, Set[Any]] = {}
    for a, b, _ in edges:
        after.setdefault(a, set()).add(b)

    def reached(node: Any) -> Set[Any]:
        found, open_ones = {node}, [node]
        while open_ones:
            more = after.get(open_ones.pop(), set()) - found
            found |= more
            open_ones += more
        return found

    beyond = {b: reached(b) - {b} for _, b, _ in edges}
    return [(a, b, label) for a, b, label in edges if not any(b in beyond[other] for other in after[a])]


def in_order(rows: List[List[Any]], links: Sequence[Tuple[Any, Any]]) -> None:
    """Sorts rows, some times down and up, by the middle of what each is linked to in the row before."""
    above: Dict[Any, List[Any]] = {}
    below: Dict[Any, List[Any]] = {}
    for a, b in links:
        above.setdefault(b, []).append(a)
        below.setdefault(a, []).append(b)
    for turn in range(8):
        down = turn % 2 == 0
        places: Dict[Any, float] = {}
        for row in rows if down else rows[::-1]:
            own = {it: place / max(1, len(row) - 1) for place, it in enumerate(row)}
            linked = above if down else below
            means = {it: [places[other] for other in linked.get(it, ())] for it in row}
            row.sort(key=lambda it: sum(means[it]) / len(means[it]) if means[it] else own[it])
            places.update({it: place / max(1, len(row) - 1) for place, it in enumerate(row)})


def drawn(rows: List[List[Any]], boxes: Mapping[Any, Box], sizes: Mapping[Any, Tuple[float, float]],
          ways: Sequence[Tuple[List[Any], str]]) -> str:
    """The picture of rows in their order."""
    widths = [sum(sizes.get(it, (0, 0))[0] + GAP for it in row) + GAP for row in rows]
    heights = [max((sizes[it][1] for it in row if it in sizes), default=0) for row in rows]
    width, height = max(widths, default=GAP), sum(heights) + FALL * max(0, len(rows) - 1) + 2 * GAP
    at: Dict[Any, Tuple[float, float]] = {}
    top = float(GAP)
    for row, taken, deep in zip(rows, widths, heights):
        left = (width - taken) / 2 + GAP
        for it in row:
            own = sizes.get(it, (0, 0))[0]
            at[it] = left + own / 2, top + deep / 2
            left += own + GAP
        top += deep + FALL
    lines, shapes = [], []
    for way, label in ways:
        points = [(at[it][0], at[it][1]) for it in way]
        points[0] = points[0][0], points[0][1] + sizes[way[0]][1] / 2
        points[-1] = points[-1][0], points[-1][1] - sizes[way[-1]][1] / 2
        path = ' '.join(f'{x:.0f},{y:.0f}' for x, y in points)
        lines.append(f'<polyline points="{path}" fill="none" stroke="#777777" marker-end="url(#matchbench-tip)"/>')
        if label:
            # Edges cross in their middle, and labels shouldn't.
            x, y = (0.7 * one + 0.3 * other + 4 for one, other in zip(*points[:2]))
            lines.append(f'<text x="{x:.0f}" y="{y:.0f}" font-size="10" fill="#333333">{html.escape(label)}</text>')
    for it, box in boxes.items():
        (x, y), (wide, deep) = at[it], sizes[it]
        left, top = x - wide / 2, y - deep / 2
        texts = ''.join(f'<text x="{x:.0f}" y="{top + LINE * number + 1:.0f}" text-anchor="middle">{html.escape(line)}</text>'
                        for number, line in enumerate(box.lines, 1))
        shapes.append(f'<g><title>{html.escape(box.title)}</title><rect x="{left:.0f}" y="{top:.0f}" width="{wide:.0f}" '
                      f'height="{deep:.0f}" rx="5" fill="{box.colour}" stroke="#555555"/>{texts}</g>')
    size = f'width="{width:.0f}" height="{height:.0f}"'
    return (f'<svg xmlns="http://www.w3.org/2000/svg" {size} viewBox="0 0 {width:.0f} {height:.0f}" '
            'font-family="Helvetica, Arial, sans-serif" font-size="12" fill="#000000">'
            '<defs><marker id="matchbench-tip" viewBox="0 0 8 8" refX="8" refY="4" markerWidth="7" markerHeight="7" orient="auto">'
            '<path d="M0,0 L8,4 L0,8 z" fill="#777777"/></marker></defs>'
            f'<rect width="100%" height="100%" fill="#ffffff"/>{"".join(itertools.chain(lines, shapes))}</svg>')
