"""Texts in Graphviz's language: a graph, its labels, and what agents are called in them."""
from .command import Fault

STYLE = {
    'graph': 'fontname="Helvetica", fontsize=12, labelloc=t, nodesep=0.35, ranksep=0.45',
    'node': 'shape=box, style="rounded,filled", fillcolor="#ffffff", color="#555555", fontname="Helvetica", fontsize=11',
    'edge': 'color="#555555", fontname="Helvetica", fontsize=10, arrowsize=0.7',
}
RED, BLUE, GREEN, ORANGE = '#c0392b', '#dcebf7', '#e3f1df', '#fbe9d3'
SHOWN = 16


def graph(name, title, lines):
    """A graph."""
    style = [f'    {kind} [{values}];' for kind, values in STYLE.items()]
    return '\n'.join([f'digraph {name} {{', *style, f'    label="{title}";', *lines, '}', ''])


def text_of(lines, end):
    """The text of a label; names, numbers and our own words hold nothing that had to be escaped. Each line has its end: `l` for one
    that begins on the left, `n` for one in the middle.
    """
    return ''.join(f'{line}\\{end}' for line in lines)


def fitting(texts):
    """Lines of a box, cut where they are too many."""
    return texts if len(texts) <= SHOWN else texts[:SHOWN - 1] + [f'and {len(texts) - SHOWN + 1} more']


class Called:
    """What agents are called in a picture: by the instance's names, or by those of a table of names."""

    def __init__(self, names):
        self.names = names

    def agent(self, side, name):
        """The name of an agent, as a label may hold it."""
        if self.names is None:
            return name
        found = self.names.sides.get(side, {}).get(name)
        if found is None:
            raise Fault(f'{self.names.file} has no {side} {name}')
        return ' '.join(found.split()).replace('&', '&amp;').replace('\\', '\\\\').replace('"', '\\"')

    def in_table(self, side, name):
        """The name of an agent, as a table in a label may hold it."""
        return self.agent(side, name).replace('\\"', '"').replace('\\\\', '\\').replace('<', '&lt;').replace('>', '&gt;')

    def proposer(self, name):
        """The name of a proposer."""
        return self.agent('proposer', name)

    def seat(self, seat):
        """The name of a seat."""
        return self.agent('reviewer', seat[0]) + ('' if seat[1] is None else f'/{seat[1]}')

    def moves(self, moves):
        """The moves of a rotation, a text for each."""
        return [f'{self.proposer(p)}: {self.seat(left)} to {self.seat(to)}' for p, left, to in moves]
