"""What the classes of this package have beside the program's answers: tables, pictures, graphs, and what calls the tools.

Nothing here is a dependency: networkx and pandas are wanted by the methods that name them, and the tools by those that call them.
"""
from __future__ import annotations

import importlib
import json
import os
import re
from functools import cached_property
from typing import Any, Dict, Mapping, Optional, Tuple, Type, TypeVar, Union, cast

from . import drawing, tables

Kind = TypeVar('Kind', bound='InstanceViews')


def _version() -> str:
    """The version of the repository in which this file is, else of the installed module."""
    try:
        with open(os.path.join(os.path.dirname(os.path.realpath(__file__)), '..', '..', 'CITATION.cff'), encoding='utf-8') as file:
            return str(re.findall(r'(?ms)^title: "matchbench.*^version: "([^"]+)"', file.read())[0])
    except (OSError, IndexError):
        metadata = importlib.import_module('importlib.metadata')
    try:
        return str(metadata.version('matchbench'))
    except metadata.PackageNotFoundError:
        return 'unknown'


VERSION = _version()


def _frame(columns: Dict[str, Any]) -> Any:
    """A frame of columns."""
    return importlib.import_module('pandas').DataFrame(columns)


class MatchingViews:
    """Of a matching."""

    def to_frame(self) -> Any:
        """A `pandas.DataFrame` with a row for each proposer: its partner, and the ranks that the two have for one another."""
        return _frame(drawing.columns_of_matching(self))

    def _repr_html_(self) -> str:
        return drawing.table(drawing.columns_of_matching(self))


class LightestViews:
    """Of a lightest matching."""

    def nets(self) -> Any:
        """The net of each level, one or two, as a `networkx.DiGraph`, whose edges have a `flow`, and a `capacity` where they have a
        bound. `networkx.maximum_flow_value(net, 'S', 'T')` is the level's value. Raises ImportError where networkx is missing.
        """
        return importlib.import_module('.graphs', __package__).nets(self)


class OrderViews:
    """Of the order of rotations."""

    def graph(self) -> Any:
        """The order as a `networkx.DiGraph`, which draws itself in notebooks; without networkx it raises ImportError.

        Its nodes are the numbers of the rotations, each with its `Rotation` as the attribute `rotation`; an edge leads from a
        rotation to each that needs it. Stable matchings correspond to the sets of nodes that no edge enters from outside,
        and so to `networkx.antichains` of the graph.
        """
        return importlib.import_module('.graphs', __package__).order(self)

    def _repr_svg_(self) -> Optional[str]:
        order: Any = self
        boxes = {it.number: drawing.of_rotation(it) for it in order.rotations}
        return drawing.picture(boxes, [(a, b, '') for a, b in order.edges()])


class InstanceViews:
    """Of an instance."""

    @classmethod
    def from_tables(cls: Type[Kind], proposers: Any, reviewers: Any = None, *, names: Optional[str] = None, **options: Any) -> Kind:
        """The instance of tables, which tools/from_csv reads: paths or `pandas.DataFrame`s; one table alone is of roommates.

        Its options are keywords here: `ranks='proposers'`, `one_place=True`, `skip=['Age', 'Street']`. What it tells goes to
        standard error, and the table of names to the path `names`. Raises ValueError with what it says of faulty tables, and
        ImportError where the tools are missing.
        """
        kind: Any = cls
        given = {'persons': proposers} if reviewers is None else {'proposers': proposers, 'reviewers': reviewers}
        made: Kind = tables.from_tables(kind.from_text, given, names, options)
        return made

    @classmethod
    def from_json(cls: Type[Kind], given: Union[str, bytes, Mapping[str, Any]]) -> Kind:
        """The instance of JSON in the form of docs/FORMATS.md, or of its value, as `json.loads` gives it. Any strings may be names.
        Doesn't start the program. Raises ValueError where this is no instance in JSON.
        """
        value, kind = json.loads(given) if isinstance(given, (str, bytes)) else given, cast(Any, cls)
        try:
            importlib.import_module('._json', __package__).look_at(value)
            made: Kind = kind._of_value(value)
        except TypeError as fault:
            raise ValueError(f'no instance in JSON: {fault}') from None
        return made

    @cached_property
    def trimmed(self) -> Any:
        """Where the seats are more than the program takes: the instance with lists that were cut at their ends, about which the
        program is asked; else None. It has the same stable matchings. The first look at it warns.
        """
        return importlib.import_module('._trim', __package__).trimmed(self)

    @classmethod
    def _trimmed_of(cls, text: str, originals: Mapping[str, Mapping[str, str]], fault: Exception) -> Any:
        return importlib.import_module('._trim', __package__).read(cls, text, originals, fault)

    def _wrong(self, reason: str, answer: Any) -> Tuple[str, Optional[Tuple[Any, Any]]]:
        told: Tuple[str, Optional[Tuple[Any, Any]]] = importlib.import_module('._wrong', __package__).told(self, reason, answer)
        return told

    @staticmethod
    def _originals(names: str) -> Mapping[str, Mapping[str, str]]:
        return tables.originals(names)

    def write_names(self, path: str) -> None:
        """Writes the table of names that the tools take as `--names`. Doesn't start the program."""
        tables.write_names(self, path)

    def explore(self, path: Optional[str] = None, **options: Any) -> tables.Page:
        """The page of tools/explore, which shows itself in notebooks; with a path it is written there too. The options of the tool
        are keywords here: `title='A made marriage'`, `most=100`. Raises ImportError where the tools are missing.
        """
        return tables.explore(self, path, options)

    def lattice(self, most: int = 10_000) -> Any:
        """All stable matchings as a `networkx.DiGraph`, which draws itself in notebooks.

        Its nodes are the `Matching`s, with the attributes `ranks`, `proposer_sum` and `reviewer_sum`, the sums of the ranks that
        each side gives its partners, and `set`, the numbers of the rotations that lead there from the proposers' best. An edge
        leads from a matching to each that one more rotation makes of it, and has its number as `rotation`. Raises ValueError where
        there are more than `most` matchings, and ImportError where networkx is missing.
        """
        return importlib.import_module('.graphs', __package__).lattice(self, most)

    def order(self) -> Any:
        """The rotations as a `networkx.DiGraph`: the `graph` of `rotations`."""
        instance: Any = self
        return instance.rotations().graph()

    def to_frame(self) -> Any:
        """A `pandas.DataFrame` with a row for each pair of whom one lists the other, and the ranks that they give one another."""
        return _frame(drawing.columns_of_instance(self))

    def _repr_html_(self) -> str:
        return drawing.tables_of_instance(self)
