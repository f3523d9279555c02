"""Instances with more seats than the program takes: the program is asked about what trimming leaves of them."""
from __future__ import annotations

import inspect
import json
import os
import shutil
import subprocess
import warnings
from typing import Any, List, Optional, Tuple

from . import _program

# So many entries the lists of all seats may have.
MOST_ENTRIES = 1_048_576


def trimmed(instance: Any) -> Any:
    """The instance with lists that are cut at their ends, where its seats are too many, and else None. Warns of it."""
    cut = cut_text(instance.to_text()) if seat_entries(instance) > MOST_ENTRIES else None
    if cut is None:
        return None
    tell(instance)
    sides = {'proposers': instance._proposers.originals, 'reviewers': instance._reviewers.originals}
    return type(instance)._of_value(exported(cut), cut, sides)


def read(kind: Any, text: str, originals: Any, fault: Exception) -> Any:
    """The instance of a text that the program refuses for its seats. Of its lists it has what trimming leaves. Raises the refusal
    where that doesn't help.
    """
    cut = cut_text(text)
    if cut is None:
        raise fault
    value = exported(cut)
    instance = kind._of_value(value, text, originals)
    instance.trimmed = kind._of_value(value, cut, originals)
    tell(instance)
    return instance


def tell(instance: Any) -> None:
    """Warns, where this package was called, that an instance is trimmed."""
    inside = os.path.dirname(__file__), os.path.dirname(os.__file__)
    frame, level = inspect.currentframe(), 0
    while frame is not None and os.path.dirname(frame.f_code.co_filename) in inside:
        frame, level = frame.f_back, level + 1
    warnings.warn(f'{instance!r} has more entries on the lists of its seats than the program takes, which is asked about shorter '
                  'lists, with the same stable matchings: those of `trimmed`', stacklevel=level + 1)


def exported(text: str) -> Any:
    """The value in JSON of a text."""
    from . import _ask
    return json.loads(_ask(text, 'export'))


def seat_entries(instance: Any) -> int:
    """How many entries the lists of all seats have: a reviewer adds as many seats as it has places, but no more than acceptable
    proposers, times its acceptable proposers.
    """
    rows = instance.reviewers.items() if instance.kind == 'hospitals' else ()
    counts: List[Tuple[int, int]] = [(len(row), instance.capacities[r]) for r, row in rows]
    if sum(count * min(count, places) for count, places in counts) > MOST_ENTRIES:
        listed = {p: set(row) for p, row in instance.proposers.items()}
        counts = [(sum(r in listed[p] for p in row), instance.capacities[r]) for r, row in rows]
    return sum(count * min(count, places) for count, places in counts)


def cut_text(text: str) -> Optional[str]:
    """What trimming makes of a text; None where nothing trims it, or its seats are too many still."""
    program = trimmer()
    if program is None:
        return None
    given = text.encode('utf-8', 'surrogateescape')
    done = subprocess.run([program], input=given, stdout=subprocess.PIPE, stderr=subprocess.DEVNULL)
    return None if done.returncode else done.stdout.decode('utf-8', 'surrogateescape')


def trimmer() -> Optional[str]:
    """The path of the program `matchtrim`: MATCHTRIM names it, or it came with this package or is on PATH; None without it."""
    return os.environ.get('MATCHTRIM') or _program.beside('matchtrim') or shutil.which('matchtrim')
