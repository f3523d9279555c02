"""A scheme's own tables and names, and the page of the explorer: by the tools of the repository."""
from __future__ import annotations

import csv
import html
import os
import shutil
import subprocess
import sys
import tempfile
from typing import Any, Callable, Dict, List, Mapping, Optional

HEADER = ['side', 'name', 'original']
SIDES = {'proposer': 'proposers', 'reviewer': 'reviewers', 'person': 'persons'}


class Page:
    """A page in HTML, which shows itself in notebooks."""

    def __init__(self, text: str) -> None:
        self.text = text

    def _repr_html_(self) -> str:
        return f'<iframe srcdoc="{html.escape(self.text)}" style="width: 100%; height: 50em; border: 0"></iframe>'


def tool(name: str) -> str:
    """The path of a tool: of the repository or the folder in which this file is, or of an installed package."""
    top = os.path.dirname(os.path.dirname(os.path.dirname(os.path.realpath(__file__))))
    path = os.path.join(top, 'tools', name)
    installed = shutil.which('matchbench-' + name.replace('_', '-'))
    if os.path.isfile(path) or installed is None:
        installed = path
    if not os.path.isfile(installed):
        raise ImportError(f'tools/{name} is missing: the repository has it, and so have its packages, but not the wheel')
    return installed


def words_of(options: Mapping[str, Any]) -> List[str]:
    """Keywords as the words of a tool: True stands for the word alone, and of a list each item has one."""
    words: List[str] = []
    for name, value in options.items():
        for it in value if isinstance(value, (list, tuple)) else [value]:
            if it is not None and it is not False:
                words += ['--' + name.replace('_', '-')] + ([] if it is True else [str(it)])
    return words


def run(name: str, *words: str, folder: str = '') -> str:
    """What a tool writes. What it tells goes to standard error, or is raised as a ValueError where it fails. Files in a folder that
    lasts no longer are named without that.
    """
    from . import find_program
    done = subprocess.run([sys.executable, '-B', tool(name), *words], stdout=subprocess.PIPE, stderr=subprocess.PIPE,
                          env={**os.environ, 'MATCHBENCH': find_program()})
    told = done.stderr.decode(errors='replace')
    told = told.replace(folder + os.sep, '') if folder else told
    if done.returncode:
        # Before the fault itself stands how the tool is called.
        told = told.strip().split('\n')[-1] if told.startswith('usage:') else told.strip()
        raise ValueError(told or f'{name} ended with status {done.returncode}')
    sys.stderr.write(told)
    return done.stdout.decode()


def from_tables(from_text: Callable[..., Any], given: Dict[str, Any], names: Optional[str], options: Mapping[str, Any]) -> Any:
    """The instance of tables."""
    with tempfile.TemporaryDirectory() as folder:
        def path_of(word: str, table: Any) -> Any:
            if not hasattr(table, 'to_csv'):
                return table
            path = os.path.join(folder, f'{word}.csv')
            write_frame(table, path)
            return path

        paths = [str(os.fspath(path_of(word, it))) for word, it in given.items()]
        others = {word: path_of(word, it) for word, it in options.items()}
        names = os.path.join(folder, 'names.csv') if names is None else names
        text = run('from_csv', *paths, '--names', names, *words_of(others), folder=folder)
        return from_text(text, names)


def write_frame(frame: Any, path: str) -> None:
    """Writes a `pandas.DataFrame` as a table: with its index, if that isn't a mere numbering, and whole numbers as such, also where
    empty cells made pandas take the column for one of fractions.
    """
    name = frame.index.name
    is_numbering = name is None and list(frame.index) == list(range(len(frame.index)))
    frame.convert_dtypes().to_csv(path, index=not is_numbering, index_label='name' if name is None else name)


def originals(path: str) -> Dict[str, Dict[str, str]]:
    """For each side the originals of a table of names."""
    found: Dict[str, Dict[str, str]] = {}
    with open(path, encoding='utf-8-sig', newline='') as file:
        rows = csv.reader(file)
        head: List[str] = next(rows, [])
        if head[:3] != HEADER:
            raise ValueError(f'{path} is no table of names: its columns aren\'t {", ".join(HEADER)}')
        for row in rows:
            if len(row) != len(head) or row[0] not in SIDES:
                raise ValueError(f'{path}:{rows.line_num}: this row has no side, name and original')
            found.setdefault(SIDES[row[0]], {})[row[1]] = row[2]
    return found


def write_names(instance: Any, path: str) -> None:
    """Writes the table of names of an instance."""
    sides = [('person', instance.proposer_names)] if instance.kind == 'roommates' else \
        [('proposer', instance.proposer_names), ('reviewer', instance.reviewer_names)]
    with open(path, 'w', encoding='utf-8', newline='') as file:
        rows = csv.writer(file, lineterminator='\n')
        rows.writerow(HEADER)
        rows.writerows([side, name, original] for side, names in sides for original, name in names.items())


def explore(instance: Any, path: Optional[str], options: Mapping[str, Any]) -> Page:
    """The page of the explorer."""
    with tempfile.TemporaryDirectory() as folder:
        text, names = os.path.join(folder, 'instance.txt'), os.path.join(folder, 'names.csv')
        with open(text, 'w', encoding='utf-8', errors='surrogateescape', newline='') as file:
            file.write(instance.to_text())
        write_names(instance, names)
        page = Page(run('explore', text, '--names', names, *words_of(options), folder=folder))
    if path is not None:
        with open(path, 'w', encoding='utf-8') as file:
            file.write(page.text)
    return page
