"""The forms of instances in JSON, as docs/FORMATS.md has them."""
from __future__ import annotations

from typing import Any, Dict, Mapping

# A dict has members, some with ? only perhaps; a list has items of one form; a tuple has lengths.
_AGENT: Dict[str, Any] = {'name': None, 'list': [None]}
_PAIRS: Dict[str, Any] = {'kind': None, '?weights': [(3, 4)], '?forced': [(2,)], '?forbidden': [(2,)], '?order': [None]}
_FORMS = {'marriage': {**_PAIRS, 'proposers': [_AGENT], 'reviewers': [_AGENT]},
          'hospitals': {**_PAIRS, 'proposers': [_AGENT], 'reviewers': [{**_AGENT, 'capacity': None}]},
          'roommates': {'kind': None, 'persons': [_AGENT]}}


def look_at(value: Any) -> None:
    """Raises TypeError where a value hasn't the form of an instance."""
    kind = value.get('kind') if isinstance(value, Mapping) else None
    if not isinstance(kind, str) or kind not in _FORMS:
        raise TypeError('it is an object, and its kind is "marriage", "hospitals" or "roommates"')
    _look_at(_FORMS[kind], value, '')


def _look_at(form: Any, value: Any, where: str) -> None:
    """Raises TypeError where a value hasn't a form."""
    if isinstance(form, dict):
        if not isinstance(value, Mapping):
            raise TypeError(f'{where} is no object')
        forms = {it.lstrip('?'): inner for it, inner in form.items()}
        missing = [f'no member {it!r}' for it in form if it[0] != '?' and it not in value]
        for wrong in missing + [f'a member {it!r}' for it in value if it not in forms]:
            raise TypeError(f'{where or "the value"} has {wrong}')
        for it in value:
            _look_at(forms[it], value[it], f'{where}.{it}'.lstrip('.'))
    elif form and not isinstance(value, (list, tuple)):
        raise TypeError(f'{where} is no array')
    elif isinstance(form, list):
        for place, it in enumerate(value):
            _look_at(form[0], it, f'{where}[{place}]')
    elif form and len(value) not in form:
        raise TypeError(f'{where} has {len(value)} items')
