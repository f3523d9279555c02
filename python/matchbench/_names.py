"""From names to those of the text, also for tools/from_csv."""
from __future__ import annotations

import re
import unicodedata
from collections import Counter
from typing import List, Optional, Sequence

_NAME = re.compile(r'[A-Za-z0-9_][A-Za-z0-9_.-]{0,63}\Z')
_LETTERS = {'ß': 'ss', 'æ': 'ae', 'Æ': 'Ae', 'œ': 'oe', 'Œ': 'Oe', 'ø': 'o', 'Ø': 'O', 'ł': 'l', 'Ł': 'L', 'đ': 'd', 'Đ': 'D',
            'ð': 'd', 'Ð': 'D', 'þ': 'th', 'Þ': 'Th', 'ı': 'i'}


def sound_names(originals: Sequence[str], letter: str) -> List[str]:
    """A name of the text's form for each original: the same where it has that form, else a cleaned form that no other agent
    has, else the letter with the agent's number.
    """
    forms = [it if _NAME.match(it) else _cleaned(it) for it in originals]
    counts = Counter(forms)
    taken = {form for form, original in zip(forms, originals) if form and (form == original or counts[form] == 1)}
    names = []
    for number, (form, original) in enumerate(zip(forms, originals), 1):
        if form is None or not (form == original or counts[form] == 1):
            form = f'{letter}{number}'
            while form in taken:
                form += '_'
            taken.add(form)
        names.append(form)
    return names


def _cleaned(original: str) -> Optional[str]:
    """A name of the text's form that reads like the original, or None where a letter or a digit would be lost."""
    text = unicodedata.normalize('NFKD', ''.join(_LETTERS.get(it, it) for it in unicodedata.normalize('NFC', original)))
    text = ''.join(it for it in text if not unicodedata.combining(it))
    if any(it.isalnum() and not it.isascii() for it in text):
        return None
    name = re.sub(r'[^A-Za-z0-9.-]+', '_', text).strip('_.-')[:64]
    return name if _NAME.match(name) else None
