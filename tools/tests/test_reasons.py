"""The texts of reasons stand once, in the Python module: docs/FORMATS.md and the manual page say the same, and the tools have no
others.
"""
import os
import re
import unittest

import inside
from shared import names
from shared.instance import Refused
from shared.module import module
from shared.reasons import HINTS, HINTS_2

TOP = os.path.join(inside.TOOLS, '..')


def text_of(*path):
    with open(os.path.join(TOP, *path), encoding='utf-8') as file:
        return file.read()


class Reasons(unittest.TestCase):
    def test_formats(self):
        """The tables have each reason with its text."""
        formats = text_of('docs', 'FORMATS.md')
        refusals = re.findall(r'^\| `(\w+)` \| (.*?) \|(?: .*)? \| .* \|$',
                              formats.split('\n## Refusals\n')[1].split('\n| Line |')[0], re.M)
        self.assertEqual(refusals, list(module().REASONS.items()))
        verdicts = re.findall(r'^\| `(\w+)` \| [^|]* \| (.*) \|$', formats.split('| Reason | At |')[1].split('\n\n')[0], re.M)
        self.assertEqual(verdicts, list(module().VERDICTS.items()))

    def test_manual_page(self):
        """The paragraph of each reason begins with its text."""
        page = text_of('docs', 'matchbench.1')
        for name, text in {**module().REASONS, **module().VERDICTS}.items():
            paragraph = re.search(rf'\.\\" explain {name}\n(.*?)\n\.\\" explain ends', page, re.S)[1].replace('\\-',
                                                                                                              '-').replace('\n',
                                                                                                                           ' ')
            text = text[0].upper() + text[1:].replace('`', '')
            self.assertEqual(paragraph[:len(text)], text)
            self.assertRegex(paragraph[len(text):], r'\A[.,:;]', name)

    def test_tools(self):
        """The tools take the texts from there, and know no reason that isn't there."""
        self.assertEqual(str(Refused('i.txt', 'UnknownName', 3, 'zoe')),
                         f'i.txt:3: zoe: {module().REASONS["UnknownName"]} (UnknownName)')
        self.assertEqual(list(HINTS), list(module().REASONS))
        self.assertLessEqual(set(HINTS_2), set(HINTS))
        for folder in ('.', 'shared'):
            for it in os.listdir(os.path.join(inside.TOOLS, folder)):
                path = os.path.join(inside.TOOLS, folder, it)
                if os.path.isfile(path) and not it.endswith('.md'):
                    written = text_of('tools', folder, it).replace('\\\'', '\'')
                    self.assertEqual([text for text in (*module().REASONS.values(), *module().VERDICTS.values())
                                      if f'\'{text}\'' in written], [], it)

    def test_names(self):
        """Names are cleaned by one function."""
        originals = ['Zoë', 'ann', 'C++', 'Дом', 'Ann Lee']
        self.assertEqual(names.sound_names(originals, 'p'), ['Zoe', 'ann', 'C', 'p4', 'Ann_Lee'])
        self.assertEqual(names.sound_names(originals, 'p'), module().sound_names(originals, 'p'))
        self.assertFalse([it for it in ('unicodedata.normalize(\'NFKD\'', 'combining')
                          if it in text_of('tools', 'shared', 'names.py')])


if __name__ == '__main__':
    unittest.main()
