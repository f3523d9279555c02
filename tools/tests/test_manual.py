"""The manual page says of each command, refusal, status and limit what docs/FORMATS.md has, and is sound."""
import os
import re
import shutil
import subprocess
import unittest

TOP = os.path.join(os.path.dirname(os.path.realpath(__file__)), '..', '..')
PAGE = os.path.join(TOP, 'docs', 'matchbench.1')


def text_of(path):
    with open(path, encoding='utf-8') as file:
        return file.read()


def part_of(text, title):
    """What stands below a title of docs/FORMATS.md."""
    return text.split(f'\n## {title}\n')[1].split('\n## ')[0]


def section_of(page, title):
    """A section of the manual page."""
    return page.split(f'\n.SH {title}\n')[1].split('\n.SH ')[0]


class Manual(unittest.TestCase):
    def setUp(self):
        self.page, self.formats = text_of(PAGE), text_of(os.path.join(TOP, 'docs', 'FORMATS.md'))
        script = os.path.join(TOP, 'matchbench')
        self.help = subprocess.run([script, '--help'], capture_output=True, text=True, check=True).stdout

    def test_commands(self):
        commands = re.findall(r'^\| `([a-z][^`]*)` \|', part_of(self.formats, 'The command line'), re.M)
        self.assertIn('solve', commands)
        self.assertEqual(headings(section_of(self.page, 'COMMANDS')), commands)
        for words in commands:
            self.assertRegex(self.help, rf'(?m)^  {words.split()[0]}\b')
            for operand in words.split()[1:]:
                self.assertIn(operand, self.help)

    def test_refusals(self):
        names = re.findall(r'^\| `(\w+)` \|', part_of(self.formats, 'Refusals'), re.M)
        self.assertIn('TooLong', names)
        self.assertEqual(headings(section_of(self.page, 'REFUSALS')), names)

    def test_verdicts(self):
        names = re.findall(r'^\| `(\w+)` \|', self.formats.split('| Reason | At |')[1].split('\n\n')[0], re.M)
        self.assertIn('Blocked', names)
        self.assertEqual(headings(section_of(self.page, 'VERDICTS')), names)

    def test_explained(self):
        """Each reason has a paragraph, which is all that stands below its name; the script prints it where it knows the word."""
        script = text_of(os.path.join(TOP, 'matchbench'))
        for title in ('REFUSALS', 'VERDICTS'):
            section = section_of(self.page, title)
            for name in headings(section):
                found = re.search(rf'\n\.B {name}\n\.\\" explain {name}\n([^.][^\0]*?\n)\.\\" explain ends(\n\.TP|\Z)', section)
                self.assertTrue(found, name)
                lines = found.group(1).replace('\\-', '-')
                self.assertTrue(all(len(it) <= 72 and it[0] not in '.\'' and '\\' not in it for it in lines.splitlines()), name)
                if '--explain)' in script:
                    done = subprocess.run([os.path.join(TOP, 'matchbench'), '--explain', name], capture_output=True, text=True)
                    self.assertEqual((done.returncode, done.stdout, done.stderr), (0, lines, ''))

    def test_statuses(self):
        statuses = re.findall(r'^\| \w+ \| (\d) \|', part_of(self.formats, 'Statuses'), re.M)
        self.assertIn('2', statuses)
        self.assertEqual(re.findall(r'^  (\d+) ', self.help, re.M), statuses + ['8', '70'])
        self.assertEqual(re.findall(r'^  (\d+) ', section_of(self.page, 'EXIT STATUS'), re.M), statuses + ['8', '70'])

    def test_limits(self):
        for limit in set(re.findall(r'\d+(?:,\d{3})+', section_of(self.page, 'LIMITS'))) | {'64'}:
            self.assertIn(limit, self.formats)
        for limit in set(re.findall(r'\d+(?:,\d{3})+', part_of(self.formats, 'The input: an instance'))):
            self.assertIn(limit, section_of(self.page, 'LIMITS'))

    def test_lines(self):
        """The help fits a narrow terminal, and holds no other escape."""
        for line in self.help.splitlines():
            self.assertLessEqual(len(line), 72, line)
            self.assertNotIn('\\', line)

    def test_groff(self):
        if shutil.which('groff'):
            done = subprocess.run(['groff', '-man', '-ww', '-z', PAGE], capture_output=True, text=True)
            self.assertEqual((done.returncode, done.stderr), (0, ''))

    def test_words(self):
        """No words run together: macros that alternate fonts leave no space between their arguments."""
        for line in re.findall(r'^\.(?:BI|BR|IB|IR|RB|RI) (.*)$', self.page, re.M):
            joined = re.sub(r'(?<!\\) +', '', line).replace('\\ ', ' ')
            for word in joined.split():
                self.assertLessEqual(len(word), 35, line)
        if shutil.which('groff'):
            page = subprocess.run(['groff', '-man', '-Tascii', '-P-cbou', PAGE], capture_output=True, text=True, check=True).stdout
            self.assertIn('NAME', page)
            for word in page.split():
                self.assertLessEqual(len(word), 35, word)


def headings(section):
    """The lines of a section that are the tags of paragraphs."""
    return re.findall(r'^\.T[PQ]\n\.B (.*)$', section, re.M)


if __name__ == '__main__':
    unittest.main()
