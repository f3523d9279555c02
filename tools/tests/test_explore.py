"""`explore`: what its pages hold, and the pages themselves in a browser without a window, where each ends with `explorer: passed`.

What needs the program, a browser or `node` is skipped where that is missing.
"""
import functools
import html
import json
import os
import random
import re
import shutil
import subprocess
import tempfile
import unittest
from unittest import mock

import inside
import program

HERE = os.path.dirname(os.path.realpath(__file__))
TOP = os.path.realpath(os.path.join(HERE, '..', '..'))
BROWSER = next(filter(None, map(shutil.which, ('chromium', 'chromium-browser', 'google-chrome', 'chrome'))), None)
MIB = 1 << 20


def example(name):
    with open(os.path.join(TOP, 'examples', name + '.txt'), encoding='utf-8') as file:
        return file.read()


def opposed(size, length, seed):
    """A marriage with many rotations: the more an agent likes one of the other side, the less it is liked there. Each lists those
    beside it in a circle.
    """
    chance = random.Random(seed)
    near = [[(i + d) % size for d in range(-(length // 2), length - length // 2)] for i in range(size)]
    score = [[chance.random() for _ in range(size)] for _ in range(size)]
    listing = [[i for i in range(size) if j in near[i]] for j in range(size)]
    lines = []
    for i, row in enumerate(near):
        lines.append(f'p s{i + 1:03}: ' + ' '.join(f'c{j + 1:03}' for j in sorted(row, key=score[i].__getitem__)))
    for j, row in enumerate(listing):
        lines.append(f'r c{j + 1:03}: ' + ' '.join(f's{i + 1:03}' for i in sorted(row, key=lambda i, j=j: -score[i][j])))
    return '\n'.join(['stable 1 marriage', *lines, 'end', ''])


# Of its nine stable matchings three are allowed: those of {1, 5}, {1, 2, 5} and {1, 2, 3, 5}.
CONDITIONS = example('five_rotations').replace('end\n', '''force eve french
forbid ann biology
weight cem drama 3
weight ben art -5
end
''')


# A hospital of 1,025 places with as many proposers: one place and proposer more than the limit of seats allows.
NAMES = [f'r{i}' for i in range(1025)]
SEATS = '\n'.join(['stable 1 hospitals', *(f'p {it}: h0' for it in NAMES), f'r h0 [1025]: {" ".join(NAMES)}', 'end', ''])


def written_by(commands, text, table):
    """What the last of some commands writes, in a folder with the script, the tools, an instance and a table."""
    with tempfile.TemporaryDirectory() as folder:
        os.symlink(program.PATH, os.path.join(folder, 'matchbench'))
        os.symlink(os.path.join(TOP, 'tools'), os.path.join(folder, 'tools'))
        for name, content in (('instance.txt', text), ('matching.csv', table)):
            with open(os.path.join(folder, name), 'w', encoding='utf-8') as file:
                file.write(content)
        return subprocess.run(['bash', '-c', commands], cwd=folder, stdout=subprocess.PIPE).stdout.decode()


def explore(text, *words, names=None, path=None):
    """The status of `explore`, its page and its fault."""
    with tempfile.TemporaryDirectory() as folder:
        file = os.path.join(folder, 'instance.txt')
        with open(file, 'w', encoding='utf-8') as out:
            out.write(text)
        if names:
            with open(os.path.join(folder, 'names.csv'), 'w', encoding='utf-8') as out:
                out.write(names)
            words = (*words, '--names', os.path.join(folder, 'names.csv'))
        variables = {'MATCHBENCH': program.PATH or '', **({'PATH': path} if path is not None else {})}
        with mock.patch.dict(os.environ, variables):
            status, page, fault = inside.call('explore', *words, file)
        return status, page, fault.replace(folder + os.sep, '')


@functools.lru_cache(None)
def page_of(text):
    status, page, fault = explore(text)
    assert status == 0, fault
    return page


def data_in(page):
    """The data that a page holds."""
    return json.loads(re.search(r'<script type="application/json" id="data">(.*?)</script>', page, re.S).group(1))


def whole(parts, rotations):
    """An answer of the data, word for word."""
    if isinstance(parts, str):
        return parts
    if isinstance(parts, dict):
        vectors, ranks = [], {}
        for own in parts['changes']:
            ranks.update(zip(own[::2], own[1::2]))
            vectors.append(','.join(str(ranks[it]) for it in sorted(ranks)))
        last = parts['last'] + (f' {vectors[-1]}' if parts['last'] == 'more' else '')
        return '\n'.join([parts['head'], *(f'vector {it}' for it in vectors), last, ''])
    lines = rotations.split('\n')
    return ''.join(it if isinstance(it, str) else '\n'.join(lines[slice(*it)]) + '\n' for it in parts)


@functools.lru_cache(None)
def tried(page):
    """What a page says of itself in a browser, its last line, and the texts that went out."""
    with tempfile.TemporaryDirectory() as folder:
        file = os.path.join(folder, 'page.html')
        with open(file, 'w', encoding='utf-8') as out:
            out.write(page)
        words = ['--headless', '--disable-gpu', '--disable-extensions', f'--user-data-dir={folder}/profile', '--dump-dom',
                 f'file://{file}#test']
        if os.geteuid() == 0:
            words.insert(0, '--no-sandbox')
        done = subprocess.run([BROWSER, *words], stdout=subprocess.PIPE, stderr=subprocess.DEVNULL, timeout=600)
    found = {key: html.unescape(text) for key, text in re.findall(r'<pre id="(\w+)"[^>]*>(.*?)</pre>', done.stdout.decode(), re.S)}
    test = found.get('test', 'the page didn\'t end its test')
    return test, test.split('\n')[-1], json.loads(found.get('claims') or '[]')


@unittest.skipUnless(program.PATH, 'the program isn\'t built')
class Pages(unittest.TestCase):
    def test_answers(self):
        """The page holds the program's answers word for word."""
        names = ('five_rotations', 'hospitals', 'two_levels', 'forbidden', 'odd_party', 'roommates')
        for text in (opposed(40, 10, 1), *map(example, names)):
            page = page_of(text)
            data = data_in(page)
            self.assertEqual(data['text'], text)
            self.assertEqual(program.ask(text, 'export')[1].strip(), re.search(r'id="exported">(.*?)</script>', page).group(1))
            for words, parts in data['answers'].items():
                own = words.split() + (['limit=300'] if words == 'list' else [])
                self.assertEqual(whole(parts, data['answers'].get('rotations', '')), program.ask(text, *own)[1], words)
        self.assertEqual(set(data['answers']), {'solve', 'list', 'rest'})
        self.assertIn('weight by=given', data_in(page_of(example('two_levels')))['answers'])
        self.assertNotIn('weight by=given', data_in(page_of(example('five_rotations')))['answers'])

    def test_nothing_is_loaded(self):
        for name in ('five_rotations', 'odd_party'):
            page = page_of(example(name))
            self.assertIn("default-src 'none'", page)
            self.assertNotRegex(page, r'<(link|img|iframe|object|embed|base)\b|\bsrc=|url\(h|@import')
            self.assertNotRegex(page.replace('http://www.w3.org/2000/svg', ''), 'https?:')
            self.assertNotRegex(page, r'<[^>]* (style|onclick)=')

    def test_sizes(self):
        for name in sorted(os.listdir(os.path.join(TOP, 'examples'))):
            if name.endswith('.txt') and name != 'two_matchings.txt':
                self.assertLess(len(page_of(example(name[:-4])).encode()), 100_000, name)
        self.assertLess(len(page_of(opposed(200, 12, 7)).encode()), 400_000)

    def test_names(self):
        """Names in any language, also those that look like marks."""
        names = 'side,name,original\nproposer,m1,</script><b>\nproposer,m2,Мия\nreviewer,a,"A & ""B"""\nreviewer,b,五\n'
        status, page, fault = explore(example('two_by_two'), '--title', '<i>x</i>', names=names)
        self.assertEqual((status, fault), (0, ''))
        self.assertNotIn('</script><b>', page)
        self.assertNotIn('<i>', page)
        self.assertEqual(data_in(page)['names']['proposer'], {'m1': '</script><b>', 'm2': 'Мия'})
        if BROWSER:
            self.assertEqual(tried(page)[1], 'explorer: passed', tried(page)[0])

    def test_refused(self):
        for text, what in (('stable 1 marriage\n', 'MissingEnd'), (example('two_matchings'), 'AfterEnd')):
            status, page, fault = explore(text)
            self.assertEqual((status, page), (1, ''))
            self.assertIn(what, fault)
            self.assertNotIn('matchtrim', fault)

    def test_too_many_seats(self):
        """Where there are too many seats the page has the lists, and says why the rest is grey."""
        status, page, fault = explore(SEATS)
        self.assertEqual(status, 0)
        self.assertRegex(fault, r'refused TooManySeats 1027\b.*/matchtrim')
        self.assertLess(len(page.encode()), 100_000)
        data = data_in(page)
        self.assertEqual((data['text'], data['answers']), (SEATS, {}))
        self.assertIn('have more than 1,048,576 entries', data['whyNot'])
        self.assertEqual(program.ask(SEATS, 'export')[1].strip(), re.search(r'id="exported">(.*?)</script>', page).group(1))
        self.assertEqual([len(it['list']) for it in data['instance']['reviewers']], [1025])
        if BROWSER:
            self.assertEqual(tried(page)[1], 'explorer: passed', tried(page)[0])

    def test_words(self):
        for words in (['--most', '0'], ['--most', '1001'], ['--most', 'x'], ['--m', '3'], ['a', 'b']):
            self.assertEqual(explore(example('two_by_two'), *words)[0], 2, words)

    def test_layouts(self):
        """`dot` puts orders of many rotations in their place; without it the page does."""
        text = opposed(60, 12, 3)
        count = program.ask(text, 'rotations')[1].count('\nrotation ')
        self.assertGreater(count, 14)
        with tempfile.TemporaryDirectory() as empty:
            self.assertIsNone(data_in(explore(text, path=empty)[1])['layout'])
        if shutil.which('dot'):
            self.assertEqual(len(data_in(page_of(text))['layout']['at']), count)


@unittest.skipUnless(program.PATH and BROWSER, 'no browser, or the program isn\'t built')
class Browser(unittest.TestCase):
    def passes(self, page):
        test, last, claims = tried(page)
        self.assertEqual(last, 'explorer: passed', test)
        return claims

    def fails(self, page):
        test, last, _ = tried(page)
        self.assertRegex(last, r'^explorer: \d+ failed$', test)

    def test_many_rotations(self):
        text = opposed(200, 12, 7)
        self.assertGreater(program.ask(text, 'rotations')[1].count('\nrotation '), 40)
        self.passes(page_of(text))

    def test_faults(self):
        """A page whose answers have a fault ends with `failed`: a need, what flows, and a matching of the listing."""
        page = page_of(example('five_rotations'))
        for old, new in (('needs 3 2\\n', 'needs 3 -\\n'), ('"changes":[[0,1,', '"changes":[[0,2,')):
            self.assertEqual(page.count(old), 1)
            self.fails(page.replace(old, new))
        page = page_of(example('two_levels'))
        self.assertIn('flow2 2 1 1\\n', page)
        self.fails(page.replace('flow2 2 1 1\\n', 'flow2 2 1 2\\n'))

    def test_claims(self):
        """What goes out of a page is taken by the program: a yes for each matching, and an answer for each two."""
        claims = [it for it in self.passes(page_of(example('five_rotations'))) if it[0] != 'commands']
        self.assertEqual([words for words, _ in claims], ['check'] * 9 + ['meet', 'join', 'route'])
        for words, text in claims:
            status, answer = program.ask(text, words)
            self.assertEqual(status, 0, answer)
            if words == 'check':
                self.assertEqual(answer, 'answer check\nyes\nend\n')

    def test_commands(self):
        """The two commands that a page shows for a matching make and check it, also where it isn't allowed, and for roommates."""
        for text, count in ((CONDITIONS, 9), (example('hospitals'), 2), (example('in_order'), 4), (example('four_persons'), 2)):
            shown = [it[1:] for it in self.passes(page_of(text)) if it[0] == 'commands']
            self.assertEqual(len(shown), count)
            for commands, table in shown:
                self.assertEqual(commands.count('\n'), 1)
                self.assertEqual(written_by(commands, text, table), 'answer check\nyes\nend\n', commands)

    def test_conditions(self):
        claims = self.passes(page_of(CONDITIONS))
        self.assertEqual(sum(1 for it in claims if it[0] == 'check'), 3)
        self.assertEqual(sum(1 for it in claims if 'meet' in it[1].split('\n')[0]), 6)


def add_pages():
    """A test for each page that has to pass."""
    for name in ('five_rotations', 'hospitals', 'forbidden', 'two_levels', 'odd_party', 'four_persons'):
        def test(self, name=name):
            self.passes(page_of(example(name)))
        setattr(Browser, f'test_{name}', test)


add_pages()


@unittest.skipUnless(program.PATH and shutil.which('node'), 'no node, or the program isn\'t built')
class Model(unittest.TestCase):
    def test_model(self):
        """What needs no document, in `node`: closed sets, matchings, layouts and nets."""
        for text in (example('five_rotations'), example('hospitals'), example('two_levels'), CONDITIONS, opposed(30, 8, 1)):
            with tempfile.NamedTemporaryFile('w', suffix='.html', encoding='utf-8') as file:
                file.write(page_of(text))
                file.flush()
                words = ['node', os.path.join(HERE, 'explorer_model.js'), file.name]
                done = subprocess.run(words, stdout=subprocess.PIPE, stderr=subprocess.STDOUT)
            self.assertEqual(done.stdout.decode().split('\n')[-2], 'passed', done.stdout.decode())


if __name__ == '__main__':
    unittest.main()
