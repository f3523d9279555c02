"""`from_csv` and `to_csv`: stored tables, broken ones, and names of all kinds there and back."""
import csv
import hashlib
import io
import os
import random
import re
import subprocess
import sys
import tempfile
import unittest

import brute
import inside

HERE = os.path.dirname(os.path.realpath(__file__))
EXAMPLES = os.path.join(HERE, '..', '..', 'examples')
FORM = re.compile(r'[A-Za-z0-9_][A-Za-z0-9_.-]{0,63}\Z')


# Runs a tool, and tells on standard error how much memory the process took at most, in KB.
MEASURED = """
import os, re, runpy, sys
sys.argv = sys.argv[1:]
sys.path[0] = os.path.dirname(sys.argv[0])
try:
    runpy.run_path(sys.argv[0], run_name='__main__')
finally:
    with open('/proc/self/status') as file:
        print('most', re.search(r'VmHWM:\\s*([0-9]+)', file.read()).group(1), file=sys.stderr)
"""


def text_of(*path):
    with open(os.path.join(*path), encoding='utf-8', newline='') as file:
        return file.read()


def table(text):
    """The rows of a table."""
    return list(csv.reader(io.StringIO(text, newline='')))


def written(rows, delimiter=','):
    """A table of rows."""
    out = io.StringIO()
    csv.writer(out, delimiter=delimiter).writerows(rows)
    return out.getvalue()


def answer_of(matching):
    """The answer of `solve` that has a matching."""
    return ''.join(['answer solve side=proposers\n'] + [f'pair {p} {r}\n' for p, r in matching.items()] + ['end\n'])


class Tables(unittest.TestCase):
    def setUp(self):
        self.folder = tempfile.TemporaryDirectory()
        self.addCleanup(self.folder.cleanup)

    def call(self, tool, *words, stdin=''):
        """Status, output and faults of a tool that is called in a folder of its own."""
        return inside.call(tool, *words, stdin=stdin, folder=self.folder.name)

    def put(self, name, content):
        """A file in the folder."""
        with open(os.path.join(self.folder.name, name), 'wb') as file:
            file.write(content if isinstance(content, bytes) else content.encode())

    def made(self, tables, *words):
        """The instance and the names that are made of tables."""
        files = [f'{letter}.csv' for letter, _ in zip('pr', tables)]
        for file, content in zip(files, tables):
            self.put(file, content)
        status, text, told = self.call('from_csv', '--names', 'names.csv', *words, *self.places(tables, words), *files)
        self.assertEqual(status, 0, told)
        self.told = told.splitlines()
        self.assertTrue(all(it.startswith('from_csv: ') for it in self.told) and re.search(' agents? with ', told), told)
        return text, text_of(self.folder.name, 'names.csv')

    def places(self, tables, words):
        """The word that says that each reviewer takes one, where nothing else says how many."""
        header = (tables[1] if isinstance(tables[1], str) else '').split('\n')[0].casefold() if len(tables) == 2 else 'capacity'
        return [] if 'capacity' in header and '--skip' not in words or {'--capacity',
                                                                        '--capacities'} & {*words} else ['--one-place']

    def given_back(self, answer):
        """The rows of an answer's table."""
        status, text, fault = self.call('to_csv', 'names.csv', stdin=answer)
        self.assertEqual((status, fault), (0, ''))
        return table(text)

    def refused(self, tables, *words):
        """The fault of tables; nothing is written then."""
        files = [f'{letter}.csv' for letter, _ in zip('pr', tables)]
        for file, content in zip(files, tables):
            self.put(file, content)
        status, text, fault = self.call('from_csv', '--names', 'names.csv', *words, *self.places(tables, words), *files)
        self.assertEqual((status, text, os.path.exists(os.path.join(self.folder.name, 'names.csv'))), (1, '', False), fault)
        return fault

    def test_stored(self):
        tables = [text_of(HERE, it) for it in ('students.csv', 'hosts.csv')]
        text, names = self.made(tables, '--in-cell', ';')
        self.assertEqual(text, text_of(HERE, 'students.txt'))
        self.assertEqual(names, text_of(HERE, 'names.csv'))
        # Found by hand: Zoë, Ivan and ann take the City Hospital one after another, and those who leave go down their lists.
        pairs = {'Müller, Zoë': "St. John's", 'Ólafur Ægisson': 'Дом 5', 'Иван Петров': '', 'ann': 'City Hospital'}
        stable = brute.Market(text).stable()
        best = stable[min(stable)]
        self.put('names.csv', names)
        self.assertEqual(self.given_back(answer_of(best)), [['proposer', 'reviewer'], *map(list, pairs.items())])

    def test_there_and_back(self):
        """Names with spaces, marks, quotes, line ends, accents, other scripts, of 80 letters, and like replaced ones."""
        parts = ['ann', 'Ann', 'p1', 'p2', 'r1', 'r2', 'Zoë', 'Zoe', 'Łódź', 'Дом', '学校', 'O\'Neill', 'a"b', 'x,y', 'two\nlines',
                 '-dash', '.dot', '#1', 'a:b', '[c]', 'É', 'E', 'n' * 80, '½', 'ß', '_', '😀', 'end', 'stable', '-', '0']
        for seed in range(12):
            draw = random.Random(seed)

            def names():
                one = [' '.join(draw.sample(parts, draw.choice((1, 1, 1, 2)))) for _ in range(5)]
                return list({it.casefold() if draw.random() < 0.1 else it: None for it in one})
            p, r = names(), names()
            p, r = ([it for i, it in enumerate(side) if it not in side[:i]] for side in (p, r))
            market = brute.Market('')
            market.p = {it: draw.sample(r, draw.randint(0, len(r))) for it in p}
            market.r = {it: draw.sample(p, draw.randint(0, len(p))) for it in r}
            rows = [[['name'] + list('12345')] + [[it, *row] for it, row in side.items()] for side in (market.p, market.r)]
            text, names_text = self.made([written(it) for it in rows])
            given = {(side, name): original for side, name, original in table(names_text)[1:]}
            got = brute.Market(text)
            for kind, own, other in (('proposer', got.p, 'reviewer'), ('reviewer', got.r, 'proposer')):
                self.assertTrue(all(FORM.match(it) for it in own), list(own))
                back = {given[kind, it]: [given[other, entry] for entry in row] for it, row in own.items()}
                wanted = market.p if kind == 'proposer' else market.r
                self.assertEqual(back, wanted)
                self.assertEqual(list(back), list(wanted))
                self.assertTrue(all(it == given[kind, it] for it in own if FORM.match(given[kind, it])))
                self.assertTrue(all(it in own for it in wanted if FORM.match(it)))
            stable, wanted = got.stable(), market.stable()
            rows = self.given_back(answer_of(stable[min(stable)]))
            self.assertEqual(rows[1:], [[it, wanted[min(wanted)].get(it, '')] for it in market.p])

    def test_cleaned(self):
        """What becomes of a name; only one that nobody else has, and in which no letter is lost, is kept in a cleaned form."""
        originals = {'ann': 'ann', 'Zoë Müller': 'Zoe_Muller', 'Łódź/2': 'Lodz_2', '(art)': 'art', 'C++': 'p5', 'C': 'C',
                     'a b': 'p7', 'a_b': 'a_b', 'x-y': 'x-y', 'x y': 'p10', 'x_y!': 'p11', 'Дом 5': 'p12', '!!': 'p13',
                     'p14': 'p14', 'ß' * 40: 's' * 64, 'p17': 'p17', '学': 'p17_'}
        text, _ = self.made([written([['n', '1']] + [[it] for it in originals]), 'n,1\n'])
        self.assertEqual(list(brute.Market(text).p), list(originals.values()))

    def test_same_names(self):
        """Blanks around and within, a composed and a divided accent: one name. Upper and lower case: two."""
        text, _ = self.made(['n,1,2\n Jose\u0301 , A  b\u00a0,a b\n', 'n,1\nA b,Jos\u00e9\na b\n'])
        self.assertEqual(text, 'stable 1 marriage\np Jose: A_b a_b\nr A_b: Jose\nr a_b:\nend\n')

    def test_kinds(self):
        p, persons = 'n,1,2\na,x,y\nb,y\n', 'n,1,2\na,b\nb,a,c d\nc d,b\n'
        self.assertEqual(self.made([p, 'n,Capacity,1,2\nx,2,a\ny,0,b,a\n'])[0],
                         'stable 1 hospitals\np a: x y\np b: y\nr x [2]: a\nr y [0]: b a\nend\n')
        self.assertEqual(self.made([p, 'n,1,capacity,2\nx,a,1\ny,b,1,a\n'])[0],
                         'stable 1 marriage\np a: x y\np b: y\nr x: a\nr y: b a\nend\n')
        text, _ = self.made([p, 'n,1,capacity,2\nx,a,many\ny,b,,a\n'], '--skip', 'Capacity')
        self.assertEqual(text.split('\n')[0], 'stable 1 marriage')
        text, names = self.made([persons])
        self.assertEqual(text, 'stable 1 roommates\np a: b\np b: a c_d\np c_d: b\nend\n')
        self.assertEqual(self.given_back('answer solve\npair a b\nend\n'),
                         [['person', 'partner'], ['a', 'b'], ['b', 'a'], ['c d', '']])

    def test_forms(self):
        """One instance from tables with commas, semicolons, tabs, a mark at the front, CR, blank rows, more columns."""
        wanted = 'stable 1 marriage\np a: x y\np b: y\nr x: a\nr y: b a\nend\n'
        for p, r, words in (
                ('n,1,2\na,x,y\nb,y\n', 'n,1,2\nx,a\ny,b,a', []),
                ('\ufeffn,1,2\r\na,x,y\r\n,,\r\n\r\nb,,y\r\n', 'n,1,2\r\n"x",a\r\n"y","b","a"\r\n', []),
                ('n;1\na;x,y\nb;y\n', 'n;1\nx;a\ny;b, a\n', ['--delimiter', ';', '--in-cell', ',']),
                ('n\t1\na\tx|y\nb\ty|\n', 'n\t1\nx\ta\ny\tb||a\n', ['--delimiter', 'tab', '--in-cell', '|']),
                ('n,1\na, "x, y"\n "b",y\n', 'n,1\nx,a\ny,"b,a"\n', ['--in-cell', ',']),
                ('n;1\n"a";x|y\nb;y\n', 'n\t1\nx\ta\ny\tb|a\n', ['--in-cell', '|']),
                ('n,1,2\na,x,y\nb,y\n', 'n;1;2\nx;a\ny;b;a\n', []),
                ('id,n,mail,1,2\n7,a,a@b,x,y\n8,b,c@d,y\n', 'n,1,2\nx,a\ny,b,a\n', ['--skip', 'ID', '--skip', 'mail'])):
            self.assertEqual(self.made([p, r], *words)[0], wanted, p)

    def test_broken(self):
        """Each with the lines that are named."""
        p, r = 'n,1,2\na,x,y\nb,y\n', 'n,1,2\nx,a\ny,b,a\n'
        for tables, words, faults in (
                ([p + 'a,x\n', r], [], ['p.csv:4: \'a\' has a row already, on line 2']),
                ([p + ',x\n', r], [], ['p.csv:4: this row has no name']),
                ([p + 'c,x,y,x\n', r], [], ['p.csv:4: this row has more cells']),
                ([p + 'c,x,x\n', r], [], ['p.csv:4: \'x\' stands twice']),
                ([p + 'c,z\nd,"two\nlines",z\ne,z,x\n', r], [],
                 ['p.csv:4: \'z\' isn\'t in r.csv', 'p.csv:5: \'two', 'p.csv:5: \'z\'', 'p.csv:7: \'z\'']),
                ([p, r + 'z,a,n\n'], [], ['r.csv:4: \'n\' isn\'t in p.csv; the first row of a table only names']),
                ([p, 'n,1\nhospital,a\nx\ny,hospitall\n'], [], ['r.csv:4: \'hospitall\' isn\'t in p.csv']),
                (['n,1\na,hospitl\n', 'n,1\nhospital,a\n'], [],
                 ['p.csv:2: \'hospitl\' isn\'t in r.csv; is \'hospital\' meant?']),
                (['n,1\na,x;y\n', 'n,1\nx\ny\n'], [], ['p.csv:2: \'x;y\' isn\'t in r.csv; --in-cell \';\'']),
                ([p, 'n,capacity,1\nx,2,a\ny,4097,b\nz,,a\nu,-1\nv,1.5\n'], [],
                 [f'r.csv:{i}: the capacity {it!r}' for i, it in ((3, '4097'), (4, ''), (5, '-1'), (6, '1.5'))]),
                (['n,capacity,1\na,1,x\n', r], [], ['p.csv:1: only reviewers have a capacity']),
                (['n;1;2\na;x;y\n', r], ['--delimiter', ','],
                 ['p.csv:1: this table has no column with choices; are cells divided by --delimiter \';\'?']),
                (['', r], [], ['p.csv:1: the table is empty']),
                ([p, b'n,1\nx,a\ny,\xfcber\n'], [], ['r.csv:3: the table isn\'t in UTF-8']),
                ([p.encode('utf-16')[:-1], r], [], ['p.csv:1: the table isn\'t in UTF-8']),
                ([p, 'n,1\nx,a\ny,\0\n'], [], ['r.csv:3: this is no table of text']),
                ([p, 'n,1\nx,"a\ny,b\n'], [], ['r.csv:2: the quotes of this row']),
                ([p, 'n,1\nx,a\ny,"b" c\n'], [], ['r.csv:3: the quotes of this row']),
                ([p, r], ['--skip', 'mail'], ['no table has a column \'mail\'']),
                (['n,1\na,b\nb,b\n'], [], ['p.csv:3: \'b\' lists itself']),
                (['n,1\n' + ''.join(f'a{i}\n' for i in range(4097)), r], [],
                 ['p.csv:4098: there are more than 4,096', 'r.csv:1: no choice']),
        ):
            lines = self.refused(tables, *words).splitlines()
            named = [line for line in lines if re.match(r'[pr]\.csv:|from_csv: ', line)]
            if named[0].endswith('these rows can\'t be taken'):
                named = named[1:]
            self.assertEqual(len(named), len(faults), lines)
            for line, wanted in zip(named, faults):
                self.assertTrue(line.replace('from_csv: ', '').startswith(wanted), (line, wanted))
        lines = self.refused(['n,1\n' + ''.join(f'a{i},{"z" if i < 30 else "x"}\n' for i in range(35)), 'n,1\nx,\n']).splitlines()
        self.assertEqual((len(lines), lines[-1]), (22, 'and 10 more'))

    def test_told(self):
        """One fault for a table or a column where nothing, or hardly anything, is known; and what tables may be."""
        p, r = 'n,1,2\na,x,y\nb,y\n', 'n,1,2\nx,a\ny,b,a\n'
        many = ''.join(f'a{i},x,100{i}\n' for i in range(30))
        for tables, words, fault in (
                (['n,1,code\n' + many, 'n,1\nx,a1\n'], [],
                 'p.csv:1: the column \'code\' has no name of r.csv; \'1000\' is none; --skip \'code\''),
                ([p, 'n,1,2,places\nx,a,b,2\ny,b,a,3\n'], [], '--skip \'places\' leaves the column out, or --capacity \'places\''),
                (['n,1\n' + ''.join(f'a{i},x;y\n' for i in range(30)), 'n,1\nx,\ny,\n'], [],
                 'p.csv:1: no choice of this table is in r.csv; '
                 '\'x;y\' isn\'t; --in-cell \';\' takes several'),
                (['n,1\n' + ''.join(f'a{i},{"x" if i < 2 else "x;y"}\n' for i in range(30)), 'n,1\nx,\ny,\n'], [],
                 'p.csv:1: hardly a choice'),
                ([p], [], 'p.csv:1: no choice of this table is in p.csv; \'x\' isn\'t; persons list each other, and for two sides'),
                ([p, 'n,1,2\nx,1,2\ny,2,1\n'], [], 'its cells are numbers: --ranks reviewers takes'),
                ([p, 'n,a,b\nx,1,2\ny,2,1\n'], [],
                 'r.csv:1: the first row has to name the columns, and has \'a\' of p.csv; --ranks reviewers'),
                ([p, 'x,a\ny,b,a\n'], [], 'has \'a\' of p.csv; is a row of titles missing?'),
                ([p, 'n,1\nx,a\nx,b\ny,a\ny,b\nz,a\nz,b\n'], [],
                 'r.csv:3: most names have several rows, as \'x\' here and on line 2; --long reviewers'),
                (['n,capacity,1\na,1,x\n', r], [], 'and their table is the second one: are the two tables swapped?'),
                ([p, 'n,capacity,1\nx,1,a\ny,1,b\n'], ['--one-place', '--skip', 'n'], 'p.csv:'),
                ([p, 'n,1,2\nx,a,b\ny,b,a\n'], ['--long', 'reviewers'], 'r.csv:3: the rank \'a\' is no number'),
                ([p, 'n,1,2\nx,a,2\nx,b,2\n'], ['--long', 'reviewers'],
                 'r.csv:3: \'a\' and \'b\' have the same rank on the list of one agent, and there are 1'),
                ([p, 'n,a,c\nx,2,1\ny,1,\n'], ['--ranks', 'reviewers'], 'r.csv:1: the column \'c\' isn\'t in p.csv; --skip \'c\''),
                ([p, 'n,1,capacity\nx,a,2\nx,b,1\ny,a,1\n'], ['--long', 'reviewers'],
                 'r.csv:3: \'x\' has another capacity on line 2')):
            told = self.refused(tables, *words)
            self.assertIn(fault, told)
        told = self.refused([p, r + 'x,a\nz,q\n'])
        self.assertEqual(told.count('r.csv:'), 2, 'names and choices are told at once')

    def test_places(self):
        """How many each takes has to be said."""
        for it, content in (('p.csv', 'n,1\na,x\nb,x\n'), ('r.csv', 'n,Places,1,2\nx,2,a,b\n'), ('c.csv', 'n,k\nx,2\ny,0\n'),
                            ('s.csv', 'n,1,2\nx,a,b\n')):
            self.put(it, content)

        def call(*words):
            return self.call('from_csv', '--names', 'names.csv', 'p.csv', *words)
        status, text, told = call('r.csv')
        self.assertEqual((status, text), (1, ''))
        self.assertIn('r.csv:1: no column is called `capacity`', told)
        self.assertIn('as --capacity \'Places\', and --one-place', told)
        wanted = 'stable 1 hospitals\np a: x\np b: x\nr x [2]: a b\nend\n'
        self.assertEqual(call('r.csv', '--capacity', 'places')[:2], (0, wanted))
        self.assertEqual(call('r.csv', '--skip', 'places', '--one-place')[1],
                         wanted.replace('hospitals', 'marriage').replace(' [2]', ''))
        self.assertEqual(call('s.csv', '--capacities', 'c.csv')[1], wanted.replace('end', 'r y [0]:\nend'))
        self.assertIn('there is no column \'Platz\' behind the first one; the columns are \'n\', \'Places\'',
                      call('r.csv', '--capacity', 'Platz')[2])
        self.assertIn('said twice', call('r.csv', '--capacity', 'Places', '--capacities', 'c.csv')[2])
        self.put('c.csv', 'n,k\ny,1\ny,2\nz,many\n')
        told = call('s.csv', '--capacities', 'c.csv')[2]
        for what in ('c.csv:3: \'y\' has a row already, on line 2', 'c.csv:4: the capacity \'many\'',
                     's.csv:2: \'x\' has no row in c.csv'):
            self.assertIn(what, told)

    def test_forms_of_numbers(self):
        """Tables of ranks and with a row for each choice, with points and ties, give the lists that the numbers mean."""
        p = 'n,1,2\na,x,y\nb,y\nc,y,x\n'
        wanted = 'stable 1 marriage\np a: x y\np b: y\np c: y x\nr x: c a\nr y: b c a\nend\n'
        for r, words in (
                ('n,a,b,c\nx,2,,1\ny,3,1,2\n', ['--ranks', 'reviewers']),
                ('n,a,b,c\nx,50,,50.5\ny,"0,5",9,1\n', ['--ranks', 'reviewers', '--points', 'reviewers']),
                ('n,who,rank\nx,a,2\nx,c,1\ny,a,3\ny,b,1\ny,c,2\n', ['--long', 'reviewers']),
                ('n,who\nx,c\ny,b\ny,c\nx,a\ny,a\n', ['--long', 'reviewers']),
                ('n,who,p\ny,a,-1\nx,a,0\nx,c,7\ny,b,10\ny,c,9\n', ['--long', 'reviewers', '--points', 'reviewers'])):
            lines = [it.split(' #')[0] for it in self.made([p, r], *words)[0].splitlines()]
            self.assertEqual(sorted(lines), sorted(wanted.splitlines()), r)
        lines = self.made([p, r], *words)[0].splitlines()
        self.assertEqual(sorted(lines)[-3:-1], ['r x: c a # points: c=7 a=0', 'r y: b c a # points: b=10 c=9 a=-1'])
        self.assertEqual(self.made(['n,a,b\na,,1\nb,1,\n'], '--ranks', 'both')[0], 'stable 1 roommates\np a: b\np b: a\nend\n')

    def test_lot(self):
        """Ties are broken by the order of SHA-256 sums, on all lists alike, and the lot is kept beside the names."""
        names = [f'Zoë {i}' for i in range(8)]
        p = 'n,1,2\n' + ''.join(f'{it},x,y\n' for it in names)
        r = 'n,who,points\n' + ''.join(f'{s},{it},{5 if i else 9}\n' for s in 'yx' for i, it in enumerate(names))
        text, table_text = self.made([p, r], '--long', 'reviewers', '--points', 'reviewers', '--lot', '2027')
        self.assertIn('12 ties were broken by the lot 2027', self.told[-1])

        def order(number):
            return sorted(names, key=lambda it: hashlib.sha256(f'{number} {it}'.encode()).hexdigest())
        wanted = [names[0]] + [it for it in order(2027) if it != names[0]]
        market = brute.Market(text)
        rows = table(table_text)
        given = {row[1]: row[2] for row in rows[1:]}
        self.assertEqual([[given[it] for it in row] for row in market.r.values()], [wanted, wanted])
        self.assertEqual(rows[0], ['side', 'name', 'original', 'lot 2027'])
        self.assertEqual([row[3] for row in rows[1:9]], [str(order(2027).index(it) + 1) for it in names])
        self.assertEqual(self.given_back('answer solve side=proposers\npair Zoe_0 x\nend\n')[1], ['Zoë 0', 'x'])
        self.assertNotEqual(self.made([p, r], '--long', 'reviewers', '--points', 'reviewers', '--lot', '2')[0], text)

    def test_conditions(self):
        """Tables of weights and of forced and forbidden pairs."""
        p, r = 'n,1,2\nä b,x,y\nb,y\n', 'n,1,2\nx,ä b\ny,b,ä b\n'
        self.put('w.csv', 'who;where;miles\nä b;y;7\nb;y;-3\nb;x;1\n')
        self.put('f.csv', 'who,where\nb,y\n')
        text, _ = self.made([p, r], '--weights', 'w.csv', '--forced', 'f.csv', '--forbidden', 'f.csv')
        self.assertEqual(text, 'stable 1 marriage\np a_b: x y\np b: y\nr x: a_b\nr y: b a_b\nweight a_b y 7\nweight b y -3\n'
                         'weight b x 1\n'
                         'force b y\nforbid b y\nend\n')
        self.assertEqual(self.told[-3], 'from_csv: 1 `weight` lines are of pairs that don\'t list each other, and have no effect')
        self.assertIn('`solve` doesn\'t look at them; --placed gives', self.told[-2])
        self.assertIn('`solve` doesn\'t look at them; --strike takes', self.told[-1])
        os.remove(os.path.join(self.folder.name, 'names.csv'))
        self.put('w.csv', 'who,where,miles\nx,b,1\nb,y,1.5\nb,z,1\nb,y,2\nb,y,2\n')
        told = self.refused([p, r], '--weights', 'w.csv')
        for what in ('w.csv:2: \'x\' isn\'t in p.csv; the proposer stands first', 'w.csv:3: the weight \'1.5\' is no whole number',
                     'w.csv:4: \'z\' isn\'t in r.csv', 'w.csv:6: this pair has a row already, on line 5'):
            self.assertIn(what, told)

    def test_then(self):
        """Several columns with numbers, first one first, the most or the least best."""
        p = 'n,1\n' + ''.join(f'{it},x\n' for it in 'abcdef')
        r = 'n,who,points,sibling,km\nx,a,5,0,7\nx,b,5,1,9\nx,c,9,0,9\nx,d,5,1,"2,5"\nx,e,5,0,7\nx,f,5,1,3\n'
        # c has most points; d, f and b have a sibling, d the shortest way; a and e are alike in all, and the lot takes them.
        words = ['--long', 'reviewers', '--points', 'reviewers', '--then', 'Sibling', '--then-least', 'km', '--lot', '1']
        text = self.made([p, r], *words)[0]
        last = ' '.join(sorted('ae', key=lambda it: hashlib.sha256(f'1 {it}'.encode()).hexdigest()))
        self.assertIn(f'\nr x: c d f b {last} # points/sibling/km: c=9/0/9 d=5/1/2,5 f=5/1/3 b=5/1/9 ', text)
        self.assertIn('1 tie was broken by the lot 1', self.told[-1])
        os.remove(os.path.join(self.folder.name, 'names.csv'))
        for extra, fault in ((['--then', 'metres', '--skip', 'km', '--skip', 'sibling'],
                              'no table with --long and --points has a further column \'metres\''),
                             (['--skip', 'km', '--skip', 'points', '--then', 'sibling'], 'no column with points, which come first'),
                             (['--skip', 'points'], '--skip leaves others out, as \'km\', and --then')):
            self.assertIn(fault, self.refused([p, r], *words[:4], *extra))

    def test_lot_for_each_list(self):
        """Each list has a lot of its own, drawn by the sum of the number, the owner and the name."""
        names = [f'Zoë {i}' for i in range(8)]
        p = 'n,1,2\n' + ''.join(f'{it},x y,z\n' for it in names)
        r = 'n,who,points\n' + ''.join(f'{s},{it},5\n' for s in ('x y', 'z') for it in names)
        text, table_text = self.made([p, r], '--long', 'reviewers', '--points', 'reviewers', '--lot', '7', '--lot-by', 'school')
        rows = table(table_text)
        self.assertEqual((rows[0][3], rows[1][3]), ('lot 7 for each list', ''))
        given = {row[1]: row[2] for row in rows[1:]}
        for own, listed in brute.Market(text).r.items():
            self.assertEqual([given[it] for it in listed],
                             sorted(names, key=lambda it: hashlib.sha256(f'7 {given[own]} {it}'.encode()).hexdigest()))
        self.assertEqual(self.call('from_csv', '--names', 'n', '--lot-by', 'school', '--one-place', 'p.csv', 'r.csv')[0], 2)

    def test_placed(self):
        """Places that are given away beforehand, and pairs that are struck."""
        p, r = 'n,1,2\nAnn,x,y\nBo,x\nCy,y,x\nDi,\n', 'n,capacity,1,2,3\nx,2,Bo,Ann,Cy\ny,1,Ann,Cy\n'
        self.put('s.csv', 'n,where\nBo,x\nDi,y\n')
        self.put('k.csv', 'n,where\nAnn,y\nBo,y\nCy,y\n')
        self.put('w.csv', 'n,where,w\nBo,x,7\nAnn,x,2\n')
        text, names = self.made([p, r], '--placed', 's.csv', '--strike', 'k.csv', '--weights', 'w.csv', '--log', 'log.txt')
        self.assertEqual(text, 'stable 1 hospitals\np Ann: x\np Cy: x\nr x [1]: Ann Cy\nr y [0]:\nweight Ann x 2\nend\n')
        self.assertEqual(names, 'side,name,original\nproposer,Ann,Ann\nplaced,x,Bo\nproposer,Cy,Cy\nplaced,y,Di\nreviewer,x,x\n'
                         'reviewer,y,y\n'
                         'struck,y,Ann\nstruck,y,Cy\n')
        self.assertIn('from_csv: 2 places of s.csv are given away beforehand, and 3 rows and choices about them are passed over',
                      self.told)
        self.assertIn('from_csv: 2 pairs are struck', self.told)
        self.assertEqual(text_of(self.folder.name, 'log.txt'), 'k.csv:3: \'Bo\' was placed beforehand: passed over\n'
                         'r.csv:2: \'Bo\' was placed beforehand: passed over\nw.csv:2: \'Bo\' was placed beforehand: passed over\n'
                         'r.csv:3: \'y\' has no choices\n')
        self.assertEqual(self.given_back('answer solve side=proposers\npair Ann x\nend\n')[1:],
                         [['Ann', 'x'], ['Bo', 'x'], ['Cy', ''], ['Di', 'y']])
        self.put('i.txt', text)
        self.assertEqual(self.call('to_csv', 'names.csv', '--instance', 'i.txt',
                                   stdin='answer list limit=100\nvector 1,2\nend\n')[1],
                         'proposer,matching 1\nAnn,x\nBo,x\nCy,\nDi,y\n')
        os.remove(os.path.join(self.folder.name, 'names.csv'))
        for rows, faults in (('Bo,x\nbo,x\nBo,y\n',
                              ['s.csv:4: \'Bo\' has a row already, on line 2',
                               's.csv:3: \'bo\' isn\'t in p.csv; is \'Bo\' meant?']),
                             ('Eve,x\nAnn,\n,x\n', ['s.csv:3: this row has no reviewer', 's.csv:4: this row has no name',
                                                    's.csv:2: \'Eve\' isn\'t in p.csv; a row there without choices is enough']),
                             ('Bo,z\n', ['s.csv:2: \'z\' isn\'t in r.csv']),
                             ('Bo,y\nAnn,y\n', ['s.csv:3: \'y\' has 1 place, and 2 rows here'])):
            self.put('s.csv', 'n,where\n' + rows)
            self.assertEqual(self.refused([p, r], '--placed', 's.csv').splitlines()[1:], faults)
        self.put('k.csv', 'n,where\nx,Ann\nAnn,zz\nAnn,x\nAnn,x\n')
        self.assertEqual(self.refused([p, r], '--strike', 'k.csv').splitlines()[1:],
                         ['k.csv:2: \'x\' isn\'t in p.csv; the proposer stands first, the reviewer second',
                          'k.csv:3: \'zz\' isn\'t in r.csv',
                          'k.csv:5: this pair has a row already, on line 4'])
        self.put('k.csv', 'n,where\nDi,x\n')
        self.made([p, r], '--strike', 'k.csv')
        self.assertIn('from_csv: 1 pair is struck; 1 of them stands on no list', self.told)
        self.assertEqual(self.call('from_csv', '--names', 'n', '--placed', 's.csv', 'p.csv')[0], 2)

    def test_encodings(self):
        """UTF-8 with and without its mark, other encodings where they are named, and `sep=` in a first line."""
        p, r = 'n;1\nZoë;Süd\n', 'n;1\nSüd;Zoë\n'
        wanted = 'stable 1 marriage\np Zoe: Sud\nr Sud: Zoe\nend\n'
        for one, other, words in ((p.encode('cp1252'), r.encode('utf-8-sig'), ['cp1252']),
                                  (p.encode('cp850'), r.encode('cp850'), ['cp850']),
                                  (p.encode('utf-16'), r.encode('cp1252'), ['cp1252']),
                                  (('sep=;\r\n' + p).encode(), r.encode(), ['cp1252']),
                                  (('"sep=;"\n' + p).encode('cp1252'), ('sep=|\n' + r.replace(';', '|')).encode('utf-8-sig'),
                                   ['cp1252'])):
            self.assertEqual(self.made([one, other], '--encoding', *words)[0], wanted, one)
        self.assertTrue(any(it.endswith('p.csv is read as cp1252') for it in self.told), self.told)
        os.remove(os.path.join(self.folder.name, 'names.csv'))
        for one, words, fault in ((p.encode('cp1252'), [], 'p.csv:2: the table isn\'t in UTF-8; --encoding cp1252 reads it'),
                                  ('n;1\nKühn;x\n'.encode('cp850'), [],
                                   'p.csv:2: the table isn\'t in UTF-8; --encoding cp850 reads it'),
                                  ('n;1\nKühn;x\n'.encode('cp850'), ['--encoding', 'cp1252'], 'isn\'t in cp1252 either')):
            self.assertIn(fault, self.refused([one, r], *words))
        self.assertIn('p.csv:3: \'Nord\' isn\'t in', self.refused(['sep=;\nn;1\nZoë;Nord\nBo;Süd\n', r]))
        self.assertEqual(self.call('from_csv', '--names', 'n', '--encoding', 'latin-nine', 'p.csv')[0], 2)

    def test_column_of_places(self):
        """A table of capacities shows its column by its head, or by being the only one with numbers; else it has to be named."""
        p, r = 'n,1\na,x\nb,y\n', 'n,1\nx,a\ny,b\n'
        wanted = 'stable 1 hospitals\np a: x\np b: y\nr x [2]: a\nr y [3]: b\nend\n'
        for rows, words in (('n,Ort,Plätze\nx,Köln,2\ny,Bonn,3\n', []), ('n,PLZ,Capacity\nx,501,2\ny,502,3\n', []),
                            ('n,PLZ,Plätze\nx,501,2\ny,502,3\n', ['--capacity', 'plätze']),
                            ('Nr,n,Plätze\n1,x,2\n2,y,3\n', ['--skip', 'nr'])):
            self.put('c.csv', rows)
            self.assertEqual(self.made([p, r], '--capacities', 'c.csv', *words)[0], wanted, rows)
        os.remove(os.path.join(self.folder.name, 'names.csv'))
        for rows, words, fault in (('n,PLZ,Plätze\nx,501,2\ny,502,3\n', [],
                                    'c.csv:1: the columns \'PLZ\', \'Plätze\' have numbers; --capacity COLUMN'),
                                   ('n,Ort\nx,Köln\ny,Bonn\n', [],
                                    'c.csv:1: no column has numbers; the columns are \'n\', \'Ort\'; --capacity'),
                                   ('n,Plätze\nx,2\ny,3\n', ['--capacity', 'n'],
                                    'c.csv:1: there is no column \'n\' behind the first one'),
                                   ('n,Plätze\nx,2\ny,ca. 30\n', [], 'c.csv:3: the capacity \'ca. 30\' is no number')):
            self.put('c.csv', rows)
            self.assertIn(fault, self.refused([p, r], '--capacities', 'c.csv', *words))

    def test_sums(self):
        """A last row that may be one of sums is warned of, and --skip-row passes it over in each table."""
        p, r = 'n,1\na,x\nb,\nSumme,\n', 'n,1\nx,a\n'
        self.put('c.csv', 'n,k\nx,2\nSumme,2\n')
        text = self.made([p, r], '--capacities', 'c.csv')[0]
        self.assertIn('\np Summe:\n', text)
        for it in ('p.csv:4', 'c.csv:3'):
            self.assertTrue(any(line.startswith(f'from_csv: {it}: the last name, \'Summe\', has no choices and is nobody\'s choice')
                                for line in self.told))
        self.assertIn('from_csv: 2 agents of p.csv have no choices', self.told)
        text = self.made([p, r], '--capacities', 'c.csv', '--skip-row', 'Summe', '--log', 'log.txt')[0]
        self.assertEqual(text, 'stable 1 hospitals\np a: x\np b:\nr x [2]: a\nend\n')
        self.assertEqual(text_of(self.folder.name, 'log.txt'),
                         'p.csv:4: \'Summe\' is passed over, by --skip-row\nc.csv:3: \'Summe\' is passed over, '
                         'by --skip-row\np.csv:3: \'b\' has no choices\n')
        # With a letter of a person who is somebody's choice there is no warning.
        self.made(['n,1\na,x\nb,\n', 'n,1,2\nx,a,b\n'])
        self.assertFalse(any('sums' in line for line in self.told))
        os.remove(os.path.join(self.folder.name, 'names.csv'))
        self.assertIn('no table has a row of \'Sum\'', self.refused([p, r], '--skip-row', 'Sum'))

    def test_log(self):
        """Each choice that isn't returned is told with its line."""
        self.made(['n,1,2\na,x,y\nb,y,x\n', 'n,1,2\nx,a\ny,b\nz,b\n'], '--log', 'log.txt')
        self.assertEqual(text_of(self.folder.name, 'log.txt'), 'p.csv:2: \'a\' lists \'y\', who doesn\'t list it back\n'
                         'p.csv:3: \'b\' lists \'x\', who doesn\'t list it back\nr.csv:4: \'z\' lists \'b\', who doesn\'t list '
                         'it back\n')

    def test_long_row(self):
        """A row with too many cells is one fault, also where others name the agent; names are found in other case of letters."""
        told = self.refused(['n,1\na,x,note\nb,X\nc,y1\n', 'n,1,2\nx,a,b\ny2,c\n'])
        self.assertEqual(told.splitlines()[1:], ['p.csv:2: this row has more cells than the first one, which has 2',
                                                 'p.csv:3: \'X\' isn\'t in r.csv; '
                                                 'is \'x\' meant?', 'p.csv:4: \'y1\' isn\'t in r.csv'])
        told = self.refused(['n,1\na,x\n', 'n,who\nx,b\nx,a\ny,b\nz,b\n'], '--long', 'reviewers')
        self.assertEqual(told.splitlines()[1:], ['r.csv:2: \'b\' isn\'t in p.csv; 2 more rows have it'])
        told = self.refused(['n,1\n101,x\n', 'n,1\nx,102\n'])
        self.assertEqual(told.splitlines()[1:], ['r.csv:2: \'102\' isn\'t in p.csv'])

    def test_excel(self):
        """Tables for Excel, and those of a survey."""
        self.put('names.csv', 'side;name;original\nproposer;a;Änne; A.\n'.replace('Änne; A.', '"Änne; A."') + 'reviewer;x;Süd\n')
        answer = 'answer solve side=proposers\npair a x\nend\n'
        for words, wanted in ((['--excel', 'de'], '\ufeffproposer;reviewer\r\n"Änne; A.";Süd\r\n'),
                              (['--excel', 'en'], '\ufeffproposer,reviewer\r\nÄnne; A.,Süd\r\n'),
                              (['--delimiter', 'tab'], 'proposer\treviewer\nÄnne; A.\tSüd\n'),
                              (['--bom'], '\ufeffproposer,reviewer\nÄnne; A.,Süd\n')):
            self.assertEqual(self.call('to_csv', 'names.csv', *words, stdin=answer)[1], wanted)
        survey = 'answer survey limit=2\nlisted 2\ntally 1 2\ntally 2 18\ntally 3 2 2 3\ntally 4 3 4 0 1\nmore 1\n'
        self.assertEqual(table(self.call('to_csv', 'names.csv', stdin=survey)[1]),
                         [['figure', 'count', '%'], ['matchings', '2', ''], ['matchings behind these', 'not looked at', ''],
                          ['sum of the proposers\' ranks', '18', ''], ['least regret', '2', ''], ['greatest regret', '3', ''],
                          ['rank 1', '3', '37.5'],
                          ['rank 2', '4', '50.0'], ['rank 3', '0', '0.0'], ['a later rank', '1', '12.5']])
        self.assertIn('a later rank;1;12,5\r\n', self.call('to_csv', 'names.csv', '--excel', 'de', stdin=survey)[1])

    def test_counts(self):
        """Choices that aren't returned are counted, and it is told where the program will refuse the seats."""
        self.made(['n,1,2\na,x,y\nb,y,x\n', 'n,1,2\nx,a\ny,b\n'])
        self.assertEqual(self.told, ['from_csv: p.csv has 2 agents with 4 choices, r.csv has 2 agents with 2 choices and 2 places',
                                     'from_csv: 2 choices of p.csv aren\'t returned, and have no effect'])
        self.made(['n;1\na;x\n', 'n,1,2\nx,a\ny,a\n'])
        self.assertEqual(self.told[1:], ['from_csv: cells of p.csv are divided by \';\'',
                                         'from_csv: 1 choice of r.csv isn\'t returned, and has no effect'])
        names = [f'a{i}' for i in range(1025)]
        p, r = 'n,1\n' + ''.join(f'{it},x\n' for it in names), f'n,capacity,1\nx,1025,{";".join(names)}\n'
        self.made([p, r], '--in-cell', ';')
        self.assertIn('come to 1,050,625, and with more than 1,048,576', self.told[-1])

    def test_entries(self):
        """One choice too many."""
        header, names = [['n'] + [str(i) for i in range(1024)]], [f'x{i}' for i in range(1024)]
        rows = [[f'y{i}'] + names for i in range(512)]
        p, r = written(header + rows), written([['n', '1']] + [[it] for it in names])
        self.assertEqual(self.made([p, r])[0].count('\n'), 1538)
        os.remove(os.path.join(self.folder.name, 'names.csv'))
        fault = self.refused([p, r.replace('x7', 'x7,y0', 1)])
        self.assertIn('more than 524,288 choices', fault)

    def test_words(self):
        self.put('p.csv', 'n,1\na,b\nb,a\n')
        for words in ([], ['p.csv'], ['--names', 'p.csv', 'p.csv'], ['--names', 'n', 'p.csv', 'p.csv'], ['--name', 'n', 'p.csv'],
                      ['--names', 'n', '--in-cell', 'ab', 'p.csv'], ['--names', 'n', '--delimiter', 'a', 'p.csv']):
            self.assertEqual(self.call('from_csv', *words)[0], 2, words)
        self.assertEqual(text_of(self.folder.name, 'p.csv'), 'n,1\na,b\nb,a\n')
        status, _, fault = self.call('from_csv', '--names', 'n', 'q.csv')
        self.assertEqual((status, fault), (1, 'from_csv: q.csv: No such file or directory\n'))
        self.assertEqual(self.call('to_csv')[0], 2)
        self.assertEqual(self.call('to_csv', '-')[0], 2)

    def names_of(self, name):
        """A table of names for an example: each name with its first letter doubled and a comma."""
        market = brute.Market(text_of(EXAMPLES, name + '.txt'))
        rows = [[kind, it, f'{it[0]}{it}, x'] for kind, side in (('proposer', market.p), ('reviewer', market.r)) for it in side]
        self.put('names.csv', written([['side', 'name', 'original']] + rows))

    def test_answers(self):
        """The stored answers of the program to an example, whose tables were written by hand."""
        for name, wanted in (
                ('both_sides.solve', 'proposer,reviewer/aann,aart/bben,bbiology/ccem,ddrama/ddan,cchemistry/eeve,'),
                ('both_sides.solve_reviewers', 'proposer,reviewer/aann,bbiology/bben,aart/ccem,ddrama/ddan,cchemistry/eeve,'),
                ('both_sides.reduced', 'side,name,first,last,1,2/'
                 'proposer,aann,aart,bbiology,aart,bbiology/proposer,bben,bbiology,aart,bbiology,aart/'
                 'proposer,ccem,ddrama,ddrama,ddrama,/proposer,ddan,cchemistry,cchemistry,cchemistry,/proposer,eeve,,,,/'
                 'reviewer,aart,aann,bben,bben,aann/reviewer,bbiology,bben,aann,aann,bben/reviewer,cchemistry,ddan,ddan,ddan,/'
                 'reviewer,ddrama,ccem,ccem,ccem,'),
                ('three_cycle.rotations', 'rotation,proposer,from,to,needs/1,mm1,aa,bb,/1,mm2,bb,cc,/1,mm3,cc,aa,/'
                 '2,mm1,bb,cc,1/2,mm2,cc,aa,1/2,mm3,aa,bb,1'),
                ('hospitals.solve', 'proposer,reviewer/aann,ccity/bben,ccity/ccem,nnorth/ddan,/eeve,wwest'),
                ('hospitals.reduced', 'side,name,first,last,1,2/'
                 'proposer,aann,ccity-1,ccity-2,ccity-1,ccity-2/proposer,bben,ccity-2,nnorth-1,ccity-2,nnorth-1/'
                 'proposer,ccem,nnorth-1,ccity-1,nnorth-1,ccity-1/proposer,ddan,,,,/proposer,eeve,wwest-1,wwest-1,wwest-1,/'
                 'reviewer,ccity-1,aann,ccem,ccem,aann/reviewer,ccity-2,bben,aann,aann,bben/'
                 'reviewer,nnorth-1,ccem,bben,bben,ccem/reviewer,wwest-1,eeve,eeve,eeve,'),
                ('hospitals.rotations', 'rotation,proposer,from,to,needs/1,aann,ccity-1,ccity-2,/1,bben,ccity-2,nnorth-1,/'
                 '1,ccem,nnorth-1,ccity-1,')):
            self.names_of(name.split('.')[0])
            status, text, fault = self.call('to_csv', 'names.csv', os.path.join(EXAMPLES, name))
            self.assertEqual((status, fault), (0, ''))
            self.assertEqual([','.join(it.replace(', x', '').replace('/', '-') for it in row) for row in table(text)],
                             wanted.split('/'))
            self.assertTrue(all(', x' in it or it in ('', '1', '2', 'proposer', 'reviewer') for row in table(text)[1:]
                                for it in row))

    def test_seats(self):
        """Answers with seats and of `pairs`, in the forms of hospitals."""
        self.put('names.csv', 'side,name,original\nproposer,r0,"Ann, A."\nproposer,r1,r1\nreviewer,h,St. H\nreviewer,k,k\n')
        answer = 'answer reduced\nfirst r0 h/1\nlast r0 h/1\nproposer r0 h/1 h/2\nreviewer h/1 r0\nreviewer h/2 -\nend\n'
        self.assertEqual(self.call('to_csv', 'names.csv', stdin=answer)[1],
                         'side,name,first,last,1,2\nproposer,"Ann, A.",St. H/1,St. H/1,St. H/1,St. H/2\n'
                         'reviewer,St. H/1,"Ann, A.","Ann, A.","Ann, A.",\nreviewer,St. H/2,,,,\n')
        self.assertEqual(self.call('to_csv', 'names.csv', stdin='answer pairs\nall r0 h\nsome r1 k\nend\n')[1],
                         'proposer,reviewer,in\n"Ann, A.",St. H,all\nr1,k,some\n')

    def test_listed(self):
        """An answer of `list` as a table, and a byte order mark."""
        self.names_of('five_rotations')
        words = ['names.csv', os.path.join(EXAMPLES, 'five_rotations.list'), '--instance',
                 os.path.join(EXAMPLES, 'five_rotations.txt')]
        status, text, fault = self.call('to_csv', *words)
        self.assertEqual((status, fault), (0, ''))
        rows = table(text)
        self.assertEqual(rows[0], ['proposer', *(f'matching {i}' for i in range(1, 10))])
        stable = brute.Market(text_of(EXAMPLES, 'five_rotations.txt')).stable()
        columns = [{row[0][1:-3]: row[i][1:-3] for row in rows[1:]} for i in range(1, 10)]
        self.assertEqual(columns, [stable[vector] for vector in sorted(stable)])
        self.assertEqual(self.call('to_csv', '--bom', *words)[1], '\ufeff' + text)
        self.names_of('unmatched')
        self.put('i.txt', text_of(EXAMPLES, 'unmatched.txt'))
        text = self.call('to_csv', 'names.csv', '--instance', 'i.txt', stdin='answer list limit=100\nvector 2,2,1\nend\n')[1]
        self.assertEqual(table(text)[2], ['bben, x', ''])
        for answer, words, status, what in (('vector 2,2', ['--instance', 'i.txt'], 1, ':2: this can\'t be an answer to i.txt'),
                                            ('vector 2,2,9', ['--instance', 'i.txt'], 1, ':2: this can\'t'),
                                            ('vector 2,,1', ['--instance', 'i.txt'], 1, ':2: no line of an answer'),
                                            ('vector 2,2,1', [], 2, '--instance INSTANCE says whose')):
            got = self.call('to_csv', 'names.csv', *words, stdin=f'answer list limit=100\n{answer}\nend\n')
            self.assertEqual(got[:2], (status, ''))
            self.assertIn(what, got[2])

    def test_roommates(self):
        """Answers of `list` and `rest` for roommates."""
        self.put('names.csv', 'side,name,original\nperson,ann,"Ann, A."\nperson,ben,Ben\nperson,cem,Cem\nperson,dan,Dan\n')
        rooms = os.path.join(EXAMPLES, 'four_persons')
        self.assertEqual(self.call('to_csv', 'names.csv', rooms + '.list', '--instance', rooms + '.txt'),
                         (0, 'person,matching 1,matching 2\n"Ann, A.",Ben,Dan\nBen,"Ann, A.",Cem\nCem,Dan,Ben\nDan,Cem,"Ann, A."\n',
                          ''))
        told = self.call('to_csv', 'names.csv', '--instance', rooms + '.txt', stdin='answer list limit=100\nvector 1,2,1\nend\n')[2]
        self.assertIn('no vector of its persons\' ranks', told)
        self.assertEqual(self.call('to_csv', 'names.csv', stdin='answer rest\nout ann\npair ben cem\nend\n'),
                         (0, 'person,partner,out\n"Ann, A.",,out\nBen,Cem,\nCem,Ben,\nDan,,\n', ''))

    def measured(self, tool, *words):
        """What a tool writes, and how much memory its own process takes."""
        done = subprocess.run([sys.executable, '-B', '-c', MEASURED, os.path.join(inside.TOOLS, tool), *words],
                              cwd=self.folder.name,
                              stdout=subprocess.PIPE, stderr=subprocess.PIPE)
        self.assertEqual(done.returncode, 0, done.stderr)
        return done.stdout.decode(), int(done.stderr.split()[-1])

    @unittest.skipUnless(os.path.exists('/proc/self/status'), 'the system doesn\'t tell how much memory a process takes')
    def test_room(self):
        """3,000 pupils with 20 choices and 120 schools that rank all of them: 40 MB from tables to instance, and no more back."""
        draw = random.Random(1)
        schools = {f'School {i}': [] for i in range(120)}
        pupils = {f'Pupil {i}': draw.sample(list(schools), 20) for i in range(3000)}
        for name, row in pupils.items():
            for it in row:
                schools[it].append(name)
        self.put('p.csv', written([['n', *range(20)]] + [[name, *row] for name, row in pupils.items()]))
        self.put('r.csv', written([['n', 'capacity', *range(max(map(len, schools.values())))]] +
                                  [[name, 25, *draw.sample(row, len(row))] for name, row in schools.items()]))
        text, most = self.measured('from_csv', '--names', 'names.csv', 'p.csv', 'r.csv')
        self.assertEqual(text.count('\n'), 3122)
        self.assertLess(most, 40_000)
        self.put('answer', 'answer solve side=proposers\n' + ''.join(f'pair Pupil_{i} School_{i // 25}\n' for i in range(3000)) +
                 'end\n')
        placed, most = self.measured('to_csv', 'names.csv', 'answer')
        self.assertEqual((placed.count('\n'), placed.splitlines()[-1]), (3001, 'Pupil 2999,School 119'))
        self.assertLess(most, 40_000)

    def test_wrong_answers(self):
        right = text_of(EXAMPLES, 'both_sides.solve')
        self.names_of('both_sides')
        for old, new, what in (
                ('answer', 'refused BadLine 3\n', 'refused the instance: refused BadLine 3'),
                ('answer', 'refused NotStable 9 left blocks a b\n', 'refused a given matching: refused NotStable 9'),
                ('answer', 'usage 2\n', 'faulty word: usage 2'), ('end\n', '', 'standard input:5: the answer isn\'t whole'),
                ('solve side=proposers', 'route', 'have no table'),
                ('solve side=proposers', 'survey limit=100', 'hasn\'t its four tallies'),
                ('pair ann art', 'none', 'no such matching'),
                ('pair ann art', 'pair zoe art', 'standard input:2: names.csv has no proposer zoe'),
                ('pair ann art', 'pair ann zoo', 'standard input:2: names.csv has no reviewer zoo'),
                ('pair ben', 'pair ann', 'standard input:3: ann stands in two pairs'),
                ('pair ann art', 'pair  ann art', 'standard input:2: no line'),
                ('pair ann art', 'pair ann', 'standard input:2: no line'), ('pair', 'paar', 'standard input:2: no line')):
            status, text, fault = self.call('to_csv', 'names.csv', stdin=right.replace(old, new, 1))
            self.assertEqual((status, text), (1, ''))
            self.assertIn(what, fault)
        self.assertEqual(self.call('to_csv', 'names.csv', stdin='')[0], 1)
        for names, what in (('a,b\n', 'names.csv:1: no table of names'),
                            ('side,name,original\nx,a,b\n', 'names.csv:2: this row'),
                            ('side,name,original\nproposer,a b,b\n', 'names.csv:2: this row'),
                            ('side,name,original\nproposer,a,b\nproposer,a,c\n', 'names.csv:3: a has a row already'),
                            ('side,name,original\nproposer,a,b\nperson,a,c\n', 'names.csv:1: it has persons beside')):
            self.put('names.csv', names)
            status, text, fault = self.call('to_csv', 'names.csv', stdin=right)
            self.assertEqual((status, text), (1, ''))
            self.assertIn(what, fault)


if __name__ == '__main__':
    unittest.main()
