"""`claim` and `explain`: tables of pairs as answers, and what refusals, faulty words and verdicts are told as."""
import os
import random
import re
import tempfile
import unittest

import brute
import inside
import program
from shared.module import module
from shared.reasons import COMMANDS, HINTS

REASONS, VERDICTS = module().REASONS, module().VERDICTS

TOP = os.path.join(inside.TOOLS, '..')

NAMES = ('side,name,original\nproposer,ann,"Ann, A."\nproposer,ben,Ben\nproposer,cem,Cem\nproposer,dan,Dan\nproposer,eve,Éve\n'
         'reviewer,city,City Hospital\nreviewer,north,North\nreviewer,south,South\nreviewer,west,West\n')
ROOMS = 'stable 1 roommates\np a: b c d\np b: c a d\np c: a b d\np d: a b c\nend\n'


def text_of(*path):
    with open(os.path.join(*path), encoding='utf-8') as file:
        return file.read()


class Case(unittest.TestCase):
    def setUp(self):
        self.folder = tempfile.TemporaryDirectory()
        self.addCleanup(self.folder.cleanup)
        self.hospitals = text_of(TOP, 'examples', 'hospitals.txt')

    def put(self, name, text):
        """A file in the folder."""
        with open(os.path.join(self.folder.name, name), 'w', encoding='latin-1' if name == 'raw' else 'utf-8', newline='') as file:
            file.write(text)

    def call(self, tool, *words, stdin=''):
        """Status, output and faults of a tool that is called in a folder of its own."""
        return inside.call(tool, *words, stdin=stdin, folder=self.folder.name)


class Claim(Case):
    def claimed(self, text, table, *words):
        """The lines behind the instance, and what is told."""
        self.put('i.txt', text)
        self.put('names.csv', NAMES)
        status, got, told = self.call('claim', 'i.txt', *words, stdin=table)
        self.assertEqual(status, 0, told)
        self.assertTrue(got.startswith(text), got)
        return got[len(text):].split('\n'), told

    def refused(self, text, table, *words, status=1):
        """What a table is refused with."""
        self.put('i.txt', text)
        self.put('names.csv', NAMES)
        got, written, told = self.call('claim', 'i.txt', *words, stdin=table)
        self.assertEqual((got, written), (status, ''), told)
        return told

    def test_claims(self):
        table = 'who,where,note\n"Ann, A.",City Hospital,x\n\nBen, city hospital ,\nCem,North\nDan,\nÉve,West\n'.replace('city h',
                                                                                                                         'City h')
        table = table.replace('City hospital', 'City  Hospital')
        pairs = ['ann city', 'ben city', 'cem north', 'eve west']
        for words, head, keyword in (([], ['answer solve side=proposers'], 'pair'),
                                     (['--as', 'reviewers'], ['answer solve side=reviewers'], 'pair'),
                                     (['--as', 'stable'], ['answer regret', 'regret 3'], 'pair')):
            lines, told = self.claimed(self.hospitals, table, '--names', 'names.csv', *words)
            self.assertEqual((lines, told), (head + [f'{keyword} {it}' for it in pairs] + ['end', ''], ''))
        lines, _ = self.claimed(self.hospitals, table.replace(',', ';').replace('Ann;', 'Ann,'), '--names', 'names.csv', '--as',
                                'meet')
        self.assertEqual(lines, [f'{it} {pair}' for it in ('left', 'right') for pair in pairs] + ['end', ''])

    def test_without_rows(self):
        lines, told = self.claimed(self.hospitals, 'p,r\ncem,north\n')
        self.assertEqual(lines, ['answer solve side=proposers', 'pair cem north', 'end', ''])
        self.assertEqual(told, 'claim: standard input has no row of ann, ben, dan, eve, who count as without a partner\n')
        told = self.claimed(self.hospitals, 'p,r\nCem,North\n', '--names', 'names.csv')[1]
        self.assertIn('no row of Ann, A., Ben, Dan, Éve, who', told)
        text = 'stable 1 marriage\n' + ''.join(f'p p{i}:\n' for i in range(8)) + 'end'
        self.put('i.txt', text)
        status, got, told = self.call('claim', 'i.txt', '--as', 'stable', stdin='p,r\np0,\n')
        self.assertEqual((status, got), (0, text + '\nanswer regret\nregret 0\nend\n'))
        self.assertIn('p1, p2, p3, p4, p5 and 2 more, who', told)

    def test_rooms(self):
        for table in ('a,b\nb,a\nc,d\nd,c\n', 'd,c\na,b\n'):
            lines, told = self.claimed(ROOMS, 'person,partner\n' + table)
            self.assertEqual((lines, told), (['answer solve', 'pair a b', 'pair c d', 'end', ''], ''))
        told = self.refused(ROOMS, 'person,partner\na,b\nb,c\nc,b\n')
        self.assertIn('standard input:2: here a is with b, and on line 3 b is with c', told)
        self.assertIn('on line 3 b is with nobody', self.refused(ROOMS, 'person,partner\na,b\nb,\n'))
        self.assertIn('roommates have no sides', self.refused(ROOMS, 'person,partner\na,b\n', '--as', 'meet', status=2))

    def test_published(self):
        """The table of report: the partner in another column, `no place` or own words for it, and who was placed beforehand."""
        names = NAMES + 'placed,city,Kim\n'
        table = '\ufeffproposer;choice;reviewer\r\nKim;;City Hospital\r\n"Ann, A.";1;City Hospital\r\nBen;1;City Hospital\r\n' \
            'Cem;1;North\r\nDan;;no place\r\nÉve;1;West\r\n'
        self.put('i.txt', self.hospitals)
        self.put('names.csv', names)

        def claimed(table, *words):
            return self.call('claim', 'i.txt', '--names', 'names.csv', '--partner', 'Reviewer', *words, stdin=table)
        wanted = self.hospitals + 'answer solve side=proposers\npair ann city\npair ben city\npair cem north\npair eve west\nend\n'
        self.assertEqual(claimed(table), (0, wanted, ''))
        self.assertEqual(claimed(table.replace('no place', 'ohne'), '--no-place', 'ohne'), (0, wanted, ''))
        for old, new, fault in (('no place', 'ohne', '6: \'ohne\' is no reviewer of the instance'),
                                ('Kim;;City Hospital', 'Kim;;North', '2: \'Kim\' was placed '
                                'beforehand, at \'City Hospital\', and is at \'North\' here'),
                                ('Kim;;City Hospital', 'Kim;;', 'and has no place here'),
                                ('North', 'north', '\'north\' is no reviewer of the instance; is \'North\' meant?'),
                                ('reviewer', 'school',
                                 '1: there is no column \'Reviewer\' behind the first one; the columns are \'proposer\', ')):
            status, text, told = claimed(table.replace(old, new))
            self.assertEqual((status, text), (1, ''))
            self.assertIn(fault, told)

    def test_refused(self):
        for table, what in (('ann,city\nben,city\n', 'standard input:1: this row has a pair already: a first row'),
                            ('ann,\nben,city\n', 'standard input:1: this row has a pair already'),
                            ('p,r\nzoe,city\n,north\nann,rome\nben,city\nben,\n', '2: \'zoe\' is no proposer of the instance'),
                            ('p,r\nzoe,city\n,north\nann,rome\nben,city\nben,\n', '3: this row has no proposer'),
                            ('p,r\nzoe,city\n,north\nann,rome\nben,city\nben,\n', '4: \'rome\' is no reviewer of the instance'),
                            ('p,r\nzoe,city\n,north\nann,rome\nben,city\nben,\n', '6: \'ben\' has a row already, on line 5'),
                            ('r,p\ncity,ann\n', '\'city\' is no proposer of the instance, but a reviewer; are the first two'),
                            ('', 'the table is empty')):
            self.assertIn(what, self.refused(self.hospitals, table))
        self.assertIn('(MissingEnd)', self.refused('stable 1 marriage\n', 'p,r\n'))
        for words in (['--as', 'best'], ['--delimiter', 'a'], ['-']):
            self.assertEqual(self.call('claim', 'i.txt' if words != ['-'] else '-', *words)[0], 2, words)

    def test_judged(self):
        """What the program says of right and wrong tables."""
        if program.PATH is None or program.ask(self.hospitals + 'end\n', 'check')[0] == 2:
            self.skipTest('no program that checks')
        table = 'p,r\nann,city\nben,city\ncem,north\ndan,\neve,west\n'
        for said, verdict in (('proposers', 'yes'), ('reviewers', 'no 18 NotBest'), ('stable', 'yes')):
            self.put('i.txt', self.hospitals)
            both = self.call('claim', 'i.txt', '--as', said, stdin=table)[1]
            self.assertEqual(program.ask(both, 'check')[1], f'answer check\n{verdict}\nend\n')
        both = self.call('claim', 'i.txt', '--as', 'meet', stdin=table)[1]
        self.assertEqual(program.ask(both, 'meet')[1].count('\npair '), 4)


class Explain(Case):
    def told(self, text, answer, *words):
        """The lines that are told."""
        self.put('raw', text)
        self.put('a.txt', answer + '\n')
        self.put('names.csv', NAMES)
        status, got, fault = self.call('explain', 'raw', 'a.txt', *words)
        self.assertEqual((status, fault), (0, ''), (text, answer))
        return got.splitlines()

    def test_refusals(self):
        """Each with a part of what is told about it last."""
        two = 'stable 1 marriage\n'
        for text, refusal, what in (
                (two + 'p m: a, b\n', 'BadByte 2', 'names on a list have a blank between them'),
                (two + 'p m: (a b)\n', 'BadByte 2', 'lists have no ties'),
                (two + 'p m&n: a\n', 'BadByte 2', '\'&\' can\'t stand here'),
                (two + 'p Mü: a\n', 'BadByte 2', 'tools/from_csv makes names of this form'),
                ('\xef\xbb\xbf' + two, 'BadByte 1', 'byte order mark'),
                ('\xff\xfes\0t\0', 'BadByte 1', 'UTF-16'), ('{"kind"', 'BadByte 1', 'is lines'),
                ('stable 1 marriage\rp a:', 'BadByte 1', 'CR alone'),
                (two + 'endanswer solve side=proposers\n', 'BadByte 2', 'has no end of its own'),
                ('p m: a\n', 'BadHeader 1', '`stable 1 marriage`'), (two + 'END\n', 'BadLine 2', 'small letters'),
                (two + 'r a [2]: m\n', 'BadLine 2', 'stable 1 hospitals'),
                ('stable 1 roommates\nr a: b\n', 'BadLine 2', 'p lines alone'),
                ('stable 1 hospitals\nr a 2: m\n', 'BadLine 2', 'in brackets'), (two + 'p m a\n', 'BadLine 2', 'a `:` stands'),
                (two + 'p m n: a\n', 'BadLine 2', 'no blank within'), (two + 'weight m a\n', 'BadLine 2', 'and a number'),
                (two + 'q m: a\n', 'BadLine 2', 'begins with p, r'), (two + 'pair m a\n', 'BadLine 2', 'behind the line `end`'),
                (two + two, 'BadLine 2', 'stands once'), (two + 'p -m: a\n', 'BadName 2', 'at most 64'),
                ('stable 1 hospitals\nr a [x]: m\n', 'BadNumber 2', 'without a leading 0'),
                (two + 'p m:\np m:\n', 'Redeclared 3', 'one line'),
                (two + 'p m: a a\n', 'RepeatedEntry 2', 'strike'), (two, 'MissingEnd 2', 'behind the last'),
                (two + 'p m: hostal\nr hospital:\nend\n', 'UnknownName 2', 'is hospital meant?'),
                (two + 'p m: 1\nr a:\nend\n', 'UnknownName 2', 'no ranks'),
                (two + 'p m: n\np n:\nr a:\nend\n', 'UnknownName 2', 'n is of the same side'),
                (two + 'p m: z\nr a:\nend\n', 'UnknownName 2', 'a line of its own'),
                (two + 'p m:\nr a:\nforce a m\nend\n', 'UnknownName 4', 'first'),
                (two + 'end\nend\n', 'AfterEnd 3', '`check` read'),
                ('stable 1 roommates\nend\n', 'WrongKind 1', '`solve` without a side'),
                ('stable 1 hospitals\nend\n', 'TooManySeats 2', './matchtrim'), (two + 'end\n', 'BadCursor 0', 'own listing'),
                (two + 'end\n', 'NewReason 1', 'NewReason')):
            lines = self.told(text, 'refused ' + refusal)
            self.assertTrue(lines[0].startswith('raw' if refusal.endswith(' 0') else f'raw:{refusal.split()[1]}: '), lines)
            self.assertIn(what, lines[-1], (text, lines))
        self.assertEqual(self.told(two + 'p m: hostal\nr hospital:\nend\n', 'refused UnknownName 2')[:2],
                         ['raw:2: p m: hostal', f'hostal: {REASONS["UnknownName"]} (UnknownName)'])

    def test_answers(self):
        """What may be wrong behind the instance."""
        head = 'answer solve side=proposers\n'
        for text, line, what in (
                ('', 13, 'nothing stands behind'), (head + 'pair ann city\n', 15, 'closing line'),
                (head + '\nend\n', 14, 'no empty line'),
                (head + 'pair ann city # x\nend\n', 14, 'no comments'), (head + 'pair ann  city\nend\n', 14, 'one blank'),
                ('pair ann city\nend\n', 13, 'an answer begins'),
                ('answer pairs\nall ann city\nend\n', 13, '`pairs` can\'t be judged'),
                ('answer solve\npair ann city\nend\n', 13, 'has a side'),
                (head + 'pair dan -\nend\n', 14, 'no partner has no line'),
                (head + 'pair ann city/1\nend\n', 14, 'without seats'), (head + 'pair ann citi\nend\n', 14, 'citi; is city meant?'),
                ('answer regret\nnone\nend\n', 14, 'shows nothing'),
                (head + 'pairs ann city\nend\n', 14, 'an answer is its first line')):
            self.assertIn(what, self.told(self.hospitals + text, f'refused BadAnswer {line}')[-1])

    def test_reasons(self):
        """Each reason of docs/FORMATS.md has its sentence."""
        formats = text_of(TOP, 'docs', 'FORMATS.md')
        refusals = re.findall(r'^\| `(\w+)` \|', formats.split('\n## Refusals\n')[1], re.M)
        self.assertEqual((list(REASONS), list(HINTS)), (refusals, refusals))
        verdicts = re.findall(r'^\| `(\w+)` \|', formats.split('| Reason | At |')[1].split('\n\n')[0], re.M)
        self.assertEqual(list(VERDICTS), verdicts)
        commands = re.findall(r'^\| `([a-z]+)[^`]*` \|', formats.split('\n## The command line\n')[1].split('\n## ')[0], re.M)
        self.assertEqual(list(COMMANDS), list(dict.fromkeys(commands)))
        for reason in set(VERDICTS) - {'Blocked'}:
            self.assertIn(VERDICTS[reason], self.told(self.hospitals + 'answer rotations\nend\n',
                                                      f'answer check\nno 14 {reason}\nend'))

    def test_usage(self):
        self.put('f.txt', '')
        for number, words, what in (
                (2, 'solve f.txt', '< f.txt'), (1, '', 'solve, reduced'), (1, 'Solve', 'is solve meant?'),
                (1, '--list', 'is list meant?'),
                (1, 'rotation', 'is rotations meant?'), (1, 'xyz', 'solve, reduced'), (2, 'list limit=0', 'from 1 to 1,000,000'),
                (2, 'list limit 5', 'list takes after='), (2, 'solve side=women', 'side=proposers or'),
                (2, 'weight', 'by=ranks or by=given'),
                (2, 'solve list', 'another command'), (3, 'list limit=1 limit=1', 'twice'), (2, 'pairs x', 'no operand'),
                (4, 'make shape=cycle size=3', 'wants seed='), (2, 'list after=(1)', 'without blanks')):
            self.assertIn(what, ' '.join(self.told('', f'usage {number}', '--words', *words.split())), words)
        self.assertIn('no quotes', ' '.join(self.told('', 'usage 1', '--words', 'solve side=reviewers')).replace('without', 'no'))
        self.assertIn('standard input', ' '.join(self.told('', 'usage 2')))

    def test_verdicts(self):
        text = self.hospitals + 'answer solve side=proposers\npair ann city\npair dan city\npair cem north\npair eve west\nend\n'
        wanted = ['raw:18: end', 'ben and city would both rather have one another:', '  ben has nobody; city is its choice 1',
                  '  city has dan, its choice 4; ben is its choice 3']
        self.assertEqual(self.told(text, 'answer check\nno 18 Blocked\nend'), wanted)
        self.assertEqual(self.told(text, 'answer check\nno 18 Blocked\nend', '--names', 'names.csv')[1:],
                         [it.replace('ben', 'Ben').replace('city', 'City Hospital').replace('dan', 'Dan') for it in wanted[1:]])
        both = self.hospitals + 'left ann city\nleft cem north\nright ann city\nend\n'
        self.assertEqual(self.told(both, 'refused NotStable 16 left blocks ben city')[-1],
                         '  city has 1 of its 2 places free; ben is its choice 3')
        self.assertIn('its choice 2', self.told(both.replace('left ann', 'left cem'),
                                                'refused NotStable 16 left blocks ann city')[3])
        head = self.hospitals + 'answer solve side=proposers\npair ann city\n'
        for line, what in (('pair ann west', 'ann doesn\'t list west'), ('pair ann north', 'north doesn\'t list ann'),
                           ('pair ann city', 'ann stands in a pair already, on line 14'), ('pair dan south', 'south has no place')):
            self.assertEqual(self.told(head + line + '\nend\n', 'answer check\nno 15 NotAMatching\nend'), [f'raw:15: {line}', what])
        got = self.told(head + 'pair ben city\npair dan city\nend\n', 'answer check\nno 16 NotAMatching\nend')
        self.assertEqual(got[1], 'city has 2 places, which are taken by lines 14, 15')
        regret = self.hospitals + 'answer regret\nregret 9\npair ann city\npair ben city\npair cem north\npair eve west\nend\n'
        self.assertEqual(self.told(regret, 'answer check\nno 19 WrongRegret\nend')[-1], 'it is 3: ben is choice 3 of city')
        listed = self.hospitals + 'answer list limit=100\nvector 2,1,2,3,1\nend\n'
        self.assertEqual(self.told(listed, 'answer check\nno 14 Blocked\nend')[1],
                         'cem and north would both rather have one another:')
        first = self.hospitals + 'answer rotations\nfirst ann city/1\nfirst ben north/1\nfirst eve west/1\nend\n'
        self.assertEqual(self.told(first, 'answer check\nno 17 Blocked\nend')[1],
                         'ben and city would both rather have one another:')
        self.assertEqual(self.told(text, 'answer check\nyes\nend'), ['the answer is right'])
        self.assertEqual(self.told(text, 'answer regret\nnone\nend')[-1], 'there is no such matching')
        self.assertIn('front of an answer', self.told(text, 'answer pairs')[0])
        self.put('a.txt', '')
        self.assertEqual(self.call('explain', 'raw', 'a.txt')[0], 1)
        self.assertEqual(self.call('explain', '-', '-')[0], 2)

    def test_second(self):
        """Lines of format 2, under a header of either format."""
        two = 'stable 1 marriage\n'
        for text, number, what in ((two + 'order m\n', 2, 'write `stable 2 marriage`'),
                                   (two + 'master x: a\n', 2, 'write `stable 2 marriage`'),
                                   (two + 'p m: [x]\n', 2, 'write `stable 2 marriage`'),
                                   (two + 'weight m a 1 2\n', 2, 'write `stable 2 marriage`'),
                                   ('stable 1 hospitals\nr a [2]: [x]\n', 2, 'write `stable 2 hospitals`'),
                                   ('stable 1 roommates\nmaster x: a\n', 2, 'write `stable 2 roommates`'),
                                   ('stable 2 marriage\nq m: a\n', 2, 'p, r, master, order, weight, force or forbid'),
                                   ('stable 2 marriage\nweight m a\n', 2, 'one number or two'),
                                   ('stable 2 roommates\norder m\n', 2, 'have no order'),
                                   ('stable 2 hospitals\nr a 2: m\n', 2, 'in brackets'),
                                   ('stable 2 marriage\nr a [2]: m\n', 2, '`stable 2 hospitals` alone'),
                                   ('stable 2 marriage\nmaster x a\n', 2, 'a master list is `master`, its name')):
            self.assertIn(what, self.told(text, f'refused BadLine {number}')[-1], text)

    def test_near(self):
        """Names in other case of letters are found, and none for a number."""
        two = 'stable 1 marriage\n'
        self.assertEqual(self.told(two + 'p m: CITY\nr city:\nend\n', 'refused UnknownName 2')[-1], 'is city meant?')
        self.assertNotIn('meant', self.told(two + 'p m: s101\nr s102:\nend\n', 'refused UnknownName 2')[-1])
        self.assertNotIn('meant', self.told(two + 'p m: 1011\nr 1012:\nend\n', 'refused UnknownName 2')[-1])
        self.assertEqual(self.told(two + 'p m: hostal1\nr hospital1:\nend\n', 'refused UnknownName 2')[-1], 'is hospital1 meant?')

    def test_full(self):
        """With the uncut instance it never says of a pair that was cut that the two don't list each other."""
        whole = 'stable 1 hospitals\np a: x y\np b: x y\np c: x y\np d: y x\nr x [2]: a b c d\nr y [2]: d c b a\nend\n'
        # All have their first choice but c, who comes third at x; so the list of x ends behind b.
        cut = whole.replace('x [2]: a b c d', 'x [2]: a b').replace('p d: y x', 'p d: y')
        self.put('full.txt', whole)
        text = cut + 'answer solve side=proposers\npair a x\npair c x\npair d y\nend\n'
        self.assertEqual(self.told(text, 'answer check\nno 11 NotAMatching\nend')[-1], 'x doesn\'t list c')
        self.assertEqual(self.told(text, 'answer check\nno 11 NotAMatching\nend', '--full', 'full.txt')[-1],
                         'c is number 3 of x, where number 1 was the last one admitted')
        text = cut + 'answer solve side=proposers\npair d x\nend\n'
        self.assertEqual(self.told(text, 'answer check\nno 10 NotAMatching\nend', '--full', 'full.txt')[-1],
                         'd is number 4 of x; x is choice 2 of d, who has a better one in each stable matching')
        self.assertEqual(self.told(cut + 'left a x\nleft b x\nleft c x\nright a x\nend\n', 'refused NotStable 11 left breach c x',
                                   '--full', 'full.txt')[-1],
                         'the left lines aren\'t a matching: c is number 3 of x, where number 2 was the last one admitted')
        self.put('full.txt', 'stable 1 hospitals\np a: x\nr x [2]: a\nend\n')
        status, _, told = self.call('explain', 'raw', 'a.txt', '--full', 'full.txt')
        self.assertEqual((status, told), (1, 'explain: full.txt isn\'t the instance before the cut: it hasn\'t b\n'))

    def test_figures(self):
        """WrongTotal, WrongCut and WrongValue say the right figure; those of the stored answers."""
        for name in ('weighed.weight_given', 'weighed.weight_ranks', 'forbidden.weight_ranks', 'two_levels.weight_given',
                     'second_weights.weight_given'):
            instance, answer = text_of(TOP, 'examples', name.split('.')[0] + '.txt'), text_of(TOP, 'examples', name)
            for reason, keywords in (('WrongTotal', ('total', 'total2')), ('WrongCut', ('cut', 'cut2')),
                                     ('WrongValue', ('value', 'value2'))):
                for number, line in enumerate(answer.split('\n')):
                    if line.split(' ')[0] in keywords:
                        wrong = answer.split('\n')
                        wrong[number] = f'{line.split(" ")[0]} 12345'
                        got = self.told(instance + '\n'.join(wrong),
                                        f'answer check\nno {instance.count(chr(10)) + number + 1} {reason}\nend')
                        self.assertEqual(got[-2:], [VERDICTS[reason], f'it is {line.split(" ")[1]}'], (name, line))

    def test_blocking(self):
        """The pair is the first by the definition, with the ranks of both; also for roommates."""
        found = 0
        for seed in range(40):
            draw = random.Random(seed)
            text = brute.made_any(seed, 5).replace('\nend\n', '\n') + 'end\n'
            market = brute.Market(text)
            has = draw.choice(list(market.matchings()))
            pairs = [(p, r) for p, row in market.p.items() for r in row if blocks(market, has, p, r)]
            if pairs:
                found += 1
                lines = ''.join(f'pair {p} {r}\n' for p, r in has.items())
                number = text.count('\n') + len(has) + 2
                told = self.told(f'{text}answer solve side=proposers\n{lines}end\n', f'answer check\nno {number} Blocked\nend')
                p, r = pairs[0]
                self.assertEqual(told[1], f'{p} and {r} would both rather have one another:')
                self.assertTrue(told[2].endswith(f'; {r} is its choice {market.p[p].index(r) + 1}'))
                self.assertTrue(told[3].endswith(f'; {p} is its choice {market.r[r].index(p) + 1}'))
                if p in has:
                    self.assertIn(f'{p} has {has[p]}, its choice {market.p[p].index(has[p]) + 1};', told[2])
        self.assertGreater(found, 15)

    def test_blocking_rooms(self):
        found = 0
        for seed in range(20):
            draw = random.Random(seed)
            names = [f'x{i}' for i in range(6)]
            lists = {it: draw.sample(names, draw.randint(2, 6)) for it in names}
            able = {it: [other for other in row if other != it and it in lists[other]] for it, row in lists.items()}
            has = {}
            for it in draw.sample(names, 6):
                free = [other for other in able[it] if other not in has]
                if it not in has and free:
                    other = draw.choice(free)
                    has[it], has[other] = other, it

            def gains(own, other):
                return own not in has or lists[own].index(other) < lists[own].index(has[own])
            pairs = [(p, q) for p in names for q in able[p] if has.get(p) != q and gains(p, q) and gains(q, p)]
            if pairs:
                found += 1
                text = '\n'.join(['stable 1 roommates'] + [f'p {it}: {" ".join(row)}' for it, row in lists.items()] +
                                 ['end', 'answer solve'])
                couples = sorted({tuple(sorted(it)) for it in has.items()})
                told = self.told('\n'.join([text] + [f'pair {p} {q}' for p, q in couples] + ['end', '']),
                                 f'answer check\nno {10 + len(couples)} Blocked\nend')
                self.assertEqual(told[1], f'{pairs[0][0]} and {pairs[0][1]} would both rather have one another:')
        self.assertGreater(found, 8)


def blocks(market, has, p, r):
    """Whether a pair blocks a matching, by the definition."""
    if p not in market.r[r] or has.get(p) == r:
        return False
    at = market.at(has, r)
    gains = p not in has or market.p[p].index(r) < market.p[p].index(has[p])
    return gains and (len(at) < market.capacities[r] or any(market.r[r].index(p) < other for other in at))


if __name__ == '__main__':
    unittest.main()
