"""`draw` on the examples against stored pictures, and against all stable matchings found by trying all matchings."""
import functools
import itertools
import os
import random
import re
import subprocess
import tempfile
import unittest
from unittest import mock

import brute
import inside

HERE = os.path.dirname(os.path.realpath(__file__))
TOP = os.path.join(HERE, '..', '..')
EXAMPLES = os.path.join(TOP, 'examples')
H = 'stable 1 hospitals\np r0: h\np r1: h k\np r2: k h\nr h [2]: r2 r0 r1\nr k [1]: r1 r2\nend\n'
H_ANSWER = 'answer rotations\nfirst r0 h/1\nfirst r1 h/2\nfirst r2 k/1\nrotation 1 r0 h/1 r1 h/2 r2 k/1\nneeds 1 -\nend\n'


def text_of(path):
    with open(path, encoding='utf-8') as file:
        return file.read()


def example(name):
    return text_of(os.path.join(EXAMPLES, name))


def draw(instance, answer, *words, path=None):
    """The status of `draw` on two texts, what it writes, and its fault."""
    with tempfile.TemporaryDirectory() as folder:
        file = os.path.join(folder, 'instance.txt')
        with open(file, 'w', encoding='utf-8') as out:
            out.write(instance)
        with mock.patch.dict(os.environ, {'PATH': path} if path else {}):
            status, picture, fault = inside.call('draw', *words, file, stdin=answer)
        return status, picture, fault.replace(folder + os.sep, '')


@functools.lru_cache(None)
def rotations_of(text):
    """The answer of `rotations` for an instance, by all matchings; that of hospitals by seats."""
    market = brute.Market(text)
    return brute.answer_of(brute.seated(market)).replace('.', '/') if 'hospitals' in text else brute.answer_of(market)


def nodes_of(picture):
    """Each node of a lattice with its label's lines."""
    return {node: label.split('\\n')[:-1] for node, label in re.findall(r'^    (m\d+) \[label="([^"]*)"', picture, re.M)}


def edges_of(picture):
    """The edges, each with its label or style."""
    return {(a, b): rest for a, b, rest in re.findall(r'^    (\w+) -> (\w+)(?: \[(.*)\])?;$', picture, re.M)}


def copies(count):
    """An instance of many couples of couples, each with a rotation of its own that needs no other, and its answer."""
    lines, firsts, rotations = [], [], []
    for i in range(1, count + 1):
        p, q, a, b = f'p{2 * i - 1}', f'p{2 * i}', f'r{2 * i - 1}', f'r{2 * i}'
        lines += [f'p {p}: {a} {b}', f'p {q}: {b} {a}', f'r {a}: {q} {p}', f'r {b}: {p} {q}']
        firsts += [f'first {p} {a}', f'first {q} {b}']
        rotations += [f'rotation {i} {p} {a} {q} {b}', f'needs {i} -']
    return '\n'.join(['stable 1 marriage', *lines, 'end', '']), '\n'.join(['answer rotations', *firsts, *rotations, 'end', ''])


def sets_of(answer, conditions):
    """The sets of rotations, as tuples, whose matchings are stable and allowed, by an answer of `rotations` alone."""
    first, rotations, needs = {}, {}, {}
    for line in answer.splitlines():
        keyword, *fields = line.split(' ')
        if keyword == 'first':
            first[fields[0]] = fields[1]
        elif keyword == 'rotation':
            rotations[int(fields[0])] = dict(zip(fields[1::2], fields[4::2] + fields[2:3]))
        elif keyword == 'needs':
            needs[int(fields[0])] = {int(it) for it in fields[1:] if it != '-'}
    for chosen in itertools.product((False, True), repeat=len(rotations)):
        closed = {i for i, it in enumerate(chosen, 1) if it}
        has = dict(first)
        for i in sorted(closed):
            has.update(rotations[i])
        held = {(p, seat.split('/')[0]) for p, seat in has.items()}
        if all(needs[i] <= closed for i in closed) and all(((p, r) in held) == (it == 'force') for it, p, r in conditions):
            yield tuple(sorted(closed))


class Draw(unittest.TestCase):
    def stored(self, name, words, kind):
        status, picture, _ = draw(example(name + '.txt'), example(name + '.rotations'), *words)
        self.assertEqual(status, 0)
        self.assertEqual(picture, text_of(os.path.join(HERE, f'{name}_{kind}.dot')))
        return picture

    def agrees(self, text, answer):
        """The lattice has exactly the stable matchings and their covering pairs, and a line adds its rotation."""
        status, picture, fault = draw(text, answer, '--lattice')
        self.assertEqual((status, fault), (0, ''))
        stable = brute.Market(text).stable()
        nodes = nodes_of(picture)
        vectors = {node: tuple(map(int, label[-2].split())) for node, label in nodes.items()}
        self.assertEqual(sorted(vectors.values()), sorted(stable))
        edges = edges_of(picture)
        self.assertEqual({(vectors[a], vectors[b]) for a, b in edges}, brute.covers(stable))
        sets = {node: set(re.findall(r'\d+', label[-1])) for node, label in nodes.items()}
        for (a, b), rest in edges.items():
            self.assertEqual(sets[b] - sets[a], {re.search(r'\d+', rest).group()})
            self.assertLess(sets[a], sets[b])
        best = {words: [vectors[node] for node, label in nodes.items() if words in label]
                for words in ('best for the proposers', 'best for the reviewers')}
        self.assertEqual(list(best.values()), [[min(stable)], [max(stable)]])
        return len(stable)

    def test_examples(self):
        for name, count in (('five_rotations', 9), ('three_cycle', 3), ('two_by_two', 2)):
            self.stored(name, ['--lattice'], 'lattice')
            self.assertEqual(self.agrees(example(name + '.txt'), example(name + '.rotations')), count)
            self.stored(name, [], 'order')

    def test_order(self):
        """By the drawing in examples/README.md; rotation 4 needs 1 too, by way of 2 and 3."""
        edges = edges_of(self.stored('five_rotations', [], 'order'))
        self.assertEqual(edges, {('1', '2'): '', ('2', '3'): '', ('3', '4'): '', ('1', '5'): 'style=dashed'})

    def test_pictures(self):
        """The stored pictures are of the stored graphs: they have the same nodes, lines and words."""
        for name in ('five_rotations_order', 'five_rotations_lattice', 'three_cycle_lattice', 'two_by_two_lattice'):
            picture = text_of(os.path.join(TOP, 'docs', 'pictures', name + '.svg'))
            graph = text_of(os.path.join(HERE, name + '.dot'))
            words = re.findall(r'<text [^>]*>([^<]*)</text>', picture)
            labels = re.findall(r'label="([^"]*)"', graph)
            self.assertEqual(sorted(it.strip() for it in words),
                             sorted(it.strip() for label in labels for it in re.split(r'\\[nl]', label) if it))
            titles = re.findall(r'<title>([^<]*)</title>', picture.replace('&#45;', '-').replace('&gt;', '>'))
            self.assertEqual({it for it in titles if '->' in it}, {f'{a}->{b}' for a, b in edges_of(graph)})

    def test_random(self):
        counts = set()
        for seed in range(25):
            text = brute.made(seed)
            counts.add(self.agrees(text, rotations_of(text)))
        self.assertGreater(max(counts), 4)
        self.assertIn(1, counts)

    def test_hospitals(self):
        status, picture, _ = draw(H, H_ANSWER, '--lattice')
        self.assertEqual(status, 0)
        self.assertEqual([label[1] for label in nodes_of(picture).values()], ['1 1 1', '1 2 2'])
        self.assertIn('r0: h/1 to h/2\\l', draw(H, H_ANSWER)[1])
        text, answer = example('hospitals.txt'), example('hospitals.rotations')
        self.assertEqual(self.agrees(text, answer), 2)
        self.assertIn('ann: city/1 to city/2\\l', draw(text, answer)[1])
        for old, new, what in (
                ('first eve west/1', 'first eve west/2', 'no seat west/2'), ('first eve west/1', 'first eve west', 'no seat west'),
                ('first eve west/1', 'first dan south/1', 'no seat south/1'),
                ('first ben city/2', 'first ben city/3', 'no seat city/3'),
                ('first ben city/2', 'first ben city/1', 'already'),
                ('first ann city/1', 'first ann north/1', 'ann and north don\'t list each other')):
            status, picture, fault = draw(text, answer.replace(old, new, 1))
            self.assertEqual((status, picture), (1, ''), new)
            self.assertIn(what, fault)

    def test_random_hospitals(self):
        """The rotations are those of the seats, the stable matchings those of the hospitals."""
        counts = set()
        for seed in range(20):
            text = brute.made_hospitals(seed)
            counts.add(self.agrees(text, rotations_of(text)))
        self.assertGreater(max(counts), 3)
        self.assertIn(1, counts)

    def test_many_seats(self):
        """1,024 residents of a hospital fill its seats' lists; with one more there are too many, at the hospital's line."""
        for size, refused in ((1024, False), (1025, True)):
            names = [f'p{i}' for i in range(size)]
            text = '\n'.join(['stable 1 hospitals', 'r g [4096]: p0', f'r h [{size}]: {" ".join(names)}',
                              *(f'p {name}: h' for name in names), 'end', ''])
            answer = '\n'.join(['answer rotations', *(f'first {name} h/{i + 1}' for i, name in enumerate(names)), 'end', ''])
            status, _, fault = draw(text, answer)
            self.assertEqual(status, 1 if refused else 0)
            self.assertRegex(fault, r'\Adraw: instance.txt:3: .* \(TooManySeats\)\n\Z' if refused else r'\A\Z')

    def test_limit(self):
        """Twelve pairs of two have 4,096 stable matchings."""
        text, answer = copies(12)
        status, picture, fault = draw(text, answer, '--lattice')
        self.assertEqual((status, picture), (1, ''))
        self.assertIn('more than 300 stable matchings', fault)
        self.assertEqual(draw(text, answer, '--lattice', '--most', '4095')[0], 1)
        self.assertEqual(draw(text, answer, '--lattice', '--most', '4096')[1].count('\\n{'), 4096)
        self.assertEqual(draw(text, answer)[0], 0)

    def test_many_rotations_stop_early(self):
        """A thousand free rotations, with more closed sets than could be counted."""
        status, _, fault = draw(*copies(1000), '--lattice')
        self.assertEqual(status, 1)
        self.assertIn('more than 300', fault)

    def test_partners(self):
        """Each box has the pairs of its matching, and who is unmatched isn't there."""
        picture = draw(example('five_rotations.txt'), example('five_rotations.rotations'), '--lattice', '--partners')[1]
        stable = brute.Market(example('five_rotations.txt')).stable()
        boxes = [dict(it.split(': ') for it in label if ': ' in it) for label in nodes_of(picture).values()]
        self.assertEqual(sorted(map(sorted, map(dict.items, boxes))), sorted(sorted(it.items()) for it in stable.values()))
        picture = draw(example('unmatched.txt'), 'answer rotations\nfirst ann biology\nfirst cem art\nend\n', '--lattice', '--partners')[1]
        self.assertEqual(list(nodes_of(picture).values()),
                         [['best for the proposers', 'best for the reviewers', 'ann: biology', 'cem: art', '{}']])

    def test_names(self):
        """Names of a scheme, with what a label can't hold as it is."""
        with tempfile.TemporaryDirectory() as folder:
            names = os.path.join(folder, 'names.csv')
            with open(names, 'w', encoding='utf-8') as file:
                file.write('side,name,original\nproposer,m1,"M ""1"" \\n"\nproposer,m2,Мия\nreviewer,a,A & B\nreviewer,b,"two\nlines"\n')
            texts = example('two_by_two.txt'), example('two_by_two.rotations')
            self.assertIn('label="rotation 1\\lM \\"1\\" \\\\n: A &amp; B to two lines\\lМия: two lines to A &amp; B\\l"', draw(*texts, '--names', names)[1])
            self.assertIn('\\nМия: two lines\\n', draw(*texts, '--names', names, '--lattice', '--partners')[1])
            status, _, fault = draw(example('three_cycle.txt'), example('three_cycle.rotations'), '--names', names)
            self.assertEqual(status, 1)
            self.assertIn('names.csv has no reviewer c', fault)

    def test_no_rotation(self):
        text = example('unmatched.txt')
        status, picture, _ = draw(text, 'answer rotations\nfirst ann biology\nfirst cem art\nend\n', '--lattice')
        self.assertEqual(status, 0)
        self.assertEqual(list(nodes_of(picture).values()),
                         [['best for the proposers', 'best for the reviewers', '2 2 1', '{}']])

    def test_wrong_answers(self):
        """Each with the line at which it is refused."""
        right = example('five_rotations.rotations')
        for old, new, line, what in (
                ('answer rotations', 'refused WrongKind 1', None, 'refused WrongKind 1'),
                ('answer rotations', 'usage 1', None, 'usage 1'),
                ('answer rotations', 'answer reduced', 1, 'not of `rotations`'),
                ('answer rotations', 'stable 1 marriage', 1, 'no answer'),
                ('end\n', '', 17, 'isn\'t whole'),
                ('first ann art', 'first ann zoo', 2, 'no seat zoo'),
                ('first ann art', 'first ann art/1', 2, 'no seat art/1'),
                ('first ann art', 'first ann french', 2, 'don\'t list each other'),
                ('first ann art', 'first ann', 2, 'no line of an answer'),
                ('first ben biology', 'first ann biology', 3, 'already'),
                ('rotation 1', 'rotation 2', 8, 'stands where 1 should'),
                ('rotation 2 cem art', 'rotation 2 cem drama', 10, 'cem doesn\'t have drama'),
                ('needs 4 1 3', 'needs 4 3 1', 15, 'rising numbers'),
                ('needs 4 1 3', 'needs 4 5', 15, 'rising numbers'),
                ('needs 4 1 3', 'needs 3 1', 15, 'rising numbers'),
                ('needs 4 1 3', 'needs 4', 15, 'no line of an answer'),
                ('needs 1 -\n', '', 9, 'out of its place'),
                ('needs 5 1\n', '', 17, 'is missing'),
                ('needs 5 1', 'pair eve french', 17, 'out of its place'),
        ):
            status, picture, fault = draw(example('five_rotations.txt'), right.replace(old, new, 1))
            self.assertEqual((status, picture), (1, ''), new)
            self.assertIn(what, fault)
            if line:
                self.assertIn(f'standard input:{line}: ', fault)
        status, _, fault = draw(example('three_cycle.txt'), right)
        self.assertEqual(status, 1)
        self.assertIn('standard input:2: this can\'t be an answer to instance.txt', fault)

    def test_refused_instances(self):
        """By the table of docs/FORMATS.md, and what a line may hold."""
        two = 'stable 1 marriage\n'
        for text, refusal in (
                ('', 'BadHeader 1'), ('\n\n', 'BadHeader 3'), ('stable 3 marriage\n', 'BadHeader 1'),
                (two + 'p m1: a, b\n', 'BadByte 2'),
                (two + 'p m1 a\n', 'BadLine 2'), (two + 'p -x:\n', 'BadName 2'), (two + f'p {"x" * 65}:\n', 'BadName 2'),
                ('stable 1 hospitals\nr h [4097]:\n', 'BadNumber 2'), (f'stable 1 hospitals\nr h [{"9" * 5000}]:\n', 'BadNumber 2'), (two + 'r h [2]:\nend\n', 'BadLine 2'),
                (two + 'p m1:\np m1:\n', 'Redeclared 3'), (two + 'p m1: a a\n', 'RepeatedEntry 2'),
                (two + 'weight m1 a 1\nweight m1 a 1\n', 'RepeatedWeight 3'), (two + 'weight m1 a -0\n', 'BadNumber 2'),
                (two, 'MissingEnd 2'), (two + 'p m1: z\nend\n', 'UnknownName 2'), (two + 'end\nend\n', 'AfterEnd 3'),
                (two + 'force a b\nend\n', 'UnknownName 2'), ('end\n', 'BadHeader 1'), (two + 'p a\r:\nend\n', 'BadByte 2'),
                ('stable 1 roommates\nr a:\nend\n', 'BadLine 2'), (two + 'p m1: [K]\nend\n', 'BadLine 2'),
                ('stable 2 marriage\np m1: [K]\nend\n', 'BadName 2'), ('stable 2 marriage\nmaster L: a\nmaster L:\n', 'Redeclared 3'),
                ('stable 2 marriage\norder a a\n', 'RepeatedEntry 2'), ('stable 2 roommates\norder a\n', 'BadLine 2'),
                (two + ''.join(f'p p{i}:\n' for i in range(4097)), 'TooManyAgents 4098'),
        ):
            status, _, fault = draw(text, example('two_by_two.rotations'))
            reason, line = refusal.split()
            self.assertEqual(status, 1)
            self.assertTrue(fault.startswith(f'draw: instance.txt:{line}: '), (refusal, fault))
            self.assertTrue(fault.endswith(f'({reason})\n'), (refusal, fault))

    def test_blanks(self):
        """Comments, CR, blanks and a missing last LF change nothing."""
        text = example('two_by_two.txt')
        other = '# \xe9\n\n' + text.replace(': ', ':\t ').replace('\n', ' # x: [\r\n')[:-2]
        answer = example('two_by_two.rotations').replace('\n', '\r\n')
        self.assertEqual(draw(other, answer, '--lattice'), draw(text, example('two_by_two.rotations'), '--lattice'))

    def test_net(self):
        """By hand: the source gives rotation 2 what rotation 1, which it needs, takes to the sink."""
        status, picture, fault = draw(example('weighed.txt'), example('weighed.weight_given'), '--net')
        self.assertEqual((status, fault), (0, ''))
        self.assertEqual(picture, text_of(os.path.join(HERE, 'weighed_net.dot')))
        self.assertEqual(edges_of(picture), {('S', '2'): 'label=" 4 of 14"', ('2', '1'): 'label=" 4"',
                                             ('1', 'T'): 'label=" 4 of 4", color="#c0392b"'})
        self.assertIn('label="flow 4, cut 4, weight -10";', picture)
        self.assertEqual(edges_of(draw(example('weighed.txt'), example('weighed.weight_ranks'), '--net')[1]),
                         {('2', '1'): 'style=dashed'})
        status, picture, fault = draw(example('forbidden.txt'), example('forbidden.weight_ranks'), '--net')
        self.assertEqual((status, picture), (1, ''))
        self.assertIn('no stable matching is allowed', fault)

    def test_second_net(self):
        """By hand: what the first flow of 4 may still change is both ways between the rotations, and the second gains are 1 and -3."""
        status, picture, fault = draw(example('two_levels.txt'), example('two_levels.weight_given'), '--net')
        self.assertEqual((status, fault), (0, ''))
        self.assertEqual(edges_of(picture), {
            ('S', '2'): 'label=" 4 of 4"', ('2', '1'): 'label=" 4"', ('1', 'T'): 'label=" 4 of 4", color="#c0392b"',
            ('second_S', 'second_2'): 'label=" 1 of 3"', ('second_2', 'second_1'): 'label=" 1"', ('second_1', 'second_2'): 'style=dashed',
            ('second_1', 'second_T'): 'label=" 1 of 1", color="#c0392b"'})
        self.assertIn('label="first net: flow 4, cut 4, sum 0"; ', picture)
        self.assertIn('label="second net: flow 1, cut 1, sum -2"; ', picture)
        self.assertIn('label="weight 0, second sum -2";', picture)
        picture = draw(example('second_weights.txt'), example('second_weights.weight_given'), '--net')[1]
        self.assertEqual(edges_of(picture), {
            ('2', '1'): 'style=dashed', ('second_2', 'second_1'): 'style=dashed',
            ('second_S', 'second_1'): 'label=" 0 of 2"', ('second_2', 'second_T'): 'label=" 0 of 1"'})

    def conditions_agree(self, text, answer, seed):
        """The sets that no edge without a bound leaves are those of the matchings that some conditions allow."""
        chance = random.Random(seed)
        names = [re.findall(rf'^{side} (\w+)', text, re.M) for side in 'pr']
        conditions = [(chance.choice(('force', 'forbid', 'forbid')), *map(chance.choice, names)) for _ in range(2)]
        allowed = set(sets_of(answer, conditions))
        if not allowed:
            return 0
        text = text.replace('end\n', ''.join(' '.join(it) + '\n' for it in conditions) + 'end\n')
        count = answer.count('needs ')
        for i in range(count):
            answer = re.sub(rf'^(needs {i + 1} .*)$', rf'\1\ngain {i + 1} 0', answer, flags=re.M)
        taken = ' '.join(map(str, min(allowed))) or '-'
        answer = answer.replace('answer rotations', 'answer weight by=ranks')
        answer = answer.replace('end\n', f'taken {taken}\nvalue 0\ncut 0\ntotal 0\nend\n')
        status, picture, fault = draw(text, answer, '--net')
        self.assertEqual((status, fault), (0, ''))
        edges = [(tail, head) for tail, head in edges_of(picture)]
        found = set()
        for chosen in itertools.product((False, True), repeat=count):
            inside = {'S', *(str(i) for i, it in enumerate(chosen, 1) if it)}
            if not any(tail in inside and head not in inside for tail, head in edges):
                found.add(tuple(i for i, it in enumerate(chosen, 1) if it))
        self.assertEqual(found, allowed, (text, answer))
        return len(allowed)

    def test_conditions(self):
        counts = set()
        for seed in range(40):
            text = brute.made(seed)
            counts.add(self.conditions_agree(text, rotations_of(text), seed))
            text = brute.made_hospitals(seed)
            counts.add(self.conditions_agree(text, rotations_of(text), seed))
        self.assertTrue({0, 1, 2, 3} <= counts, counts)

    def test_wrong_nets(self):
        """Each with the line at which it is refused, where there is one."""
        right = example('weighed.weight_given')
        for old, new, line, what in (
                ('answer weight', 'answer rotations', 1, 'not of `weight`'),
                ('gain 2 -14\n', '', None, 'has one `gain` line'),
                ('flow S 2 4', 'flow S 1 4', 11, 'no edge from S to 1'),
                ('flow S 2 4', 'flow S 2 15', 11, 'from 1 to its room'),
                ('flow 1 T 4', 'flow 1 T 0', 12, 'from 1 to its room'),
                ('flow 1 T 4', 'flow 1 T 3', None, 'flows into rotation 1'),
                ('flow 1 T 4', 'flow U T 4', 12, 'no line of an answer'),
                ('taken 1 2', 'taken 1 3', 14, 'there are 2 rotations'),
                ('taken 1 2', 'taken 2', 14, 'without a bound'),
                ('taken 1 2\n', '', None, '0 `taken` lines'),
                ('value 4', 'value 5', 15, '4 flows'),
                ('cut 4', 'cut 14', 16, 'room for 4'),
                ('total -10\npair m1 c', 'pair m1 c\ntotal -10', 18, 'out of its place'),
        ):
            status, picture, fault = draw(example('weighed.txt'), right.replace(old, new, 1), '--net')
            self.assertEqual((status, picture), (1, ''), new)
            self.assertIn(what, fault)
            if line:
                self.assertIn(f'standard input:{line}: ', fault)

    def test_wrong_second_nets(self):
        right = example('two_levels.weight_given')
        for old, new, line, what in (
                ('gain2 2 -3\n', '', None, 'has one `gain2` line'),
                ('flow2 S 2 1', 'flow2 S 1 1', 16, 'the second net has no edge from S to 1'),
                ('flow2 1 T 1', 'flow2 T 1 1', 17, 'the second net has no edge from T to 1'),
                ('flow2 S 2 1', 'flow2 S 2 4', 16, 'from 1 to its room'),
                ('flow2 S 2 1', 'flow2 S 2 2', None, 'flows into rotation 2 in the second net'),
                ('taken 1 2', 'taken 2', 19, 'an edge without a bound'),
                ('value2 1\n', '', None, '0 `value2` lines'),
                ('value2 1', 'value2 2', 23, '1 flows'),
                ('cut2 1', 'cut2 3', 24, 'room for 1'),
                ('total2 -2\npair m1 c', 'pair m1 c\ntotal2 -2', 26, 'out of its place'),
        ):
            status, picture, fault = draw(example('two_levels.txt'), right.replace(old, new, 1), '--net')
            self.assertEqual((status, picture), (1, ''), new)
            self.assertIn(what, fault)
            if line:
                self.assertIn(f'standard input:{line}: ', fault)
        answer = right.replace('taken 1 2', 'taken 1').replace('cut 4', 'cut 8')
        status, picture, fault = draw(example('two_levels.txt'), answer, '--net')
        self.assertEqual((status, picture), (1, ''))
        self.assertIn('the first flow may still change something that leads out of the taken rotations', fault)

    def boxes(self, name, *words, answer='rotations'):
        """The boxes of a lattice by their sets, and its lines by the sets that they lead from and to."""
        status, picture, fault = draw(example(name + '.txt'), example(f'{name}.{answer}'), '--lattice', *words)
        self.assertEqual((status, fault), (0, ''))
        nodes = nodes_of(picture)
        return {label[-1]: label[:-1] for label in nodes.values()}, \
            {(nodes[a][-1], nodes[b][-1]): rest for (a, b), rest in edges_of(picture).items()}, picture

    def test_changed(self):
        """Each line has its rotation's moves."""
        _, lines, _ = self.boxes('five_rotations', '--changed')
        self.assertEqual(lines['{}', '{1}'], r'label=" 1\l ann: art to chemistry\l cem: chemistry to art\l"')
        self.assertEqual(lines['{1}', '{1, 5}'], r'label=" 5\l eve: english to french\l fay: french to english\l"')

    def test_both_ranks(self):
        """By hand, also of hospitals with several places and of a reviewer that has nobody."""
        boxes, _, picture = self.boxes('five_rotations', '--ranks', 'both')
        self.assertEqual(boxes['{}'], ['best for the proposers', '1 1 1 1 1 1', '| 5 3 3 2 2 2'])
        self.assertIn('ranks for ann ben cem dan eve fay | art biology chemistry drama english french"', picture)
        picture = draw(H, H_ANSWER, '--lattice', '--ranks', 'both')[1]
        self.assertEqual([label[1:3] for label in nodes_of(picture).values()], [['1 1 1', '| 2+3 2'], ['1 2 2', '| 1+2 1']])
        text = 'stable 1 marriage\np m: a\nr a: m\nr b:\nend\n'
        self.assertIn('\\n| 1 -\\n', draw(text, 'answer rotations\nfirst m a\nend\n', '--lattice', '--ranks', 'both')[1])

    def test_marks(self):
        """The matchings that the program's stored answers have."""
        boxes = self.boxes('five_rotations', '--mark', 'regret', '--mark', 'weight', '--mark', 'median')[0]
        self.assertEqual(boxes['{1}'], ['least regret', 'lightest', '2 1 2 1 1 1'])
        self.assertEqual(boxes['{1, 2}'], ['median', '2 1 3 2 1 1'])
        self.assertEqual(self.boxes('five_rotations', '--median')[2], self.boxes('five_rotations', '--mark', 'median')[2])
        for name, closed in (('weighed', '{1, 2}'), ('two_levels', '{1, 2}'), ('second_weights', '{1}')):
            text = example(name + '.weight_given')
            rotations = re.sub('^(?!first|rotation|needs|end).*\n', '', text, flags=re.M)
            status, picture, fault = draw(example(name + '.txt'), 'answer rotations\n' + rotations, '--lattice', '--mark', 'weight')
            self.assertEqual((status, fault), (0, ''))
            self.assertEqual([label[-1] for label in nodes_of(picture).values() if 'lightest' in label], [closed], name)

    def test_marked_files(self):
        file = os.path.join(EXAMPLES, 'five_rotations.median')
        self.assertEqual(self.boxes('five_rotations', '--mark', file)[0]['{1, 2}'], ['median', '2 1 3 2 1 1'])
        for name in ('three_cycle.median', 'five_rotations.rotations', 'forbidden.median'):
            status, _, fault = draw(example('five_rotations.txt'), example('five_rotations.rotations'), '--lattice', '--mark',
                                    os.path.join(EXAMPLES, name))
            self.assertEqual(status, 1)
            self.assertIn('it has no stable matching of instance.txt', fault)

    def test_no_mark(self):
        """Where nothing is allowed nothing is marked."""
        text = example('forbidden.txt')
        status, picture, _ = draw(text, rotations_of(text), '--lattice', *(it for word in ('regret', 'weight', 'median')
                                                                           for it in ('--mark', word)))
        self.assertEqual(status, 0)
        self.assertNotRegex(picture, 'regret|lightest|median')

    def test_route(self):
        """The text is the one that the program read; both ends are marked, and arrows go as one walks: back by 1, forth by 2."""
        boxes, lines, picture = self.boxes('two_matchings', answer='route')
        self.assertEqual([boxes[it][0] for it in ('{1}', '{2}')], ['left end', 'right end'])
        red = 'color="#c0392b", penwidth=2'
        self.assertEqual(lines, {('{}', '{1}'): f'label=" 1", {red}, dir=back', ('{}', '{2}'): f'label=" 2", {red}',
                                 ('{1}', '{1, 2}'): 'label=" 2"', ('{2}', '{1, 2}'): 'label=" 1"'})
        self.assertEqual(picture.count('penwidth'), 4)
        right = example('two_matchings.route')
        for old, new, what in (('back 1', 'forth 1', 'no such step'), ('forth 2\n', '', 'don\'t lead from the left'),
                               ('left m1 b', 'left m1 a', 'no such step'), ('left m1 b\nleft m2 a\n', '', 'no such step')):
            status, _, fault = draw(example('two_matchings.txt'), right.replace(old, new, 1), '--lattice')
            self.assertEqual(status, 1)
            self.assertIn(what, fault)

    def test_across(self):
        texts = example('two_by_two.txt'), example('two_by_two.rotations')
        for words in ([], ['--lattice']):
            self.assertEqual(draw(*texts, *words, '--across')[1].replace('rankdir=LR, ', ''), draw(*texts, *words)[1])

    def test_parties(self):
        """By hand: an odd party points round and is red, couples have one line, and who is left out is dashed."""
        picture = draw(example('odd_party.txt'), example('odd_party.solve'))[1]
        red = 'color="#c0392b", penwidth=2'
        lines = re.findall(r'^    "(\w+)" -> "(\w+)" \[(.*)\];$', picture, re.M)
        self.assertEqual(lines, [('ann', 'ben', red), ('ben', 'cem', red), ('cem', 'ann', red)])
        self.assertIn(f'"cem" [label="cem", {red}, peripheries=2];', picture)
        self.assertIn('"dan" [label="dan"];', picture)
        self.assertIn('an odd party excludes every stable matching', picture)
        picture = draw(example('odd_party.txt'), example('odd_party.rest'))[1]
        self.assertIn('"ann" [label="ann", style="rounded,dashed"];', picture)
        self.assertIn('"ben" -> "cem" [dir=none];', picture)
        self.assertIn('label="a stable matching"', draw(example('four_persons.txt'), example('four_persons.solve'))[1])
        for answer, what in (('answer solve\npair ann zoe\nend\n', 'zoe isn\'t there'),
                             ('answer solve\nparty ann ben ann\nend\n', 'ann isn\'t there, or stands twice'),
                             (example('four_persons.list'), 'not of `rotations`')):
            status, _, fault = draw(example('four_persons.txt'), answer)
            self.assertEqual(status, 1)
            self.assertIn(what, fault)

    def test_phase_one(self):
        """By hand: ann proposes to ben, who strikes dan; then ben to cem and cem to ann do the same."""
        status, picture, fault = draw(example('odd_party.txt'), '', '--phase-one')
        self.assertEqual((status, fault), (0, ''))
        rows = re.findall('<tr>(.*?)</tr>', picture)
        cells = [[re.sub('<.*?>', ' ', it).split() for it in re.findall('<td.*?</td>', row)] for row in rows]
        self.assertEqual(cells, [[['ann'], ['ben'], ['cem'], ['dan', '3']], [['ben'], ['cem'], ['ann'], ['dan', '1']],
                                 [['cem'], ['ann'], ['ben'], ['dan', '2']], [['dan'], ['ann', '3'], ['ben', '1'], ['cem', '2']]])
        self.assertEqual(picture.count('bgcolor'), 3)
        text = 'stable 1 roommates\np a: b a c\np b: c\np c: b\nend\n'
        self.assertEqual(draw(text, '', '--phase-one')[1].count('not returned'), 3)
        self.assertEqual(draw(example('two_by_two.txt'), '', '--phase-one')[0], 1)

    def test_net_names(self):
        """With names the boxes of a net have moves."""
        with tempfile.TemporaryDirectory() as folder:
            names = os.path.join(folder, 'names.csv')
            with open(names, 'w', encoding='utf-8') as file:
                file.write('side,name,original\n')
                for i, it in ((1, 'a'), (2, 'b'), (3, 'c')):
                    file.write(f'proposer,m{i},Mx {i}\nreviewer,{it},{it}!\n')
            picture = draw(example('weighed.txt'), example('weighed.weight_given'), '--net', '--names', names)[1]
        self.assertIn('label="rotation 1\\ngain 4\\nMx 1: a! to b!\\nMx 2: b! to c!\\nMx 3: c! to a!\\n"', picture)

    def test_svg(self):
        """Without `dot` it says what to install; a graph is drawn where it is there."""
        with tempfile.TemporaryDirectory() as folder:
            file = os.path.join(folder, 'order.svg')
            words = example('two_by_two.txt'), example('two_by_two.rotations'), '--svg', file
            status, picture, fault = draw(*words, path=folder)
            self.assertEqual((status, picture, os.path.exists(file)), (3, '', False))
            self.assertIn('apt-get install graphviz', fault)
            if subprocess.run(['sh', '-c', 'command -v dot'], capture_output=True).returncode == 0:
                self.assertEqual(draw(*words)[0], 0)
                self.assertIn('m1: a to b', text_of(file))

    def test_words(self):
        for words in (['--most', '0'], ['--most', 'x'], ['--latt'], ['--net', '--lattice'], ['--partners'], ['--mark', 'median'],
                      ['--changed'], ['--ranks', 'both'], ['--lattice', '--ranks', 'x'], ['--net', '--phase-one'],
                      ['--lattice', '--partners', '--ranks', 'both'], ['a', 'b']):
            self.assertEqual(draw(example('two_by_two.txt'), '', *words)[0], 2, words)


if __name__ == '__main__':
    unittest.main()
