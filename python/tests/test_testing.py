"""`matchbench.testing`: made instances are what their shapes say and always the same, and of those that fail little is left."""
import hashlib
import importlib.util
import os
import random
import subprocess
import sys
import unittest

HERE = os.path.dirname(os.path.realpath(__file__))
TOP = os.path.join(HERE, '..', '..')
sys.path.insert(0, os.path.join(TOP, 'python'))

import matchbench  # noqa: E402
from matchbench import Instance, NoMatching, ProgramMissing, testing  # noqa: E402
from matchbench.testing import Draft, made, smallest  # noqa: E402

try:
    matchbench.find_program()
    HAS_PROGRAM = True
except ProgramMissing:
    HAS_PROGRAM = False
asks = unittest.skipUnless(HAS_PROGRAM, 'the program isn\'t built')
SIZES = range(1, 8)


def several(shape, sizes=SIZES):
    """Instances of a shape."""
    return [made(shape, size, seed) for size in sizes for seed in range(6)]


def entries(instance):
    """The entries of all proposers."""
    return {(p, r) for p, row in instance.proposers.items() for r in row}


class Same(unittest.TestCase):
    """Always the same instances. That they are those of other machines can only be seen by a sum of all their texts."""

    def test_numbers(self):
        """The numbers are those that Python promises of a seed that is a whole number."""
        seed = int.from_bytes(hashlib.sha256(b'a 1').digest(), 'big')
        wanted = random.Random(seed)
        draw = testing.Draw('a', 1)
        self.assertEqual([draw.below(1000) for _ in range(100)], [int(wanted.random() * 1000) for _ in range(100)])
        self.assertEqual(random.Random(1).random(), 0.13436424411240122)

    def test_sum(self):
        texts = ''.join(testing.case(number, shapes=tuple(testing.SHAPES)).draft.text() for number in range(480))
        self.assertEqual(hashlib.sha256(texts.encode()).hexdigest(), SUM)

    def test_hashes(self):
        """The order in which Python keeps sets, which differs from run to run, has no part in it."""
        words = 'import sys; sys.path.insert(0, "python"); from matchbench import testing; ' \
            'print("".join(testing.case(it, shapes=tuple(testing.SHAPES)).draft.text() for it in range(200)))'
        texts = []
        for seed in '12':
            how = {'cwd': TOP, 'env': {**os.environ, 'PYTHONHASHSEED': seed}, 'stdout': subprocess.PIPE, 'check': True}
            texts.append(subprocess.run([sys.executable, '-B', '-c', words], **how).stdout)
        self.assertEqual(*texts)

    def test_cases(self):
        """A case is that of `made`, whichever cases are made with it; sizes rise."""
        case = testing.case(25, 3)
        self.assertEqual((case.shape, case.size, case.seed), (testing.TWO_SIDED[6], 3, 3 * 2 ** 32 + 25))
        self.assertEqual(made(case.shape, case.size, case.seed).to_text(), case.draft.text())
        self.assertEqual([it.to_text() for it in testing.random(30, 3)][25], case.draft.text())
        turns = [testing.case(turn * len(testing.TWO_SIDED)).size for turn in range(9)]
        self.assertEqual(turns[:8], [2, 3, 1, 4, 5, 6, 7, 8])
        self.assertEqual({testing.case(number, most=1).size for number in range(99)}, {1})
        self.assertEqual([it.kind for it in testing.random(3, shapes=testing.ROOMS)], ['roommates'] * 3)

    def test_refused(self):
        for words, told in ((('xyz', 3, 1), 'there is no shape \'xyz\': complete, '),
                            (('cycles', 3, 1), 'is \'cycle\' meant?'), (('cycle', 0, 1), 'the size is 0, and not 1 or more')):
            with self.assertRaises(ValueError) as caught:
                made(*words)
            self.assertIn(told, str(caught.exception))


class Shapes(unittest.TestCase):
    """Each shape has what it is said to have."""

    def test_lists(self):
        for it in several('complete') + several('opposed') + several('cycle'):
            self.assertEqual((it.kind, len(it.proposers)), ('marriage', len(it.reviewers)))
            self.assertTrue(all(len(row) == len(it.proposers) for side in (it.proposers, it.reviewers) for row in side.values()))
        self.assertTrue(any(len(row) < len(it.reviewers) for it in several('incomplete', [5]) for row in it.proposers.values()))
        for shape in ('incomplete', 'crowded', 'hospitals', 'exam', 'lot', 'sparse', 'short', 'roomy', 'zero'):
            for it in several(shape):
                self.assertEqual(entries(it), {(p, r) for r, row in it.reviewers.items() for p in row}, shape)
        inert = several('inert', [4, 5])
        self.assertGreater(sum(any(p not in it.reviewers[r] for p, r in entries(it)) for it in inert), 8)
        for it in several('empty', [2, 5]):
            self.assertIn((), it.proposers.values())
            self.assertTrue(len(it.reviewers) == 1 or () in it.reviewers.values())
        for it in several('exam', [6]):
            for one in it.reviewers.values():
                for other in it.reviewers.values():
                    both = [p for p in one if p in other]
                    self.assertEqual(both, [p for p in other if p in one])

    def test_places(self):
        for it in several('crowded'):
            self.assertTrue(all(count >= 2 for count in it.capacities.values()))
        self.assertTrue(all(sum(it.capacities.values()) < len(it.proposers) for it in several('crowded', [2, 4])))
        self.assertTrue(all(set(it.capacities.values()) <= {2, 3} for it in several('hospitals')))
        self.assertGreater(sum(0 in it.capacities.values() for it in several('zero')), 30)
        self.assertTrue(all(sum(it.capacities.values()) >= len(it.proposers) for it in several('roomy')))
        self.assertTrue(all(not it.proposers or not it.reviewers or len(it.proposers) == 1 for it in several('nobody')))
        self.assertGreater(sum(bool(set(it.proposers) & set(it.reviewers)) for it in several('names', [5, 6])), 6)

    @asks
    def test_matchings(self):
        """How many stable matchings there are."""
        for size in SIZES:
            self.assertEqual(made('cycle', size, 1).survey().listed, size)
            self.assertEqual(made('blocks', size, 1).survey().listed, 2 ** ((size + 1) // 2))
            self.assertGreaterEqual(sum(1 for _ in made('rings', size, 1).list()), 2 ** max(1, size // 3))
            self.assertRaises(NoMatching, made('odd', size, 1).solve)
        for shape in ('opposed', 'hospitals'):
            self.assertGreater(sum(it.survey().listed > 1 for it in several(shape, [6, 7, 8])), 12)
        self.assertGreater(sum(len(it.rotations().rotations) > 3 for it in several('opposed', [7, 8])), 6)

    @asks
    def test_conditions(self):
        conditioned = several('conditions')
        self.assertGreater(sum(sum(1 for _ in it.list()) < 1 for it in conditioned), 3)
        self.assertTrue(all('\nweight ' in it.to_text() for it in several('weights', [3])))

    @asks
    def test_taken(self):
        """The program takes them all, also the large ones, and their JSON is that of `export`."""
        for shape in testing.SHAPES:
            for size in SIZES:
                draft = Draft.of(made(shape, size, 5))
                self.assertEqual(draft.instance().to_json(), draft.json())
        for number in range(len(testing.LARGE)):
            draft = testing.case(testing.FIRST_LARGE + number).draft
            self.assertGreater(len(draft.instance().solve().pairs), 200)


class Drafts(unittest.TestCase):
    @asks
    def test_text(self):
        """All that an instance may have, by the names of the text; master lists and orders are written out."""
        conditions = 'weight a x 3 -4\nweight b y 1\nforce a x\nforbid b y\n'
        front = 'stable 2 hospitals\nmaster n: x y\nmaster m: a b\np a: [n]\np b: y\nr x [2]: [m]\nr y: b # one\n'
        draft = Draft.of(Instance.from_text(front + conditions + 'order b\nend\n'))
        self.assertEqual(draft.text(), 'stable 2 hospitals\np a: x y\np b: y\nr x [2]: a b\nr y [1]: b\n' + conditions
                         + 'order b a\nend\n')
        self.assertEqual(Instance.from_json(draft.json()).to_text(), draft.text())
        less = draft.without(['b'])
        self.assertEqual(less.text(), 'stable 2 hospitals\np a: x y\nr x [2]: a\nr y [1]:\nweight a x 3 -4\nforce a x\norder a\n'
                         'end\n')
        self.assertEqual(draft.without(['x'], True).text(),
                         'stable 2 hospitals\np a: y\np b: y\nr y [1]: b\nweight b y 1\nforbid b y\norder b a\nend\n')

    def test_names(self):
        lists, rows = {'Zoë': ['Дом 5'], 'ann': ['Дом 5', 'x']}, {'Дом 5': ['ann', 'Zoë'], 'x': ['ann']}
        instance = Instance.hospitals(lists, rows, {'Дом 5': 2, 'x': 1})
        again = Draft.of(instance).instance()
        self.assertEqual((again.to_text(), dict(again.proposers), dict(again.capacities)),
                         (instance.to_text(), dict(instance.proposers), dict(instance.capacities)))
        less = Draft.of(instance).without(['ann']).instance()
        self.assertEqual((dict(less.proposers), dict(less.reviewers)), ({'Zoë': ('Дом 5',)}, {'Дом 5': ('Zoë',), 'x': ()}))
        rooms = Draft.of(Instance.roommates({'Zoë': ['Ann'], 'Ann': ['Zoë']})).without(['Ann']).instance()
        self.assertEqual(dict(rooms.proposers), {'Zoë': ()})


class Smallest(unittest.TestCase):
    def test_by_hand(self):
        """What is left is what the failure needs."""
        def two_choices(it):
            return any(len(row) > 1 for row in it.proposers.values())

        def crowded(it):
            return any(0 < count < len(it.reviewers[r]) for r, count in it.capacities.items())

        for seed in range(5):
            instance = made('crowded', 4, seed)
            less = smallest(instance, two_choices)
            lengths = [list(map(len, side.values())) for side in (less.proposers, less.reviewers)]
            self.assertEqual((less.kind, lengths), ('hospitals', [[2], [0, 0]]))
            self.assertEqual(list(less.capacities.values()), [0, 0])
            less = smallest(instance, crowded)
            self.assertEqual((less.kind, len(less.proposers), list(less.capacities.values())), ('marriage', 2, [1]))
            self.assertEqual(list(less.proposers.values()), [(), ()])
        rooms = smallest(made('odd', 6, 1), lambda it: any(len(row) > 1 for row in it.proposers.values()))
        self.assertEqual(sorted(map(len, rooms.proposers.values())), [0, 0, 2])

    def test_names_stay(self):
        instance = Instance.marriage({'Zoë': ['Дом 5', 'x'], 'ann': ['x']}, {'Дом 5': ['Zoë'], 'x': ['ann', 'Zoë']})
        less = smallest(instance, lambda it: 'Дом 5' in it.proposers.get('Zoë', ()))
        self.assertEqual((dict(less.proposers), dict(less.reviewers)), ({'Zoë': ('Дом 5',)}, {'Дом 5': ()}))

    def test_conditions(self):
        instance = Instance.from_text('stable 2 marriage\np a: x y\np b: x y\nr x: a b\nr y: a b\nweight a x 1 2\nweight b y 3\n'
                                      'force a x\nforbid b y\norder b\nend\n')
        for kept in ('weight b y 3', 'force a x', 'forbid b y', 'order b'):
            less = smallest(instance, lambda it, kept=kept: f'\n{kept}\n' in it.to_text())
            names = kept.split(' ')
            wanted = ['p b:'] if names[0] == 'order' else [f'p {names[1]}:', f'r {names[2]}:']
            head = f'stable {2 if names[0] == "order" else 1} marriage'
            self.assertEqual(less.to_text(), '\n'.join([head, *wanted, kept, 'end', '']))

    def test_bounds(self):
        """It asks no more often than it may, gives back what can't be smaller, and lets faults through."""
        count = []
        instance = made('complete', 6, 1)
        self.assertEqual(smallest(instance, lambda it: count.append(1), 7).to_text(), instance.to_text())
        self.assertEqual(len(count), 7)
        self.assertEqual(smallest(instance, lambda it: True).to_text(), 'stable 1 marriage\nend\n')
        with self.assertRaises(ZeroDivisionError):
            smallest(instance, lambda it: 1 / 0)

    @asks
    def test_found(self):
        """The mistake of looking at first choices alone needs two proposers that have the same one."""
        def fails(instance):
            first = {p: row[0] for p, row in instance.proposers.items() if row}
            return instance.check_matching(first, 'proposers').reason == 'NotAMatching'
        found = next(it for it in testing.random(50) if fails(it))
        less = smallest(found, fails)
        self.assertLessEqual(len(less.proposers) + len(less.reviewers), 3)


class Strategies(unittest.TestCase):
    def test_refused(self):
        self.assertRaises(ValueError, testing.instances, 'couples')
        if importlib.util.find_spec('hypothesis') is None:
            self.assertRaises(ImportError, testing.instances)

    @unittest.skipIf(importlib.util.find_spec('hypothesis') is None, 'hypothesis is missing')
    def test_drawn(self):
        import hypothesis
        for kind in ('marriage', 'hospitals', 'roommates'):
            seen = []

            @hypothesis.settings(max_examples=60, deadline=None, database=None)
            @hypothesis.given(testing.instances(kind, 4))
            def drawn(instance):
                seen.append(instance)
            drawn()
            self.assertEqual({it.kind for it in seen}, {kind})
            self.assertEqual({len(it.proposers) for it in seen}, {0, 1, 2, 3, 4})
            self.assertTrue(all(Draft.of(it).text() == it.to_text() for it in seen))
        least = hypothesis.find(testing.instances('hospitals', 5), lambda it: any(len(row) > 1 for row in it.proposers.values()))
        self.assertEqual((len(least.proposers), len(least.reviewers)), (1, 2))


SUM = '5b210191fff0cb286230d372f62469645d1eb8097aaab8dd87a7f119c9d88c04'


if __name__ == '__main__':
    unittest.main()
