"""`matchtrim` against all stable matchings found by trying all matchings, against deferred acceptance, and against the answers of
`matchbench`; where no `matchtrim` of these sources is built or released, its stand-in is tried.

TRIM_CASES in the environment says on how many random instances, as in

    TRIM_CASES=2000 python3 -B -m unittest discover -s tools/tests -p test_trim.py
"""
import os
import random
import subprocess
import unittest

import brute
import inside
import program

EXAMPLES = os.path.join(inside.TOOLS, '..', 'examples')
CASES = int(os.environ.get('TRIM_CASES', '40'))
COMMANDS = ('solve', 'solve side=reviewers', 'rotations', 'list limit=1000', 'list limit=2', 'pairs', 'regret', 'survey limit=1000',
            'weight by=ranks', 'weight by=given', 'median')


STAND_IN = os.path.join(inside.TOOLS, 'tests', 'trimmed.py')
FOUND = [os.path.join(inside.TOOLS, '..', '.ci', 'program'), 'matchtrim']
PROGRAM = os.environ.get('MATCHTRIM') or subprocess.run(FOUND, stdout=subprocess.PIPE, check=True).stdout.decode().strip() or STAND_IN


def trim(text, program=PROGRAM, *words):
    """The status of `matchtrim` on a text, and what it writes."""
    done = subprocess.run([program, *words], input=text.encode(), stdout=subprocess.PIPE)
    return done.returncode, done.stdout.decode()


def crowd(pupils, schools, places, listed):
    """A made instance of a placement: each pupil lists so many schools, turned from pupil to pupil, and each school whoever
    lists it, from another pupil on.
    """
    rows = {f'p{i}': [f's{(i * 7 + k * (1 + i % 3)) % schools}' for k in range(listed)] for i in range(pupils)}
    there = {f's{k}': [] for k in range(schools)}
    for p, row in rows.items():
        for s in row:
            there[s].append(p)
    for k, row in enumerate(there.values()):
        row.sort(key=lambda p: (int(p[1:]) * 31 + k * 17) % 1009)
    lines = [f'p {p}: {" ".join(row)}' for p, row in rows.items()]
    lines += [f'r {s} [{places}]: {" ".join(row)}' for s, row in there.items()]
    return '\n'.join(['stable 1 hospitals'] + lines + ['end', ''])


def parts_of(text):
    """The lines of an instance without layout, in the order in which they are printed."""
    order = ('stable', 'p', 'r', 'weight', 'force', 'forbid', 'order', 'end')
    lines = [line.split('#')[0].replace(':', ' : ').replace('[', ' [ ').replace(']', ' ] ').split() for line in text.splitlines()]
    return sorted(filter(None, lines), key=lambda it: order.index(it[0]))


def lines_of(keyword, has):
    """A matching as lines behind an instance."""
    return ''.join(f'{keyword} {p} {r}\n' for p, r in has.items())


class Trim(unittest.TestCase):
    def agrees(self, text):
        """The cut text has fronts of the lists and the same stable matchings with the same ranks, and all answers are the same."""
        status, cut = trim(text)
        self.assertEqual(status, 0, cut)
        self.assertEqual(parts_of(cut), parts_of(trim(text, STAND_IN)[1]))
        before, after = brute.Market(text), brute.Market(cut)
        self.assertEqual(before.capacities, after.capacities)
        for own, other in ((before.p, after.p), (before.r, after.r)):
            self.assertEqual(list(own), list(other))
            self.assertTrue(all(row[:len(other[name])] == other[name] for name, row in own.items()))
        stable = before.stable()
        self.assertEqual(stable, after.stable(), text)
        self.assert_no_longer(after, stable)
        if program.PATH:
            for words in COMMANDS:
                self.assertEqual(program.ask(cut, *words.split()), program.ask(text, *words.split()), (words, text))
            self.judged_alike(text, cut, before, stable)
        return cut != text, len(stable)

    def assert_no_longer(self, market, stable):
        """Full reviewers' and matched proposers' lists end with somebody whom they have in a stable matching."""
        for r, row in market.r.items():
            if 0 < market.capacities[r] == len(market.at(stable[min(stable)], r)):
                self.assertTrue(any(has.get(row[-1]) == r for has in stable.values()))
        for p, row in market.p.items():
            self.assertTrue(p not in stable[min(stable)] or any(has[p] == row[-1] for has in stable.values()))

    def judged_alike(self, text, cut, market, stable):
        """A matching gets the same verdict, and two stable ones have the same meet, join and route."""
        has = random.Random(text).choice(list(market.matchings()))
        answer = f'answer solve side=proposers\n{lines_of("pair", has)}end\n'
        self.assertEqual(program.ask(cut + answer, 'check')[0], program.ask(text + answer, 'check')[0], (text, has))
        both = lines_of('left', stable[min(stable)]) + lines_of('right', stable[max(stable)]) + 'end\n'
        for words in ('meet', 'join', 'route'):
            self.assertEqual(program.ask(cut + both, words), program.ask(text + both, words))

    def test_random(self):
        got = [self.agrees(brute.made_any(seed, 5)) for seed in range(CASES * 3 // 4)]
        self.assertGreater(sum(cut for cut, _ in got), len(got) // 3)
        self.assertGreater(max(count for _, count in got), 1)

    def test_random_opposed(self):
        got = [self.agrees(make(seed)) for seed in range(CASES // 8) for make in (brute.made, brute.made_hospitals)]
        self.assertGreater(max(count for _, count in got), 3)

    def test_lines(self):
        """`south` has no place and loses its list, `city` is full, and `west` isn't; what is cut stays so."""
        with open(os.path.join(EXAMPLES, 'hospitals.txt'), encoding='utf-8') as file:
            text = file.read()
        status, cut = trim(text)
        self.assertEqual(status, 0)
        lists = {line[1]: line[line.index(':') + 1:] for line in parts_of(cut) if line[0] == 'r'}
        self.assertEqual((lists['city'], lists['south']), (['cem', 'ann', 'ben'], []))
        self.assertEqual(trim(cut)[1], cut)

    def test_size(self):
        """An instance above the limit fits afterwards; lists that are short of nothing don't."""
        status, cut_crowd = trim(crowd(2000, 41, 40, 14))
        self.assertEqual(status, 0)
        names = [f'p{i}' for i in range(1100)]
        text = '\n'.join(['stable 1 hospitals', f'r h [1050]: {" ".join(names)}', *(f'p {name}: h' for name in names), 'end', ''])
        status, refused = trim(text)
        self.assertEqual((status, refused.split(' ')[:2]), (1, ['refused', 'TooManySeats']))
        status, fitting = trim(text.replace('[1050]', '[1020]'))
        self.assertEqual(status, 0)
        if program.PATH:
            self.assertEqual([program.ask(it, 'solve')[0] for it in (cut_crowd, fitting)], [0, 0])

    def test_refused(self):
        for text, told in (('stable 1 roommates\np a: b\np b: a\nend\n', 'refused WrongKind 1\n'),
                           ('stable 1 marriage\np a: b\nend\n', 'refused UnknownName 2\n'), ('', 'refused BadHeader 1\n')):
            self.assertEqual(trim(text), (1, told))
        self.assertEqual(trim('', PROGRAM, 'instance.txt'), (2, 'usage 1\n'))


if __name__ == '__main__':
    unittest.main()
