"""`list_all` and `ranges`: parts of listings are together the whole, by the program where it is built, else by one that tries all
matchings.
"""
import os
import re
import stat
import sys
import tempfile
import unittest
from unittest import mock

import brute
import inside
import program
import stand_in

HERE = os.path.dirname(os.path.realpath(__file__))
EXAMPLES = os.path.join(HERE, '..', '..', 'examples')
PROGRAM = program.PATH or os.path.join(HERE, 'stand_in.py')


def example(name):
    with open(os.path.join(EXAMPLES, name + '.txt'), encoding='utf-8') as file:
        return file.read()


def vectors(text):
    """The vectors of a listing."""
    return [() if it == '-' else tuple(map(int, it.split(','))) for it in re.findall(r'^vector (.*)$', text, re.M)]


class Listing(unittest.TestCase):
    def setUp(self):
        self.folder = tempfile.TemporaryDirectory()
        self.addCleanup(self.folder.cleanup)

    def call(self, tool, text, *words, called=PROGRAM):
        """Status, output and faults of a tool on a text."""
        file = os.path.join(self.folder.name, 'instance.txt')
        with open(file, 'w', encoding='utf-8') as out:
            out.write(text)
        path = os.path.dirname(sys.executable) + os.pathsep + os.environ['PATH']
        with mock.patch.dict(os.environ, {'MATCHBENCH': called, 'PATH': path}):
            status, written, fault = inside.call(tool, file, *words)
        return status, written, fault.replace(file, 'instance.txt')

    def script(self, text):
        """A program that does what a text says."""
        path = os.path.join(self.folder.name, 'script')
        with open(path, 'w', encoding='utf-8') as file:
            file.write(f'#!/bin/sh\n{text}\n')
        os.chmod(path, stat.S_IRWXU)
        return path

    def parts(self, text, count):
        """The bounds of the parts, and what each has."""
        status, ranges, fault = self.call('ranges', text, str(count))
        self.assertEqual((status, fault), (0, ''))
        bounds = [line.split(' ') for line in ranges.splitlines()]
        self.assertLessEqual(len(bounds), count)
        self.assertEqual([bounds[0][0], bounds[-1][1]], ['-', '-'])
        self.assertEqual([it[0] for it in bounds[1:]], [it[1] for it in bounds[:-1]])
        got = []
        for after, until in bounds:
            status, written, fault = self.call('list_all', text, '--after', after, '--until', until)
            self.assertEqual((status, fault), (0, ''))
            got.append(vectors(written))
        return bounds, got

    def test_examples(self):
        for name, count in (('five_rotations', 3), ('three_cycle', 2), ('hospitals', 5)):
            status, whole, fault = self.call('list_all', example(name))
            self.assertEqual((status, fault), (0, ''))
            self.assertEqual(vectors(whole), sorted(brute.Market(example(name)).stable()))
            got = self.parts(example(name), count)[1]
            self.assertEqual(sum(got, []), vectors(whole))
            self.assertTrue(all(got))
        self.assertEqual(self.call('ranges', example('five_rotations'), '3')[1],
                         '- 2,1,3,2,1,0\n2,1,3,2,1,0 2,2,3,3,2,2\n2,2,3,3,2,2 -\n')

    def test_steps(self):
        """However many are asked for at a time, the whole is the same; bounds hold across steps."""
        whole = self.call('list_all', example('five_rotations'))[1]
        for step in ('2', '9'):
            self.assertEqual(self.call('list_all', example('five_rotations'), '--step', step), (0, whole, ''))
        lines = whole.splitlines(True)
        for i, j in ((2, 8), (4, 4)):
            bounds = ['--after', lines[i][7:-1], '--until', lines[j][7:-1], '--step', '2']
            self.assertEqual(self.call('list_all', example('five_rotations'), *bounds), (0, ''.join(lines[i + 1:j + 1]), ''))
        self.assertEqual(self.call('list_all', example('five_rotations'), '--until', '2,1,3,0,0,0')[1], ''.join(lines[:3]))

    def test_random(self):
        """As many parts as there are matchings have one each, where nothing is forbidden."""
        counts = set()
        for seed in range(9 if program.PATH else 4):
            text = brute.made_any(seed, 5) if seed % 3 else (brute.made(seed) if seed % 2 else brute.made_hospitals(seed))
            wanted = stand_in.allowed(text, brute.Market(text))
            bounds, got = self.parts(text, 1000 if seed % 4 else 2)
            self.assertEqual(sum(got, []), wanted, text)
            if 'forbid ' not in text and wanted and seed % 4:
                self.assertEqual(len(bounds), len(wanted), text)
            counts.add(len(wanted))
        self.assertTrue(1 in counts and max(counts) > 1, counts)

    def test_roommates(self):
        """Two rings of four persons, each with two stable matchings, in steps and between bounds."""
        text = 'stable 1 roommates\np a: b d\np b: c a\np c: d b\np d: a c\np e: f h\np f: g e\np g: h f\np h: e g\nend\n'
        one, other = (1, 2, 1, 2), (2, 1, 2, 1)
        wanted = [one + one, one + other, other + one, other + other]
        for step in ('1', '3', '9'):
            status, written, fault = self.call('list_all', text, '--step', step)
            self.assertEqual((status, vectors(written), fault), (0, wanted, ''))
        bounds = '--after', '1,2,1,2,1,9,0,0', '--until', '2,1,2,1,1,2,1,2'
        self.assertEqual(vectors(self.call('list_all', text, *bounds, '--step', '1')[1]), wanted[1:3])
        self.assertEqual(self.call('list_all', example('odd_party')), (0, '', ''))

    def test_nobody(self):
        """An instance without proposers has one vector, without numbers."""
        text = 'stable 1 marriage\nr a:\nend\n'
        self.assertEqual(self.call('ranges', text, '4'), (0, '- -\n', ''))
        self.assertEqual(self.call('list_all', text, '--after', '-', '--until', '-'), (0, 'vector -\n', ''))

    def test_conditions(self):
        text = example('five_rotations')
        for lines, count in (('force ann biology', 2), ('forbid ann art', 8), ('force ann biology\nforce ben biology', 0),
                             ('force ann english', 0)):
            conditioned = text.replace('end\n', lines + '\nend\n')
            wanted = stand_in.allowed(conditioned, brute.Market(text))
            self.assertEqual(len(wanted), count)
            bounds, got = self.parts(conditioned, 5)
            self.assertEqual(sum(got, []), wanted)
            self.assertLessEqual(len(bounds), max(1, 2 * count))

    def test_refused(self):
        text, rooms = example('five_rotations'), example('roommates')
        self.assertEqual(self.call('ranges', rooms, '4'),
                         (1, '', 'ranges: instance.txt: roommates have no rotations, by which a listing is cut\n'))
        self.assertEqual(self.call('ranges', text.replace('end\n', ''), '4')[0], 1)
        for tool, words in (('ranges', ['0']), ('ranges', ['x']), ('ranges', []), ('list_all', ['--until', '1,,2']),
                            ('list_all', ['--after', 'x']), ('list_all', ['--step', '0']), ('list_all', ['--until', '1,2'])):
            self.assertEqual(self.call(tool, text, *words)[0], 2, words)

    def test_statuses(self):
        """The program's status is the tool's; an answer that breaks off isn't whole."""
        text = example('five_rotations')
        for script, status, what in (
                ('echo refused WrongKind 1; exit 1', 1, 'the program says: refused WrongKind 1'),
                ('echo usage 2; exit 2', 2, 'the program says: usage 2'), ('exit 4', 4, 'ended with 4: there was no memory'),
                ('exit 70', 70, 'ended with 70: there is no program to call')):
            for tool, words in (('list_all', []), ('ranges', ['3'])):
                got, written, fault = self.call(tool, text, *words, called=self.script('cat >/dev/null\n' + script))
                self.assertEqual((got, written), (status, ''))
                self.assertIn(what, fault)
        front = 'cat >/dev/null; echo "answer list limit=1000000"; echo vector 1,1,1,1,1,1'
        got = self.call('list_all', text, called=self.script(front + '; exit 6'))
        self.assertEqual(got, (6, 'vector 1,1,1,1,1,1\n', 'list_all: the program ended with 6: writing failed\n'))
        got = self.call('list_all', text, called=self.script(front))
        self.assertEqual(got, (1, 'vector 1,1,1,1,1,1\n', 'list_all: the program\'s answer isn\'t whole\n'))
        self.assertEqual(self.call('list_all', text, called=os.path.join(self.folder.name, 'none'))[0], 1)


if __name__ == '__main__':
    unittest.main()
