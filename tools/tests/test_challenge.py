"""`challenge`: right and wrong solvers by both protocols, all claims, reports, and folders of cases."""
import json
import os
import subprocess
import sys
import tempfile
import textwrap
import unittest
import xml.etree.ElementTree
from unittest import mock

import inside
import program
import solvers
from trials.solver import rows_of_line, rows_of_table

HERE = os.path.dirname(os.path.realpath(__file__))
TOP = os.path.join(HERE, '..', '..')
GATE = os.path.join(HERE, 'solvers.py')

# Answers each line with what the program answers to its words, as pairs, or `null` where it has none.
OWN = """
import json, subprocess, sys
for line in sys.stdin:
    done = subprocess.run([{program!r}, *sys.argv[1:], 'form=json'], input=line.encode(), stdout=subprocess.PIPE)
    answer = json.loads(done.stdout)
    print(json.dumps(None if 'none' in answer else [it.split()[1:] for it in answer if it.startswith('pair ')]), flush=True)
"""


class Case(unittest.TestCase):
    def setUp(self):
        if program.PATH is None:
            self.skipTest('no program')
        folder = tempfile.TemporaryDirectory()
        self.addCleanup(folder.cleanup)
        self.folder = folder.name

    def put(self, name, text):
        """A file in the folder; its path."""
        path = os.path.join(self.folder, name)
        with open(path, 'w', encoding='utf-8') as file:
            file.write(textwrap.dedent(text))
        return path

    def call(self, *words):
        """Status, output and faults of the tool."""
        with mock.patch.dict(os.environ, {'MATCHBENCH': program.PATH}):
            return inside.call('challenge', *words, folder=TOP)

    def lines(self, name, *words):
        """The status and the report of one of the solvers here, by the protocol of lines."""
        folder = os.path.join(self.folder, f'report-{name}')
        command = sys.executable, '-B', GATE, name
        status, written, fault = self.call('--protocol', 'lines', *words, '--report', folder, '--', *command)
        self.assertEqual(fault, '')
        with open(os.path.join(folder, 'report.json'), encoding='utf-8') as file:
            report = json.load(file)
        with open(os.path.join(folder, 'report.txt'), encoding='utf-8') as file:
            self.assertEqual(file.read(), written)
        return status, report

    def tried(self, script, *words, behind=()):
        """The status and the output for a script in Python, with words behind it."""
        path = self.put('script.py', script)
        status, written, fault = self.call('--jobs', '2', *words, '--', sys.executable, '-B', path, *behind)
        self.assertEqual(fault, '')
        return status, written


def agents_of(failure):
    """How many agents a least instance has."""
    return sum(len(failure['least'].get(it, [])) for it in ('proposers', 'reviewers', 'persons'))


class Solvers(Case):
    def test_right(self):
        status, report = self.lines('right', '--cases', '300')
        self.assertEqual((status, report['counts']['right'], report['failures']), (0, 300, []))
        rows = {it['feature']: it['instances'] for it in report['tried']}
        never = [name for name, count in rows.items() if not count]
        self.assertEqual(never, ['weights', 'forced or forbidden pairs', 'more than 30 pairs', '1,000 agents or more'])

    def test_gate(self):
        """Each of the four is found, by what it does wrong, with a least instance of four agents at most."""
        wanted = {'best_for_reviewers': 'NotBest', 'last_admitted': 'Blocked', 'unlisted': 'NotAMatching',
                  'crash_at_zero': 'ValueError'}
        self.assertEqual(set(wanted), set(solvers.GATE))
        for name in solvers.GATE:
            status, report = self.lines(name, '--cases', '100')
            self.assertEqual(status, 9 if name == 'crash_at_zero' else 7)
            first = report['failures'][0]
            self.assertEqual((first['kind'], first['reason'].split(':')[0]), ('crash' if status == 9 else 'wrong', wanted[name]))
            for failure in report['failures']:
                self.assertLessEqual(agents_of(failure), 4, failure['text'])
                self.assertTrue(failure['fails_alone'])

    def test_last_admitted(self):
        """It falls within 20 cases of seed 1. Two places and three proposers are needed for it."""
        status, report = self.lines('last_admitted', '--cases', '20')
        self.assertEqual(status, 7)
        least = report['failures'][0]['least']
        self.assertEqual([len(it['list']) for it in least['proposers']], [1, 1, 1])
        self.assertEqual([(it['capacity'], len(it['list'])) for it in least['reviewers']], [(2, 3)])
        self.assertIn('have one another', report['failures'][0]['wrong'][0])

    def test_keeps_something(self):
        """A solver that remembers other instances isn't told to be wrong on the one that is shown."""
        status, report = self.lines('remembers', '--cases', '40', '--jobs', '1')
        self.assertEqual(status, 7)
        self.assertFalse(any(it['fails_alone'] for it in report['failures']))
        first = report['failures'][0]
        self.assertIn(f'--cases {first["cases"][0] + 1} --jobs 1', first['again'])

    def test_again(self):
        """The words that are told fail in the same way."""
        report = self.lines('three_choices', '--cases', '100')[1]
        words = report['failures'][0]['again'].split(' ')
        self.assertEqual(os.path.basename(words[0]), 'challenge')
        status, written, _ = self.call(*words[1:])
        self.assertEqual(status, 7)
        self.assertTrue(written.startswith('1 instance of seed 1: 0 right, 1 wrong\n'), written)


class Protocols(Case):
    RIGHT = """
        import csv, json, sys
        sys.path.insert(0, {here!r})
        import solvers
        instance = json.load(open(sys.argv[1] + '/instance.json') if sys.argv[1:] else sys.stdin)
        {check}
        out = csv.writer(sys.stdout)
        out.writerow(['who', 'where'])
        out.writerows(solvers.Right(instance).pairs())
        """

    def test_process(self):
        status, written = self.tried(self.RIGHT.format(here=HERE, check=''), '--cases', '40')
        self.assertEqual((status, written.split('\n')[0]), (0, '40 instances of seed 1: 40 right'))

    def test_folder(self):
        check = ("text, head = open(sys.argv[1] + '/instance.txt').read(), open(sys.argv[1] + '/reviewers.csv').readline(); "
                 "assert text.startswith('stable 1') and head.startswith('name,capacity'); "
                 "table = list(csv.reader(open(sys.argv[1] + '/proposers.csv'))); "
                 "assert [row[0] for row in table[1:]] == [it['name'] for it in instance['proposers']]")
        status, written = self.tried(self.RIGHT.format(here=HERE, check=check), '--cases', '20', behind=['{dir}'])
        self.assertEqual((status, written.split('\n')[0]), (0, '20 instances of seed 1: 20 right'))

    def test_text(self):
        script = 'import sys\nassert sys.stdin.read().startswith("stable 1 roommates\\n")\nprint("a,b\\nnone")\n'
        status, written = self.tried(script, '--cases', '9', '--input', 'text', '--shapes', 'odd')
        self.assertEqual((status, written.split('\n')[0]), (0, '9 instances of seed 1: 9 right'))

    def failed(self, script, told, kind, *words):
        """Whether case 0 fails as it should for a script in Python, and is told as no wrong answer."""
        limit = '0.3' if 'sleep' in script else '20'
        status, written = self.tried(script, '--only', '0', '--budget', '1', '--seconds', limit, *words)
        self.assertEqual(status, 9, script)
        self.assertIn(f'\n{kind}: once, first in case 0', written)
        self.assertIn(told, written)

    def test_failures(self):
        for script, told, kind in (
                ('import sys; sys.exit("no licence: p1")', 'it ended with status 1: no licence: p1', 'crash, no licence: *'),
                ('import os; os.kill(os.getpid(), 11)', 'it ended with signal 11', 'crash, signal 11'),
                ('import time; time.sleep(60)', 'it wrote no end within 0.3 s', 'timeout, it wrote no end within * s'),
                ('', 'the header row is missing: it wrote nothing', 'unreadable, the header row is missing: it wrote nothing'),
                ('print("p,r\\nzoe,r1")', 'row 2: no proposer is called \'zoe\'', 'unreadable, row *: no proposer is called *'),
                ('print("p,r\\np2,r99")', 'row 2: no reviewer is called \'r99\'', 'unreadable, row *: no reviewer is called *'),
                ('print("p,r\\nr1,p2")', 'no proposer is called \'r1\'; are the columns the other way round?',
                 'unreadable, row *: no proposer is called *; are the columns the other wa'),
                ('print("p2,r1\\np1,")', 'the header row is missing: the first row has a pair',
                 'unreadable, the header row is missing: the first row has a pair'),
                ('print(\'"a\')', 'no table: unexpected end of data', 'unreadable, this is no table: unexpected end of data')):
            self.failed(script, told, kind)

    def test_line_failures(self):
        for script, told, kind in (
                ('print("no")', 'the line is no JSON: \'no\'', 'unreadable, the line is no JSON: *'),
                ('print("7")', 'no object: \'7\'', 'unreadable, the line is no array of pairs and no object: *'),
                ('print(\'[["p1"]]\')', 'pair 1 has not two names: \'["p1"]\'', 'unreadable, pair * has not two names: *'),
                ('print("[]\\n[]")', 'it wrote more than one line', 'unreadable, it wrote more than one line'),
                ('', 'it ended without an answer', 'crash, it ended without an answer'),
                ('raise KeyError("p1")', 'KeyError: \'p1\'', 'crash, KeyError: *'),
                ('time.sleep(60)', 'it wrote no line within 0.3 s', 'timeout, it wrote no line within * s')):
            self.failed(f'import time; input(); {script}', told, kind, '--protocol', 'lines')

    def test_none_and_wrong(self):
        """A wrong answer beside a crash: the status is that of the wrong one. Nothing is no right answer of two sides."""
        script = 'import json, sys\nit = json.load(sys.stdin)\nif len(it["proposers"]) > 3: sys.exit(1)\nprint("p,r\\nnone")\n'
        status, written = self.tried(script, '--cases', '20')
        self.assertEqual(status, 7)
        self.assertIn('\nwrong, NotNone: ', written)
        self.assertIn('there is a matching', written)
        self.assertIn('\ncrash, status 1: ', written)

    def test_rows(self):
        self.assertIsNone(rows_of_table('a,b\nnone\n'))
        self.assertEqual(rows_of_table('a,b\nnone,\n')[1:], [('row 2', 'none', '')])
        self.assertEqual(rows_of_table('a;b\r\n"x";y\r\n')[1:], [('row 2', 'x', 'y')])
        self.assertEqual(rows_of_table('a,b\n\n x , y,z\nw\n'), [('row 1', 'a', 'b'), ('row 3', 'x', 'y'), ('row 4', 'w', '')])
        self.assertEqual(rows_of_line('{"x":"y","w":null}')[1:], [('pair 1', 'x', 'y'), ('pair 2', 'w', '')])
        self.assertEqual(rows_of_line('[["x","y"],["w",null]]')[1:], [('pair 1', 'x', 'y'), ('pair 2', 'w', '')])
        self.assertIsNone(rows_of_line('null'))


class Claims(Case):
    def own(self, words, *options):
        """The status and the output where the program itself is the solver."""
        path = self.put('own.py', OWN.format(program=program.PATH))
        command = sys.executable, '-B', path, *words.split()
        status, written, fault = self.call('--protocol', 'lines', '--jobs', '2', *options, '--', *command)
        self.assertEqual(fault, '')
        return status, written

    def test_right(self):
        for words, claim, shapes in (
                ('solve', 'proposers', None), ('solve side=reviewers', 'reviewers', None),
                ('solve side=reviewers', 'stable', None),
                ('regret', 'regret', None), ('weight by=ranks', 'weight-ranks', 'weights,conditions'),
                ('weight by=given', 'weight-given', 'weights,conditions'), ('regret', 'stable', 'conditions'),
                ('solve', 'roommates', None)):
            status, written = self.own(words, '--claim', claim, '--cases', '30', *(['--shapes', shapes] if shapes else []))
            self.assertEqual((status, written.split('\n')[0]), (0, '30 instances of seed 1: 30 right'), claim)

    def test_wrong(self):
        for words, claim, kind, told in (
                ('solve', 'reviewers', 'wrong, NotBest', ' is right\n'),
                ('solve', 'regret', 'wrong, NotLeast', 'but its regret is'),
                ('solve', 'weight-ranks', 'wrong, NotLeast', 'but its weight is'),
                ('solve', 'weight-given', 'wrong, NotLeast', 'and the least is'),
                ('solve', 'weight-given', 'wrong, NotAllowed', 'the conditions don\'t allow the matching')):
            shapes = 'conditions,weights,hospitals,opposed' if claim != 'reviewers' else 'opposed'
            status, written = self.own(words, '--claim', claim, '--cases', '60', '--shapes', shapes)
            self.assertEqual(status, 7)
            self.assertIn(f'\n{kind}: ', written)
            self.assertIn(told, written)

    def test_roommates(self):
        """Who says that there is nothing, or that all are alone, is wrong."""
        status, written = self.tried('print("a,b\\nnone")', '--claim', 'roommates', '--cases', '12')
        self.assertEqual(status, 7)
        self.assertIn('wrong, NotNone', written)
        status, written = self.tried('print("a,b")', '--claim', 'roommates', '--cases', '12')
        self.assertEqual(status, 7)
        self.assertRegex(written, r'\n    stable 1 roommates\n    p (p\d): (p\d)\n    p \2: \1\n    end\n')

    def test_regret(self):
        """Of the smallest instance with two stable matchings both have regret 2, so either is right; by weight too."""
        for words in ('solve side=proposers', 'solve side=reviewers'):
            for claim in ('stable', 'regret', 'weight-ranks'):
                self.assertEqual(self.own(words, '--claim', claim, '--shapes', 'cycle', '--size', '2', '--cases', '4')[0], 0)


class Words(Case):
    def test_faulty(self):
        for words, told in (
                ([], 'the solver\'s command stands behind --'), (['--'], 'the solver\'s command stands behind --'),
                (['--cases', '0', '--', 'x'], '\'0\' is no whole number from 1'),
                (['--seed', 'x', '--', 'x'], '\'x\' is no whole number'),
                (['--seconds', '-1', '--', 'x'], 'is no time in seconds'), (['--claim', 'best', '--', 'x'], 'invalid choice'),
                (['--shapes', 'square', '--', 'x'], 'there is no shape \'square\': complete, '),
                (['x'], 'unrecognized arguments: x'),
                (['--shapes', 'rooms,odd,cycle', '--', 'x'], 'the shapes of roommates'),
                (['--shapes', 'rooms', '--claim', 'stable', '--', 'x'], 'the shapes of roommates'),
                (['--claim', 'roommates', '--shapes', 'cycle', '--', 'x'], 'the shapes of roommates'),
                (['--claim', 'roommates', '--large', '--', 'x'], 'two sides'),
                (['--protocol', 'lines', '--input', 'text', '--', 'x'], 'in JSON'),
                (['--protocol', 'lines', '--', 'x', '{dir}'], 'in JSON'),
                (['--only', '1000005', '--', 'x'], 'there is no case 1000005'),
                (['--cases', '1000001', '--', 'x'], 'a seed has 1,000,000 cases'),
                (['--corpus', 'x', '--', 'x'], 'no solver is called'),
                (['--', os.path.join(self.folder, 'none')], 'none can\'t be started: No such file or directory')):
            status, written, fault = self.call(*words)
            self.assertEqual((status, written), (2, ''), words)
            self.assertIn(told, fault)

    def test_no_program(self):
        with mock.patch.dict(os.environ, {'MATCHBENCH': os.path.join(self.folder, 'none')}):
            status, written, fault = inside.call('challenge', '--', 'true', folder=TOP)
        self.assertEqual((status, written), (1, ''))
        self.assertIn('which is no program', fault)

    def test_failing_program(self):
        path = self.put('program', '#!/bin/sh\necho refused TooLong 0\nexit 1\n')
        os.chmod(path, 0o700)
        with mock.patch.dict(os.environ, {'MATCHBENCH': path}):
            words = '--cases', '3', '--', sys.executable, '-c', 'print("p,r")'
            status, written, fault = inside.call('challenge', *words, folder=TOP)
        self.assertEqual((status, written), (1, ''))
        self.assertIn('the program ended `check` with 1: refused TooLong 0', fault)


class Reports(Case):
    def test_twice(self):
        """A second report in the same folder has nothing of the first."""
        folder = os.path.join(self.folder, 'report')
        for name, wanted in (('one_place', True), ('right', False)):
            self.call('--protocol', 'lines', '--cases', '9', '--report', folder, '--', sys.executable, '-B', GATE, name)
            self.assertEqual(os.path.exists(os.path.join(folder, 'wrong-Blocked')), wanted)

    def test_stop(self):
        report = self.lines('first_come', '--cases', '50', '--stop', '--jobs', '3')[1]
        self.assertEqual(sum(report['counts'].values()), report['failures'][0]['cases'][0] + 1)
        self.assertEqual(len(report['failures']), 1)

    def test_junit(self):
        report = self.lines('names_as_numbers', '--cases', '100')[1]
        path = os.path.join(self.folder, 'report-names_as_numbers')
        suite = xml.etree.ElementTree.parse(os.path.join(path, 'junit.xml')).getroot()[0]
        self.assertEqual(len(suite), 100)
        counts = [report['counts'][it] for it in ('wrong', 'unreadable')]
        self.assertEqual([int(suite.get(it)) for it in ('tests', 'failures', 'errors')], [100, *counts])
        self.assertEqual([len(suite.findall(it)) for it in ('*/failure', '*/error')], counts)
        self.assertTrue(all(counts))
        self.assertEqual(suite[0].get('name'), 'case 0 of seed 1')

    def test_folder(self):
        """A failure's folder has the least instance and what `check` was asked."""
        report = self.lines('one_place', '--cases', '10')[1]
        folder = os.path.join(self.folder, 'report-one_place', report['failures'][0]['folder'])
        self.assertEqual(os.path.basename(folder), 'wrong-Blocked')
        texts = {}
        for name in os.listdir(folder):
            with open(os.path.join(folder, name), encoding='utf-8') as file:
                texts[name] = file.read()
        wanted = 'least.txt least.json first.txt first.json answer both.txt what.txt'
        self.assertEqual(set(texts) - {'page.html'}, set(wanted.split()))
        self.assertTrue(texts['both.txt'].startswith(texts['least.txt'] + 'answer solve side=proposers\n'))
        self.assertEqual(program.ask(texts['both.txt'], 'check')[0], 7)
        self.assertEqual(program.ask(texts['least.txt'], 'export')[1], texts['least.json'])

    def test_corpus(self):
        """The same bytes twice, whose answers are the program's and whose JSON is that of `export`."""
        folders = [os.path.join(self.folder, it) for it in 'ab']
        for folder in folders:
            self.assertEqual(self.call('--corpus', folder, '--cases', '30'), (0, '', ''))
        self.assertEqual(subprocess.run(['diff', '-r', *folders], stdout=subprocess.PIPE).stdout, b'')
        with open(os.path.join(folders[0], 'cases.jsonl'), encoding='ascii') as file:
            cases = [json.loads(line) for line in file]
        self.assertEqual([it['number'] for it in cases], list(range(30)))
        words = set()
        for case in cases:
            self.assertEqual(json.loads(program.ask(case['text'], 'export')[1]), case['instance'])
            for answer in case['answers']:
                given = case['given'] if answer['words'] in ('meet', 'join', 'route') else case['text']
                self.assertEqual(program.ask(given, *answer['words'].split()), (answer['status'], answer['text']))
                words.add(answer['words'].split()[0])
            with open(os.path.join(folders[0], 'cases', f'{case["number"]:03}', 'instance.json'), encoding='ascii') as file:
                self.assertEqual(json.load(file), case['instance'])
        wanted = 'solve reduced rotations list pairs regret weight median survey meet join route rest'
        self.assertEqual(words, set(wanted.split()))
        self.assertIn('has files already', self.call('--corpus', folders[0])[2])


if __name__ == '__main__':
    unittest.main()
