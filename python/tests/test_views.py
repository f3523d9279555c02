"""What the package has beside the answers: graphs, pictures, tables, the tools, and what is left where the file is copied alone."""
import contextlib
import io
import os
import pickle
import random
import re
import shutil
import subprocess
import sys
import tempfile
import types
import unittest
import warnings
import xml.etree.ElementTree
from unittest import mock

HERE = os.path.dirname(os.path.realpath(__file__))
TOP = os.path.join(HERE, '..', '..')
sys.path.insert(0, os.path.join(TOP, 'python'))

import matchbench  # noqa: E402
from matchbench import Instance, NoMatching, ProgramMissing, Refused, _trim, drawing, tables, testing  # noqa: E402

try:
    matchbench.find_program()
    HAS_PROGRAM = True
except ProgramMissing:
    HAS_PROGRAM = False
asks = unittest.skipUnless(HAS_PROGRAM, 'the program isn\'t built')
TWO = {'m1': ['a', 'b'], 'm2': ['b', 'a']}, {'a': ['m2', 'm1'], 'b': ['m1', 'm2']}


def found(name):
    """A module, or None where it isn't installed."""
    try:
        return __import__(name)
    except ImportError:
        return None


def example(name):
    """The instance of a text of examples/."""
    with open(os.path.join(TOP, 'examples', name), encoding='utf-8') as file:
        return Instance.from_text(file.read())


def texts(picture):
    """The texts of a picture, which has to be XML."""
    return [it.text for it in xml.etree.ElementTree.fromstring(picture).iter('{http://www.w3.org/2000/svg}text')]


class Frame:
    """What is asked of a frame, for a table in a file."""

    index = types.SimpleNamespace(name='Name')

    def __init__(self, path):
        self.path = path

    def convert_dtypes(self):
        return self

    def to_csv(self, path, index, index_label):
        assert index and index_label == 'Name'
        shutil.copyfile(self.path, path)


@asks
class Graphs(unittest.TestCase):
    """For networkx."""

    def setUp(self):
        self.networkx = found('networkx')
        if self.networkx is None:
            self.skipTest('networkx is missing')

    def test_order(self):
        for seed in range(40):
            instance = Instance.make('random', 8, seed)
            order = instance.rotations()
            graph = instance.order()
            self.assertEqual(sorted(graph), [it.number for it in order.rotations])
            self.assertTrue(self.networkx.is_directed_acyclic_graph(graph))
            self.assertEqual(sum(1 for _ in self.networkx.antichains(graph)), sum(1 for _ in instance.list()))
            self.assertEqual([graph.nodes[it.number]['rotation'] for it in order.rotations], list(order.rotations))

    def test_lattice(self):
        """Its nodes are the stable matchings, its bounds are meets and joins, and its sets are closed."""
        sizes = set()
        for seed in range(30):
            instance = Instance.make('hospitals' if seed % 3 == 2 else 'random', 12, seed)
            graph, needs = instance.lattice(), instance.order()
            listed = list(instance.list())
            sizes.add(len(listed))
            self.assertEqual(set(graph), set(listed))
            self.assertEqual({it.ranks: graph.nodes[it]['ranks'] for it in listed}, {it.ranks: it.ranks for it in listed})
            self.assertEqual([it for it in graph if not graph.pred[it]], [instance.solve()])
            self.assertEqual([it for it in graph if not graph.succ[it]], [instance.solve('reviewers')])
            for it, has in graph.nodes(data=True):
                self.assertEqual(has['proposer_sum'], sum(it.ranks))
                self.assertEqual(has['reviewer_sum'], sum(instance.reviewers[r].index(p) + 1 for p, r in it.pairs))
                self.assertEqual({a for b in has['set'] for a in self.networkx.ancestors(needs, b)} - has['set'], set())
            for a, b, has in graph.edges(data=True):
                self.assertEqual(graph.nodes[b]['set'], graph.nodes[a]['set'] | {has['rotation']})
                self.assertEqual(set(a.changed(b)), {p for p, old, new in needs.nodes[has['rotation']]['rotation'].moves()
                                                     if old.reviewer != new.reviewer})
            for a, b in zip(listed, listed[1:]):
                below = self.networkx.descendants(graph, a) | {a}
                common = below & (self.networkx.descendants(graph, b) | {b})
                self.assertEqual([it for it in common if not common & set(graph.pred[it])], [instance.join(a, b)])
        self.assertGreater(len(sizes), 4)

    def test_limit(self):
        instance = Instance.make('copies', 5, 1)
        self.assertEqual(len(instance.lattice(most=32)), 32)
        with self.assertRaises(ValueError) as caught:
            instance.lattice(most=31)
        self.assertEqual(str(caught.exception), 'there are more than 31 stable matchings; lattice(most=..) takes more')

    def test_nets(self):
        """Their flows are greatest ones, and their cuts are those of the taken rotations."""
        seen = set()
        for seed in range(60):
            draw = random.Random(seed)
            made = Instance.make('hospitals' if seed % 4 == 3 else 'random', 9, seed)
            pairs = [(p, r) for p in made.proposers for r in made.reviewers]
            weights = {it: (draw.randint(-1, 1), draw.randint(-9, 9)) if seed % 2 else draw.randint(-9, 9) for it in pairs}
            more = {'weights': weights, 'forbidden': draw.sample(pairs, 3) if seed % 3 == 1 else []}
            if seed % 3 == 2:
                more['forced'] = [draw.choice(made.solve(draw.choice(('proposers', 'reviewers'))).pairs)]
            instance = Instance.marriage(made.proposers, made.reviewers, **more) if made.kind == 'marriage' else \
                Instance.hospitals(made.proposers, made.reviewers, made.capacities, **more)
            for by in ('ranks', 'given'):
                try:
                    light = instance.weight(by)
                except NoMatching:
                    continue
                levels = [light, light.second] if light.second else [light]
                nets = light.nets()
                self.assertEqual(len(nets), len(levels))
                for net, level in zip(nets, levels):
                    self.assertEqual(self.networkx.maximum_flow_value(net, 'S', 'T'), level.value)
                    flows = {(a, b): it['flow'] for a, b, it in net.edges(data=True) if it['flow']}
                    self.assertEqual(flows, {(it.source, it.target): it.amount for it in level.flow})
                    for it in range(1, len(level.gains) + 1):
                        self.assertEqual(sum(net[a][it]['flow'] for a in net.pred[it]),
                                         sum(net[it][b]['flow'] for b in net.succ[it]))
                    taken = {'S', *light.taken}
                    out = [it for a, b, it in net.edges(data=True) if a in taken and b not in taken]
                    self.assertEqual(sum(it['capacity'] for it in out), level.cut)
                    seen.add((len(levels), level.value > 0, bool(more.get('forced')), bool(more['forbidden'])))
        self.assertGreater(len(seen), 8)

    def test_pictures(self):
        graph = example('five_rotations.txt').lattice()
        shown = texts(graph._repr_svg_())
        self.assertEqual(sum(it.startswith('{') for it in shown), 9)
        self.assertIn('2 1 3 2 1 1', shown)
        self.assertEqual(sorted(it for it in shown if it in '12345'), sorted('1' + '22' + '33' + '44' + '5555'))
        self.assertIsNotNone(graph.reverse()._repr_svg_())
        self.assertEqual(sorted(texts(self.networkx.transitive_closure(graph)._repr_svg_())), sorted(shown))
        graph.add_edge(*reversed(next(iter(graph.edges()))))
        self.assertIsNone(graph._repr_svg_())
        self.assertIsNone(Instance.make('copies', 9, 1).lattice()._repr_svg_())


class Shown(unittest.TestCase):
    """What notebooks show."""

    @asks
    def test_order(self):
        order = example('five_rotations.txt').rotations()
        shown = texts(order._repr_svg_())
        self.assertEqual([it for it in shown if it.startswith('rotation')], [f'rotation {it}' for it in range(1, 6)])
        self.assertIn('cem: chemistry to art', shown)
        self.assertEqual(order._repr_svg_().count('<polyline'), 4)
        self.assertIn('ann: seat 1 to seat 2 of city', texts(example('hospitals.txt').rotations()._repr_svg_()))
        alone = Instance.marriage({'a': ['x']}, {'x': ['a']}).rotations()
        self.assertIsNone(alone._repr_svg_())

    @asks
    def test_tables(self):
        instance = Instance.hospitals({'<b>': ['x'], 'a&b': ['x', 'y']}, {'x': ['a&b', '<b>'], 'y': []}, {'x': 2, 'y': 0})
        shown = instance._repr_html_()
        self.assertIn('<td>&lt;b&gt;</td><td>x</td>', shown)
        self.assertIn('<td>x</td><td>2</td><td>a&amp;b, &lt;b&gt;</td>', shown)
        self.assertNotIn('<b>', shown)
        self.assertIn('<tr><td>&lt;b&gt;</td><td>x</td><td>1</td><td>2</td></tr>', instance.solve()._repr_html_())
        self.assertIn('and 20 more', Instance.make('random', 40, 1)._repr_html_())
        rest = Instance.roommates({'a': ['b'], 'b': ['a'], 'c': []}).rest().matching
        self.assertIn('<tr><td>c</td><td></td><td>1</td><td></td></tr>', rest._repr_html_())

    def test_layers(self):
        boxes = {it: drawing.Box([f'<{it}>'], '', drawing.PLAIN) for it in 'abcd'}
        shown = drawing.picture(boxes, [('a', 'b', '1'), ('b', 'd', '2'), ('a', 'd', '3'), ('a', 'c', '4')])
        self.assertEqual(texts(shown), ['1', '2', '4', '<a>', '<b>', '<c>', '<d>'])
        self.assertIsNone(drawing.picture(boxes, [('a', 'b', ''), ('b', 'a', '')]))

    @asks
    def test_frames(self):
        """With pandas, or with what takes its place here."""
        pandas = found('pandas') or types.SimpleNamespace(DataFrame=dict)
        instance = Instance.marriage({'a': ['x', 'y'], 'b': []}, {'x': ['b'], 'y': ['a']})
        with mock.patch.dict(sys.modules, pandas=pandas):
            frame, pairs = instance.solve().to_frame(), instance.to_frame()
        shown = {it: [None if cell != cell else cell for cell in frame[it]] for it in frame}
        self.assertEqual(shown, {'proposer': ['a', 'b'], 'reviewer': ['y', None], 'rank': [2, 1], 'reviewer_rank': [1, None]})
        shown = {it: [None if cell != cell else cell for cell in pairs[it]] for it in pairs}
        self.assertEqual(shown, {'proposer': ['a', 'a', 'b'], 'reviewer': ['x', 'y', 'x'], 'rank': [1, 2, None],
                                 'reviewer_rank': [None, 1, 1]})


class Tools(unittest.TestCase):
    """What calls the tools."""

    def setUp(self):
        folder = tempfile.TemporaryDirectory()
        self.addCleanup(folder.cleanup)
        self.folder = folder.name

    def write(self, name, text):
        """Writes a file, whose path it gives."""
        path = os.path.join(self.folder, name)
        with open(path, 'w', encoding='utf-8') as file:
            file.write(text)
        return path

    @asks
    def test_tables(self):
        """As tools/from_csv reads them, with names of their own."""
        pupils = self.write('pupils.csv', 'Name,1,2,Age\n"Müller, Zoë",Дом 5,City,7\nИван,City,,8\n')
        schools = self.write('schools.csv', 'Name,capacity,1,2\nДом 5,1,"Müller, Zoë",\nCity,2,Иван,"Müller, Zoë"\n')
        names = os.path.join(self.folder, 'names.csv')
        with contextlib.redirect_stderr(io.StringIO()) as told:
            instance = Instance.from_tables(pupils, schools, names=names, skip=['Age'])
        self.assertIn('pupils.csv has 2 agents with 3 choices', told.getvalue())
        self.assertEqual(dict(instance.proposers), {'Müller, Zoë': ('Дом 5', 'City'), 'Иван': ('City',)})
        self.assertEqual(dict(instance.capacities), {'Дом 5': 1, 'City': 2})
        self.assertEqual(instance.solve().partners(), {'Müller, Zoë': 'Дом 5', 'Иван': 'City'})
        again = Instance.from_text(instance.to_text(), names=names)
        self.assertEqual((again, dict(again.proposer_names)), (instance, dict(instance.proposer_names)))
        written = os.path.join(self.folder, 'written.csv')
        instance.write_names(written)
        with open(names, encoding='utf-8') as one, open(written, encoding='utf-8') as other:
            self.assertEqual(one.read(), other.read())
        with contextlib.redirect_stderr(io.StringIO()):
            self.assertEqual(Instance.from_tables(*map(Frame, (pupils, schools)), skip='Age'), instance)

    @asks
    def test_frames(self):
        """An index isn't lost, and whole numbers stay whole. What is told names tables and not files."""
        pandas = found('pandas')
        if pandas is None:
            self.skipTest('pandas is missing')
        pupils = pandas.DataFrame({'pupil': [1, 2, 3], 'first': [10, 10, 11], 'second': [11, None, None]})
        schools = pandas.DataFrame({'school': [10, 11], 'capacity': [1.0, 2.0], 'best': [2, 1], 'next': [1, None]})
        by_index = [pupils.set_index('pupil'), schools.set_index('school')]
        for given in ([pupils, schools], by_index, [it.rename_axis(None) for it in by_index]):
            with contextlib.redirect_stderr(io.StringIO()) as told:
                instance = Instance.from_tables(*given)
            self.assertEqual(instance.solve().partners(), {'1': '11', '2': '10', '3': None})
            self.assertIn('from_csv: proposers.csv has 3 agents', told.getvalue())
        for options, told in (({'order': 'none'}, 'none'),
                              ({'rank': 'both'}, 'from_csv: error: unrecognized arguments: --rank both')):
            with self.assertRaises(ValueError) as caught:
                Instance.from_tables(pupils, schools, **options)
            self.assertIn(told, str(caught.exception))
            self.assertNotIn(tempfile.gettempdir(), str(caught.exception))

    def test_series(self):
        """What pandas has for dicts and lists."""
        pandas = found('pandas')
        if pandas is None:
            self.skipTest('pandas is missing')
        beds = pandas.DataFrame({'name': ['x', 'y'], 'beds': [2, 1]}).set_index('name')['beds']
        rows = pandas.DataFrame([['x', 'y'], ['y', None]], index=['a', 'b'])
        instance = Instance.hospitals(rows.T.to_dict('list'), pandas.Series({'x': ['a'], 'y': ['b', 'a']}), beds,
                                      weights=pandas.Series({('a', 'x'): 3}))
        self.assertEqual(instance.to_text(),
                         'stable 1 hospitals\np a: x y\np b: y\nr x [2]: a\nr y [1]: b a\nweight a x 3\nend\n')
        with self.assertRaises(TypeError) as caught:
            Instance.marriage(rows, rows)
        self.assertEqual(str(caught.exception), 'the proposers are a table: Instance.from_tables reads tables')
        with self.assertRaises(ValueError) as caught:
            Instance.marriage(pandas.Series([['x'], ['x']], index=['a', 'a']), {'x': ['a']})
        self.assertEqual(str(caught.exception), '\'a\' stands twice in the proposers')
        if HAS_PROGRAM:
            mine = pandas.Series({'a': 'x', 'b': None})
            for given in (mine, mine.astype(object).where(mine.notna(), float('nan')), pandas.DataFrame(mine.dropna().items())):
                self.assertEqual(instance.check_matching(given).blocking, ('b', 'y'))

    @asks
    def test_faults(self):
        pupils = self.write('pupils.csv', 'Name,1\nann,art\n')
        schools = self.write('schools.csv', 'Name,1\nart,\n')
        with self.assertRaises(ValueError) as caught:
            Instance.from_tables(pupils, schools)
        self.assertIn('no column is called `capacity`', str(caught.exception))
        for text, told in (('a,b\n', 'is no table of names: its columns aren\'t side, name, original'),
                           ('side,name,original\nboth,a,b\n', ':2: this row has no side, name and original')):
            with self.assertRaises(ValueError) as caught:
                Instance.from_text('stable 1 roommates\nend\n', names=self.write('names.csv', text))
            self.assertIn(told, str(caught.exception))

    def test_names_twice(self):
        """Two agents of one original can't be told apart."""
        path = self.write('names.csv', 'side,name,original\nperson,a,Ann\nperson,b,Ann\n')
        value = {'kind': 'roommates', 'persons': [{'name': 'a', 'list': ['b']}, {'name': 'b', 'list': ['a']}]}
        with self.assertRaises(ValueError) as caught:
            Instance._of_value(value, 'stable 1 roommates\np a: b\np b: a\nend\n', tables.originals(path))
        self.assertEqual(str(caught.exception), "'Ann' stands twice in the persons")

    def test_words(self):
        self.assertEqual(tables.words_of({'one_place': True, 'skip': ['a', 'b'], 'lot': 7, 'order': None, 'long': False}),
                         ['--one-place', '--skip', 'a', '--skip', 'b', '--lot', '7'])

    @asks
    def test_explore(self):
        """What is asked of the explorer, and how a notebook shows its page; where there is no explorer, that."""
        instance = Instance.marriage({'Zoë': ['a']}, {'a': ['Zoë']})
        path = self.write('explore', 'import sys\nprint("<p title=\'&\'>", *sys.argv[2:-3:2], sys.argv[-2:],'
                                     ' open(sys.argv[1]).read(), open(sys.argv[3], encoding="utf-8").read().encode("utf-8"))\n')
        with mock.patch.object(tables, 'tool', lambda name: path):
            page = instance.explore(os.path.join(self.folder, 'page.html'), title='A page', most=5)
        for it in ("<p title='&'> --names", "['--most', '5']", 'p Zoe: a', 'proposer,Zoe,Zo\\xc3\\xab'):
            self.assertIn(it, page.text)
        with open(os.path.join(self.folder, 'page.html'), encoding='utf-8') as file:
            self.assertEqual(file.read(), page.text)
        self.assertIn('<iframe srcdoc="&lt;p title=&#x27;&amp;&#x27;&gt;', page._repr_html_())
        with mock.patch.object(tables.os.path, 'isfile', lambda path: False), mock.patch.dict(os.environ, PATH=self.folder):
            with self.assertRaises(ImportError) as caught:
                tables.tool('explore')
        self.assertIn('tools/explore is missing', str(caught.exception))


@asks
class Trimmed(unittest.TestCase):
    """Instances with more seats than the program takes, cut by a stand-in for `matchtrim`."""

    def setUp(self):
        folder = tempfile.TemporaryDirectory()
        self.addCleanup(folder.cleanup)
        self.calls = os.path.join(folder.name, 'calls')
        path = os.path.join(folder.name, 'matchtrim')
        with open(path, 'w', encoding='utf-8') as file:
            file.write(f'#!/bin/sh\necho $# >>"{self.calls}"\nexec "{sys.executable}" -B "{TOP}/tools/tests/trimmed.py"\n')
        os.chmod(path, 0o755)
        for patch in (mock.patch.dict(os.environ, MATCHTRIM=path), mock.patch.object(_trim, 'MOST_ENTRIES', 8)):
            patch.start()
            self.addCleanup(patch.stop)

    def warned(self, call):
        """What a call gives, and what it warns of."""
        with warnings.catch_warnings(record=True) as told:
            warnings.simplefilter('always')
            got = call()
        return got, told

    def test_answers(self):
        """They are those of the whole instance, whose lists and text stay."""
        cut = 0
        for seed in range(25):
            draw = random.Random(seed)
            whole = testing.made('hospitals', 6, seed)
            instance = Instance.hospitals(whole.proposers, whole.reviewers, whole.capacities)
            instance.__dict__['trimmed'] = None
            mine = Instance.hospitals(whole.proposers, whole.reviewers, whole.capacities)
            best, told = self.warned(mine.solve)
            self.assertEqual(len(told), 1)
            self.assertEqual((told[0].filename, mine.to_text()), (__file__, instance.to_text()))
            self.assertIn('has more entries on the lists of its seats than the program takes', str(told[0].message))
            self.assertEqual(best.text, instance.solve().text)
            for ask in ('rotations', 'pairs', 'regret', 'weight', 'median', 'survey'):
                self.assertEqual(getattr(mine, ask)().text, getattr(instance, ask)().text)
            listed = list(mine.list())
            self.assertEqual([(it.ranks, it.partners()) for it in listed], [(it.ranks, it.partners()) for it in instance.list()])
            other = draw.choice(listed)
            self.assertEqual(mine.join(best, other), instance.join(best, other))
            self.assertTrue(mine.check(mine.rotations()))
            self.assertEqual(pickle.loads(pickle.dumps(mine)).trimmed, mine.trimmed)
            cut += mine.trimmed != mine
            for p, row in mine.proposers.items():
                self.assertEqual(row[:len(mine.trimmed.proposers[p])], mine.trimmed.proposers[p])
                for r in row[len(mine.trimmed.proposers[p]):]:
                    if p in mine.reviewers[r]:
                        verdict = mine.check_matching({p: r})
                        self.assertFalse(verdict)
                        self.assertEqual(verdict.sentence, f'{p} can\'t be with {r}, since no stable matching has the two together')
        self.assertGreater(cut, 10)
        with open(self.calls, encoding='ascii') as file:
            self.assertEqual(set(file.read().split()), {'0'})

    def test_fitting(self):
        """What fits isn't trimmed, and where nothing trims the program says what it refuses."""
        two, told = self.warned(lambda: Instance.hospitals({'Zoë': ['x']}, {'x': ['Zoë']}, {'x': 4000}))
        self.assertEqual((two.trimmed, two.solve().partners(), told), (None, {'Zoë': 'x'}, []))
        self.assertFalse(os.path.exists(self.calls))
        marriage = Instance.make('random', 8, 1)
        self.assertIsNone(marriage.trimmed)

    def test_text(self):
        """A text keeps its layout; its lists are those of what is left."""
        names = [f'p{it}' for it in range(1100)]
        rows = [f'p {it}: h' for it in names]
        text = '\n'.join(['# a crowd', 'stable 1 hospitals', f'r h [1020]: {" ".join(names)}', *rows, 'end', ''])
        instance, told = self.warned(lambda: Instance.from_text(text))
        self.assertEqual(([it.filename for it in told], instance.to_text()), ([__file__], text))
        self.assertEqual(instance.solve().places(), {'h': tuple(names[:1020])})
        again = pickle.loads(pickle.dumps(instance))
        self.assertEqual((again.solve(), again.trimmed.to_text()), (instance.solve(), instance.trimmed.to_text()))
        self.assertTrue(instance.check_matching(instance.solve(), 'reviewers'))
        whole, told = self.warned(lambda: Instance.hospitals({it: ['h'] for it in names}, {'h': names}, {'h': 1020}))
        self.assertEqual((self.warned(whole.solve)[0].partners(), len(whole.reviewers['h'])), (instance.solve().partners(), 1100))
        with self.assertRaises(Refused) as caught, mock.patch.object(_trim, 'trimmer', lambda: None):
            Instance.from_text(text)
        self.assertEqual((caught.exception.reason, caught.exception.line), ('TooManySeats', 3))
        for places, trimmer in ((1020, lambda: None), (1050, _trim.trimmer)):
            with mock.patch.object(_trim, 'trimmer', trimmer), self.assertRaises(Refused) as caught:
                Instance.hospitals({it: ['h'] for it in names}, {'h': names}, {'h': places}).solve()
            self.assertEqual(caught.exception.reason, 'TooManySeats')

    def test_trimmer(self):
        """The program that MATCHTRIM names, else the one on PATH."""
        named = os.environ['MATCHTRIM']
        self.assertEqual(_trim.trimmer(), named)
        with mock.patch.dict(os.environ, MATCHTRIM='', PATH=os.path.dirname(named)), \
                mock.patch.object(_trim._program, 'beside', lambda name: None):
            self.assertEqual(_trim.trimmer(), named)
            os.remove(named)
            self.assertIsNone(_trim.trimmer())


class Alone(unittest.TestCase):
    """The one file, copied."""

    def run_copy(self, code):
        """What Python writes with the copy alone."""
        with tempfile.TemporaryDirectory() as folder:
            shutil.copy(os.path.join(TOP, 'python', 'matchbench', '__init__.py'), os.path.join(folder, 'matchbench.py'))
            program = {'MATCHBENCH': matchbench.find_program()} if HAS_PROGRAM else {}
            done = subprocess.run([sys.executable, '-B', '-c', code], cwd=folder, stdout=subprocess.PIPE, stderr=subprocess.STDOUT,
                                  env={**os.environ, 'PYTHONPATH': folder, **program})
        return done.stdout.decode()

    @asks
    def test_copy(self):
        code = ('from matchbench import Instance\n'
                f'it = Instance.marriage(*{TWO!r})\n'
                'print(it.solve().partners(), it.check_matching(it.solve(), "proposers").right, it.weight().total)\n'
                'print(Instance.from_text(it.to_text()) == it, hasattr(it, "lattice"))\n'
                'print(it.check_matching({"m1": "a", "m2": "a"}).sentence)\n'
                'print(it.check_matching({}, "reviewers").sentence)\n'
                'print(it.check_matching(it.solve(), "reviewers").sentence)\n'
                'print(it.check("answer reduced\\nend\\n").sentence)\n'
                'print(Instance.marriage({"Zoë": ["ß"]}, {"ß": ["Zoë"]}).solve().partners())\n')
        self.assertEqual(self.run_copy(code), "{'m1': 'a', 'm2': 'b'} True 6\nTrue False\n"
                         "m2 can't be with a, since a is with m1\nm1 and a would both rather have one another\n"
                         "the matching is stable, but in the reviewers' best m1 is with b, and not with a\n"
                         "this line isn't right: docs/FORMATS.md has the reason Blocked\n{'Zoë': 'ß'}\n")

    def test_version(self):
        with open(os.path.join(TOP, 'CITATION.cff'), encoding='utf-8') as file:
            self.assertEqual(matchbench.__version__, re.search(r'^version: "(.*)"$', file.read(), re.M)[1])
        self.assertTrue(self.run_copy('import matchbench\nprint(matchbench.__version__)'))
        self.assertTrue(all(hasattr(matchbench, it) for it in matchbench.__all__))
        self.assertTrue(hasattr(Instance, 'lattice'))

    def test_syntax(self):
        """Python 3.8 takes all of it."""
        import ast
        for name in os.listdir(os.path.dirname(matchbench.__file__)):
            if name.endswith('.py'):
                with open(os.path.join(os.path.dirname(matchbench.__file__), name), encoding='utf-8') as file:
                    ast.parse(file.read(), feature_version=(3, 8))


if __name__ == '__main__':
    unittest.main()
