"""Made schemes with all that tables have: what `from_csv`, `report`, `appeal`, `weights`, `to_csv` and `claim` make of each is
compared with a plain recomputation from the tables, which shares nothing with the tools. SCHEMES says how many there are.
"""
import csv
import hashlib
import io
import os
import random
import tempfile
import unittest
from decimal import ROUND_HALF_UP, Decimal

import brute
import inside
import program

SCHEMES = int(os.environ.get('SCHEMES', 300))
FIRST = ('Zoë', 'Ann', 'Jürgen', 'D\'Angelo', 'Käthe', 'Siân', 'Bo', 'Øyvind')
PLACES = ('Süd', 'Nord', 'an der Plöck', 'St. Jürgen', 'O\'Connell', 'Groß, Haus 2')


class Made:
    """A scheme by a number: its tables, and what they mean."""

    def __init__(self, seed):
        draw = self.draw = random.Random(seed)
        self.schools = [f'Schule {it}' for it in draw.sample(PLACES, draw.randint(1, 5))]
        self.pupils = [f'{draw.choice(FIRST)} {i}' for i in range(1, draw.randint(2, 12))]
        self.places = {it: draw.choice((0, 1, 1, 2, 2, 3)) for it in self.schools}
        self.wishes = {it: draw.sample(self.schools, draw.randint(0, len(self.schools))) for it in self.pupils}
        self.points = {(s, p): (draw.choice((0, 10, 20, '20,5')), draw.randint(1, 3))
                       for s in self.schools for p in self.pupils if draw.random() < (0.95 if s in self.wishes[p] else 0.2)}
        self.placed, self.struck = {}, []
        for p in draw.sample(self.pupils, min(len(self.pupils) - 1, draw.choice((0, 0, 1, 2)))):
            free = [s for s in self.schools if self.places[s] > sum(it == s for it in self.placed.values())]
            if free:
                self.placed[p] = draw.choice(free)
        for _ in range(draw.choice((0, 0, 1, 3))):
            self.struck.append((draw.choice(self.pupils), draw.choice(self.schools)))
        self.struck = list(dict.fromkeys(self.struck))
        self.has_km, self.by_school = draw.random() < 0.4, draw.random() < 0.3
        self.mark, self.encoding = draw.choice(',;'), draw.choice(('utf-8', 'utf-8-sig', 'cp1252'))
        self.marked, self.summed = draw.random() < 0.2, draw.random() < 0.3
        self.mean()

    def mean(self):
        """What the tables mean: the lists, and the places that are left."""
        self.inside = [it for it in self.pupils if it not in self.placed]
        self.left = {s: self.places[s] - sum(it == s for it in self.placed.values()) for s in self.schools}
        self.own = {p: [s for s in self.wishes[p] if (p, s) not in self.struck] for p in self.inside}
        self.ranked = {}
        for s in self.schools:
            here = [p for p in self.inside if (s, p) in self.points and (p, s) not in self.struck]

            def before(p):
                points, km = self.points[s, p]
                return -float(str(points).replace(',', '.')), km if self.has_km else 0, self.sum_of(s, p)
            self.ranked[s] = sorted(here, key=before)

    def sum_of(self, s, p):
        """What orders a pupil in the lot."""
        return hashlib.sha256((f'2027 {s} {p}' if self.by_school else f'2027 {p}').encode()).hexdigest()

    def lot(self, s, p):
        """A pupil's place in the lot."""
        return 1 + sum(self.sum_of(s, it) < self.sum_of(s, p) for it in self.inside)

    def tables(self):
        """The tables by name: rows."""
        width = max(1, *map(len, self.wishes.values()))
        rows = {'wishes.csv': [['Nr', 'Mail', *range(1, width + 1)]] +
                [[p, f'{i}@x', *row] for i, (p, row) in enumerate(self.wishes.items())],
                'points.csv': [['School', 'Nr', 'Points', 'km']] + [[s, p, *it] for (s, p), it in self.points.items()],
                'schools.csv': [['School', 'Town', 'Places']] + [[s, 'Köln', it] for s, it in self.places.items()]}
        if self.summed:
            rows['wishes.csv'].append(['Summe', len(self.pupils)])
            rows['schools.csv'].append(['Summe', '', sum(self.places.values())])
        if self.placed:
            rows['placed.csv'] = [['Nr', 'School'], *self.placed.items()]
        if self.struck:
            rows['struck.csv'] = [['Nr', 'School'], *self.struck]
        return rows

    def words(self):
        """The words by which from_csv reads the tables."""
        words = ['--names', 'names.csv', '--encoding', 'cp1252', '--skip', 'Mail', '--skip', 'Town', '--long', 'reviewers',
                 '--points', 'reviewers',
                 '--capacities', 'schools.csv', '--lot', '2027']
        words += ['--then-least', 'km'] if self.has_km else ['--skip', 'km']
        words += ['--lot-by', 'school'] if self.by_school else []
        words += ['--skip-row', 'Summe'] if self.summed else []
        words += ['--placed', 'placed.csv'] if self.placed else []
        words += ['--strike', 'struck.csv'] if self.struck else []
        return words + ['wishes.csv', 'points.csv']

    def welcome(self, has, p, s):
        """Whether a school would rather have a pupil than what it has, by ranks."""
        there = [self.ranked[s].index(q) for q in has if has[q] == s]
        return len(there) < self.left[s] or any(self.ranked[s].index(p) < it for it in there)

    def blocks(self, has, p, s):
        """Whether a pair blocks a matching."""
        own = self.own[p]
        return s in own and p in self.ranked[s] and has.get(p) != s and (p not in has or
                                                                         own.index(s) < own.index(has[p])) and self.welcome(has, p,
                                                                                                                            s)

    def stable(self):
        """The pupils' best matching: everybody asks for the next school, as long as somebody is turned down."""
        has, tried = {}, dict.fromkeys(self.inside, 0)
        while True:
            p = next((it for it in self.inside if it not in has and tried[it] < len(self.own[it])), None)
            if p is None:
                return has
            s = self.own[p][tried[p]]
            tried[p] += 1
            if p in self.ranked[s] and self.left[s]:
                has[p] = s
                there = sorted((q for q in has if has[q] == s), key=self.ranked[s].index)
                for q in there[self.left[s]:]:
                    del has[q]

    def another(self, has):
        """Some other matching of the same pupils, stable or not."""
        new = dict(has)
        for p in self.draw.sample(self.inside, len(self.inside) // 2):
            new.pop(p, None)
            free = [s for s in self.own[p] if p in self.ranked[s] and sum(it == s for it in new.values()) < self.left[s]]
            if free and self.draw.random() < 0.8:
                new[p] = self.draw.choice(free)
        return new


def share(count, total):
    """A share in percent."""
    return str((Decimal(100 * count) / Decimal(total)).quantize(Decimal('0.1'), ROUND_HALF_UP)) if total else '0.0'


class Schemes(unittest.TestCase):
    def setUp(self):
        folder = tempfile.TemporaryDirectory()
        self.addCleanup(folder.cleanup)
        self.folder = folder.name

    def call(self, tool, *words):
        """What a tool writes, and what it tells."""
        status, text, told = inside.call(tool, *words, folder=self.folder)
        self.assertEqual(status, 0, (tool, words, told))
        return text, told

    def put(self, name, content):
        with open(os.path.join(self.folder, name), 'wb') as file:
            file.write(content)

    def rows(self, name, delimiter=','):
        with open(os.path.join(self.folder, name), encoding='utf-8-sig', newline='') as file:
            return list(csv.reader(file, delimiter=delimiter))

    def made(self, seed):
        """A scheme whose tables stand in the folder, the instance, and its names by the original."""
        made = Made(seed)
        for name, rows in made.tables().items():
            out = io.StringIO()
            csv.writer(out, delimiter=made.mark, lineterminator='\r\n').writerows(rows)
            self.put(name, ((f'sep={made.mark}\r\n' if made.marked else '') + out.getvalue()).encode(made.encoding))
        text, _ = self.call('from_csv', *made.words())
        self.put('instance.txt', text.encode())
        names = {(row[0], row[2]): row[1] for row in self.rows('names.csv')[1:]}
        return made, text, names

    def put_answer(self, name, names, has):
        self.put(name, ''.join(['answer solve side=proposers\n',
                                *(f'pair {names["proposer", p]} {names["reviewer", s]}\n' for p, s in has.items()),
                                'end\n']).encode())

    def test_all(self):
        for seed in range(SCHEMES):
            with self.subTest(seed=seed):
                made, text, names = self.made(seed)
                self.try_instance(made, text, names)
                has = made.stable()
                other = made.another(has)
                self.put_answer('answer.txt', names, has)
                self.put_answer('other.txt', names, other)
                self.try_program(made, text, names, has)
                self.try_report(made, has, other)
                self.try_appeals(made, has, other)

    def try_instance(self, made, text, names):
        market = brute.Market(text)
        p, r = ({it: name for (side, it), name in names.items() if side == kind} for kind in ('proposer', 'reviewer'))
        self.assertEqual(list(market.p.items()), [(p[it], [r[s] for s in made.own[it]]) for it in made.inside])
        self.assertEqual(market.r, {r[s]: [p[it] for it in row] for s, row in made.ranked.items()})
        self.assertEqual(market.capacities, {r[s]: count for s, count in made.left.items()})
        self.assertEqual({it: name for (side, it), name in names.items() if side == 'placed'},
                         {it: r[s] for it, s in made.placed.items()})

    def try_program(self, made, text, names, has):
        """The weights are the ranks, and the program finds the matching, and the least sum."""
        weights = [f'weight {names["proposer", p]} {names["reviewer", s]} {(i + 1) ** 2}'
                   for p, own in made.own.items() for i, s in enumerate(own) if p in made.ranked[s]]
        lines, weighed = text.splitlines(), self.call('weights', 'instance.txt', '--side', 'proposers', '--squares')[0]
        self.assertEqual(weighed.splitlines(), lines[:-1] + weights + lines[-1:])
        if program.PATH:
            pairs = {f'pair {names["proposer", p]} {names["reviewer", s]}' for p, s in has.items()}
            solved = program.ask(text, 'solve')[1].splitlines()
            self.assertEqual({*solved[1:-1]}, pairs)
            lightest = program.ask(weighed, 'weight', 'by=given')[1].splitlines()
            self.assertIn(f'total {sum((made.own[p].index(s) + 1) ** 2 for p, s in has.items())}', lightest)
            self.assertEqual({it for it in lightest if it.startswith('pair ')}, pairs)

    def try_report(self, made, has, other):
        text, _ = self.call('report', 'instance.txt', 'answer.txt', '--names', 'names.csv', '--beside', 'other.txt', '--proposers',
                            'a.csv', '--reviewers',
                            'b.csv', '--summary', 'c.csv', '--moves', 'd.csv', '--svg', 'e.svg', '--columns', 'wishes.csv', 'Mail',
                            '--encoding',
                            'cp1252')

        def at(matching, p):
            return [str(made.own[p].index(matching[p]) + 1), matching[p]] if p in matching else ['', 'no place']
        mail = {p: f'{i}@x' for i, p in enumerate(made.pupils)}
        self.assertEqual(self.rows('a.csv'), [['proposer', 'Mail', 'choice', 'reviewer']] +
                         [[p, mail[p], *(['', made.placed[p]] if p in made.placed else at(has, p))] for p in made.pupils])
        given = ['given beforehand'] if made.placed else []
        pointed = any(made.ranked.values())
        heads = (['points'] + (['km'] if made.has_km else [])) if pointed else []
        wanted = [['reviewer', 'places', *given, 'taken', 'first choices', 'last admitted', *heads, 'lot']]
        self.assertEqual(sorted(self.rows('b.csv')[1:]), sorted(self.school_row(made, has, s, heads) for s in made.schools))
        self.assertEqual(self.rows('b.csv')[:1], wanted)
        most = max([made.own[p].index(s) + 1 for it in (has, other) for p, s in it.items()], default=0)
        counts = [[sum(p in it and made.own[p].index(it[p]) + 1 == k if k else p not in it for p in made.inside)
                   for it in (has, other)]
                  for k in [*range(1, most + 1), 0]]
        wanted = [[f'choice {k + 1}' if k < most else 'no place',
                   *(cell for it in row for cell in (str(it), share(it, len(made.inside))))]
                  for k, row in enumerate(counts)]
        wanted += [['placed beforehand', str(len(made.placed)), '', str(len(made.placed)), '']] if made.placed else []
        self.assertEqual(self.rows('c.csv')[1:], wanted)

        def rank(matching, p):
            return made.own[p].index(matching[p]) if p in matching else len(made.own[p])
        moving = [p for p in made.inside if rank(has, p) != rank(other, p)]
        self.assertEqual(self.rows('d.csv')[1:], [[p, mail[p], *at(has, p), *at(other, p), 'gains' if rank(other, p) < rank(has, p)
                                                   else 'loses']
                                                  for p in moving])
        gain = sum(rank(other, p) < rank(has, p) for p in moving)
        self.assertIn(f'moves {len(moving)}: gains {gain}, loses {len(moving) - gain}\n', text)
        self.assertIn(f'places {sum(made.places.values())}, taken {len(has) + len(made.placed)}; ', text)
        with open(os.path.join(self.folder, 'e.svg'), encoding='utf-8') as file:
            picture = file.read()
        for row in counts:
            for it in row:
                self.assertIn(f'>{it}</text>', picture)

    def school_row(self, made, has, s, heads):
        """The row of a school in the report."""
        there = [p for p in made.ranked[s] if has.get(p) == s]
        given = sum(it == s for it in made.placed.values())
        last = [''] * (len(heads) + 2)
        if there and len(there) == made.left[s]:
            last = [there[-1], *map(str, made.points[s, there[-1]][:len(heads)]), str(made.lot(s, there[-1]))]
        return [s, str(made.places[s]), *([str(given)] if made.placed else []), str(len(there) + given),
                str(sum(own[:1] == [s] for own in made.own.values())), *last]

    def try_appeals(self, made, has, other):
        for file, matching in (('answer.txt', has), ('other.txt', other)):
            p, s = made.draw.choice(made.pupils), made.draw.choice(made.schools)
            text, _ = self.call('appeal', 'instance.txt', file, '--names', 'names.csv', p, s)
            self.assertEqual(text.splitlines(), list(self.letter(made, matching, p, s)), (p, s, file))

    def letter(self, made, has, p, s):
        """What a letter has to say."""
        if p in made.placed:
            yield f'{p} was placed beforehand, at {made.placed[p]}' + ('' if made.placed[p] == s else f', and not at {s}')
            return
        own, ranked = made.own[p], made.ranked[s]
        got = f'got {has[p]}, choice {own.index(has[p]) + 1}' if p in has else 'got no place'
        if s not in own:
            how = 'was struck beforehand from' if (p, s) in made.struck else 'isn\'t on'
            yield f'{s} {how} the list of {p}; {got}'
            return
        number = own.index(s) + 1
        if has.get(p) == s:
            yield f'choice {number} is {s}; {p} has a place there'
            return
        yield f'choice {number} is {s}; {got}'
        if p in has and own.index(has[p]) < own.index(s):
            yield f'choice {own.index(has[p]) + 1} comes before choice {number}, so {p} has what stands higher on the own list'
            return
        if p not in ranked:
            yield f'{s} doesn\'t list {p}, so neither can have the other'
            return
        yield from self.counted(made, has, p, s)

    def counted(self, made, has, p, s):
        """What a letter says where both list each other and the pupil would rather be there."""
        ranked, left = made.ranked[s], made.left[s]
        there = [q for q in ranked if has.get(q) == s]
        full = bool(there) and len(there) == left

        def figures(q):
            points, km = made.points[s, q]
            middle = f', km {km} and ' if made.has_km else ' and '
            return f'{points} points{middle}lot {made.lot(s, q)}'
        yield f'{left} place{"s" if left != 1 else ""}, {len(there)} taken' + (f'; the last one admitted has {figures(there[-1])}'
                                                                               if full else '')
        given = sum(it == s for it in made.placed.values())
        if given:
            yield f'{given} more place{"s were" if given > 1 else " was"} given away beforehand'
        yield f'{p} has {figures(p)}: number {ranked.index(p) + 1} of {len(ranked)}' + \
            (f'; the last one admitted is number {ranked.index(there[-1]) + 1}' if full else '')
        before = [q for q in there if ranked.index(q) < ranked.index(p)]
        if made.blocks(has, p, s):
            if there:
                yield f'{len(before)} of the {len(there)} admitted come before {p}'
            if len(there) < left:
                yield f'{left - len(there)} place{"s are" if left - len(there) > 1 else " is"} free'
            yield f'{p} and {s} would both rather have one another: the answer isn\'t stable'
        elif there:
            yield f'all {len(there)} admitted come before {p}' if len(there) > 1 else f'the one admitted comes before {p}'

    def test_published(self):
        """The table that is published says the same to claim, and so does that of to_csv."""
        for seed in range(0, SCHEMES, 10):
            made, _, names = self.made(seed)
            self.put_answer('answer.txt', names, made.stable())
            self.call('report', 'instance.txt', 'answer.txt', '--names', 'names.csv', '--proposers', 'a.csv', '--excel', 'de')
            self.put('b.csv', self.call('to_csv', 'names.csv', 'answer.txt')[0].encode())
            one = self.call('claim', 'instance.txt', 'a.csv', '--names', 'names.csv', '--partner', 'reviewer')[0]
            self.assertEqual(self.call('claim', 'instance.txt', 'b.csv', '--names', 'names.csv')[0], one)
            if program.PATH and program.ask(one, 'check')[0] != 2:
                self.assertEqual(program.ask(one, 'check')[1], 'answer check\nyes\nend\n')


if __name__ == '__main__':
    unittest.main()
