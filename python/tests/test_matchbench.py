"""`matchbench`: against all stable matchings of small instances, and what it makes of names, faults and failures.

What asks the program is skipped where none is found.
"""
import glob
import hashlib
import importlib
import itertools
import json
import os
import pickle
import random
import re
import shutil
import stat
import subprocess
import sys
import tempfile
import unittest
from unittest import mock

HERE = os.path.dirname(os.path.realpath(__file__))
TOP = os.path.join(HERE, '..', '..')
for folder in ('python', 'tools', os.path.join('tools', 'tests')):
    sys.path.insert(0, os.path.join(TOP, folder))

import brute  # noqa: E402
import matchbench  # noqa: E402
import matchbench._program  # noqa: E402
from matchbench import (Couples, Failed, Instance, Matching, NoMatching, NotStable, ProgramMissing, Refused,  # noqa: E402
                        Seat)
from shared.names import sound_names  # noqa: E402

# What is no instance in JSON, each with what is told of it.
WRONG_JSON = {
    '': 'Expecting value',
    '\ufeff{"kind":"roommates","persons":[]}': 'BOM',
    '{"kind":"roommates","persons":[]} 1': 'Extra data',
    '{"kind":"roommates","persons":[],"persons":NaN}': 'persons is no array',
    '[]': 'no instance in JSON: it is an object, and its kind is "marriage", "hospitals" or "roommates"',
    '{}': 'its kind is',
    '{"kind":["marriage"],"proposers":[],"reviewers":[]}': 'its kind is',
    '{"kind":"roommates"}': "the value has no member 'persons'",
    '{"kind":"roommates","persons":[],"order":[]}': "the value has a member 'order'",
    '{"kind":"roommates","persons":{}}': 'persons is no array',
    '{"kind":"roommates","persons":["a"]}': 'persons[0] is no object',
    '{"kind":"roommates","persons":[{"name":"a","list":"b"}]}': 'persons[0].list is no array',
    '{"kind":"roommates","persons":[{"name":["a"],"list":[]}]}': 'unhashable',
    '{"kind":"roommates","persons":[{"name":null,"list":[]}]}': 'None is no name',
    '{"kind":"roommates","persons":[{"name":"a","list":[1]}]}': "1 in the list of 'a' is none of the persons",
    '{"kind":"roommates","persons":[{"name":"a","list":[],"capacity":1}]}': "persons[0] has a member 'capacity'",
    '{"kind":"marriage","proposers":[],"reviewers":[],"weights":null}': 'weights is no array',
    '{"kind":"marriage","proposers":[],"reviewers":[],"weights":[["a","x"]]}': 'weights[0] has 2 items',
    '{"kind":"marriage","proposers":[],"reviewers":[],"weights":[["a","x",1,2,3]]}': 'weights[0] has 5 items',
    '{"kind":"marriage","proposers":[],"reviewers":[],"weights":[["a","x",1.0]]}': "('a', 'x') is 1.0, and no whole number",
    '{"kind":"marriage","proposers":[],"reviewers":[],"weights":[["a","x",1e2]]}': "('a', 'x') is 100.0, and no whole number",
    '{"kind":"marriage","proposers":[],"reviewers":[],"weights":[["a","x",true]]}': "('a', 'x') is True, and no whole number",
    '{"kind":"marriage","proposers":[],"reviewers":[],"weights":[["a","x",1000000001]]}': 'from -1,000,000,000 to 1,000,000,000',
    '{"kind":"marriage","proposers":[],"reviewers":[],"forced":[["a","x",1]]}': 'forced[0] has 3 items',
    '{"kind":"marriage","proposers":[],"reviewers":[],"forbidden":[["a"]]}': 'forbidden[0] has 1 items',
    '{"kind":"hospitals","proposers":[],"reviewers":[{"name":"x","list":[]}]}': "reviewers[0] has no member 'capacity'",
    '{"kind":"hospitals","proposers":[],"reviewers":[{"name":"x","list":[],"capacity":4097}]}': 'from 0 to 4,096',
    '{"kind":"hospitals","proposers":[],"reviewers":[{"name":"x","list":[],"capacity":"1"}]}': "of 'x' is '1', and no whole number",
}
PROPOSERS = ['Zoë', 'Zoe', 'Müller, Ann', 'Иван', 'p4', '']
TWO = {'m1': ['a', 'b'], 'm2': ['b', 'a']}, {'a': ['m2', 'm1'], 'b': ['m1', 'm2']}
ODD = {'ann': ['ben', 'cem', 'dan'], 'ben': ['cem', 'ann', 'dan'], 'cem': ['ann', 'ben', 'dan'], 'dan': ['ann', 'ben', 'cem']}
# What is told of the stored inputs of `check`.
SENTENCES = {
    'blocked': 'm2 and b would both rather have one another',
    'cut_differs': 'the cut is 4 and the value 3, so it isn\'t shown that nothing is lighter',
    'no_edge': 'the net has no edge from S to rotation 1',
    'no_odd_party': 'the parties have 4 members: none is odd with three or more',
    'not_a_matching': 'm2 can\'t be with a, since a is with m1',
    'not_allowed': 'm1 and b aren\'t together in this matching, and are forced',
    'not_best': 'the matching is stable, but in the proposers\' best m1 is with a, and not with b',
    'not_closed': 'rotation 2 needs rotation 1, which isn\'t taken',
    'not_conserved': '3 flows into rotation 2 and 4 out of it',
    'not_exposed': 'rotation 1 moves m1 from a to b and m2 from b to a, and is written from m1 on',
    'not_least': 'the flow doesn\'t reach rotation 1, and it is taken',
    'not_partition': '1 would rather have 2, who stands before it in its party, than 3, who follows',
    'not_rising': 'this vector stands before the vector above in the order: m1 has the rank 2 here, and 3 there',
    'over_limit': 'the limit is 1, and this is vector 2',
    'over_room': 'the edge from S to rotation 2 has room for 14, and not for 18,446,744,073,709,551,615',
    'rotation_missing': 'rotation 1 is missing, which moves m1 from a to b and m2 from b to a',
    'wrong_cut': 'the cut of the taken rotations is 14, and not 4',
    'wrong_gain': 'rotation 1 adds 4 to the sum, and not 3',
    'wrong_list': 'the reduced list of a has m2 at place 1, and not m1',
    'wrong_needs': 'rotation 2 needs 1, and not none',
    'wrong_pair': 'm1 is with c in the right matching, and not with b',
    'wrong_regret': 'the regret is 2, since b is choice 2 of m1, and not 3',
    'wrong_tail': 'the list is broken off behind 1 of 2 vectors',
    'wrong_total': 'the sum of the matching is -10, and not -9',
    'wrong_value': '4 flows out of S, and not 5',
}
# Answers on two hospitals with odd names, from the line on that is wrong, or on the whole; each with what is told of it.
WARDS = ({'Zoë': ['x y', 'Дом'], 'Ólafur': ['x y', 'Дом'], 'Cem': ['Дом']},
         {'x y': ['Ólafur', 'Zoë', 'Cem'], 'Дом': ['Cem', 'Zoë']}, {'x y': 2, 'Дом': 1})
SEATS = 'first Zoe x_y/2\nfirst Olafur x_y/1\nfirst Cem r2/1\n'
IN_WARDS = {
    'solve side=proposers\npair Zoe x_y\npair Olafur r2\nend': 'Ólafur can\'t be with Дом, since Дом doesn\'t list Ólafur',
    'solve side=reviewers\npair Zoe x_y\npair Zoe x_y\nend': 'Zoë and x y stand there twice',
    'solve side=reviewers\npair Zoe x_y\npair Olafur x_y\nend': 'Cem and Дом would both rather have one another',
    'regret\nregret 3\npair Zoe x_y\npair Olafur x_y\npair Cem r2\nend':
        'the regret is 2, since Zoë is choice 2 of x y, and not 3',
    'reduced\nfirst Zoe x_y/1\nfirst Olafur x_y/1\nend': 'Ólafur can\'t have seat 1 of x y, since Zoë has it',
    'rotations\nfirst Zoe x_y/1\nfirst Olafur x_y/2\nfirst Cem r2/1\nend':
        'Ólafur and seat 1 of x y would both rather have one another',
    f'reduced\n{SEATS}end': 'Zoë and x y would both rather have one another',
    f'reduced\n{SEATS}{SEATS.replace("first", "last")}proposer Zoe x_y/1\nend':
        'the reduced list of Zoë has seat 2 of x y at place 1, and not seat 1 of x y',
    f'reduced\n{SEATS}{SEATS.replace("first", "last")}proposer Zoe -\nend':
        'the reduced list of Zoë has seat 2 of x y at place 1, where this one ends',
    f'reduced\n{SEATS}{SEATS.replace("first", "last")}reviewer x_y/2 Zoe Cem\nend':
        'the reduced list of seat 2 of x y ends before Cem',
    f'reduced\n{SEATS}{SEATS.replace("first", "last")}end': 'Zoë has no list',
    f'rotations\n{SEATS}rotation 1 Zoe x_y/2 Olafur x_y/1\nneeds 1 -\nend': 'there is no rotation 1: here none is exposed',
    'list limit=5\nvector 4,1,1\nend': 'Zoë has the rank 4, and its ranks go to 2, with 3 for being alone',
    'list limit=5\nvector 1,2,2\nend': 'Ólafur can\'t be with Дом, since Дом doesn\'t list Ólafur',
    'list limit=5\nvector 1,1,2\nend': 'Cem and Дом would both rather have one another',
    'list limit=5\nvector 1,1,1\nvector 1,1,1\nend': 'this is the vector above again',
    'list after=1,1,1 limit=5\nvector 1,1,1\nend': 'this is the cursor again',
    'list after=1,2,1 limit=5\nvector 1,1,1\nend':
        'this vector stands before the cursor in the order: Ólafur has the rank 1 here, and 2 there',
    'list limit=1\nvector 1,1,1\nmore 1,1,2': 'the last vector is 1,1,1, and not 1,1,2',
}
REVIEWERS = ['City Hospital', "St. John's", 'Дом 5', 'west', '-', 'r#']

try:
    matchbench.find_program()
    HAS_PROGRAM = True
except ProgramMissing:
    HAS_PROGRAM = False
asks = unittest.skipUnless(HAS_PROGRAM, 'the program isn\'t built')


def example(name):
    """A text of examples/."""
    with open(os.path.join(TOP, 'examples', name), encoding='utf-8') as file:
        return file.read()


def drawn(seed):
    """The proposers, reviewers and capacities of a small instance, with inert entries, unequal sides and places from 0 to 3;
    the capacities are None in a marriage.
    """
    draw = random.Random(seed)
    p, r = PROPOSERS[:draw.randint(1, 5)], REVIEWERS[:draw.randint(1, 4)]
    if seed % 2:
        p, r = PROPOSERS[:4], REVIEWERS[:4]
    lists = {name: draw.sample(r, len(r)) for name in p}
    rows = {it: sorted(p, key=lambda name: draw.random() * 2 - lists[name].index(it)) for it in r}
    for row in list(lists.values()) + list(rows.values()):
        if draw.random() < (0.15 if seed % 2 else 0.5):
            del row[draw.randint(0, len(row)):]
    capacities = {it: draw.choice((0, 1, 1, 2, 2, 3)) for it in r} if seed % 3 == 2 else None
    return lists, rows, capacities


def market(lists, rows, capacities):
    """The same for trying all matchings."""
    made = brute.Market('')
    made.p, made.r, made.capacities = lists, rows, capacities or {it: 1 for it in rows}
    return made


class Small(unittest.TestCase):
    """Two sides, 300 instances."""

    @asks
    def test_all_matchings(self):
        several = conditioned = 0
        for seed in range(300):
            with self.subTest(seed=seed):
                lists, rows, capacities = drawn(seed)
                tried = market(lists, rows, capacities)
                stable = dict(sorted(tried.stable().items()))
                draw = random.Random(-seed)
                weights = {(p, r): draw.randint(-9, 9) for p in lists for r in rows if draw.random() < 0.8}
                forced, forbidden = [], []
                if seed % 4 == 3:
                    forbidden = [(draw.choice(list(lists)), draw.choice(list(rows)))]
                if seed % 8 == 5 and any(stable.values()):
                    forced = [draw.choice([it for has in stable.values() for it in has.items()])]
                conditions = {'weights': weights, 'forced': forced, 'forbidden': forbidden}
                instance = (Instance.marriage(lists, rows, **conditions) if capacities is None
                            else Instance.hospitals(lists, rows, capacities, **conditions))
                allowed = {ranks: has for ranks, has in stable.items()
                           if all(has.get(p) == r for p, r in forced) and all(has.get(p) != r for p, r in forbidden)}
                self.compare_all(instance, tried, stable, draw)
                self.compare_allowed(instance, tried, allowed, weights)
                several += len(stable) > 1
                conditioned += len(allowed) < len(stable)
        self.assertGreater(several, 40)
        self.assertGreater(conditioned, 10)

    def compare_all(self, instance, tried, stable, draw):
        """The commands that speak of all stable matchings."""
        best, worst = instance.solve(), instance.solve(side='reviewers')
        self.assertEqual((best.ranks, worst.ranks), (min(stable), max(stable)))
        for found in (best, worst):
            has = stable[found.ranks]
            self.assertEqual(found.partners(), {p: has.get(p) for p in tried.p})
            self.assertEqual(found.places(), {r: tuple(p for p in tried.p if has.get(p) == r) for r in tried.r})
            self.assertEqual(found.reviewer_ranks, tuple(tried.r[has[p]].index(p) + 1 if p in has else None for p in tried.p))
        self.assertEqual(best.changed(worst), {p: (r, worst.partners()[p]) for p, r in best.partners().items()
                                               if r != worst.partners()[p]})
        each = [set(has.items()) for has in stable.values()]
        pairs = instance.pairs()
        self.assertEqual(pairs.pairs, tuple((p, r) for p in tried.p for r in tried.p[p] if any((p, r) in it for it in each)))
        self.assertEqual(pairs.fixed, tuple(it for it in pairs.pairs if all(it in pairs for pairs in each)))
        self.compare_order(instance, tried, stable)
        reduced = instance.reduced()
        self.assertEqual({p: it.reviewer for p, it in reduced.first.items()}, dict(best.pairs))
        self.assertEqual({p: it.reviewer for p, it in reduced.last.items()}, dict(worst.pairs))
        for p, r in pairs.pairs:
            seats = [it for it in reduced.proposers[p] if it.reviewer == r]
            self.assertTrue(seats and all(p in reduced.reviewers[it] for it in seats), (p, r))
        a, b = draw.choice(list(stable)), draw.choice(list(stable))
        meet, join = instance.meet(stable[a], stable[b].items()), instance.join(stable[a], stable[b])
        self.assertEqual((meet.ranks, join.ranks), (tuple(map(min, a, b)), tuple(map(max, a, b))))
        self.assertEqual((dict(meet.pairs), dict(join.pairs)), (stable[meet.ranks], stable[join.ranks]))
        for answer in (worst, reduced, join):
            self.assertTrue(instance.check(answer))
        self.compare_verdict(instance, tried, draw.choice(list(tried.matchings())), stable)
        self.compare_verdict(instance, tried, stable[a], stable)

    def compare_order(self, instance, tried, stable):
        """The matchings of closed sets of rotations."""
        order = instance.rotations()
        matchings = set()
        numbers = [it.number for it in order.rotations]
        self.assertEqual(numbers, list(range(1, len(numbers) + 1)))
        sets = 0
        for taken in itertools.chain.from_iterable(itertools.combinations(numbers, size) for size in range(len(numbers) + 1)):
            if all(a in taken for a, b in order.edges() if b in taken):
                seats = dict(order.first)
                for number in taken:
                    for p, old, new in order.rotations[number - 1].moves():
                        self.assertEqual(seats[p], old)
                        seats[p] = new
                matchings.add(tried.ranks({p: it.reviewer for p, it in seats.items()}))
                sets += 1
        self.assertEqual((matchings, sets), (set(stable), len(stable)))

    def compare_allowed(self, instance, tried, allowed, weights):
        """The commands that forced and forbidden pairs bind."""
        listed = list(instance.list())
        self.assertEqual([(it.ranks, dict(it.pairs)) for it in listed], list(allowed.items()))
        if listed:
            middle = len(listed) // 2
            self.assertEqual(list(instance.list(after=listed[0], limit=2)), listed[1:3])
            self.assertEqual(list(instance.list(after=[it.ranks for it in listed][middle])), listed[middle + 1:])

        def regret(has):
            return max((max(tried.p[p].index(r), tried.r[r].index(p)) + 1 for p, r in has.items()), default=0)

        def by_ranks(has):
            return sum(tried.p[p].index(r) + tried.r[r].index(p) + 2 for p, r in has.items())

        def by_given(has):
            return sum(weights.get(it, 0) for it in has.items())

        regrets = [regret(has) for has in allowed.values()]
        survey = instance.survey()
        self.assertEqual(
            (survey.listed, survey.rank_sum, survey.least_regret, survey.greatest_regret, survey.last),
            (len(allowed), sum(map(sum, allowed)), min(regrets, default=0), max(regrets, default=0), None))
        choices = [tried.p[p].index(has[p]) if p in has else None for has in allowed.values() for p in tried.p]
        self.assertEqual((survey.first, survey.second, survey.third, survey.unmatched), tuple(map(choices.count, (0, 1, 2, None))))
        self.assertEqual(survey.later, sum(it is not None and it > 2 for it in choices))
        if not allowed:
            for ask in (instance.regret, instance.weight, lambda: instance.weight(by='given')):
                self.assertRaises(NoMatching, ask)
            return
        if len(allowed) > 1:
            self.assertEqual(instance.survey(limit=1).last, min(allowed))

        def best_of(measure):
            least = min(map(measure, allowed.values()))
            return least, allowed[min(ranks for ranks, has in allowed.items() if measure(has) == least)]

        least = instance.regret()
        self.assertEqual((least.regret, dict(least.matching.pairs)), best_of(regret))
        self.assertTrue(instance.check(least))
        for by, measure in (('ranks', by_ranks), ('given', by_given)):
            light = instance.weight(by=by)
            self.assertEqual((light.total, dict(light.matching.pairs)), best_of(measure))
            self.assertEqual(light.value, light.cut)
            self.assertEqual(light.value, sum(it.amount for it in light.flow if it.source == 'S'))
            first = measure({p: it.reviewer for p, it in light.first.items()})
            self.assertEqual(first + sum(light.gains[it - 1] for it in light.taken), light.total)
            self.assertIsNone(light.second)

    def compare_verdict(self, instance, tried, has, stable):
        """Claims on a matching."""
        right = tried.is_stable(has)
        verdict = instance.check_matching(has)
        self.assertEqual((bool(verdict), verdict.right), (right, right))
        if not right:
            p, r = verdict.blocking
            self.assertEqual(verdict.reason, 'Blocked')
            self.assertFalse(tried.is_stable(has))
            self.assertNotEqual(has.get(p), r)
            self.assertTrue(p not in has or tried.p[p].index(r) < tried.p[p].index(has[p]))
            at = tried.at(has, r)
            self.assertTrue(len(at) < tried.capacities[r] or max(at) > tried.r[r].index(p))
        for claim, ranks in (('proposers', min(stable)), ('reviewers', max(stable))):
            verdict = instance.check_matching(has, claim=claim)
            self.assertEqual(verdict.right, right and tried.ranks(has) == ranks)
            if not verdict:
                self.assertEqual((verdict.reason, verdict.line_text), ('NotBest' if right else 'Blocked', 'end'))
                self.assertEqual(verdict.blocking is None, right)
                told = re.fullmatch(r"the matching is stable, but in the \w+' best (.*) is with (.*), and not with (.*)",
                                    verdict.sentence)
                self.assertEqual(bool(told), right)
                if told:
                    p, r, held = told.groups()
                    self.assertEqual((stable[ranks][p], has[p]), (r, held))

    @asks
    def test_sentences(self):
        """The first pair that can't be held, and why."""
        seen = set()
        for seed in range(300):
            lists, rows, capacities = drawn(seed)
            instance = Instance.marriage(lists, rows) if capacities is None else Instance.hospitals(lists, rows, capacities)
            draw = random.Random(-seed)
            given = {p: draw.choice([*rows, *lists[p], None]) for p in lists}
            told, held = None, {it: [] for it in rows}
            for p, r in given.items():
                if r is not None and not told:
                    if r not in lists[p]:
                        told = f"{p} can't be with {r}, since {p} doesn't list {r}"
                    elif p not in rows[r]:
                        told = f"{p} can't be with {r}, since {r} doesn't list {p}"
                    elif len(held[r]) >= instance.capacities[r]:
                        full = 'full ' if len(held[r]) > 1 else ''
                        told = f"{p} can't be with {r}, since {r} is {full}with {' and '.join(held[r])}" if held[r] else \
                            f"{p} can't be with {r}, since {r} has no place"
                    held[r].append(p)
            for claim in ('stable', 'proposers', 'reviewers'):
                verdict = instance.check_matching(given, claim)
                self.assertEqual(verdict.reason == 'NotAMatching', told is not None)
                if told:
                    self.assertEqual((verdict.sentence, verdict.blocking), (told, None), seed)
            if told:
                seen.add(re.sub('.*(doesn\'t list|is with|full|no place).*', r'\1', told))
                with self.assertRaises(NotStable) as caught:
                    instance.meet(instance.solve(), given)
                self.assertEqual(caught.exception.sentence, 'the right matching isn\'t stable: ' + told)
        self.assertEqual(seen, {'doesn\'t list', 'is with', 'full', 'no place'})

    @asks
    def test_numbers(self):
        """Lists of lists, and names that are numbers and tuples."""
        for seed in range(30):
            instance = Instance.make('random', 8, seed)
            p, r = list(instance.proposers), list(instance.reviewers)
            numbered = Instance.marriage([[r.index(it) for it in row] for row in instance.proposers.values()],
                                         [[p.index(it) for it in row] for row in instance.reviewers.values()])
            self.assertEqual([it.ranks for it in numbered.list()], [it.ranks for it in instance.list()])
            self.assertEqual(numbered.solve().partners(), {p.index(a): r.index(b) for a, b in instance.solve().pairs})
        named = Instance.marriage({1: [('x', 1), 1.5], '1': [('x', 1)], (1, 2): []}, {('x', 1): ['1', 1], 1.5: [1]})
        self.assertEqual(list(named.proposer_names.values()), ['p1', '1', '1_2'])
        self.assertEqual(list(named.reviewer_names.values()), ['x_1', '1.5'])
        self.assertEqual(named.solve().partners(), {1: 1.5, '1': ('x', 1), (1, 2): None})
        self.assertTrue(named.check_matching(named.solve(), 'proposers'))
        self.assertEqual(named.check_matching({1: ('x', 1)}).blocking, ('1', ('x', 1)))
        beds = Instance.hospitals([[0], [0], [0]], [[2, 1, 0]], [2], weights={(2, 0): 5}, forced=[(1, 0)])
        self.assertEqual((beds.solve().places(), beds.weight('given').total), ({0: (1, 2)}, 5))


class Rooms(unittest.TestCase):
    """Roommates, 80 instances."""

    @staticmethod
    def held(matching):
        """The partner of each person that has one."""
        return {it: other for it, other in matching.partners().items() if other is not None}

    @staticmethod
    def couplings(persons, lists):
        """All matchings, as both partners of each couple."""
        if not persons:
            yield {}
            return
        one, rest = persons[0], persons[1:]
        yield from Rooms.couplings(rest, lists)
        for other in rest:
            if other in lists[one] and one in lists[other]:
                for more in Rooms.couplings([it for it in rest if it != other], lists):
                    yield {one: other, other: one, **more}

    @staticmethod
    def blocking(has, lists):
        """The couples that block."""
        def better(a, b):
            return b in lists[a] and (a not in has or lists[a].index(b) < lists[a].index(has[a]))
        return [(a, b) for a in lists for b in lists if a != b and has.get(a) != b and better(a, b) and better(b, a)]

    @asks
    def test_all_matchings(self):
        without = 0
        for seed in range(80):
            with self.subTest(seed=seed):
                draw = random.Random(seed)
                persons = PROPOSERS[:draw.randint(1, 6)]
                lists = {it: draw.sample([a for a in persons if a != it], len(persons) - 1) for it in persons}
                for row in lists.values():
                    if draw.random() < 0.2:
                        del row[draw.randint(0, len(row)):]
                instance = Instance.roommates(lists)
                every = list(self.couplings(persons, lists))
                stable = [has for has in every if not self.blocking(has, lists)]
                listed = list(instance.list())
                self.assertEqual([it.ranks for it in listed], sorted(it.ranks for it in listed))
                self.assertEqual(sorted(sorted(self.held(it).items()) for it in listed),
                                 sorted(sorted(it.items()) for it in stable))
                try:
                    found = instance.solve()
                    self.assertIsInstance(found, Couples)
                    self.assertIn(self.held(found), stable)
                    self.assertTrue(instance.check(found))
                    self.assertEqual(list(found.partners()), persons)
                    self.assertEqual(found.ranks, tuple(lists[it].index(other) + 1 if other is not None else len(lists[it]) + 1
                                                        for it, other in found.partners().items()))
                    self.assertEqual(instance.rest().out, ())
                except NoMatching as fault:
                    self.assertEqual(stable, [])
                    self.assertEqual(instance.rest().out, tuple(it for it in persons for party in fault.parties
                                                                if it == party[0] and len(party) % 2 and len(party) > 2))
                    self.assertTrue(any(len(it) % 2 and len(it) > 2 for it in fault.parties))
                    self.assertEqual(sorted(itertools.chain(*fault.parties)), sorted(persons))
                    self.assertTrue(instance.check(fault))
                    without += 1
                rest = instance.rest()
                has = self.held(rest.matching)
                self.assertIn(has, every)
                self.assertFalse(any({*pair} & {*rest.out} == set() for pair in self.blocking(has, lists)))
                self.assertFalse({*rest.out} & {*has})
                for has in stable[:1] + [draw.choice(every)]:
                    verdict = instance.check_matching(has)
                    self.assertEqual(verdict.right, has in stable)
                    if not verdict:
                        self.assertIn(verdict.blocking, self.blocking(has, lists))
        self.assertGreater(without, 2)

    @asks
    def test_refused(self):
        instance = Instance.from_text(example('four_persons.txt'))
        self.assertEqual((instance.kind, instance.capacities['ann']), ('roommates', 1))
        for ask in (instance.pairs, lambda: instance.solve(side='reviewers'), instance.median):
            with self.assertRaises(Refused) as caught:
                ask()
            self.assertEqual(caught.exception.reason, 'WrongKind')
        self.assertRaises(ValueError, instance.check_matching, {}, 'proposers')


class Examples(unittest.TestCase):
    """Whole answers, as they are stored."""

    @asks
    def test_texts(self):
        for name, text in (('solve', lambda it: it.solve()), ('reduced', lambda it: it.reduced()),
                           ('pairs', lambda it: it.pairs()),
                           ('rotations', lambda it: it.rotations()), ('regret', lambda it: it.regret()),
                           ('solve_reviewers', lambda it: it.solve('reviewers')), ('weight_given', lambda it: it.weight('given'))):
            for file in sorted(os.listdir(os.path.join(TOP, 'examples'))):
                if file.endswith('.' + name):
                    given, answer = example(file.split('.')[0] + '.txt'), example(file)
                    if answer.startswith('answer') and '\nnone\n' not in answer and 'roommates' not in given:
                        instance = Instance.from_text(given)
                        self.assertEqual(text(instance).text, answer, file)
                        self.assertEqual(Instance.from_text(instance.to_text()), instance)

    @asks
    def test_listing(self):
        instance = Instance.from_text(example('five_rotations.txt').encode())
        vectors = [it for it in example('five_rotations.list').splitlines(True) if it.startswith('vector')]
        for most in (1, 2, 4, 100):
            with mock.patch.object(matchbench, 'MOST_LISTED', most):
                self.assertEqual([it.text for it in instance.list()], vectors)
                self.assertEqual([it.text for it in instance.list(limit=5)], vectors[:5])
                self.assertEqual(list(instance.list(limit=0)), [])
        with self.assertRaises(Refused) as caught:
            next(instance.list(after=[1, 2]))
        self.assertEqual((caught.exception.reason, caught.exception.line), ('BadCursor', 0))

    @asks
    def test_flow(self):
        light = Instance.from_text(example('weighed.txt')).weight(by='given')
        self.assertEqual((light.flow, light.taken), ((('S', 2, 4), (1, 'T', 4), (2, 1, 4)), (1, 2)))
        self.assertEqual((light.gains, light.total, light.value, light.cut, light.second), ((4, -14), -10, 4, 4, None))

    @asks
    def test_two_levels(self):
        """The answer that docs/FORMATS.md shows."""
        light = Instance.from_text(example('two_levels.txt')).weight(by='given')
        self.assertEqual((light.total, light.gains, light.flow, light.value, light.cut),
                         (0, (4, -4), (('S', 2, 4), (1, 'T', 4), (2, 1, 4)), 4, 4))
        second = light.second
        self.assertEqual((second.total, second.gains, second.flow, second.value, second.cut),
                         (-2, (1, -3), (('S', 2, 1), (1, 'T', 1), (2, 1, 1)), 1, 1))
        given = Instance.from_text(example('three_cycle.txt'))
        made = Instance.marriage(given.proposers, given.reviewers, weights={('m1', 'b'): (4, 1), ('m2', 'a'): (0, -2)})
        self.assertEqual(made.weight('given').second, second)
        self.assertEqual(made, Instance.from_text(example('two_levels.txt')))

    @asks
    def test_refusals(self):
        for text, reason, line, shown in (
                ('stable 1 marriage\np m1: a, b\nend\n', 'BadByte', 2, 'p m1: a, b'), ('', 'BadHeader', 1, ''),
                ('stable 1 marriage\r\np m1: z\r\nend\r\n', 'UnknownName', 2, 'p m1: z'),
                ('stable 1 marriage', 'MissingEnd', 2, '')):
            with self.assertRaises(Refused) as caught:
                Instance.from_text(text).solve()
            fault = caught.exception
            self.assertEqual((fault.reason, fault.line, fault.line_text), (reason, line, shown))
            self.assertIn(fault.sentence, str(fault))
            self.assertEqual(fault.text, f'refused {reason} {line}\n')

    @asks
    def test_claims(self):
        instance = Instance.from_text(example('hospitals.txt') + '# a comment behind the end\n')
        given = {'ann': 'city', 'dan': 'city', 'cem': 'north', 'eve': 'west', 'ben': None}
        verdict = instance.check_matching(given, 'proposers')
        self.assertEqual((verdict.line, verdict.reason, verdict.blocking), (18, 'Blocked', ('ben', 'city')))
        verdict = instance.check_matching({'ann': 'west', 'eve': 'west'})
        self.assertEqual((verdict.reason, verdict.line_text, verdict.blocking), ('NotAMatching', 'left ann west', None))
        with self.assertRaises(NotStable) as caught:
            instance.meet(instance.solve(), given)
        fault = caught.exception
        self.assertEqual((fault.which, fault.cause, fault.pair), ('right', 'blocks', ('ben', 'city')))
        with self.assertRaises(ValueError) as told:
            instance.check_matching({'ann': 'citty'})
        self.assertEqual(str(told.exception), "'citty' in the matching is none of the reviewers; is 'city' meant?")
        verdict = instance.check('answer solve side=reviewers\npair ann city\npair ben city\npair cem north\npair eve west\nend\n')
        self.assertEqual((verdict.right, verdict.reason), (False, 'NotBest'))
        with self.assertRaises(Refused) as refused:
            instance.check(next(instance.list()))
        self.assertEqual(refused.exception.reason, 'BadAnswer')

    @asks
    def test_answers(self):
        """The stored inputs of `check`: where a pair is at fault, it is named, and who blocks."""
        paths = glob.glob(os.path.join(TOP, 'examples', 'verdicts', '*.txt'))
        self.assertEqual(len(paths), len(matchbench.VERDICTS))
        self.assertEqual(len(SENTENCES), len(paths))
        for path in paths:
            name = os.path.basename(path)[:-len('.txt')]
            text = example(os.path.join('verdicts', name + '.txt'))
            at = re.search(r'^end.*\n', text, re.M).end()
            verdict = Instance.from_text(text[:at]).check(text[at:])
            self.assertEqual(verdict.text, example(os.path.join('verdicts', name + '.check')))
            self.assertEqual((verdict.sentence, verdict.blocking), (SENTENCES[name], ('m2', 'b') if name == 'blocked' else None))
            self.assertEqual(verdict.line_text, text.split('\n')[verdict.line - 1])
        two = Instance.marriage(*TWO)
        for answer, told in (('solve side=proposers\npair m1 a\npair m2 a\nend', 'm2 can\'t be with a, since a is with m1'),
                             ('rotations\nfirst m1 a\nfirst m2 b\nend',
                              'rotation 1 is missing, which moves m1 from a to b and m2 from b to a')):
            for text in (f'answer {answer}\n', f'answer {answer}', f'answer {answer}\n'.replace('\n', '\r\n')):
                verdict = two.check(text)
                self.assertEqual((verdict.sentence, verdict.line_text), (told, answer.split('\n')[verdict.line - 7]))
        for answer, pair in (('answer list limit=1\nvector 1,3\nend\n', ('m2', 'b')),
                             ('answer regret\nregret 0\nend\n', ('m1', 'a')),
                             ('answer meet\nleft m1 a\nleft m2 b\nright m1 b\npair m1 a\npair m2 b\nend\n', ('m1', 'a')),
                             ('answer rotations\nfirst m1 a\nend\n', ('m2', 'b')),
                             ('answer reduced\nfirst m1 a\nfirst m2 b\nlast m2 a\nend\n', ('m1', 'b'))):
            verdict = two.check(answer)
            self.assertEqual((verdict.reason, verdict.blocking), ('Blocked', pair), answer)

    @asks
    def test_wards(self):
        """Agents have their own names, and seats are named where they matter."""
        instance = Instance.hospitals(*WARDS)
        for answer, told in IN_WARDS.items():
            self.assertEqual(instance.check(f'answer {answer}\n').sentence, told, answer)
        verdict = instance.check('answer rotations\nfirst Zoe x_y/1\nfirst Olafur x_y/2\nfirst Cem r2/1\nend\n')
        self.assertEqual(verdict.blocking, ('Ólafur', Seat('x y', 1)))

    @asks
    def test_levels(self):
        """Each level of weights, and each condition."""
        given = Instance.from_text(example('two_levels.txt'))
        answer = given.weight('given').text
        for old, new, told in (
                ('gain2 1 1', 'gain2 1 2', 'rotation 1 adds 1 to the second sum, and not 2'),
                ('flow2 S 2 1', 'flow2 S 2 4', 'the edge from S to rotation 2 has room for 3, and not for 4'),
                ('flow2 S 2 1', 'flow2 S 1 1', 'the second net has no edge from S to rotation 1'),
                ('flow2 1 T 1', 'flow2 S 2 1', 'the edge from S to rotation 2 has a line above'),
                ('flow2 S 2 1', 'flow2 S 2 0', 'the amount 0 that flows from S to rotation 2 isn\'t positive'),
                ('flow2 S 2 1', 'flow2 S 2 2', '2 flows into rotation 2 and 1 out of it in the second net'),
                ('taken 1 2', 'taken 1 2 3', 'there is no rotation 3'),
                ('value2 1', 'value2 2', '1 flows out of S, and not 2'),
                ('cut2 1', 'cut2 0', 'the cut of the taken rotations is 1, and not 0'),
                ('total2 -2', 'total2 2', 'the second sum of the matching is -2, and not 2'),
                ('pair m1 c\n', '', 'the pair of m1 and c is missing'),
                ('pair m2 a', 'pair m1 c', 'm1 has a pair above')):
            self.assertIn(old, answer)
            self.assertEqual(given.check(answer.replace(old, new)).sentence, told)
        lists = given.proposers, given.reviewers
        for condition, pair, told in (('forced', ('m1', 'b'), 'm1 and b aren\'t together in {}, and are forced'),
                                      ('forbidden', ('m1', 'c'), 'm1 and c are together in {}, and are forbidden')):
            bound = Instance.marriage(*lists, **{condition: [pair]})
            regret = 'answer regret\nregret 3\npair m1 c\npair m2 a\npair m3 b\nend\n'
            self.assertEqual(bound.check(regret).sentence, told.format('this matching'))
            light = Instance.marriage(*lists).weight('given').text.replace('taken -', 'taken 1 2')
            self.assertEqual(bound.check(light).sentence, told.format('the matching of the taken rotations'))

    @asks
    def test_parties(self):
        """What is wrong with parties."""
        lists = {'a': ['b', 'c', 'd'], 'b': ['c', 'a', 'd'], 'c': ['a', 'b', 'd'], 'd': ['a', 'b', 'c'], 'e': []}
        rooms = Instance.roommates(lists)
        for parties, told in (('a b c,d,b', 'b stands twice in the parties'), ('a b c,d', 'e stands in no party'),
                              ('a b c,d e', 'e follows d in a party, and d doesn\'t list e'),
                              ('a c b,d,e', 'a would rather have b, who stands before it in its party, than c, who follows'),
                              ('a d,b c,e', 'a and c would both rather have one another than those who stand before them in their '
                                            'parties')):
            answer = ['answer solve', 'none', *(f'party {it}' for it in parties.split(',')), 'end', '']
            self.assertEqual(rooms.check('\n'.join(answer)).sentence, told)

    @asks
    def test_changed_answers(self):
        """Lines of answers are changed in any way: what is told is never the general text."""
        seen = set()
        for seed in range(150):
            draw = random.Random(seed)
            instance = Instance.make(draw.choice(('random', 'hospitals')), 9, seed)
            answer = draw.choice((instance.reduced, instance.rotations, instance.regret, instance.weight, instance.solve))().text
            lines = answer.splitlines()
            place = draw.randrange(1, len(lines))
            words, numbered = lines[place].split(' '), [it for it in range(1, len(lines)) if lines[it][-1].isdigit()]
            if seed % 3 == 0 and words[-1].lstrip('-').isdigit():
                lines[place] = ' '.join([*words[:-1], str(int(words[-1]) + draw.choice((-1, 1)))])
            elif seed % 3 == 1:
                one, other = draw.choice(numbered or [place]), draw.choice(numbered or [place])
                lines[one], lines[other] = lines[other], lines[one]
            else:
                del lines[place]
            try:
                verdict = instance.check('\n'.join([*lines, '']))
            except Refused:
                continue
            self.assertNotIn(verdict.sentence, matchbench.VERDICTS.values())
            self.assertTrue(verdict.sentence)
            seen.add(verdict.reason)
        self.assertGreater(len(seen), 4)

    @asks
    def test_make(self):
        self.assertEqual(Instance.make('cycle', 3, 1).survey().listed, 3)
        self.assertEqual(Instance.make('rooms', 4, 1).kind, 'roommates')
        shapes = "'random' or 'hospitals' or 'rooms' or 'cycle' or 'copies'"
        for words, told in ((('square', 3, 1), f"shape is 'square', and not {shapes}"),
                            (('rooms', 513, 1), 'size is 513, and not from 1 to 512'),
                            (('copies', 2049, 1), 'size is 2,049, and not from 1 to 2,048'),
                            (('cycle', 3, -1), 'seed is -1, and not from 0 to 18,446,744,073,709,551,615')):
            with self.assertRaises(ValueError) as caught:
                Instance.make(*words)
            self.assertEqual(str(caught.exception), told)
        with self.assertRaises(TypeError) as caught:
            Instance.make('cycle', '3', 1)
        self.assertEqual(str(caught.exception), "size is '3', and no whole number")

    @asks
    def test_graph(self):
        try:
            networkx = importlib.import_module('networkx')
        except ImportError:
            self.skipTest('networkx is missing')
        for seed in range(40):
            instance = Instance.make('random', 8, seed)
            order = instance.rotations()
            graph = order.graph()
            self.assertEqual(sorted(graph), [it.number for it in order.rotations])
            self.assertTrue(networkx.is_directed_acyclic_graph(graph))
            self.assertEqual(sum(1 for _ in networkx.antichains(graph)), sum(1 for _ in instance.list()))
            self.assertTrue(all(graph.nodes[it.number]['rotation'] is it for it in order.rotations))


class Names(unittest.TestCase):
    """Names, and arguments that aren't taken: all without the program."""

    def test_as_from_csv(self):
        draw = random.Random(1)
        for _ in range(300):
            originals = list({''.join(draw.choice('aB1_.- ,éßДЁ中') for _ in range(draw.randint(0, 4))): 0 for _ in range(9)})
            originals += ['x' * 70, 'x' * 71, 'p1', 'p2_']
            self.assertEqual(matchbench.sound_names(originals, 'p'), sound_names(originals, 'p'))

    def test_text(self):
        instance = Instance.hospitals(
            {'Zoë': ['Дом 5', 'west'], 'ann': []}, {'Дом 5': ['Zoë'], 'west': ['ann', 'Zoë']}, {'west': 2, 'Дом 5': 0},
            weights={('Zoë', 'west'): -3}, forced=[('Zoë', 'west')], forbidden=[('ann', 'Дом 5')])
        self.assertEqual(instance.to_text(), 'stable 1 hospitals\np Zoe: r1 west\np ann:\nr r1 [0]: Zoe\nr west [2]: ann Zoe\n'
                         'weight Zoe west -3\nforce Zoe west\nforbid ann r1\nend\n')
        self.assertEqual(dict(instance.reviewer_names), {'Дом 5': 'r1', 'west': 'west'})
        self.assertEqual(dict(instance.capacities), {'Дом 5': 0, 'west': 2})
        self.assertEqual(repr(instance), '<Instance of hospitals: 2 proposers, 2 reviewers>')
        self.assertEqual((dict(instance.weights), instance.forced, instance.forbidden, instance.compared),
                         ({('Zoë', 'west'): (-3,)}, (('Zoë', 'west'),), (('ann', 'Дом 5'),), None))
        again = pickle.loads(pickle.dumps(instance))
        self.assertEqual((again, again.to_text()), (instance, instance.to_text()))

    @asks
    def test_read(self):
        """A text keeps its layout, and what stands behind its `end` isn't in the way of an answer."""
        text = '# \xe9\n\tstable 1 hospitals\r\nr\tc [ 3 ]:a#b\r\np a : c\r\n end # .\n\n# end\n'
        for given in (text, text.encode('latin-1')):
            instance = Instance.from_text(given)
            self.assertEqual((instance.kind, dict(instance.proposers), dict(instance.reviewers), dict(instance.capacities)),
                             ('hospitals', {'a': ('c',)}, {'c': ('a',)}, {'c': 3}))
            self.assertTrue(instance.check_matching({'a': 'c'}))
            self.assertTrue(instance.check(instance.solve()))
        self.assertEqual(instance.to_text().encode('utf-8', 'surrogateescape'), text.encode('latin-1'))
        written = Instance.hospitals({'Zoë': ['Дом 5', 'west'], 'ann': []}, {'Дом 5': ['Zoë'], 'west': ['ann', 'Zoë']},
                                     {'Дом 5': 0, 'west': 2})
        again = Instance.from_text(written.to_text())
        self.assertEqual(dict(again.proposers), {'Zoe': ('r1', 'west'), 'ann': ()})
        self.assertEqual((again.kind, dict(again.capacities)), ('hospitals', {'r1': 0, 'west': 2}))
        for name in ('master_list', 'in_order', 'second_weights', 'roommates', 'weighed', 'forbidden', 'hospitals'):
            instance = Instance.from_text(example(name + '.txt'))
            again = Instance.from_text(example(name + '.txt').replace('\n', '  # .\r\n'))
            value = Instance.from_json(instance.to_json())
            self.assertEqual((instance, hash(instance)), (again, hash(again)))
            self.assertEqual((instance, hash(instance)), (value, hash(value)))

    def test_equal(self):
        """The same parts, in the same order of agents."""
        lists, rows, pair = {'a': ['x', 'y'], 'b': ['y']}, {'x': ['a'], 'y': ['b', 'a']}, ('a', 'x')
        one = Instance.marriage(lists, rows)
        alike = [(lists, rows, {}), (lists, rows, {'weights': {}, 'forced': []}), (lists, rows, {'order': ['a']})]
        for p, r, more in alike:
            self.assertEqual((Instance.marriage(p, r, **more), hash(Instance.marriage(p, r, **more))), (one, hash(one)))
        others = [(dict(reversed(list(lists.items()))), rows, {}), (lists, {**rows, 'x': []}, {}), (lists, rows, {'order': ['b']}),
                  (lists, rows, {'weights': {pair: 0}}), (lists, rows, {'forced': [pair]}), (lists, rows, {'forbidden': [pair]})]
        made = [Instance.marriage(p, r, **more) for p, r, more in others] + [Instance.hospitals(lists, rows, {'x': 1, 'y': 1})]
        self.assertEqual(len({one, *made}), len(made) + 1)
        self.assertEqual(Instance.marriage(lists, rows, weights={pair: (5, 0)}), Instance.marriage(lists, rows, weights={pair: 5}))
        self.assertNotEqual(one, one.to_text())

    @asks
    def test_json(self):
        """The stored instances and those of docs/FORMATS.md: as text, as bytes, and as a value."""
        paths = sorted(glob.glob(os.path.join(TOP, 'examples', '*.json')))
        self.assertGreater(len(paths), 6)
        for path in paths:
            name = os.path.basename(path)[:-len('.json')]
            wanted = Instance.from_text(example(name + '.txt'))
            for given in (example(name + '.json'), example(name + '.json').encode(), json.loads(example(name + '.json'))):
                got = Instance.from_json(given)
                self.assertEqual((got.kind, dict(got.proposers), dict(got.reviewers), dict(got.capacities)),
                                 (wanted.kind, dict(wanted.proposers), dict(wanted.reviewers), dict(wanted.capacities)), name)
        with open(os.path.join(TOP, 'docs', 'FORMATS.md'), encoding='utf-8') as file:
            shown = re.findall(r'^    (\{"kind".*(?:\n     .*)*)', file.read(), re.M)
        self.assertEqual([Instance.from_json(it).to_text() for it in shown], [
            'stable 2 marriage\np m1: a b\np m2: b a\nr a: m2 m1\nr b: m1 m2\nweight m1 b 5\nweight m2 a -3 1\nforce m1 a\n'
            'forbid m2 a\norder m2\nend\n',
            'stable 1 hospitals\np ann: city\np ben: city\nr city [2]: ben ann\nend\n',
            'stable 1 roommates\np x: y\np y: x\nend\n'])

    def test_json_members(self):
        """Members in any order, twice, escaped, empty; what isn't exactly an instance is none."""
        two = '"kind": "marriage", "proposers": [{"name": "a", "list": ["x"]}], "reviewers": [{"list": [], "name": "x"}]'
        plain = 'stable 1 marriage\np a: x\nr x:\nend\n'
        for given, wanted in ((two, plain), (two + ', "weights": [], "forced": [], "forbidden": []', plain),
                              (two.replace('"a"', '"\\u0061"'), plain), ('"kind": [1.0, {"kind": -0}], ' + two, plain),
                              (two.replace('"a"', '"Zo\u00eb"'), plain.replace('p a', 'p Zoe')),
                              (two + ', "order": []', 'stable 2 marriage\np a: x\nr x:\norder\nend\n'),
                              (two + ', "weights": [["a", "x", 1000000000, -1000000000]]',
                               'stable 2 marriage\np a: x\nr x:\nweight a x 1000000000 -1000000000\nend\n')):
            self.assertEqual(Instance.from_json('{' + given + '}').to_text(), wanted)
        for given, told in WRONG_JSON.items():
            with self.assertRaises(ValueError) as caught:
                Instance.from_json(given)
            self.assertIn(told, str(caught.exception), given)

    def test_json_given(self):
        """`to_json` takes one whole line of the program."""
        instance = Instance.marriage(*TWO)
        with tempfile.TemporaryDirectory() as folder:
            path = os.path.join(folder, 'program')
            for written, ended, is_whole in (('{}\\n', 0, True), ('{}', 0, False), ('', 0, False), ('', 4, False)):
                with open(path, 'w', encoding='utf-8') as file:
                    file.write(f"#!/bin/sh\ncat >/dev/null\nprintf '{written}'\nexit {ended}\n")
                os.chmod(path, stat.S_IRWXU)
                with mock.patch.dict(os.environ, {'MATCHBENCH': path}):
                    if is_whole:
                        self.assertEqual(instance.to_json(), '{}\n')
                    else:
                        self.assertRaises(Failed, instance.to_json)

    @asks
    def test_json_asked(self):
        """What `export` writes is read again, and `form=json` refuses what isn't read."""
        for seed in range(20):
            lists, rows, capacities = drawn(seed)
            made = Instance.marriage(lists, rows) if capacities is None else Instance.hospitals(lists, rows, capacities)
            again = Instance.from_json(made.to_json())
            self.assertEqual((again.solve().ranks, again.to_json()), (made.solve().ranks, made.to_json()))
        for given in WRONG_JSON:
            done = subprocess.run([matchbench.find_program(), 'solve', 'form=json'], input=given.encode(), stdout=subprocess.PIPE)
            self.assertEqual((done.returncode, done.stdout), (1, b'["refused BadJson 0"]\n'), given)

    def test_arguments(self):
        p, r = {'ann': ['art', 'biology']}, {'art': ['ann'], 'biology': []}
        for make, kind, told in (
                (lambda: Instance.marriage({'ann': ['artt']}, r), ValueError,
                 "'artt' in the list of 'ann' is none of the reviewers; is 'art' meant?"),
                (lambda: Instance.marriage({'ann': ['art', 'art']}, r), ValueError, "'art' stands twice on the list of 'ann'"),
                (lambda: Instance.marriage({'ann': 'art'}, r), TypeError,
                 "the list of 'ann' is 'art', and not a list of names, best first"),
                (lambda: Instance.marriage({'ann': [None, 'art']}, r), ValueError,
                 "None in the list of 'ann' is no name: leave out what is empty"),
                (lambda: Instance.marriage({'ann': [' Art']}, r), ValueError,
                 "' Art' in the list of 'ann' is none of the reviewers; is 'art' meant?"),
                (lambda: Instance.marriage({7: ['art']}, {'art': ['7']}), ValueError,
                 "'7' in the list of 'art' is none of the proposers; is 7 meant?"),
                (lambda: Instance.marriage({'ann': float('nan')}, r), TypeError,
                 "the list of 'ann' is nan, and not a list of names, best first"),
                (lambda: Instance.marriage(None, r), TypeError, 'the proposers are None, and not a dict or a list'),
                (lambda: Instance(p, r), TypeError,
                 'Instance.marriage, Instance.hospitals and Instance.roommates make instances of lists'),
                (lambda: Instance.marriage(p, r, forced=['ax']), TypeError, "'ax' in the forced pairs is no pair"),
                (lambda: Instance.marriage(p, r, forbidden=7), TypeError,
                 '7 is given for the forbidden pairs, and not a dict or pairs'),
                (lambda: Instance.marriage(p, r, weights={'ann': {'art': 1}}), TypeError, "'ann' in the weights is no pair"),
                (lambda: Instance.marriage(p, r).check_matching(['ann', 'art']), TypeError, "'ann' in the matching is no pair"),
                (lambda: Instance.marriage({None: []}, r), TypeError, 'None is no name: it stands for being alone'),
                (lambda: Instance.marriage({'ann': {'art': 1}}, r), TypeError,
                 "the list of 'ann' is {'art': 1}, and not a list of names, best first"),
                (lambda: Instance.marriage('ann', r), TypeError, "the proposers are 'ann', and not a dict or a list"),
                (lambda: Instance.marriage({'ann': [['art']]}, r), ValueError,
                 "['art'] in the list of 'ann' is none of the reviewers"),
                (lambda: Instance.marriage([[0, 2]], [[0], [0]]), ValueError, '2 in the list of 0 is none of the reviewers'),
                (lambda: Instance.hospitals(p, {'art': ['ann'], 'biology': []}, {'art': -1, 'biology': 1}), ValueError,
                 "the capacity of 'art' is -1, and not from 0 to 4,096"),
                (lambda: Instance.hospitals(p, r, {'art': 1, 'biology': 4097}), ValueError,
                 "the capacity of 'biology' is 4,097, and not from 0 to 4,096"),
                (lambda: Instance.hospitals(p, r, {'art': 1, 'biology': '2'}), TypeError,
                 "the capacity of 'biology' is '2', and no whole number"),
                (lambda: Instance.hospitals(p, r, {'art': 1.5, 'biology': 2}), TypeError,
                 "the capacity of 'art' is 1.5, and no whole number"),
                (lambda: Instance.hospitals(p, r, [1]), ValueError, "0 in the capacities is none of the reviewers"),
                (lambda: Instance.marriage(p, r, weights={('ann', 'art'): 2 * 10 ** 9}), ValueError,
                 "the weight of ('ann', 'art') is 2,000,000,000, and not from -1,000,000,000 to 1,000,000,000"),
                (lambda: Instance.marriage(p, r, weights={('ann', 'art'): (1, 2, 3)}), ValueError,
                 "the weight of ('ann', 'art') is (1, 2, 3), and not one number or two"),
                (lambda: Instance.marriage(p, r, order=['art']), ValueError, "'art' in the order is none of the proposers"),
                (lambda: Instance.roommates({'ann': ['ann']}), ValueError, "'ann' stands on the list of 'ann'"),
                (lambda: Instance.hospitals(p, r, {'art': 2}), ValueError, "'biology' has no capacity"),
                (lambda: Instance.hospitals(p, r, {'art': 2, 'biology': 1, 'x': 1}), ValueError,
                 "'x' in the capacities is none of the reviewers"),
                (lambda: Instance.marriage(p, r, forced=[('art', 'ann')]), ValueError,
                 "'art' in the forced pairs is none of the proposers"),
                (lambda: Instance.marriage(p, r).solve(side='both'), ValueError,
                 "side is 'both', and not 'proposers' or 'reviewers'"),
                (lambda: Instance.marriage(p, r).weight(by='miles'), ValueError, "by is 'miles', and not 'ranks' or 'given'"),
                (lambda: Instance.marriage(p, r).list(limit=-1), ValueError,
                 'limit is -1, and not from 0 to 9,223,372,036,854,775,807'),
                (lambda: Instance.marriage(p, r).list(after=[-1]), ValueError,
                 'a rank of `after` is -1, and not from 0 to 4,294,967,295'),
                (lambda: Instance.marriage(p, r).survey(limit=0), ValueError, 'limit is 0, and not from 1 to 1,000,000')):
            with self.assertRaises(kind) as caught:
                make()
            self.assertEqual(str(caught.exception), told)
        self.assertRaises(TypeError, Instance.marriage, p, r, weights={('ann', 'art'): 1.5})
        # Rows that were filled up, and pairs by a dict.
        filled = Instance.marriage({'ann': ['art', 'biology', None, float('nan')]}, {'art': ('ann', None), 'biology': [None]},
                                   forced={'ann': 'art'})
        self.assertEqual(filled, Instance.marriage(p, r, forced=[('ann', 'art')]))

    def test_tables(self):
        with open(os.path.join(TOP, 'docs', 'FORMATS.md'), encoding='utf-8') as file:
            formats = file.read()
        refusals = re.findall(r'^\| `([A-Z]\w+)` \|', formats.split('\n## Refusals\n')[1], re.M)
        verdicts = re.findall(r'^\| `([A-Z]\w+)` \|', formats.split('\n| Reason | At |')[1].split('\n\n')[0], re.M)
        self.assertEqual(list(matchbench.REASONS), refusals)
        self.assertEqual(list(matchbench.VERDICTS), verdicts)


class Programs(unittest.TestCase):
    """Programs that aren't there, fail, or never end."""

    def setUp(self):
        folder = tempfile.TemporaryDirectory()
        self.addCleanup(folder.cleanup)
        self.folder = folder.name
        self.instance = Instance.marriage(*TWO)

    def program(self, script):
        """Puts a script in the place of the program."""
        path = os.path.join(self.folder, 'program')
        with open(path, 'w', encoding='utf-8') as file:
            file.write('#!/bin/sh\n' + script)
        os.chmod(path, os.stat(path).st_mode | stat.S_IXUSR)
        patch = mock.patch.dict(os.environ, {'MATCHBENCH': path})
        patch.start()
        self.addCleanup(patch.stop)

    def test_rest(self):
        """What is made of a stored answer."""
        self.program(f'cat >/dev/null\ncat "{os.path.join(TOP, "examples", "odd_party.rest")}"\n')
        found = Instance.roommates(ODD).rest()
        self.assertEqual((found.out, found.matching.pairs), (('ann',), (('ben', 'cem'),)))
        self.assertEqual(found.matching.partners(), {'ann': None, 'ben': 'cem', 'cem': 'ben', 'dan': None})
        self.assertIsInstance(found.matching, Couples)
        self.assertEqual((found.matching.ranks, found.text), ((4, 1, 2, 4), example('odd_party.rest')))

    def test_missing(self):
        with mock.patch.dict(os.environ, {'MATCHBENCH': os.path.join(self.folder, 'none')}):
            with self.assertRaises(ProgramMissing) as caught:
                self.instance.solve()
            self.assertIn('which is no program', str(caught.exception))
            self.instance.list()

    def test_places(self):
        self.program('')
        named = os.environ['MATCHBENCH']
        self.assertEqual(matchbench.find_program(), named)
        with mock.patch.dict(os.environ, {'MATCHBENCH': '', 'PATH': self.folder}), \
                mock.patch.object(matchbench._program, '__file__', os.path.join(self.folder, 'python', 'matchbench', 'it.py')):
            with self.assertRaises(ProgramMissing) as caught:
                self.instance.solve()
            self.assertIn('builds it', str(caught.exception))
            for path in (('matchbench',), ('crates', 'matchbench', 'out', 'matchbench')):
                path = os.path.join(os.path.realpath(self.folder), *path)
                os.makedirs(os.path.dirname(path), exist_ok=True)
                shutil.copy(named, path)
                self.assertEqual(os.path.realpath(matchbench.find_program()), path)

    def test_released(self):
        """The released program of the repository is found, and isn't called if its checksum is wrong."""
        self.program('[ "$*" != - ] || echo usage 1\n')
        named = os.environ['MATCHBENCH']
        path = os.path.join(os.path.realpath(self.folder), 'release', 'matchbench')
        os.mkdir(os.path.dirname(path))
        with open(named, 'rb') as file, open(os.path.join(os.path.dirname(path), 'SHA256SUMS'), 'w', encoding='ascii') as sums:
            sums.write(f'{hashlib.sha256(file.read()).hexdigest()}  matchbench\n')
        with mock.patch.dict(os.environ, {'MATCHBENCH': '', 'PATH': self.folder}), \
                mock.patch.object(matchbench._program, '__file__', os.path.join(self.folder, 'python', 'matchbench', 'it.py')):
            with open(path, 'wb') as file:
                file.write(b'another one')
            with self.assertRaises(ProgramMissing) as caught:
                self.instance.solve()
            self.assertIn('doesn\'t have the checksum', str(caught.exception))
            shutil.copy(named, path)
            with mock.patch.dict(os.environ, {'PATH': '/usr/bin:/bin'}):
                self.assertEqual(matchbench.find_program(), path)

    def test_statuses(self):
        for status, front in ((4, 'answer solve side=proposers\\npair m1 a\\n'), (5, ''), (6, 'answer so'), (8, ''), (70, ''),
                              (0, 'answer solve side=proposers\\npair m1 a\\n'), (0, 'answer solve side=proposers\\nend'), (1, '')):
            self.program(f'cat >/dev/null; printf "{front}"; exit {status}')
            for ask in (self.instance.solve, lambda: list(self.instance.list())):
                with self.assertRaises(Failed) as caught:
                    ask()
                self.assertEqual(caught.exception.status, status)
                self.assertIn(f'status {status}', str(caught.exception))
        self.program('kill -9 $$')
        with self.assertRaises(Failed) as caught:
            self.instance.solve()
        self.assertEqual(str(caught.exception), 'the program was ended by signal 9')

    def test_broken_off(self):
        self.program('cat >/dev/null; printf "answer list limit=100\\nvector 1,1\\nvector 2"; exit 6')
        listing = self.instance.list()
        self.assertEqual(next(listing).partners(), {'m1': 'a', 'm2': 'b'})
        self.assertRaises(Failed, next, listing)

    def test_lazy(self):
        mark = os.path.join(self.folder, 'started')
        self.program(f'cat >/dev/null; echo $$ >{mark}; while echo vector 1,1; do :; done')
        listing = self.instance.list()
        self.assertFalse(os.path.exists(mark))
        for _ in range(3):
            self.assertEqual(next(listing).ranks, (1, 1))
        with open(mark, encoding='utf-8') as file:
            number = int(file.read())
        listing.close()
        self.assertRaises(ProcessLookupError, os.kill, number, 0)

    def test_without_reading(self):
        self.program('echo "refused TooLong 0"; exit 1')
        instance = Instance.marriage(*TWO)
        instance._text = 'stable 1 marriage\n' + '#' * 1_000_000
        for ask in (instance.solve, lambda: list(instance.list())):
            with self.assertRaises(Refused) as caught:
                ask()
            self.assertEqual((caught.exception.reason, caught.exception.line), ('TooLong', 0))

    def test_values(self):
        """Results can be kept, compared and sent to other processes."""
        faults = (Refused('BadLine', 2, 'p a', 'refused BadLine 2\n'), NoMatching('answer regret\nnone\nend\n'), Failed(4, ''),
                  NotStable(8, 'end', 'refused NotStable 8 left blocks a b\n', 'left', 'blocks', ('a', 'b'), 'so'))
        for fault in faults:
            again = pickle.loads(pickle.dumps(fault))
            self.assertEqual((type(again), str(again), vars(again)), (type(fault), str(fault), vars(fault)))
        one, other = (Matching(it, self.instance, (('m1', 'a'),), (1, 3)) for it in ('x', 'y'))
        self.assertEqual(one, other)
        self.assertEqual(len({one, other, Matching('x', self.instance, (), (3, 3))}), 2)
        self.assertRaises(AttributeError, setattr, one, 'pairs', ())
        again = pickle.loads(pickle.dumps(one))
        self.assertEqual((again, again.text, again.instance), (one, 'x', self.instance))
        self.assertEqual(Seat('city', 2), ('city', 2))


if __name__ == '__main__':
    unittest.main()
