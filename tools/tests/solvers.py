"""Solvers for `challenge --protocol lines`, by their names: a right one, and others with one mistake each.

    tools/challenge --protocol lines -- python3 tools/tests/solvers.py NAME
"""
import json
import sys
import time


class Right:
    """Deferred acceptance: each proposer goes down its list, and each reviewer keeps the best that it gets."""

    def __init__(self, instance):
        self.lists = {it['name']: it['list'] for it in instance['proposers']}
        self.places = {it['name']: it.get('capacity', 1) for it in instance['reviewers']}
        self.rows = {it['name']: it['list'] for it in instance['reviewers']}
        self.ranks = {r: {p: place for place, p in enumerate(row)} for r, row in self.rows.items()}
        self.next = dict.fromkeys(self.lists, 0)
        self.held = {r: [] for r in self.rows}
        self.free = list(self.lists)

    def pairs(self):
        """The matching."""
        while self.free:
            self.go_on(self.free.pop())
        return [[p, r] for r, row in self.held.items() for p in row]

    def go_on(self, p):
        """Lets a proposer propose until some reviewer keeps it."""
        while self.next[p] < len(self.lists[p]):
            r = self.lists[p][self.next[p]]
            self.next[p] += 1
            if self.listed(r, p) and self.places[r]:
                out = self.turned_down(r, p)
                if out != p:
                    if out is not None:
                        self.displaced(out)
                    return

    def listed(self, r, p):
        """Whether a reviewer lists a proposer."""
        return p in self.ranks[r]

    def rank(self, r, p):
        """By what a reviewer compares proposers."""
        return self.ranks[r][p]

    def turned_down(self, r, p):
        """Takes a proposer; whom the reviewer lets go for it, or None."""
        self.held[r].append(p)
        if len(self.held[r]) <= self.places[r]:
            return None
        worst = max(self.held[r], key=lambda it: self.rank(r, it))
        self.held[r].remove(worst)
        return worst

    def displaced(self, p):
        """Frees a proposer."""
        self.free.append(p)


# Those of the gate.

class BestForReviewers(Right):
    """Stable, but the best for the wrong side."""

    def pairs(self):
        ranks = {p: {r: place for place, r in enumerate(row)} for p, row in self.lists.items()}
        has, count, ways, free = {}, dict.fromkeys(self.rows, 0), {r: iter(row) for r, row in self.rows.items()}, list(self.rows)
        while free:
            r = free.pop()
            for p in ways[r] if count[r] < self.places[r] else ():
                if r in ranks[p] and (p not in has or ranks[p][r] < ranks[p][has[p]]):
                    if p in has:
                        count[has[p]] -= 1
                        free.append(has[p])
                    has[p] = r
                    count[r] += 1
                    free.append(r)
                    break
        return list(has.items())


class LastAdmitted(Right):
    """Compares with the last one that was admitted, and not with the worst."""

    def turned_down(self, r, p):
        if len(self.held[r]) < self.places[r]:
            self.held[r].append(p)
            return None
        last = self.held[r][-1]
        if self.rank(r, last) < self.rank(r, p):
            return p
        self.held[r][-1] = p
        return last


class Unlisted(Right):
    """Takes whom a reviewer doesn't list for its last choice."""

    def listed(self, r, p):
        return True

    def rank(self, r, p):
        return self.ranks[r].get(p, len(self.ranks[r]))


class CrashAtZero(Right):
    """Looks for the worst of nobody where there is no place."""

    def go_on(self, p):
        for r in self.lists[p]:
            if self.listed(r, p) and not self.places[r]:
                max(self.held[r])
        super().go_on(p)


# More of them.

class OnePlace(Right):
    """Takes each reviewer to have one place."""

    def turned_down(self, r, p):
        self.places[r] = 1
        return super().turned_down(r, p)


class OneTooMany(Right):
    """Takes one more than there are places."""

    def turned_down(self, r, p):
        if len(self.held[r]) == self.places[r]:
            self.held[r].append(p)
            return None
        return super().turned_down(r, p)


class FirstCome(Right):
    """Keeps whoever came first."""

    def turned_down(self, r, p):
        if len(self.held[r]) == self.places[r]:
            return p
        return super().turned_down(r, p)


class Forgotten(Right):
    """Forgets whom a reviewer lets go."""

    def displaced(self, p):
        pass


class SkipsOne(Right):
    """Lets whom a reviewer lets go pass over a choice."""

    def displaced(self, p):
        self.next[p] += 1
        super().displaced(p)


class WorstFirst(Right):
    """Reads the lists of reviewers from their end."""

    def rank(self, r, p):
        return -self.ranks[r][p]


class FalseFirst(Right):
    """Takes place 0 for none, so that the first choice is the last."""

    def rank(self, r, p):
        return self.ranks[r][p] or len(self.ranks[r])


class RanksAsText(Right):
    """Compares ranks as texts, so that 10 comes before 9."""

    def rank(self, r, p):
        return str(self.ranks[r][p] + 1)


class NamesAsNumbers(Right):
    """Reads names that look like numbers as numbers, as a spreadsheet does."""

    def pairs(self):
        return [[str(int(it)) if it.isdigit() else it for it in pair] for pair in super().pairs()]


class OneTable(Right):
    """Keeps both sides in one table by name."""

    def __init__(self, instance):
        super().__init__(instance)
        both = {**self.lists, **self.rows}
        self.lists = {p: both[p] for p in self.lists}
        self.lists = {p: [r for r in row if r in self.rows] for p, row in self.lists.items()}


class RoundsOfProposers(Right):
    """Stops after as many rounds as there are proposers."""

    def pairs(self):
        for _ in range(len(self.lists)):
            if self.free:
                self.go_on(self.free.pop())
        self.free = []
        return super().pairs()


class ThreeChoices(Right):
    """Looks at three choices alone."""

    def __init__(self, instance):
        super().__init__(instance)
        self.lists = {p: row[:3] for p, row in self.lists.items()}


class Remembers(Right):
    """Takes instances with the same names for the same instance."""

    KNOWN = {}

    def pairs(self):
        key = tuple(self.lists), tuple(self.rows)
        return self.KNOWN.setdefault(key, super().pairs())


class Waits(Right):
    """Waits for a proposer that doesn't come where there is none."""

    def pairs(self):
        if not self.lists:
            time.sleep(3600)
        return super().pairs()


NAMES = {
    'right': Right, 'best_for_reviewers': BestForReviewers, 'last_admitted': LastAdmitted, 'unlisted': Unlisted,
    'crash_at_zero': CrashAtZero,
    'one_place': OnePlace, 'one_too_many': OneTooMany, 'first_come': FirstCome, 'forgotten': Forgotten, 'skips_one': SkipsOne,
    'worst_first': WorstFirst, 'false_first': FalseFirst, 'ranks_as_text': RanksAsText, 'names_as_numbers': NamesAsNumbers,
    'one_table': OneTable, 'rounds_of_proposers': RoundsOfProposers, 'three_choices': ThreeChoices, 'remembers': Remembers,
    'waits': Waits,
}
GATE = ('best_for_reviewers', 'last_admitted', 'unlisted', 'crash_at_zero')
MORE = tuple(NAMES)[1 + len(GATE):]


if __name__ == '__main__':
    for line in sys.stdin:
        print(json.dumps(NAMES[sys.argv[1]](json.loads(line)).pairs()), flush=True)
