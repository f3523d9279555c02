"""Smaller instances that still fail."""
from __future__ import annotations

from typing import Callable, List, Tuple

from ._draft import Draft

MOST_TRIALS = 3_000
# For each so many entries a trial counts once more.
LARGE = 5_000


class Spent(Exception):
    """No trial is left."""


class Shrinker:
    """A draft that fails, and what is tried on the way to a smaller one. A trial of a large draft counts as several."""

    def __init__(self, draft: Draft, fails: Callable[[Draft], bool], trials: int) -> None:
        self.draft, self.fails, self.left = draft, fails, trials
        self.shrank, self.count = False, 0

    def takes(self, less: Draft) -> bool:
        """Whether a smaller draft fails too; then it is gone on with. Raises Spent."""
        if self.left <= 0:
            raise Spent
        self.left -= 1 + less.measure()[1] // LARGE
        self.count += 1
        if not self.fails(less):
            return False
        self.draft, self.shrank = less, True
        return True

    def run(self) -> None:
        """Goes on until nothing can be left out. Raises Spent."""
        self.shrank = True
        while self.shrank:
            self.shrank = False
            self.agents(False)
            self.agents(True)
            self.conditions()
            self.places()
            self.taken_places()
            self.pairs()
            self.entries()
        if self.draft.kind == 'hospitals' and all(it == 1 for it in self.draft.capacities.values()):
            less = self.draft.copy()
            less.kind = 'marriage'
            self.takes(less)

    def agents(self, of_reviewers: bool) -> None:
        """Leaves out half of a side, then quarters, and at last one agent after the other."""
        def names() -> List[str]:
            return list(self.draft.reviewers if of_reviewers else self.draft.proposers)
        step = (len(names()) + 1) // 2
        while step:
            at = 0
            while at < len(names()):
                if not self.takes(self.draft.without(names()[at:at + step], of_reviewers)):
                    at += step
            step //= 2

    def conditions(self) -> None:
        """Leaves out weights, forced and forbidden pairs, and the order: all at once, then one after the other."""
        if self.draft.order is not None:
            less = self.draft.copy()
            less.order = None
            self.takes(less)
        for word in ('weights', 'forced', 'forbidden'):
            for gone in [list(getattr(self.draft, word))] + [[it] for it in getattr(self.draft, word)]:
                kept = getattr(self.draft, word)
                if gone and all(it in kept for it in gone):
                    less = self.draft.copy()
                    setattr(less, word, {it: kept[it] for it in kept if it not in gone} if word == 'weights' else
                            [it for it in kept if it not in gone])
                    self.takes(less)

    def places(self) -> None:
        """Lowers capacities: to 1, to a half, to the length of the list, or by 1."""
        for name in self.draft.capacities if self.draft.kind == 'hospitals' else ():
            now = self.draft.capacities[name]
            for count in sorted({1, now // 2, len(self.draft.reviewers[name]), now - 1}):
                if 0 <= count < now:
                    less = self.draft.copy()
                    less.capacities[name] = count
                    if self.takes(less):
                        break

    def taken_places(self) -> None:
        """Leaves out a proposer together with a place of a reviewer that lists it, which it may have."""
        for r in list(self.draft.reviewers if self.draft.kind == 'hospitals' else ()):
            for p in list(self.draft.reviewers[r]):
                if self.draft.capacities[r] > 1 and p in self.draft.proposers:
                    less = self.draft.without([p])
                    less.capacities[r] -= 1
                    self.takes(less)

    def pairs(self) -> None:
        """Takes pairs off both lists."""
        for p in list(self.draft.proposers):
            for r in list(self.draft.proposers[p]):
                less = self.draft.copy()
                less.proposers[p].remove(r)
                other = (less.proposers if less.rooms else less.reviewers).get(r, [])
                if p in other:
                    other.remove(p)
                    self.takes(less)

    def entries(self) -> None:
        """Takes entries off one list."""
        for word in ('proposers', 'reviewers'):
            for name in list(getattr(self.draft, word)):
                for it in list(getattr(self.draft, word)[name]):
                    less = self.draft.copy()
                    row = getattr(less, word)[name]
                    if it in row:
                        row.remove(it)
                        self.takes(less)


def smallest_draft(draft: Draft, fails: Callable[[Draft], bool], trials: int = MOST_TRIALS) -> Tuple[Draft, int, bool]:
    """`smallest` for a draft, how many trials it took, and whether it came to its end."""
    shrinker = Shrinker(draft, fails, trials)
    try:
        shrinker.run()
    except Spent:
        return shrinker.draft, shrinker.count, False
    return shrinker.draft, shrinker.count, True
