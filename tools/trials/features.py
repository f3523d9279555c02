"""What an instance has that solvers go wrong with: the rows of the table of what was tried."""


class Facts:
    """An instance with two sides, its best stable matching for the proposers, and whether there are others."""

    def __init__(self, program, draft):
        self.draft = draft
        self.p, self.r, self.capacities = draft.proposers, draft.reviewers, draft.capacities
        self.entries = {(p, r) for p, row in self.p.items() for r in row}
        self.returned = {(p, r) for r, row in self.r.items() for p in row}
        lines = [it.split(' ') for it in program.ask(draft.text(), 'rotations')[1].split('\n')]
        self.best = {it[1]: it[2].split('/')[0] for it in lines if it[0] == 'first'}
        self.rotations = sum(1 for it in lines if it[0] == 'rotation')
        self.turned_down = self.refusals()

    def refusals(self):
        """The reviewers with places that turn down somebody whom they list, on the way to the best stable matching."""
        both, found = self.entries & self.returned, set()
        for p, row in self.p.items():
            for r in row[:row.index(self.best[p])] if p in self.best else row:
                if (p, r) in both and self.capacities[r]:
                    found.add(r)
        return found

    def free(self):
        """Whether some place is free."""
        held = dict.fromkeys(self.r, 0)
        for r in self.best.values():
            held[r] += 1
        return any(held[r] < count for r, count in self.capacities.items())


TWO_SIDED = {
    'a side without agents': lambda it: not it.p or not it.r,
    'a proposer with an empty list': lambda it: not all(it.p.values()),
    'a reviewer with an empty list': lambda it: not all(it.r.values()),
    'a list that leaves out some': lambda it: any(len(row) < len(it.r) for row in it.p.values()),
    'a proposer lists who doesn\'t list back': lambda it: not it.entries <= it.returned,
    'a reviewer lists who doesn\'t list back': lambda it: not it.returned <= it.entries,
    'sides of different sizes': lambda it: len(it.p) != len(it.r),
    'a reviewer of capacity 0': lambda it: 0 in it.capacities.values(),
    'a reviewer of capacity 0 that somebody lists': lambda it: any(not it.capacities[r] for _, r in it.entries),
    'a capacity above 1': lambda it: any(count > 1 for count in it.capacities.values()),
    'more places than proposers on the list': lambda it: any(count > len(it.r[r]) for r, count in it.capacities.items()),
    'one list for all reviewers': lambda it: len(it.r) > 1 and any(it.r.values()) and len(set(map(tuple, it.r.values()))) == 1,
    'one name on both sides': lambda it: any(name in it.r for name in it.p),
    'weights': lambda it: bool(it.draft.weights),
    'forced or forbidden pairs': lambda it: bool(it.draft.forced or it.draft.forbidden),
    'several stable matchings': lambda it: it.rotations > 0,
    'three rotations or more': lambda it: it.rotations > 2,
    'a proposer without a partner': lambda it: len(it.best) < len(it.p),
    'somebody is turned down': lambda it: bool(it.turned_down),
    'somebody is turned down at a capacity above 1': lambda it: any(it.capacities[r] > 1 for r in it.turned_down),
    'a free place': lambda it: it.free(),
    'more than 30 pairs': lambda it: len(it.best) > 30,
    '1,000 agents or more': lambda it: len(it.p) + len(it.r) >= 1000,
}


class RoomFacts:
    """Roommates, and their first two stable matchings, as vectors of ranks."""

    def __init__(self, program, draft):
        self.p = draft.proposers
        answer = program.ask(draft.text(), 'list', 'limit=2')[1]
        self.vectors = [it.split(' ')[1].split(',') for it in answer.split('\n') if it.startswith('vector ')]
        if not self.p:
            self.vectors = [[]]

    def alone(self):
        """Whether somebody has no partner in a stable matching."""
        return any(int(rank) > len(row) for rank, row in zip((self.vectors or [[]])[0], self.p.values()))


ROOMS = {
    'no stable matching': lambda it: not it.vectors,
    'one stable matching': lambda it: len(it.vectors) == 1,
    'several stable matchings': lambda it: len(it.vectors) == 2,
    'an odd number of persons': lambda it: len(it.p) % 2 == 1,
    'a person with an empty list': lambda it: not all(it.p.values()),
    'a list that leaves out some': lambda it: any(len(row) < len(it.p) - 1 for row in it.p.values()),
    'somebody alone in a stable matching': lambda it: it.alone(),
}


def features(program, draft):
    """The rows of an instance."""
    facts, rows = (RoomFacts(program, draft), ROOMS) if draft.rooms else (Facts(program, draft), TWO_SIDED)
    return [name for name, has in rows.items() if has(facts)]
