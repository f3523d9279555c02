"""All stable matchings of a small instance, found by trying all matchings, and the rotations of a marriage, found from these
alone.

It shares nothing with the tools: what they say is compared with it.
"""
import random


class Market:
    """Two sides' lists by name, and how many proposers each reviewer takes: one where its line has no number."""

    def __init__(self, text):
        self.text = text
        self.p, self.r, self.capacities = {}, {}, {}
        for line in text.splitlines():
            words = line.split('#')[0].replace(':', ' : ').split()
            if words[:1] == ['p']:
                self.p[words[1]] = words[3:]
            elif words[:1] == ['r']:
                colon = words.index(':')
                self.r[words[1]] = words[colon + 1:]
                self.capacities[words[1]] = int(words[2].strip('[]')) if colon > 2 else 1

    def at(self, has, r):
        """The ranks that a reviewer gives the proposers that it has in a matching."""
        return [self.r[r].index(p) for p in has if has[p] == r]

    def is_stable(self, has):
        """Whether a matching, from proposers to reviewers, has no blocking pair."""
        for p, row in self.p.items():
            for r in row:
                if p not in self.r[r] or has.get(p) == r:
                    continue
                gains = p not in has or row.index(r) < row.index(has[p])
                at = self.at(has, r)
                welcome = len(at) < self.capacities.get(r, 1) or any(self.r[r].index(p) < other for other in at)
                if gains and welcome:
                    return False
        return True

    def matchings(self):
        """All matchings."""
        def further(names, has):
            if not names:
                yield dict(has)
                return
            yield from further(names[1:], has)
            for r in self.p[names[0]]:
                if names[0] in self.r[r] and len(self.at(has, r)) < self.capacities.get(r, 1):
                    yield from further(names[1:], {**has, names[0]: r})
        return further(list(self.p), {})

    def ranks(self, has):
        """The rank vector of a matching."""
        return tuple(row.index(has[p]) + 1 if p in has else len(row) + 1 for p, row in self.p.items())

    def stable(self):
        """All stable matchings, by rank vector."""
        return {self.ranks(has): has for has in self.matchings() if self.is_stable(has)}


def above(u, v):
    """Whether every proposer likes `v` at most as much as `u`, and some one less."""
    return u != v and all(a <= b for a, b in zip(u, v))


def covers(vectors):
    """The pairs of vectors with none between them."""
    return {(u, v) for u in vectors for v in vectors
            if above(u, v) and not any(above(u, w) and above(w, v) for w in vectors)}


def answer_of(marriage):
    """The answer of `rotations`, with all that each rotation needs, from the stable matchings alone."""
    stable = marriage.stable()
    names = list(marriage.p)
    now = min(stable)
    lines = ['answer rotations'] + [f'first {p} {stable[now][p]}' for p in names if p in stable[now]]
    changed = []
    while True:
        below = [v for u, v in covers(stable) if u == now]
        if not below:
            break
        new = min(below, key=lambda v: min(i for i, (a, b) in enumerate(zip(now, v)) if a != b))
        moved = [p for i, p in enumerate(names) if now[i] != new[i]]
        holder = {r: p for p, r in stable[now].items()}
        cycle = [moved[0]]
        while holder[stable[new][cycle[-1]]] != moved[0]:
            cycle.append(holder[stable[new][cycle[-1]]])
        assert sorted(cycle) == sorted(moved)
        changed.append((cycle, {p: marriage.p[p].index(stable[new][p]) + 1 for p in cycle}))
        lines.append(f'rotation {len(changed)} ' + ' '.join(f'{p} {stable[now][p]}' for p in cycle))
        # It needs those that are behind every stable matching that is past it.
        def past(vector, change):
            return all(vector[names.index(p)] >= rank for p, rank in change[1].items())
        needs = [k + 1 for k, change in enumerate(changed[:-1])
                 if all(past(v, change) for v in stable if past(v, changed[-1]))]
        lines.append(f'needs {len(changed)} ' + (' '.join(map(str, needs)) or '-'))
        now = new
    return '\n'.join(lines + ['end', ''])


def made(seed):
    """A small random marriage whose sides like the opposite; with even seeds lists are cut, so that entries are inert."""
    draw = random.Random(seed)
    size = draw.choice((4, 5, 5))
    p, r = [f'p{i}' for i in range(size)], [f'r{i}' for i in range(size)]
    rows = {name: draw.sample(r, size) for name in p}
    rows.update({it: sorted(p, key=lambda name: draw.random() * 2 - rows[name].index(it)) for it in r})
    least = size if seed % 2 else size - 2
    lines = [f'{name[0]} {name}: {" ".join(row[:draw.randint(least, size)])}' for name, row in rows.items()]
    return '\n'.join(['stable 1 marriage'] + lines + ['end', ''])


def made_hospitals(seed):
    """A small random instance of hospitals with up to three places, whose sides like the opposite; some lists are cut."""
    draw = random.Random(seed)
    p, r = [f'p{i}' for i in range(6)], [f'r{i}' for i in range(draw.choice((3, 4)))]
    rows = {name: draw.sample(r, len(r)) for name in p}
    rows.update({it: sorted(p, key=lambda name: draw.random() * 2 - rows[name].index(it)) for it in r})
    lines = []
    for name, row in rows.items():
        places = f' [{draw.choice((0, 1, 2, 2, 2, 3))}]' if name in r else ''
        lines.append(f'{name[0]} {name}{places}: {" ".join(row[:len(row) - (draw.random() < 0.15)])}')
    return '\n'.join(['stable 1 hospitals'] + lines + ['end', ''])


def seated(hospitals):
    """The marriage of the seats: those of a hospital have its name, a dot and a number."""
    lists = {h: [p for p in row if h in hospitals.p[p]] for h, row in hospitals.r.items()}
    seats = {h: [f'{h}.{i + 1}' for i in range(min(hospitals.capacities[h], len(row)))] for h, row in lists.items()}
    lines = [f'p {p}: ' + ' '.join(seat for h in row if p in lists[h] for seat in seats[h]) for p, row in hospitals.p.items()]
    lines += [f'r {seat}: ' + ' '.join(lists[h]) for h in seats for seat in seats[h]]
    return Market('\n'.join(lines))


def made_any(seed, most=6):
    """A random marriage or instance of hospitals: sides of different sizes that like the opposite or don't care, lists that are
    cut and that aren't returned, weights, and sometimes a condition.
    """
    draw = random.Random(seed)
    hospitals = draw.random() < 0.6
    p, r = [f'p{i}' for i in range(draw.randint(0, most))], [f'r{i}' for i in range(draw.randint(1, 4 if hospitals else most))]
    against, kept = draw.choice((0, 1, 1, 2)), draw.choice((0, 0, 0.1, 0.3))
    rows = {name: draw.sample(r, len(r)) for name in p}
    rows.update({it: sorted(p, key=lambda name: draw.random() * 2 - against * rows[name].index(it)) for it in r})
    lines = []
    for name, row in rows.items():
        places = f' [{draw.choice((0, 1, 1, 2, 2, 3))}]' if hospitals and name in r else ''
        row = [it for it in row if draw.random() >= kept]
        lines.append(f'{name[0]} {name}{places}: {" ".join(row)}')
    draw.shuffle(lines)
    pairs = [(a, b) for a in p for b in r]
    for a, b in draw.sample(pairs, len(pairs) // 3):
        lines.append(f'weight {a} {b} {draw.randint(-9, 9)}')
    for keyword in ('force', 'forbid'):
        if pairs and draw.random() < 0.2:
            lines.append(f'{keyword} {" ".join(draw.choice(pairs))}')
    return '\n'.join([f'stable 1 {"hospitals" if hospitals else "marriage"}'] + lines + ['end', ''])
