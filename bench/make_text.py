"""Writes a large text of another kind to standard output, for measuring.

    python3 bench/make_text.py hospitals RESIDENTS ENTRIES HOSPITALS [SEED]
    python3 bench/make_text.py one SIZE
    python3 bench/make_text.py comments BYTES
    python3 bench/make_text.py force BYTES
    python3 bench/make_text.py cycle SIZE
    python3 bench/make_text.py cycles SIZE..
    python3 bench/make_text.py copies SIZE
    python3 bench/make_text.py opposed BLOCKS SIZE
    python3 bench/make_text.py late CHAIN FREE
    python3 bench/make_text.py waiting SIZE OTHERS
    python3 bench/make_text.py roommates PERSONS [SEED]
    python3 bench/make_text.py turning SIZE
    python3 bench/make_text.py doubled SIZE
    python3 bench/make_text.py fours GROUPS
    python3 bench/make_text.py weights LEVELS < instance.txt

`hospitals` has residents who each list ENTRIES hospitals at random, and hospitals of capacity 14 that list back, in
random order. `one` has SIZE residents r0, r1 and so on and one hospital h0 of as many places, which lists them from r0
on. `comments` and `force` are a marriage of one proposer and one reviewer, filled up with comment lines or
with `force` lines to nearly so many bytes.

The others are marriages with many rotations. In `cycle` the proposer p(i) lists r(i), r(i+1) and so on around, and
the reviewer r(k) lists p(k+1), p(k+2) and so on around: each turn is one rotation of all proposers. `cycles` has a cycle of each SIZE,
side by side. `copies` has SIZE
copies of the two by two instance with two stable matchings. `opposed` has BLOCKS cycles of SIZE agents, with the
proposers' and the reviewers' numbers mixed. `late` has a chain of rotations of which each needs the one below it in the text.
`waiting` has very many stable matchings, of SIZE agents on each side (Irving and Leather 1986), behind OTHERS whose next reviewer is
one of these; SIZE is a power of two.

Four kinds are roommates: `roommates` has complete lists in random order. `turning` has the persons of a cycle, of SIZE on each
side. `doubled` has as many with very many stable matchings (Irving and Leather 1986); SIZE is a power of two. `fours` has
groups of four persons with two stable matchings each. `weights` adds 8,192 random weights, of one level or of two, to a
marriage that it reads. The same arguments give the same text.
"""

import random
import sys


def hospitals(residents, entries, count, seed):
    draw = random.Random(seed)
    lists = [draw.sample(range(count), entries) for _ in range(residents)]
    backs = [[] for _ in range(count)]
    for p, chosen in enumerate(lists):
        for h in chosen:
            backs[h].append(p)
    out = ["stable 1 hospitals"]
    out += ["p r%d: %s" % (p, " ".join("h%d" % h for h in chosen)) for p, chosen in enumerate(lists)]
    for h, back in enumerate(backs):
        draw.shuffle(back)
        out.append("r h%d [14]: %s" % (h, " ".join("r%d" % p for p in back)))
    return out + ["end"]


def one(size):
    out = ["stable 1 hospitals"] + ["p r%d: h0" % p for p in range(size)]
    return out + ["r h0 [%d]: %s" % (size, " ".join("r%d" % p for p in range(size))), "end"]


def filled(line, size):
    ends = ["stable 1 marriage", "p m: w", "r w: m", "end"]
    room = size - sum(len(end) + 1 for end in ends)
    return ends[:3] + [line] * (room // (len(line) + 1)) + ends[3:]


def marriage(proposers, reviewers):
    out = ["stable 1 marriage"]
    out += ["p p%d: %s" % (p + 1, " ".join("r%d" % (r + 1) for r in row)) for p, row in enumerate(proposers)]
    out += ["r r%d: %s" % (r + 1, " ".join("p%d" % (p + 1) for p in row)) for r, row in enumerate(reviewers)]
    return out + ["end"]


def cycle(size):
    around = [[(i + d) % size for d in range(size)] for i in range(size)]
    return marriage(around, [row[1:] + row[:1] for row in around])


def cycles(*sizes):
    proposers, reviewers = [], []
    for size in sizes:
        first = len(proposers)
        around = [[first + (i + d) % size for d in range(size)] for i in range(size)]
        proposers += around
        reviewers += [row[1:] + row[:1] for row in around]
    return marriage(proposers, reviewers)


def copies(size):
    straight = [[i, i ^ 1] for i in range(2 * size)]
    return marriage(straight, [row[::-1] for row in straight])


def opposed(blocks, size, seed=1):
    draw = random.Random(seed)
    left, right = (draw.sample(range(blocks * size), blocks * size) for _ in range(2))
    proposers, reviewers = ([None] * (blocks * size) for _ in range(2))
    for first in range(0, blocks * size, size):
        for i in range(size):
            around = [first + (i + d) % size for d in range(size)]
            proposers[left[first + i]] = [right[r] for r in around]
            reviewers[right[first + i]] = [left[p] for p in around[1:] + around[:1]]
    return marriage(proposers, reviewers)


def late(chain, free):
    """A chain of rotations of which each needs the one that stands below it in the text, and the last one moves the first proposers;
    between them and the chain stand `free` rotations that need no other.
    """
    count = 2 * (1 + free + chain)
    proposers = [[i, i ^ 1] for i in range(count)]
    reviewers = [[i ^ 1, i] for i in range(count)]
    passed = 0
    for first in range(count - 2, 2 * free, -2):
        proposers[first].insert(1, passed)
        reviewers[passed].insert(1, first)
        passed = first
    return marriage(proposers, reviewers)


def waiting(size, others):
    gray = [t ^ t >> 1 for t in range(size)]
    proposers = [[i, others] for i in range(others)] + [[others + (p ^ x) for x in gray] for p in range(size)]
    reviewers = [[i] for i in range(others)] + [[others + (r ^ x) for x in reversed(gray)] for r in range(size)]
    reviewers[others][1:1] = range(others)
    return marriage(proposers, reviewers)


def persons(rows):
    return ["stable 1 roommates"] + ["p x%d: %s" % (x, " ".join("x%d" % y for y in row)) for x, row in enumerate(rows)] + ["end"]


def roommates(size, seed):
    draw = random.Random(seed)
    return persons([draw.sample([y for y in range(size) if y != x], size - 1) for x in range(size)])


def both_sides(proposers, reviewers):
    size = len(proposers)
    return persons([[size + r for r in row] for row in proposers] + reviewers)


def turning(size):
    around = [[(i + d) % size for d in range(size)] for i in range(size)]
    return both_sides(around, [row[1:] + row[:1] for row in around])


def doubled(size):
    proposers, reviewers = [[0]], [[0]]
    while len(proposers) < size:
        half = len(proposers)
        later = [[r + half for r in row] for row in proposers]
        proposers = [a + b for a, b in zip(proposers, later)] + [b + a for a, b in zip(proposers, later)]
        later = [[p + half for p in row] for row in reviewers]
        reviewers = [b + a for a, b in zip(reviewers, later)] + [a + b for a, b in zip(reviewers, later)]
    return both_sides(proposers, reviewers)


def fours(groups):
    return persons([[4 * g + y for y in row] for g in range(groups) for row in ([1, 3], [2, 0], [3, 1], [0, 2])])


def weights(levels, lines, seed=1):
    draw = random.Random(seed)
    pairs = [(line.split(":")[0][2:], r) for line in lines if line.startswith("p ") for r in line.split(":")[1].split()]
    chosen = draw.sample(pairs, min(8192, len(pairs)))
    some = ["weight %s %s %s" % (p, r, " ".join(str(draw.randint(-1000, 1000)) for _ in range(levels))) for p, r in chosen]
    return ["stable %d marriage" % levels] + lines[1:lines.index("end")] + some + ["end"]


def main(words):
    if words[:1] == ["hospitals"] and len(words) in (4, 5):
        return hospitals(int(words[1]), int(words[2]), int(words[3]), int(words[4]) if len(words) == 5 else 1)
    if words[:1] == ["one"] and len(words) == 2:
        return one(int(words[1]))
    if words[:1] == ["comments"] and len(words) == 2:
        return filled("# " + "comment " * 9, int(words[1]))
    if words[:1] == ["force"] and len(words) == 2:
        return filled("force m w", int(words[1]))
    if words[:1] == ["cycle"] and len(words) == 2:
        return cycle(int(words[1]))
    if words[:1] == ["cycles"] and len(words) > 1:
        return cycles(*map(int, words[1:]))
    if words[:1] == ["late"] and len(words) == 3:
        return late(int(words[1]), int(words[2]))
    if words[:1] == ["waiting"] and len(words) == 3:
        return waiting(int(words[1]), int(words[2]))
    if words[:1] == ["copies"] and len(words) == 2:
        return copies(int(words[1]))
    if words[:1] == ["opposed"] and len(words) == 3:
        return opposed(int(words[1]), int(words[2]))
    if words[:1] == ["roommates"] and len(words) in (2, 3):
        return roommates(int(words[1]), int(words[2]) if len(words) == 3 else 1)
    if words[:1] == ["turning"] and len(words) == 2:
        return turning(int(words[1]))
    if words[:1] == ["doubled"] and len(words) == 2:
        return doubled(int(words[1]))
    if words[:1] == ["fours"] and len(words) == 2:
        return fours(int(words[1]))
    if words[:1] == ["weights"] and words[1:] in (["1"], ["2"]):
        return weights(int(words[1]), sys.stdin.read().splitlines())
    sys.exit(__doc__)


if __name__ == "__main__":
    sys.stdout.write("\n".join(main(sys.argv[1:])) + "\n")
