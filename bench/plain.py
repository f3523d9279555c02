"""What people write in place of the program, for measuring: `solve` of a plain marriage, with a dictionary of ranks a reviewer.

    python3 bench/plain.py < instance.txt
    python3 bench/plain.py facts < instance.txt | clingo 0 - bench/stable.lp

With the word `facts` it writes the lists as facts for clingo. It takes texts as those of `make_plain.py`, and tries nothing.
"""

import sys


def read(text):
    """The lists of both sides, by name, in the order of the text."""
    lists = {"p": {}, "r": {}}
    for line in text.splitlines():
        if line.startswith(("p ", "r ")):
            head, names = line.split(":")
            side, name = head.split()
            lists[side][name] = names.split()
    return lists["p"], lists["r"]


def solve(proposers, reviewers):
    """Whom each reviewer holds once all have proposed (Gale and Shapley 1962)."""
    ranks = {r: {p: i for i, p in enumerate(names)} for r, names in reviewers.items()}
    left = {p: iter(names) for p, names in proposers.items()}
    held = {}
    free = list(reversed(proposers))
    while free:
        p = free.pop()
        for r in left[p]:
            rank = ranks[r].get(p)
            if rank is None:
                continue
            rival = held.get(r)
            if rival is None or rank < ranks[r][rival]:
                held[r] = p
                if rival is not None:
                    free.append(rival)
                break
    return held


def facts(proposers, reviewers):
    """A fact for each entry, with its place."""
    for predicate, lists in (("p", proposers), ("r", reviewers)):
        for a, names in lists.items():
            for place, b in enumerate(names):
                yield f'{predicate}("{a}","{b}",{place}).\n'


def main(words):
    proposers, reviewers = read(sys.stdin.read())
    if words == ["facts"]:
        sys.stdout.writelines(facts(proposers, reviewers))
    else:
        partners = {p: r for r, p in solve(proposers, reviewers).items()}
        sys.stdout.writelines(f"{p} {partners.get(p, '-')}\n" for p in proposers)


if __name__ == "__main__":
    main(sys.argv[1:])
