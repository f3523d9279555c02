"""Writes a large plain instance to standard output, for measuring.

    python3 bench/make_plain.py AGENTS ENTRIES NAME_BYTES [SEED]

There are AGENTS proposers and as many reviewers. Each proposer lists ENTRIES reviewers at random, and each reviewer lists
back, in random order, the proposers that list it. Names have NAME_BYTES bytes at least. The same arguments give the same text.
"""

import random
import sys


def main(agents, entries, name_bytes, seed):
    draw = random.Random(seed)
    names = {side: [(side + str(i)).ljust(name_bytes, "_") for i in range(agents)] for side in "mw"}
    backs = [[] for _ in range(agents)]
    lists = []
    for p in range(agents):
        chosen = draw.sample(range(agents), entries)
        lists.append(chosen)
        for r in chosen:
            backs[r].append(p)
    out = ["stable 1 marriage"]
    for p, chosen in enumerate(lists):
        out.append("p %s:%s" % (names["m"][p], "".join(" " + names["w"][r] for r in chosen)))
    for r, back in enumerate(backs):
        draw.shuffle(back)
        out.append("r %s:%s" % (names["w"][r], "".join(" " + names["m"][p] for p in back)))
    out.append("end")
    sys.stdout.write("\n".join(out) + "\n")


if __name__ == "__main__":
    if len(sys.argv) not in (4, 5):
        sys.exit(__doc__)
    main(int(sys.argv[1]), int(sys.argv[2]), int(sys.argv[3]), int(sys.argv[4]) if len(sys.argv) == 5 else 1)
