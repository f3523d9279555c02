"""A right solver for `tools/challenge --protocol lines`: deferred acceptance.

    tools/challenge --protocol lines -- python3 examples/challenge/lines.py

A line with an instance in JSON comes in, and a line with pairs goes out.
"""
import json
import sys


def matched(instance):
    """The best stable matching for the proposers: each goes down its list, and each reviewer keeps the best that it gets."""
    lists = {it['name']: it['list'] for it in instance['proposers']}
    places = {it['name']: it.get('capacity', 1) for it in instance['reviewers']}
    ranks = {it['name']: {p: rank for rank, p in enumerate(it['list'])} for it in instance['reviewers']}
    held = {r: [] for r in ranks}
    ways = {p: iter(row) for p, row in lists.items()}
    free = list(lists)
    while free:
        p = free.pop()
        for r in ways[p]:
            if p not in ranks[r]:
                continue
            held[r].append(p)
            held[r].sort(key=ranks[r].get)
            turned_down = held[r].pop() if len(held[r]) > places[r] else None
            if turned_down != p:
                free += [turned_down] if turned_down else []
                break
    return [(p, r) for r, row in held.items() for p in row]


for line in sys.stdin:
    print(json.dumps(matched(json.loads(line))), flush=True)
