"""A wrong solver for `tools/challenge --protocol lines`: a full hospital compares a resident with the one that it took last."""
import json
import sys


def matched(instance):
    """Residents propose; a hospital with a free place takes whoever it lists."""
    lists = {it['name']: it['list'] for it in instance['proposers']}
    places = {it['name']: it.get('capacity', 1) for it in instance['reviewers']}
    rows = {it['name']: it['list'] for it in instance['reviewers']}
    taken = {r: [] for r in rows}
    free = [(p, 0) for p in reversed(list(lists))]
    while free:
        p, at = free.pop()
        if at == len(lists[p]):
            continue
        r = lists[p][at]
        if p not in rows[r] or not places[r]:
            free.append((p, at + 1))
        elif len(taken[r]) < places[r]:
            taken[r].append((p, at))
        elif rows[r].index(p) < rows[r].index(taken[r][-1][0]):
            last, its = taken[r].pop()
            taken[r].append((p, at))
            free.append((last, its + 1))
        else:
            free.append((p, at + 1))
    return {p: r for r, row in taken.items() for p, _ in row}


for line in sys.stdin:
    print(json.dumps(matched(json.loads(line))), flush=True)
