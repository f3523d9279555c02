#!/usr/bin/env python3
"""Stands in for `matchtrim` where that isn't built, and is what the program is compared with: cuts the lists of an instance by its
two best matchings, found by deferred acceptance. Comments and layout stay.
"""
import heapq
import os
import sys

sys.path.insert(0, os.path.join(os.path.dirname(os.path.realpath(__file__)), '..'))
from shared.command import Fault  # noqa: E402
from shared.instance import MOST_SEAT_ENTRIES, Instance, Refused  # noqa: E402


def proposers_best(instance):
    """For each reviewer the proposers that it has in the proposers' best stable matching, as a heap with the worst first: each
    with the negative of its rank. Each proposer proposes down its list, and each reviewer keeps the best.
    """
    held = {name: [] for name in instance.reviewers}
    ways = {name: iter(agent.entries) for name, agent in instance.proposers.items()}
    free = list(instance.proposers)
    while free:
        p = free.pop()
        for r in ways[p]:
            reviewer = instance.reviewers[r]
            if p not in reviewer.ranks or reviewer.capacity == 0:
                continue
            heapq.heappush(held[r], (-reviewer.ranks[p], p))
            turned_down = heapq.heappop(held[r])[1] if len(held[r]) > reviewer.capacity else None
            if turned_down != p:
                if turned_down is not None:
                    free.append(turned_down)
                break
    return held


def reviewers_best(instance):
    """For each matched proposer its reviewer in the reviewers' best stable matching. Each reviewer proposes down its list as
    long as it has places left, and each proposer keeps the best.
    """
    has, filled = {}, dict.fromkeys(instance.reviewers, 0)
    ways = {name: iter(agent.entries) for name, agent in instance.reviewers.items()}
    free = list(instance.reviewers)
    while free:
        r = free.pop()
        while filled[r] < instance.reviewers[r].capacity:
            p = next(ways[r], None)
            if p is None:
                break
            ranks = instance.proposers[p].ranks
            if r not in ranks or p in has and ranks[has[p]] < ranks[r]:
                continue
            if p in has:
                filled[has[p]] -= 1
                free.append(has[p])
            has[p] = r
            filled[r] += 1
    return has


def ends_of(instance):
    """For each agent whose list ends early how many of its entries are kept, by the line on which it stands."""
    ends = {}
    for name, there in proposers_best(instance).items():
        reviewer = instance.reviewers[name]
        if there and len(there) == reviewer.capacity:
            ends[reviewer.line] = reviewer, -there[0][0]
    for name, r in reviewers_best(instance).items():
        proposer = instance.proposers[name]
        ends[proposer.line] = proposer, proposer.ranks[r]
    ends.update({it.line: (it, 0) for it in instance.reviewers.values() if it.capacity == 0})
    return {line: (agent, end) for line, (agent, end) in ends.items() if end < len(agent.entries)}


def cut_line(line, kept):
    """A line of an agent with these entries alone, written out; what stands before its list, and its comment, stay."""
    text, mark, comment = line.partition('#')
    head, colon, _ = text.partition(':')
    return f'{head}{colon} {" ".join(kept)}{" " + mark + comment if mark else ""}'


def seat_entries(instance, ends):
    """How many entries the lists of all seats have where lists end early."""
    kept = {it.name: set(it.entries[:end]) for it, end in ends.values() if instance.proposers.get(it.name) is it}
    short = {it.name: end for it, end in ends.values() if instance.reviewers.get(it.name) is it}
    total = 0
    for name, reviewer in instance.reviewers.items():
        entries = reviewer.entries[:short.get(name)]
        count = sum(name in kept.get(p, instance.proposers[p].ranks) for p in entries)
        total += min(reviewer.capacity, count) * count
    return total


def cut(data):
    """The bytes of an instance with lists that are cut."""
    instance = Instance.read('standard input', data, any_seats=True)
    if instance.kind == 'roommates':
        raise Fault('refused WrongKind 1')
    ends = ends_of(instance)
    if seat_entries(instance, ends) > MOST_SEAT_ENTRIES:
        raise Fault('refused TooManySeats 0')
    lines = data.decode('latin-1').split('\n')
    for number, (agent, end) in ends.items():
        lines[number - 1] = cut_line(lines[number - 1].rstrip('\r'), agent.entries[:end])
    return '\n'.join(lines).encode('latin-1')


def main():
    if sys.argv[1:]:
        sys.stdout.write('usage 1\n')
        return 2
    try:
        written, status = cut(sys.stdin.buffer.read()), 0
    except Refused as fault:
        written, status = f'refused {fault.reason} {fault.line}\n'.encode(), 1
    except Fault as fault:
        written, status = f'{fault}\n'.encode(), 1
    sys.stdout.buffer.write(written)
    return status


if __name__ == '__main__':
    sys.exit(main())
