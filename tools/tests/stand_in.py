#!/usr/bin/env python3
"""Stands in for the program where none is built: answers `list` and `rotations` for small instances, by trying all matchings.

`list` takes roommates too.
"""
import re
import sys

import brute


def allowed(text, market):
    """The vectors of the stable matchings that the conditions allow."""
    conditions = re.findall(r'^(force|forbid) (\w+) (\w+)', text, re.M)
    return sorted(vector for vector, has in market.stable().items()
                  if all((has.get(p) == r) == (keyword == 'force') for keyword, p, r in conditions))


def couplings(persons):
    """All ways to make couples of some persons."""
    if not persons:
        yield {}
        return
    one, rest = persons[0], persons[1:]
    yield from couplings(rest)
    for other in rest:
        for more in couplings([it for it in rest if it != other]):
            yield {one: other, other: one, **more}


def rooms(text):
    """The vectors of the stable matchings of roommates."""
    lists = {name: row.split() for name, row in re.findall(r'^p (\w+):(.*)$', text, re.M)}
    rank = {(a, b): row.index(b) + 1 if b in row else len(row) + 1 for a, row in lists.items() for b in (*lists, None)}
    both = [(a, b) for a in lists for b in lists if a < b and b in lists[a] and a in lists[b]]
    found = [has for has in couplings(list(lists)) if all((min(it), max(it)) in both for it in has.items())]
    return sorted(tuple(rank[a, has.get(a)] for a in lists) for has in found
                  if not any(rank[a, b] < rank[a, has.get(a)] and rank[b, a] < rank[b, has.get(b)] for a, b in both))


def listed(vectors, words):
    """The answer of `list`."""
    operands = dict(word.split('=') for word in words)
    if 'after' in operands:
        cursor = tuple(map(int, operands['after'].split(',')))
        if any(len(it) != len(cursor) for it in vectors):
            return 'refused BadCursor 0\n', 1
        vectors = [it for it in vectors if it > cursor]
    most = int(operands.get('limit', 100))
    lines = ['vector ' + (','.join(map(str, it)) or '-') for it in vectors[:most]]
    last = lines[-1].replace('vector', 'more') if len(vectors) > most else 'end'
    return '\n'.join([' '.join(['answer', 'list', *words])] + lines + [last, '']), 0


def main():
    text = sys.stdin.read()
    market = None if 'roommates' in text else brute.Market(text)
    if sys.argv[1] == 'list':
        written, status = listed(rooms(text) if market is None else allowed(text, market), sys.argv[2:])
    else:
        marriage = brute.seated(market) if 'hospitals' in text else market
        written, status = brute.answer_of(marriage).replace('.', '/'), 0
    sys.stdout.write(written)
    sys.exit(status)


if __name__ == '__main__':
    main()
