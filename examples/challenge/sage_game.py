"""SageMath's MatchingGame, for `tools/challenge --protocol lines`. It takes marriages of equal sides with complete lists alone.

    tools/challenge --protocol lines --shapes complete,opposed,cycle -- sage -python examples/challenge/sage_game.py
"""
import json
import sys

from sage.all import MatchingGame

for line in sys.stdin:
    instance = json.loads(line)
    lists, rows = ({it['name']: tuple(it['list']) for it in instance[side]} for side in ('proposers', 'reviewers'))
    solved = MatchingGame([lists, rows]).solve()
    # The keys and values are players, which are equal to their names.
    called = {name: name for name in rows}
    print(json.dumps({p: called[solved[p]] for p in lists}), flush=True)
