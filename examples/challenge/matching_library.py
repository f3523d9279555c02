"""The Python library `matching`, for `tools/challenge --protocol lines`.

    tools/challenge --protocol lines -- python3 examples/challenge/matching_library.py
"""
import json
import sys

from matching.games import HospitalResident

for line in sys.stdin:
    instance = json.loads(line)
    lists, rows = ({it['name']: it['list'] for it in instance[side]} for side in ('proposers', 'reviewers'))
    places = {it['name']: it.get('capacity', 1) for it in instance['reviewers']}
    game = HospitalResident.create_from_dictionaries(lists, rows, places, clean=True)
    solved = game.solve(optimal='resident')
    print(json.dumps([(p.name, r.name) for r, row in solved.items() for p in row]), flush=True)
