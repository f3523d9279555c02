"""A folder of made instances with the right answers of all commands, for those who have neither this tool nor the program."""
import itertools
import json
import os

from shared.command import Fault

from .program import pairs_of

LISTED = 1000
# The words of each command, and how its answer's file is called.
TWO_SIDED = {
    'solve side=proposers': 'solve_proposers', 'solve side=reviewers': 'solve_reviewers', 'reduced': 'reduced',
    'rotations': 'rotations',
    f'list limit={LISTED}': 'list', 'pairs': 'pairs', 'regret': 'regret', 'weight by=ranks': 'weight_ranks',
    'weight by=given': 'weight_given', 'median': 'median', f'survey limit={LISTED}': 'survey',
}
ROOMS = {'solve': 'solve', f'list limit={LISTED}': 'list', 'rest': 'rest'}
GIVEN = {'meet': 'meet', 'join': 'join', 'route': 'route'}

README = """# Instances with all right answers

{count} made instances of marriages, of hospitals and residents, and of roommates, each with the answers of the program
`matchbench`. The answers are proved: the program's contract states exactly which text answers each command, and a prover has
checked the program's code against it. The instances aren't those of any scheme. Their shapes are such as programs go wrong
with, and small ones come first.

`cases.jsonl` has a line for each instance, an object in JSON:

| Member | Value |
|---|---|
| `number`, `shape`, `size`, `seed` | which instance this is, and what it was made from |
| `instance` | the instance as a value in JSON |
| `text` | the instance as the program's text |
| `given` | the text with two stable matchings behind it, or null for roommates |
| `answers` | for each command its `words`, its `status` and its `text`; `meet`, `join` and `route` answer `given`, all others `text` |

The folder `cases` has the same in files: for each number `instance.json`, `instance.txt`, `given.txt`, and a file for each
command. A status of 3 means that there is no such matching; the answer then has a line `none`.

## The instance

`kind` is `marriage`, `hospitals` or `roommates`. `proposers` and `reviewers`, or `persons`, have objects with a `name` and a
`list`, best first, and the reviewers of hospitals have a `capacity`, 0 or more. A name may stand on both sides. An agent may
list somebody who doesn't list it back: the two can't be together, but the entry keeps its rank. `weights` gives a proposer and
a reviewer a weight, 0 if none is written. `forced` and `forbidden` pairs bind `list`, `survey`, `regret`, `weight` and `median`
alone: only matchings that keep to them are allowed there.

## The answers, and what else is right

Ranks count from 1 and are those of the written lists. A vector has for each proposer, in the order of the instance, the rank of
its partner, or one more than its list is long if it has none. In `reduced`, `rotations` and `weight` the name of a hospital is
followed by `/` and the number of a seat: a hospital of two places has two seats, of which everybody prefers the first.

| Answer | Compare |
|---|---|
| `solve side=proposers`, `solve side=reviewers` | the pairs: exactly one matching is right |
| `solve` of roommates | whether there is a matching. Any vector of `list` is right. Of the parties only the odd ones are the same in all partitions |
| `list` | all vectors: those of all allowed stable matchings, up to {listed:,}, with a last line `more` if there are others |
| `pairs` | the pairs, as a set; an `all` line has a pair of all stable matchings |
| `reduced` | the lists, if your program cuts lists to what lies between the first and the last partner on both sides |
| `rotations` | the rotations, as sets of pairs. Their order, and needs that follow from others, may differ |
| `regret` | the regret. Any vector of `list` with it is right; this matching is the best of them for all proposers |
| `weight by=ranks`, `weight by=given` | the total. Any vector of `list` with it is right; this matching is the best of them for all proposers. The flow shows that none is lighter, and may differ |
| `median` | the pairs. Of an even number of partners it takes the better one of the two in the middle |
| `meet`, `join` | the pairs: each proposer has the better, or the worse, of both partners |
| `route` | the rotations, as sets; their numbers are those of `rotations` |
| `survey` | the figures, over the vectors of `list` |
| `rest` | how many are left out. Who is left out of an odd party, and how the others are matched, may differ |
"""  # noqa: E501


def write_corpus(program, options, cases):
    """Writes the folder, which has to be new or empty."""
    folder = options.corpus
    os.makedirs(folder, exist_ok=True)
    if os.listdir(folder):
        raise Fault(f'{folder} has files already, so nothing was written')
    with open(os.path.join(folder, 'cases.jsonl'), 'w', encoding='ascii', newline='') as lines:
        for case in cases:
            value = value_of(program, case)
            lines.write(json.dumps(value, sort_keys=True, separators=(',', ':')) + '\n')
            write_case(os.path.join(folder, 'cases', f'{case.number:03}'), case, value)
    with open(os.path.join(folder, 'README.md'), 'w', encoding='ascii', newline='') as file:
        file.write(README.format(count=options.cases, listed=LISTED))


def value_of(program, case):
    """A case with all its answers."""
    draft = case.draft
    text, given = draft.text(), None
    answers = [answer_of(program, words, text) for words in (ROOMS if draft.rooms else TWO_SIDED)]
    if not draft.rooms:
        both = zip(('left', 'right'), two_of(draft, answers))
        given = text + ''.join(f'{word} {p} {r}\n' for word, pairs in both for p, r in pairs) + 'end\n'
        answers += [answer_of(program, words, given) for words in GIVEN]
    return {'number': case.number, 'shape': case.shape, 'size': case.size, 'seed': case.seed,
            'instance': json.loads(draft.json()), 'text': text, 'given': given, 'answers': answers}


def answer_of(program, words, text):
    """An answer, with its words and its status."""
    status, written = program.ask(text, *words.split(' '))
    return {'words': words, 'status': status, 'text': written}


def two_of(draft, answers):
    """The pairs of two stable matchings: two of which neither is better for all proposers, or else the best of each side."""
    written = {it['words']: it['text'] for it in answers}
    lines = [it.split(' ')[1] for it in written[f'list limit={LISTED}'].split('\n') if it.startswith('vector ')]
    vectors = [tuple(map(int, it.split(','))) for it in lines[:100] if it != '-']
    for both in itertools.combinations(vectors, 2):
        if any(a < b for a, b in zip(*both)) and any(a > b for a, b in zip(*both)):
            rows = draft.proposers.items()
            return [[(p, row[rank - 1]) for (p, row), rank in zip(rows, vector) if rank <= len(row)] for vector in both]
    return [pairs_of(written[f'solve side={side}']) for side in ('proposers', 'reviewers')]


def write_case(folder, case, value):
    """The files of a case."""
    os.makedirs(folder)
    files = {'instance.json': case.draft.json(), 'instance.txt': value['text']}
    if value['given']:
        files['given.txt'] = value['given']
    names = {**TWO_SIDED, **GIVEN, **ROOMS}
    files.update((f'{names[it["words"]]}.txt', it['text']) for it in value['answers'])
    for name, text in files.items():
        with open(os.path.join(folder, name), 'w', encoding='ascii', newline='') as file:
            file.write(text)
