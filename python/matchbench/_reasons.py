"""What the reasons of the program say. docs/FORMATS.md and the manual page have these texts too, and a test compares them; the
tools take them from here.
"""

# Why an input is refused.
REASONS = {
    'TooLong': 'the input has more than 16,777,216 bytes',
    'BadJson': 'with `form=json`: the input is no instance in JSON',
    'BadByte': 'this line has a byte that may only stand in a comment: names have the letters A to Z and a to z, digits, `_`, '
               '`.` and `-`',
    'BadHeader': 'the first line with a token is no header, or there is none: `stable 1 marriage`, `stable 1 hospitals`, '
                 '`stable 1 roommates`, or one of these with 2',
    'BadLine': 'this line has none of the forms that its kind of instance has in its format',
    'BadName': 'what stands in a name\'s place is no name of 1 to 64 characters, or no `master` line above has the name in '
               'brackets',
    'BadNumber': 'what stands in a number\'s place is no number, or out of its limits: capacities go from 0 to 4,096, weights '
                 'from -1,000,000,000 to 1,000,000,000',
    'Redeclared': 'this agent, this master list or the order has a line already',
    'RepeatedEntry': 'a name stands twice on this list, `master` line or `order` line',
    'RepeatedWeight': 'these two have a weight already',
    'TooManyAgents': 'with this line a side has more than 4,096 agents',
    'TooManyEntries': 'with this line all lists together have more than 524,288 entries',
    'MissingEnd': 'the line `end` is missing',
    'UnknownName': 'a list, also one taken from a master list, a weight, a condition or an `order` line names somebody who has '
                   'no line',
    'AfterEnd': 'text stands behind `end`, other than blanks and comments',
    'WrongKind': 'this command doesn\'t take this kind: only `check`, `list`, `rest`, `export`, and `solve` without a side, '
                 'take roommates, and `rest` takes nothing else',
    'TooManySeats': 'with this reviewer the lists of all seats together have more than 1,048,576 entries: a reviewer adds as '
                    'many seats as it has places, but no more than acceptable proposers, times its acceptable proposers',
    'BadCursor': 'the vector of `after=` hasn\'t a number for each proposer, or of roommates for each person',
    'TooMany': 'more than 100,000 stable matchings are allowed',
    'BadAnswer': 'behind `end` this line can\'t stand in two matchings, or for `check` in an answer that it takes',
    'NotStable': 'a given matching isn\'t stable',
}

# What isn't so where `check` says no.
VERDICTS = {
    'NotAMatching': 'this pair isn\'t acceptable, or the lines before it in its group leave one of the two no place; or these '
                    'are the ranks of no matching',
    'Blocked': 'two who aren\'t together would both rather have one another',
    'NotBest': 'the matching is stable, but another one is better for its side',
    'WrongList': 'this isn\'t the reduced list, or a proposer or a seat hasn\'t one line',
    'NotExposed': 'this isn\'t the next rotation',
    'RotationMissing': 'behind these rotations another one is exposed',
    'WrongNeeds': 'these aren\'t the rotations that it needs',
    'WrongGain': 'this isn\'t what the rotation adds to the sum, or to the second one',
    'NoEdge': 'the net, or for `flow2` the second net, has no such edge, or an earlier line names it',
    'OverRoom': 'the amount isn\'t positive, or more than the edge has room for',
    'NotConserved': 'what flows into a rotation isn\'t what flows out of it',
    'NotClosed': 'a taken rotation needs one that isn\'t taken, or the conditions don\'t allow the matching',
    'WrongValue': 'this isn\'t what flows out of `S`',
    'WrongCut': 'this isn\'t the cut of the taken rotations',
    'CutDiffers': 'cut and value differ, so it isn\'t shown that nothing is lighter',
    'WrongTotal': 'this isn\'t the sum, or the second sum, of the matching',
    'WrongPair': 'this pair isn\'t in the matching, or stands twice; at `end`, a pair is missing',
    'NotLeast': 'the flow, in two levels the second one, still reaches other rotations than the taken ones',
    'NotRising': 'in the instance\'s order this vector doesn\'t come after the one before it, or the first one not after the '
                 'cursor',
    'NotAllowed': 'the conditions don\'t allow the matching',
    'OverLimit': 'there are more vectors than the limit',
    'WrongTail': 'there aren\'t as many vectors as the limit, or the last one isn\'t repeated here',
    'WrongRegret': 'the matching has another regret',
    'NotPartition': 'a person stands twice or nowhere, or the parties aren\'t a stable partition',
    'NoOddParty': 'no party of three or more is odd, so nothing excludes a stable matching',
}
