"""What may be done about the program's reasons, whose texts the Python module has, and the words that the program takes."""

# What to do about a refusal where nothing else is known.
HINTS = {
    'TooLong': 'shorter names and fewer comments make it shorter',
    'BadJson': 'without form=json the input is read as a text',
    'BadByte': 'tools/from_csv makes names of this form of any others',
    'BadHeader': 'write `stable 1 marriage`, `stable 1 hospitals` or `stable 1 roommates`; with 2 in the place of 1 the text is of '
                 'format 2',
    'BadLine': 'a line begins with p, r, weight, force or forbid, or is `end`; of roommates with p, or is `end`',
    'BadName': 'a name has at most 64 letters, digits and _ . - and begins with a letter, a digit or _',
    'BadNumber': 'numbers are whole and without a leading 0',
    'Redeclared': 'each agent has one line; two agents of a side have two names',
    'RepeatedEntry': 'strike one of the two',
    'RepeatedWeight': 'strike one of the two lines',
    'TooManyAgents': 'the instance is too large for the program',
    'TooManyEntries': 'shorter lists are wanted',
    'MissingEnd': 'put it behind the last line',
    'UnknownName': 'each agent on a list has a line of its own on the other side, p or r',
    'AfterEnd': 'only `meet`, `join`, `route` and `check` read what stands there',
    'WrongKind': '`check`, `list`, `rest`, `export` and `solve` without a side take roommates; all but `rest` take marriages and '
                 'hospitals',
    'TooManySeats': './matchtrim cuts lists where nothing depends on them',
    'BadCursor': 'take a vector of this instance\'s own listing',
    'TooMany': '`force` and `forbid` lines allow fewer; `list` writes any number of them',
    'BadAnswer': 'an answer is its first line (`answer`, the command and its operand), its lines, each with one blank between two '
                 'fields and none at either end, and `end`; there is no comment and no empty line',
    'NotStable': 'of `meet`, `join` and `route` both matchings have to be stable',
}
# Where the text is of format 2.
HINTS_2 = {
    'BadLine': 'a line begins with p, r, master, order, weight, force or forbid, or is `end`; of roommates with p or master, or is '
               '`end`. A list is names, or the name of one master list in brackets; a weight has one number or two',
}

COMMANDS = {
    'solve': ('side', 'form'), 'reduced': ('form',), 'rotations': ('form',), 'list': ('after', 'limit', 'form'), 'pairs': ('form',),
    'regret': ('form',), 'weight': ('by', 'form'), 'meet': (), 'join': (), 'median': (), 'route': (), 'survey': ('limit', 'form'),
    'rest': (), 'check': (), 'export': (), 'make': ('shape', 'size', 'seed', 'show'),
}
VALUES = {
    'side': 'side=proposers or side=reviewers', 'by': 'by=ranks or by=given',
    'limit': 'limit= and a number from 1 to 1,000,000, without commas',
    'after': 'after= and numbers with a comma between each two, without blanks',
    'shape': 'shape=copies, shape=cycle, shape=random, shape=hospitals or shape=rooms',
    'size': 'size= and a number from 1 to 512, or to 2,048 for copies',
    'seed': 'seed= and a number from 0 to 18,446,744,073,709,551,615, without commas', 'show': 'show=text or show=summary',
    'form': 'form=text or form=json',
}
