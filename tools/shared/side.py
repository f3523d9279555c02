"""One side of an instance as a table has it: its agents, how many each takes, and whom each lists."""
import re
from array import array
from decimal import Decimal

from .instance import MOST_AGENTS, MOST_CAPACITY, NUMBER
from .names import near
from .table import Faults, folded, key_of
from .words import many, one_or

WIDE, RANKS, LONG = 'wide', 'ranks', 'long'
MARKS = ';,|/'
DECIMAL = re.compile(r'[+-]?(?:[0-9]+(?:[.,][0-9]*)?|[.,][0-9]+)\Z')


class Form:
    """How a side's table is to be read: its form, whether numbers are points, of which the most is best, the mark between choices
    in a cell, and the further columns with numbers, each with whether the least is best there.
    """

    def __init__(self, word, kind=WIDE, has_points=False, mark=None, then=()):
        self.word, self.kind, self.has_points, self.mark, self.then = word, kind, has_points, mark, then
        self.number = 'points' if has_points else 'rank'


class Log:
    """What is told of rows that have no effect: each with its file and line, and how many there are of each kind."""

    def __init__(self):
        self.lines, self.counts = [], {}

    def add(self, kind, file, line, text):
        """Takes a row, or a choice."""
        self.lines.append(f'{file}:{line}: {text}')
        self.counts[kind] = self.counts.get(kind, 0) + 1


class Side:
    """The agents of one table, in the order of their rows: originals, capacities, lines, and the numbers of their rows with
    choices. Cells with a text of `left_out` count as empty. Who is in `away` was placed beforehand and is no agent: the original of
    each that the table has, or None.
    """

    def __init__(self, table, form, letter, capacity, log):
        self.table, self.file, self.last_file, self.form, self.letter, self.log = table, table.file, table.file, form, letter, log
        self.titles = table.header.cells
        self.columns = list(range(len(self.titles)))
        self.capacity = next((i for i in self.columns[1:] if folded(self.titles[i]) == capacity), None)
        if self.capacity is not None:
            self.columns.remove(self.capacity)
        self.then = []
        for title, is_least in form.then if form.kind == LONG and form.has_points else ():
            column = next((i for i in self.columns[1:] if folded(self.titles[i]) == folded(title)), None)
            if column is not None:
                self.columns.remove(column)
                self.then.append((column, is_least))
        if len(self.columns) < 2:
            marks = [it for it in (';', '\t', '|', ',') if it != table.delimiter and it in ''.join(self.titles)]
            hint = f'; are cells divided by --delimiter {"tab" if marks[0] == chr(9) else repr(marks[0])}?' if marks else ''
            raise self.table.fault(f'this table has no column with choices{hint}')
        if form.kind == LONG and len(self.columns) > 3:
            hint = ', and --then and --then-least break ties by them' if form.has_points else ''
            raise self.table.fault('a table with a row for each choice has a column with names, one with choices and at most one '
                                   f'with numbers; --skip leaves others out, as {self.titles[self.columns[3]]!r}{hint}')
        if self.then and len(self.columns) < 3:
            title = self.titles[self.then[0][0]]
            raise self.table.fault(f'beside {title!r} this table has no column with points, which come first')
        self.originals, self.lines, self.capacities, self.rows = [], [], [], []
        self.numbers, self.known, self.left_out, self.away = {}, {}, set(), {}
        self.order, self.choice_lines, self.written, self.struck = [], [], [], set()
        self.lot, self.places = None, {}

    def number(self, text):
        """The number of the agent that a text names, or None."""
        if text not in self.known:
            self.known[text] = self.numbers.get(key_of(text))
        return self.known[text]

    def is_away(self, text):
        """Whether a text names somebody who was placed beforehand."""
        return bool(self.away) and key_of(text) in self.away

    def knows(self, text):
        """Whether a text names an agent, or one who was placed beforehand."""
        return self.number(text) is not None or self.is_away(text)

    def pass_over(self, file, line, name):
        """Passes over a row or a choice of another table about somebody who was placed."""
        self.log.add('placed', file, line, f'{name!r} was placed beforehand: passed over')

    def add(self, name, line, capacity):
        """Adds an agent."""
        self.numbers[key_of(name)] = len(self.originals)
        self.order.append((len(self.originals), name))
        self.originals.append(name)
        self.lines.append(line)
        self.capacities.append(capacity)
        self.rows.append(array('L'))

    def read(self, faults):
        """Takes all rows."""
        again = []
        width = len(self.titles)
        for place, row in enumerate(self.table.rows):
            cells = row.cells + [''] * (width - len(row.cells))
            name = cells[self.columns[0]]
            if row.line in self.table.long:
                faults.add(self.file, row.line, f'this row has more cells than the first one, which has {self.table.width}')
            if not name:
                if row.line not in self.table.long:
                    faults.add(self.file, row.line, 'this row has no name')
            elif self.is_away(name):
                if self.away[key_of(name)] is None:
                    self.away[key_of(name)] = name
                    self.order.append((None, name))
            elif key_of(name) not in self.numbers:
                if len(self.originals) == MOST_AGENTS:
                    faults.add(self.file, row.line, f'there are more than {MOST_AGENTS:,} rows of agents')
                    return
                self.add(name, row.line, self.capacity_in(cells, row.line, faults))
                self.rows[-1].append(place)
            elif self.form.kind == LONG:
                number = self.number(name)
                if self.capacity is not None and self.capacity_in(cells, row.line, faults) != self.capacities[number]:
                    faults.add(self.file, row.line, f'{name!r} has another capacity on line {self.lines[number]}')
                self.rows[number].append(place)
            else:
                again.append((row.line, name))
        self.tell_again(again, faults)

    def cells_of(self, agent):
        """The cells with choices of an agent as triples: the line, the text, and the numbers as they are written, none where the
        order counts.
        """
        for row in map(self.table.rows.__getitem__, self.rows[agent]):
            own = row.cells + [''] * (len(self.titles) - len(row.cells))
            cells = [own[i] for i in self.columns[1:]]
            if self.form.kind == WIDE:
                own = [(row.line, it, ()) for it in cells if it]
            elif self.form.kind == RANKS:
                own = [(row.line, self.titles[i], (it,)) for i, it in zip(self.columns[1:], cells) if it]
            else:
                own = [(row.line, cells[0], (*cells[1:2], *(own[i] for i, _ in self.then)))] if cells[0] else []
            yield from (it for it in own if it[1] not in self.left_out)

    def tell_again(self, again, faults):
        """Tells of rows whose name has a row already; where most have, that these are rows of choices."""
        if len(again) > 2 and len(again) * 2 > len(self.originals):
            line, name = again[0]
            there = self.lines[self.number(name)]
            faults.add(self.file, line, f'most names have several rows, as {name!r} here and on line {there}; '
                       f'--long {self.form.word} takes a table with a row for each choice')
            return
        for line, name in again:
            faults.add(self.file, line, f'{name!r} has a row already, on line {self.lines[self.number(name)]}')

    def capacity_in(self, cells, line, faults):
        """The capacity in a row."""
        text = cells[self.capacity] if self.capacity is not None else '1'
        return capacity_of(text, self.file, line, faults)

    def strange(self, cells, other):
        """How some cells with choices are told of where none, or hardly one, has a name of the other table, else nothing. One cell
        alone tells nothing.
        """
        known = 0
        for cell in cells:
            if any(other.knows(it) for it in parts_of(cell, self.form.mark)):
                known += 1
                if known * 10 >= len(cells):
                    return ''
        return 'hardly a' if known else 'no' if len(cells) > 1 else ''

    def tell_strange(self, other, faults):
        """Tells once of a table or of a column without a known name; the choices there are left out then."""
        if self.form.kind != WIDE:
            titles = [self.titles[i] for i in self.columns[1:]] if self.form.kind == RANKS else []
            unknown = [it for it in titles if not other.knows(it)]
            for title in unknown:
                what = f'the column {title!r} isn\'t in {other.file}; --skip {title!r} leaves it out'
                faults.add(self.file, self.table.header.line, what)
            self.left_out.update(unknown)
            return
        titled = next((self.titles[i] for i in self.columns[1:] if other.number(self.titles[i]) is not None), None)
        columns = {i: [] for i in self.columns[1:]}
        for row in self.table.rows:
            for i, cells in columns.items():
                if i < len(row.cells) and row.cells[i]:
                    cells.append(row.cells[i])
        whole = [it for cells in columns.values() for it in cells]
        if titled is not None:
            numbers = all(number_of(it) is not None for it in whole)
            hint = f'--ranks {self.form.word} takes a table of ranks' if numbers else 'is a row of titles missing?'
            faults.add(self.file, self.table.header.line,
                       f'the first row has to name the columns, and has {titled!r} of {other.file}; {hint}')
            self.rows = [array('L') for _ in self.rows]
        elif self.strange(whole, other):
            faults.add(self.file, self.table.header.line, f'{self.strange(whole, other)} choice of this table is in {other.file}; '
                       f'{shown(self.first_unknown(whole, other))} isn\'t' + self.strange_hint(whole, other))
            self.rows = [array('L') for _ in self.rows]
        else:
            for i, cells in columns.items():
                how = self.strange(cells, other)
                if how:
                    title = self.titles[i]
                    places = f', or --capacity {title!r} if it has the places' if self.letter == 'r' and self.capacity is None and \
                        all(NUMBER.match(it) for it in cells) else ''
                    faults.add(self.file, self.table.header.line, f'the column {title!r} has {how} name of {other.file}; '
                               f'{shown(self.first_unknown(cells, other))} is none; --skip {title!r} leaves the column out{places}')
                    self.left_out.update(cells)

    def first_unknown(self, cells, other):
        """The first of some cells without a name of the other table."""
        return next(it for it in cells if not any(other.knows(part) for part in parts_of(it, self.form.mark)))

    def strange_hint(self, cells, other):
        """What a table without a known name may be."""
        divided = next((mark for mark in MARKS if any(mark in it for it in cells[:20]) and mark != self.form.mark and
                        any(other.number(part) is not None for cell in cells[:20] for part in parts_of(cell, mark))), None)
        if divided:
            return f'; --in-cell \'{divided}\' takes several choices from a cell'
        if all(number_of(it) is not None for it in cells):
            return f'; its cells are numbers: --ranks {self.form.word} takes a table of ranks, whose columns are called as the ' \
                'other side'
        if other is self:
            return '; persons list each other, and for two sides the table of the reviewers is missing'
        return ''

    def choices(self, other, faults, struck=frozenset()):
        """The numbers that each agent lists, best first, and how many neighbours there had equal numbers. Who makes a pair of
        `struck` with the agent, as a proposer's and a reviewer's number, isn't listed. The rows are let go.
        """
        self.tell_strange(other, faults)
        lists, ties, self.unknown = [], [], {}
        for agent, name in enumerate(self.originals):
            found = {}
            for line, cell, written in self.cells_of(agent):
                for choice in parts_of(cell, self.form.mark if not written else None):
                    self.take(other, faults, agent, found, (line, choice, written))
            pairs = {it: (agent, it) if self.letter == 'p' else (it, agent) for it in found} if struck else {}
            self.struck.update(struck.intersection(pairs.values()))
            kept = [it for it in found if pairs.get(it) not in struck]
            if self.form.kind != WIDE:
                kept.sort(key=lambda it: found[it][0])
                equal = [found[one][0] == found[two][0] for one, two in zip(kept, kept[1:])]
                ties += [(found[two][1], one, two) for one, two, it in zip(kept, kept[1:], equal) if it]
                if other.lot and any(equal):
                    owner = name if other.lot.each_list else None
                    kept.sort(key=lambda it: (found[it][0], other.sum_of(it, owner)))
            lists.append(kept)
            self.choice_lines.append(array('L', (found[it][1] for it in kept)))
            if self.form.has_points:
                self.written.append([found[it][2] for it in kept])
        for place, more in self.unknown.values():
            if more:
                faults.texts[place] += f'; {many(more, "more row")} {one_or(more, "has", "have")} it'
        if ties and other.lot is None:
            line, one, two = ties[0]
            names = f'{other.originals[one]!r} and {other.originals[two]!r}'
            faults.add(self.file, line, f'{names} have the same {self.form.number} on the list of one agent, and there are '
                       f'{len(ties):,} such ties; --lot NUMBER draws a lot by which ties are broken')
        self.rows, self.table.rows = [], []
        return lists, len(ties)

    def take(self, other, faults, agent, found, cell):
        """Takes one choice of an agent, with its line and numbers, or tells what is wrong with it."""
        line, choice, written = cell
        name, number = self.originals[agent], other.number(choice)
        if number is None and other.is_away(choice):
            other.pass_over(self.file, line, choice)
        elif number is None:
            self.tell_unknown(other, faults, line, choice)
        elif other is self and number == agent:
            if self.form.kind != RANKS:
                faults.add(self.file, line, f'{name!r} lists itself')
        elif number in found:
            faults.add(self.file, line, f'{choice!r} stands twice on this list')
        else:
            values = [number_of(it) for it in written] if written else [Decimal(len(found))]
            if None in values:
                place = values.index(None)
                faults.add(self.file, line, f'the {self.called_number(place)} {written[place]!r} is no number')
            else:
                most = [self.form.has_points and written] + [not is_least for _, is_least in self.then]
                found[number] = tuple(it.copy_negate() if up else it for it, up in zip(values, most)), line, written

    def tell_unknown(self, other, faults, line, choice):
        """Tells of a name that the other table doesn't have; where each row is a choice, only at its first row."""
        if self.form.kind == LONG and choice in self.unknown:
            self.unknown[choice][1] += 1
            return
        hint = likely(choice, other) if len(faults.texts) < Faults.MOST else ''
        self.unknown[choice] = [len(faults.texts), 0]
        faults.add(self.file, line, f'{shown(choice)} isn\'t in {other.file}{hint}')

    def called_number(self, place):
        """What faults call a number of a row: the first one, or that of a further column."""
        return self.form.number if place == 0 else self.titles[self.then[place - 1][0]]

    def draw(self, lot):
        """Draws a lot over the agents; they have places in it, if it isn't one for each list."""
        self.lot = lot
        self.places = {} if lot.each_list else lot.places(self.originals)

    def sum_of(self, number, owner):
        """By what an agent comes in the lot, on the list of `owner`, or on all lists alike."""
        return self.lot.sum_of(self.originals[number], owner) if owner is not None else self.places[self.originals[number]]

    def note(self, agent, names):
        """The points of an agent's list as a comment has them: `points: ann=70 ben=65`, or `points/km: ann=70/2 ben=65/3`; or
        nothing.
        """
        rows = self.written[agent] if self.written else []
        if not rows or not rows[0]:
            return ''
        titles = ['points'] + [' '.join(re.sub('[#:/]', ' ', self.titles[i]).split()) for i, _ in self.then]
        return f' # {"/".join(titles)}: ' + ' '.join(f'{name}={"/".join(numbers)}' for name, numbers in zip(names, rows))


def capacity_of(text, file, line, faults):
    """The capacity that a cell has."""
    if not NUMBER.match(text) or int(text) > MOST_CAPACITY:
        faults.add(file, line, f'the capacity {text!r} is no number from 0 to {MOST_CAPACITY:,}')
        return 1
    return int(text)


def number_of(text):
    """The number that a cell has, whole or with a fraction behind a point or a comma, or None."""
    return Decimal(text.replace(',', '.')) if DECIMAL.match(text) else None


def parts_of(cell, mark):
    """The choices of a cell."""
    return [cell] if mark is None else [it for it in map(str.strip, cell.split(mark)) if it]


def shown(text):
    """A cell as faults show it."""
    return repr(text if len(text) <= 60 else text[:57] + '...')


def likely(choice, other):
    """A name that may have been meant, or what else may be wrong."""
    if key_of(choice) == key_of(other.titles[other.columns[0]]):
        return '; the first row of a table only names the columns'
    meant = near(choice, other.originals, 0.8)
    if meant:
        return f'; is {meant!r} meant?'
    for mark in MARKS:
        if mark in choice and all(other.number(it) is not None for it in parts_of(choice, mark)):
            return f'; --in-cell \'{mark}\' takes several choices from a cell'
    return ''
