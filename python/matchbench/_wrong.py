"""What is wrong with an answer to which `check` says no: a sentence by the names of its agents.

All lines above the wrong one are right, so what they say can be built upon.
"""
from __future__ import annotations

from typing import Any, Callable, Dict, Iterable, List, Optional, Sequence, Tuple

from . import FlowEdge, _nets
from .drawing import moves_of

Pair = Tuple[Any, Any]
# A sentence names no more of many.
MOST_NAMED = 8
KEYWORDS = {'regret': ['pair'], 'meet': ['left', 'right'], 'join': ['left', 'right'], 'reduced': ['first', 'last'],
            'rotations': ['first'], 'weight': ['first']}


def told(instance: Any, reason: str, answer: Any) -> Tuple[str, Optional[Pair]]:
    """What is wrong with an answer that ends with the wrong line, and the pair that blocks, where one does."""
    claim = Claim(instance, answer)
    if reason == 'Blocked':
        return claim.blocked()
    sentences: Dict[str, Callable[[], str]] = {
        'NotAMatching': claim.not_a_matching, 'NotBest': claim.not_best, 'WrongList': claim.wrong_list,
        'NotExposed': claim.not_exposed, 'RotationMissing': claim.rotation_missing, 'WrongNeeds': claim.wrong_needs,
        'WrongGain': claim.wrong_gain, 'NoEdge': claim.no_edge, 'OverRoom': claim.over_room,
        'NotConserved': claim.not_conserved, 'NotClosed': claim.not_closed, 'WrongValue': claim.wrong_value,
        'WrongCut': claim.wrong_cut, 'CutDiffers': claim.cut_differs, 'WrongTotal': claim.wrong_total,
        'WrongPair': claim.wrong_pair, 'NotLeast': claim.not_least, 'NotRising': claim.not_rising,
        'NotAllowed': claim.not_allowed, 'OverLimit': claim.over_limit, 'WrongTail': claim.wrong_tail,
        'WrongRegret': claim.wrong_regret, 'NotPartition': claim.not_partition, 'NoOddParty': claim.no_odd_party}
    return sentences[reason](), None


class Claim:
    """An answer up to its wrong line, whose words are `line`; there and above numbers and names are of the right form."""

    def __init__(self, instance: Any, answer: Any) -> None:
        self.instance, self.answer = instance, answer
        self.line: List[str] = answer.tail
        _, self.command, *options = answer.head
        self.options = dict(it.split('=', 1) for it in options)
        self.mark = '2' if self.line[0].endswith('2') else ''

    # Matchings.

    def pairs(self, keyword: str) -> List[Pair]:
        """The pairs of the lines of a keyword above."""
        return [self.instance._pair(['', *words]) for words in self.answer.of(keyword)]

    def matchings(self) -> List[Tuple[str, List[Pair]]]:
        """The matchings that are whole above the line, with their keywords."""
        if self.line[0] == 'vector':
            return [('vector', list(self.instance._pairs_at(self.ranks(self.line))))]
        return [(it, self.pairs(it)) for it in KEYWORDS[self.command] if it != self.line[0]]

    @staticmethod
    def ranks(line: Sequence[str]) -> Tuple[int, ...]:
        """The vector of a line."""
        return tuple(int(it) for words in line[1:] for it in words.split(',') if it != '-')

    def blocked(self) -> Tuple[str, Optional[Pair]]:
        """Two who would both rather have one another: a proposer and a reviewer, or, of the right residents, a seat."""
        for keyword, pairs in self.matchings():
            pair = self.instance._blocking(pairs) or (self.blocking_seat(keyword) if keyword in ('first', 'last') else None)
            if pair:
                return f'{pair[0]} and {shown(pair[1])} would both rather have one another', pair
        raise AssertionError('no pair blocks')

    def blocking_seat(self, keyword: str) -> Optional[Pair]:
        """A proposer and a seat of its own reviewer that would both rather have one another."""
        at = dict(self.seat_pairs(self.answer.of(keyword)))
        holders = {seat: p for p, seat in at.items()}
        for p, seat in at.items():
            row = self.instance.reviewers[seat.reviewer]
            for number in range(1, seat.number):
                better = seat._replace(number=number)
                if better not in holders or row.index(p) < row.index(holders[better]):
                    return p, better
        return None

    def seat_pairs(self, written: Iterable[Sequence[str]]) -> List[Tuple[Any, Any]]:
        """Pairs of a proposer and a seat, as they are written."""
        return [(self.instance._proposers.originals[p], self.instance._reviewers.seat(seat)) for p, seat in written]

    def not_a_matching(self) -> str:
        if self.line[0] == 'vector':
            return self.no_vector()
        pair = self.instance._pair(self.line)
        why: str = self.instance._why(self.pairs(self.line[0]), pair)
        if why:
            return why
        # The reviewer has a place, but the seat is taken.
        seat = self.instance._reviewers.seat(self.line[2])
        holder = next(p for p, it in self.seat_pairs(self.answer.of(self.line[0])) if it == seat)
        return f'{pair[0]} can\'t have {shown(seat)}, since {holder} has it'

    def no_vector(self) -> str:
        """Why ranks are those of no matching."""
        ranks = self.ranks(self.line)
        for rank, (p, row) in zip(ranks, self.instance.proposers.items()):
            if not 0 < rank <= len(row) + 1:
                return f'{p} has the rank {rank:,}, and its ranks go to {len(row):,}, with {len(row) + 1:,} for being alone'
        pairs = self.instance._pairs_at(ranks)
        return next(filter(None, (self.instance._why(pairs[:place], pair) for place, pair in enumerate(pairs))))

    def not_best(self) -> str:
        sides = {'first': 'proposers', 'last': 'reviewers'}
        for keyword, pairs in self.matchings():
            differs = self.instance._not_best(sides[keyword], pairs)
            if differs:
                return str(differs)
        raise AssertionError('each matching is the best one')

    def condition(self, pairs: Sequence[Pair], what: str) -> str:
        """The condition that a matching doesn't keep."""
        for pair in self.instance.forced:
            if pair not in pairs:
                return f'{pair[0]} and {pair[1]} aren\'t together in {what}, and are forced'
        p, r = next(it for it in self.instance.forbidden if it in pairs)
        return f'{p} and {r} are together in {what}, and are forbidden'

    def not_allowed(self) -> str:
        return self.condition(self.matchings()[0][1], 'this matching')

    def wrong_pair(self) -> str:
        if self.command == 'weight':
            wanted = self.taken_matching()
        else:
            left, right = (self.instance._with('', tuple(self.pairs(it))) for it in ('left', 'right'))
            both = zip(left.ranks, right.ranks)
            ranks = tuple(min(it) if self.command == 'meet' else max(it) for it in both)
            wanted = dict(self.instance._pairs_at(ranks))
        there = dict(self.pairs('pair'))
        if self.line[0] == 'end':
            p = next(it for it in wanted if it not in there)
            return f'the pair of {p} and {wanted[p]} is missing'
        p, r = self.instance._pair(self.line)
        if p in there:
            return f'{p} has a pair above'
        return f'{p} is with {wanted[p]} in the right matching, and not with {r}' if p in wanted else \
            f'{p} is alone in the right matching, and not with {r}'

    def wrong_regret(self) -> str:
        said, rows, others = self.answer.number('regret'), self.instance.proposers, self.instance.reviewers
        pairs = self.pairs('pair')
        ranks = [(rows[p].index(r) + 1, r, p) for p, r in pairs] + [(others[r].index(p) + 1, p, r) for p, r in pairs]
        if not ranks:
            return f'nobody is matched, so the regret is 0, and not {said:,}'
        worst, one, other = max(ranks, key=lambda it: int(it[0]))
        return f'the regret is {worst:,}, since {one} is choice {worst:,} of {other}, and not {said:,}'

    # Lists of matchings.

    def not_rising(self) -> str:
        above = self.answer.of('vector')
        there, here = self.ranks(['', *above[-1]] if above else ['', self.options['after']]), self.ranks(self.line)
        what = 'the vector above' if above else 'the cursor'
        order = list(dict.fromkeys([*(self.instance.compared or ()), *self.instance.proposers]))
        places = {p: place for place, p in enumerate(self.instance.proposers)}
        for p in order:
            one, other = here[places[p]], there[places[p]]
            if one != other:
                return f'this vector stands before {what} in the order: {p} has the rank {one:,} here, and {other:,} there'
        return f'this is {what} again'

    def over_limit(self) -> str:
        limit, above = int(self.options['limit']), self.answer.of('vector')
        return f'the limit is {limit:,}, and this is vector {len(above) + 1:,}'

    def wrong_tail(self) -> str:
        above, limit = self.answer.of('vector'), int(self.options['limit'])
        if len(above) != limit:
            return f'the list is broken off behind {len(above):,} of {limit:,} vectors'
        last = ''.join(above[-1]) if above else self.options.get('after', '')
        return f'the last vector is {last or "-"}, and not {"".join(self.line[1:]) or "-"}'

    # Reduced lists, and rotations.

    def wrong_list(self) -> str:
        right = self.instance.reduced()
        lists = {'proposer': right.proposers, 'reviewer': right.reviewers}
        sides = self.instance._proposers.originals.__getitem__, self.instance._reviewers.seat
        own, other = sides if self.line[0] == 'proposer' else sides[::-1]
        if self.line[0] != 'end':
            who = own(self.line[1])
            given = [other(it) for it in self.line[2:]]
            return differing(f'the reduced list of {self.agent(who)}', list(map(self.agent, lists[self.line[0]][who])),
                             list(map(self.agent, given)))
        for word, of_name in zip(lists, sides):
            owners = [of_name(it) for it, *_ in self.answer.of(word)]
            for who in lists[word]:
                if owners.count(who) != 1:
                    return f'{self.agent(who)} has {"two lists" if who in owners else "no list"}'
        raise AssertionError('each agent has one list')

    def agent(self, who: Any) -> str:
        """An agent, or a seat."""
        return str(who.reviewer) if self.instance.kind == 'marriage' and isinstance(who, tuple) and hasattr(who, 'reviewer') else \
            shown(who)

    def rotations(self) -> Sequence[Any]:
        """The rotations above."""
        chain: Tuple[Any, Sequence[Any]] = self.instance._chain(self.answer)
        return chain[1]

    def not_exposed(self) -> str:
        number, right = len(self.answer.of('rotation')), self.instance.rotations().rotations
        if number == len(right):
            return f'there is no rotation {number + 1}: {"behind these" if number else "here"} none is exposed'
        given = set(self.seat_pairs(zip(self.line[2::2], self.line[3::2])))
        told = f'rotation {number + 1} moves {named(moves_of(right[number], " from "))}'
        return told + f', and is written from {right[number].pairs[0][0]} on' if given == set(right[number].pairs) else told

    def rotation_missing(self) -> str:
        number, right = len(self.answer.of('rotation')), self.instance.rotations().rotations
        return f'rotation {number + 1} is missing, which moves {named(moves_of(right[number], " from "))}'

    def wrong_needs(self) -> str:
        number = len(self.answer.of('rotation'))
        needs, said = self.instance.rotations().rotations[number - 1].needs, self.line[2:]
        return f'rotation {number} needs {named(needs) or "no other"}, and not {named(said) or "none"}'

    # The lightest matching.

    def weight(self, p: Any, r: Any) -> int:
        """The weight of a pair on the level of the line."""
        if self.options['by'] == 'ranks':
            ranks: int = self.instance.proposers[p].index(r) + self.instance.reviewers[r].index(p) + 2
            return ranks
        numbers: Sequence[int] = [*self.instance.weights.get((p, r), ()), 0, 0]
        return numbers[1 if self.mark else 0]

    def sum(self) -> str:
        """The name of the sum of this level."""
        return 'second sum' if self.mark else 'sum'

    def flow(self, mark: str = '') -> List[FlowEdge]:
        """The flow above on a level."""
        return [FlowEdge(node(a), node(b), int(amount)) for a, b, amount in self.answer.of('flow' + mark)]

    def gains(self, mark: str = '') -> List[int]:
        """The gains above on a level."""
        return [int(gain) for _, gain in self.answer.of('gain' + mark)]

    def rooms(self) -> _nets.Rooms:
        """The rooms of the net on the level of the line."""
        rooms = _nets.first_net(self.instance, self.rotations(), self.gains())
        if not self.mark:
            return rooms
        return _nets.second_net(rooms, self.flow(), self.gains('2'))

    def taken(self) -> List[int]:
        """The rotations that are taken."""
        return [int(it) for it in self.answer.of('taken')[0]]

    def taken_matching(self, taken: Optional[Iterable[int]] = None) -> Dict[Any, Any]:
        """The matching of the rotations that are taken."""
        first, rotations = self.instance._chain(self.answer)
        held = {p: seat.reviewer for p, seat in first.items()}
        numbers = self.taken() if taken is None else taken
        for it in rotations:
            if it.number in numbers:
                held.update({p: new.reviewer for p, _, new in it.moves()})
        return held

    def wrong_gain(self) -> str:
        rotation = self.rotations()[-1]
        gain = sum(self.weight(p, new.reviewer) - self.weight(p, old.reviewer) for p, old, new in rotation.moves())
        return f'rotation {rotation.number} adds {gain:,} to the {self.sum()}, and not {int(self.line[2]):,}'

    def edge(self) -> str:
        """The edge of the line, in words."""
        return f'from {end_of(node(self.line[1]))} to {end_of(node(self.line[2]))}'

    def no_edge(self) -> str:
        ends = node(self.line[1]), node(self.line[2])
        if any(ends == (a, b) for a, b, _ in self.flow(self.mark)):
            return f'the edge {self.edge()} has a line above'
        return f'the {"second " if self.mark else ""}net has no edge {self.edge()}'

    def over_room(self) -> str:
        amount, room = int(self.line[3]), self.rooms()[node(self.line[1]), node(self.line[2])]
        if room is None or amount <= room:
            return f'the amount {amount:,} that flows {self.edge()} isn\'t positive'
        return f'the edge {self.edge()} has room for {room:,}, and not for {amount:,}'

    def not_conserved(self) -> str:
        for mark, what in (('', ''), ('2', ' in the second net')):
            flow = self.flow(mark)
            for it in range(1, len(self.rotations()) + 1):
                comes, goes = (sum(edge[2] for edge in flow if edge[at] == it) for at in (1, 0))
                if comes != goes:
                    return f'{comes:,} flows into rotation {it} and {goes:,} out of it{what}'
        raise AssertionError('what flows is conserved')

    def not_closed(self) -> str:
        taken, rotations = [int(it) for it in self.line[1:]], self.rotations()
        for it in taken:
            if it > len(rotations):
                return f'there is no rotation {it:,}'
        for it in taken:
            for needed in rotations[it - 1].needs:
                if needed not in taken:
                    return f'rotation {it} needs rotation {needed}, which isn\'t taken'
        return self.condition(list(self.taken_matching(taken).items()), 'the matching of the taken rotations')

    def wrong_value(self) -> str:
        value = sum(amount for tail, _, amount in self.flow(self.mark) if tail == 'S')
        return f'{value:,} flows out of S, and not {int(self.line[1]):,}'

    def wrong_cut(self) -> str:
        taken = self.taken()
        cut = sum(abs(gain) for it, gain in enumerate(self.gains(self.mark), 1) if (gain > 0) == (it in taken))
        return f'the cut of the taken rotations is {cut:,}, and not {int(self.line[1]):,}'

    def cut_differs(self) -> str:
        value = self.answer.number('value' + self.mark)
        return f'the cut is {int(self.line[1]):,} and the value {value:,}, so it isn\'t shown that nothing is lighter'

    def wrong_total(self) -> str:
        total = sum(self.weight(p, r) for p, r in self.taken_matching().items())
        return f'the {self.sum()} of the matching is {total:,}, and not {int(self.line[1]):,}'

    def not_least(self) -> str:
        right = self.instance.weight(self.options['by']).taken
        surplus = [it for it in self.taken() if it not in right]
        return f'the flow doesn\'t reach {"rotation" if len(surplus) == 1 else "the rotations"} {named(surplus)}, ' \
            f'and {"it is" if len(surplus) == 1 else "they are"} taken'

    # Roommates.

    def parties(self) -> List[List[Any]]:
        """The parties above."""
        return [[self.instance._proposers.originals[it] for it in row] for row in self.answer.of('party')]

    def not_partition(self) -> str:
        parties, lists = self.parties(), self.instance.proposers
        if self.line[0] == 'party':
            members = [it for row in parties for it in row] + [self.instance._proposers.originals[it] for it in self.line[1:]]
            return f'{next(it for place, it in enumerate(members) if it in members[:place])} stands twice in the parties'
        after = {one: other for row in parties for one, other in zip(row, row[1:] + row[:1])}
        before = {other: one for one, other in after.items()}
        for one in lists:
            if one not in after:
                return f'{one} stands in no party'
        for one, other in after.items():
            for a, b in ((one, other), (other, one)):
                if a != b and b not in lists[a]:
                    return f'{other} follows {one} in a party, and {a} doesn\'t list {b}'
        for one, row in lists.items():
            if before[one] != after[one] and row.index(before[one]) < row.index(after[one]):
                return f'{one} would rather have {before[one]}, who stands before it in its party, than {after[one]}, who follows'
        better = {one: row if before[one] == one else row[:row.index(before[one])] for one, row in lists.items()}
        one, other = next((a, b) for a, row in better.items() for b in row if b in better and a in better[b])
        return f'{one} and {other} would both rather have one another than those who stand before them in their parties'

    def no_odd_party(self) -> str:
        sizes = [len(it) for it in self.parties()]
        return f'the parties have {named(sizes) or "no"} members: none is odd with three or more'


def node(word: str) -> Any:
    """A node of a net."""
    return word if word in ('S', 'T') else int(word)


def end_of(end: Any) -> str:
    """The end of an edge, in words."""
    return end if isinstance(end, str) else f'rotation {end}'


def shown(who: Any) -> str:
    """An agent, or a seat in words."""
    return f'seat {who.number} of {who.reviewer}' if hasattr(who, 'reviewer') else str(who)


def named(items: Iterable[Any]) -> str:
    """Some items, and of many the first ones."""
    words = list(map(str, items))
    if len(words) > MOST_NAMED:
        words[MOST_NAMED - 1:] = [f'{len(words) - MOST_NAMED + 1:,} others']
    return ' and '.join(filter(None, [', '.join(words[:-1]), *words[-1:]]))


def differing(what: str, right: Sequence[str], given: Sequence[str]) -> str:
    """Where a list isn't the right one."""
    place = next((it for it, (a, b) in enumerate(zip(right, given)) if a != b), min(len(right), len(given)))
    if place == len(right):
        return f'{what} ends before {given[place]}' if right else f'{what} is empty'
    other = f'and not {given[place]}' if place < len(given) else 'where this one ends'
    return f'{what} has {right[place]} at place {place + 1:,}, {other}'
