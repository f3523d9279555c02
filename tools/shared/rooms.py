"""Roommates: the parties of an answer of `solve` or `rest`, and phase one of the algorithm of Irving (1985)."""
from .command import Fault


class Parties:
    """Circles of persons, each by names, and those who are left out."""

    def __init__(self, parties, out):
        self.parties, self.out = parties, out

    @staticmethod
    def is_odd(party):
        """Whether a party excludes every stable matching."""
        return len(party) > 2 and len(party) % 2 == 1

    @staticmethod
    def of(instance, answer):
        """The parties that an answer tells: of a stable partition, or couples and those who are alone."""
        if answer.job[0] not in ('solve', 'rest'):
            raise Fault(f'{answer.file}:1: this is an answer of `{answer.job[0]}`, and not of `solve` or `rest`')
        parties, out = [], []
        for line in answer.lines:
            if line.keyword in ('pair', 'party'):
                parties.append(line.fields)
            elif line.keyword == 'out':
                out.append(line.fields[0])
        named = [name for party in parties for name in party]
        unknown = [name for name in named + out if name not in instance.proposers]
        if unknown or len(set(named)) < len(named):
            name = unknown[0] if unknown else next(it for it in named if named.count(it) > 1)
            raise Fault(f'{answer.file}: this can\'t be an answer to {instance.file}: {name} isn\'t there, or stands twice')
        parties += [[name] for name in instance.proposers if name not in named]
        return Parties(parties, out)


def phase_one(instance):
    """For each entry that phase one strikes the number of the proposal that strikes it, 0 where it isn't returned; and who holds
    whom at the end. An entry is a pair of a person and a name on its list.

    Each person proposes to the first who is left on its list, as long as nobody holds it. Who gets a proposal holds it, and strikes
    everybody behind the proposer, on both lists.
    """
    people = instance.proposers
    left = {name: [it for it in agent.entries if it != name and name in people[it].ranks] for name, agent in people.items()}
    struck = {(name, it): 0 for name, agent in people.items() for it in agent.entries if it not in left[name]}
    held, free, count = {}, list(people), 0
    while free:
        name = free.pop(0)
        if not left[name] or name in held.values():
            continue
        count += 1
        to = left[name][0]
        for other in [it for it in left[to] if people[to].ranks[it] > people[to].ranks[name]]:
            for one, two in ((to, other), (other, to)):
                struck[one, two] = count
                left[one].remove(two)
                if held.get(one) == two:
                    del held[one]
                    free.append(two)
        held[to] = name
    return struck, held
