"""All stable matchings of an instance, as its rotations make them: which are marked, and the way from one to another."""


class Lattice:
    """The order, and the rank vector of each closed set, as bits: each set behind those within it. A matching of an instance gives
    each proposer that has one its reviewer.
    """

    def __init__(self, order, vectors):
        self.order, self.instance, self.vectors = order, order.instance, vectors
        self.proposers = list(self.instance.proposers.items())

    @staticmethod
    def of(order, most):
        """The lattice of an order, or None where it has more than `most` matchings."""
        vectors = order.lattice(most)
        return None if vectors is None else Lattice(order, vectors)

    def matching(self, closed):
        """The matching of a closed set, by names."""
        return {name: agent.entries[rank - 1] for (name, agent), rank in zip(self.proposers, self.vectors[closed])
                if rank <= len(agent.entries)}

    def ranks_back(self, closed):
        """For each reviewer the ranks that it gives those whom it has, rising."""
        ranks = {name: [] for name in self.instance.reviewers}
        for proposer, reviewer in self.matching(closed).items():
            ranks[reviewer].append(self.instance.reviewers[reviewer].ranks[proposer])
        return {name: sorted(it) for name, it in ranks.items()}

    def closed_of(self, matching):
        """The closed set of a matching, or None where that isn't one of these."""
        vector = [agent.rank(matching.get(name)) for name, agent in self.proposers]
        return next((closed for closed, it in self.vectors.items() if it == vector), None)

    def allowed(self):
        """The closed sets whose matchings the conditions allow."""
        return [closed for closed in self.vectors
                if all((self.matching(closed).get(p) == r) == (keyword == 'force') for keyword, p, r in self.instance.conditions)]

    def median(self):
        """The closed set of the median of the allowed matchings, or None."""
        allowed = self.allowed()
        if not allowed:
            return None
        middle = [sorted(ranks)[(len(allowed) + 1) // 2 - 1] for ranks in zip(*map(self.vectors.get, allowed))]
        return next(closed for closed in allowed if self.vectors[closed] == middle)

    def least(self, figure):
        """The allowed closed set of the least figure, or None; of several the best for the proposers."""
        return min(self.allowed(), key=lambda closed: (figure(closed), sum(self.vectors[closed])), default=None)

    def regret(self, closed):
        """The greatest rank that an agent of a pair gives its partner."""
        ranks = [self.instance.proposers[p].ranks[r] for p, r in self.matching(closed).items()]
        return max(ranks + [rank for own in self.ranks_back(closed).values() for rank in own], default=0)

    def weight(self, closed):
        """The sums of the given weights, or the sum of all ranks where the instance has none."""
        pairs = self.matching(closed).items()
        if self.instance.weights:
            given = [self.instance.weights.get(pair, (0, 0)) for pair in pairs]
            return sum(it[0] for it in given), sum(it[1] for it in given)
        return sum(self.instance.proposers[p].ranks[r] + self.instance.reviewers[r].ranks[p] for p, r in pairs)

    def way(self, answer):
        """The two ends of an answer of `route`, and its steps as pairs of closed sets, in the way that one walks."""
        left, right = ({it.fields[0]: it.fields[1] for it in answer.lines if it.keyword == side} for side in ('left', 'right'))
        at = begin = self.closed_of(left)
        steps = []
        for line in answer.lines:
            if line.keyword in ('back', 'forth'):
                to = None if at is None else at ^ 1 << int(line.fields[0]) - 1
                if to not in self.vectors or (to > at) != (line.keyword == 'forth'):
                    raise self.order.fault(answer, line, 'no such step leads on from there')
                steps.append((at, to))
                at = to
        if begin is None or at != self.closed_of(right):
            raise self.order.fault(answer, answer.lines[-1], 'its steps don\'t lead from the left matching to the right one')
        return (begin, at), steps
