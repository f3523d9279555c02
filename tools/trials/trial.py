"""Made instances given to a solver one after the other, and what becomes of them."""
import collections
import concurrent.futures
import itertools
import queue
import threading

from .features import features
from .verdict import RIGHT

# How often a solver is waited for, at most, where it may take too long again.
MOST_WAITED = 40
# How many kinds of failure are made smaller.
MOST_KINDS = 20
# How many cases are made at a time.
MADE = 1000
# What one case came to: the case, its result and its features.
Tried = collections.namedtuple('Tried', 'case result features')


class Kind:
    """A kind of failure: its first case, the numbers of all its cases, a least instance with its result, and whether a solver that
    has seen no other instance fails on that too.
    """

    def __init__(self, first):
        self.first, self.numbers = first, []
        self.least, self.result, self.trials = first.case.draft, first.result, 0
        self.is_least, self.alone = False, True

    @property
    def key(self):
        """What all its failures have in common."""
        return self.first.result.kind, self.first.result.reason


class Trial:
    """The cases that were tried: how many came to what, and which features they had."""

    def __init__(self, judge, solvers, smallest, budget):
        self.judge, self.smallest, self.budget = judge, smallest, budget
        self.solvers = queue.Queue()
        for it in solvers:
            self.solvers.put(it)
        self.jobs = len(solvers)
        self.counts, self.had, self.failed = (collections.Counter() for _ in range(3))
        self.shapes = collections.defaultdict(collections.Counter)
        self.kinds = {}
        self.results = []
        self.stopped, self.gone = threading.Event(), threading.Event()

    def result(self, draft):
        """How a solver that is free answers."""
        solver = self.solvers.get()
        try:
            return self.judge.tried(solver, draft)
        finally:
            self.solvers.put(solver)

    def one(self, case):
        """What a case comes to; nothing once it is stopped."""
        if self.stopped.is_set():
            return None
        return Tried(case, self.result(case.draft), features(self.judge.program, case.draft))

    def run(self, make, numbers, at_first, tell):
        """Tries the cases of some numbers, in their order, and shrinks the first failure of each kind. With `at_first` it stops at
        the first failure.
        """
        numbers = iter(numbers)
        with concurrent.futures.ThreadPoolExecutor(self.jobs) as pool:
            try:
                while not self.stopped.is_set():
                    part = list(itertools.islice(numbers, MADE))
                    for done in pool.map(lambda number: self.one(make(number)), part):
                        self.add(done)
                        tell(len(self.results), self.counts[RIGHT])
                        if at_first and done.result.kind != RIGHT:
                            self.stopped.set()
                            break
                    if len(part) < MADE:
                        break
                list(pool.map(self.shrink, list(self.kinds.values())[:MOST_KINDS]))
            except BaseException:
                # The threads are waited for, so they have to come to their end.
                self.stopped.set()
                self.gone.set()
                raise

    def add(self, done):
        """Counts a case."""
        result = done.result
        self.results.append((done.case.number, done.case.shape, result.kind, result.reason, result.words))
        self.counts[result.kind] += 1
        self.shapes[done.case.shape][result.kind] += 1
        self.had.update(done.features)
        if result.kind != RIGHT:
            self.failed.update(done.features)
            kind = self.kinds.setdefault((result.kind, result.reason), Kind(done))
            kind.numbers.append(done.case.number)

    def shrink(self, kind):
        """Finds a least instance that fails in the same way."""
        def fails(draft):
            if self.gone.is_set():
                return False
            result = self.result(draft)
            if (result.kind, result.reason) != kind.key:
                return False
            kind.result = result
            return True
        budget = min(self.budget, MOST_WAITED) if kind.key[0] == 'timeout' else self.budget
        kind.least, kind.trials, kind.is_least = self.smallest(kind.first.case.draft, fails, budget)
        kind.alone = self.fails_alone(kind)

    def fails_alone(self, kind):
        """Whether the least instance of a kind fails where it is the first that a solver sees."""
        solver = self.solvers.get()
        try:
            own = solver.anew()
            result = self.judge.tried(own, kind.least)
            if own is not solver:
                own.close()
        finally:
            self.solvers.put(solver)
        return (result.kind, result.reason) == kind.key

    def close(self):
        """Ends all processes of solvers."""
        while not self.solvers.empty():
            self.solvers.get().close()

    def status(self):
        """0 where all is right, 7 where an answer is wrong, and 9 where solvers failed otherwise."""
        return 0 if set(self.counts) <= {RIGHT} else 7 if self.counts['wrong'] else 9
