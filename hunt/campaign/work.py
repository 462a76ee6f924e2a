"""Which tries are left, and in which order they count: `Work(..)` gives batches, and `Ordered` puts what came back in order."""

from itertools import islice


class Work:
    """Seed by seed, each with every setting; what the store has is left out."""

    def __init__(self, seeds, names, store):
        self.seeds, self.names, self.store = seeds, names, store
        self.tries = self.left()

    def left(self):
        at_once = max(1, 20_000 // len(self.names))
        for first in range(self.seeds.start, self.seeds.stop, at_once):
            last = min(first + at_once, self.seeds.stop) - 1
            done = [self.store.done(name, first, last) for name in self.names]
            for seed in range(first, last + 1):
                yield from ((number, seed) for number in range(len(self.names)) if seed not in done[number])

    def take(self, count):
        """The next tries, at most so many; an empty list at the end."""
        return list(islice(self.tries, count))


class Ordered:
    """Batches come back in any order, and are given on in that of their numbers. So what a campaign finds first doesn't depend on
    how many work at it."""

    def __init__(self):
        self.next, self.held = 0, {}

    def put(self, number, batch):
        self.held[number] = batch

    def ready(self):
        while self.next in self.held:
            self.next += 1
            yield self.held.pop(self.next - 1)

    def rest(self):
        """Those that wait for others, which don't come any more."""
        for number in sorted(self.held):
            yield self.held.pop(number)
