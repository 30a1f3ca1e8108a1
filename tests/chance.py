"""A seeded source of chance that gives the same on every version of Python: only `random()` of the standard library is promised to."""
import random


class Chance:
    def __init__(self, seed):
        self.source = random.Random(seed)

    def random(self):
        return self.source.random()

    def randrange(self, count):
        return int(self.source.random() * count)

    def randint(self, low, high):
        return low + self.randrange(high - low + 1)

    def choice(self, items):
        return items[self.randrange(len(items))]

    def sample(self, items, count):
        """So many different ones of them, in the order drawn."""
        drawn = []
        seen = set()
        while len(drawn) < count:
            k = self.randrange(len(items))
            if k not in seen:
                seen.add(k)
                drawn.append(items[k])
        return drawn

    def shuffle(self, items):
        for k in range(len(items) - 1, 0, -1):
            other = self.randrange(k + 1)
            items[k], items[other] = items[other], items[k]
