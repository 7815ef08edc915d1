"""Throws that come out the same for a seed on every version of Python (splitmix64)."""

WORD = 2**64


class Dice:
    def __init__(self, seed):
        self.state = seed % WORD

    def throw(self):
        self.state = (self.state + 0x9E3779B97F4A7C15) % WORD
        mixed = self.state
        mixed = (mixed ^ mixed >> 30) * 0xBF58476D1CE4E5B9 % WORD
        mixed = (mixed ^ mixed >> 27) * 0x94D049BB133111EB % WORD
        return mixed ^ mixed >> 31

    def below(self, limit):
        return self.throw() % limit

    def between(self, least, most):
        return least + self.below(most - least + 1)

    def one_in(self, count):
        return self.below(count) == 0

    def pick(self, items):
        return items[self.below(len(items))]

    def shuffled(self, items):
        left, out = list(items), []
        while left:
            out.append(left.pop(self.below(len(left))))
        return out
