"""Choices that a seed decides."""
import random


class Chance:
    """Stands on `random()` alone, which gives the same numbers for a seed in every version of Python."""

    def __init__(self, seed):
        self.source = random.Random(seed)

    def below(self, bound):
        return int(self.source.random() * bound)

    def happens(self, percent):
        return self.below(100) < percent

    def one(self, choices):
        return choices[self.below(len(choices))]

    def some(self, choices, most):
        """From none to `most` of the choices, perhaps one of them twice."""
        return [self.one(choices) for _ in range(self.below(most + 1))]
