"""Numbers from which checks draw what they send."""


class Numbers:
    """A row of numbers that look random, and are the same in each run."""

    def __init__(self, state):
        self.state = state

    def below(self, bound):
        self.state = (self.state * 6364136223846793005 + 1442695040888963407) % 2**64
        return (self.state >> 33) % bound

    def one_of(self, items):
        return items[self.below(len(items))]

    def some_of(self, items, count):
        """So many of them, in their order."""
        left = list(items)
        while len(left) > count:
            del left[self.below(len(left))]
        return left
