"""Numbers that are drawn from a seed, as the tables of drawn calls and of drawn runs draw them."""
MASK = (1 << 64) - 1


class Draws:
    """The numbers from a seed on."""

    def __init__(self, seed):
        self.state = seed

    def draw(self, most):
        self.state = (self.state * 6364136223846793005 + 1442695040888963407) & MASK
        return (self.state >> 33) % most
