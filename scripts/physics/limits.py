"""What was bounded of one state over the whole range."""
import math


class Limit:
    """Of one state: the true next value less its form, the read sample's rounding left out.

    `pieces` has (low, high) by the row's piece; `signs` by piece the range of the rate within a tick.
    """

    def __init__(self):
        self.pieces, self.signs = {}, {}
        self.read = self.read_error = 0.0
        self.disturbance = self.misfit = self.rounded = 0.0
        self.below = (
            self.above
        ) = 0.0  # how far it leaves the span of its two samples, where that matters
        self.chord = 0.0  # how far it leaves the line between its two samples
        self.moves = 0.0  # how far it is from the nearer one of them

    def meet(self, piece, low, high):
        """One more part of the range, with these bounds."""
        old = self.pieces.get(piece, (math.inf, -math.inf))
        self.pieces[piece] = (min(old[0], low), max(old[1], high))

    def goes(self, piece, rate):
        old = self.signs.get(piece, (math.inf, -math.inf))
        self.signs[piece] = (min(old[0], rate[0]), max(old[1], rate[1]))

    @property
    def low(self):
        return min(low for low, _ in self.pieces.values())

    @property
    def high(self):
        return max(high for _, high in self.pieces.values())
