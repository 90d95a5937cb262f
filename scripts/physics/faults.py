"""What can go wrong while a description is read and bounded."""


class Fault(Exception):
    """The description is at fault: where, and why."""

    def __init__(self, place, text):
        super().__init__(f"{place}: {text}")


class Split(Exception):
    """A range is too wide to tell: it is cut, or at last a Fault."""


class Rough(Exception):
    """A kink (abs, min, max) inside a box: only the first two orders of the series are there."""
