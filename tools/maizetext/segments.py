"""The segment that is being made: fresh, running low or high, or paid."""

from typing import NamedTuple, Optional

from maizetext.errors import Illegal
from maizetext.grid import MOVES


class Segment(NamedTuple):
    """Direction is the move that steps on in it, or none; length counts while it is not paid."""

    direction: Optional[int]
    length: int
    paid: bool

    def stepped(self, move: int, min_length: int) -> "Segment":
        """After one more step: length M or more is paid and keeps its direction."""
        if self.direction not in (None, move):
            raise Illegal(f"the step goes back: the segment runs {MOVES[self.direction]}")
        length = self.length + 1
        return Segment(move, length, self.paid or length >= min_length)


FRESH = Segment(None, 0, False)
"""Just entered by a via."""

START = Segment(None, 0, True)
"""A join starts paid with no direction."""
