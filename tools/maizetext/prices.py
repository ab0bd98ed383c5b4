"""The price of entering a vertex, in its parts."""

from typing import NamedTuple, Optional

from maizetext.errors import Illegal
from maizetext.grid import DOWN, UP, Vertex
from maizetext.job import CLOSED, Job
from maizetext.views import View


class Price(NamedTuple):
    """The wire or via price; the guide penalty if the vertex is outside, the short penalty if it is taken, else none."""

    base: int
    outside: Optional[int]
    short: Optional[int]

    @property
    def guide(self) -> Optional[int]:
        """The guide penalty where it is added: a taken vertex adds the short penalty alone."""
        return self.outside if self.short is None else None

    @property
    def both(self) -> bool:
        """Whether the vertex is outside the guide and taken."""
        return self.outside is not None and self.short is not None

    def total(self) -> int:
        """All parts that are added."""
        return self.base + (self.guide or 0) + (self.short or 0)


def entering(view: View, start: Vertex, into: Vertex, move: int) -> Price:
    """The price of a move that stays in the grid. A closed penalty forbids it, also one that would not be added."""
    job = view.job
    guide = None if view.guided(into) else penalty(job.guide, f"{into} lies outside the guide, whose penalty is closed")
    short = penalty(job.short, f"{into} is taken, and the short penalty is closed") if view.taken(into) else None
    return Price(base(job, start, into, move), guide, short)


def base(job: Job, start: Vertex, into: Vertex, move: int) -> int:
    """The wire price of the layer, or the via price, which is in the lower layer's line."""
    if move in (DOWN, UP):
        return job.layers[min(start.layer, into.layer)].via
    return job.layers[into.layer].wire


def penalty(price: int, closed: str) -> int:
    """A penalty that is read; the closed one forbids."""
    if price == CLOSED:
        raise Illegal(closed)
    return price
