"""One move by the rules."""

from typing import NamedTuple

from maizetext.errors import Illegal
from maizetext.grid import HIGH, LOW, MOVES, Vertex
from maizetext.overheads import Overhead, overhead
from maizetext.prices import Price, entering
from maizetext.segments import FRESH, START, Segment
from maizetext.views import View


class Place(NamedTuple):
    """A vertex with the segment that is being made."""

    vertex: Vertex
    segment: Segment = START


class Made(NamedTuple):
    """What a legal move did: where it led, the price of entering and the overhead."""

    move: int
    start: Vertex
    place: Place
    price: Price
    over: Overhead

    def cost(self) -> int:
        """The price of entering and the overhead."""
        return self.price.total() + self.over.price


def step(view: View, place: Place, move: int) -> Made:
    """The move from a place, or `Illegal`."""
    start = place.vertex
    into = view.job.grid.entered(start, move)
    if into is None:
        raise Illegal(f"{MOVES[move]} from {start} leaves the grid")
    blocked = view.blocked(into)
    if blocked:
        raise Illegal(blocked)
    price = entering(view, start, into, move)
    if move in (LOW, HIGH):
        segment = place.segment.stepped(move, view.job.layers[start.layer].min_length)
        over = Overhead(0)
    else:
        segment = FRESH
        over = overhead(view, start, place.segment)
    return Made(move, start, Place(into, segment), price, over)
