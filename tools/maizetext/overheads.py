"""What a via move owes for the segment that it leaves."""

from typing import NamedTuple

from maizetext.errors import Illegal
from maizetext.grid import LOW, Vertex
from maizetext.job import CLOSED
from maizetext.segments import Segment
from maizetext.views import View

Run = tuple[Vertex, ...]
"""Vertices along a track, one after the other."""


class Overhead(NamedTuple):
    """Its price, what an extension lays at the leaving and at the starting end, and if it is the area penalty."""

    price: int
    leaving: Run = ()
    starting: Run = ()
    penalised: bool = False

    @property
    def laid(self) -> Run:
        """The whole extension."""
        return self.leaving + self.starting


def overhead(view: View, last: Vertex, segment: Segment) -> Overhead:
    """An extension where both ends together have room, or the area penalty; nothing for a paid segment."""
    if segment.paid:
        return Overhead(0)
    layer = view.job.layers[last.layer]
    missing = layer.min_length - segment.length
    leaving, starting = both_ends(view, last, segment, missing)
    room = len(leaving) + len(starting)
    if room == missing:
        return Overhead(layer.wire * missing, leaving, starting)
    if layer.area == CLOSED:
        lacks = f"lacks {missing} of {layer.min_length} steps, its two ends have room for {room}"
        raise Illegal(f"the segment that ends at {last} {lacks}, and the area penalty is closed")
    return Overhead(layer.area, penalised=True)


def both_ends(view: View, last: Vertex, segment: Segment, most: int) -> tuple[Run, Run]:
    """Clear vertices at the leaving end, then at the starting end, together at most so many."""
    onward = -1 if segment.direction == LOW else 1  # a fresh segment takes high first
    first = view.job.grid.along(last, -onward * segment.length)
    leaving = clear_run(view, last, onward, most)
    return leaving, clear_run(view, first, -onward, most - len(leaving))


def clear_run(view: View, v: Vertex, sign: int, most: int) -> Run:
    """The clear vertices high or low of one, by the sign, up to the first that isn't clear, at most so many."""
    run: list[Vertex] = []
    for step in range(1, most + 1):
        beyond = view.job.grid.along(v, sign * step)
        if not view.clear(beyond):
            break
        run.append(beyond)
    return tuple(run)
