"""What a plan draws on a layer: wires, extensions, vias and shorts."""

from itertools import groupby
from typing import Iterator, NamedTuple

from maizetext import svg
from maizetext.colours import net_colour
from maizetext.grid import HIGH, LOW, UP, Vertex
from maizetext.panel import Panel
from maizetext.replay import JoinTrace, Trace
from maizetext.steps import Made


class Stretch(NamedTuple):
    """Metal of a net from one vertex to another on a track."""

    net: int
    first: Vertex
    last: Vertex


def is_step(made: Made) -> bool:
    """Along the track, no via."""
    return made.move in (LOW, HIGH)


def joins(trace: Trace) -> Iterator[tuple[int, JoinTrace]]:
    """All joins, each with its net's index."""
    return ((net.number - 1, join) for net in trace.nets for join in net.joins)


def wires(trace: Trace) -> Iterator[Stretch]:
    """For each join the steps from via to via."""
    for net, join in joins(trace):
        for steps, run in groupby(join.moves, is_step):
            moves = list(run)
            if steps:
                yield Stretch(net, moves[0].start, moves[-1].place.vertex)


def extensions(trace: Trace) -> Iterator[Stretch]:
    """From each end of a short segment, its last and its first vertex, over what was laid beyond it."""
    for net, join in joins(trace):
        first = join.start
        for made in join.moves:
            for end, laid in ((made.start, made.over.leaving), (first, made.over.starting)):
                if laid:
                    yield Stretch(net, end, laid[-1])
            if not is_step(made):
                first = made.place.vertex


def vias(trace: Trace) -> Iterator[tuple[int, Vertex]]:
    """Each via once, by its net's index and its vertex on the lower layer."""
    found = set()
    for net, join in joins(trace):
        for made in join.moves:
            if not is_step(made):
                found.add((net, made.start if made.move == UP else made.place.vertex))
    return iter(sorted(found))


def shorts(trace: Trace) -> list[Vertex]:
    """Vertices that the metal of several nets covers."""
    once: set[Vertex] = set()
    several: set[Vertex] = set()
    for own in trace.metal:
        several |= once & own
        once |= own
    return sorted(several)


def draw_stretch(panel: Panel, kind: str, stretch: Stretch) -> str:
    """A line in the net's colour."""
    return svg.line(kind, *panel.at(stretch.first), *panel.at(stretch.last), stroke=net_colour(stretch.net))


def metal_lines(trace: Trace, panel: Panel) -> Iterator[str]:
    """Extensions under wires."""
    for kind, stretches in (("extension", extensions(trace)), ("wire", wires(trace))):
        for stretch in stretches:
            if stretch.first.layer == panel.layer:
                yield draw_stretch(panel, kind, stretch)


def via_marks(trace: Trace, panel: Panel, pins: set[Vertex]) -> Iterator[str]:
    """A ring for a via to the layer above, then a dot for one below, so that a dot in a ring is both."""
    for net, lower in vias(trace):
        if lower.layer == panel.layer:
            x, y, size = via_spot(panel, lower, pins)
            yield svg.circle("via-up", x, y, 0.24 * size, stroke=net_colour(net))
    for net, lower in vias(trace):
        upper = lower._replace(layer=lower.layer + 1)
        if upper.layer == panel.layer:
            x, y, size = via_spot(panel, upper, pins)
            yield svg.circle("via-down", x, y, 0.16 * size, fill=net_colour(net))


def via_spot(panel: Panel, v: Vertex, pins: set[Vertex]) -> tuple[float, float, float]:
    """Where a via's mark stands and its size: on the vertex, or smaller at the corner of a pin."""
    x, y = panel.at(v)
    if v not in pins:
        return x, y, panel.cell
    return x + 0.3 * panel.cell, y - 0.3 * panel.cell, 0.7 * panel.cell


def short_marks(trace: Trace, panel: Panel) -> Iterator[str]:
    """A cross on each short."""
    for v in shorts(trace):
        if v.layer == panel.layer:
            yield cross(*panel.at(v), panel.cell * 0.38)


def cross(x: float, y: float, half: float) -> str:
    """A cross around a point."""
    ends = [svg.number_text(n) for n in (x - half, y - half, x + half, y + half)]
    left, top, right, bottom = ends
    return svg.element("path", {"class": "short", "d": f"M{left} {top}L{right} {bottom}M{left} {bottom}L{right} {top}"})
