"""Jobs of one track: layer 1 of three layers of one column, along which all metal is laid. M is 4."""

import support  # noqa: F401
from maizetext.grid import HIGH, UP, Grid, Vertex
from maizetext.job import CLOSED, Job, Layer, Net, Obstacle
from maizetext.plan import Join

ROWS, WIRE, VIA, AREA, SHORT = 9, 5, 2, 50, 20

ONE_STEP_UP = Join(Vertex(0, 3, 0), (UP, HIGH, UP), VIA + WIRE + VIA + 3 * WIRE)
"""Net 1's join where there is room: one step on the track, so that 3 are missing."""


def on_track(*rows: int) -> tuple[Vertex, ...]:
    """Vertices of the track."""
    return tuple(Vertex(1, row, 0) for row in rows)


def track(obstacles: tuple[int, ...] = (), pins: tuple[int, ...] = (), closed: bool = False) -> Job:
    """Net 1 from below row 3 to above row 4, with obstacles and pins of net 2 in these rows of the track."""
    nets = [(Vertex(0, 3, 0), Vertex(2, 4, 0))]
    if pins:
        nets.append((Vertex(0, 0, 0), *on_track(*pins)))
    return track_of(nets, obstacles, closed)


def track_of(nets: list[tuple[Vertex, ...]], obstacles: tuple[int, ...], closed: bool = False) -> Job:
    """Nets by their pins, with obstacles in these rows of the track."""
    layers = tuple(Layer(WIRE, via, 4, CLOSED if closed else AREA) for via in (VIA, VIA, 0))
    blocked = tuple(Obstacle(v, 1) for v in on_track(*obstacles))
    return Job(Grid(0, 3, ROWS, 1), 10, SHORT, layers, blocked, tuple(Net(pins, ()) for pins in nets))
