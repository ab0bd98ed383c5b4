"""A job as data. Nothing is judged here."""

from dataclasses import dataclass

from maizetext.grid import Grid, Vertex

EDITION = 1
"""The edition that the specification describes."""

CLOSED = 65_535
"""The closed price, which forbids what it prices."""

MOST_BYTES = 262_144
MOST_VERTICES = 16_384
MOST_NETS = 255
MOST_OBSTACLES = 65_535
MOST_PINS = 16
MOST_BOXES = 15


@dataclass(frozen=True)
class Layer:
    """The prices of a layer, and the minimum length M of its segments in steps."""

    wire: int
    via: int
    min_length: int
    area: int


@dataclass(frozen=True)
class Obstacle:
    """Runs high along its track from its first vertex."""

    first: Vertex
    run: int


@dataclass(frozen=True)
class Box:
    """A box of a guide; both ends are inside."""

    low: Vertex
    high: Vertex

    def holds(self, v: Vertex) -> bool:
        """Whether the vertex is in the box."""
        return all(low <= x <= high for low, x, high in zip(self.low, v, self.high))


@dataclass(frozen=True)
class Net:
    """Pins to join, and the boxes of the guide; none is the whole grid."""

    pins: tuple[Vertex, ...]
    boxes: tuple[Box, ...] = ()


@dataclass(frozen=True)
class Job:
    """All that a job says."""

    grid: Grid
    guide: int
    short: int
    layers: tuple[Layer, ...]
    obstacles: tuple[Obstacle, ...] = ()
    nets: tuple[Net, ...] = ()

    def covered(self) -> set[Vertex]:
        """The vertices that obstacles cover."""
        return {v for o in self.obstacles for v in self.grid.run(o.first, o.run)}
