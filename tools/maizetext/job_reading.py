"""A job's bytes to the job, or the refusal of the first broken rule in reading order."""

from dataclasses import dataclass, replace

from maizetext.bits import BitReader
from maizetext.grid import Grid, Vertex
from maizetext.job import EDITION, MOST_BYTES, MOST_VERTICES, Box, Job, Layer, Net, Obstacle
from maizetext.job_packing import BOX, HEAD, LAYER, NET_HEAD, OBSTACLE, PIN
from maizetext.refusals import Refused

NOT_WHOLE = 2


@dataclass(frozen=True)
class Head:
    """The grid, two penalties and two counts."""

    grid: Grid
    guide: int
    short: int
    nets: int
    obstacles: int


def read_job(data: bytes) -> Job:
    """A good job, or `Refused` by 1 to 11."""
    if len(data) > MOST_BYTES:
        raise Refused(1, 0, f"it has {len(data)}")
    bits = BitReader(data)
    head = read_head(bits)
    grid = head.grid
    layers = tuple(read_layer(bits, layer + 1 == grid.layers) for layer in range(grid.layers))
    obstacles = tuple(read_obstacle(bits, grid) for _ in range(head.obstacles))
    job = Job(grid, head.guide, head.short, layers, obstacles)
    job = replace(job, nets=read_nets(bits, job, head.nets))
    place = bits.position
    if not bits.tail_is_fill():
        raise Refused(11, place)
    return job


def read_head(bits: BitReader) -> Head:
    """2, 3 and 4."""
    bits.group(HEAD, NOT_WHOLE)
    edition = bits.take(4)
    direction, layers = bits.take(1), bits.take(3) + 1
    columns, rows = bits.take(8) + 1, bits.take(8) + 1
    grid = Grid(direction, layers, rows, columns)
    if edition != EDITION:
        raise Refused(3, 0, f"it is {edition}")
    if grid.vertices() > MOST_VERTICES:
        raise Refused(4, 8, f"{layers} layers of {rows} rows and {columns} columns have {grid.vertices()}")
    return Head(grid, bits.take(16), bits.take(16), bits.take(8), bits.take(16))


def read_layer(bits: BitReader, top: bool) -> Layer:
    """2 and 5, field by field."""
    at = bits.group(LAYER, NOT_WHOLE)
    layer = Layer(bits.take(10), bits.take(10), bits.take(4), bits.take(16))
    if layer.wire == 0:
        raise Refused(5, at, "the wire price is 0, it must be from 1 to 1023")
    if top and layer.via != 0:
        raise Refused(5, at + 10, f"the via price of the top layer is {layer.via}, it must be 0")
    if not top and layer.via == 0:
        raise Refused(5, at + 10, "the via price is 0, below the top layer it must be from 1 to 1023")
    if layer.min_length == 0:
        raise Refused(5, at + 20, "the minimum length is 0, it must be from 1 to 15")
    return layer


def read_vertex(bits: BitReader) -> Vertex:
    """Layer, row and column."""
    return Vertex(bits.take(3), bits.take(8), bits.take(8))


def read_obstacle(bits: BitReader, grid: Grid) -> Obstacle:
    """2 and 6."""
    at = bits.group(OBSTACLE, NOT_WHOLE)
    obstacle = Obstacle(read_vertex(bits), bits.take(8) + 1)
    last = grid.along(obstacle.first, obstacle.run - 1)
    if not (grid.holds(obstacle.first) and grid.holds(last)):
        raise Refused(6, at, f"it runs from {obstacle.first} to {last}")
    return obstacle


def read_nets(bits: BitReader, job: Job, count: int) -> tuple[Net, ...]:
    """The nets of a job whose obstacles are read."""
    covered = job.covered()
    earlier: set[Vertex] = set()
    return tuple(read_net(bits, job.grid, covered, earlier) for _ in range(count))


def read_net(bits: BitReader, grid: Grid, covered: set[Vertex], earlier: set[Vertex]) -> Net:
    """2, then pins and boxes. Its pins are added to the earlier ones."""
    bits.group(NET_HEAD, NOT_WHOLE)
    pins, boxes = bits.take(4) + 1, bits.take(4)
    return Net(
        tuple(read_pin(bits, grid, covered, earlier) for _ in range(pins)),
        tuple(read_box(bits, grid) for _ in range(boxes)),
    )


def read_pin(bits: BitReader, grid: Grid, covered: set[Vertex], earlier: set[Vertex]) -> Vertex:
    """2, 8 and 9."""
    at = bits.group(PIN, NOT_WHOLE)
    pin = read_vertex(bits)
    if not grid.holds(pin):
        raise Refused(8, at, f"{pin} is outside")
    if pin in covered:
        raise Refused(8, at, f"{pin} is on an obstacle")
    if pin in earlier:
        raise Refused(9, at, str(pin))
    earlier.add(pin)
    return pin


def read_box(bits: BitReader, grid: Grid) -> Box:
    """2 and 10."""
    at = bits.group(BOX, NOT_WHOLE)
    spans = [(bits.take(width), bits.take(width)) for width in (3, 8, 8)]
    box = Box(Vertex(*(low for low, _ in spans)), Vertex(*(high for _, high in spans)))
    for name, (low, high), size in zip(Vertex._fields, spans, (grid.layers, grid.rows, grid.columns)):
        if low > high or high >= size:
            raise Refused(10, at, f"{name}s {low}..{high} of {size}")
    return box
