"""Random good jobs of all shapes, the same for the same seed. Ends of ranges come up often."""

from random import Random

import support  # noqa: F401
from maizetext.grid import Grid, Vertex
from maizetext.job import CLOSED, MOST_VERTICES, Box, Job, Layer, Net, Obstacle


def edgy(random: Random, low: int, high: int) -> int:
    """A number of the range, often one of its ends."""
    return random.choice((low, high, random.randint(low, high), random.randint(low, high)))


def good_job(random: Random) -> Job:
    """A good job."""
    grid = some_grid(random)
    layers = tuple(some_layer(random, layer + 1 == grid.layers) for layer in range(grid.layers))
    obstacles = tuple(some_obstacle(random, grid) for _ in range(random.choice((0, 1, 3, 12))))
    job = Job(grid, edgy(random, 0, CLOSED), edgy(random, 0, CLOSED), layers, obstacles)
    return Job(grid, job.guide, job.short, layers, obstacles, some_nets(random, job))


def some_grid(random: Random) -> Grid:
    """Small as a rule, sometimes with as many vertices as there may be."""
    layers = edgy(random, 1, 8)
    most = 256 if random.randrange(20) == 0 else 9
    rows = edgy(random, 1, min(most, MOST_VERTICES // layers))
    columns = edgy(random, 1, min(most, MOST_VERTICES // (layers * rows)))
    return Grid(random.randint(0, 1), layers, rows, columns)


def some_layer(random: Random, top: bool) -> Layer:
    """A layer line; the top layer has no via above."""
    via = 0 if top else edgy(random, 1, 1023)
    return Layer(edgy(random, 1, 1023), via, edgy(random, 1, 15), edgy(random, 0, CLOSED))


def some_vertex(random: Random, grid: Grid) -> Vertex:
    """A vertex of the grid."""
    return Vertex(edgy(random, 0, grid.layers - 1), edgy(random, 0, grid.rows - 1), edgy(random, 0, grid.columns - 1))


def some_obstacle(random: Random, grid: Grid) -> Obstacle:
    """An obstacle inside the grid."""
    first = some_vertex(random, grid)
    left = grid.columns - first.column if grid.changes_column(first.layer) else grid.rows - first.row
    return Obstacle(first, edgy(random, 1, min(left, 256)))


def some_nets(random: Random, job: Job) -> tuple[Net, ...]:
    """Nets whose pins are apart and on no obstacle, as far as the grid has room."""
    grid, covered = job.grid, job.covered()
    vertices = {some_vertex(random, grid) for _ in range(random.choice((0, 8, 60)))} - covered
    free = random.sample(sorted(vertices), len(vertices))
    nets = []
    while free:
        count = edgy(random, 1, min(16, len(free)))
        pins, free = free[:count], free[count:]
        nets.append(Net(tuple(pins), tuple(some_box(random, grid) for _ in range(random.choice((0, 0, 1, 2, 15))))))
    return tuple(nets)


def some_box(random: Random, grid: Grid) -> Box:
    """A box inside the grid."""
    low = some_vertex(random, grid)
    sizes = (grid.layers, grid.rows, grid.columns)
    return Box(low, Vertex(*(edgy(random, least, size - 1) for least, size in zip(low, sizes))))
