"""What a job alone draws on a layer: tracks, obstacles, guides and pins."""

from typing import Iterator

from maizetext import svg
from maizetext.colours import net_colour
from maizetext.grid import Vertex
from maizetext.job import Box, Job
from maizetext.panel import TOP, Panel


def title(job: Job, panel: Panel) -> str:
    """Which layer it is, the way its tracks run and its minimum length."""
    runs = "columns" if job.grid.changes_column(panel.layer) else "rows"
    said = f"layer {panel.layer}: along {runs}, M {job.layers[panel.layer].min_length}"
    return svg.text("title", panel.left, TOP - 14, said)


def tracks(panel: Panel) -> Iterator[str]:
    """A thin line for each track."""
    grid = panel.grid
    if grid.changes_column(panel.layer):
        for row in range(grid.rows):
            yield svg.line("track", panel.x(0), panel.y(row), panel.x(grid.columns - 1), panel.y(row))
    else:
        for column in range(grid.columns):
            yield svg.line("track", panel.x(column), panel.y(0), panel.x(column), panel.y(grid.rows - 1))


def numbers(panel: Panel) -> Iterator[str]:
    """Row and column numbers at the edges."""
    every = panel.label_every()
    for row in range(0, panel.grid.rows, every):
        yield svg.text("number", panel.left - 6, panel.y(row) + 3, str(row), text_anchor="end")
    for column in range(0, panel.grid.columns, every):
        yield svg.text("number", panel.x(column), TOP + panel.height + 11, str(column), text_anchor="middle")


def block(panel: Panel, kind: str, low: Vertex, high: Vertex, inset: float, **more: str) -> str:
    """The rectangle of all cells from one vertex to another, drawn in a little."""
    half = panel.cell / 2 - inset
    x, y = panel.x(low.column) - half, panel.y(high.row) - half
    return svg.rect(kind, x, y, panel.x(high.column) + half - x, panel.y(low.row) + half - y, **more)


def obstacles(job: Job, panel: Panel) -> Iterator[str]:
    """A block for each obstacle."""
    for obstacle in job.obstacles:
        if obstacle.first.layer == panel.layer:
            last = job.grid.along(obstacle.first, obstacle.run - 1)
            yield block(panel, "obstacle", obstacle.first, last, panel.cell / 10)


def guides(job: Job, panel: Panel) -> Iterator[str]:
    """A tinted frame for each box that reaches the layer."""
    for index, net in enumerate(job.nets):
        for box in net.boxes:
            if box.low.layer <= panel.layer <= box.high.layer:
                yield guide(panel, index, box)


def guide(panel: Panel, net: int, box: Box) -> str:
    """A box in its net's colour, drawn in by a width of its own, so that neighbours' frames stay visible."""
    colour = net_colour(net)
    return block(panel, "guide", box.low, box.high, 1 + net % 4 * panel.cell / 14, fill=colour, stroke=colour)


def pins(job: Job, panel: Panel, open_pins: set[Vertex]) -> Iterator[str]:
    """A square with the net's number for each pin, hollow where it is open."""
    for index, net in enumerate(job.nets):
        for pin in net.pins:
            if pin.layer == panel.layer:
                yield from pin_mark(panel, pin, index, pin in open_pins)


def pin_mark(panel: Panel, pin: Vertex, net: int, is_open: bool) -> Iterator[str]:
    """A pin's square, and its net's number where there is room."""
    x, y = panel.at(pin)
    half = panel.cell * 0.3
    colour = net_colour(net)
    kind, fill, ink = ("pin open", "#ffffff", colour) if is_open else ("pin", colour, "#ffffff")
    yield svg.rect(kind, x - half, y - half, 2 * half, 2 * half, fill=fill, stroke=colour)
    if panel.cell >= 16:
        size = panel.cell * (0.42 if net < 99 else 0.3)
        yield svg.text("pin-net", x, y + size * 0.36, str(net + 1), fill=ink, font_size=size)
