"""A job to its text form. The form is canonical: reading it and writing it again gives the same text."""

from typing import Iterator

from maizetext.grid import Vertex
from maizetext.job import CLOSED, EDITION, Box, Job, Layer, Net


def write_text(job: Job) -> str:
    """The text form of a good job."""
    return "".join(line + "\n" for line in text_lines(job))


def text_lines(job: Job) -> Iterator[str]:
    """Its lines, in the order of the bytes."""
    grid = job.grid
    direction = "column" if grid.direction == 0 else "row"
    yield f"edition {EDITION}"
    yield f"grid layers {grid.layers} rows {grid.rows} columns {grid.columns} direction {direction}"
    yield f"guide {price_text(job.guide)}"
    yield f"short {price_text(job.short)}"
    yield from (layer_line(layer) for layer in job.layers)
    yield from (f"obstacle {vertex_words(o.first)} run {o.run}" for o in job.obstacles)
    for number, net in enumerate(job.nets, start=1):
        yield from net_lines(number, net)


def price_text(price: int) -> str:
    """A penalty's price."""
    return "closed" if price == CLOSED else str(price)


def layer_line(layer: Layer) -> str:
    """A layer line."""
    return f"layer wire {layer.wire} via {layer.via} min {layer.min_length} area {price_text(layer.area)}"


def vertex_words(v: Vertex) -> str:
    """Layer, row and column."""
    return f"{v.layer} {v.row} {v.column}"


def net_lines(number: int, net: Net) -> Iterator[str]:
    """A net with its number as a comment, its pins and its boxes."""
    yield f"net # {number}"
    yield from (f"  pin {vertex_words(pin)}" for pin in net.pins)
    yield from (f"  {box_line(box)}" for box in net.boxes)


def box_line(box: Box) -> str:
    """A box by its spans of layers, rows and columns."""
    spans = (f"{name}s {low}..{high}" for name, low, high in zip(Vertex._fields, box.low, box.high))
    return "box " + " ".join(spans)
