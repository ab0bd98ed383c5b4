"""A job to its bytes. What breaks a rule packs like the rest, where its numbers fit their fields."""

from typing import Iterator

from maizetext.bits import BitWriter
from maizetext.grid import Vertex
from maizetext.job import EDITION, Box, Job, Layer, Net

HEAD, LAYER, OBSTACLE, NET_HEAD, PIN, BOX = 80, 40, 27, 8, 19, 38
"""The groups' widths in bits."""


def pack_job(job: Job) -> bytes:
    """The bytes of a job."""
    bits = BitWriter()
    put_head(bits, job)
    for layer in job.layers:
        put_layer(bits, layer)
    for obstacle in job.obstacles:
        put_vertex(bits, obstacle.first)
        bits.put(obstacle.run - 1, 8)
    for net in job.nets:
        put_net(bits, net)
    return bits.to_bytes()


def put_head(bits: BitWriter, job: Job) -> None:
    """Edition, grid, penalties and counts."""
    bits.put(EDITION, 4)
    bits.put(job.grid.direction, 1)
    bits.put(job.grid.layers - 1, 3)
    bits.put(job.grid.columns - 1, 8)
    bits.put(job.grid.rows - 1, 8)
    bits.put(job.guide, 16)
    bits.put(job.short, 16)
    bits.put(len(job.nets), 8)
    bits.put(len(job.obstacles), 16)


def put_layer(bits: BitWriter, layer: Layer) -> None:
    """A layer line."""
    bits.put(layer.wire, 10)
    bits.put(layer.via, 10)
    bits.put(layer.min_length, 4)
    bits.put(layer.area, 16)


def put_vertex(bits: BitWriter, v: Vertex) -> None:
    """Layer, row and column."""
    bits.put(v.layer, 3)
    bits.put(v.row, 8)
    bits.put(v.column, 8)


def put_net(bits: BitWriter, net: Net) -> None:
    """A net's head, pins and boxes."""
    bits.put(len(net.pins) - 1, 4)
    bits.put(len(net.boxes), 4)
    for pin in net.pins:
        put_vertex(bits, pin)
    for box in net.boxes:
        put_box(bits, box)


def put_box(bits: BitWriter, box: Box) -> None:
    """Low and high of layer, row and column."""
    for low, high, width in zip(box.low, box.high, (3, 8, 8)):
        bits.put(low, width)
        bits.put(high, width)


def group_starts(job: Job) -> Iterator[int]:
    """The first bit of each group, in order: head, layer lines, obstacles, each net's head, pins and boxes."""
    at = 0
    for width in group_widths(job):
        yield at
        at += width


def group_widths(job: Job) -> Iterator[int]:
    """The width of each group, in order."""
    yield HEAD
    yield from (LAYER for _ in job.layers)
    yield from (OBSTACLE for _ in job.obstacles)
    for net in job.nets:
        yield NET_HEAD
        yield from (PIN for _ in net.pins)
        yield from (BOX for _ in net.boxes)
