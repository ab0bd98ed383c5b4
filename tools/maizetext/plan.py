"""A plan's records as data, and their bytes."""

from typing import Iterable, NamedTuple, Optional

from maizetext.bits import BitWriter
from maizetext.grid import Vertex
from maizetext.job_packing import put_vertex

FLAG, START_AND_COUNT, COUNT, MOVE, COST = 1, 39, 20, 2, 40
"""Widths of a record's groups in bits; the count is the last part of start with count."""


class Join(NamedTuple):
    """A join's start, moves and recorded cost."""

    start: Vertex
    moves: tuple[int, ...]
    cost: int


def pack_plan(records: Iterable[Optional[Join]]) -> bytes:
    """The plan of these records; none stands for no join."""
    bits = BitWriter()
    for join in records:
        bits.put(0 if join is None else 1, FLAG)
        if join is None:
            continue
        put_vertex(bits, join.start)
        bits.put(len(join.moves), COUNT)
        for move in join.moves:
            bits.put(move, MOVE)
        bits.put(join.cost, COST)
    return bits.to_bytes()
