"""What a plan is made of: its moves counted layer by layer and kind by kind, and what these cost."""

from itertools import zip_longest
from typing import Iterable

from maizetext.job import Job
from maizetext.replay import Trace
from maizetext.steps import Made

STEPS, VIAS, ADDED, PENALISED, GUIDE, SHORT = range(6)
KINDS = ("wire steps", "vias", "added steps", "penalised", "guide", "short")

Table = list[list[int]]
"""For each layer a number of each kind."""


def counts_of(job: Job, trace: Trace) -> Table:
    """The counts of a plan that does not break."""
    counts = [[0] * len(KINDS) for _ in job.layers]
    for net in trace.nets:
        for join in net.joins:
            for made in join.moves:
                count_move(counts, made)
    return counts


def count_move(counts: Table, made: Made) -> None:
    """A via counts at its lower layer, what it owes at the layer left, and an entry at the layer entered."""
    left, entered = made.start.layer, made.place.vertex.layer
    if left == entered:
        counts[entered][STEPS] += 1
    else:
        counts[min(left, entered)][VIAS] += 1
    counts[left][ADDED] += len(made.over.laid)
    counts[left][PENALISED] += made.over.penalised
    counts[entered][GUIDE] += made.price.guide is not None
    counts[entered][SHORT] += made.price.short is not None


def prices_of(job: Job) -> Table:
    """What one of each kind costs."""
    return [[line.wire, line.via, line.wire, line.area, job.guide, job.short] for line in job.layers]


def costs_of(counts: Table, prices: Table) -> Table:
    """Counts times prices. What is closed is never paid, so its count is 0."""
    return [[count * price for count, price in zip(*lines)] for lines in zip(counts, prices)]


def by_kind(table: Table) -> list[int]:
    """The sum over all layers, for each kind."""
    return [sum(column) for column in zip(*table)]


def added_up(tables: Iterable[Table]) -> Table:
    """Number by number, with as many layers as the highest has."""
    none = [0] * len(KINDS)
    return [by_kind(list(lines)) for lines in zip_longest(*tables, fillvalue=none)]
