"""Jobs, vertices and totals in words."""

from typing import Iterable

from maizetext.grid import Vertex
from maizetext.job import Job
from maizetext.replay import Trace


def job_line(job: Job) -> str:
    """What kind of job it is."""
    grid = job.grid
    return (
        f"job: {count(grid.layers, 'layer')}, {count(grid.rows, 'row')}, {count(grid.columns, 'column')}; "
        f"{count(len(job.nets), 'net')}, {count(len(job.obstacles), 'obstacle')}"
    )


def count(number: int, what: str) -> str:
    """A number of things."""
    return f"{number} {what}" + ("" if number == 1 else "s")


def vertices(vs: Iterable[Vertex]) -> str:
    """Vertices one after the other."""
    return " ".join(map(str, vs))


def totals_line(job: Job, trace: Trace) -> str:
    """The four totals, over the whole records."""
    return (
        f"totals: cost {trace.total('cost')}, added steps {trace.total('added')}, "
        f"penalised segments {trace.total('penalised')}, nets fully joined {trace.joined()} of {len(job.nets)}"
    )
