"""What stands below the layers: each net with its colour, and what the marks mean."""

from typing import Callable, Iterator, Optional

from maizetext import svg
from maizetext.colours import net_colour
from maizetext.job import Job
from maizetext.replay import NetTrace, Trace
from maizetext.wiring import cross

ROW, WIDTH = 20, 190
"""Height of an entry, and width of a column of entries."""

GREY = "#444444"

Mark = Callable[[float, float], str]

MARKS: list[tuple[str, Mark]] = [
    ("track", lambda x, y: svg.line("track", x, y, x + 22, y)),
    ("obstacle", lambda x, y: svg.rect("obstacle", x + 2, y - 6, 18, 12)),
    ("guide box", lambda x, y: svg.rect("guide", x + 2, y - 6, 18, 12, fill=GREY, stroke=GREY)),
    ("pin", lambda x, y: svg.rect("pin", x + 5, y - 6, 12, 12, fill=GREY, stroke=GREY)),
    ("open pin", lambda x, y: svg.rect("pin", x + 5, y - 6, 12, 12, fill="#ffffff", stroke=GREY)),
    ("wire", lambda x, y: svg.line("wire", x + 3, y, x + 19, y, stroke=GREY)),
    ("extension", lambda x, y: svg.line("extension", x + 3, y, x + 19, y, stroke=GREY)),
    ("via to the layer above", lambda x, y: svg.circle("via-up", x + 11, y, 6, stroke=GREY)),
    ("via to the layer below", lambda x, y: svg.circle("via-down", x + 11, y, 4, fill=GREY)),
    ("short: metal of several nets", lambda x, y: cross(x + 11, y, 6)),
]


def net_said(number: int, net: Optional[NetTrace]) -> str:
    """A net's number, and what the plan made of it."""
    if net is None:
        return f"net {number}"
    if net.open_pins:
        return f"net {number}: {len(net.open_pins)} open, cost {net.total('cost')}"
    return f"net {number}: cost {net.total('cost')}"


def columns(width: float) -> int:
    """How many columns of entries the picture has room for."""
    return max(1, int(width // WIDTH))


def rows(count: int, width: float) -> int:
    """How many rows so many entries need."""
    return -(-count // columns(width))


def entries(job: Job, trace: Optional[Trace]) -> list[tuple[str, Mark]]:
    """Nets, then marks; those of a plan only where there is one."""
    nets = [(net_said(n + 1, trace.nets[n] if trace else None), swatch(n)) for n in range(len(job.nets))]
    return nets + (MARKS if trace else MARKS[:4])


def swatch(net: int) -> Mark:
    """A net's colour."""
    colour = net_colour(net)
    return lambda x, y: svg.rect("swatch", x + 2, y - 5, 18, 10, fill=colour)


def legend(job: Job, trace: Optional[Trace], top: float, left: float, width: float) -> Iterator[str]:
    """All entries, row by row."""
    across = columns(width)
    for index, (said, mark) in enumerate(entries(job, trace)):
        x, y = left + index % across * WIDTH, top + index // across * ROW
        yield mark(x, y)
        yield svg.text("said", x + 28, y + 4, said)


def legend_height(job: Job, trace: Optional[Trace], width: float) -> int:
    """The height of all rows."""
    return rows(len(entries(job, trace)), width) * ROW
