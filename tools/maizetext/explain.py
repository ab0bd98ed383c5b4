"""A plan in words: each net, each record, each move with its price in parts, and where the plan breaks."""

from typing import Iterator, Optional

from maizetext.grid import MOVES
from maizetext.job import Job
from maizetext.overheads import Overhead
from maizetext.replay import JoinTrace, NetTrace, Trace, replay
from maizetext.steps import Made
from maizetext.words import job_line, totals_line, vertices

HEADER = f"         move  {'enters':11}{'base':>6}{'guide':>7}{'short':>7}{'overhead':>10}{'so far':>10}"


def explain(job: Job, plan: bytes) -> tuple[str, bool]:
    """The text, and whether the plan is legal and rightly priced."""
    trace = replay(job, plan)
    return "".join(line + "\n" for line in lines(job, trace)), trace.broken is None


def lines(job: Job, trace: Trace) -> Iterator[str]:
    """The job, its nets as far as the plan goes, the totals and the verdict."""
    yield job_line(job)
    for net in trace.nets:
        yield from net_lines(job, net, trace.broken is not None and net is trace.nets[-1])
    yield totals_line(job, trace)
    if trace.broken:
        yield f"the plan breaks at bit {trace.broken.place}; replay gives: {trace.broken}"
    else:
        yield "the plan is legal and its recorded costs are right"


def net_lines(job: Job, net: NetTrace, broken: bool) -> Iterator[str]:
    """A net's pins, its records, and how it ended."""
    yield f"net {net.number}: pins {vertices(job.nets[net.number - 1].pins)}"
    for number, join in enumerate(net.joins, start=1):
        yield from join_lines(number, join)
    if net.ended_by_none:
        yield f"  no join: open {vertices(net.open_pins)}"
    elif not net.open_pins and not broken:
        yield f"  joined: cost {net.total('cost')}"


def join_lines(number: int, join: JoinTrace) -> Iterator[str]:
    """A join's start, its moves and its cost."""
    yield f"  join {number} from {join.start}"
    yield HEADER
    so_far = 0
    for index, made in enumerate(join.moves, start=1):
        so_far += made.cost()
        yield move_line(index, made, so_far)
    if join.whole:
        yield f"    cost {so_far}, as recorded"


def move_line(number: int, made: Made, so_far: int) -> str:
    """A move, the vertex entered, the price in its parts, the overhead and the running cost."""
    price, over = made.price, made.over.price or None
    numbers = f"{price.base:6}{dash(price.guide):>7}{dash(price.short):>7}{dash(over):>10}{so_far:10}"
    line = f"  {number:5}  {MOVES[made.move]:4}  {made.place.vertex!s:11}{numbers}"
    said = "; ".join(notes(made))
    return f"{line}  {said}" if said else line


def notes(made: Made) -> Iterator[str]:
    """What the numbers leave open: which penalty was read where two might be, and what the overhead is for."""
    if made.price.both:
        yield "outside and taken: short penalty alone"
    if made.over.laid:
        yield f"extension {ends(made.over)}"
    if made.over.penalised:
        yield "area penalty"


def ends(over: Overhead) -> str:
    """What an extension lays at each end; nothing is said of an end without."""
    laid = (("leaving", over.leaving), ("starting", over.starting))
    return ", ".join(f"{vertices(run)} at the {end} end" for end, run in laid if run)


def dash(price: Optional[int]) -> str:
    """A part of a price, 0 included; none is a dash."""
    return "-" if price is None else str(price)
