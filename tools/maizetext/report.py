"""The wire report in tables: each plan with its counts, prices and costs, and the sum over those that are legal."""

from typing import Iterable, Iterator, NamedTuple, Optional

from maizetext.counts import KINDS, Table, added_up, by_kind, costs_of, counts_of, prices_of
from maizetext.job import Job
from maizetext.replay import Trace, replay
from maizetext.text_writing import price_text
from maizetext.words import count, job_line, totals_line


class Sum(NamedTuple):
    """Counts, what they cost, and the cost that they must make."""

    counts: Table
    costs: Table
    cost: int

    def made(self) -> int:
        """Counts times prices."""
        return sum(by_kind(self.costs))

    def right(self) -> bool:
        """Whether that is the cost."""
        return self.made() == self.cost


class Block(NamedTuple):
    """A job with its plan, under a name; the sum is none where the plan breaks."""

    name: str
    job: Job
    trace: Trace
    sum: Optional[Sum]


def block_of(name: str, job: Job, plan: bytes) -> Block:
    """The plan walked and, where it is legal, summed up."""
    trace = replay(job, plan)
    return Block(name, job, trace, None if trace.broken else sum_of(job, trace))


def sum_of(job: Job, trace: Trace) -> Sum:
    """What a legal plan comes to."""
    counts = counts_of(job, trace)
    return Sum(counts, costs_of(counts, prices_of(job)), trace.total("cost"))


def sum_over(sums: list[Sum]) -> Sum:
    """What plans come to together."""
    counts, costs, cost = zip(*sums)
    return Sum(added_up(counts), added_up(costs), sum(cost))


def report(blocks: list[Block]) -> tuple[str, bool]:
    """The text, and whether each plan is legal and its counts times its job's prices make its cost."""
    sections = [block_lines(block) for block in blocks]
    if len(blocks) > 1:
        sections.append(all_lines(blocks))
    text = "\n".join("".join(line + "\n" for line in section) for section in sections)
    return text, all(block.sum is not None and block.sum.right() for block in blocks)


def block_lines(block: Block) -> Iterator[str]:
    """One plan: its job, its totals, its table and whether that makes its cost; or where it breaks."""
    yield block.name
    yield job_line(block.job)
    broken = block.trace.broken
    if block.sum is None:
        yield f"the plan breaks at bit {broken.place} and adds nothing; replay gives: {broken}"
    else:
        yield totals_line(block.job, block.trace)
        yield from table(block.sum, prices_of(block.job))
        yield verdict(block.sum)


def all_lines(blocks: list[Block]) -> Iterator[str]:
    """All plans that are legal. Their jobs may have other prices, so there are costs alone."""
    sums = [block.sum for block in blocks if block.sum is not None]
    yield f"sum over {len(sums)} of {count(len(blocks), 'plan')}"
    if sums:
        yield from table(sum_over(sums))
        yield verdict(sum_over(sums))


def table(of: Sum, prices: Optional[Table] = None) -> Iterator[str]:
    """For each layer counts, prices if there are any, and costs; then all layers together."""
    yield row("layer", "", (*KINDS, "all"))
    for layer, counts in enumerate(of.counts):
        yield row(str(layer), "count", counts)
        if prices is not None:
            yield row("", "price", map(price_text, prices[layer]))
        yield cost_row(of.costs[layer])
    yield row("all", "count", by_kind(of.counts))
    yield cost_row(by_kind(of.costs))


def cost_row(costs: list[int]) -> str:
    """The costs of each kind, and of all."""
    return row("", "cost", (*costs, sum(costs)))


def row(layer: str, what: str, columns: Iterable[object]) -> str:
    """A line of a table."""
    return f"{layer:5}  {what:5}" + "".join(f" {column:>11}" for column in columns)


def verdict(of: Sum) -> str:
    """Whether the table makes the cost."""
    but = "which is the cost" if of.right() else f"but the cost is {of.cost}"
    return f"counts times prices make {of.made()}, {but}"
