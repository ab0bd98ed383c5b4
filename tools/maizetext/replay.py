"""A plan walked by the rules: what each record did, and where the plan breaks, if it does."""

from dataclasses import dataclass, field
from typing import Optional

from maizetext.bits import BitReader
from maizetext.errors import Illegal
from maizetext.grid import MOVES, Vertex
from maizetext.job import Job
from maizetext.job_reading import read_vertex
from maizetext.plan import COST, COUNT, FLAG, MOVE, START_AND_COUNT
from maizetext.refusals import Refused
from maizetext.standing import Standing, metal_at_first
from maizetext.steps import Made, Place, step
from maizetext.views import Board, Metal

NOT_WHOLE = 15


@dataclass
class JoinTrace:
    """A join's start and the moves that were legal; `whole` once its cost was found right."""

    start: Vertex
    moves: list[Made] = field(default_factory=list)
    whole: bool = False

    def cost(self) -> int:
        """The cost of the moves."""
        return sum(made.cost() for made in self.moves)

    def added(self) -> int:
        """Steps that its extensions add."""
        return sum(len(made.over.laid) for made in self.moves)

    def penalised(self) -> int:
        """Segments that paid the area penalty."""
        return sum(made.over.penalised for made in self.moves)


@dataclass
class NetTrace:
    """A net's joins, the pins that are still open, and whether a record of none ended the net."""

    number: int
    open_pins: list[Vertex]
    joins: list[JoinTrace] = field(default_factory=list)
    ended_by_none: bool = False

    def total(self, of: str) -> int:
        """The sum of `cost`, `added` or `penalised` over its whole joins."""
        return sum(getattr(join, of)() for join in self.joins if join.whole)


@dataclass
class Trace:
    """All nets that the plan came to, the metal it leaves, and the refusal where it breaks."""

    nets: list[NetTrace]
    metal: Metal
    broken: Optional[Refused] = None

    def total(self, of: str) -> int:
        """The sum of `cost`, `added` or `penalised` over the plan."""
        return sum(net.total(of) for net in self.nets)

    def joined(self) -> int:
        """Nets fully joined."""
        return sum(not net.open_pins for net in self.nets)


def replay(job: Job, plan: bytes) -> Trace:
    """The plan record by record, then its tail; the trace ends where it breaks."""
    board = Board(job)
    trace = Trace([], metal_at_first(board))
    bits = BitReader(plan)
    try:
        for net in range(len(job.nets)):
            replay_net(bits, trace, Standing(board, net, trace.metal))
        place = bits.position
        if not bits.tail_is_fill():
            raise Refused(15, place, "bits that are not zero fill follow the last record")
    except Refused as refused:
        trace.broken = refused
    return trace


def replay_net(bits: BitReader, trace: Trace, standing: Standing) -> None:
    """A net's records until all its pins are joined or one says none."""
    net = NetTrace(standing.view.net + 1, standing.unjoined)
    trace.nets.append(net)
    while standing.unjoined:
        bits.group(FLAG, NOT_WHOLE)
        if bits.take(FLAG) == 0:
            net.ended_by_none = True
            return
        replay_join(bits, net, standing)


def replay_join(bits: BitReader, net: NetTrace, standing: Standing) -> None:
    """A join after its flag: 16, 17 and 18, each move judged before the next is read."""
    at = bits.group(START_AND_COUNT, NOT_WHOLE)
    start, count = read_vertex(bits), bits.take(COUNT)
    if start not in standing.tree:
        raise Refused(16, at, str(start))
    join = JoinTrace(start)
    net.joins.append(join)
    if count == 0:
        raise Refused(17, bits.position - COUNT, "the count of moves is 0")
    place = Place(start)
    for left in reversed(range(count)):
        made = replay_move(bits, standing, place, left == 0)
        join.moves.append(made)
        place = made.place
    at = bits.group(COST, NOT_WHOLE)
    recorded = bits.take(COST)
    if recorded != join.cost():
        raise Refused(18, at, f"{recorded} is recorded, the moves cost {join.cost()}")
    join.whole = True
    standing.join(join.moves)


def replay_move(bits: BitReader, standing: Standing, place: Place, last: bool) -> Made:
    """A move that must be legal, and enter an unjoined pin just where it is the last."""
    at = bits.group(MOVE, NOT_WHOLE)
    move = bits.take(MOVE)
    try:
        made = step(standing.view, place, move)
    except Illegal as illegal:
        raise Refused(17, at, f"move '{MOVES[move]}' from {place.vertex} is not legal: {illegal}") from None
    into = made.place.vertex
    if last and into not in standing.unjoined:
        raise Refused(17, at, f"the last move enters {into}, which is no unjoined pin of the net")
    if not last and into in standing.unjoined:
        raise Refused(17, at, f"move '{MOVES[move]}' enters the unjoined pin {into} before the last move")
    return made
