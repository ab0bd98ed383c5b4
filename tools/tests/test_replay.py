"""Plans walked: against what a second replay answers, and plans damaged one by one."""

import unittest
from dataclasses import replace

import support
from maizetext.grid import DOWN, HIGH, LOW, UP, Vertex
from maizetext.job import CLOSED, Box, Job
from maizetext.job_reading import read_job
from maizetext.plan import Join, pack_plan
from maizetext.refusals import Refused
from maizetext.replay import replay
from maizetext.steps import Made
from marked import LETTERS, RECORDS, job_bytes, plain, plan_bytes

COSTS = {"A": 3, "B": 10, "C": 58, "D": 0, "E": 7, "F": 54, "G": 0, "H": 7, "I": 10, "J": 13, "K": 76, "L": 2, "N": 86}


def answer(job: bytes, plan: bytes) -> tuple[int, ...]:
    """What replay answers: refusal, place and totals."""
    try:
        trace = replay(read_job(job), plan)
    except Refused as refused:
        return refused.number, refused.place, 0, 0, 0, 0
    if trace.broken:
        return trace.broken.number, trace.broken.place, 0, 0, 0, 0
    return 0, 0, trace.total("cost"), trace.total("added"), trace.total("penalised"), trace.joined()


def pairs() -> list[list[str]]:
    """Jobs, plans and what the second replay answers."""
    lines = (support.TOOLS / "tests" / "replays.txt").read_text().splitlines()
    return [line.split("|") for line in lines if not line.startswith("#")]


def moves_of(job: Job, plan: bytes) -> list[Made]:
    """All moves of a plan."""
    return [made for net in replay(job, plan).nets for join in net.joins for made in join.moves]


def ends_met(job: bytes, plan: bytes) -> set[tuple[bool, bool]]:
    """For each extension of a plan, whether something is laid at its leaving and at its starting end."""
    moves = moves_of(read_job(job), plan)
    return {(bool(made.over.leaving), bool(made.over.starting)) for made in moves if made.over.laid}


class SecondReplay(unittest.TestCase):
    def test_answers_agree(self):
        met = set()
        for job, plan, expected in pairs():
            numbers = tuple(map(int, expected.split()))
            met.add(numbers[0])
            with self.subTest(job=job, plan=plan):
                self.assertEqual(answer(bytes.fromhex(job), bytes.fromhex(plan)), numbers)
        self.assertEqual(met, {0, 2, 3, 4, 5, 6, *range(8, 12), *range(15, 19)})

    def test_they_lay_at_either_end_and_at_both(self):
        good = [pair for pair in pairs() if pair[2].startswith("0 ")]
        met = set().union(*(ends_met(bytes.fromhex(job), bytes.fromhex(plan)) for job, plan, _ in good))
        self.assertEqual(met, {(True, False), (False, True), (True, True)})

    def test_they_have_nets_of_one_pin(self):
        good = [(read_job(bytes.fromhex(job)), answer) for job, _, answer in pairs() if answer.startswith("0 ")]
        alone = [(len(job.nets), answer) for job, answer in good if job.nets and all(len(net.pins) == 1 for net in job.nets)]
        mixed = [job for job, _ in good if {len(net.pins) == 1 for net in job.nets} == {True, False}]
        self.assertGreaterEqual(len(mixed), 10)
        self.assertGreaterEqual(len(alone), 3)
        for nets, answer in alone:
            self.assertEqual(answer, f"0 0 0 0 0 {nets}")

    def test_they_enter_vertices_outside_the_guide_and_taken(self):
        good = [pair for pair in pairs() if pair[2].startswith("0 ")]
        plans = [(read_job(bytes.fromhex(job)), bytes.fromhex(plan)) for job, plan, _ in good]
        both = [job for job, plan in plans if any(made.price.both for made in moves_of(job, plan))]
        self.assertGreaterEqual(len(both), 10)
        self.assertTrue(any(job.guide < job.short for job in both) and any(job.guide > job.short for job in both))
        self.assertTrue(any(job.guide == 0 for job in both) and any(job.short == 0 for job in both))


class OnePin(unittest.TestCase):
    """A net of one pin has no record and is joined; its pin is in the way of others."""

    def test_alone(self):
        job = plain((Vertex(0, 0, 1),), (Vertex(1, 3, 7),))
        trace = replay(job, b"")
        self.assertEqual((trace.broken, trace.joined(), trace.total("cost")), (None, 2, 0))
        self.assertEqual([(net.joins, net.open_pins, net.ended_by_none) for net in trace.nets], [([], [], False)] * 2)
        broken = replay(job, b"\x00").broken
        self.assertEqual((broken.number, broken.place), (15, 0))

    def test_before_and_after_another_net(self):
        wire, spare = (Vertex(0, 0, 0), Vertex(0, 0, 3)), (Vertex(0, 0, 1),)
        plan = pack_plan([Join(Vertex(0, 0, 0), (HIGH,) * 3, 3)])
        for nets, number in (((wire, spare), 2), ((spare, wire), 1)):
            trace = replay(plain(*nets), plan)
            self.assertEqual((trace.broken.number, trace.broken.place), (17, 40))
            self.assertIn(f"(0,0,1) is a pin of net {number}", str(trace.broken))
            self.assertIsNone(replay(plain(*nets), b"\x00").broken)


class MarkedPlans(unittest.TestCase):
    def test_costs_are_those_by_hand(self):
        for letter in LETTERS:
            with self.subTest(letter):
                number, place, cost, *_ = answer(job_bytes(letter), plan_bytes(letter))
                self.assertEqual((number, place, cost), (0, 0, COSTS[letter]))

    def test_the_plan_of_a_is_as_documented(self):
        self.assertEqual(plan_bytes("A").hex(" ").upper(), "80 00 00 00 03 54 00 00 00 00 0C")

    def test_join_by_join(self):
        for letter, costs in (("I", [3, 7]), ("K", [2, 74]), ("L", [2]), ("N", [2, 84])):
            trace = replay(read_job(job_bytes(letter)), plan_bytes(letter))
            self.assertEqual([join.cost() for net in trace.nets for join in net.joins], costs)

    def test_extensions_and_penalties(self):
        self.assertEqual(answer(job_bytes("B"), plan_bytes("B"))[3:], (2, 0, 1))
        self.assertEqual(answer(job_bytes("C"), plan_bytes("C"))[3:], (0, 1, 1))
        self.assertEqual(answer(job_bytes("H"), plan_bytes("H"))[3:], (2, 0, 1))

    def test_the_last_segment_pays_none(self):
        trace = replay(read_job(job_bytes("B")), plan_bytes("B"))
        self.assertEqual(trace.nets[0].joins[0].moves[-1].over.laid, (Vertex(1, 2, 3), Vertex(1, 3, 3)))


class OutsideAndTaken(unittest.TestCase):
    """N's second net enters (1,1,0), which its first net took and which no box of the second holds."""

    def test_only_the_short_penalty_is_added(self):
        short, last = (made.price for made in moves_of(read_job(job_bytes("N")), plan_bytes("N"))[-2:])
        self.assertEqual((short.both, short.guide, short.short, short.total()), (True, None, 20, 22))
        self.assertEqual((last.both, last.guide, last.short, last.total()), (False, 10, None, 12))

    def test_a_short_costs_the_same_in_the_guide_and_outside(self):
        job = read_job(job_bytes("N"))
        first, second = job.nets
        for guide in (0, 10, 65_534):
            for top in (0, 1):
                boxed = replace(second, boxes=(Box(Vertex(0, 0, 0), Vertex(top, 3, 0)),))
                moves = moves_of(replace(job, guide=guide, nets=(first, boxed)), plan_bytes("N"))
                self.assertEqual([made.cost() for made in moves], [1, 1, 2 + 20, 2 + 50 + guide])

    def test_either_penalty_closed_forbids(self):
        for closed, part in (
            ({"guide": CLOSED}, "(1,1,0) lies outside the guide, whose penalty is closed"),
            ({"short": CLOSED}, "(1,1,0) is taken, and the short penalty is closed"),
            ({"guide": CLOSED, "short": CLOSED}, "(1,1,0) lies outside the guide, whose penalty is closed"),
        ):
            broken = replay(replace(read_job(job_bytes("N")), **closed), plan_bytes("N")).broken
            self.assertEqual((broken.number, broken.place), (17, 124))
            self.assertIn(part, str(broken))

    def test_another_sum_is_a_wrong_cost(self):
        first, second = RECORDS["N"]
        for cost in (74, 94):
            broken = replay(read_job(job_bytes("N")), pack_plan([first, second._replace(cost=cost)])).broken
            self.assertEqual((broken.number, broken.place), (18, 128))
            self.assertIn(f"{cost} is recorded, the moves cost 84", str(broken))


class DamagedPlans(unittest.TestCase):
    def broken(self, letter: str, plan: bytes, number: int, place: int, part: str = "") -> None:
        broken = replay(read_job(job_bytes(letter)), plan).broken
        self.assertIsNotNone(broken)
        self.assertEqual((broken.number, broken.place), (number, place))
        self.assertIn(part, str(broken))

    def join(self, letter: str, moves: tuple[int, ...], number: int, place: int, part: str) -> None:
        self.broken(letter, pack_plan([Join(Vertex(0, 0, 0), moves, 3)]), number, place, part)

    def test_cut_plans(self):
        plan = plan_bytes("A")
        self.broken("A", b"", 15, 0)
        self.broken("A", plan[:4], 15, 1)
        self.broken("A", plan[:5], 15, 40)
        self.broken("A", plan[:9], 15, 46)

    def test_every_cut_of_a_plan(self):
        plan = pack_plan([None, Join(Vertex(0, 1, 0), (UP, UP), 54)])
        self.assertIsNone(replay(read_job(job_bytes("K")), plan).broken)
        starts = [0] + [2] * 5 + [45] * 5
        self.assertEqual(len(starts), len(plan))
        for length, start in enumerate(starts):
            self.broken("K", plan[:length], 15, start)

    def test_tails(self):
        plan = plan_bytes("A")
        self.broken("A", plan + b"\x00", 15, 86)
        self.broken("A", plan[:-1] + bytes([plan[-1] | 1]), 15, 86)

    def test_starts(self):
        self.broken("A", pack_plan([Join(Vertex(0, 0, 1), (HIGH, HIGH), 2)]), 16, 1, "(0,0,1)")
        self.broken("A", pack_plan([Join(Vertex(7, 0, 0), (HIGH,), 2)]), 16, 1)

    def test_moves(self):
        self.join("A", (), 17, 20, "the count of moves is 0")
        self.join("A", (LOW,), 17, 40, "'low' from (0,0,0) is not legal: low from (0,0,0) leaves the grid")
        self.join("A", (DOWN,), 17, 40, "leaves the grid")
        self.join("A", (HIGH, LOW), 17, 42, "the step goes back: the segment runs high")
        self.join("A", (HIGH, HIGH), 17, 42, "the last move enters (0,0,2), which is no unjoined pin")
        self.join("A", (HIGH, HIGH, HIGH, HIGH), 17, 44, "enters the unjoined pin (0,0,3) before the last move")
        self.join("G", (UP, UP), 17, 42, "lacks 3 of 3 steps, its two ends have room for 2, and the area penalty is closed")

    def test_closed_shorts_and_other_pins(self):
        first = Join(Vertex(1, 0, 0), (HIGH, HIGH), 2)
        self.broken("L", pack_plan([first, Join(Vertex(0, 1, 0), (UP, UP), 4)]), 17, 124, "the short penalty is closed")
        self.broken("K", pack_plan([None, Join(Vertex(0, 1, 0), (UP, LOW), 4)]), 17, 43, "(1,0,0) is a pin of net 1")

    def test_costs(self):
        for letter, cost in (("B", 9), ("B", 11)):
            moves = (HIGH, HIGH, HIGH, UP, HIGH, DOWN)
            plan = pack_plan([Join(Vertex(0, 0, 0), moves, cost)])
            self.broken(letter, plan, 18, 52, f"{cost} is recorded, the moves cost 10")
