"""What a via owes for a short segment: both ends are counted together, and the leaving end is laid first."""

import unittest
from typing import Any

import support  # noqa: F401
from maizetext.errors import Illegal
from maizetext.grid import DOWN, HIGH, LOW, UP, Vertex
from maizetext.overheads import Overhead, overhead
from maizetext.plan import Join, pack_plan
from maizetext.replay import replay
from maizetext.segments import FRESH, START, Segment
from maizetext.standing import metal_at_first
from maizetext.views import Board, View
from tracks import AREA, ONE_STEP_UP, SHORT, VIA, WIRE, on_track, track, track_of

PENALISED = Overhead(AREA, penalised=True)
Rows = tuple[int, ...]


def running(direction: int, length: int) -> Segment:
    """A segment that is still short."""
    return Segment(direction, length, False)


def laid(leaving: Rows, starting: Rows) -> Overhead:
    """An extension over these rows of the track."""
    return Overhead(WIRE * (len(leaving) + len(starting)), on_track(*leaving), on_track(*starting))


def owed(last: int, segment: Segment, own: Rows = (), other: Rows = (), **more: Any) -> Overhead:
    """What net 1 owes at a row of the track, with metal of its own and of net 2; more is what `track` takes."""
    board = Board(track(**more))
    metal = metal_at_first(board) + [set()]
    metal[0].update(on_track(*own))
    metal[1].update(on_track(*other))
    return overhead(View(board, 0, metal), on_track(last)[0], segment)


class BothEnds(unittest.TestCase):
    def test_the_leaving_end_alone_where_it_has_room(self):
        self.assertEqual(owed(4, running(HIGH, 1)), laid((5, 6, 7), ()))
        self.assertEqual(owed(4, running(LOW, 1)), laid((3, 2, 1), ()))
        self.assertEqual(owed(4, FRESH), laid((5, 6, 7, 8), ()))

    def test_the_rest_at_the_starting_end(self):
        self.assertEqual(owed(4, running(HIGH, 1), obstacles=(7,)), laid((5, 6), (2,)))
        self.assertEqual(owed(4, running(HIGH, 1), obstacles=(6,)), laid((5,), (2, 1)))
        self.assertEqual(owed(4, running(LOW, 1), obstacles=(2,)), laid((3,), (6, 7)))

    def test_the_starting_end_alone(self):
        self.assertEqual(owed(4, running(HIGH, 1), obstacles=(5,)), laid((), (2, 1, 0)))
        self.assertEqual(owed(8, running(HIGH, 2)), laid((), (5, 4)))
        self.assertEqual(owed(0, running(LOW, 3)), laid((), (4,)))

    def test_a_fresh_segment_takes_high_then_low(self):
        self.assertEqual(owed(6, FRESH), laid((7, 8), (5, 4)))
        self.assertEqual(owed(8, FRESH), laid((), (7, 6, 5, 4)))
        self.assertEqual(owed(4, FRESH, obstacles=(6, 0)), laid((5,), (3, 2, 1)))

    def test_too_little_at_both_ends(self):
        self.assertEqual(owed(4, running(HIGH, 1), obstacles=(6, 1)), PENALISED)
        self.assertEqual(owed(4, running(LOW, 1), obstacles=(2, 7)), PENALISED)
        self.assertEqual(owed(4, FRESH, obstacles=(6, 1)), PENALISED)
        with self.assertRaisesRegex(Illegal, r"ends at \(1,4,0\) lacks 3 of 4 steps, its two ends have room for 2"):
            owed(4, running(HIGH, 1), obstacles=(6, 1), closed=True)

    def test_the_first_vertex_on_the_end_of_the_track(self):
        self.assertEqual(owed(1, running(HIGH, 1), obstacles=(5,)), laid((2, 3, 4), ()))
        self.assertEqual(owed(1, running(HIGH, 1), obstacles=(4,)), PENALISED)
        self.assertEqual(owed(7, running(LOW, 1), obstacles=(4,)), PENALISED)

    def test_what_stops_one_end_does_not_stop_the_other(self):
        for stop in ({"obstacles": (5,)}, {"pins": (5,)}, {"other": (5,)}):
            self.assertEqual(owed(4, running(HIGH, 1), **stop), laid((), (2, 1, 0)))
        for stop in ({"obstacles": (2,)}, {"pins": (2,)}, {"other": (2,)}):
            self.assertEqual(owed(4, running(HIGH, 1), **stop), laid((5, 6, 7), ()))
            self.assertEqual(owed(6, running(HIGH, 3), **stop), laid((7,), ()))
            self.assertEqual(owed(8, running(HIGH, 3), **stop), laid((), (4,)))

    def test_nothing_is_owed_for_a_paid_segment(self):
        for segment in (START, Segment(HIGH, 4, True)):
            self.assertEqual(owed(4, segment, obstacles=(3, 5)), Overhead(0))


class OwnMetal(unittest.TestCase):
    def test_it_is_clear_at_either_end(self):
        self.assertEqual(owed(4, running(HIGH, 1), own=(1, 2, 5), obstacles=(6,)), laid((5,), (2, 1)))

    def test_it_is_not_where_another_net_has_metal_too(self):
        self.assertEqual(owed(4, running(HIGH, 1), own=(1, 2), other=(1,), obstacles=(6,)), PENALISED)
        self.assertEqual(owed(4, running(HIGH, 1), own=(5, 6), other=(6,)), laid((5,), (2, 1)))


class OwnMetalOfPlans(unittest.TestCase):
    """Net 1 has a pin in row 1 of the track; its last join makes a step from row 3 to row 4, and row 6 is blocked."""

    PINS = (Vertex(0, 3, 0), *on_track(1), Vertex(2, 4, 0))

    def last_overhead(self, nets: list[tuple[Vertex, ...]], records: list[Join]) -> Overhead:
        trace = replay(track_of(nets, (6,)), pack_plan(records))
        self.assertIsNone(trace.broken)
        return trace.nets[-1].joins[-1].moves[-1].over

    def test_an_earlier_join_is_clear(self):
        down = Join(self.PINS[0], (UP, LOW, LOW), 12)
        self.assertEqual(self.last_overhead([self.PINS], [down, ONE_STEP_UP]), laid((5,), (2, 1)))

    def test_it_is_not_where_it_made_a_short(self):
        other = (Vertex(0, 2, 0), Vertex(2, 2, 0))
        across = Join(other[0], (UP, UP), 2 * VIA + AREA)
        down = Join(self.PINS[0], (UP, LOW, LOW), 12 + SHORT)
        records = [across, down, ONE_STEP_UP._replace(cost=2 * VIA + WIRE + AREA)]
        self.assertEqual(self.last_overhead([other, self.PINS], records), PENALISED)

    def test_the_join_itself_is_clear(self):
        pins = (*on_track(1), Vertex(2, 4, 0))
        through = Join(pins[0], (HIGH, HIGH, DOWN, UP, HIGH, UP), 6 * WIRE + 3 * VIA + AREA)
        self.assertEqual(self.last_overhead([pins], [through]), laid((5,), (2, 1)))


class OtherPins(unittest.TestCase):
    def test_just_past_the_need_they_do_not_matter(self):
        self.assertEqual(owed(4, running(HIGH, 1), pins=(8,), obstacles=(2,)), laid((5, 6, 7), ()))
        self.assertEqual(owed(4, running(HIGH, 1), pins=(0,), obstacles=(6,)), laid((5,), (2, 1)))
        self.assertEqual(owed(4, FRESH, pins=(1, 7)), laid((5, 6), (3, 2)))

    def test_one_nearer_they_do(self):
        self.assertEqual(owed(4, running(HIGH, 1), pins=(7,), obstacles=(2,)), PENALISED)
        self.assertEqual(owed(4, running(HIGH, 1), pins=(1,), obstacles=(6,)), PENALISED)
        self.assertEqual(owed(4, FRESH, pins=(2, 7)), PENALISED)
        self.assertEqual(owed(4, FRESH, pins=(1, 6)), PENALISED)
