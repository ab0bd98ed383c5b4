"""A plan in words."""

import unittest
from dataclasses import replace

import support  # noqa: F401
from maizetext.explain import explain
from maizetext.grid import DOWN, HIGH, LOW, UP, Vertex
from maizetext.job import CLOSED, Box, Net
from maizetext.job_reading import read_job
from maizetext.plan import Join, pack_plan
from marked import LETTERS, RECORDS, job_bytes, plain, plan_bytes
from tracks import ONE_STEP_UP, track

B = """\
job: 2 layers, 4 rows, 8 columns; 1 net, 0 obstacles
net 1: pins (0,0,0) (0,1,3)
  join 1 from (0,0,0)
         move  enters       base  guide  short  overhead    so far
      1  high  (0,0,1)         1      -      -         -         1
      2  high  (0,0,2)         1      -      -         -         2
      3  high  (0,0,3)         1      -      -         -         3
      4  up    (1,0,3)         2      -      -         -         5
      5  high  (1,1,3)         1      -      -         -         6
      6  down  (0,1,3)         2      -      -         2        10  extension (1,2,3) (1,3,3) at the leaving end
    cost 10, as recorded
  joined: cost 10
totals: cost 10, added steps 2, penalised segments 0, nets fully joined 1 of 1
the plan is legal and its recorded costs are right
"""

SECOND_OF_N = """\
net 2: pins (0,1,0) (2,1,0)
  join 1 from (0,1,0)
         move  enters       base  guide  short  overhead    so far
      1  up    (1,1,0)         2      -     20         -        22  outside and taken: short penalty alone
      2  up    (2,1,0)         2     10      -        50        84  area penalty
    cost 84, as recorded
  joined: cost 84
totals: cost 86, added steps 0, penalised segments 1, nets fully joined 2 of 2
the plan is legal and its recorded costs are right
"""

ALONE = "outside and taken: short penalty alone"


class Explained(unittest.TestCase):
    def explained(self, letter: str, plan: bytes) -> tuple[list[str], bool]:
        text, legal = explain(read_job(job_bytes(letter)), plan)
        return text.splitlines(), legal

    def test_b_in_full(self):
        self.assertEqual(explain(read_job(job_bytes("B")), plan_bytes("B")), (B, True))

    def test_recorded_costs_of_all(self):
        for letter in LETTERS:
            with self.subTest(letter):
                lines, legal = self.explained(letter, plan_bytes(letter))
                self.assertTrue(legal)
                said = [line for line in lines if line.startswith("    cost")]
                costs = [f"    cost {join.cost}, as recorded" for join in RECORDS[letter] if join]
                self.assertEqual(said, costs)

    def test_extensions_at_each_end(self):
        for obstacles, said in (
            ((), "extension (1,5,0) (1,6,0) (1,7,0) at the leaving end"),
            ((6,), "extension (1,5,0) at the leaving end, (1,2,0) (1,1,0) at the starting end"),
            ((5,), "extension (1,2,0) (1,1,0) (1,0,0) at the starting end"),
        ):
            text, legal = explain(track(obstacles), pack_plan([ONE_STEP_UP]))
            self.assertTrue(legal)
            self.assertIn(f"      3  up    (2,4,0)         2      -      -        15        24  {said}\n", text)

    def test_h_lays_at_the_starting_end(self):
        self.assertTrue(self.explained("H", plan_bytes("H"))[0][6].endswith(" 7  extension (1,2,3) (1,1,3) at the starting end"))

    def test_penalties(self):
        self.assertTrue(any(line.endswith("50        58  area penalty") for line in self.explained("C", plan_bytes("C"))[0]))
        self.assertIn("      3  high  (0,0,3)         1     10      -         -        13", self.explained("J", plan_bytes("J"))[0])
        self.assertIn("      1  up    (1,1,0)         2      -     20         -        22", self.explained("K", plan_bytes("K"))[0])

    def test_which_penalty_was_read(self):
        text, legal = explain(read_job(job_bytes("N")), plan_bytes("N"))
        self.assertTrue(legal)
        self.assertEqual(text[text.index("net 2") :], SECOND_OF_N)

    def test_a_penalty_of_0_was_read_too(self):
        first, second = RECORDS["N"]
        job = replace(read_job(job_bytes("N")), guide=0, short=0)
        text, legal = explain(job, pack_plan([first, second._replace(cost=54)]))
        self.assertTrue(legal)
        self.assertIn(f"      1  up    (1,1,0)         2      -      0         -         2  {ALONE}\n", text)
        self.assertIn("      2  up    (2,1,0)         2      0      -        50        54  area penalty\n", text)

    def test_a_short_outside_with_an_extension(self):
        wire, over = (Vertex(2, 0, 0), Vertex(2, 0, 3)), (Vertex(0, 0, 1), Vertex(0, 0, 2))
        boxed = Net(over, (Box(Vertex(0, 0, 0), Vertex(1, 3, 7)),))
        joins = [Join(wire[0], (HIGH,) * 3, 3), Join(over[0], (UP, UP, HIGH, DOWN, DOWN), 2 + 25 + 21 + 52 + 5)]
        text, legal = explain(replace(read_job(job_bytes("E")), nets=(Net(wire), boxed)), pack_plan(joins))
        self.assertTrue(legal)
        said = f"{ALONE}; extension (1,1,1) (1,2,1) (1,3,1) at the leaving end"
        self.assertIn(f"      2  up    (2,0,1)         2      -     20         3        27  {said}\n", text)
        self.assertIn("      4  down  (1,0,2)         2      -      -        50       100  area penalty\n", text)

    def test_a_closed_guide_penalty_forbids_a_taken_vertex_too(self):
        text, legal = explain(replace(read_job(job_bytes("N")), guide=CLOSED), plan_bytes("N"))
        self.assertFalse(legal)
        said = "move 'up' from (0,1,0) is not legal: (1,1,0) lies outside the guide, whose penalty is closed\n"
        self.assertTrue(text.endswith(said), text)

    def test_a_cost_with_both_penalties_is_wrong(self):
        first, second = RECORDS["N"]
        lines, legal = self.explained("N", pack_plan([first, second._replace(cost=94)]))
        self.assertFalse(legal)
        self.assertIn(f"      1  up    (1,1,0)         2      -     20         -        22  {ALONE}", lines)
        self.assertTrue(lines[-1].endswith("94 is recorded, the moves cost 84"), lines[-1])

    def test_nets_are_told_apart(self):
        lines = self.explained("K", plan_bytes("K"))[0]
        said = [line for line in lines if line.startswith(("net", "  join ", "  joined"))]
        self.assertEqual(said[:3], ["net 1: pins (1,0,0) (1,2,0)", "  join 1 from (1,0,0)", "  joined: cost 2"])
        self.assertEqual(said[3:], ["net 2: pins (0,1,0) (2,1,0)", "  join 1 from (0,1,0)", "  joined: cost 74"])

    def test_a_net_of_one_pin_is_joined(self):
        text, legal = explain(plain((Vertex(1, 3, 7),), (Vertex(0, 0, 0), Vertex(0, 0, 3))), plan_bytes("A"))
        self.assertTrue(legal)
        self.assertEqual(text.splitlines()[1:4], ["net 1: pins (1,3,7)", "  joined: cost 0", "net 2: pins (0,0,0) (0,0,3)"])
        self.assertIn("nets fully joined 2 of 2\n", text)

    def test_no_join(self):
        lines, legal = self.explained("L", plan_bytes("L"))
        self.assertTrue(legal)
        self.assertIn("  no join: open (2,1,0)", lines)
        self.assertEqual(lines[-2], "totals: cost 2, added steps 0, penalised segments 0, nets fully joined 1 of 2")

    def test_where_a_plan_breaks(self):
        plan = pack_plan([Join(Vertex(0, 0, 0), (HIGH, HIGH, LOW, UP), 3)])
        lines, legal = self.explained("B", plan)
        self.assertFalse(legal)
        self.assertEqual(lines[5], "      2  high  (0,0,2)         1      -      -         -         2")
        self.assertTrue(lines[6].startswith("totals: cost 0,"), lines[6])
        self.assertIn("the plan breaks at bit 44; replay gives: refused 17 at 44: a move is not legal", lines[7])
        self.assertIn("move 'low' from (0,0,2) is not legal: the step goes back: the segment runs high", lines[7])

    def test_a_wrong_cost_is_not_said_to_be_right(self):
        lines, legal = self.explained("A", pack_plan([Join(Vertex(0, 0, 0), (HIGH,) * 3, 4)]))
        self.assertFalse(legal)
        self.assertFalse([line for line in lines if "as recorded" in line or "joined: cost" in line])
        self.assertIn("refused 18 at 46", lines[-1])
        self.assertIn("4 is recorded, the moves cost 3", lines[-1])
