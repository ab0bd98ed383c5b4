"""The wire report in tables: one plan, many plans, plans that break, and the check of the cost."""

import unittest

import support
from maizetext.job_reading import read_job
from maizetext.report import Block, block_of, report
from marked import job_bytes, plan_bytes
from support import EXAMPLES, Folder, maize

CROSSING = EXAMPLES / "crossing.txt", EXAMPLES / "crossing.plan"

TABLE = """\
job: 3 layers, 8 rows, 10 columns; 5 nets, 16 obstacles
totals: cost 107, added steps 6, penalised segments 1, nets fully joined 4 of 5
layer         wire steps        vias added steps   penalised       guide       short         all
0      count          18           8           0           0           0           4
       price           1           2           1          12           6           4
       cost           18          16           0           0           0          16          50
1      count          15           5           6           1           0           0
       price           1           2           1          12           6           4
       cost           15          10           6          12           0           0          43
2      count           7           0           0           0           0           0
       price           2           0           2      closed           6           4
       cost           14           0           0           0           0           0          14
all    count          40          13           6           1           0           4
       cost           47          26           6          12           0          16         107
counts times prices make 107, which is the cost
"""

OF_J_AND_K = """\
sum over 2 of 3 plans
layer         wire steps        vias added steps   penalised       guide       short         all
0      count           3           1           0           0           1           0
       cost            3           2           0           0          10           0          15
1      count           2           1           0           1           0           1
       cost            2           2           0          50           0          20          74
2      count           0           0           0           0           0           0
       cost            0           0           0           0           0           0           0
all    count           5           2           0           1           1           1
       cost            5           4           0          50          10          20          89
counts times prices make 89, which is the cost
"""


def block(job: str, plan: str) -> Block:
    """A marked job with the plan of one."""
    return block_of(f"{job} {plan}", read_job(job_bytes(job)), plan_bytes(plan))


class Reports(unittest.TestCase):
    def test_one_plan_has_no_sum(self):
        text, right = report([block("A", "A")])
        self.assertTrue(right)
        self.assertEqual(text.count("\n\n"), 0)
        self.assertNotIn("sum over", text)

    def test_many_plans_and_one_that_breaks(self):
        text, right = report([block("J", "J"), block("A", "B"), block("K", "K")])
        self.assertFalse(right)
        first, broken, last, over = text.split("\n\n")
        self.assertTrue(first.startswith("J J\njob: 2 layers"), first)
        self.assertTrue(last.endswith("\ncounts times prices make 76, which is the cost"), last)
        self.assertIn("\nthe plan breaks at bit 44 and adds nothing; replay gives: refused 17 at 44: ", broken)
        self.assertNotIn("layer  ", broken)
        self.assertEqual(over, OF_J_AND_K)

    def test_outside_the_guide_and_taken_is_a_short_entry_alone(self):
        text, right = report([block("N", "N")])
        self.assertTrue(right)
        self.assertIn("\n1      count           2           1           0           1           0           1\n", text)
        self.assertIn("\n2      count           0           0           0           0           1           0\n", text)
        self.assertTrue(text.endswith("\ncounts times prices make 86, which is the cost\n"), text)

    def test_the_same_plan_twice_counts_twice(self):
        text, right = report([block("B", "B"), block("B", "B")])
        self.assertTrue(right)
        self.assertIn("\n0      count           6           4           0           0           0           0\n", text)
        self.assertTrue(text.endswith("\ncounts times prices make 20, which is the cost\n"), text)

    def test_no_plan_is_legal(self):
        text, right = report([block("A", "B"), block("B", "A")])
        self.assertFalse(right)
        self.assertTrue(text.endswith("\n\nsum over 0 of 2 plans\n"), text)

    def test_counts_that_do_not_make_the_cost(self):
        good = block("B", "B")
        wrong = good._replace(sum=good.sum._replace(cost=11))
        text, right = report([wrong])
        self.assertFalse(right)
        self.assertTrue(text.endswith("\ncounts times prices make 10, but the cost is 11\n"), text)
        text, right = report([good, wrong])
        self.assertFalse(right)
        self.assertTrue(text.endswith("\ncounts times prices make 20, but the cost is 21\n"), text)


class Tool(Folder):
    def test_an_example_in_full(self):
        done = maize("report", *CROSSING)
        self.assertEqual((done.returncode, done.stderr), (0, b""))
        self.assertEqual(done.stdout.decode(), f"{CROSSING[0]} {CROSSING[1]}\n{TABLE}")

    def test_the_readme_shows_it(self):
        shown = "".join(f"    {line}\n" for line in TABLE.splitlines()[2:])
        self.assertTrue(shown in (support.ROOT / "README.md").read_text(), shown)

    def test_pairs_of_either_form(self):
        plan = self.file("plan", plan_bytes("A"))
        done = maize("report", EXAMPLES / "a.job", plan, EXAMPLES / "marked" / "a.txt", "-", given=plan_bytes("A").hex().encode())
        self.assertEqual((done.returncode, done.stderr), (0, b""))
        self.assertTrue(done.stdout.endswith(b"\ncounts times prices make 6, which is the cost\n"), done.stdout)

    def test_a_plan_that_breaks_is_told_and_the_others_go_on(self):
        bad = self.file("bad", plan_bytes("B"))
        done = maize("report", EXAMPLES / "a.job", bad, *CROSSING)
        self.assertEqual((done.returncode, done.stderr), (1, b""))
        self.assertIn(f"{EXAMPLES / 'a.job'} {bad}\n".encode(), done.stdout)
        self.assertIn(b"the plan breaks at bit 44 and adds nothing", done.stdout)
        self.assertIn(b"\nsum over 1 of 2 plans\n", done.stdout)

    def test_bad_files_and_command_lines(self):
        self.fails(maize("report", *CROSSING, self.folder / "none", "-"), 1, "none: No such file")
        self.fails(maize("report", self.file("bad", b"\x00" * 30), CROSSING[1]), 1, "bad: refused 3 at 0")
        self.fails(maize("report"), 2, "required: JOB PLAN")
        self.fails(maize("report", *CROSSING, "job"), 2, "report expects a PLAN for each JOB, found no PLAN for job")
        self.fails(maize("report", "-", "plan", "job", "-"), 2, "several files are standard input (-), expected one at most")
