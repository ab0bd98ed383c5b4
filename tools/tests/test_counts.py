"""A plan's counts, by hand, and that they make its cost."""

import unittest
from dataclasses import replace

import support  # noqa: F401
from maizetext.counts import ADDED, PENALISED, added_up, by_kind, costs_of, counts_of, prices_of
from maizetext.grid import DOWN, HIGH, UP, Vertex
from maizetext.job import Job, Net
from maizetext.job_reading import read_job
from maizetext.plan import Join, pack_plan
from maizetext.replay import replay
from marked import LETTERS, RECORDS, job_bytes, plan_bytes
from test_replay import pairs

NONE = [0, 0, 0, 0, 0, 0]

BY_HAND = {
    "A": [[3, 0, 0, 0, 0, 0], NONE],
    "B": [[3, 2, 0, 0, 0, 0], [1, 0, 2, 0, 0, 0]],
    "C": [[3, 2, 0, 0, 0, 0], [1, 0, 0, 1, 0, 0]],
    "D": [NONE, NONE],
    "E": [[0, 1, 0, 0, 0, 0], [0, 1, 3, 0, 0, 0], NONE],
    "F": [[0, 1, 0, 0, 0, 0], [0, 1, 0, 1, 0, 0], NONE],
    "G": [NONE, NONE, NONE],
    "H": [[0, 1, 0, 0, 0, 0], [1, 1, 2, 0, 0, 0], NONE],
    "I": [[3, 2, 0, 0, 0, 0], [1, 0, 2, 0, 0, 0]],
    "J": [[3, 0, 0, 0, 1, 0], NONE],
    "K": [[0, 1, 0, 0, 0, 0], [2, 1, 0, 1, 0, 1], NONE],
    "L": [NONE, [2, 0, 0, 0, 0, 0], NONE],
    "N": [[0, 1, 0, 0, 0, 0], [2, 1, 0, 1, 0, 1], [0, 0, 0, 0, 1, 0]],
}
"""For each marked job and layer: wire steps, vias, added steps, penalised segments, guide and short entries."""


def marked(letter: str) -> Job:
    """A marked job."""
    return read_job(job_bytes(letter))


class Counts(unittest.TestCase):
    def counts(self, job: Job, plan: bytes, cost: int) -> list[list[int]]:
        """The counts of a legal plan, which make its cost."""
        trace = replay(job, plan)
        self.assertIsNone(trace.broken)
        counts = counts_of(job, trace)
        self.assertEqual((sum(by_kind(costs_of(counts, prices_of(job)))), trace.total("cost")), (cost, cost))
        return counts

    def test_marked_jobs(self):
        for letter in LETTERS:
            with self.subTest(letter):
                cost = sum(join.cost for join in RECORDS[letter] if join)
                self.assertEqual(self.counts(marked(letter), plan_bytes(letter), cost), BY_HAND[letter])

    def test_plans_of_the_second_replay(self):
        accepted = [pair for pair in pairs() if pair[2].startswith("0 ")]
        self.assertGreater(len(accepted), 50)
        for job, plan, answer in accepted:
            cost, added, penalised = map(int, answer.split()[2:5])
            sums = by_kind(self.counts(read_job(bytes.fromhex(job)), bytes.fromhex(plan), cost))
            self.assertEqual((sums[ADDED], sums[PENALISED]), (added, penalised))

    def test_an_entry_counts_at_penalty_0(self):
        self.assertEqual(self.counts(replace(marked("J"), guide=0), pack_plan([Join(Vertex(0, 0, 0), (HIGH,) * 3, 3)]), 3), BY_HAND["J"])
        plan = pack_plan([Join(Vertex(1, 0, 0), (HIGH, HIGH), 2), Join(Vertex(0, 1, 0), (UP, UP), 54)])
        self.assertEqual(self.counts(replace(marked("K"), short=0), plan, 56), BY_HAND["K"])

    def test_without_boxes_there_is_no_guide_entry(self):
        self.assertEqual(self.counts(replace(marked("A"), guide=0), plan_bytes("A"), 3), BY_HAND["A"])

    def test_outside_the_guide_and_taken_is_a_short_entry_at_penalty_0_too(self):
        first, second = RECORDS["N"]
        for job, cost in ((replace(marked("N"), guide=0), 74), (replace(marked("N"), short=0), 64)):
            plan = pack_plan([first, second._replace(cost=cost)])
            self.assertEqual(self.counts(job, plan, 2 + cost), BY_HAND["N"])

    def test_what_is_entered_again_counts_again(self):
        again = Join(Vertex(0, 0, 0), (HIGH, UP, HIGH, DOWN), 8)
        plan = pack_plan([Join(Vertex(0, 0, 0), (HIGH,) * 3, 3), again])
        self.assertEqual(self.counts(marked("I"), plan, 11), [[4, 2, 0, 0, 0, 0], [1, 0, 2, 0, 0, 0]])

    def test_a_via_down_leaves_the_upper_layer(self):
        job = replace(marked("E"), nets=(Net((Vertex(2, 0, 0), Vertex(0, 0, 0))),))
        plan = pack_plan([Join(Vertex(2, 0, 0), (DOWN, DOWN), 7)])
        self.assertEqual(self.counts(job, plan, 7), BY_HAND["E"])

    def test_sums(self):
        self.assertEqual(added_up([BY_HAND["B"], BY_HAND["K"]]), [[3, 3, 0, 0, 0, 0], [3, 1, 2, 1, 0, 1], NONE])
        self.assertEqual(added_up([BY_HAND["J"]]), BY_HAND["J"])
