"""The program on the examples, where it is built: the plans are those of the table and of the examples."""

import os
import unittest

import support  # noqa: F401
from maizetext.errors import InputError
from maizetext.grid import Vertex
from maizetext.job_packing import pack_job
from maizetext.route import plan_by_program, program_path, summary
from maizetext.text_reading import read_text
from marked import LETTERS, job_bytes, plain, plan_bytes
from support import EXAMPLES

PROGRAM = program_path(None)


def routed(name: str) -> bytes:
    """The program's plan of an example."""
    return plan_by_program(PROGRAM, name, pack_job(read_text((EXAMPLES / name).read_text(), name)))


@unittest.skipUnless(os.access(PROGRAM, os.X_OK), "the program is not built")
class WithProgram(unittest.TestCase):
    def test_marked_jobs(self):
        for letter in LETTERS:
            with self.subTest(letter):
                self.assertEqual(plan_by_program(PROGRAM, letter, job_bytes(letter)), plan_bytes(letter))

    def test_the_crossing(self):
        self.assertEqual(routed("crossing.txt"), bytes.fromhex((EXAMPLES / "crossing.plan").read_text()))

    def test_nets_of_one_pin_alone_have_a_plan_of_no_bytes(self):
        alone = plain((Vertex(0, 0, 0),), (Vertex(1, 3, 7),))
        plan = plan_by_program(PROGRAM, "alone", pack_job(alone))
        self.assertEqual(plan, b"")
        self.assertEqual(summary(alone, plan, "the program").splitlines()[1:], [
            "net 1: joined  1 of 1 pins, cost 0, added steps 0, penalised segments 0",
            "net 2: joined  1 of 1 pins, cost 0, added steps 0, penalised segments 0",
            "totals: cost 0, added steps 0, penalised segments 0, nets fully joined 2 of 2",
        ])

    def test_larger_ones_are_too_large(self):
        for name in ("bus.txt", "macros.txt"):
            with self.assertRaises(InputError) as caught:
                routed(name)
            self.assertIn(f"{name}: no plan: the job is too large", str(caught.exception))
