"""The examples are what their README says."""

import unittest
from pathlib import Path

import support
from maizetext.draw import draw
from maizetext.job import Job
from maizetext.job_packing import pack_job
from maizetext.replay import replay
from maizetext.text_reading import read_text
from maizetext.wiring import shorts
from marked import LETTERS, job_bytes
from support import EXAMPLES


HOST = EXAMPLES / "host"
"""The host's sources stand among the examples; its own README line is one for the folder."""


def files(pattern: str) -> list[Path]:
    """The examples' files but the host's."""
    return [path for path in EXAMPLES.rglob(pattern) if path.is_file() and HOST not in path.parents]


def example(name: str) -> Job:
    """An example's job."""
    return read_text((EXAMPLES / name).read_text(), name)


class Examples(unittest.TestCase):
    def test_each_has_a_line_in_the_readme(self):
        readme = (EXAMPLES / "README.md").read_text()
        named = [path.relative_to(EXAMPLES) for path in files("*") if path.name != "README.md"]
        self.assertGreaterEqual(len(named), 19)
        for path in (*named, "host"):
            self.assertIn(f"`{path}`", readme)

    def test_each_text_is_a_good_job(self):
        for path in files("*.txt"):
            self.assertTrue(read_text(path.read_text(), path.name).nets)

    def test_the_marked_jobs_are_those_of_the_table(self):
        for letter in LETTERS:
            with self.subTest(letter):
                self.assertEqual(pack_job(example(f"marked/{letter.lower()}.txt")), job_bytes(letter))

    def test_the_crossing_is_within_the_limits_of_the_program(self):
        job = example("crossing.txt")
        self.assertLessEqual(job.grid.vertices(), 256)
        self.assertLessEqual(max(layer.min_length for layer in job.layers), 7)
        self.assertTrue(job.obstacles and len(job.nets) > 3 and any(net.boxes for net in job.nets))

    def test_larger_ones_are_past_them(self):
        for name in ("bus.txt", "macros.txt"):
            self.assertGreater(example(name).grid.vertices(), 256)

    def test_the_plan_of_the_crossing(self):
        trace = replay(example("crossing.txt"), bytes.fromhex((EXAMPLES / "crossing.plan").read_text()))
        self.assertIsNone(trace.broken)
        self.assertEqual((trace.total("cost"), trace.total("added"), trace.total("penalised"), trace.joined()), (107, 6, 1, 4))
        self.assertEqual(len(shorts(trace)), 4)

    def test_the_picture_is_up_to_date(self):
        job = example("crossing.txt")
        trace = replay(job, bytes.fromhex((EXAMPLES / "crossing.plan").read_text()))
        self.assertEqual((EXAMPLES / "crossing.svg").read_text(), draw(job, trace))

    def test_the_example_of_the_readme_is_a_good_job(self):
        readme = (support.ROOT / "README.md").read_text()
        section = readme.split("## Jobs and plans one can read", 1)[1].split("\n## ", 1)[0]
        lines = [line[4:] for line in section.splitlines() if line.startswith("    ")]
        text = "\n".join(lines[lines.index(next(line for line in lines if line.startswith("edition"))) :]).split("tools/maize")[0]
        self.assertEqual(len(read_text(text, "README.md").nets), 1)
