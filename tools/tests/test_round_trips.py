"""Bytes to text to bytes, and text to bytes to text, are identities."""

import unittest
from random import Random

import support  # noqa: F401
from generated import good_job
from maizetext.files import is_text
from maizetext.job import CLOSED
from maizetext.job_packing import group_starts, pack_job
from maizetext.job_reading import read_job
from maizetext.text_reading import read_text
from maizetext.text_writing import write_text
from marked import LETTERS, job_bytes

JOBS = 1_200


class RoundTrips(unittest.TestCase):
    @classmethod
    def setUpClass(cls):
        random = Random(1)
        cls.jobs = [good_job(random) for _ in range(JOBS)]

    def round_trip(self, data: bytes) -> None:
        text = write_text(read_job(data))
        again = pack_job(read_text(text, "job.txt"))
        self.assertEqual(again, data)
        self.assertEqual(write_text(read_job(again)), text)
        self.assertTrue(is_text(text.encode()))
        self.assertFalse(is_text(data))

    def test_marked_jobs(self):
        for letter in LETTERS:
            with self.subTest(letter):
                self.round_trip(job_bytes(letter))

    def test_generated_jobs(self):
        for job in self.jobs:
            self.round_trip(pack_job(job))

    def test_generated_jobs_have_all_shapes(self):
        jobs = self.jobs
        nets = [net for job in jobs for net in job.nets]
        self.assertEqual({job.grid.layers for job in jobs}, set(range(1, 9)))
        self.assertEqual({job.grid.direction for job in jobs}, {0, 1})
        self.assertEqual({len(net.pins) for net in nets}, set(range(1, 17)))
        self.assertEqual({len(net.boxes) for net in nets}, {0, 1, 2, 15})
        self.assertTrue(any(job.short == CLOSED for job in jobs) and any(job.short == 0 for job in jobs))
        self.assertTrue(any(layer.area == CLOSED for job in jobs for layer in job.layers))
        self.assertTrue(any(not job.nets for job in jobs) and any(not job.obstacles for job in jobs))
        self.assertTrue(any(job.grid.rows > 200 for job in jobs) and any(job.grid.vertices() == 1 for job in jobs))

    def test_groups_fill_the_bytes(self):
        for job in self.jobs[:200]:
            last = list(group_starts(job))[-1]
            self.assertLess(last, len(pack_job(job)) * 8)

    def test_the_text_of_a_marked_job_is_as_documented(self):
        expected = """\
edition 1
grid layers 2 rows 4 columns 8 direction column
guide 10
short 20
layer wire 1 via 2 min 3 area 50
layer wire 1 via 0 min 3 area 50
net # 1
  pin 0 0 0
  pin 0 0 3
  box layers 0..0 rows 0..0 columns 0..2
"""
        self.assertEqual(write_text(read_job(job_bytes("J"))), expected)

    def test_closed_prices_are_written_so(self):
        self.assertIn("area closed\n", write_text(read_job(job_bytes("D"))))
        self.assertIn("\nshort closed\n", write_text(read_job(job_bytes("L"))))
