"""The thirteen marked jobs, A to L and N, by their bytes, and the records that routing them writes."""

from dataclasses import replace

import support  # noqa: F401
from maizetext.grid import DOWN, HIGH, UP, Vertex
from maizetext.job import Job, Net
from maizetext.job_reading import read_job
from maizetext.plan import Join, pack_plan

JOBS = {
    "A": "11 07 03 00 0A 00 14 01 00 00 00 40 23 00 32 00 40 03 00 32 10 00 00 00 00 0C",
    "B": "11 07 03 00 0A 00 14 01 00 00 00 40 23 00 32 00 40 03 00 32 10 00 00 00 04 0C",
    "C": "11 07 01 00 0A 00 14 01 00 00 00 40 23 00 32 00 40 03 00 32 10 00 00 00 04 0C",
    "D": "11 07 01 00 0A 00 14 01 00 00 00 40 23 FF FF 00 40 03 FF FF 10 00 00 00 04 0C",
    "E": "12 07 03 00 0A 00 14 01 00 00 00 40 23 00 32 00 40 23 00 32 00 40 03 00 32 10 00 00 08 00 00",
    "F": "12 07 02 00 0A 00 14 01 00 00 00 40 23 00 32 00 40 23 00 32 00 40 03 00 32 10 00 00 08 00 00",
    "G": "12 07 02 00 0A 00 14 01 00 00 00 40 23 FF FF 00 40 23 FF FF 00 40 03 FF FF 10 00 00 08 00 00",
    "H": "12 07 04 00 0A 00 14 01 00 00 00 40 23 00 32 00 40 23 00 32 00 40 03 00 32 10 00 60 68 10 0C",
    "I": "11 07 03 00 0A 00 14 01 00 00 00 40 23 00 32 00 40 03 00 32 20 00 00 00 00 0C 00 80 80",
    "J": "11 07 03 00 0A 00 14 01 00 00 00 40 23 00 32 00 40 03 00 32 11 00 00 00 00 0C 00 00 00 00 20",
    "K": "12 00 03 00 0A 00 14 02 00 00 00 40 23 00 32 00 40 23 00 32 00 40 03 00 32 10 20 00 04 08 00 40 00 80 20 10 00",
    "L": "12 00 03 00 0A FF FF 02 00 00 00 40 23 00 32 00 40 23 00 32 00 40 03 00 32 10 20 00 04 08 00 40 00 80 20 10 00",
    "N": "12 00 03 00 0A 00 14 02 00 00 00 40 23 00 32 00 40 23 00 32 00 40 03 00 32 10 20 00 04 08 00 44 00 80 20 10 00 "
    "00 00 C0 00 00",
}

RECORDS = {
    "A": [Join(Vertex(0, 0, 0), (HIGH, HIGH, HIGH), 3)],
    "B": [Join(Vertex(0, 0, 0), (HIGH, HIGH, HIGH, UP, HIGH, DOWN), 10)],
    "C": [Join(Vertex(0, 0, 0), (HIGH, HIGH, HIGH, UP, HIGH, DOWN), 58)],
    "D": [None],
    "E": [Join(Vertex(0, 0, 0), (UP, UP), 7)],
    "F": [Join(Vertex(0, 0, 0), (UP, UP), 54)],
    "G": [None],
    "H": [Join(Vertex(0, 3, 3), (UP, HIGH, UP), 7)],
    "I": [Join(Vertex(0, 0, 0), (HIGH, HIGH, HIGH), 3), Join(Vertex(0, 0, 1), (UP, HIGH, DOWN), 7)],
    "J": [Join(Vertex(0, 0, 0), (HIGH, HIGH, HIGH), 13)],
    "K": [Join(Vertex(1, 0, 0), (HIGH, HIGH), 2), Join(Vertex(0, 1, 0), (UP, UP), 74)],
    "L": [Join(Vertex(1, 0, 0), (HIGH, HIGH), 2), None],
    "N": [Join(Vertex(1, 0, 0), (HIGH, HIGH), 2), Join(Vertex(0, 1, 0), (UP, UP), 84)],
}

LETTERS = "ABCDEFGHIJKLN"
"""M is the minimum length."""


def job_bytes(letter: str) -> bytes:
    """A marked job's bytes."""
    return bytes.fromhex(JOBS[letter])


def plan_bytes(letter: str) -> bytes:
    """Its plan's bytes."""
    return pack_plan(RECORDS[letter])


def plain(*pins: tuple[Vertex, ...]) -> Job:
    """A's job with other nets, without boxes, by their pins."""
    return replace(read_job(job_bytes("A")), nets=tuple(Net(of_net, ()) for of_net in pins))
