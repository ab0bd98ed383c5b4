"""Bad bytes are refused by number and place."""

import unittest
from itertools import accumulate

import support  # noqa: F401
from maizetext.grid import Grid, Vertex
from maizetext.job import Box, Job, Layer, Net, Obstacle
from maizetext.job_packing import group_starts, pack_job
from maizetext.job_reading import read_job
from maizetext.refusals import RULES, Refused
from marked import JOBS, job_bytes

LAYERS = (Layer(1, 2, 3, 50), Layer(1, 0, 3, 50))
PINS = (Vertex(0, 0, 0), Vertex(0, 0, 3))
GRID = Grid(0, 2, 4, 8)


def job_with(layers=LAYERS, obstacles=(), pins=PINS, boxes=()) -> bytes:
    """The plain job with parts changed."""
    return pack_job(Job(GRID, 10, 20, layers, obstacles, (Net(pins, boxes),)))


class Refusals(unittest.TestCase):
    def refused(self, data: bytes, number: int, place: int) -> None:
        with self.assertRaises(Refused) as caught:
            read_job(data)
        self.assertEqual((caught.exception.number, caught.exception.place), (number, place))
        self.assertIn(RULES[number], str(caught.exception))

    def test_too_many_bytes(self):
        self.refused(bytes(262_145), 1, 0)
        self.refused(bytes(262_144), 3, 0)

    def test_groups_that_are_not_whole(self):
        data = job_bytes("J")
        starts = [0] * 10 + [80] * 5 + [120] * 5 + [160] + [168] * 3 + [187] * 2 + [206] * 5
        for length, start in enumerate(starts):
            with self.subTest(length):
                self.refused(data[:length], 2, start)

    def test_every_cut_of_a_job(self):
        pins = tuple(Vertex(0, row, column) for row in range(2) for column in range(8))
        boxes = tuple(Box(Vertex(0, 0, column), Vertex(1, 3, 7)) for column in range(7))
        obstacles = tuple(Obstacle(Vertex(1, 0, column), 4) for column in range(8))
        job = Job(GRID, 10, 20, LAYERS, obstacles, (Net(pins, boxes), Net((Vertex(0, 3, 0), Vertex(0, 3, 1)), boxes[:2])))
        widths = [80] + [40] * 2 + [27] * 8 + [8] + [19] * 16 + [38] * 7 + [8] + [19] * 2 + [38] * 2
        ends = list(accumulate(widths))
        self.assertEqual(list(group_starts(job)), [end - width for end, width in zip(ends, widths)])
        data = pack_job(job)
        self.assertEqual(read_job(data), job)
        for length in range(len(data)):
            first = next(index for index, end in enumerate(ends) if end > 8 * length)
            self.refused(data[:length], 2, ends[first] - widths[first])

    def test_each_refusal_has_words(self):
        self.assertEqual(list(RULES), [number for number in range(1, 20) if number != 7])
        self.assertEqual(len(set(RULES.values())), 18)

    def test_edition_before_size(self):
        self.refused(b"\x2f\xff\xff" + bytes(20), 3, 0)

    def test_edges(self):
        net = "10 00 00 00 00 0C"
        one_layer = "00 0A 00 14 01 00 00 00 40 03 00 32"
        self.assertEqual(read_job(bytes.fromhex(f"10 7F 7F {one_layer} {net}")).grid.vertices(), 16_384)
        self.refused(bytes.fromhex(f"10 80 7F {one_layer} {net}"), 4, 8)
        self.assertEqual(read_job(bytes.fromhex(JOBS["A"].replace("23", "21").replace("40 03", "40 01"))).layers[0].min_length, 1)
        self.refused(bytes.fromhex(JOBS["A"].replace("40 23", "40 20")), 5, 100)

    def test_one_vertex_too_many(self):
        self.assertEqual(5 * 29 * 113, 16_385)
        self.refused(pack_job(Job(Grid(0, 5, 29, 113), 0, 0, (LAYERS[0],) * 4 + (LAYERS[1],))), 4, 8)

    def test_layer_lines(self):
        for layers, place in (
            ((Layer(0, 2, 3, 50), LAYERS[1]), 80),
            ((Layer(1, 0, 3, 50), LAYERS[1]), 90),
            ((LAYERS[0], Layer(1, 0, 0, 50)), 140),
            ((LAYERS[0], Layer(1, 1, 3, 50)), 130),
        ):
            self.refused(job_with(layers=layers), 5, place)

    def test_layer_lines_are_told_their_ranges(self):
        for layer, part in (
            (Layer(0, 2, 3, 50), "the wire price is 0, it must be from 1 to 1023"),
            (Layer(1, 0, 3, 50), "the via price is 0, below the top layer it must be from 1 to 1023"),
            (Layer(1, 2, 0, 50), "the minimum length is 0, it must be from 1 to 15"),
        ):
            with self.assertRaises(Refused) as caught:
                read_job(job_with(layers=(layer, LAYERS[1])))
            self.assertIn(part, str(caught.exception))

    def test_obstacles(self):
        inside = Obstacle(Vertex(0, 3, 5), 3)
        for outside in (Obstacle(Vertex(0, 3, 5), 4), Obstacle(Vertex(2, 0, 0), 1), Obstacle(Vertex(1, 1, 0), 4)):
            self.refused(job_with(obstacles=(inside, outside)), 6, 187)

    def test_nets_of_one_pin(self):
        pin, box = PINS[0], Box(Vertex(0, 0, 0), Vertex(1, 3, 7))
        for boxes in ((), (box,), (box,) * 15):
            self.assertEqual(read_job(job_with(pins=(pin,), boxes=boxes)).nets, (Net((pin,), boxes),))
        self.refused(job_with(pins=(Vertex(0, 4, 0),)), 8, 168)
        self.refused(job_with(pins=(pin,), boxes=(box, Box(Vertex(1, 0, 0), Vertex(0, 3, 7)))), 10, 225)
        self.refused(job_with(pins=(pin,), boxes=(box,))[:-1], 2, 187)

    def test_nets(self):
        pin = PINS[0]
        self.refused(job_with(pins=(pin, Vertex(0, 4, 0))), 8, 187)
        self.refused(job_with(pins=(pin, Vertex(0, 1, 1)), obstacles=(Obstacle(Vertex(0, 1, 0), 2),)), 8, 214)
        self.refused(job_with(pins=(pin, pin)), 9, 187)
        for low, high in (((0, 0, 1), (0, 0, 0)), ((0, 0, 0), (2, 0, 0)), ((0, 2, 0), (0, 1, 0)), ((0, 0, 0), (0, 4, 0))):
            self.refused(job_with(boxes=(Box(Vertex(*low), Vertex(*high)),)), 10, 206)

    def test_tail(self):
        data = job_bytes("A")
        self.refused(data + b"\x00", 11, 206)
        self.refused(data[:-1] + bytes([data[-1] | 1]), 11, 206)
