"""Pictures: well-formed, and with each thing as often as it is there."""

import unittest
import xml.etree.ElementTree as ElementTree
from collections import Counter
from random import Random

import support
from generated import good_job
from maizetext.colours import net_colour
from maizetext.draw import draw
from maizetext.grid import UP, Vertex
from maizetext.job import Job
from maizetext.job_reading import read_job
from maizetext.panel import Panel
from maizetext.plan import Join, pack_plan
from maizetext.replay import replay
from maizetext.text_reading import read_text
from marked import RECORDS, job_bytes, plain, plan_bytes
from tracks import ONE_STEP_UP, VIA, WIRE, on_track, track, track_of

SVG = "{http://www.w3.org/2000/svg}"


def marks(picture: str) -> Counter:
    """How often each kind of mark is on the layers, the legend aside."""
    root = ElementTree.fromstring(picture)
    layers = [group for group in root.iter(f"{SVG}g") if group.get("class") == "layer"]
    kinds = (mark.get("class") for layer in layers for mark in layer.iter())
    return Counter(kind for kind in kinds if kind)


def picture_of(letter: str) -> str:
    """A marked job with its plan."""
    job = read_job(job_bytes(letter))
    return draw(job, replay(job, plan_bytes(letter)))


def extensions(job: Job, records: list[Join]) -> list[tuple[Vertex, Vertex]]:
    """From where to where the extensions of layer 1 are drawn."""
    vertices = (Vertex(1, row, column) for row in range(job.grid.rows) for column in range(job.grid.columns))
    at = {Panel(job.grid, 1).at(v): v for v in vertices}
    trace = replay(job, pack_plan(records))
    assert trace.broken is None, trace.broken
    root = ElementTree.fromstring(draw(job, trace))
    layer = next(group for group in root.iter(f"{SVG}g") if group.get("id") == "layer-1")
    lines = [mark for mark in layer.iter(f"{SVG}line") if mark.get("class") == "extension"]
    return [tuple(at[float(line.get(f"x{end}")), float(line.get(f"y{end}"))] for end in "12") for line in lines]


class Pictures(unittest.TestCase):
    def counted(self, letter: str, **expected: int) -> None:
        found = marks(picture_of(letter))
        for kind, count in expected.items():
            self.assertEqual(found[kind.replace("_", "-")], count, f"{kind} in {letter}")

    def test_marked_jobs(self):
        self.counted("A", layer=2, pin=2, wire=1, via_up=0, via_down=0, extension=0, short=0, obstacle=0, track=12)
        self.counted("B", layer=2, pin=2, wire=2, via_up=2, via_down=2, extension=1, short=0)
        self.counted("E", layer=3, pin=2, wire=0, via_up=2, via_down=2, extension=1)
        self.counted("H", layer=3, pin=2, wire=1, via_up=2, via_down=2, extension=1)
        self.counted("J", guide=1, pin=2, wire=1)
        self.counted("K", pin=4, wire=1, via_up=2, via_down=2, short=1)
        self.counted("N", guide=1, pin=4, wire=1, via_up=2, via_down=2, short=1)

    def test_a_net_of_one_pin(self):
        job = plain((Vertex(0, 0, 0), Vertex(0, 0, 3)), (Vertex(1, 3, 7),))
        for found in (marks(draw(job, None)), marks(draw(job, replay(job, plan_bytes("A"))))):
            self.assertEqual((found["pin"], found["pin open"]), (3, 0))

    def test_extensions_go_out_from_each_end(self):
        first, last = on_track(3, 4)
        leaving, starting = [(last, Vertex(1, 5, 0))], [(first, Vertex(1, 1, 0))]
        self.assertEqual(extensions(track(), [ONE_STEP_UP]), [(last, Vertex(1, 7, 0))])
        self.assertEqual(extensions(track((6,)), [ONE_STEP_UP]), leaving + starting)
        self.assertEqual(extensions(track((5, 0)), [ONE_STEP_UP._replace(cost=59)]), [])
        self.assertEqual(extensions(read_job(job_bytes("H")), RECORDS["H"]), [(Vertex(1, 3, 3), Vertex(1, 1, 3))])

    def test_an_extension_of_a_fresh_segment_goes_both_ways(self):
        pins = (Vertex(0, 7, 0), Vertex(2, 7, 0))
        straight_up = Join(pins[0], (UP, UP), VIA + VIA + 4 * WIRE)
        only, highest, lowest = on_track(7, 8, 4)
        self.assertEqual(extensions(track_of([pins], ()), [straight_up]), [(only, highest), (only, lowest)])

    def test_open_pins_are_hollow(self):
        found = marks(picture_of("L"))
        self.assertEqual((found["pin"], found["pin open"], found["short"]), (3, 1, 0))

    def test_the_crossing(self):
        job = read_text((support.EXAMPLES / "crossing.txt").read_text(), "crossing.txt")
        plan = bytes.fromhex((support.EXAMPLES / "crossing.plan").read_text())
        found = marks(draw(job, replay(job, plan)))
        self.assertEqual(found["obstacle"], len(job.obstacles))
        self.assertEqual(found["pin"] + found["pin open"], sum(len(net.pins) for net in job.nets))
        self.assertEqual((found["pin open"], found["short"], found["extension"]), (1, 4, 4))
        self.assertEqual(found["guide"], sum(box.high.layer - box.low.layer + 1 for net in job.nets for box in net.boxes))

    def test_a_job_alone(self):
        random = Random(3)
        for _ in range(40):
            job = good_job(random)
            found = marks(draw(job, None))
            self.assertEqual(found["layer"], job.grid.layers)
            self.assertEqual(found["obstacle"], len(job.obstacles))
            self.assertEqual(found["pin"], sum(len(net.pins) for net in job.nets))
            self.assertEqual(found["wire"] + found["via-up"] + found["pin open"], 0)

    def test_all_lies_inside(self):
        root = ElementTree.fromstring(picture_of("H"))
        width, height = float(root.get("width")), float(root.get("height"))
        for mark in root.iter():
            for name, end in (("x", width), ("cx", width), ("x2", width), ("y", height), ("cy", height), ("y2", height)):
                self.assertTrue(0 <= float(mark.get(name, 0)) <= end)

    def test_the_same_each_time(self):
        self.assertEqual(picture_of("K"), picture_of("K"))

    def test_nets_have_colours_of_their_own(self):
        self.assertEqual(len({net_colour(net) for net in range(255)}), 255)
        wires = [mark.get("stroke") for mark in ElementTree.fromstring(picture_of("K")).iter() if mark.get("class") == "via-up"]
        self.assertIn(net_colour(1), wires)
