"""A text that is no good job is refused by its line and by what was expected there."""

import unittest

import support  # noqa: F401
from maizetext.errors import InputError
from maizetext.job import CLOSED, Layer
from maizetext.text_reading import read_lines, read_text

GOOD = """\
# a comment
edition 1

grid layers 2 rows 4 columns 8 direction column
guide 10
short closed
layer wire 1 via 2 min 3 area 50
layer wire 1 via 0 min 3 area closed
obstacle 1 0 5 run 4   # a whole track
net
  pin 0 0 0
  pin 0 0 3
  box layers 0..1 rows 0..3 columns 0..4
"""

SWAPPED = [
    # what stood there, what stands there, the line, part of the message
    ("edition 1", "edition 2", 2, "expected EDITION, which is 1,"),
    ("edition 1", "", 4, "expected 'edition EDITION', found 'grid'"),
    ("layers 2", "layers 9", 4, "expected LAYERS, a number from 1 to 8,"),
    ("rows 4", "row 4", 4, "expected 'rows' in 'grid layers LAYERS rows ROWS"),
    ("rows 4", "rows four", 4, "found 'four'"),
    ("rows 4", "rows -1", 4, "found '-1'"),
    ("rows 4", "rows " + "9" * 5000, 4, "expected ROWS"),
    ("rows 4", "rows \u0664", 4, "expected ROWS"),
    ("rows 4 columns 8", "rows 256 columns 256", 4, "more than 16,384 vertices: 2 layers of 256 rows"),
    ("direction column", "direction up", 4, "expected DIRECTION, 'column' or 'row',"),
    ("direction column", "direction", 4, "found the end of the line"),
    ("direction column", "direction column row", 4, "expected the end of the line after 'grid"),
    ("guide 10", "guide 65535", 5, "expected PRICE, a price from 0 to 65534, or 'closed',"),
    ("guide 10", "short 10", 5, "expected 'guide PRICE', found 'short'"),
    ("short closed", "short open", 6, "found 'open'"),
    ("wire 1 via 2", "wire 0 via 2", 7, "expected WIRE, a wire price from 1 to 1023, in 'layer wire WIRE via VIA"),
    ("wire 1 via 2", "wire 1024 via 2", 7, "expected WIRE, a wire price from 1 to 1023,"),
    ("via 2", "via 0", 7, "the via price is 0, below the top layer it must be from 1 to 1023 (refusal 5)"),
    ("via 2", "via 1024", 7, "expected VIA, a via price from 1 to 1023, or 0 on the top layer,"),
    ("via 0", "via 2", 8, "the via price of the top layer is 2, it must be 0 (refusal 5)"),
    ("min 3 area 50", "min 0 area 50", 7, "expected M, a minimum length from 1 to 15,"),
    ("min 3 area 50", "min 16 area 50", 7, "expected M, a minimum length from 1 to 15,"),
    ("layer wire 1 via 2 min 3 area 50\n", "", 8, "expected 'layer wire WIRE"),
    ("run 4", "run 5", 9, "an obstacle lies outside the grid, whole or in part: it runs from (1,0,5) to (1,4,5) (refusal 6)"),
    ("run 4", "run 0", 9, "expected RUN, a number from 1 to 256,"),
    ("obstacle 1", "obstacle 2", 9, "(refusal 6)"),
    ("obstacle 1", "layer 1", 9, "expected 'obstacle', 'net' or the end of the text, found 'layer'"),
    ("  pin 0 0 0\n  pin 0 0 3\n", "", 11, "expected 'pin LAYER ROW COLUMN', found 'box'"),
    ("pin 0 0 3", "pin 0 0 8", 12, "(0,0,8) is outside (refusal 8)"),
    ("pin 0 0 3", "pin 1 2 5", 12, "(1,2,5) is on an obstacle (refusal 8)"),
    ("pin 0 0 3", "pin 0 0 0", 12, "a pin is on the same vertex as an earlier pin: (0,0,0) (refusal 9)"),
    ("pin 0 0 3", "pin 0 3", 12, "expected COLUMN, a number from 0 to 255, in 'pin LAYER ROW COLUMN', found the end"),
    ("columns 0..4", "columns 4..0", 13, "a box has low above high, or is outside the grid: columns 4..0 of 8 (refusal 10)"),
    ("rows 0..3", "rows 0..4", 13, "rows 0..4 of 4 (refusal 10)"),
    ("columns 0..4", "columns 4", 13, "expected COLUMNS, LOW..HIGH with numbers from 0 to 255,"),
    ("columns 0..4", "columns 0..1..2", 13, "found '0..1..2'"),
]


class TextErrors(unittest.TestCase):
    def complaint(self, text: str) -> str:
        with self.assertRaises(InputError) as caught:
            read_text(text, "job.txt")
        message = str(caught.exception)
        self.assertNotIn("\n", message)
        return message

    def test_the_text_is_good_as_it_stands(self):
        job = read_text(GOOD, "job.txt")
        self.assertEqual((len(job.obstacles), len(job.nets), len(job.nets[0].boxes)), (1, 1, 1))

    def test_a_net_of_one_pin_is_good(self):
        one = GOOD.replace("  pin 0 0 3\n", "")
        for text, boxes in ((one, 1), (one[: one.index("  box")], 0)):
            (net,) = read_text(text, "job.txt").nets
            self.assertEqual((len(net.pins), len(net.boxes)), (1, boxes))
        self.assertIn("job.txt:12: expected COLUMNS", self.complaint(one.replace("columns 0..4", "columns 4")))
        self.assertIn("job.txt:12: a box has low above high", self.complaint(one.replace("columns 0..4", "columns 4..0")))
        self.assertIn("job.txt:11: a pin is outside", self.complaint(one.replace("pin 0 0 0", "pin 0 0 8")))

    def test_each_fault_is_told_by_its_line(self):
        for old, new, line, part in SWAPPED:
            with self.subTest(f"{old} -> {new[:20]}"):
                self.assertIn(old, GOOD)
                message = self.complaint(GOOD.replace(old, new, 1))
                self.assertTrue(message.startswith(f"job.txt:{line}: "), message)
                self.assertIn(part, message)

    def test_a_long_word_is_cut(self):
        for old in ("edition", "1\n\ngrid", "8 direction"):
            message = self.complaint(GOOD.replace(old, "9" * 5000 + old, 1))
            self.assertIn("found '" + "9" * 40 + "...'", message)
            self.assertLess(len(message), 200)

    def test_no_line_is_taken_after_a_wrong_one(self):
        taken = []
        lines = (taken.append(line) or line for line in GOOD.replace("grid", "grit").split("\n"))
        with self.assertRaises(InputError):
            read_lines(lines, "job.txt")
        self.assertEqual(len(taken), 4)

    def test_what_follows_the_end(self):
        self.assertIn("job.txt:14: expected 'box', 'net' or the end of the text, found 'pin'", self.complaint(GOOD + "pin 0 0 5\n"))
        self.assertIn("job.txt:14: expected 'pin LAYER ROW COLUMN', found the end of the text", self.complaint(GOOD + "net\n"))

    def test_an_empty_text(self):
        for text in ("", "\n", "# nothing"):
            self.assertEqual(self.complaint(text), "job.txt:1: expected 'edition EDITION', found the end of the text")

    def test_counts_have_ends(self):
        pins = "".join(f"pin 0 {i // 8 + 1} {i % 8}\n" for i in range(17))
        body = GOOD[: GOOD.index("net")]
        read_text(body + "net\n" + pins.rsplit("pin", 1)[0], "job.txt")
        self.assertIn("job.txt:27: expected no more lines 'pin LAYER ROW COLUMN'", self.complaint(body + "net\n" + pins))
        box = "box layers 0..0 rows 0..0 columns 0..0\n"
        read_text(GOOD + 14 * box, "job.txt")
        self.assertIn("job.txt:28: expected no more lines 'box", self.complaint(GOOD + 15 * box))

    def test_fields_have_ends(self):
        for old, new in (
            ("layers 2", "layers 0"), ("rows 4", "rows 0"), ("rows 4", "rows 257"), ("columns 8", "columns 0"),
            ("columns 8", "columns 257"), ("obstacle 1", "obstacle 8"), ("1 0 5", "1 256 5"),
            ("1 0 5", "1 0 256"), ("run 4", "run 257"), ("pin 0", "pin 8"), ("0 0 3", "0 256 3"), ("0 0 3", "0 0 256"),
            ("0..1", "0..8"), ("0..3", "0..256"), ("0..4", "0..256"), ("0..4", "256..256"),
        ):
            with self.subTest(f"{old} -> {new}"):
                self.assertIn(", a number from" if ".." not in old else ", LOW..HIGH", self.complaint(GOOD.replace(old, new, 1)))

    def test_the_highest_values_are_read(self):
        text = GOOD.replace("wire 1 via 2 min 3 area 50", "wire 1023 via 1023 min 15 area 65534").replace("guide 10", "guide 65534")
        job = read_text(text, "job.txt")
        self.assertEqual((job.guide, job.short, job.layers[0]), (65_534, CLOSED, Layer(1023, 1023, 15, 65_534)))
        for size, run in (("rows 1 columns 256", "obstacle 0 0 0 run 256"), ("rows 256 columns 1", "obstacle 1 0 0 run 256")):
            head = GOOD[: GOOD.index("obstacle")].replace("rows 4 columns 8", size)
            self.assertEqual(read_text(f"{head}{run}\n", "job.txt").obstacles[0].run, 256)

    def test_obstacles_have_an_end(self):
        head = GOOD[: GOOD.index("obstacle")]
        past = head.count("\n") + 65_536
        message = self.complaint(head + "obstacle 0 3 7 run 1\n" * 65_536)
        self.assertIn(f"job.txt:{past}: expected no more lines 'obstacle", message)

    def test_nets_have_an_end(self):
        head = "edition 1\ngrid layers 1 rows 32 columns 32 direction row\nguide 0\nshort 0\nlayer wire 1 via 0 min 1 area 0\n"
        net = lambda n: f"net\npin 0 {n // 16} {n % 16 * 2}\npin 0 {n // 16} {n % 16 * 2 + 1}\n"
        nets = "".join(net(n) for n in range(256))
        self.assertEqual(len(read_text(head + nets.rsplit("net", 1)[0], "job.txt").nets), 255)
        self.assertIn("expected no more lines 'net'", self.complaint(head + nets))

    def test_line_ends_and_blanks_do_not_matter(self):
        spread = GOOD.replace("\n", " \r\n").replace(" ", "\t ")
        self.assertEqual(read_text(spread, "job.txt"), read_text(GOOD, "job.txt"))
