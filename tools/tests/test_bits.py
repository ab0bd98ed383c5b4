"""Fields of bits."""

import unittest

import support  # noqa: F401
from maizetext.bits import BitReader, BitWriter
from maizetext.refusals import Refused


class Bits(unittest.TestCase):
    def test_the_first_bit_is_the_most_significant(self):
        bits = BitWriter()
        for value, width in ((1, 1), (0b0110, 4), (0b10_0000_0001, 10)):
            bits.put(value, width)
        self.assertEqual(bits.to_bytes(), bytes([0b1011_0100, 0b0000_0010]))

    def test_fields_are_read_back(self):
        fields = [(5, 3), (0, 8), (255, 8), (1023, 10), (1, 1), (2**40 - 2, 40)]
        writer = BitWriter()
        for value, width in fields:
            writer.put(value, width)
        reader = BitReader(writer.to_bytes())
        self.assertEqual([(reader.take(width), width) for _, width in fields], fields)
        self.assertEqual((reader.position, reader.left()), (70, 2))
        self.assertTrue(reader.tail_is_fill())

    def test_a_value_must_fit_its_field(self):
        for value in (8, -1):
            with self.assertRaises(ValueError):
                BitWriter().put(value, 3)

    def test_a_group_must_be_whole(self):
        reader = BitReader(b"\x00\x00")
        reader.take(3)
        self.assertEqual(reader.group(13, 2), 3)
        with self.assertRaises(Refused) as caught:
            reader.group(14, 2)
        self.assertEqual((caught.exception.number, caught.exception.place), (2, 3))

    def test_fill_is_zero_and_less_than_a_byte(self):
        for data, taken, fill in ((b"\xf0", 4, True), (b"\xf1", 4, False), (b"\xf0\x00", 4, False), (b"\xf0\x00", 8, False)):
            reader = BitReader(data)
            reader.take(taken)
            self.assertEqual(reader.tail_is_fill(), fill)

    def test_no_bits_are_no_bytes(self):
        self.assertEqual(BitWriter().to_bytes(), b"")
