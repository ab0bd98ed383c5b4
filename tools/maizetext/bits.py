"""Fields of bits in bytes, most significant bit first."""

from maizetext.refusals import Refused


class BitWriter:
    """Puts fields one after the other; zero bits fill the last byte."""

    def __init__(self) -> None:
        self._fields: list[str] = []

    def put(self, value: int, width: int) -> None:
        """A field that the value fits."""
        if not 0 <= value < 1 << width:
            raise ValueError(f"{value} does not fit {width} bits")
        self._fields.append(format(value, f"0{width}b"))

    def to_bytes(self) -> bytes:
        """All that was put, with its fill."""
        bits = "".join(self._fields)
        bits += "0" * (-len(bits) % 8)
        return int(bits or "0", 2).to_bytes(len(bits) // 8, "big")


class BitReader:
    """Holds a bit position and moves on by each field's width."""

    def __init__(self, data: bytes) -> None:
        self._data = data
        self.position = 0

    def left(self) -> int:
        """Bits from the position to the end."""
        return len(self._data) * 8 - self.position

    def group(self, width: int, refusal: int) -> int:
        """The first bit of a group that must be whole."""
        if self.left() < width:
            raise Refused(refusal, self.position, f"{width} bits are needed, {self.left()} are left")
        return self.position

    def take(self, width: int) -> int:
        """The next field; it lies in the bytes."""
        end = self.position + width
        covering = self._data[self.position // 8 : (end + 7) // 8]
        self.position = end
        return int.from_bytes(covering, "big") >> -end % 8 & (1 << width) - 1

    def tail_is_fill(self) -> bool:
        """Whether less than a byte is left, and all of it zero."""
        if self.left() >= 8:
            return False
        return self.take(self.left()) == 0
