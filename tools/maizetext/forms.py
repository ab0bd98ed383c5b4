"""What a line of the text form may say: keywords and fields, as in `obstacle LAYER ROW COLUMN run RUN`."""

from dataclasses import dataclass
from typing import Any, Callable, Optional

from maizetext.job import CLOSED
from maizetext.statements import Statement, Statements, shown

Parse = Callable[[str], Optional[Any]]


@dataclass(frozen=True)
class Field:
    """How a word is read, and in words what is expected there. A word that is no such thing reads as none."""

    expected: str
    parse: Parse


def number(word: str, low: int, high: int) -> Optional[int]:
    """A decimal number in a range."""
    if not (word.isascii() and word.isdigit()) or len(word) > 9:
        return None
    return int(word) if low <= int(word) <= high else None


def span(word: str, high: int) -> Optional[tuple[int, int]]:
    """Two numbers with `..` between."""
    ends = [number(end, 0, high) for end in word.split("..")]
    return tuple(ends) if len(ends) == 2 and None not in ends else None


def numbers(low: int, high: int, what: str = "a number") -> Field:
    """A number from low to high."""
    return Field(f"{what} from {low} to {high}", lambda word: number(word, low, high))


def spans(high: int) -> Field:
    """A span of numbers up to high."""
    return Field(f"LOW..HIGH with numbers from 0 to {high}", lambda word: span(word, high))


def price(word: str) -> Optional[int]:
    """A penalty's price."""
    return CLOSED if word == "closed" else number(word, 0, CLOSED - 1)


PRICE = Field(f"a price from 0 to {CLOSED - 1}, or 'closed'", price)
DIRECTION = Field("'column' or 'row'", {"column": 0, "row": 1}.get)


class Form:
    """The words of a statement in order: keywords in small letters, names of fields in capitals."""

    def __init__(self, words: str, **fields: Field) -> None:
        self.words = words.split()
        self.fields = fields
        self.keyword = self.words[0]

    def __str__(self) -> str:
        return f"'{' '.join(self.words)}'"

    def read(self, statements: Statements) -> tuple[int, list[Any]]:
        """The next statement by this form: its line, and its fields' values in order."""
        statement = statements.take(str(self))
        if statement.keyword() != self.keyword:
            raise statements.error(statement.line, f"expected {self}, found {shown(statement.keyword())}")
        values = []
        for index, word in enumerate(self.words):
            found = statement.words[index] if index < len(statement.words) else None
            value = self._value(word, found)
            if value is None:
                raise statements.error(statement.line, self._complaint(word, found))
            if word in self.fields:
                values.append(value)
        self._check_end(statement, statements)
        return statement.line, values

    def _value(self, word: str, found: Optional[str]) -> Optional[Any]:
        """What is found at a word of the form, or none where something else was expected."""
        if found is None:
            return None
        if word in self.fields:
            return self.fields[word].parse(found)
        return found if found == word else None

    def _complaint(self, word: str, found: Optional[str]) -> str:
        expected = f"{word}, {self.fields[word].expected}," if word in self.fields else f"'{word}'"
        said = "the end of the line" if found is None else shown(found)
        return f"expected {expected} in {self}, found {said}"

    def _check_end(self, statement: Statement, statements: Statements) -> None:
        if len(statement.words) > len(self.words):
            more = statement.words[len(self.words)]
            raise statements.error(statement.line, f"expected the end of the line after {self}, found {shown(more)}")


LAYER, ROW, COLUMN = numbers(0, 7), numbers(0, 255), numbers(0, 255)

EDITION_FORM = Form("edition EDITION", EDITION=Field("which is 1", lambda word: number(word, 1, 1)))
GRID_FORM = Form(
    "grid layers LAYERS rows ROWS columns COLUMNS direction DIRECTION",
    LAYERS=numbers(1, 8),
    ROWS=numbers(1, 256),
    COLUMNS=numbers(1, 256),
    DIRECTION=DIRECTION,
)
GUIDE_FORM = Form("guide PRICE", PRICE=PRICE)
SHORT_FORM = Form("short PRICE", PRICE=PRICE)
LAYER_FORM = Form(
    "layer wire WIRE via VIA min M area PRICE",
    WIRE=numbers(1, 1023, "a wire price"),
    VIA=Field("a via price from 1 to 1023, or 0 on the top layer", lambda word: number(word, 0, 1023)),
    M=numbers(1, 15, "a minimum length"),
    PRICE=PRICE,
)
OBSTACLE_FORM = Form("obstacle LAYER ROW COLUMN run RUN", LAYER=LAYER, ROW=ROW, COLUMN=COLUMN, RUN=numbers(1, 256))
NET_FORM = Form("net")
PIN_FORM = Form("pin LAYER ROW COLUMN", LAYER=LAYER, ROW=ROW, COLUMN=COLUMN)
BOX_FORM = Form("box layers LAYERS rows ROWS columns COLUMNS", LAYERS=spans(7), ROWS=spans(255), COLUMNS=spans(255))
