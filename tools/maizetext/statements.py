"""The lines of a text that say something, one after the other."""

from typing import Iterable, NamedTuple, Optional

from maizetext.errors import InputError


class Statement(NamedTuple):
    """The words of a line, without its comment, and the line's number from 1 on."""

    line: int
    words: list[str]

    def keyword(self) -> str:
        """What kind of statement it is."""
        return self.words[0]


MOST_SHOWN = 40
"""Characters of a word that a message repeats."""


def shown(word: str) -> str:
    """A word as a message repeats it, cut where it is long."""
    return f"'{word}'" if len(word) <= MOST_SHOWN else f"'{word[:MOST_SHOWN]}...'"


class Statements:
    """A cursor over a text's statements that knows the text's file. It takes a line when it is asked for."""

    def __init__(self, lines: Iterable[str], file: str) -> None:
        self._lines = enumerate(lines, start=1)
        self._ahead: Optional[Statement] = None
        self._last_line = 1
        self.file = file

    def _read(self) -> Optional[Statement]:
        """The next line that says something; `#` begins a comment that ends with its line."""
        for number, line in self._lines:
            if line.rstrip("\n"):
                self._last_line = number
            words = line.split("#", 1)[0].split()
            if words:
                return Statement(number, words)
        return None

    def peek(self) -> Optional[Statement]:
        """The next statement, or none at the end."""
        if self._ahead is None:
            self._ahead = self._read()
        return self._ahead

    def next_is(self, keyword: str) -> bool:
        """Whether the next statement is of this kind."""
        statement = self.peek()
        return statement is not None and statement.keyword() == keyword

    def take(self, expected: str) -> Statement:
        """The next statement; at the end of the text, the error says what was expected."""
        statement = self.peek()
        if statement is None:
            raise self.error(self._last_line, f"expected {expected}, found the end of the text")
        self._ahead = None
        return statement

    def error(self, line: int, message: str) -> InputError:
        """An error that names the file and the line."""
        return InputError(f"{self.file}:{line}: {message}")
