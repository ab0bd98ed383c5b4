"""The text form of a job to a good job. Errors name the file, the line and what was expected.

The rules of a job are those of its bytes: the text's job is packed and read again, and a refusal's place is told by the
line whose group holds that bit.
"""

from bisect import bisect_right
from typing import Any, Iterable, Iterator

from maizetext.errors import InputError
from maizetext.forms import (
    BOX_FORM, EDITION_FORM, GRID_FORM, GUIDE_FORM, LAYER_FORM, NET_FORM, OBSTACLE_FORM, PIN_FORM, SHORT_FORM, Form
)
from maizetext.grid import Grid, Vertex
from maizetext.job import MOST_BOXES, MOST_NETS, MOST_OBSTACLES, MOST_PINS, Box, Job, Layer, Net, Obstacle
from maizetext.job_packing import group_starts, pack_job
from maizetext.job_reading import read_job
from maizetext.refusals import Refused
from maizetext.statements import Statements, shown


def read_text(text: str, file: str) -> Job:
    """A good job from its text form; `file` names it in errors."""
    return read_lines(text.split("\n"), file)


def read_lines(lines: Iterable[str], file: str) -> Job:
    """A good job from the lines of its text form. No line is taken after the first that is wrong."""
    reader = TextReader(Statements(lines, file))
    job = reader.job()
    try:
        read_job(pack_job(job))
    except Refused as refused:
        line = reader.line_of(job, refused.place)
        raise InputError(f"{file}:{line}: {refused.rule()} (refusal {refused.number})") from None
    return job


class TextReader:
    """Reads statements in the order of the bytes, and keeps the line of each group of bits."""

    def __init__(self, statements: Statements) -> None:
        self._statements = statements
        self._lines: list[int] = []

    def line_of(self, job: Job, place: int) -> int:
        """The line of the group that holds a bit of the job."""
        return self._lines[bisect_right(list(group_starts(job)), place) - 1]

    def job(self) -> Job:
        """The whole text, not yet judged by the rules of a job."""
        EDITION_FORM.read(self._statements)
        layers, rows, columns, direction = self._group(GRID_FORM)
        grid = Grid(direction, layers, rows, columns)
        guide = self._value(GUIDE_FORM)
        short = self._value(SHORT_FORM)
        lines = tuple(Layer(*self._group(LAYER_FORM)) for _ in range(layers))
        obstacles = tuple(
            Obstacle(Vertex(*values[:3]), values[3]) for values in self._while(OBSTACLE_FORM, MOST_OBSTACLES)
        )
        nets = tuple(self._net() for _ in self._while(NET_FORM, MOST_NETS))
        self._end(nets)
        return Job(grid, guide, short, lines, obstacles, nets)

    def _value(self, form: Form) -> Any:
        """A statement of one field that belongs to the head."""
        _, (value,) = form.read(self._statements)
        return value

    def _group(self, form: Form) -> list[Any]:
        """A statement that is a group of bits of its own."""
        line, values = form.read(self._statements)
        self._lines.append(line)
        return values

    def _while(self, form: Form, most: int) -> Iterator[list[Any]]:
        """Statements of one kind, as long as they come, and at most so many."""
        count = 0
        while self._statements.next_is(form.keyword):
            values = self._group(form)
            count += 1
            if count > most:
                raise self._statements.error(self._lines[-1], f"expected no more lines {form} here, found one")
            yield values

    def _net(self) -> Net:
        """Pins, then boxes, of a net whose first line is read."""
        first = Vertex(*self._group(PIN_FORM))
        others = tuple(Vertex(*values) for values in self._while(PIN_FORM, MOST_PINS - 1))
        boxes = tuple(box_of(values) for values in self._while(BOX_FORM, MOST_BOXES))
        return Net((first, *others), boxes)

    def _end(self, nets: tuple[Net, ...]) -> None:
        """Nothing follows the last net."""
        statement = self._statements.peek()
        if statement is None:
            return
        expected = "'obstacle'" if not nets else "'box'" if nets[-1].boxes else "'pin', 'box'"
        found = f"found {shown(statement.keyword())}"
        raise self._statements.error(statement.line, f"expected {expected}, 'net' or the end of the text, {found}")


def box_of(spans: list[tuple[int, int]]) -> Box:
    """The box of a span of layers, of rows and of columns."""
    return Box(Vertex(*(low for low, _ in spans)), Vertex(*(high for _, high in spans)))
