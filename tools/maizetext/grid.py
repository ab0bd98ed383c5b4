"""Vertices, moves and the grid."""

from dataclasses import dataclass
from typing import Iterator, NamedTuple, Optional

LOW, HIGH, DOWN, UP = range(4)
MOVES = ("low", "high", "down", "up")


class Vertex(NamedTuple):
    """A vertex by layer, row and column; it need not be in a grid."""

    layer: int
    row: int
    column: int

    def __str__(self) -> str:
        return f"({self.layer},{self.row},{self.column})"


@dataclass(frozen=True)
class Grid:
    """Direction 0: a step on layer 0 changes the column; 1: the row. Layers alternate upward."""

    direction: int
    layers: int
    rows: int
    columns: int

    def vertices(self) -> int:
        """How many there are."""
        return self.layers * self.rows * self.columns

    def holds(self, v: Vertex) -> bool:
        """Whether the vertex is inside."""
        return 0 <= v.layer < self.layers and 0 <= v.row < self.rows and 0 <= v.column < self.columns

    def changes_column(self, layer: int) -> bool:
        """Whether a step on the layer changes the column, not the row."""
        return (self.direction + layer) % 2 == 0

    def along(self, v: Vertex, steps: int) -> Vertex:
        """So many steps along the vertex's track, low if negative; it may be outside."""
        if self.changes_column(v.layer):
            return Vertex(v.layer, v.row, v.column + steps)
        return Vertex(v.layer, v.row + steps, v.column)

    def run(self, v: Vertex, length: int) -> Iterator[Vertex]:
        """So many vertices high along the track, from this one on."""
        return (self.along(v, step) for step in range(length))

    def entered(self, v: Vertex, move: int) -> Optional[Vertex]:
        """The vertex that a move enters, or none outside the grid."""
        if move in (LOW, HIGH):
            w = self.along(v, -1 if move == LOW else 1)
        else:
            w = Vertex(v.layer + (1 if move == UP else -1), v.row, v.column)
        return w if self.holds(w) else None
