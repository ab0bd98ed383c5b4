"""Where a layer stands in the picture: row 0 is at the bottom, column 0 at the left."""

from dataclasses import dataclass

from maizetext.grid import Grid, Vertex

LEFT, TOP, GAP = 30, 34, 24
"""Room for row numbers, for a layer's title, and between layers."""


def cell_size(grid: Grid) -> int:
    """The distance of neighbours, smaller in larger grids."""
    return max(5, min(28, 560 // max(grid.rows, grid.columns)))


@dataclass(frozen=True)
class Panel:
    """One layer's part of the picture."""

    grid: Grid
    layer: int

    @property
    def cell(self) -> int:
        """The distance of neighbours."""
        return cell_size(self.grid)

    @property
    def left(self) -> int:
        """The x of the grid's left edge: layers stand side by side."""
        return LEFT + self.layer * (self.width + LEFT + GAP)

    @property
    def width(self) -> int:
        """All columns; never too narrow for the title."""
        return max(self.grid.columns * self.cell, 132)

    @property
    def height(self) -> int:
        """All rows."""
        return self.grid.rows * self.cell

    def x(self, column: float) -> float:
        """The middle of a column."""
        return self.left + (column + 0.5) * self.cell

    def y(self, row: float) -> float:
        """The middle of a row."""
        return TOP + self.height - (row + 0.5) * self.cell

    def at(self, v: Vertex) -> tuple[float, float]:
        """A vertex's point."""
        return self.x(v.column), self.y(v.row)

    def label_every(self) -> int:
        """Rows and columns from one number to the next."""
        return 1 if self.cell >= 16 else 5 if self.cell >= 8 else 10
