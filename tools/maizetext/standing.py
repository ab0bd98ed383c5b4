"""What stands while a net is joined: its tree, its unjoined pins and the metal of every net."""

from maizetext.grid import Vertex
from maizetext.steps import Made
from maizetext.views import Board, Metal, View


def metal_at_first(board: Board) -> Metal:
    """Every pin is metal of its net from the start, joined or not."""
    return [set(net.pins) for net in board.job.nets]


class Standing:
    """The net at hand among the metal of all."""

    def __init__(self, board: Board, net: int, metal: Metal) -> None:
        first, *others = board.job.nets[net].pins
        self.tree = {first}
        self.unjoined = others
        self.view = View(board, net, metal)
        self._own = metal[net]

    def join(self, moves: list[Made]) -> None:
        """The join's vertices enter the tree; its extensions are metal, by themselves no starting point."""
        entered: set[Vertex] = {made.place.vertex for made in moves}
        self.tree |= entered
        self._own |= entered.union(*(made.over.laid for made in moves))
        self.unjoined.remove(moves[-1].place.vertex)
