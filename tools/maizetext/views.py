"""What one net sees at a vertex."""

from maizetext.grid import Vertex
from maizetext.job import Job

Metal = list[set[Vertex]]
"""For each net the vertices that its metal covers."""


class Board:
    """What a job says of its vertices, the same for all nets and all joins."""

    def __init__(self, job: Job) -> None:
        self.job = job
        self.obstacles = job.covered()
        self.pin_owner = {pin: index for index, net in enumerate(job.nets) for pin in net.pins}


class View:
    """What a net sees while others have their metal. It does not see its own."""

    def __init__(self, board: Board, net: int, metal: Metal) -> None:
        self.board = board
        self.job = board.job
        self.net = net
        self._taken = set().union(*(own for other, own in enumerate(metal) if other != net))
        self._boxes = board.job.nets[net].boxes

    def blocked(self, v: Vertex) -> str:
        """Why no move may enter the vertex: an obstacle or another net's pin. Nothing where one may."""
        if v in self.board.obstacles:
            return f"{v} is an obstacle"
        owner = self.board.pin_owner.get(v, self.net)
        return f"{v} is a pin of net {owner + 1}" if owner != self.net else ""

    def taken(self, v: Vertex) -> bool:
        """Another net's metal, extensions included, covers the vertex."""
        return v in self._taken

    def guided(self, v: Vertex) -> bool:
        """The vertex lies in one of the net's boxes; with no boxes, every vertex does."""
        return not self._boxes or any(box.holds(v) for box in self._boxes)

    def clear(self, v: Vertex) -> bool:
        """In the grid, no obstacle, no other net's pin, not taken."""
        return self.job.grid.holds(v) and not self.blocked(v) and not self.taken(v)
