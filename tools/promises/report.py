"""The promises of the public calls, and what is said of them."""

from pathlib import Path
from typing import Dict, Iterator, List, Sequence, Set, Tuple

from promises.code import Clause
from promises.errors import SourceError
from promises.follow import Reach, follow_clause, meaning, union
from promises.scope import Tree
from promises.source import Definition, Source

CALLS = {
    "maizespell_sizing": "crates/router/src/sizing.rt",
    "maizespell_replay": "crates/router/src/replay_call.rt",
    "maizespell_report": "crates/router/src/report_call.rt",
    "maizespell_routing": "crates/router/src/routing_call.rt",
}
EXPORTS = "crates/router_c/src/lib.rt"
"""Where C finds the library's calls: each must promise there what it does in its own file."""
PROGRAM = {"line_of": "crates/maizespell/src/line.rt"}
Claims = Sequence[Tuple[str, str]]
CLAIMS = (("crates/plan/specs/Claim.antt", "Cheapest"), ("crates/plan/specs/Claim.antt", "ByTies"))
"""A word of a promise that leads to one of these is the claim, or part of it."""
COLUMNS = ("claim", "promise", "calls", "all")


class Promises:
    """What is reached by the claim, by the promises that make it, by the library's calls, and by all."""

    def __init__(
        self, root: Path, calls: Dict[str, str], program: Dict[str, str], claims: Claims, exports: str = ""
    ) -> None:
        self.tree = Tree(root)
        self.claims = claims
        in_calls = [reach for function, path in calls.items() for reach in self.clauses(function, path)]
        others = [reach for function, path in program.items() for reach in self.clauses(function, path)]
        for function, path in calls.items() if exports else ():
            if self.meaning(function, path) != self.meaning(function, exports):
                raise SourceError(f"{exports}: {function} does not promise what it does in {path}")
        claiming = [apart for apart in [*in_calls, *others] if any(map(self.claimed, apart))]
        if not claiming:
            raise SourceError("no promise makes the claim")
        self.reached = {
            "claim": union(one for apart in claiming for one in apart if self.claimed(one)),
            "promise": union(one for apart in claiming for one in apart),
            "calls": union(one for apart in in_calls for one in apart),
            "all": union(one for apart in [*in_calls, *others] for one in apart),
        }
        self.files = reading_order(self.tree, {one.path for one in self.reached["all"].definitions})

    def contract(self, function: str, path: str) -> List[Clause]:
        """The clauses of a function's contract."""
        clauses = [one for one in self.tree.file(path).clauses if one.function == function]
        if not clauses:
            raise SourceError(f"{path}: no promise of {function}")
        return clauses

    def meaning(self, function: str, path: str) -> List[Tuple]:
        """All that the clauses of a function's contract say."""
        return [meaning(self.tree, path, clause) for clause in self.contract(function, path)]

    def clauses(self, function: str, path: str) -> List[List[Reach]]:
        """For each clause of a function's contract, what each name of it reaches."""
        return [follow_clause(self.tree, path, clause) for clause in self.contract(function, path)]

    def claimed(self, reach: Reach) -> bool:
        """Whether a word that reaches so much makes the claim."""
        return any((one.path, one.name) in self.claims for one in reach.definitions)

    def total(self, column: str, ending: str = ".antt") -> int:
        """The lines of definitions that a column reaches, or of the code's types."""
        return sum(self.reached[column].lines(path) for path in self.files if path.endswith(ending))

    def rests_on(self, definition: Definition) -> bool:
        """Whether any promise reaches a definition."""
        return definition in self.reached["all"].definitions


def reading_order(tree: Tree, paths: Set[str]) -> List[str]:
    """Files, each after those that it imports; the code's types come first."""
    order = sorted(path for path in paths if path.endswith(".rt"))

    def visit(path: str) -> None:
        if path in paths and path not in order:
            for other in tree.scope(path).imported:
                visit(other)
            order.append(path)

    for path in sorted(paths):
        visit(path)
    return order


def table(promises: Promises) -> Iterator[str]:
    """A row for each file of definitions: what each column reaches of it, all its lines; then the sums."""
    row = "{:<36}" + "{:>8}" * 5
    specs = [path for path in promises.files if path.endswith(".antt")]
    yield row.format("file", *COLUMNS, "of")
    for path in specs:
        counts = [promises.reached[column].lines(path) for column in COLUMNS]
        yield row.format(path, *counts, promises.tree.file(path).count())
    yield row.format("total", *map(promises.total, COLUMNS), sum(promises.tree.file(path).count() for path in specs))
    types = [promises.total(column, ".rt") for column in COLUMNS]
    yield row.format("besides: types of the code", *types, "").rstrip()


def in_order(promises: Promises) -> Iterator[str]:
    """The definitions that are reached, in reading order, with their lines; an asterisk marks the claim's."""
    for path in promises.files:
        yield path
        for one in definitions_of(promises.tree, path):
            if promises.rests_on(one):
                mark = "*" if one in promises.reached["claim"].definitions else " "
                yield f"  {mark} {len(one.lines):>3}  {one.name}"


def definitions_of(tree: Tree, path: str) -> List[Definition]:
    """The definitions of a file, as they stand in it."""
    file = tree.file(path)
    return list(file.definitions.values() if isinstance(file, Source) else file.types.values())


def unreached(promises: Promises) -> Iterator[str]:
    """The definitions of the listed files that no promise reaches."""
    for path in promises.files:
        left = [one.name for one in definitions_of(promises.tree, path) if not promises.rests_on(one)]
        if left and path.endswith(".antt"):
            yield f"{path}: {', '.join(left)}"


def library(promises: Promises) -> Iterator[str]:
    """The names of libraries that the definitions rest on, module by module."""
    modules: Dict[str, List[str]] = {}
    for full in sorted(promises.reached["all"].library):
        module, _, name = full.rpartition(".")
        modules.setdefault(module, []).append(name)
    yield from (f"{module}: {', '.join(names)}" for module, names in modules.items())
