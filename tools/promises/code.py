"""A Rattle file: the types that it declares, and the contracts of its functions."""

import re
from dataclasses import dataclass, field
from typing import Dict, List, Tuple

from promises.errors import SourceError
from promises.source import Definition

DECLARED = re.compile(r"(?:pub(?:\(crate\))? )?(struct|enum) (\w+)")
PART = re.compile(r"(?:pub(?:\(crate\))? )?(\w+)[:,(]")
CLAUSE = re.compile(r"\b(requires|ensures)\b\*?\s*(\w*)\s*\{")


@dataclass
class Clause:
    """A clause of a contract, with the words that the function's head binds and the type of its result. What is
    returned is bound too, as `result`, where it is told what holds of it."""
    function: str
    name: str
    text: str
    bound: Tuple[str, ...]
    result: str


@dataclass
class Code:
    """A file of code."""
    path: str
    imports: List[str] = field(default_factory=list)
    types: Dict[str, Definition] = field(default_factory=dict)
    uses: Dict[str, str] = field(default_factory=dict)
    clauses: List[Clause] = field(default_factory=list)

    def count(self) -> int:
        """The lines of its declared types."""
        return sum(len(one.lines) for one in self.types.values())


def read_code(path: str, text: str) -> Code:
    """The types, imports and contracts of a file."""
    code = Code(path)
    lines = [line for line in text.splitlines() if line.strip() and not line.strip().startswith("//")]
    for at, line in enumerate(lines):
        if line.startswith("ghost use "):
            code.imports.append(statement(lines[at:])[len("ghost "):])
        elif line.startswith("use "):
            code.uses.update(used(statement(lines[at:])[len("use "):]))
        elif DECLARED.match(line):
            declared = read_type(path, lines[at:])
            code.types[declared.name] = declared
        elif re.match(r"pub\b.*\bfn \w+\(", line):
            code.clauses += read_clauses(lines[at:])
    return code


def statement(lines: List[str]) -> str:
    """The text from the first line on, up to a semicolon, in one line."""
    end = next((at for at, line in enumerate(lines) if line.endswith(";")), 0)
    return " ".join(line.strip() for line in lines[:end + 1]).rstrip(";")


def used(text: str) -> Dict[str, str]:
    """The paths that an import of code brings, one or several in braces, each by its last name."""
    before, _, several = text.partition("{")
    paths = [before + one.strip() for one in several.rstrip("}").split(",") if one.strip()] or [text]
    return {path.split("::")[-1]: path for path in paths}


def read_type(path: str, lines: List[str]) -> Definition:
    """A struct or an enum."""
    kind, name = DECLARED.match(lines[0]).groups()
    size = 1 if lines[0].endswith(";") else lines.index("}") + 1
    parts = [PART.match(line.strip()) for line in lines[1:size - 1]]
    return Definition(path, name, kind, lines[:size], None, tuple(part[1] for part in parts if part))


def read_clauses(lines: List[str]) -> List[Clause]:
    """The contract of a function whose head begins here; its body begins with a brace alone."""
    if "{" not in lines or lines[0].endswith("{"):
        return []
    head = "\n".join(lines[:lines.index("{")])
    function = re.search(r"fn (\w+)\(", head)[1]
    contract = CLAUSE.search(head)
    signature = head[:contract.start()] if contract else head
    given = tuple(re.findall(r"(\w+):", signature))
    bound = {"requires": given, "ensures": (*given, "result")}
    result = re.search(r"-> (\w+)", signature)
    return [
        Clause(function, found[2] or found[1], braced(head, found.end()), bound[found[1]], result[1] if result else "")
        for found in CLAUSE.finditer(head)
    ]


def braced(text: str, start: int) -> str:
    """The text from a place on, up to the brace that closes it."""
    depth = 1
    for at in range(start, len(text)):
        depth += {"{": 1, "}": -1}.get(text[at], 0)
        if depth == 0:
            return text[start:at]
    raise SourceError(f"a brace is not closed: {text[start:start + 40]}")
