"""All that some names reach: the definitions that they name, those that these name, and so on."""

import re
from typing import Dict, Iterable, List, Set, Tuple, Union

from promises.code import Clause, Code
from promises.errors import SourceError
from promises.scope import Tree
from promises.source import Definition, words
from promises.uses import Uses, clause_uses, definition_uses

Name = Union[Definition, str]
"""A definition, or the full name of something in a library."""


class Reach:
    """The definitions and the library names that are reached."""

    def __init__(self) -> None:
        self.definitions: Set[Definition] = set()
        self.library: Set[str] = set()

    def lines(self, path: str) -> int:
        """The lines of the definitions that stand in a file."""
        return sum(len(one.lines) for one in self.definitions if one.path == path)


def follow(tree: Tree, names: Iterable[Name]) -> Reach:
    """What names reach."""
    reach = Reach()
    fields: Dict[str, str] = {}
    waiting = list(names)
    while waiting:
        name = waiting.pop()
        if isinstance(name, str):
            reach.library.add(name)
        elif name not in reach.definitions:
            reach.definitions.add(name)
            uses = uses_of(tree, name)
            fields.update(dict.fromkeys(uses.fields, uses.where))
            waiting += uses.names
    check_fields(reach, fields)
    return reach


def follow_clause(tree: Tree, path: str, clause: Clause) -> List[Reach]:
    """What each name of a clause reaches, the type of the function's result among them."""
    uses = clause_uses(clause, tree.scope(path), path)
    result = tree.file(path).types.get(clause.result)
    apart = [follow(tree, [name]) for name in [*uses.names, *([result] if result else [])]]
    check_fields(union(apart), dict.fromkeys(uses.fields, uses.where))
    return apart


def meaning(tree: Tree, path: str, clause: Clause) -> Tuple[str, Tuple[str, ...], str, List[str], Set[Name]]:
    """All that a clause says, to be compared: its parts, its words without their layout, and what these stand for."""
    uses = clause_uses(clause, tree.scope(path), path)
    return clause.name, clause.bound, clause.result, words(clause.text), set(uses.names)


def union(reaches: Iterable[Reach]) -> Reach:
    """What any of them reaches."""
    whole = Reach()
    for one in reaches:
        whole.definitions |= one.definitions
        whole.library |= one.library
    return whole


def uses_of(tree: Tree, definition: Definition) -> Uses:
    """What a definition names, in the antt or in the code."""
    if definition.kind not in ("struct", "enum"):
        return definition_uses(definition, tree.scope(definition.path))
    uses = Uses(tree.scope(definition.path), definition.path)
    uses.names += [declared_type(tree, tree.file(definition.path), name) for name in type_names(definition)]
    return uses


def type_names(definition: Definition) -> List[str]:
    """The declared types that a struct's fields or an enum's variants hold."""
    held = [re.split(r"[:(]", line, maxsplit=1)[1:] for line in definition.lines]
    return [name for text in held for name in re.findall(r"\b[A-Z]\w*", text[0] if text else "")]


def declared_type(tree: Tree, code: Code, name: str) -> Definition:
    """A type by its name in a file of code."""
    if name in code.types:
        return code.types[name]
    if name not in code.uses:
        raise SourceError(f"{code.path}: what is {name}?")
    crate, *within, last = code.uses[name].split("::")
    crate = code.path.split("/")[1] if crate == "crate" else crate
    return tree.declared(f"crates/{crate}/src/{'/'.join(within) or 'lib'}.rt", last)


def check_fields(reach: Reach, fields: Dict[str, str]) -> None:
    """A field that is named, each with a place, must be one of a record or a struct that is reached."""
    known = {part for one in reach.definitions if one.kind in ("record", "struct") for part in one.parts}
    for name, where in sorted(fields.items()):
        if name not in known and not name.isdigit():
            raise SourceError(f"{where}: of what is .{name} a field?")
