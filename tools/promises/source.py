"""An antt file: its imports and its definitions, each with its lines but blank ones and comments."""

import re
from dataclasses import dataclass, field
from typing import Dict, List, Optional, Tuple

from promises.errors import SourceError

TYPE = re.compile(r"(?:pub )?(data|record) (\S+)")
SIGNATURE = re.compile(r"(?:(?:unfoldable|abbrev|pub) )*([^\s(){}]+)(?: \{[^}]*\})* :(?: |$)")
WORD = re.compile(r"\[\]|[()\[\]{};,⌜⌝]|[^\s()\[\]{};,⌜⌝]+")


@dataclass(eq=False)
class Definition:
    """A function, data, record, `module _` header, or a type declared in the code."""
    path: str
    name: str
    kind: str
    lines: List[str]
    module: Optional["Definition"] = None
    parts: Tuple[str, ...] = ()
    """The constructors of a data or an enum, the fields of a record or a struct."""


@dataclass
class Source:
    """A file of definitions."""
    path: str
    imports: List[str] = field(default_factory=list)
    definitions: Dict[str, Definition] = field(default_factory=dict)
    modules: List[Definition] = field(default_factory=list)

    def count(self) -> int:
        """Its lines without imports."""
        return sum(len(one.lines) for one in [*self.definitions.values(), *self.modules])


def words(text: str) -> List[str]:
    """A text cut into words and brackets."""
    return WORD.findall(text)


def indent(line: str) -> int:
    """How far a line is indented."""
    return len(line) - len(line.lstrip())


def items(lines: List[str]) -> List[List[str]]:
    """Lines in groups: one that is indented no further than the first, and those below it that are."""
    groups: List[List[str]] = []
    for line in lines:
        if groups and indent(line) > indent(lines[0]):
            groups[-1].append(line)
        else:
            groups.append([line])
    return groups


def code_lines(text: str) -> List[str]:
    """The lines that are neither blank nor comments."""
    return [line.rstrip() for line in text.splitlines() if line.strip() and not line.strip().startswith("--")]


def read_source(path: str, text: str) -> Source:
    """The definitions of a file."""
    source = Source(path)
    read_items(source, items(code_lines(text)), None)
    return source


def read_items(source: Source, groups: List[List[str]], module: Optional[Definition]) -> None:
    """The items of a file, or of a module in it."""
    for group in groups:
        head = group[0].strip()
        if head.startswith("use "):
            source.imports.append(" ".join(line.strip() for line in group))
        elif head.startswith("module _ ") and head.endswith(" where"):
            header = Definition(source.path, head, "module", group[:1], module)
            source.modules.append(header)
            read_items(source, items(group[1:]), header)
        elif not head.startswith("pub mod "):
            read_definition(source, group, module)


def read_definition(source: Source, group: List[str], module: Optional[Definition]) -> None:
    """A type, a signature, or a clause of a function whose signature came before."""
    head = group[0].strip()
    kind = TYPE.match(head)
    signature = SIGNATURE.match(head)
    if kind:
        add(source, Definition(source.path, kind[2], kind[1], group, module, parts_of(group)))
    elif signature:
        add(source, Definition(source.path, signature[1], "function", list(group), module))
    elif words(head)[0] in source.definitions:
        source.definitions[words(head)[0]].lines += group
    else:
        raise SourceError(f"{source.path}: no definition: {head}")


def add(source: Source, definition: Definition) -> None:
    """A definition of a new name."""
    if definition.name in source.definitions:
        raise SourceError(f"{source.path}: defined twice: {definition.name}")
    source.definitions[definition.name] = definition


def body_of(group: List[str]) -> Tuple[List[str], List[List[str]]]:
    """The header of a type, up to its `where`, and its constructors or fields."""
    for at, line in enumerate(group):
        if line.endswith(" where"):
            return group[:at + 1], items(group[at + 1:])
    raise SourceError(f"no where: {group[0].strip()}")


def names_of(item: List[str]) -> List[str]:
    """What a constructor or a field declares: the names before its colon."""
    given = words(item[0])
    return [name for name in given[:given.index(":")] if name != "pub"]


def parts_of(group: List[str]) -> Tuple[str, ...]:
    """The names of a type's constructors or fields."""
    return tuple(name for item in body_of(group)[1] for name in names_of(item))
