"""What a word of a file means: a definition of the repository, a name of a library, or nothing known."""

import re
from dataclasses import dataclass, replace
from pathlib import Path
from typing import Dict, Iterator, List, Optional, Tuple, Union

from promises.code import Code, read_code
from promises.errors import SourceError
from promises.source import Definition, Source, read_source

IMPORT = re.compile(r"use (\S+?)(?:\.\{(.*)\}| as (\S+))$")
LIBRARY_CONSTRUCTORS = {"zero", "suc", "true", "false", "[]", "◌∷◌", "tt"}
ARGUMENT = "◌"
"""Where a sign's full name has an argument."""


@dataclass(frozen=True)
class Found:
    """What a name stands for: a definition, or the text of a library's name; and the fields written behind it."""
    target: Union[Definition, str]
    constructor: bool = False
    fields: Tuple[str, ...] = ()

    def followed_by(self, parts: List[str]) -> Optional["Found"]:
        """The same with parts behind it: fields, but behind a type's name one of its constructors comes first."""
        if self.constructor or not has_constructors(self.target):
            return replace(self, fields=tuple(parts))
        if isinstance(self.target, Definition) and parts[0] not in self.target.parts:
            return None
        return Found(self.target, True, tuple(parts[1:]))


def has_constructors(target: Union[Definition, str]) -> bool:
    """Whether a name is that of a type with constructors. Of a library's name the first letter tells."""
    if isinstance(target, Definition):
        return target.kind in ("data", "enum")
    return target.rpartition(".")[2][:1].isupper()


class Tree:
    """The files of a repository, each read once."""

    def __init__(self, root: Path) -> None:
        self.root = root
        self.files: Dict[str, Union[Source, Code]] = {}
        self.scopes: Dict[str, "Scope"] = {}

    def file(self, path: str) -> Union[Source, Code]:
        """The file at a path from the root."""
        if path not in self.files:
            if not (self.root / path).is_file():
                raise SourceError(f"no such file: {path}")
            read = read_source if path.endswith(".antt") else read_code
            self.files[path] = read(path, (self.root / path).read_text(encoding="utf-8"))
        return self.files[path]

    def scope(self, path: str) -> "Scope":
        """The scope of a file."""
        if path not in self.scopes:
            self.scopes[path] = Scope(self, self.file(path))
        return self.scopes[path]

    def place(self, module: str) -> Optional[Tuple[str, str]]:
        """The file that a module's path names, and the declared type if it names one; none: a library's."""
        first, *inside = module.split(".")
        if first != "Rattle" or not inside or not (self.root / "crates" / inside[0]).is_dir():
            return None
        crate, *rest = inside
        if rest[:2] == ["specs", "declared"]:
            *within, name = [part for part in rest[2:] if part != "TheVariants"]
            return f"crates/{crate}/src/{'/'.join(within) or 'lib'}.rt", name
        return f"crates/{crate}/{'/'.join(rest)}.antt", ""

    def member(self, module: str, name: str) -> Found:
        """What a module exports under a name."""
        place = self.place(module)
        if place is None:
            return Found(f"{module}.{name}", name in LIBRARY_CONSTRUCTORS)
        path, declared = place
        if declared:
            one = self.declared(path, declared)
            if name not in (declared, *one.parts):
                raise SourceError(f"{path}: {declared} has no {name}")
            return Found(one, name != declared)
        found = dict(own_names(self.file(path))).get(name)
        if found is None:
            raise SourceError(f"{path} defines no {name}")
        return found

    def declared(self, path: str, name: str) -> Definition:
        """A type that the code declares."""
        types = self.file(path).types
        if name not in types:
            raise SourceError(f"{path} declares no {name}")
        return types[name]


def own_names(source: Source) -> Iterator[Tuple[str, Found]]:
    """What a file defines. A constructor of two types is left out: it must be written with its type."""
    owners: Dict[str, List[Definition]] = {}
    for one in source.definitions.values():
        for part in one.parts if one.kind == "data" else ():
            owners.setdefault(part, []).append(one)
    yield from ((part, Found(types[0], True)) for part, types in owners.items() if len(types) == 1)
    yield from ((name, Found(one)) for name, one in source.definitions.items())


class Scope:
    """The names of a file: its own, and those that it imports."""

    def __init__(self, tree: Tree, file: Union[Source, Code]) -> None:
        self.tree = tree
        self.path = file.path
        self.names: Dict[str, Found] = {}
        self.signs: Dict[str, Found] = {}
        self.modules: Dict[str, str] = {}
        self.imported: List[str] = []
        for line in file.imports:
            self.bring(line)
        for name, found in own_names(file) if isinstance(file, Source) else ():
            self.add(name, found)

    def bring(self, line: str) -> None:
        """An import: names of a module, perhaps renamed, or the module under a name."""
        found = IMPORT.match(line)
        if found is None:
            raise SourceError(f"{self.path}: no import: {line}")
        module, names, alias = found.groups()
        place = self.tree.place(module)
        self.imported += [place[0]] if place else []
        if alias:
            self.modules[alias] = module
        for name in (names or "").split(","):
            before, _, after = name.strip().partition(" as ")
            if before:
                self.add(after or before, self.tree.member(module, before))

    def add(self, name: str, found: Found) -> None:
        """A name; of a sign, such as `◌+◌`, also each word that stands between its arguments."""
        self.names[name] = found
        self.signs.update((part, found) for part in name.split(ARGUMENT) if ARGUMENT in name and part)

    def find(self, word: str) -> Optional[Found]:
        """A word, one of a sign, or a name, perhaps behind that of its type or module, with the fields behind it."""
        for named in (self.names, self.signs):
            if word in named:
                return named[word]
        head, *parts = word.split(".")
        if not parts or not all(parts):
            return None
        if head in self.modules:
            found = self.tree.member(self.modules[head], parts[0])
            return found.followed_by(parts[1:]) if parts[1:] else found
        return self.names[head].followed_by(parts) if head in self.names else None
