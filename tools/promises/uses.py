"""The names that a text uses. A word is bound there, or the language's, or found in the file's scope."""

from typing import Iterable, List, Optional, Set, Union

from promises.code import Clause
from promises.errors import SourceError
from promises.scope import Scope
from promises.source import SIGNATURE, Definition, body_of, indent, items, names_of, words

LANGUAGE = set("Type Unit tt ⊥ ¬ × → in elim record do : = ; , . _ ↦ ⌜ ⌝".split())
REFERRED = {"now", "old", "new", "entry", "exit"}
"""Behind a name of a function's head: what a reference refers to, and the reference itself, before and after."""


class Uses:
    """What is used: definitions and library names, and fields."""

    def __init__(self, scope: Scope, where: str, head: Iterable[str] = ()) -> None:
        self.scope = scope
        self.where = where
        self.head = set(head)
        self.names: List[Union[Definition, str]] = []
        self.fields: Set[str] = set()

    def word(self, word: str, bound: Set[str]) -> None:
        """A word of an expression: a name with the fields behind it, or the fields behind a bracket."""
        name, *fields = word.split(".")
        if name in bound or not name and word not in LANGUAGE:
            self.fields.update(one for one in fields if name not in self.head or one not in REFERRED)
        elif word not in LANGUAGE and not word.isdigit():
            found = self.scope.find(word)
            if found is None:
                raise SourceError(f"{self.where}: what is {word}?")
            self.names.append(found.target)
            self.fields.update(found.fields)
        if word == "do":
            self.names += [self.scope.find(bind).target for bind in ("◌>>=◌", "◌>>◌") if self.scope.find(bind)]

    def pattern(self, given: List[str]) -> Set[str]:
        """The variables of a pattern: its words that are no constructors."""
        bound = set()
        for word in given:
            found = self.scope.find(word)
            if found and found.constructor and not found.fields:
                self.names.append(found.target)
            elif "." in word:
                raise SourceError(f"{self.where}: what is {word}?")
            elif word not in "(){}_" and not word.isdigit():
                bound.add(word)
        return bound

    def expression(self, given: List[str], bound: Set[str]) -> Set[str]:
        """A term or a type. Answers what it binds for what follows it: the names of a telescope."""
        levels = [set(bound)]
        at = 0
        while at < len(given):
            at = self.take(given, at, levels)
        return levels[0]

    def take(self, given: List[str], at: int, levels: List[Set[str]]) -> int:
        """The word at a place, with those that belong to it. Answers the place of the next."""
        word, after = given[at], given[at + 1:at + 2]
        if word in ("(", "{"):
            end = past_names(given, at + 1)
            levels[-1].update(given[at + 1:end])
            levels.append(set(levels[-1]))
            return end
        if word in ("[", "|"):
            levels[-1:] = [levels[-1], set(levels[-1])] if word == "[" else [set(levels[-2])]
            arrow = past_pattern(given, at + 1)
            levels[-1] |= self.pattern(given[at + 1:arrow])
            return arrow
        if word in (")", "}", "]"):
            levels.pop()
        elif word == "λ":
            end = past_binders(given, at + 1)
            levels[-1].update(name.rstrip(".") for name in given[at + 1:end])
            return end
        elif word == "let" or after == ["←"]:
            levels[-1].add(given[at + 1] if word == "let" else word)
            return at + (3 if word == "let" else 2)
        elif after == ["="] and given[at - 1] in ("{", ";"):
            self.fields.add(word)
        else:
            self.word(word, levels[-1])
        return at + 1


def past_names(given: List[str], at: int) -> int:
    """Past the names of a telescope, `x y :`; the place itself where none begins."""
    end = at
    while end < len(given) and (given[end] not in LANGUAGE and given[end] not in "()[]{}" or given[end] == "_"):
        end += 1
    return end if end > at and given[end:end + 1] == [":"] else at


def past_pattern(given: List[str], at: int) -> int:
    """Up to the arrow after a pattern; the place itself where none begins."""
    for end in range(at, len(given)):
        if given[end] == "↦":
            return end
        if given[end] in ("[", "]", "|"):
            return at
    return at


def past_binders(given: List[str], at: int) -> int:
    """Past the names that a λ binds, up to its dot or a telescope."""
    while at < len(given) and given[at] != "(":
        at += 1
        if given[at - 1].endswith("."):
            break
    return at


def definition_uses(definition: Definition, scope: Scope) -> Uses:
    """What a definition of an antt file uses."""
    uses = Uses(scope, f"{definition.path}: {definition.name}")
    bound = module_bound(definition.module, Uses(scope, uses.where))
    if definition.module:
        uses.names.append(definition.module)
    if definition.kind == "module":
        uses.expression(words(definition.name)[2:-1], bound)
    elif definition.kind == "function":
        function_uses(uses, definition.lines, bound)
    else:
        type_uses(uses, definition, bound)
    return uses


def module_bound(module: Optional[Definition], unused: Uses) -> Set[str]:
    """The parameters of the modules around a definition."""
    if module is None:
        return set()
    return unused.expression(words(module.name)[2:-1], module_bound(module.module, unused))


def type_uses(uses: Uses, definition: Definition, bound: Set[str]) -> None:
    """A data or a record: its parameters, then each part; a field is bound in those after it."""
    header, parts = body_of(definition.lines)
    given = words("\n".join(header))
    inner = uses.expression(given[given.index(definition.name) + 1:-1], bound)
    for part in parts:
        given = words("\n".join(part))
        uses.expression(given[given.index(":") + 1:], inner)
        if definition.kind == "record":
            inner = inner | set(names_of(part))


def function_uses(uses: Uses, lines: List[str], bound: Set[str]) -> None:
    """A function: its signature, then its clauses."""
    for group in items(lines):
        where = next((at for at, line in enumerate(group) if line.strip() == "where"), len(group))
        given = words("\n".join(group[:where]))
        if SIGNATURE.match(group[0].strip()):
            uses.expression(given[given.index(":") + 1:], bound)
            continue
        equals = given.index("=")
        inner = set(bound) | uses.pattern(given[1:equals])
        inner |= {words(line)[0] for line in group[where + 1:] if indent(line) == indent(group[where + 1])}
        uses.expression(given[equals + 1:], inner)
        function_uses(uses, group[where + 1:], inner)


def clause_uses(clause: Clause, scope: Scope, path: str) -> Uses:
    """What a clause of a contract uses."""
    uses = Uses(scope, f"{path}: {clause.function}, {clause.name}", clause.bound)
    uses.expression(words(clause.text), set(clause.bound))
    return uses
