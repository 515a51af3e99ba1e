"""What a file of definitions declares: functions with their clauses, records, relations, and what it imports."""
from __future__ import annotations

import re
from typing import Any, Optional

from .syntax import CLOSED, OPEN, Parser, Token, closing, tokens_of

USE = re.compile(r"^\s*(?:\w+ )*?use ([\w.]+?)(?:\.\{([^}]*)\}| as (\w+))\s*$", re.MULTILINE)
BEFORE_NAME = {"abbrev", "unfoldable", "opaque", "pub"}
NO_DEFINITION = {"use", "mod", "infixl", "infixr", "infix", "mutual", "ghost", "import"}


class Clause:
    """The patterns of a clause, and the words of its right side."""

    def __init__(self, patterns: list[Any], body: list[Token], line: int):
        self.patterns, self.body, self.line = patterns, body, line


class Definition:
    """A definition: a function, record, data (a relation or an inductive type), constructor, constant, type, or a
    function of the library."""

    def __init__(self, kind: str, name: str, arity: int = 0, crate: Optional[str] = None, python: Optional[str] = None):
        self.kind, self.name, self.arity, self.crate, self.python = kind, name, arity, crate, python
        self.file: Any = None
        self.block = self.line = self.shared = 0
        self.parameters: list[tuple[str, str]] = []
        self.fields: list[tuple[str, list[Token]]] = []
        self.clauses: list[Clause] = []
        self.signature: list[str] = []
        # The names of its parameters that are types.
        self.types: set[str] = set()

    def patterns(self) -> int:
        return len(self.clauses[0].patterns) if self.clauses else 0

    def parts(self) -> int:
        """Its clauses; a record has one, a relation one for each constructor."""
        return {"record": 1, "data": len(self.fields)}.get(self.kind, len(self.clauses))

    def bodies(self) -> list[list[Token]]:
        """The words of its clauses' right sides, or of its fields."""
        return [clause.body for clause in self.clauses] if self.kind == "fun" else [words for _, words in self.fields]


def words_of(tokens: list[Token]) -> str:
    return " ".join(token.word for token in tokens)


def parameters_of(tokens: list[Token], at: int) -> tuple[list[tuple[str, str]], int]:
    """The explicit parameters from this place on, with the words of their types, and where they end."""
    found = []
    while at < len(tokens) and tokens[at].word in OPEN:
        end = closing(tokens, at)
        colon = next((i for i in range(at, end) if tokens[i].word == ":"), end)
        kind = words_of(tokens[colon + 1 : end])
        if tokens[at].word == "(":
            found += [(token.word, kind) for token in tokens[at + 1 : colon]]
        at = end + 1
    return found, at


def fields_of(tokens: list[Token]) -> list[tuple[str, list[Token]]]:
    """The fields of a record, or the constructors of data: names with the words of their types."""
    column = min((token.column for token in tokens if token.is_first), default=0)
    parts: list[list[Token]] = []
    for token in tokens:
        if token.is_first and token.column == column:
            parts.append([])
        parts[-1].append(token)
    bare = [part[1:] if part[0].word == "pub" else part for part in parts]
    return [(part[0].word, part[2:]) for part in bare]


class File:
    """The definitions of a file by their names, and where its imported names come from."""

    def __init__(self, crate: str, path: str, source: str = ""):
        self.crate, self.path = crate, path
        self.definitions: dict[str, Definition] = {}
        self.imports: dict[str, tuple[str, str]] = {}
        self.modules: dict[str, str] = {}
        self.skipped: list[int] = []
        self.block, self.parameters = 0, list[tuple[str, str]]()
        for module, names, alias in USE.findall(source):
            if alias:
                self.modules[alias] = module
            for name in filter(None, map(str.strip, names.split(","))):
                first, _, other = name.partition(" as ")
                path, _, last = first.rpartition(".")
                self.imports[(other or last).strip("◌ ")] = (f"{module}.{path}" if path else module, last.strip("◌ "))
        for item in self.items(tokens_of(source)):
            try:
                self.declare(item)
            except (SyntaxError, IndexError, StopIteration):
                # A law of the library has forms that no definition has. A name that is used and isn't here is an error.
                self.skipped.append(item[0].line)

    def items(self, tokens: list[Token]) -> list[list[Token]]:
        """The words of each declaration. One inside a module has a margin of two spaces."""
        items: list[list[Token]] = []
        is_inside = False
        for token in tokens:
            is_start = token.is_first and token.word not in CLOSED and token.column in ((0, 2) if is_inside else (0,))
            if is_start:
                items.append([])
                if token.column == 0:
                    is_inside = token.word == "module"
            items[-1].append(token)
        return items

    def declare(self, tokens: list[Token]) -> None:
        if tokens[0].column == 0 and (tokens[0].word == "module" or self.parameters):
            self.block, self.parameters = self.block + 1, []
        if tokens[0].word == "module":
            self.parameters = parameters_of(tokens, 2)[0]
            return
        at = next(i for i, token in enumerate(tokens) if token.word not in BEFORE_NAME)
        word = tokens[at].word
        if word in NO_DEFINITION:
            return
        if word in ("record", "data"):
            self.declare_type(word, tokens, at + 1)
        elif len(tokens) > at + 1 and tokens[at + 1].word in (":", "{"):
            made = self.add(Definition("fun", word.strip("◌")), tokens)
            made.signature = [token.word for token in tokens[at + 2 :]]
        else:
            self.add_clause(tokens)

    def add(self, made: Definition, tokens: list[Token]) -> Definition:
        made.file, made.line, made.block, made.parameters = self, tokens[0].line, self.block, list(self.parameters)
        made.shared = len(made.parameters)
        self.definitions[made.name] = made
        return made

    def declare_type(self, kind: str, tokens: list[Token], at: int) -> None:
        made = self.add(Definition(kind, tokens[at].word), tokens)
        own, at = parameters_of(tokens, at + 1)
        made.types = {name for name, kind in own if kind.startswith("Type")}
        made.parameters += [each for each in own if each[0] not in made.types]
        where = next(i for i in range(at, len(tokens)) if tokens[i].word == "where")
        made.fields = fields_of(tokens[where + 1 :])
        if kind == "data":
            for name, words in made.fields:
                constructor = Definition("con", name, arity=arrows(words))
                constructor.file, constructor.line = self, made.line
                self.definitions.setdefault(name, constructor)

    def add_clause(self, tokens: list[Token]) -> None:
        depth, equals = 0, None
        for place, token in enumerate(tokens):
            depth += (token.word in OPEN) - (token.word in CLOSED)
            if token.word == "=" and depth == 0:
                equals = place
                break
        if equals is None:
            return
        left = Parser(tokens[:equals]).expression()
        if left[0] == "op":
            name, patterns = left[1], [left[2], left[3]]
        elif left[0] == "app":
            name, patterns = left[1][1], left[2]
        else:
            name, patterns = left[1], []
        found = self.definitions.get(name)
        if found is not None and found.kind == "fun":
            found.clauses.append(Clause(patterns, tokens[equals + 1 :], tokens[0].line))


def arrows(tokens: list[Token]) -> int:
    """How many arguments a constructor of this type takes."""
    depth = count = 0
    for token in tokens:
        depth += (token.word in OPEN) - (token.word in CLOSED)
        count += token.word == "→" and depth == 0
    return count
