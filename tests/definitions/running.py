"""The definitions of a tree, each as a Python function.

    definitions = Definitions(top, library)     # a clone of the repository; the toolchain's folder `rattle`
    reads = definitions.get("model_reader", "Model", "reads")
    reads(PLAIN, files, name)                   # takes all arguments at once

A proposition runs to True or False. A field of a record that is data, and a variable that a proposition says all or
some of, take their values from `samples["Record.field"]` and `samples["Definition.variable"]`: values, or a function
of what is known there. Without them it is Undecided. `ran` counts how often each clause ran; `refuted` has the
fields of records that were False, the inner ones first. Fields in `left_out` aren't evaluated.
"""
from __future__ import annotations

from typing import Any, Callable, Optional

from .declared import Definition
from .library import LIBRARY, less, quotient, remainder
from .names import Names
from .patterns import Patterns
from .syntax import Expression, Parser
from .translate import is_function, mentions
from .values import Made, Undecided, Unknown, curried, pair, python_name, same, with_fields

Clauses = tuple[str, str, str, int]
DATA = ("ℕ", "ℤ", "Bool", "List", "Option", "Result")
# Values of functions of these are kept by what the arguments are, until `forget`.
KEPT_BY, SMALL = ("FlowModel", "Grid"), ("ℕ", "ℤ", "Bool")


def unknown(what: str) -> None:
    raise Unknown(what)


class Definitions(Patterns):
    def __init__(self, top: str, library: str):
        super().__init__(Names(top, library))
        self.ran: dict[Clauses, int] = {}
        self.samples: dict[str, Any] = {}
        self.left_out: set[str] = set()
        self.refuted: list[str] = []
        self.kept: list[dict[Any, Any]] = []
        self.waiting: list[Definition] = []
        self.space.update(
            Made=Made, same=same, less=less, quotient=quotient, remainder=remainder, pair=pair, curried=curried,
            with_fields=with_fields, unknown=unknown, Unknown=Unknown, ran=self.ran, sample=self.sample,
            refute=self.refute, left_out=self.left_out,
        )  # fmt: skip
        self.space.update({"std_" + python_name(name): function for name, (_, function) in LIBRARY.items()})

    def sample(self, key: str, *known: Any) -> Any:
        if key not in self.samples:
            raise Undecided(key)
        found = self.samples[key]
        return found(*known) if callable(found) else found

    def refute(self, field: str) -> bool:
        self.refuted.append(field)
        return False

    def forget(self) -> None:
        for values in self.kept:
            values.clear()

    def definition(self, crate: str, path: str, name: str) -> Definition:
        return self.names.file(crate, path).definitions[name]

    def get(self, crate: str, path: str, name: str) -> Any:
        return self.get_of(self.definition(crate, path, name))

    def get_of(self, made: Definition) -> Any:
        python = self.needed(made)
        self.compile_all()
        return self.space[python]

    def replace(self, crate: str, path: str, name: str, by: Callable[[Any], Any]) -> Any:
        """Runs `by(its text)` in place of a definition's text. Returns what runs its text."""
        own = self.get(crate, path, name)
        self.space[self.needed(self.definition(crate, path, name))] = by(own)
        return own

    def needed(self, made: Definition) -> str:
        if made.python is None:
            made.python = python_name(f"{made.file.crate}__{made.file.path}__{made.name}")[2:]
            self.waiting.append(made)
        return made.python

    def arity(self, made: Definition) -> int:
        return len(made.parameters) + (self.indices(made) if made.kind == "data" else made.patterns())

    def compile_all(self) -> None:
        while self.waiting:
            made = self.waiting.pop()
            try:
                source = self.source(made)
            except (Unknown, SyntaxError) as error:
                source = f"def {made.python}(*arguments):\n raise Unknown({str(error)!r})\n"
            exec(compile(source, f"<{made.file.crate}/{made.file.path}: {made.name}>", "exec"), self.space)

    def source(self, made: Definition) -> str:
        """A definition's Python."""
        self.here = made
        scope = {name: self.fresh(name) for name, _ in made.parameters}
        known = list(scope.values())
        if made.kind == "record":
            return self.function(made, known, self.fields(made, scope, known))
        arguments = [f"a{place}" for place in range(self.arity(made) - len(known))]
        if made.kind == "data":
            return self.function(made, known + arguments, self.constructors(made, scope, arguments))
        if not made.clauses:
            raise Unknown(f"{made.name} has no clauses")
        lines: list[str] = []
        tests: list[str] = []
        for number, clause in enumerate(made.clauses):
            inner, tests, binds = dict(scope), [], list[str]()
            for argument, pattern in zip(arguments, clause.patterns):
                self.pattern(pattern, argument, inner, tests, binds)
            indent = " " * (1 + bool(tests))
            lines += [f" if {' and '.join(tests)}:"] if tests else []
            lines += [indent + self.count_run(made, number)] + [indent + bind for bind in binds]
            self.returned(self.parsed(made, clause.body), inner, indent, lines)
        if tests:
            lines.append(f" raise Unknown('no clause of {made.name} fits')")
        return self.function(made, known + arguments, lines)

    def parsed(self, made: Definition, tokens: list[Any]) -> Expression:
        parser = Parser(tokens)
        found = parser.expression()
        if parser.at < len(tokens):
            raise SyntaxError(f"{made.name}, line {tokens[parser.at].line}: {tokens[parser.at].word} is left")
        return found

    def count_run(self, made: Definition, number: int) -> str:
        key = (made.file.crate, made.file.path, made.name, number)
        self.ran.setdefault(key, 0)
        return f"ran[{key!r}] += 1"

    def fields(self, made: Definition, scope: dict[str, str], known: list[str]) -> list[str]:
        """Each field of a record: data are samples; else whether it holds; its proof, if it is named later."""
        lines = [" " + self.count_run(made, 0)]
        parsed = [(name, self.parsed(made, tokens)) for name, tokens in made.fields]
        for place, (name, kind) in enumerate(parsed):
            key = f"{made.name}.{name}"
            is_data = self.is_data(made, kind)
            if not is_data:
                holds = self.python(kind, scope)
                lines.append(f" if {key!r} not in left_out and not {holds}: return refute({key!r})")
            if is_data or any(mentions(later, {name}) for _, later in parsed[place + 1 :]):
                scope[name] = self.fresh(name)
                lines.append(f" {scope[name]} = sample({', '.join([repr(key), *known])})")
        return [*lines, " return True"]

    def is_data(self, made: Definition, kind: Expression) -> bool:
        """Whether this type is one of data, and no proposition."""
        if kind[:2] == ("op", "→"):
            return self.is_data(made, kind[2]) and self.is_data(made, kind[3])
        while kind[0] == "app":
            kind = kind[1]
        if kind[0] != "var":
            return bool(kind[0] == "proj")
        if kind[1] in DATA or kind[1] in made.types:
            return True
        found = self.names.resolve(made.file, kind[1], made)
        if found is None or found.kind == "type":
            return found is not None
        if found.kind == "record":
            kinds = [Parser(tokens).expression() for _, tokens in found.fields]
            return bool(kinds) and all(self.is_data(found, each) for each in kinds)
        if found.signature == ["Type", "0"] and len(found.clauses) == 1:
            return self.is_data(found, Parser(found.clauses[0].body).expression())
        return found.kind == "data" and not self.is_relation(found)

    def function(self, made: Definition, arguments: list[str], lines: list[str]) -> str:
        body, heads = "\n".join(lines), ", ".join(arguments)
        kinds = [kind for _, kind in made.parameters] + self.kinds(made)
        if made.kind != "fun" or not kinds or kinds[0] not in KEPT_BY or "Type" in made.signature:
            return f"def {made.python}({heads}):\n{body}\n"
        values: dict[Any, Any] = {}
        self.space[f"m_{made.python}"] = values
        self.kept.append(values)
        key = "".join(f"{each}, " if kind in SMALL else f"id({each}), " for each, kind in zip(arguments, kinds))
        return (
            f"def {made.python}({heads}):\n key = ({key})\n found = m_{made.python}.get(key)\n"
            f" if found is None: found = m_{made.python}[key] = (own_{made.python}({heads}), {heads})\n"
            f" return found[0]\ndef own_{made.python}({heads}):\n{body}\n"
        )

    def kinds(self, made: Definition) -> list[str]:
        """The types of a function's arguments, as words."""
        parts: list[list[str]] = [[]]
        depth = 0
        for word in made.signature:
            depth += (word in ("(", "{")) - (word in (")", "}"))
            if word == "→" and depth == 0:
                parts.append([])
            else:
                parts[-1].append(word)
        kinds = [" ".join(part) for part in parts if part[:1] != ["{"]]
        return (kinds + ["?"] * made.patterns())[: made.patterns()]

    def returned(self, made: Expression, scope: dict[str, str], indent: str, lines: list[str]) -> None:
        """Statements that return an expression: a test, a name and a do block aren't nested."""
        if is_function(made):
            made = ("if", *made[2])
        ends = self.ends_early() if made[0] == "do" else None
        if made[0] == "if":
            lines.append(f"{indent}if {self.python(made[1], scope)}:")
            self.returned(made[2], scope, indent + " ", lines)
            self.returned(made[3], scope, indent, lines)
        elif made[0] == "let":
            name = self.fresh(made[1])
            lines.append(f"{indent}{name} = {self.python(made[2], scope)}")
            self.returned(made[3], {**scope, made[1]: name}, indent, lines)
        elif ends:
            inner = dict(scope)
            for step, value in made[1][:-1]:
                name = self.fresh(step or "_")
                lines.append(f"{indent}{name} = {self.python(value, inner)}")
                lines.append(f"{indent}if {name}.name == {ends!r}: return {name}")
                lines.append(f"{indent}{name} = {name}.arguments[0]")
                inner[step] = name
            self.returned(made[1][-1][1], inner, indent, lines)
        else:
            lines.append(f"{indent}return {self.python(made, scope)}")

    def ends_early(self) -> Optional[str]:
        """The constructor with which a do block of this file ends early: >>= has one of two texts."""
        made = self.resolve(">>=")
        if made is None or made.kind != "fun":
            return None
        said = tuple(" ".join(token.word for token in clause.body) for clause in made.clauses)
        self.needed(made)
        return {("f x", "Err e"): "Err", ("option_and_then f x",): "None"}.get(said)
