"""Patterns of clauses, and relations by cases: each constructor of a relation is a clause that asks its premises."""
from __future__ import annotations

from .declared import Definition, words_of
from .library import CONSTANTS
from .names import Names
from .syntax import Expression, Parser
from .translate import Scope, Translator
from .values import Unknown

NO_PATTERN = ("⊥", "⊤", "Unit")
NUMBERS = {"pos": ("{} >= 0", "{}"), "negsuc": ("{} < 0", "(-{} - 1)"), "suc": ("{} > 0", "({} - 1)")}
CONSTANT = {"true": "{} is True", "false": "{} is False", "zero": "{} == 0", "[]": "not {}"}


class Patterns(Translator):
    def __init__(self, names: Names):
        super().__init__(names)

    def count_run(self, made: Definition, number: int) -> str:
        raise NotImplementedError

    def pattern(self, made: Expression, at: str, scope: Scope, tests: list[str], binds: list[str]) -> None:
        """Adds the tests of a pattern, and the variables that it binds, for the value that is called `at`."""
        if made[0] == "num":
            tests.append(f"{at} == {made[1]}")
        elif made[0] == "tup":
            for place, part in enumerate(made[1]):
                self.pattern(part, f"{at}.v_{place}", scope, tests, binds)
        elif made[:2] == ("op", "∷"):
            tests.append(at)
            self.pattern(made[2], f"{at}[0]", scope, tests, binds)
            self.pattern(made[3], f"{at}[1:]", scope, tests, binds)
        else:
            head, arguments = (made[1], made[2]) if made[0] == "app" else (made, [])
            self.constructed(head, arguments, at, scope, tests, binds)

    def constructed(
        self, head: Expression, arguments: list[Expression], at: str, scope: Scope, tests: list[str], binds: list[str]
    ) -> None:
        name = head[1]
        if head[0] == "var" and name in NUMBERS and arguments:
            test, inner = NUMBERS[name]
            tests.append(test.format(at))
            self.pattern(arguments[0], inner.format(at), scope, tests, binds)
            return
        if head[0] == "var" and name in CONSTANTS and name not in NO_PATTERN:
            tests.append(CONSTANT[name].format(at))
            return
        found = self.of_module(head, {}) if head[0] == "proj" else self.resolve(name)
        if found is None or found.kind != "con" or (found.file is self.here.file and self.here.kind == "data"):
            if arguments:
                raise Unknown(f"the pattern {name}")
            self.variable(name, at, scope, tests, binds)
            return
        tests.append(f"{at}.name == {found.name!r}")
        for place, part in enumerate(arguments):
            self.pattern(part, f"{at}.arguments[{place}]", scope, tests, binds)

    def variable(self, name: str, at: str, scope: Scope, tests: list[str], binds: list[str]) -> None:
        bound = next((bind.split(" = ", 1)[1] for bind in binds if bind.startswith(f"{scope.get(name)} = ")), None)
        if bound is not None and name != "_":
            tests.append(f"same({bound}, {at})")
            return
        scope[name] = self.fresh(name)
        binds.append(f"{scope[name]} = {at}")

    def is_relation(self, made: Definition) -> bool:
        """Whether data is a relation: it speaks of values, not of types alone."""
        return bool(made.fields) and (len(made.parameters) > made.shared or self.indices(made) > 0)

    def conclusion(self, made: Definition, place: int) -> tuple[Expression, list[Expression]]:
        """What a constructor of a relation gives, and the premises that it takes."""
        name, tokens = made.fields[place]
        parser = Parser(tokens)
        kind, premises = parser.expression(), []
        if parser.at < len(tokens):
            raise SyntaxError(f"{name}: {words_of(tokens[parser.at :])} is left")
        while kind[0] == "pi" or kind[:2] == ("op", "→"):
            if kind[0] == "op":
                premises.append(kind[2])
            kind = kind[3]
        return kind, premises

    def indices(self, made: Definition) -> int:
        given = self.conclusion(made, 0)[0] if made.fields else ("var", made.name)
        own = len(made.parameters) - made.shared + len(made.types)
        return len(given[2]) - own if given[0] == "app" else 0

    def constructors(self, made: Definition, scope: Scope, arguments: list[str]) -> list[str]:
        """A relation holds where the conclusion of a constructor fits, and its premises hold."""
        if not self.is_relation(made):
            raise Unknown(f"{made.name} is a type of data")
        lines = []
        for place in range(len(made.fields)):
            given, premises = self.conclusion(made, place)
            inner, tests, binds = dict(scope), list[str](), list[str]()
            own = len(made.parameters) - made.shared
            for argument, pattern in zip(arguments, given[2][own:]):
                self.pattern(pattern, argument, inner, tests, binds)
            lines.append(f" if {' and '.join(tests) or 'True'}:")
            lines += [f"  {bind}" for bind in binds]
            lines.append(f"  if {' and '.join([self.python(each, inner) for each in premises]) or 'True'}:")
            lines += [f"   {self.count_run(made, place)}", "   return True"]
        return [*lines, " return False"]
