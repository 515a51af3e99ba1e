"""From expressions of definitions to expressions of Python."""
from __future__ import annotations

from typing import Any, Optional

from .declared import Definition
from .names import Names
from .syntax import Expression
from .values import NONE, TT, Made, Unknown, python_name, record_class

Scope = dict[str, str]
PYTHON = {
    "||": "(%s or %s)", "&&": "(%s and %s)", "==": "(%s == %s)", "≤": "(%s <= %s)", "<": "(%s < %s)",
    "≤ℤ": "(%s <= %s)", "<ℤ": "(%s < %s)", "++": "(%s + %s)", "+": "(%s + %s)", "+ℤ": "(%s + %s)",
    "-ℤ": "(%s - %s)", "-": "less(%s, %s)", "*": "(%s * %s)", "*ℤ": "(%s * %s)", "/": "quotient(%s, %s)",
    "%": "remainder(%s, %s)", "^": "(%s ** %s)", "→": "((not %s) or %s)", "↔": "(bool(%s) == bool(%s))",
    "⊎": "(%s or %s)", "×": "(%s and %s)", "≡": "same(%s, %s)", "≢": "(not same(%s, %s))",
}


def is_function(made: Expression) -> bool:
    return made[0] == "app" and made[1] == ("var", "cond") and len(made[2]) == 3


def mentions(made: Any, names: set[str]) -> bool:
    """Whether an expression has one of these variables."""
    if isinstance(made, tuple):
        is_variable = len(made) == 2 and made[0] == "var" and made[1] in names
        return is_variable or any(mentions(each, names) for each in made)
    return isinstance(made, list) and any(mentions(each, names) for each in made)


class Translator:
    """The Python of an expression that stands in the definition `here`."""

    def __init__(self, names: Names):
        self.names, self.count = names, 0
        self.here = Definition("fun", "")
        # The names of Python that translated definitions see.
        self.space: dict[str, Any] = {}

    def fresh(self, name: str) -> str:
        self.count += 1
        return f"{python_name(name)}_{self.count}"

    def needed(self, made: Definition) -> str:
        """The Python name of a definition, which is compiled before it is called."""
        raise NotImplementedError

    def arity(self, made: Definition) -> int:
        raise NotImplementedError

    def resolve(self, name: str) -> Optional[Definition]:
        return self.names.resolve(self.here.file, name, self.here)

    def of_module(self, made: Expression, scope: Scope) -> Optional[Definition]:
        """What `module.name` stands for, where the first name is that of a module."""
        if made[1][0] != "var" or made[1][1] in scope:
            return None
        module = self.here.file.modules.get(made[1][1])
        return self.names.member(module, made[2]) if module else None

    def python(self, made: Expression, scope: Scope) -> str:
        return str(getattr(self, f"of_{made[0]}")(made, scope))

    def all_of(self, items: list[Expression], scope: Scope) -> list[str]:
        return [self.python(item, scope) for item in items]

    def of_num(self, made: Expression, scope: Scope) -> str:
        return str(made[1])

    def of_str(self, made: Expression, scope: Scope) -> str:
        return repr(tuple(made[1].encode()))

    def of_var(self, made: Expression, scope: Scope) -> str:
        return self.applied(made, [], scope)

    def of_app(self, made: Expression, scope: Scope) -> str:
        if is_function(made) and "cond" not in scope:
            return self.python(("if", *made[2]), scope)
        return self.applied(made[1], made[2], scope)

    def of_proj(self, made: Expression, scope: Scope) -> str:
        found = self.of_module(made, scope)
        if found:
            return self.constructor(found, [], scope)
        return f"{self.python(made[1], scope)}.{python_name(made[2])}"

    def of_op(self, made: Expression, scope: Scope) -> str:
        _, word, left, right = made
        if word == ">>=":
            return self.applied(("var", ">>="), [left, right], scope)
        if word != "∷":
            return PYTHON[word] % (self.python(left, scope), self.python(right, scope))
        heads = [self.python(left, scope)]
        while right[0] == "op" and right[1] == "∷":
            heads.append(self.python(right[2], scope))
            right = right[3]
        items = f"({', '.join(heads)},)"
        return items if right == ("var", "[]") else f"({items} + {self.python(right, scope)})"

    def of_if(self, made: Expression, scope: Scope) -> str:
        test, yes, no = self.all_of(list(made[1:]), scope)
        return f"({yes} if {test} else {no})"

    def of_let(self, made: Expression, scope: Scope) -> str:
        name = self.fresh(made[1])
        return f"(lambda {name}: {self.python(made[3], {**scope, made[1]: name})})({self.python(made[2], scope)})"

    def of_lam(self, made: Expression, scope: Scope) -> str:
        inner, head = dict(scope), ""
        for name in made[1]:
            inner[name] = self.fresh(name)
            head += f"lambda {inner[name]}: "
        return f"({head}{self.python(made[2], inner)})"

    def of_do(self, made: Expression, scope: Scope) -> str:
        body = made[1][-1][1]
        for name, value in reversed(made[1][:-1]):
            body = ("op", ">>=", value, ("lam", [name or "_"], body))
        return self.python(body, scope)

    def of_tup(self, made: Expression, scope: Scope) -> str:
        return f"pair({', '.join(self.all_of(made[1], scope))})"

    def of_rec(self, made: Expression, scope: Scope) -> str:
        fields = [(python_name(name), self.python(value, scope)) for name, value in made[2]]
        if made[1] is not None:
            new = ", ".join(f"{slot!r}: {value}" for slot, value in fields)
            return f"with_fields({self.python(made[1], scope)}, {{{new}}})"
        name = "R_" + "_".join(sorted(slot for slot, _ in fields))
        self.space[name] = record_class([name for name, _ in made[2]])
        return f"{name}({', '.join(f'{slot}={value}' for slot, value in fields)})"

    def of_pi(self, made: Expression, scope: Scope, word: str = "all") -> str:
        inner, loops = dict(scope), ""
        for name in made[1]:
            inner[name] = self.fresh(name)
            loops += f" for {inner[name]} in {self.values_of(name, made, inner, scope)}"
        return f"{word}({self.python(made[3], inner)}{loops})"

    def of_sig(self, made: Expression, scope: Scope) -> str:
        return self.of_pi(made, scope, "any")

    def values_of(self, name: str, made: Expression, inner: Scope, scope: Scope) -> str:
        """What a quantified variable runs over: the variants of an enum, the numbers below a bound that the
        proposition gives, or samples."""
        _, together, kind, body = made
        found = self.resolve(kind[1]) if kind[0] == "var" else None
        if found is not None and found.kind == "type" and found.crate:
            variants = self.names.variants(found.crate, found.name)
            if variants and not any(variants.values()):
                made_of = [self.constructor(Definition("con", each), [], scope) for each in variants]
                return f"({', '.join(made_of)},)"
        bound = self.bound(name, body, set(together) - set(inner)) if kind == ("var", "ℕ") else None
        if bound:
            return f"range({self.python(bound[3], inner)}{' + 1' if bound[1] == '≤' else ''})"
        return f"sample({f'{self.here.name}.{name}'!r})"

    def bound(self, name: str, body: Expression, unbound: set[str]) -> Optional[Expression]:
        """The premise name < bound, or name + x < bound, if there is one."""
        variable = ("var", name)
        while body[0] == "pi" or body[:2] == ("op", "→"):
            left = body[2]
            if body[0] == "op" and left[0] == "op" and left[1] in ("<", "≤") and not mentions(left[3], unbound):
                if left[2] == variable or (left[2][:2] == ("op", "+") and variable in left[2][2:]):
                    return tuple(left)
            body = body[3]
        return None

    def constructor(self, made: Definition, arguments: list[Expression], scope: Scope) -> str:
        if made.kind != "con":
            raise Unknown(made.name)
        given = self.all_of(arguments, scope)
        if made.arity == 0:
            name = "c_" + python_name(made.name)
            self.space.setdefault(name, {"None": NONE, "tt": TT}.get(made.name) or Made(made.name))
            return name
        if len(given) == made.arity:
            return f"Made({made.name!r}, ({', '.join(given)},))"
        name = "k_" + python_name(made.name)
        self.space.setdefault(name, lambda *each, of=made.name: Made(of, each))
        return f"curried({name}, {made.arity - len(given)}{''.join(', ' + each for each in given)})"

    def applied(self, function: Expression, arguments: list[Expression], scope: Scope) -> str:
        """A function with its arguments, of which there may be too few or more than it takes at once."""
        if function[0] == "proj" and (found := self.of_module(function, scope)):
            return self.constructor(found, arguments, scope)
        given = self.all_of(arguments, scope)
        if function[0] != "var" or function[1] in scope:
            head = scope[function[1]] if function[0] == "var" else self.python(function, scope)
            return head + "".join(f"({each})" for each in given)
        made = self.resolve(function[1])
        if made is None:
            return f"unknown({f'{function[1]} in {self.here.file.crate}/{self.here.file.path}'!r})"
        if made.kind == "con":
            return self.constructor(made, arguments, scope)
        if made.kind == "const":
            return str(made.python)
        if made.kind == "type":
            raise Unknown(f"the type {made.name}")
        if made.kind == "std":
            name, arity = "std_" + python_name(made.name), made.arity
        else:
            if made.file is self.here.file and made.block == self.here.block:
                given = [scope[each] for each, _ in self.here.parameters[: made.shared]] + given
            name, arity = self.needed(made), self.arity(made)
        if len(given) < arity:
            return f"curried({name}, {arity - len(given)}{''.join(', ' + each for each in given)})"
        return f"{name}({', '.join(given[:arity])})" + "".join(f"({each})" for each in given[arity:])


