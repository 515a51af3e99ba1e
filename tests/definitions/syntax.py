"""The words of .antt files, and the parser of the expressions that definitions are written in.

An expression is a tuple whose first item is its kind: var, num, str, app, op, lam, if, let, do, rec, tup, proj; pi and
sig are a proposition about all and about some values of a type.
"""
from __future__ import annotations

import re
from typing import Any, Optional

Expression = tuple[Any, ...]
TOKEN = re.compile(r'"((?:[^"\\]|\\.)*)"|(\[\]|[(){},;.])|([^\s(){}.,;"]+)')
# How strongly each operator binds, and to which side.
OPERATORS = {
    "→": (0, "r"), "↔": (1, "n"), "⊎": (2, "r"), "×": (3, "r"), "≡": (4, "n"), "≢": (4, "n"), ">>=": (10, "l"),
    "||": (30, "l"), "&&": (35, "l"), "==": (40, "n"), "≤": (50, "n"), "<": (50, "n"), "≤ℤ": (50, "n"),
    "<ℤ": (50, "n"), "++": (60, "r"), "∷": (60, "r"), "+": (65, "l"), "-": (65, "l"), "+ℤ": (65, "l"),
    "-ℤ": (65, "l"), "*": (70, "l"), "/": (70, "l"), "%": (70, "l"), "*ℤ": (70, "l"), "^": (75, "r"),
}
ENDS = (")", "}", ";", ",", "then", "else", "in", "=", ":", ".", "←")
OPEN, CLOSED = ("(", "{"), (")", "}")


class Token:
    """A word: whether it is the first of its line, and whether it is a point without a space on its two sides."""

    __slots__ = ("word", "line", "column", "is_first", "is_tight", "is_text")

    def __init__(self, found: re.Match[str], line: str, number: int, is_first: bool):
        self.line, self.column, self.is_first, self.is_text = number, found.start(), is_first, found[1] is not None
        self.word = found[0]
        if self.is_text:
            self.word = found[1].encode().decode("unicode_escape").encode("latin-1").decode("utf8")
        around = line[found.start() - 1 : found.start()] + line[found.end() : found.end() + 1]
        self.is_tight = found[0] == "." and len(around) == 2 and not any(map(str.isspace, around))


def tokens_of(source: str) -> list[Token]:
    out = []
    for number, line in enumerate(source.split("\n"), 1):
        at, is_first = 0, True
        while at < len(line) and not line.startswith("--", at):
            found = None if line[at].isspace() else TOKEN.match(line, at)
            if found is None:
                at += 1
                continue
            out.append(Token(found, line, number, is_first))
            at, is_first = found.end(), False
    return out


def closing(tokens: list[Token], at: int) -> int:
    """Where the parenthesis that opens at this place is closed."""
    depth = 1
    while depth:
        at += 1
        depth += (tokens[at].word in OPEN) - (tokens[at].word in CLOSED)
    return at


class Parser:
    """Reads one expression of some tokens."""

    def __init__(self, tokens: list[Token]):
        self.tokens, self.at, self.margin, self.begins = tokens, 0, -1, -1

    def peek(self) -> Optional[str]:
        if self.at >= len(self.tokens):
            return None
        token = self.tokens[self.at]
        if token.is_first and token.column <= self.margin and self.at != self.begins:
            return None
        return '"' if token.is_text else token.word

    def take(self) -> str:
        self.at += 1
        return self.tokens[self.at - 1].word

    def demand(self, word: str) -> None:
        found = self.take()
        if found != word:
            raise SyntaxError(f"line {self.tokens[self.at - 1].line}: {found} stands where {word} is due")

    def binder(self) -> Optional[tuple[list[str], int, int]]:
        """The names and the type of (x y : T), where that stands here before an arrow or a product."""
        at, names = self.at + 1, []
        while at < len(self.tokens) and re.match(r"[^\W\d]", self.tokens[at].word):
            names.append(self.tokens[at].word)
            at += 1
        if not names or at >= len(self.tokens) or self.tokens[at].word != ":":
            return None
        end = closing(self.tokens, at)
        after = self.tokens[end + 1].word if end + 1 < len(self.tokens) else ""
        return (names, at + 1, end) if after in ("→", "×", *OPEN) else None

    def expression(self, least: int = 0) -> Expression:
        word = self.peek()
        if word == "λ":
            return self.function()
        if word == "if":
            self.take()
            test = self.expression()
            self.demand("then")
            yes = self.expression()
            self.demand("else")
            return ("if", test, yes, self.expression())
        if word == "let":
            return self.local()
        if word == "do":
            return self.steps()
        found = self.binder() if word in OPEN else None
        return self.quantified(found, word == "{") if found else self.operation(least)

    def operation(self, least: int) -> Expression:
        left = self.application()
        while (word := self.peek()) in OPERATORS:
            level, side = OPERATORS[word or ""]
            if level < least:
                break
            self.take()
            left = ("op", word, left, self.expression(level if side == "r" else level + 1))
        return left

    def function(self) -> Expression:
        self.take()
        names = []
        while self.peek() != ".":
            if self.peek() == "(":
                end = closing(self.tokens, self.at)
                colon = next(i for i in range(self.at, end) if self.tokens[i].word == ":")
                names += [token.word for token in self.tokens[self.at + 1 : colon]]
                self.at = end + 1
            else:
                names.append(self.take())
        self.take()
        return ("lam", names, self.expression())

    def local(self) -> Expression:
        self.take()
        name = self.take()
        if self.peek() == ":":
            self.take()
            self.expression(1)
        self.demand("=")
        value = self.expression()
        self.demand("in")
        return ("let", name, value, self.expression())

    def quantified(self, found: tuple[list[str], int, int], is_implicit: bool) -> Expression:
        names, start, end = found
        kind = Parser(self.tokens[start:end]).expression()
        self.at = end + 1
        word = self.peek()
        if word in ("→", "×"):
            self.take()
        body = self.expression(3 if word == "×" else 0)
        if is_implicit:
            return body
        is_all = word == "→" or (word in OPEN and body[0] == "pi")
        return ("pi" if is_all else "sig", names, kind, body)

    def steps(self) -> Expression:
        """The steps of a do block: name ← expression, and a last expression."""
        self.take()
        column, margin, steps = self.tokens[self.at].column, self.margin, []
        while self.at < len(self.tokens) and self.tokens[self.at].is_first and self.tokens[self.at].column == column:
            self.margin, self.begins, name = column, self.at, None
            if self.at + 1 < len(self.tokens) and self.tokens[self.at + 1].word == "←":
                name = self.take()
                self.take()
            steps.append((name, self.expression()))
        self.margin = margin
        return ("do", steps)

    def application(self) -> Expression:
        function, arguments = self.atom(), []
        while (word := self.peek()) is not None and word not in OPERATORS and word not in ENDS:
            if word == "{":
                self.at = closing(self.tokens, self.at) + 1
                continue
            if word in ("λ", "if", "let", "do"):
                arguments.append(self.expression())
                break
            arguments.append(self.atom())
        return ("app", function, arguments) if arguments else function

    def atom(self) -> Expression:
        token = self.tokens[self.at]
        self.at += 1
        if token.is_text:
            made: Expression = ("str", token.word)
        elif token.word == "(":
            made = self.parenthesis()
        elif token.word.isdigit():
            made = ("num", int(token.word))
        elif token.word == "record":
            made = self.fields()
        else:
            made = ("var", token.word)
        while self.at < len(self.tokens) and self.tokens[self.at].is_tight and not self.tokens[self.at].is_text:
            self.take()
            made = ("proj", made, self.take())
        return made

    def parenthesis(self) -> Expression:
        margin, self.margin = self.margin, -1
        items = [self.expression()]
        while self.peek() == ",":
            self.take()
            if self.peek() != ")":
                items.append(self.expression())
        self.demand(")")
        self.margin = margin
        return items[0] if len(items) == 1 else ("tup", items)

    def fields(self) -> Expression:
        old = None if self.peek() == "{" else self.atom()
        margin, self.margin = self.margin, -1
        self.demand("{")
        fields = []
        while self.peek() != "}":
            name = self.take()
            self.demand("=")
            fields.append((name, self.expression()))
            if self.peek() == ";":
                self.take()
        self.take()
        self.margin = margin
        return ("rec", old, fields)
