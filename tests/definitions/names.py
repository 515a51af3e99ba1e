"""What the names of definitions stand for, by imports, files of a crate or of the library, and enums of the code."""
from __future__ import annotations

import os
import re
from typing import Optional

from .declared import Definition, File
from .library import CONSTANTS, CONSTRUCTORS, LIBRARY
from .values import Unknown

PASSED_ON = re.compile(r"^pub use Rattle\.(\w+)\.specs\.([\w.]+)\s*$", re.MULTILINE)
ENUM = re.compile(r"\benum (\w+)(?:<[^>]*>)?\s*\{")
BY_HAND = ("std", "core", "std_alloc", "std_collections")


def after_braces(code: str, at: int) -> int:
    """The place after the bracket that closes what was opened before this place."""
    depth = 1
    while depth:
        depth += (code[at] in "{([<") - (code[at] in "})]>")
        at += 1
    return at


def fields_in(code: str) -> int:
    """How many fields stand between the brackets of a variant."""
    depth, count = 0, 1
    for letter in code.strip().rstrip(","):
        depth += (letter in "{([<") - (letter in "})]>")
        count += letter == "," and depth == 0
    return count


def variants_in(code: str) -> dict[str, int]:
    """The variants of an enum's body, with how many fields each has."""
    found = {}
    while (head := re.match(r"[\s,]*(\w+)\s*", code)) is not None:
        code, count = code[head.end() :], 0
        if code[:1] in ("{", "("):
            end = after_braces(code, 1)
            count, code = fields_in(code[1 : end - 1]), code[end:]
        found[head[1]] = count
        code = re.sub(r"^[^,]*,?", "", code, count=1)
    return found


class Names:
    """The files of definitions of a tree and of the library beside it, read as they are asked for."""

    def __init__(self, top: str, library: str):
        self.top, self.library = top, library
        self.files: dict[tuple[str, str], File] = {}
        self.enums: dict[tuple[str, str], Optional[dict[str, int]]] = {}

    def place_of(self, crate: str, path: str) -> Optional[str]:
        inner = path.replace(".", "/")
        places = [f"{self.top}/crates/{crate}/specs/{inner}.antt", f"{self.library}/{crate}/specs/{inner}.antt"]
        if crate in ("lib", "mathlib"):
            folder = "logic/Lib" if crate == "lib" else "antt/port/mathlib/src"
            places = [f"{self.library}/{folder}/{inner}.antt"]
        return next((place for place in places if os.path.exists(place)), None)

    def file(self, crate: str, path: str) -> File:
        if (crate, path) in self.files:
            return self.files[crate, path]
        place = self.place_of(crate, path)
        if place is not None:
            with open(place, encoding="utf-8") as source:
                found = File(crate, path, source.read())
        else:
            found = self.passed_on(crate, path) or File(crate, path)
        self.files[crate, path] = found
        return found

    def passed_on(self, crate: str, path: str) -> Optional[File]:
        """The file of another crate whose modules a crate's Lib.antt passes on, as those of std."""
        place = self.place_of(crate, "Lib")
        if path in ("", "Lib") or place is None:
            return None
        with open(place, encoding="utf-8") as source:
            passed = {inner.rpartition(".")[2]: (other, inner) for other, inner in PASSED_ON.findall(source.read())}
        first, _, rest = path.partition(".")
        if first not in passed:
            return None
        other, inner = passed[first]
        return self.file(other, f"{inner}.{rest}".strip("."))

    def variants(self, crate: str, name: str) -> Optional[dict[str, int]]:
        """The variants of an enum of a crate's code."""
        if (crate, name) not in self.enums:
            roots = [f"{self.top}/crates/{crate}/src", f"{self.library}/{crate}/src"]
            for folder, _, files in os.walk(next(filter(os.path.isdir, roots), "")):
                for file in files:
                    if file.endswith(".rt"):
                        self.read_enums(crate, f"{folder}/{file}")
            self.enums.setdefault((crate, name), None)
        return self.enums[crate, name]

    def read_enums(self, crate: str, place: str) -> None:
        with open(place, encoding="utf-8") as source:
            code = re.sub(r"//[^\n]*", "", source.read())
        for found in ENUM.finditer(code):
            body = code[found.end() : after_braces(code, found.end()) - 1]
            self.enums.setdefault((crate, found[1]), variants_in(re.sub(r"#\[[^\]]*\]", "", body)))

    def resolve(self, file: File, name: str, within: Optional[Definition] = None) -> Optional[Definition]:
        """What a name stands for in a file, where `within` is being read: what is declared after it isn't in scope."""
        if name in CONSTANTS:
            return by_hand(name)
        found = file.definitions.get(name)
        if found and not (within and within.file is file and found.line > within.line):
            return found
        if name in file.imports:
            return self.member(*file.imports[name])
        return by_hand(name)

    def member(self, module: str, name: str) -> Optional[Definition]:
        """What a name of an import stands for."""
        parts = module.split(".")
        if parts[-1] == "TheVariants":
            found = self.variants(parts[1], parts[-2])
            if found is not None and name in found:
                return Definition("con", name, arity=found[name])
            if name in CONSTRUCTORS:
                return by_hand(name)
            raise Unknown(f"the variant {module}.{name}")
        known = by_hand(name) if parts[0] != "Rattle" or parts[1] in BY_HAND else None
        if known:
            return known
        if "declared" in parts:
            return Definition("type", name, crate=parts[1])
        if parts[0] in ("lib", "mathlib"):
            parts = ["", parts[0], "specs", *parts[1:]]
        elif parts[0] != "Rattle":
            return Definition("type", name)
        path = ".".join(parts[parts.index("specs") + 1 :]) if "specs" in parts else ""
        for each in (path, path.rpartition(".")[0], f"{path}.Lib".strip(".")):
            file = self.file(parts[1], each or "Lib")
            definition = file.definitions.get(name)
            if definition is None and name in file.imports:
                definition = self.member(*file.imports[name])
            if definition is not None:
                return definition
        return None


def by_hand(name: str) -> Optional[Definition]:
    """A constant, constructor or function of the library that is written by hand."""
    if name in CONSTANTS:
        return Definition("const", name, python=CONSTANTS[name])
    if name in CONSTRUCTORS:
        return Definition("con", name, arity=CONSTRUCTORS[name])
    if name in LIBRARY:
        return Definition("std", name, arity=LIBRARY[name][0])
    return None
