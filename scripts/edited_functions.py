"""Bodies of functions in sources: the texts that an edit of a crate makes, and the functions whose bodies it changes,
by their names in `rt`.

An edit is a file with lines 'file: PATH', 'old: TEXT' and 'new: TEXT'; each old text stands once in its file.
"""
import contextlib
import re
from pathlib import Path

# The first line of a function, and of what has functions.
FUNCTION = re.compile(r"( *)(?:pub(?:\(crate\))? )?(?:const )?fn (\w+)")
OWNER = re.compile(r"(?:unsafe )?impl\b|(?:pub(?:\(crate\))? )?trait ")


class NotTried(Exception):
    """Why an edit says nothing of the contract."""


def changes_of(edit):
    """The changes of an edit: the path of a file in the crate, its old and its new text."""
    path, old = "", ""
    for line in edit.read_text(encoding="utf-8").splitlines():
        word, _, text = line.partition(": ")
        if word == "file":
            path = text.strip()
        elif word == "old":
            old = text
        elif word.rstrip(":") == "new":
            yield path, old, text


def edited(edit, crate, earlier=None):
    """The texts of the files that an edit changes, by their paths in the crate, and the functions whose bodies it
    changes, with "" for what is in no body; `earlier`: texts of files to begin with, in place of the crate's."""
    texts, functions = {}, set()
    for path, old, new in changes_of(edit):
        before = texts.get(path) or (earlier or {}).get(path) or (crate / path).read_text(encoding="utf-8")
        if before.count(old) != 1:
            raise NotTried(f"{path} has its old text {before.count(old)} times: {old}")
        functions.add(function_at(crate, path, before, before.count("\n", 0, before.index(old))))
        texts[path] = before.replace(old, new)
    if not texts:
        raise NotTried("it changes nothing")
    return texts, functions


def owner_at(lines, number):
    """The type and the trait that the function at this line is of; the trait or both may be ""."""
    first = next((at for at in range(number, -1, -1) if lines[at][:1].strip()), 0)
    if not OWNER.match(lines[first]):
        return "", ""
    last = next(at for at in range(first, number) if lines[at].endswith("{"))
    head, longer = " ".join(lines[first:last + 1]).replace("->", ""), ""
    while head != longer:
        head, longer = re.sub(r"<[^<>]*>", "", head), head
    names = re.findall(r"\w+", re.sub(r"^.*?\b(?:impl|trait)\b|:(?!:).*", "", head))
    at = names.index("for") if "for" in names else 0
    return names[-1][0].upper() + names[-1][1:], names[at - 1] if at else ""


def module_of(crate, owner):
    """The module of the crate that declares a type, or None."""
    declares = re.compile(rf"^(?:pub(?:\(crate\))? )?(?:struct|enum|trait) {owner}\b", re.MULTILINE)
    found = (path for path in (crate / "src").rglob("*.rt") if declares.search(path.read_text(encoding="utf-8")))
    return next((module(path.relative_to(crate)) for path in found), None)


def body_of(lines, first):
    """The lines with the braces of the body of the function that begins at this line, or nothing where it has none."""
    indent = FUNCTION.match(lines[first])[1]
    for at in range(first, len(lines)):
        if at > first and not re.match(indent + r"(?: |\)|\{|where\b)", lines[at]):
            return None
        if re.match(indent + r"\S", lines[at]) and lines[at].endswith("{"):
            return at, next(end for end in range(at, len(lines)) if lines[end] == indent + "}")
    return None


def without_bodies(text):
    """A source without the bodies of its functions."""
    lines, kept, at = text.split("\n"), [], 0
    while at < len(lines):
        body = FUNCTION.match(lines[at]) and body_of(lines, at)
        kept += lines[at:body[0] + 1] if body else lines[at:at + 1]
        at = body[1] if body else at + 1
    return "\n".join(kept)


def function_at(crate, path, text, number):
    """The path in its crate of the function whose body has this line of a file, or "" where none has. A method that is
    of no trait is named by the module of its type."""
    lines = text.split("\n")
    first = next((at for at in range(number, -1, -1) if FUNCTION.match(lines[at])), None)
    body = None if first is None or not path.startswith("src/") else body_of(lines, first)
    if not body or not body[0] < number < body[1]:
        return ""
    indent, name = FUNCTION.match(lines[first]).groups()
    owner, trait = owner_at(lines, first) if indent else ("", "")
    if indent and not owner:
        return ""
    where = module_of(crate, owner) if owner and not trait else module(path)
    return "::".join(part for part in (where, owner + trait, name) if part)


def module(path):
    """The module of a file of src/, by its path there."""
    parts = Path(path).with_suffix("").parts[1:]
    return "::".join(part for part in parts if part not in ("lib", "main", "mod"))


def together(crate, edits):
    """Texts of the crate with edits of different functions, as many as can be, and the functions of each of these."""
    texts, functions = {}, {}
    for edit in edits:
        with contextlib.suppress(NotTried):
            made, names = edited(edit, crate, texts)
            if "" not in names and not names & set().union(*functions.values()):
                texts.update(made)
                functions[edit] = names
    return texts, functions
