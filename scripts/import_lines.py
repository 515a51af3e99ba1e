"""Lines of a crate's files that import names.

A name in braces may have a path before it: `use Rattle.deck_span.proofs.{Finding.place_of, Layers.same_layer}` imports from
two files. So a library takes one line, where its files took one each.
"""
import re
import sys
from collections import defaultdict

LINE = re.compile(
    r"^(?P<head>(?:ghost |unfoldable )?(?:pub )?use )(?P<module>[^\s{};]+)\.\{(?P<names>[^{}\n]*)\}(?P<tail>;?)[ \t]*\n",
    re.M,
)
LIBRARY = re.compile(r"(?P<library>Rattle\.\w+\.(?:specs|proofs))\.(?P<path>[\w.]+)$")
# What passes on names of many files stays a line of its own, as do the goals of a function.
ALONE = re.compile(r"\.(?:Common|Prelude|Goals|Given)$")
PATH = re.compile(r"(?P<path>\w[\w.]*)\.(?P<name>[^.]+)$")


def names_in(text):
    return [name.strip() for name in text.split(",") if name.strip()]


def imports(head, names, width, tail=""):
    """The lines that import names from one module, each of at most `width` letters."""
    lines = [[]]
    for name in names:
        if lines[-1] and len(head) + len(", ".join([*lines[-1], name])) + 3 + len(tail) > width:
            lines.append([])
        lines[-1].append(name)
    # `{!` would begin a hole
    return "".join(f"{head}.{{{' ' * line[0].startswith('!')}{', '.join(line)}}}{tail}\n" for line in lines)


def taken_apart(text):
    """The text with a line for each module that names come from."""

    def apart(line):
        modules = defaultdict(list)
        for name in names_in(line["names"]):
            path = PATH.match(name)
            module = f"{line['module']}.{path['path']}" if path else line["module"]
            modules[module].append(path["name"] if path else name)
        if list(modules) == [line["module"]]:
            return line[0]
        return "".join(imports(line["head"] + module, names, sys.maxsize, line["tail"]) for module, names in modules.items())

    return LINE.sub(apart, text)


def has_path(name):
    """Whether a path may stand before a name: an operator has none."""
    return re.match(r"[A-Za-z_]", name) and "◌" not in name


def put_together(text, width):
    """The text with the lines of one library as one, where it then has fewer of them."""
    lines, names = defaultdict(list), defaultdict(list)
    for line in LINE.finditer(text):
        place = LIBRARY.match(line["module"])
        library, path = (place["library"], place["path"] + ".") if place else (line["module"], "")
        taken = names_in(line["names"])
        if ALONE.search(line["module"]) or not all(map(has_path, taken)):
            continue
        lines[line["head"], library, line["tail"]].append(line[0])
        names[line["head"], library, line["tail"]] += [path + name for name in taken]
    together = {key: imports(f"{key[0]}{key[1]}", names[key], width, key[2]) for key in lines}
    first = {key: found[0] for key, found in lines.items() if together[key].count("\n") < len(found)}
    gone = {line: key for key in first for line in lines[key]}

    def joined(line):
        key = gone.get(line[0])
        return line[0] if key is None else together[key] if first[key] == line[0] else ""

    return LINE.sub(joined, text)
