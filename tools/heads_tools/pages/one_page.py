"""A page in one file: its scripts as one, and a policy by which it loads and sends nothing. Needs Python alone."""
from __future__ import annotations

import base64
import hashlib
import re
from pathlib import Path
from typing import Iterable, Mapping

IMPORT = re.compile(r'^import ({[^}]*}) from "[^"]*/([^"/]+)";$', re.M)
EXPORT = re.compile(r"^export ((?:async )?(?:class|function|const) (\w+))", re.M)


def one_script(paths: Iterable[Path]) -> str:
    """Scripts, each after those that it takes names from, as one: each in a scope of its own."""
    whole = '"use strict";\nconst scripts = {};\n' + "\n".join(in_scope(path) for path in paths)
    if "</script" in whole:
        raise ValueError("a script holds the end of a script")
    return whole


def in_scope(path: Path) -> str:
    """A script as a function that is called at once, whose names others find in `scripts`."""
    text = path.read_text(encoding="utf-8")
    names = ", ".join(name for _, name in EXPORT.findall(text))
    body = IMPORT.sub(lambda found: f'const {found[1]} = scripts["{found[2]}"];', EXPORT.sub(r"\1", text))
    return f'scripts["{path.name}"] = (() => {{\n{body}return {{ {names} }};\n}})();'


def hashed(text: str) -> str:
    return "'sha256-" + base64.b64encode(hashlib.sha256(text.encode()).digest()).decode() + "'"


def policy(script: str, style: str, more: Mapping[str, str] = {}) -> str:
    """Nothing may be loaded or sent: only this script and this style are taken, and `more`, words added by the names of
    their parts."""
    parts = {
        "default-src": "'none'",
        "script-src": hashed(script),
        "style-src": hashed(style),
        "base-uri": "'none'",
        "form-action": "'none'",
    }
    for name, words in more.items():
        parts[name] = f"{parts.get(name, '')} {words}".strip()
    return "; ".join(f"{name} {words}" for name, words in parts.items())
