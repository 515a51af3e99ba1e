"""The templates of pages, by jinja2: all text is escaped, and sentences go through the filters `shown` and `bare`."""
from __future__ import annotations

import functools
import re
from pathlib import Path

from jinja2 import Environment, FileSystemLoader, StrictUndefined
from markupsafe import Markup, escape

FOLDERS = re.compile(r"(?<![\w./:])/(?:[^\s/`'\"]+/)+")


def shown(text: str) -> Markup:
    """A sentence in HTML: what stands between backticks as code, a file without the folders of the machine."""
    return Markup(re.sub("`([^`]*)`", r"<code>\1</code>", str(escape(FOLDERS.sub("", text)))))


def bare(text: str) -> str:
    """A sentence for a title or an attribute."""
    return FOLDERS.sub("", text).replace("`", "")


@functools.lru_cache(maxsize=1)
def environment() -> Environment:
    folder = FileSystemLoader(Path(__file__).parent)
    made = Environment(loader=folder, autoescape=True, undefined=StrictUndefined, keep_trailing_newline=True)
    made.filters.update(shown=shown, bare=bare)
    return made


def rendered(name: str, **values: object) -> str:
    """A template of this folder with its values."""
    return environment().get_template(name).render(**values)
