"""Puts heads.html together: the module, the scripts and the looks in one file, with a policy that lets it load and send
nothing."""
from __future__ import annotations

import base64
import gzip
import importlib.util
from pathlib import Path
from string import Template
from types import ModuleType

HERE = Path(__file__).resolve().parent
TOOLS = HERE.parents[1] / "tools" / "heads_tools"
MAP = TOOLS / "map"
OWN_SCRIPTS = ("host.mjs", "listing.mjs", "deck.mjs", "zones.mjs", "scene_of.mjs", "unzip.mjs", "page.mjs")
WORKER_SCRIPTS = ("host.mjs", "worker.mjs")


def one_page() -> ModuleType:
    """heads-tools' module of this name, by itself: the package would need numpy."""
    spec = importlib.util.spec_from_file_location("one_page", TOOLS / "pages" / "one_page.py")
    assert spec and spec.loader
    module = importlib.util.module_from_spec(spec)
    spec.loader.exec_module(module)
    return module


def text(path: Path) -> str:
    return path.read_text(encoding="utf-8")


def page_of(module: bytes, program: str, made_with: str) -> str:
    """The page with a module of WebAssembly, the sha256 of the program that it is of, and what made it."""
    one = one_page()
    maps = [MAP / name for name in text(MAP / "scripts.txt").split()]
    script = one.one_script([*maps, *(HERE / name for name in OWN_SCRIPTS)])
    style = text(HERE / "page.css") + text(MAP / "map.css")
    return Template(text(HERE / "page.html")).substitute(
        policy=one.policy(script, style, {"script-src": "'wasm-unsafe-eval'", "worker-src": "blob:"}),
        style=style,
        script=script,
        map=text(MAP / "parts.html"),
        worker=one.one_script(HERE / name for name in WORKER_SCRIPTS),
        module=base64.b64encode(gzip.compress(module, 9, mtime=0)).decode(),
        program=program,
        made=made_with,
    )
