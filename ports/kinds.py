"""The ports that hold the program's pages: how each is linked, and with which packages of Debian."""
from __future__ import annotations

import subprocess
import tempfile
from dataclasses import dataclass
from pathlib import Path
from typing import Callable, Sequence

from pages import write_pages
from program import Program

HERE = Path(__file__).resolve().parent
COMPILE = ("-O2", "-Wall", "-Wextra", "-Werror", "-c")
# musl gives a thread 128 KiB of stack unless the file's header asks for more.
THREAD_STACK = 8 << 20
MAIN_STACK = 16 << 20


def call(folder: Path, *words: str) -> None:
    subprocess.run(words, cwd=folder, check=True)


def link(program: Program, target: Path, form: str, edge: str, compiler: str, how: Sequence[str],
         more: Sequence[Path] = (), wrapped: Sequence[str] = ()) -> None:
    """Links the pages with the edge's files, and with `more`, whose functions stand before those that are `wrapped`."""
    sources = [*sorted((HERE / edge).glob("*.c")), *more]
    with tempfile.TemporaryDirectory(prefix="heads_port_") as name:
        folder = Path(name)
        write_pages(program, form, folder)
        call(folder, compiler, "-c", "pages.S")
        call(folder, compiler, *COMPILE, *map(str, sources))
        objects = [f"{path.stem}.o" for path in sources]
        wraps = [f"-Wl,--wrap={word}" for word in wrapped]
        call(folder, compiler, *how, "-Wl,-T,pages.ld", *wraps, "-o", str(target), *objects, "pages.o")


def link_musl(program: Program, target: Path, more: Sequence[Path] = (), wrapped: Sequence[str] = ()) -> None:
    how = ["-s", "-static", "-no-pie", "-Wl,--build-id=none", f"-Wl,-z,stack-size={THREAD_STACK}"]
    link(program, target, "elf", "linux-x86_64", "musl-gcc", how, more, wrapped)


def link_windows(program: Program, target: Path, more: Sequence[Path] = (), wrapped: Sequence[str] = ()) -> None:
    how = ["-s", "-municode", "-static", "-Wl,--no-insert-timestamp", f"-Wl,--stack,{MAIN_STACK}"]
    wrapped = [f"port_{word}" for word in wrapped]
    link(program, target, "coff", "windows", "x86_64-w64-mingw32-gcc-win32", how, more, wrapped)


@dataclass(frozen=True)
class Kind:
    """A port: its name in dist/, the packages whose versions its bytes depend on, and how it is linked."""

    name: str
    packages: tuple[str, ...]
    link: Callable[..., None]

    def made_with(self) -> str:
        """The packages with their versions; nothing where one isn't installed."""
        return versions_of(self.packages)


def versions_of(packages: Sequence[str]) -> str:
    asked = ["dpkg-query", "-W", "-f", "${db:Status-Abbrev}${Package} ${Version}\n", *packages]
    try:
        found = subprocess.run(asked, capture_output=True, text=True).stdout.splitlines()
    except FileNotFoundError:
        return ""
    kept = [line[3:].strip() for line in found if line.startswith("ii")]
    return ", ".join(kept) if len(kept) == len(packages) else ""


MUSL = ("gcc-12", "binutils", "musl-dev", "musl-tools")
MINGW = ("gcc-mingw-w64-x86-64-win32", "binutils-mingw-w64-x86-64", "mingw-w64-x86-64-dev")
KINDS = [Kind("heads-linux-x86_64", MUSL, link_musl), Kind("heads.exe", MINGW, link_windows)]
