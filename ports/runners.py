"""How a port is started on this machine: by itself, or by a program that stands for its system."""
from __future__ import annotations

import os
import subprocess
from dataclasses import dataclass
from pathlib import Path
from typing import Any

HERE = Path(__file__).resolve().parent
WINE, WINE_SERVER = Path("/usr/lib/wine/wine64"), Path("/usr/lib/wine/wineserver")
QEMU = Path("/usr/bin/qemu-aarch64-static")
NODE = Path("/usr/bin/node")
# A pipe would be open as long as the server is.
UNSEEN: dict[str, Any] = {"stdin": subprocess.DEVNULL, "stdout": subprocess.DEVNULL, "stderr": subprocess.DEVNULL}


@dataclass(frozen=True)
class Runner:
    """The program that a port is a word of, the words between them, and Debian's package of it."""

    program: Path
    words: tuple[str, ...]
    package: str


RUNNERS = {
    "heads-linux-x86_64": None,
    "heads.exe": Runner(WINE, (), "wine64"),
    "heads-linux-aarch64": Runner(QEMU, (), "qemu-user-static"),
    "heads.html": Runner(NODE, (str(HERE / "web" / "run.mjs"),), "nodejs"),
}


def missing(name: str) -> str:
    """The package that is needed to run a port here and isn't installed."""
    runner = RUNNERS[name]
    return runner.package if runner and not runner.program.exists() else ""


def started(name: str, port: Path, folder: Path) -> Path:
    """A program, in the folder, that takes the port's words as the port does. The folder has what it keeps, too."""
    runner = RUNNERS[name]
    if not runner:
        return port
    words = [str(runner.program), *runner.words, str(port)]
    listed = "".join(f'"{word}", ' for word in words)
    settings = [f"-DSTARTS={listed}", f'-DKEPT="{folder / "wine"}"']
    target = folder / f"{port.name}.started"
    source = str(HERE / "tests" / "launch.c")
    subprocess.run(["gcc", "-static", "-O1", *settings, "-o", str(target), source], check=True)
    if runner.program == WINE:
        # One server for all starts, each of which would take seconds without. The first start makes the folder of
        # settings; later ones run at the same time.
        (folder / "wine").mkdir(exist_ok=True)
        subprocess.run([str(WINE_SERVER), "-p"], env=settings_of(folder), **UNSEEN)
        subprocess.run([str(target)], cwd=folder, timeout=120, **UNSEEN)
    return target


def settings_of(folder: Path) -> dict[str, str]:
    return os.environ | {"WINEPREFIX": str(folder / "wine")}


def stop(folder: Path) -> None:
    """Ends the server that wine started for this folder."""
    if (folder / "wine").exists():
        subprocess.run([str(WINE_SERVER), "-k"], env=settings_of(folder), **UNSEEN)
