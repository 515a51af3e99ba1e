"""The ports that are compiled from the program's LLVM module: how each is made, and with what."""
from __future__ import annotations

import base64
import gzip
import re
import subprocess
import sys
from pathlib import Path
from typing import Callable, Sequence

import modules
import records
from kinds import versions_of
from modules import ARM64, WASM64
from program import require

HERE = Path(__file__).resolve().parent
MODULE = HERE.parent / "crates" / "heads" / "out" / "heads.bc"
sys.path.insert(0, str(HERE / "web"))
ARM_GCC = "aarch64-linux-gnu-gcc"
WARNINGS = ("-O2", "-Wall", "-Wextra", "-Werror")
THREAD_STACK = 8 << 20
FEATURES = ("memory64", "bulk-memory", "sign-ext", "mutable-globals", "nontrapping-float-to-int", "multivalue")


def call(folder: Path, *words: str | Path) -> str:
    return subprocess.run(list(map(str, words)), cwd=folder, check=True, stdout=subprocess.PIPE, text=True).stdout


def wraps(names: Sequence[str]) -> list[str]:
    return [f"--wrap={name}" for name in names]


def fetch_musl(folder: Path) -> tuple[Path, str]:
    """Debian's musl for ARM64 below a folder, and its version, by apt-get with lists of its own: the machine's
    architectures stay as they are."""
    (folder / "lists" / "partial").mkdir(parents=True)
    settings = [f"Dir::State::Lists={folder}/lists", f"Dir::Cache={folder}", "APT::Architectures::=amd64",
                "APT::Architectures::=arm64", "APT::Sandbox::User=root"]
    words = [word for setting in settings for word in ("-o", setting)]
    call(folder, "apt-get", "-q", *words, "update")
    call(folder, "apt-get", "-q", *words, "download", "musl-dev:arm64")
    package = next(folder.glob("musl-dev_*_arm64.deb"))
    call(folder, "dpkg-deb", "-x", package, folder / "musl")
    return folder / "musl" / "usr", call(folder, "dpkg-deb", "-f", package, "Version").strip()


def make_arm64(text: str, target: Path, folder: Path, of: str, more: Sequence[Path] = (),
               wrapped: Sequence[str] = ()) -> str:
    """The port for Linux on ARM64, statically linked with musl, and with `more`, whose functions stand before those
    that are `wrapped`. What it was made with."""
    packages = ("gcc-aarch64-linux-gnu", "binutils-aarch64-linux-gnu")
    made_with = versions_of(packages)
    require(bool(made_with), f"{target.name} needs Debian's {' '.join(packages)}")
    musl, version = fetch_musl(folder)
    headers = ["-nostdinc", "-isystem", musl / "include/aarch64-linux-musl",
               "-isystem", call(folder, ARM_GCC, "-print-file-name=include").strip()]
    objects = [modules.compiled(text, ARM64, folder, "arm64")]
    for source in (HERE / "linux-aarch64" / "edge.c", *more):
        objects.insert(0, folder / f"{source.stem}.o")
        call(folder, ARM_GCC, *WARNINGS, *headers, "-c", source, "-o", objects[0])
    start, library = musl / "lib/aarch64-linux-musl", ("-Wl,--start-group", "libc.a", "-lgcc", "-Wl,--end-group")
    how = ["--gc-sections", "--build-id=none", *wraps(("main", *wrapped)), f"-z,stack-size={THREAD_STACK}"]
    words = ["-s", "-static", "-nostdlib", *(f"-Wl,{word}" for word in how), "-o", target]
    call(start, ARM_GCC, *words, "crt1.o", "crti.o", *objects, *library, "crtn.o")
    return f"{modules.version()}, {made_with}, musl-dev:arm64 {version}"


def make_page(text: str, target: Path, folder: Path, of: str, more: Sequence[Path] = (),
              wrapped: Sequence[str] = ()) -> str:
    """The page, with `more` and `wrapped` as above. What it was made with."""
    from make_page import page_of
    from table32 import with_small_table

    made_with = versions_of(("binaryen",))
    require(bool(made_with), f"{target.name} needs Debian's binaryen")
    clang, kind = modules.clang(), [f"--target={WASM64.triple}", *WASM64.words]
    objects = [modules.compiled(text, WASM64, folder, "wasm")]
    for source in (*sorted((HERE / "web").glob("*.c")), *more):
        objects.append(folder / f"{source.stem}.o")
        call(folder, clang, "--no-default-config", *kind, *WARNINGS, "-fno-builtin", "-c", source, "-o", objects[-1])
    linked, small, lowered = (folder / name for name in ("linked.wasm", "small.wasm", "lowered.wasm"))
    how = ["-mwasm64", "--no-entry", "--gc-sections", "--strip-all", "--export=start", *wraps(wrapped)]
    how += ["-z", f"stack-size={THREAD_STACK}"]
    # The kit's clang is its linker, too, by the name that it is called by.
    subprocess.run(["wasm-ld", *how, "-o", str(linked), *map(str, objects)], executable=clang, check=True)
    small.write_bytes(with_small_table(linked.read_bytes()))
    call(folder, "wasm-opt", *(f"--enable-{name}" for name in FEATURES), "--memory64-lowering", small, "-o", lowered)
    made_with = f"{modules.version()}, {made_with}"
    target.write_text(page_of(lowered.read_bytes(), of, made_with), encoding="utf-8")
    return made_with


def module_in(page: Path) -> bytes:
    """The module of WebAssembly that a page holds."""
    held = re.search(r'<script type="application/gzip" id="module">([^<]*)</script>', page.read_text(encoding="utf-8"))
    require(bool(held), f"{page} holds no module")
    assert held
    return gzip.decompress(base64.b64decode(held[1]))


def remake_page(port: records.Port) -> None:
    """The page with the module that it holds, and the scripts and looks as they are now."""
    from make_page import page_of

    page = page_of(module_in(port.path), port.program, port.made_with)
    port.path.write_text(page, encoding="utf-8")


MAKERS: dict[str, Callable[..., str]] = {"heads-linux-aarch64": make_arm64, "heads.html": make_page}


def lacks_module() -> str:
    """Why the module that dist/heads was compiled from isn't here; nothing where it is."""
    noted, of = MODULE.with_name("heads.bc.of"), records.sha256(records.PROGRAM)
    is_of_program = MODULE.is_file() and noted.is_file() and noted.read_text().strip() == of
    return "" if is_of_program else f"{MODULE} isn't the module of dist/heads: call ports/module first"
