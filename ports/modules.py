"""The program's LLVM module as a text, and compiled for another target by the kit's clang."""
from __future__ import annotations

import re
import subprocess
from dataclasses import dataclass
from pathlib import Path

# What only the x86-64 of Linux has: a model of processor, and the probes of its stack, of which there is one for ARM64.
PROCESSOR = ' "target-cpu"="[^"]*"'
PROBES = ' "frame-pointer"="all"| "probe-stack"="inline-asm"| "stack-probe-size"="[0-9]*"'
# Its hint to a processor that waits in a loop. It computes nothing, so it is left out.
PAUSE = r"^.*void @llvm\.x86\.sse2\.pause\(\).*\n"


@dataclass(frozen=True)
class Target:
    """A target of clang: its name, how it lays data out, the words for its processor, and which attributes of
    functions it doesn't have."""

    triple: str
    layout: str
    words: tuple[str, ...]
    without: str


ARM64 = Target(
    "aarch64-unknown-linux-gnu",
    "e-m:e-p270:32:32-p271:32:32-p272:64:64-i8:8:32-i16:16:32-i64:64-i128:128-n32:64-S128-Fn32",
    ("-fPIE", "-ffunction-sections"),
    PROCESSOR,
)
WASM64 = Target(
    "wasm64-unknown-unknown",
    "e-m:e-p:64:64-p10:8:8-p20:8:8-i64:64-i128:128-n32:64-S128-ni:1:10:20",
    ("-mcpu=lime1",),
    f"{PROCESSOR}|{PROBES}",
)


def kit() -> Path:
    said = subprocess.run(["rt", "doc"], capture_output=True, text=True, check=True).stdout.strip()
    return Path(said).resolve().parent


def version() -> str:
    """rattle-kit-13b, as `rt version` prints it."""
    return subprocess.run(["rt", "version"], capture_output=True, text=True, check=True).stdout.split()[0]


def clang() -> str:
    return str(kit() / "toolchain" / "bin" / "clang")


def text_of(module: Path) -> str:
    """The module as it is, as a text."""
    words = ["-x", "ir", "-S", "-emit-llvm", "-O0", "-Xclang", "-disable-llvm-passes", str(module), "-o", "-"]
    done = subprocess.run([clang(), "--no-default-config", *words], capture_output=True, text=True, check=True)
    return done.stdout


def for_target(text: str, target: Target) -> str:
    """The module's text for another target. Of a module of `rt try` the checks of addresses are left out, too."""
    text = re.sub(r"^target datalayout = .*", f'target datalayout = "{target.layout}"', text, count=1, flags=re.M)
    text = re.sub(r"^target triple = .*", f'target triple = "{target.triple}"', text, count=1, flags=re.M)

    def attributes(line: re.Match[str]) -> str:
        kept = re.sub(f" sanitize_address|{target.without}", "", line[0])
        # LLVM has no empty list of attributes.
        return kept if re.search(r"{ \S", kept.replace("{ }", "")) else f"{kept.partition('=')[0]}= {{ nounwind }}"

    text = re.sub(PAUSE, "", text, flags=re.M)
    return re.sub(r"^attributes .*", attributes, text, flags=re.M)


def compiled(text: str, target: Target, folder: Path, name: str) -> Path:
    """The module's object file for a target."""
    source, made = folder / f"{name}.ll", folder / f"{name}.o"
    source.write_text(for_target(text, target))
    words = [f"--target={target.triple}", "-O2", *target.words, "-x", "ir", "-c", str(source), "-o", str(made)]
    subprocess.run([clang(), "--no-default-config", *words], check=True)
    source.unlink()
    return made
