"""Writes the program's pages as a text for the assembler, and where the linker has to put them.

The pages stand in three sections, each as far from the first as the program's code counts on: `.heads0` is read only,
`.heads1` has the code and `.heads2` the data. Each byte is the file's own. Only the words that the loader of Linux
would set are set by the link: addresses within the program, and the functions of the C library. On Windows each of
these is `port_NAME`, written for the convention of the program's code; on Linux it is the C library's own, and
`port_NAME` where that is glibc's alone.
"""
from __future__ import annotations

from pathlib import Path
from typing import Iterator

from program import PAGE, Address, Function, Group, Program, Unset

GLIBC_ALONE = {"__sysv_signal", "__write", "__x86_get_cpuid_feature_leaf"}
FLAGS = {"coff": ('"dr"', '"xr"', '"dw"'), "elf": ('"a",@progbits', '"ax",@progbits', '"aw",@progbits')}
BESIDE = {"coff": "BEFORE .data", "elf": "AFTER .text"}


def word_text(word: Address | Function | Unset, form: str) -> str:
    if isinstance(word, Address):
        return f"heads_image + {word.offset:#x}"
    if isinstance(word, Function):
        return f"port_{word.name}" if form == "coff" or word.name in GLIBC_ALONE else word.name
    return "0"


def group_lines(program: Program, group: Group, form: str) -> Iterator[str]:
    """The bytes of these pages."""
    at = group.low
    for _, _, offset, address, _, filled, _, _ in program.loads:
        end = address + filled
        if end <= group.low or group.high <= address:
            continue
        if at < address:
            yield f".zero {address - at:#x}"
        at = address
        for place in [*sorted(place for place in program.words if at <= place < end), end]:
            if at < place:
                yield f'.incbin "{program.path}", {offset + at - address:#x}, {place - at:#x}'
            if place < end:
                yield f".quad {word_text(program.words[place], form)}"
            at = place + 8
        at = end
    if at < group.high:
        yield f".zero {group.high - at:#x}"


def assembler_text(program: Program, form: str) -> str:
    lines = []
    named = {"heads_image": 0, "heads_main": program.main, "heads_keep": program.keep}
    for number, (group, flags) in enumerate(zip(program.groups, FLAGS[form])):
        lines += [f".section .heads{number},{flags}", f".balign {PAGE}", f"heads_start{number}:"]
        for name, value in named.items():
            if group.low <= value < group.high:
                lines += [f".globl {name}", f".set {name}, heads_start{number} + {value - group.low:#x}"]
        lines += group_lines(program, group, form)
    if form == "elf":
        lines.append('.section .note.GNU-stack,"",@progbits')
    return "\n".join(lines) + "\n"


def linker_text(program: Program, form: str) -> str:
    kept = [f"  .heads{n} ALIGN({PAGE}) : {{ KEEP(*(.heads{n})) }}" for n in range(len(program.groups))]
    distances = [
        f'ASSERT(ADDR(.heads{n}) - ADDR(.heads0) == {group.low:#x}, "the pages are not at their distances");'
        for n, group in enumerate(program.groups)
    ]
    return "\n".join(["SECTIONS", "{", *kept, "}", f"INSERT {BESIDE[form]};", *distances]) + "\n"


def write_pages(program: Program, form: str, folder: Path) -> None:
    """pages.S and pages.ld in the folder, for the form of object files `coff` or `elf`."""
    (folder / "pages.S").write_text(assembler_text(program, form))
    (folder / "pages.ld").write_text(linker_text(program, form))
