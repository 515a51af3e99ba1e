"""The linked program dist/heads: its pages, and the words in them that a loader sets."""
from __future__ import annotations

import struct
from dataclasses import dataclass
from pathlib import Path

PAGE = 4096
R_GLOB_DAT, R_JUMP_SLOT, R_RELATIVE = 6, 7, 8
PT_LOAD, PT_TLS = 1, 7
SHT_SYMTAB, SHT_RELA, SHT_DYNSYM = 2, 4, 11
SHT_NOBITS = 8
# What the program's own start and end would call, which no port runs: these words stay 0.
UNUSED = {
    "__cxa_finalize", "__gmon_start__", "__libc_start_main", "_ITM_deregisterTMCloneTable", "_ITM_registerTMCloneTable",
}
# What the program calls of the C library. Each edge stands for these, and for no other.
CALLED = {
    "malloc", "realloc", "free", "memcpy", "memmove", "memset",
    "open", "read", "write", "__write", "close", "__errno_location",
    "pthread_create", "pthread_join", "pthread_detach", "pthread_self", "pthread_attr_init",
    "pthread_attr_setguardsize", "pthread_attr_destroy", "sched_yield", "syscall",
    "_exit", "abort", "__sysv_signal", "__x86_get_cpuid_feature_leaf",
}


class NotSo(Exception):
    """What a port counts on, and doesn't hold of a file."""


@dataclass(frozen=True)
class Address:
    """A word that holds the address of a byte of the program."""

    offset: int


@dataclass(frozen=True)
class Function:
    """A word that holds the address of a function of the C library."""

    name: str


@dataclass(frozen=True)
class Unset:
    """A word that stays 0."""


@dataclass(frozen=True)
class Group:
    """Pages of one protection, from `low` to before `high`: 4 is read only, 5 code, 6 data."""

    protection: int
    low: int
    high: int


def require(holds: bool, said: str) -> None:
    if not holds:
        raise NotSo(said)


def whole_pages(size: int) -> int:
    return -(-size // PAGE) * PAGE


class Elf:
    """An ELF file of 64 bits, least byte first: its loads, its sections and their names."""

    def __init__(self, path: Path):
        self.path = path
        self.bytes = path.read_bytes()
        require(self.bytes[:6] == b"\x7fELF\x02\x01", f"{path} is no ELF file of 64 bits")
        self.kind, self.machine = struct.unpack_from("<HH", self.bytes, 16)
        headers, sections = struct.unpack_from("<QQ", self.bytes, 32)
        header, count, section, section_count, self.names = struct.unpack_from("<HHHHH", self.bytes, 54)
        self.headers = [struct.unpack_from("<IIQQQQQQ", self.bytes, headers + n * header) for n in range(count)]
        self.sections = [
            struct.unpack_from("<IIQQQQIIQQ", self.bytes, sections + n * section) for n in range(section_count)
        ]

    def text(self, at: int) -> str:
        return self.bytes[at : self.bytes.index(b"\0", at)].decode()

    def section_name(self, section: tuple[int, ...]) -> str:
        return self.text(self.sections[self.names][4] + section[0])

    def symbols(self, kind: int) -> list[tuple[str, int]]:
        _, _, _, _, offset, size, link, *_ = next(it for it in self.sections if it[1] == kind)
        found = [struct.unpack_from("<IBBHQQ", self.bytes, at) for at in range(offset, offset + size, 24)]
        return [(self.text(self.sections[link][4] + it[0]), it[4]) for it in found]


class Program(Elf):
    """dist/heads, if it is as the ports count on: no thread-local data, code apart from data, known calls alone."""

    def __init__(self, path: Path):
        super().__init__(path)
        require((self.kind, self.machine) == (3, 62), f"{path} is no position-independent program for x86-64")
        require(all(it[0] != PT_TLS for it in self.headers), f"{path} has thread-local data")
        self.loads = [it for it in self.headers if it[0] == PT_LOAD]
        self.groups = self._groups()
        self.words = self._words()
        named = dict(self.symbols(SHT_SYMTAB))
        # The entry of the program, and the function of its start that keeps the words of the command.
        self.main, self.keep = named["main"], named["keep"]

    def _groups(self) -> list[Group]:
        groups: list[Group] = []
        for _, flags, _, address, _, _, size, _ in self.loads:
            low, high = address // PAGE * PAGE, whole_pages(address + size)
            if groups and groups[-1].protection == flags:
                groups[-1] = Group(flags, groups[-1].low, high)
            else:
                groups.append(Group(flags, low, high))
        are_three = [it.protection for it in groups] == [4, 5, 6] and groups[0].low == 0
        require(are_three and all(a.high == b.low for a, b in zip(groups, groups[1:])), f"{self.path}: other pages")
        return groups

    def _words(self) -> dict[int, Address | Function | Unset]:
        names = [name for name, _ in self.symbols(SHT_DYNSYM)]
        words: dict[int, Address | Function | Unset] = {}
        for section in self.sections:
            if section[1] != SHT_RELA:
                continue
            for at in range(section[4], section[4] + section[5], 24):
                place, info, addend = struct.unpack_from("<QQq", self.bytes, at)
                words[place] = self._word(info & 0xFFFFFFFF, names[info >> 32], addend)
        data = self.groups[2]
        require(all(data.low <= place < data.high for place in words), f"{self.path}: a loader sets more than data")
        return words

    def _word(self, kind: int, name: str, addend: int) -> Address | Function | Unset:
        if kind == R_RELATIVE:
            return Address(addend)
        require(kind in (R_GLOB_DAT, R_JUMP_SLOT), f"{self.path} has a relocation of kind {kind}")
        if name in UNUSED:
            return Unset()
        require(name in CALLED, f"{self.path} calls {name}, which no port has")
        return Function(name)

    def pages(self) -> bytes:
        """The program's pages as its file gives them, from the first to the last."""
        pages = bytearray(self.groups[-1].high)
        for _, _, offset, address, _, filled, _, _ in self.loads:
            pages[address : address + filled] = self.bytes[offset : offset + filled]
        return bytes(pages)
