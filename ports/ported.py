"""A port's file as it lies in memory: its pieces with their addresses and protections, and which words a loader
moves."""
from __future__ import annotations

import struct
from dataclasses import dataclass
from pathlib import Path

from program import SHT_NOBITS, Elf, NotSo, require

READS, CODE, WRITES = 4, 1, 2


@dataclass(frozen=True)
class Piece:
    """A section: its name, its address, its bytes, its protection as a sum of READS, WRITES and CODE, and where in the
    file it begins."""

    name: str
    address: int
    body: bytes
    protection: int
    offset: int

    def holds(self, address: int) -> bool:
        return self.address <= address < self.address + len(self.body)


@dataclass(frozen=True)
class Ported:
    """The pieces of a port, and the addresses of the words that are set anew where the whole is moved, each with the
    place of its entry in the table that says so."""

    pieces: list[Piece]
    moved: dict[int, int]
    can_move: bool


def read_port(path: Path) -> Ported:
    data = path.read_bytes()
    try:
        if data[:2] == b"MZ":
            return read_windows(data)
        if data[:4] == b"\x7fELF":
            return read_linux(Elf(path))
    except (struct.error, ValueError):
        raise NotSo(f"{path} is cut or spoiled") from None
    raise NotSo(f"{path} is a program neither of Linux nor of Windows")


def read_linux(elf: Elf) -> Ported:
    """A static program that stays where it is linked."""
    require((elf.kind, elf.machine) == (2, 62), f"{elf.path} is no static program for x86-64")
    require(all(it[1] not in (4, 9) for it in elf.sections), f"{elf.path}: a loader changes it")
    pieces = []
    for section in elf.sections:
        _, kind, flags, address, offset, size, *_ = section
        if flags & 2:
            body = bytes(size) if kind == SHT_NOBITS else elf.bytes[offset : offset + size]
            protection = READS + WRITES * bool(flags & 1) + CODE * bool(flags & 4)
            pieces.append(Piece(elf.section_name(section), address, body, protection, offset))
    return Ported(pieces, {}, False)


def read_windows(data: bytes) -> Ported:
    """A program for Windows, at the address that it asks for."""
    at = struct.unpack_from("<I", data, 60)[0]
    require(data[at : at + 6] == b"PE\0\0\x64\x86", "no program for Windows on x86-64")
    count, extra = struct.unpack_from("<H", data, at + 6)[0], struct.unpack_from("<H", data, at + 20)[0]
    base, = struct.unpack_from("<Q", data, at + 24 + 24)
    pieces = []
    for place in range(at + 24 + extra, at + 24 + extra + 40 * count, 40):
        name, size, address, kept, offset = struct.unpack_from("<8sIIII", data, place)
        flags, = struct.unpack_from("<I", data, place + 36)
        body = data[offset : offset + min(size, kept)].ljust(size, b"\0")
        protection = READS * bool(flags >> 30 & 1) + WRITES * bool(flags >> 31) + CODE * bool(flags >> 29 & 1)
        pieces.append(Piece(name.rstrip(b"\0").decode(), base + address, body, protection, offset))
    table = next((piece.body for piece in pieces if piece.name == ".reloc"), b"")
    return Ported(pieces, {base + it: at for it, at in moved_words(table).items()}, True)


def moved_words(table: bytes) -> dict[int, int]:
    """The words that the table of base relocations names, each with the place of its entry: of each page the table has
    a head and two bytes a word."""
    found, at = {}, 0
    while at + 8 <= len(table):
        page, size = struct.unpack_from("<II", table, at)
        if size < 8:
            break
        for place in range(at + 8, at + size, 2):
            entry, = struct.unpack_from("<H", table, place)
            kind = entry >> 12
            require(kind in (0, 10), f"a base relocation of kind {kind}")
            if kind:
                found[page + (entry & 4095)] = place
        at += size
    return found
