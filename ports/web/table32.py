"""Gives a module of WebAssembly whose table of functions has 64-bit places one with 32-bit places.

clang 22 gives a module with a 64-bit memory such a table, which browsers and binaryen 108 don't take. Nothing but the
places where functions are put into the table counts on it, if the module calls none through it: `wasm-opt` refuses the
module otherwise, since the places of such calls would have 64 bits."""
from __future__ import annotations

TABLE, ELEMENTS, CODE = 4, 9, 10
HAS_64_BITS, I64_CONST, I32_CONST = 4, 0x42, 0x41


def number_at(data: bytes, at: int) -> tuple[int, int]:
    """A number of variable length, and the place after it."""
    value = shift = 0
    while True:
        byte = data[at]
        value |= (byte & 127) << shift
        at, shift = at + 1, shift + 7
        if byte < 128:
            return value, at


def number_bytes(value: int) -> bytes:
    out = bytearray()
    while value >= 128:
        out.append(value & 127 | 128)
        value >>= 7
    return bytes([*out, value])


def with_small_table(data: bytes) -> bytes:
    """The module with one table, whose places have 32 bits. ValueError where it isn't such a module."""
    out, at = bytearray(data[:8]), 8
    while at < len(data):
        kind = data[at]
        size, start = number_at(data, at + 1)
        body = bytearray(data[start : start + size])
        if kind == TABLE:
            if body[0] != 1 or not body[2] & HAS_64_BITS:
                raise ValueError("the module has other tables")
            body[2] -= HAS_64_BITS
        if kind == ELEMENTS:
            if body[:2] != b"\1\0" or body[2] != I64_CONST:
                raise ValueError("the module fills its table otherwise")
            body[2] = I32_CONST
        out += bytes([kind]) + number_bytes(len(body)) + body
        at = start + size
    return bytes(out)
