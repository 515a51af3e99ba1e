"""Text as shells and editors of Windows write it: UTF-16, byte-order marks, and lines that end with CR LF."""
from __future__ import annotations

import sys
from pathlib import Path

# How a text begins, its code, and what is to be said of it.
MARKS = {
    b"\xef\xbb\xbf": ("utf-8", "begins with a byte-order mark"),
    b"\xff\xfe": ("utf-16-le", "is in UTF-16, as Windows PowerShell writes it"),
    b"\xfe\xff": ("utf-16-be", "is in UTF-16"),
}
CR_LF = "has lines that end with CR LF"
_told: set[Path] = set()


def plain(raw: bytes) -> tuple[bytes, str]:
    """A text's bytes without a mark, in UTF-8 where they were in UTF-16, and what is to be said of the file; nothing
    where they are as they were."""
    for mark, (code, said) in MARKS.items():
        if raw.startswith(mark):
            try:
                return raw[len(mark) :].decode(code).encode("utf-8"), said
            except UnicodeDecodeError:
                return raw, ""
    return raw, ""


def plain_listing(raw: bytes) -> tuple[bytes, str]:
    """A listing's bytes as `heads` writes them, and what is to be said of the file."""
    content, said = plain(raw)
    if b"\r\n" in content[:200]:
        return content.replace(b"\r\n", b"\n"), said or CR_LF
    return content, said


def tell(path: Path, said: str) -> None:
    """Says once of a file that its text was read otherwise than its bytes stand."""
    if said and path not in _told:
        _told.add(path)
        print(f"{path} {said}: heads-tools reads it, and `heads` itself doesn't", file=sys.stderr)
