"""What dist/heads.txt says of the ports: a line for each,

    port NAME SHA256 of PROGRAM (MADE_WITH, DATE)

with the sha256 of the port and of the program whose code it holds, what it was made with, and when."""
from __future__ import annotations

import datetime
import hashlib
import re
from dataclasses import dataclass
from pathlib import Path

DIST = Path(__file__).resolve().parents[1] / "dist"
PROGRAM = DIST / "heads"
RECORD = DIST / "heads.txt"
LINE = re.compile(r"port (\S+) ([0-9a-f]{64}) of ([0-9a-f]{64}) \((.+), (\d{4}-\d\d-\d\d)\)")


@dataclass(frozen=True)
class Port:
    name: str
    sha256: str
    program: str
    made_with: str
    date: str

    @property
    def path(self) -> Path:
        return DIST / self.name

    def line(self) -> str:
        return f"port {self.name} {self.sha256} of {self.program} ({self.made_with}, {self.date})"


def sha256(path: Path) -> str:
    return hashlib.sha256(path.read_bytes()).hexdigest()


def today() -> str:
    return datetime.datetime.now(datetime.timezone.utc).date().isoformat()


def lines() -> list[str]:
    return RECORD.read_text().splitlines()


def ports() -> list[Port]:
    """The ports that are recorded. A line that begins with `port` and isn't one is an error."""
    found = [(line, LINE.fullmatch(line)) for line in lines() if line.startswith("port ")]
    for line, match in found:
        if not match:
            raise ValueError(f"{RECORD}: no line of a port: {line}")
    return [Port(*match.groups()) for _, match in found if match]


def record(path: Path, program: str, made_with: str) -> Port:
    """Records a file of dist/ as a port of this program."""
    port = Port(path.name, sha256(path), program, made_with, today())
    others = [line for line in lines() if not line.startswith(f"port {port.name} ")]
    RECORD.write_text("\n".join([*others, port.line()]) + "\n")
    return port
