"""What runs of a program take, and the line that names a program in a table."""
from __future__ import annotations

import hashlib
import os
import subprocess
import time
from dataclasses import dataclass
from pathlib import Path

# Runs that take less are made three times, and the one with the least processor time counts.
SHORT = 1.0


@dataclass
class Cost:
    """Seconds of all processors and by the clock, and the most memory."""

    seconds: float
    clock: float
    bytes: int


@dataclass
class Meter:
    """Runs programs in a folder, by the program of cost.rs, whose small memory isn't charged to them."""

    built: Path
    folder: Path

    def once(self, output: str, words: list[str]) -> Cost:
        """What a program takes, whose output goes to a file of the folder."""
        command = [str(self.built / "cost"), str(self.folder), output, *words]
        said = subprocess.run(command, check=True, capture_output=True, text=True).stdout
        seconds, clock, size = said.split()
        return Cost(float(seconds), float(clock), int(size))

    def cost(self, output: str, words: list[str]) -> Cost:
        """The same; of a short run, the least of three."""
        first = self.once(output, words)
        more = [self.once(output, words) for _ in range(2)] if first.seconds < SHORT else []
        return min([first, *more], key=lambda cost: cost.seconds)

    def certify(self, program: str, case: str, listing: str) -> Cost:
        """What the check of a listing takes. Another end than CERTIFIED ends the script."""
        cost = self.cost("verdict", [program, "check", "m.nam", listing, "--wide"])
        verdict = (self.folder / "verdict").read_text()
        if verdict != "CERTIFIED\n":
            raise SystemExit(f"{case}: {verdict}")
        return cost


def name_of(program: str) -> str:
    """The first digits of the hash of a program."""
    return hashlib.sha256(Path(program).read_bytes()).hexdigest()[:8]


def circumstances() -> str:
    """The date and the load."""
    return f"{time.strftime('%d %B %Y, %H:%M', time.gmtime())} UTC, load {os.getloadavg()[0]:.1f}"
