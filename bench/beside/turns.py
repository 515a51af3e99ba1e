#!/usr/bin/env python3
"""Processor seconds of two programs by turns, as a table.

    turns.py OLD NEW BUILT FOLDER [CASE..]

OLD and NEW are files of `heads`, BUILT is the folder of the program of cost.rs, and FOLDER an empty folder. A case is
KIND:SIDE or steps:SIDE:COUNT; without a case all of CASES are. Each field has the seconds of the new program, and what
they are over those of the old one, the least of some turns each. The script ends with 1 where one is over 1.1.
"""
from __future__ import annotations

import sys
from pathlib import Path

from costs import Meter, circumstances, name_of
from kinds import deck_of

CASES = (
    "sheet:64 sheet:128 sheet:256 cube:20 cube:32 rivers:64 rivers:128 wells:64 wells:128 contrasts:64 contrasts:128 "
    "drains:64 drains:128 evt:64 evt:128 channels:24 karst:24 faults:40 steps:64:20 steps:32:100"
).split()
TURNS = 5
# Turns end early once both programs have taken this many seconds.
ENOUGH = 6.0
MOST = 1.1
# Seconds that the time of two equal runs may differ by.
NOISE = 0.004


class Pair:
    """Two programs, and a folder with a model."""

    def __init__(self, old: str, new: str, meter: Meter) -> None:
        self.programs = {"old": old, "new": new}
        self.meter = meter
        self.slow: list[str] = []

    def field(self, what: str, *words: str) -> str:
        """The least seconds of the new program, over those of the old one."""
        taken: dict[str, list[float]] = {name: [] for name in self.programs}
        for _ in range(TURNS):
            for name, program in self.programs.items():
                taken[name].append(self.meter.once(name, [program, *words]).seconds)
            if sum(sum(seconds) for seconds in taken.values()) >= ENOUGH:
                break
        old, new = min(taken["old"]), min(taken["new"])
        if new > MOST * old + NOISE:
            self.slow.append(f"{what}: {new:.3f} s, {old:.3f} s before")
        return f"{new:.3f}, {new / old:.2f}"

    def row(self, case: str) -> str:
        deck_of(case).write(self.meter.folder)
        run = ("run", "m.nam", "--wide", "--workers", "1")
        settled = self.field(f"{case} settled", *run)
        old, new = ((self.meter.folder / name).read_bytes() for name in self.programs)
        if old != new:
            raise SystemExit(f"{case}: two settled listings")
        quick = self.field(f"{case} quick", *run, "--quick")
        (self.meter.folder / "new").rename(self.meter.folder / "quick")
        self.meter.certify(self.programs["old"], case, "quick")
        check = self.field(f"{case} check", "check", "m.nam", "quick", "--wide")
        return f"| {case} | {settled} | {quick} | {check} |"


def main() -> int:
    if len(sys.argv) < 5:
        print(__doc__, file=sys.stderr)
        return 2
    old, new, built, folder, *cases = sys.argv[1:]
    pair = Pair(old, new, Meter(Path(built), Path(folder)))
    print(f"{name_of(new)} over {name_of(old)}, {circumstances()}")
    print(f"processor seconds, one worker, the least of {TURNS} turns\n")
    print("| model | run | quick | check |\n|---|---|---|---|", flush=True)
    for case in cases or CASES:
        print(pair.row(case), flush=True)
    print(f"\n{circumstances()}; over {MOST}: {len(pair.slow)}")
    print(*pair.slow, sep="\n")
    return 1 if pair.slow else 0


if __name__ == "__main__":
    sys.exit(main())
