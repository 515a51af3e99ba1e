"""How far a run is: the step, and within a step that takes long the views of --watch."""
from __future__ import annotations

import sys
import threading
import time
from typing import IO

from ..common.text import decimal_text

SLOW, LONG = 10.0, 60.0
HINT = ", over a minute: --quick takes a few solves, for wider pairs"
MOST_WATCHED = 2_000_000


class Progress:
    """One line on standard error, how far a run is: the step, the widest pair so far, the time; of a step that takes
    over ten seconds the phase, how many cells still move and its time so far; and of one that takes over a minute that
    a quick run may be enough, where this is none."""

    def __init__(self, name: str, steps: int | None, is_quick: bool = False):
        self.name, self.steps, self.began, self.told = name, steps, time.monotonic(), 0.0
        self.is_quick = is_quick
        self.count, self.widest, self.is_live = 0, 0, sys.stderr.isatty()
        self.step_began, self.views, self.place = self.began, 0, ""
        self.view: list[bytes] = []
        self.moving: int | None = None
        self.ended = threading.Event()
        self.threads: list[threading.Thread] = []

    def head(self, line: bytes) -> None:
        words = line.split()
        if len(words) == 6:
            self.widest = max(self.widest, int(words[5].replace(b".", b"")) - int(words[4].replace(b".", b"")))

    def step(self) -> None:
        self.count += 1
        now = self.step_began = time.monotonic()
        self.views, self.view, self.moving = 0, [], None
        if now - self.told > (0.2 if self.is_live else SLOW) or self.count == self.steps:
            self.told = now
            self.tell()

    def tell(self) -> None:
        of = f" of {self.steps}" if self.steps else ""
        self.show(
            f"{self.name}: step {self.count}{of}, widest pair so far {decimal_text(self.widest, 9)},"
            f" {time.monotonic() - self.began:.1f} s"
        )

    def show(self, text: str) -> None:
        print(
            ("\r" + text.ljust(79)) if self.is_live else text,
            end="" if self.is_live else "\n",
            file=sys.stderr,
            flush=True,
        )

    def follow(self, stream: IO[bytes] | None) -> None:
        """Shows a slow step until the run ends, with what the views of --watch 1 on a run's standard error say, where
        it is watched."""
        self.threads = [threading.Thread(target=self.tick, daemon=True)]
        if stream is not None:
            self.threads.append(threading.Thread(target=self.read, args=(stream,), daemon=True))
        for thread in self.threads:
            thread.start()

    def read(self, stream: IO[bytes]) -> None:
        new: list[bytes] = []
        for line in stream:
            if line.startswith(b"HEAD "):
                new.append(line)
                continue
            self.take(new)
            new = []
            if line.startswith(b"WATCH "):
                self.place = line.decode("latin-1")[6:].strip()
            else:
                sys.stderr.write(line.decode("latin-1"))
        self.take(new)

    def take(self, view: list[bytes]) -> None:
        """A whole view: the cells that still move are those whose pair isn't that of the view before."""
        if not view:
            return
        self.views += 1
        self.moving = sum(a != b for a, b in zip(view, self.view)) if len(self.view) == len(view) else len(view)
        self.view = view

    def tick(self) -> None:
        while not self.ended.wait(1.0 if self.is_live else SLOW):
            if time.monotonic() - self.step_began > SLOW:
                self.tell_step()

    def tell_step(self) -> None:
        of = f" of {self.steps}" if self.steps else ""
        period, _, step = self.place.partition(" ")
        where = f" (period {period} step {step})" if step else ""
        moving = (
            "" if self.moving is None else f"phase {self.views}, {self.moving} of {len(self.view)} cells still move, "
        )
        seconds = time.monotonic() - self.step_began
        hint = HINT if seconds > LONG and not self.is_quick else ""
        self.show(f"{self.name}: step {self.count + 1}{of}{where}: {moving}{seconds:.0f} s so far{hint}")

    def end(self) -> None:
        self.ended.set()
        for thread in self.threads:
            thread.join(5)
        if self.is_live and self.count:
            self.tell()
            print(file=sys.stderr)
