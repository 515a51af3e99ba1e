"""What the exhibits of heads and of plans share: what they say, and the commands that they run."""
from __future__ import annotations

import shlex
import subprocess
import sys
import time
from dataclasses import dataclass, field
from pathlib import Path

from ..listing.spans import value_of
from ..listing.what_is_said import Words
from ..program.program import Ended

NO_CERTIFIED = "Nothing may be said of it: there is no certified listing."
NOTHING = "Nothing may be said of this model's heads from this run."
MOST_RECHECK_HEADS = 200_000
RECHECK, RECHECK_PLAN = "recheck.py", "recheck_plan.py"


@dataclass
class Exhibit:
    """What an exhibit says. `may`: what may be said; `words`: the sentences of its listing; `tops`: what its heads say
    of the tops of their cells, and `maps` the pictures of it; `commands`: what was run and can be run again, each as
    it stands in the exhibit's own folder; `facts`: name and text."""

    title: str
    verdict: str = NOTHING
    may: list[str] = field(default_factory=list)
    words: Words = field(default_factory=Words)
    tops: list[str] = field(default_factory=lambda: [NO_CERTIFIED])
    maps: list[str] = field(default_factory=list)
    commands: list[str] = field(default_factory=list)
    facts: list[tuple[str, str]] = field(default_factory=list)

    def text(self) -> str:
        """EXHIBIT.txt."""
        lines = [f"Exhibit: {self.title}", self.verdict, ""]
        lines += ["What may be said:", *(f"  {line}" for line in self.may or [NOTHING]), ""]
        may_not = [*self.words.may_not, f"({self.words.why_not})"]
        lines += ["What may not be said:", *(f"  {line}" for line in may_not), ""]
        lines += ["Whether the layers are full:", *(f"  {line}" for line in self.tops), ""]
        lines += ["To test it, in this folder:", *(f"    {line}" for line in self.commands), ""]
        lines += ["What was run:", *(f"  {name:<13}{text}" for name, text in self.facts)]
        return "\n".join(lines) + "\n"

    def page(self) -> str:
        """judge.html."""
        from ..pages.templates import rendered

        return rendered("judge.html", told=self, may=self.may or [NOTHING])


def add_recheck(told: Exhibit, folder: Path, arguments: str, heads: int, script: str = RECHECK) -> None:
    """Adds the command of a recheck, and what it says where it doesn't take long."""
    command = f"(cd deck && python3 ../{script} {arguments})"
    if not (folder / script).is_file():
        told.facts.append(("recheck", f"{script} isn't here: not done"))
        return
    told.commands.append(command)
    if heads > MOST_RECHECK_HEADS:
        told.facts.append(("recheck", f"not done here: {heads} heads take long in fractions"))
        return
    done = shell(folder, command.replace("python3", shlex.quote(sys.executable), 1))
    told.facts.append(("recheck", f"{done.last} (status {done.status})"))


def shell(folder: Path, command: str) -> Ended:
    """Runs a line as it stands in a folder: its status and the last line that it printed."""
    print(f"running {command}", file=sys.stderr)
    began = time.monotonic()
    done = subprocess.run(["sh", "-c", command], cwd=folder, stdout=subprocess.PIPE, text=True, errors="replace")
    return Ended(done.returncode, (done.stdout.strip().split("\n") or [""])[-1], time.monotonic() - began)


def to_options(options: list[str]) -> list[str]:
    """The options that name a second deck, as second_deck made them."""
    return options[options.index("--to") :][:2] if "--to" in options else []


def zone_file(options: list[str]) -> list[str]:
    return value_of(options, "--zones")
