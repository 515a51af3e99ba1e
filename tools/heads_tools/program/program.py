"""The program `heads`: where it is, what it says of itself, and runs of it."""
from __future__ import annotations

import functools
import hashlib
import os
import platform
import re
import shutil
import subprocess
import sys
import tempfile
import time
from contextlib import nullcontext
from dataclasses import dataclass
from pathlib import Path
from typing import IO, ContextManager, cast

from ..common.kept_files import demand_free
from ..common.limits import WIDE_WORD, asks_for_wide, is_wide
from ..common.text import Problem, sha256
from ..common.whole_files import draft_of
from ..listing.listing import Listing, read_listing
from ..listing.made_by import drop_words, is_quick, keep_words
from ..listing.plan_listing import PlanListing, read_plan_listing
from ..listing.spans import plan_file
from .follow import Progress

IS_WINDOWS = sys.platform == "win32"
NAME = "heads.exe" if IS_WINDOWS else "heads"
TOP = Path(__file__).resolve().parents[3]
BIN = Path(__file__).resolve().parents[1] / "bin"
DEFAULT_DIGITS = 12
# How the last line of an output begins that isn't END, and more bytes than one has.
LAST = (b"REFUSED ", b"NOBOUND ", b"UNFINISHED ", b"READFAULT", b"MEMORY", b"USAGE:")
MOST_LAST = 4000


def beside(name: str) -> Path | None:
    """A file of the checkout's tools/, else of the wheel: recheck.py, solution.py."""
    return next((path for path in (TOP / "tools" / name, BIN / name) if path.is_file()), None)


def main() -> None:
    """The command `heads` of a wheel: the program that it carries."""
    words = [str(program()), *sys.argv[1:]]
    if IS_WINDOWS:
        # There a program that takes the place of another one leaves the shell with no status.
        sys.exit(subprocess.call(words))
    os.execv(words[0], words)


def program() -> Path:
    """The program: the environment's HEADS, else the script of this checkout, else that of the wheel, else `heads` on
    the path. Windows can't start the script: there it is the checkout's port, if that is of the kept program."""
    if os.environ.get("HEADS"):
        path = Path(os.environ["HEADS"]).resolve()
        if not os.access(path, os.X_OK) or path.is_dir():
            raise Problem(f"HEADS names {path}, which is no program")
        return path
    here = windows_port(TOP / "dist" / "heads.exe") if IS_WINDOWS else TOP / "heads"
    for found in (here, BIN / NAME, Path(shutil.which(NAME) or "")):
        if found and found.is_file() and os.access(found, os.X_OK):
            return found.resolve()
    raise Problem("where is `heads`? Set HEADS=/path/to/heads, or put it on the PATH")


def noted_in(record: Path) -> dict[str, str]:
    """What dist/heads.txt, or a copy of it, says of the program: its sources, kit and sha256."""
    return dict(line.split(" ", 1) for line in record.read_text().splitlines() if not line.startswith("port "))


def port_in(record: Path, digest: str) -> str:
    """The sha256 of the program that a port with this one is of; nothing where the record has no such port."""
    found = re.search(rf"^port \S+ {digest} of (\w+) ", record.read_text(), re.M)
    return found[1] if found else ""


def record_of(binary: Path) -> Path | None:
    """The record that stands beside a program: heads.txt of heads, of heads.exe and of the other ports in dist/."""
    names = [f"{binary.name}.txt", *(["heads.txt"] if binary.name.startswith(("heads.exe", "heads-linux-")) else [])]
    return next((path for path in map(binary.with_name, names) if path.is_file()), None)


def windows_port(path: Path) -> Path | None:
    """The port for Windows, if it has the bytes that are recorded, and is of the program that is."""
    record = record_of(path)
    if not path.is_file() or not record:
        return None
    return path if port_in(record, sha256(path)) == noted_in(record).get("program") else None


@functools.lru_cache
def direct(found: Path) -> Path:
    kept, check = TOP / "dist" / "heads", TOP / "scripts" / "check_dist"
    if found != TOP / "heads" or not check.is_file():
        return found
    done = subprocess.run([check, "--kept"], capture_output=True, text=True)
    is_here = platform.system() == "Linux" and platform.machine() == "x86_64"
    if done.returncode == 0 and is_here:
        return kept
    if not shutil.which("rt"):
        why = done.stderr.strip() or "dist/heads is for Linux on x86-64"
        raise Problem(f"{why}; there is no rt to build it with. Set HEADS to a program heads")
    return found


def look_again() -> None:
    """Called as a command begins: the sources may have changed since the last one."""
    direct.cache_clear()


def direct_program() -> Path:
    """The program itself: the kept one where the checkout's script would run it, which is looked up once a command."""
    return direct(program())


def program_file() -> Path:
    """The program that is called: not a script that starts it, but what that starts."""
    found, built = direct_program(), TOP / "crates" / "heads" / "out" / "heads"
    path = built if found == TOP / "heads" and is_built(built) else found
    if path.is_file() and path.read_bytes()[:2] != b"#!":
        return path
    raise Problem(f"{found} is a script and no built program lies beside it: set HEADS to the program itself")


def is_built(path: Path) -> bool:
    """Whether a program was built by scripts/build_program from the checkout's sources as they are."""
    stamp = path.with_name(path.name + ".sources")
    return path.is_file() and stamp.is_file() and stamp.read_text().strip() == sources_now()


def sources_now() -> str:
    """The hash of the checkout's sources; empty where this is no checkout."""
    script = TOP / "scripts" / "program_sources"
    return subprocess.run([script], capture_output=True, text=True).stdout.strip() if script.is_file() else ""


@dataclass
class Version:
    """What is known of the program: lines for people, and whether its bytes are the recorded ones (None: no record)."""

    lines: list[str]
    is_recorded: bool | None


def version() -> Version:
    found = program()
    try:
        binary = program_file()
    except Problem:
        binary = found
    lines = [f"program {found}"] + ([f"        which runs {binary}"] if binary != found else [])
    lines.append(f"sha256  {sha256(binary)}")
    record = record_of(binary)
    if not record:
        return Version(lines + ["no record of its sources stands beside it"], None)
    noted, port = noted_in(record), port_in(record, sha256(binary))
    if port and port != noted.get("program"):
        return Version(lines + [f"A PORT OF AN OLDER PROGRAM than the one that {record} names: {port}"], False)
    if port:
        lines.append(f"port    of the program {port}")
    is_same = bool(port) or noted.get("program") == sha256(binary)
    lines += [f"sources {noted.get('sources', 'not recorded')}", f"kit     {noted.get('kit', 'not recorded')}"]
    lines.append("its bytes are those recorded" if is_same else f"ITS BYTES ARE NOT THOSE RECORDED in {record}")
    if binary == TOP / "dist" / "heads" and (now := sources_now()):
        is_current = now == noted.get("sources")
        lines.append(
            "the checkout's sources are those it was built from"
            if is_current
            else "the checkout's sources have changed since it was built"
        )
    return Version(lines, is_same)


@dataclass
class Ended:
    """How a run ended: its status, its last line, seconds by the clock, the steps that it wrote, the file that it
    wrote, and the sha256 of what it wrote."""

    status: int
    last: str
    seconds: float
    steps: int = 0
    output: Path | None = None
    sha256: str = ""

    def listing(self) -> Listing:
        """The listing that the run wrote, if it is still there."""
        found = read_listing(self.written())
        self.demand_own(found.sha256)
        return found

    def plan_listing(self) -> PlanListing:
        """The same of a run with --plan."""
        found = read_plan_listing(self.written())
        self.demand_own(found.drawdown.sha256)
        return found

    def written(self) -> Path:
        if self.output is None:
            raise Problem("the run wrote no file")
        return self.output

    def demand_own(self, digest: str) -> None:
        if digest != self.sha256:
            raise Problem(f"{self.output} was written over since this run: two runs at once need two files (--out)")


def call(words: list[str], folder: Path, seconds: float | None = None) -> Ended:
    """Runs the program in a folder and takes its last line alone."""
    began = time.monotonic()
    try:
        done = subprocess.run(
            [direct_program(), *words], cwd=folder, capture_output=True, text=True, errors="replace", timeout=seconds
        )
    except subprocess.TimeoutExpired:
        return Ended(-1, "", time.monotonic() - began)
    lines = done.stdout.rstrip("\n").rsplit("\n", 1)
    return Ended(done.returncode, lines[-1] if lines else "", time.monotonic() - began)


def has_steps(path: Path) -> bool:
    """Whether a file is a listing with a step, or its beginning: one that is worth keeping."""
    if not path.is_file():
        return False
    with open(path, "rb") as file:
        return file.readline().startswith((b"HEADS ", b"DRAWDOWN ")) and file.readline().startswith(b"STEP ")


def is_ended(path: Path) -> bool:
    """Whether an output has a last line of `heads`: not where the program was killed, or a write failed."""
    with open(path, "rb") as file:
        file.seek(max(0, path.stat().st_size - MOST_LAST))
        *_, last = file.read().removesuffix(b"\n").split(b"\n")
    return last == b"END" or last.startswith(LAST)


def end_of(target: Path) -> Path:
    """The file beside a listing for an output that was cut, or that has no step where an earlier listing has one."""
    return target.with_name(target.name + ".end")


def settle_output(new: Path, target: Path) -> Path:
    """Gives a new output the listing's name; but it has the name with `.end` where it was cut, and where it has no step
    and the listing of an earlier run has one, which stays. The file that holds the output."""
    is_listing = is_ended(new) and (has_steps(new) or not has_steps(target))
    place = target if is_listing else end_of(target)
    os.replace(new, place)
    if place == target:
        end_of(target).unlink(missing_ok=True)
        drop_words(target)
    return place


def run(
    nam: Path,
    options: list[str],
    target: Path,
    steps: int | None = None,
    is_told: bool = True,
    is_followed: bool = False,
) -> Ended:
    """Runs `heads run` in the model's folder into a file, which gets its name once the run ended (settle_output); the
    words that made a whole listing are kept beside it. What --watch writes goes into a file beside it; a run that
    `is_followed` is watched for what to say of a slow step, where the words allow it."""
    demand_free(target)
    progress = Progress(nam.name, steps, is_quick(options))
    began = time.monotonic()
    is_watched = any(o.startswith("--watch") for o in options)
    is_followed = is_followed and is_told and not (is_watched or is_quick(options) or plan_file(options))
    words = [str(direct_program()), "run", nam.name, *options, *(["--watch", "1"] if is_followed else [])]
    unwatched: ContextManager[IO[bytes] | None] = nullcontext()
    with draft_of(target) as new, open(new, "wb") as file, watch_file(target) if is_watched else unwatched as side:
        process = subprocess.Popen(
            words, cwd=nam.parent, stdout=subprocess.PIPE, stderr=subprocess.PIPE if is_followed else side
        )
        if is_told:
            progress.follow(process.stderr)
        try:
            stream = cast("IO[bytes]", process.stdout)
            last, count, digest = copy_output(stream, file, progress if is_told else None)
            file.close()
        except BaseException:
            process.kill()
            process.wait()
            raise
        finally:
            progress.end()
        status = process.wait()
        output = settle_output(new, target)
    if status == 0:
        keep_words(output, nam.name, options, digest)
    return Ended(status, last.decode("latin-1").strip(), time.monotonic() - began, count, output, digest)


def copy_output(stream: IO[bytes], file: IO[bytes], progress: Progress | None) -> tuple[bytes, int, str]:
    """Copies what a run writes, line by line: the last line, the count of steps, the sha256 of all."""
    last, count, digest = b"", 0, hashlib.sha256()
    for line in stream:
        file.write(line)
        digest.update(line)
        if progress and line.startswith((b"HEAD ", b"BASE ")):
            progress.head(line)
        elif progress and line.startswith((b"STEP ", b"END")) and count:
            progress.step()
        count += line.startswith(b"STEP ")
        last = line
    return last, count, digest.hexdigest()


def watch_file(target: Path) -> IO[bytes]:
    """The file beside a listing for what --watch writes, as it is written."""
    path = target.with_suffix(".watch")
    demand_free(path)
    return open(path, "wb")


def takes(words: list[str]) -> bool:
    """Whether the program knows these words: in a folder without files it then says which one is missing."""
    with tempfile.TemporaryDirectory(prefix="heads_") as folder:
        return call(words, Path(folder)).status != 1


def takes_wide() -> bool:
    return takes(["run", "a.nam", WIDE_WORD])


def lists_plans() -> bool:
    """Whether the program lists what a plan does."""
    return takes(["run", "a.nam", "--plan", "a.wel"])


def checks_plans() -> bool:
    """Whether the program checks such a listing."""
    return takes(["check", "a.nam", "a.txt", "--plan", "a.wel"])


def checks_convertible() -> bool:
    """Whether the program checks listings of models with convertible layers."""
    return takes(["check", "a.nam", "a.txt", "--convertible"])


def with_wide(ended: Ended, options: list[str], folder: Path) -> list[str] | None:
    """The options of a second run, which is one with --wide, where the first one's last line asks for the word; this
    is said on standard error."""
    if is_wide(options) or not asks_for_wide(ended.last, folder) or not takes_wide():
        return None
    print(f"{ended.last}: once more with {WIDE_WORD}", file=sys.stderr)
    return [*options, WIDE_WORD]


def digits_of(options: list[str]) -> int:
    """The digits that the options of a run ask for."""
    for n, word in enumerate(options):
        text = (
            word.partition("=")[2]
            if word.startswith("--digits=")
            else options[n + 1] if word == "--digits" and n + 1 < len(options) else ""
        )
        if text:
            return int(text) if text.isdigit() and int(text) <= 18 else DEFAULT_DIGITS
    return DEFAULT_DIGITS
