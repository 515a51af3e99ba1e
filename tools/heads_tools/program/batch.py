"""batch: runs many models and collects how they ended: by `heads batch`, by single runs, by Slurm or by GNU
parallel."""
from __future__ import annotations

import os
import shlex
import shutil
import subprocess
import sys
import tempfile
from concurrent.futures import ThreadPoolExecutor
from contextvars import copy_context
from dataclasses import dataclass
from pathlib import Path
from typing import IO, Iterable

from ..common.kept_files import demand_free
from ..common.machine import memory
from ..common.text import Problem, counted, decimal_text, read_text, words
from ..common.whole_files import whole_file
from ..deck.sizes import size_of
from ..listing.listing import read_listing
from ..listing.made_by import keep_words
from .explain import explain
from .program import digits_of, direct_program, end_of, has_steps, run, settle_output

MOST_JOBS = 1000
# What `heads batch` holds: of each cell's model, and of its line in the text of each step (measured).
MODEL_BYTES, TEXT_BYTES = 160, 40


@dataclass
class Job:
    """A model of the list: its name as it stands there, its name file and its listing."""

    name: str
    nam: Path

    @property
    def listing(self) -> Path:
        return self.nam.with_suffix(".heads")

    @property
    def outputs(self) -> tuple[Path, Path]:
        """Where a run's output may be: the listing, or the file beside it for one without a step."""
        return self.listing, end_of(self.listing)


def read_jobs(path: Path) -> list[Job]:
    """The models of a list: the first word of each line; names are looked up from the list's folder."""
    jobs = []
    for n, line in enumerate(read_text(path).split("\n"), 1):
        w = words(line)
        if w and not line.startswith("#"):
            nam = path.parent / w[0].replace("\\", "/")
            if not nam.is_file():
                raise Problem(f"{path}, line {n}: there is no file {w[0]}{blank_in(line.strip(), path.parent)}")
            jobs.append(Job(w[0], nam.resolve()))
    if len(jobs) > MOST_JOBS:
        raise Problem(f"{path} has {len(jobs)} models; {MOST_JOBS} are the most")
    if len({j.listing for j in jobs}) < len(jobs):
        raise Problem(f"{path}: two models of the list would write the same listing")
    if not jobs:
        raise Problem(f"{path} names no model")
    return jobs


def blank_in(line: str, folder: Path) -> str:
    """What to say where a whole line names a file, and its first word doesn't."""
    if not (folder / line.replace("\\", "/")).is_file():
        return ""
    return f". There is `{line}`, but a blank ends a name: rename the file, without blanks"


def batch(
    path: Path, options: list[str], way: str, at_once: int, is_written_only: bool, out: IO[str]
) -> int:
    """Runs all models of a list in the way asked for, and prints how each ended; the first status that isn't 0."""
    jobs = read_jobs(path)
    for job in jobs:
        demand_free(job.listing)
    before = [stamps(job) for job in jobs]
    if way == "slurm":
        run_slurm(path, jobs, options, at_once, is_written_only, out)
    elif way == "parallel":
        run_parallel(path, jobs, options, at_once, is_written_only, out)
    elif not (fits_memory(jobs) and run_by_program(jobs, options, at_once or os.cpu_count() or 1)):
        # A thread begins without the context, which has what may be written over.
        one = lambda job, context: context.run(run, job.nam, options, job.listing, is_told=False)
        with ThreadPoolExecutor(at_once or os.cpu_count() or 1) as pool:
            ended = pool.map(one, jobs, [copy_context() for _ in jobs])
            for done, (job, _) in enumerate(zip(jobs, ended), 1):
                print(f"{done} of {len(jobs)}: {job.name}", file=sys.stderr)
    table = path.with_suffix(".ends.csv")
    return 0 if is_written_only and way != "here" else collect(jobs, before, options, table, out)


def stamp(path: Path) -> tuple[int, int] | None:
    """A file's inode and the time it was written: a file of this batch has others than one that was there before."""
    if not path.is_file():
        return None
    at = path.stat()
    return at.st_ino, at.st_mtime_ns


def stamps(job: Job) -> list[tuple[int, int] | None]:
    return [stamp(path) for path in job.outputs]


def new_output(job: Job, before: list[tuple[int, int] | None]) -> Path | None:
    """The output that this batch wrote for a model: None where it has not run."""
    return next((path for path, old in zip(job.outputs, before) if stamp(path) not in (None, old)), None)


def collect(
    jobs: list[Job], before: list[list[tuple[int, int] | None]], options: list[str], table: Path, stream: IO[str]
) -> int:
    """Prints how each model ended, writes it as a table, keeps the words of whole listings beside them, and gives the
    first status that isn't 0. A listing that was there `before` isn't this batch's: its model has not run."""
    first = 0
    with whole_file(table) as file:
        file.write("model,status,last_line,steps,cells,widest\n")
        for job, old in zip(jobs, before):
            output = new_output(job, old)
            last = read_text(output).rstrip("\n").rsplit("\n", 1)[-1] if output else ""
            meaning = explain(last, job.nam.parent, digits_of(options), options=options)
            steps, cells, width, sizes = 0, 0, "", ",,"
            if meaning.is_good:
                listing = read_listing(job.listing)
                keep_words(job.listing, job.nam.name, options)
                steps, cells = len(listing.steps), len(listing.cells)
                width = decimal_text(listing.widest()[0] if cells else 0, 9)
                sizes = f"{steps},{cells},{width}"
            file.write(f"{job.name},{meaning.status},{last[:100]},{sizes}\n")
            good = meaning.is_good and f"END, {counted(steps, 'step')} of {counted(cells, 'cell')}, widest pair {width}"
            kept = (
                ""
                if good or not has_steps(job.listing) or output == job.listing
                else f" ({job.listing.name} is that of an earlier run)"
            )
            print(f"{job.name}: {good or meaning.lines[0]}{kept}", file=stream)
            first = first or meaning.status
    print(f"{counted(len(jobs), 'model')}; a table of their ends: {table}", file=stream)
    return first


def fits_memory(jobs: list[Job]) -> bool:
    """Whether all models and all texts that `heads batch` holds at once take at most half of the memory, in each
    folder. A model whose grid can't be read has no text."""
    held: dict[Path, int] = {}
    for job in jobs:
        steps, cells = size_of(job.nam)
        held[job.nam.parent] = held.get(job.nam.parent, 0) + cells * (MODEL_BYTES + TEXT_BYTES * (steps or 0))
    most = max(held.values())
    if most * 2 > memory():
        said = f"`heads batch` would hold {most / 1e9:.2g} GB, more than half of the memory"
        print(f"{said}: each model has a run of its own", file=sys.stderr)
    return most * 2 <= memory()


def run_by_program(jobs: list[Job], options: list[str], at_once: int) -> bool:
    """Runs `heads batch` once in each folder, since names are looked up from where the program runs; False where the
    program doesn't have the command."""
    for folder in sorted({j.nam.parent for j in jobs}):
        here = [j for j in jobs if j.nam.parent == folder]
        if not os.access(folder, os.W_OK):
            raise Problem(f"{folder} can't be written: Permission denied")
        with tempfile.NamedTemporaryFile("w", suffix=".txt", prefix="batch", dir=folder, newline="\n") as names:
            names.write("".join(f"{j.nam.name}\n" for j in here))
            names.flush()
            workers = [] if "--workers" in options else ["--workers", str(min(at_once, 64))]
            words = [str(direct_program()), "batch", Path(names.name).name, *options, *workers]
            with tempfile.TemporaryFile("w+", dir=folder, encoding="latin-1", newline="\n") as text:
                subprocess.run(words, cwd=folder, stdout=text, stderr=subprocess.DEVNULL)
                text.seek(0)
                if text.read(6) == "USAGE:":
                    return False
                text.seek(0)
                split_batch(text, here)
    return True


def split_batch(lines: Iterable[str], jobs: list[Job]) -> None:
    """Writes each model's own text out of a batch's lines, of which one at a time is held. The last line END is the
    batch's own."""
    at, last, out = 0, "", None
    try:
        for line in lines:
            if at < len(jobs) and line == f"MODEL {jobs[at].nam.name}\n":
                if out:
                    out.write(last)
                    out.close()
                out, last, at = new_text(jobs[at]).open("w", encoding="latin-1", newline="\n"), "", at + 1
                continue
            if out:
                out.write(last)
            last = line
        if out:
            out.write("" if last == "END\n" else last)
            out.close()
        if at < len(jobs):
            raise Problem(f"the batch ended with: {last.strip()[:100]}")
        for job in jobs:
            settle_output(new_text(job), job.listing)
    finally:
        if out:
            out.close()
        for job in jobs:
            new_text(job).unlink(missing_ok=True)


def new_text(job: Job) -> Path:
    """The file of a model's text until the batch's whole text was parted."""
    return job.listing.with_name(f".{job.listing.name}.new")


SHELL_JOB = """cd "$(dirname "$NAM")" || exit 6
OUT=$(basename "${{NAM%.*}}").heads
{program} run "$(basename "$NAM")" {options} >".$OUT.new"
status=$?
# A listing with a step stays where the new output has none; an output that was cut never gets the listing's name.
has_step() {{ [ -s "$1" ] && grep -q -m 1 "^STEP " "$1"; }}
if ! tail -n 1 ".$OUT.new" | grep -Eq "^(END$|REFUSED |NOBOUND |UNFINISHED |READFAULT|MEMORY|USAGE:)" ||
    {{ has_step "$OUT" && ! has_step ".$OUT.new"; }}; then
    mv ".$OUT.new" "$OUT.end"
else
    mv ".$OUT.new" "$OUT" && rm -f "$OUT.end" "$OUT.run"
fi
exit $status
"""


def shell_job(options: list[str]) -> str:
    """What a job does with its name file in $NAM: a run in the model's folder, whose listing gets its name at the end.
    It calls the program itself: the checkout's script hashes its sources at each call."""
    return SHELL_JOB.format(
        program=shlex.quote(str(direct_program())), options=" ".join(shlex.quote(o) for o in options)
    )


def write_names(path: Path, jobs: list[Job]) -> Path:
    names = path.with_suffix(".jobs.txt")
    with whole_file(names, is_own=True) as file:
        file.write("".join(f"{j.nam}\n" for j in jobs))
    return names


def run_slurm(
    path: Path, jobs: list[Job], options: list[str], at_once: int, is_written_only: bool, out: IO[str]
) -> None:
    """Writes an array job, and submits it and waits for its end. At most `at_once` jobs at a time, 0: as Slurm
    likes."""
    names, script = write_names(path, jobs), path.with_suffix(".slurm")
    cpus = next((options[n + 1] for n, o in enumerate(options[:-1]) if o == "--workers"), "4")
    limit = f"%{at_once}" if at_once else ""
    with whole_file(script) as file:
        file.write(
            f"#!/bin/bash\n#SBATCH --job-name=heads\n#SBATCH --array=1-{len(jobs)}{limit}\n"
            f'#SBATCH --cpus-per-task={cpus}\n#SBATCH --output="{path.stem}.%a.log"\n'
            f'NAM=$(sed -n "${{SLURM_ARRAY_TASK_ID}}p" {shlex.quote(str(names))})\n{shell_job(options)}'
        )
    print(f"written: {script} (sbatch --wait {shlex.quote(script.name)})", file=out)
    if not is_written_only:
        call_tool(
            "sbatch", ["sbatch", "--wait", script.name], path.parent, "slurm-wlm (or run where your cluster has it)"
        )


def run_parallel(
    path: Path, jobs: list[Job], options: list[str], at_once: int, is_written_only: bool, out: IO[str]
) -> None:
    """Writes a script for GNU parallel, and runs it. At most `at_once` jobs at a time, 0: one for each processor."""
    names, script = write_names(path, jobs), path.with_suffix(".parallel.sh")
    limit = f"--jobs {at_once} " if at_once else ""
    with whole_file(script) as file:
        file.write(
            "#!/bin/bash\n# Further words, as --sshloginfile hosts, go to parallel.\none()"
            f" {{\nNAM=$1\n{shell_job(options)}}}\nexport -f one\nparallel {limit}--joblog"
            f" {shlex.quote(path.stem + '.joblog')} \"$@\" one {{}} <{shlex.quote(str(names))}\n"
        )
    script.chmod(0o755)
    print(f"written: {script}", file=out)
    if not is_written_only:
        call_tool("parallel", ["bash", script.name], path.parent, "parallel")


def call_tool(tool: str, command: list[str], folder: Path, debian: str) -> None:
    if not shutil.which(tool):
        raise Problem(
            f"{tool} isn't here: apt-get install {debian}; the files stand written, --write-only leaves it at that"
        )
    done = subprocess.run(command, cwd=folder, capture_output=True, text=True, errors="replace")
    if done.returncode and done.stderr.strip():
        print(f"{tool} ended with {done.returncode}: {done.stderr.strip().splitlines()[-1][:200]}", file=sys.stderr)
