#!/usr/bin/env python3
"""Processor seconds and memory of the program beside those of other solvers, as a table.

    beside.py PROGRAM BUILT FOLDER [CASE..]

PROGRAM is `heads`, BUILT the folder of the programs of cost.rs and pcg.rs, and FOLDER an empty folder. A case is
KIND:SIDE or steps:SIDE:COUNT, with a `q` before it where only the quick run is measured; without a case all of CASES
are. Each row has the seconds of a settled run, a quick one and a check of it, each by one worker, the bytes a cell of
the quick run, and what the linear systems of the same model take in doubles: by conjugate gradients with hypre's
BoomerAMG, and with a modified incomplete factor. A second table says of which rows how much is wanted, and whether that
is met. A case fails where a check doesn't end with CERTIFIED, or heads in doubles lie outside of the listed ones; the
others go on, and the script ends with 1.
"""
from __future__ import annotations

import os
import subprocess
import sys
import time
from pathlib import Path

import numpy as np
import scipy.sparse

here = Path(os.path.realpath(__file__)).parent
sys.path += [str(here), str(here.parent / "large"), str(here.parents[1] / "tools")]

from float_heads import Solution, listed  # noqa: E402  found by the path above
from heads_tools.deck.model import read_model  # noqa: E402
from heads_tools.numbers.equations import Step  # noqa: E402
from heads_tools.numbers.solvers import Matrix, by_hypre  # noqa: E402
from costs import Cost, Meter, circumstances, name_of  # noqa: E402
from goals import LEAST, QUICK_BY_CLOCK, RUN_BY_CLOCK, WORKERS, Row, verdicts, wants  # noqa: E402
from kinds import deck_of  # noqa: E402

CASES = (
    "sheet:256 sheet:512 cube:40 cube:64 rivers:256 wells:256 contrasts:256 drains:256 evt:256 qchannels:64 "
    "qkarst:64 qfaults:90 steps:64:20 steps:64:100 steps:32:1000 sheet:1024"
).split()
TITLES = ("model", "run", "quick", "check", "hypre", "PCG", "run, quick over hypre", "over PCG", "bytes a cell")
CLOSE = 1e-5


class TimedSolution(Solution):
    """Heads in doubles, and the processor seconds of their systems: one in each step of a model without bends."""

    seconds = 0.0
    # Heads lie this far outside of listed ones at most; errors of a step are carried to the next.
    most_outside = 1e-2

    def is_balanced(self, step: Step, h: np.ndarray, rest: np.ndarray) -> bool:
        """Whether no balance alone would move its head by 10^-5."""
        return bool(np.all(np.abs(rest) <= step.conductance * CLOSE))


class ByHypre(TimedSolution):
    def linear(self, matrix: Matrix, rest: np.ndarray) -> np.ndarray:
        begun = time.process_time()
        found = by_hypre(matrix, rest)
        self.seconds += time.process_time() - begun
        if found is None:
            raise SystemExit("hypre doesn't solve a system")
        return found


def begin_hypre() -> None:
    """Loads it, so that no system is charged with that."""
    if by_hypre(scipy.sparse.identity(8, format="csr"), np.ones(8)) is None:
        raise SystemExit("hypre isn't found: install python3-petsc4py")


class ByPcg(TimedSolution):
    """Each system goes to a process by a file. A change of 10^-5 ends the rounds, as it ends those of a system: the
    larger the model is, the further off are its heads."""

    built = folder = Path()

    def is_close(self, change: np.ndarray) -> bool:
        return bool(np.max(np.abs(change)) <= CLOSE)

    def linear(self, matrix: Matrix, rest: np.ndarray) -> np.ndarray:
        rows = matrix.tocsr()
        rows.sort_indices()
        system, solution = self.folder / "system", self.folder / "solution"
        with open(system, "wb") as file:
            for part in ([rows.shape[0], rows.nnz], rows.indptr, rows.indices):
                np.asarray(part, dtype="<u8").tofile(file)
            for part in (rows.data, rest):
                np.asarray(part, dtype="<f8").tofile(file)
        said = subprocess.run([self.built / "pcg", system, solution], check=True, capture_output=True, text=True).stdout
        self.seconds += float(said.split()[0])
        return np.fromfile(solution, dtype="<f8")


def in_doubles(solution: TimedSolution, listing: Path) -> float:
    """The seconds of a model's systems, once its heads are known to lie between the listed ones."""
    for heads, pairs in zip(solution.steps(), listed(str(listing))):
        outside = float(np.max(np.maximum(pairs[:, 0] - heads, heads - pairs[:, 1])))
        if outside > solution.most_outside:
            raise SystemExit(f"{type(solution).__name__}: a head lies {outside:.1e} outside of the listed ones")
    return solution.seconds


def measured(case: str, is_quick: bool, program: str, meter: Meter) -> Row:
    """What a case takes, whose files are written to the meter's folder."""
    deck = deck_of(case)
    deck.write(meter.folder)

    def run(workers: int, *more: str) -> Cost:
        words = [program, "run", "m.nam", "--wide", "--workers", str(workers), *more]
        return meter.cost("quick" if more else "settled", words)

    model = read_model(meter.folder / "m.nam", any_size=True)
    by_pcg = ByPcg(model, 12, 0.0)
    by_pcg.built, by_pcg.folder = meter.built, meter.folder
    settled = None if is_quick else run(1)
    by_workers = run(WORKERS) if settled and wants(case, RUN_BY_CLOCK) else None
    quick_by_workers = run(WORKERS, "--quick") if wants(case, QUICK_BY_CLOCK) else None
    quick = run(1, "--quick")
    listing = meter.folder / "quick"
    return Row(
        cells=deck.layers * deck.rows * deck.columns,
        run=settled,
        quick=quick,
        check=meter.certify(program, case, "quick"),
        run_by_workers=by_workers,
        quick_by_workers=quick_by_workers,
        hypre=in_doubles(ByHypre(model, 12, 0.0), listing),
        pcg=in_doubles(by_pcg, listing),
    )


def line_of(case: str, row: Row) -> str:
    runs = [part.seconds for part in (row.run, row.quick) if part]
    seconds = ["" if part is None else f"{part.seconds:.2f}" for part in (row.run, row.quick, row.check)]
    peers = [row.hypre, row.pcg]
    over = [", ".join(f"{seconds / max(peer, LEAST):.1f}" for seconds in runs) for peer in peers]
    own = row.parts()["bytes a cell"]
    return f"| {' | '.join([case, *seconds, *(f'{peer:.2f}' for peer in peers), *over, f'{own:,.0f}'])} |"


def headed(*titles: str) -> str:
    return f"\n| {' | '.join(titles)} |\n{'|---' * len(titles)}|"


def main() -> int:
    if len(sys.argv) < 4:
        print(__doc__, file=sys.stderr)
        return 2
    program, built, folder, *cases = sys.argv[1:]
    meter = Meter(Path(built), Path(folder))
    begin_hypre()
    print(f"program {name_of(program)}, {circumstances()}")
    print("processor seconds, one worker; a run under a second: the least of three")
    print(headed(*TITLES), flush=True)
    rows: dict[str, Row] = {}
    faults: list[str] = []
    for word in cases or CASES:
        case = word.removeprefix("q")
        try:
            rows[case] = measured(case, word != case, program, meter)
            print(line_of(word, rows[case]), flush=True)
        except SystemExit as fault:
            faults.append(f"{word}: {fault}")
            print(f"| {word} | failed |", flush=True)
    print(headed("model", "what", "wanted", "measured", ""))
    print(*verdicts(rows), sep="\n")
    print(f"\n{circumstances()}", *faults, sep="\n")
    return 1 if faults else 0


if __name__ == "__main__":
    sys.exit(main())
