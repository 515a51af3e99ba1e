"""Command lines: `order_of_words` and `case_of` beside the program's usage and first refusal."""
from __future__ import annotations

import tempfile
from random import Random

from .bench import Bench, file_set
from .values import text

WORDS = (
    "run check make batch write a.nam no.nam l.txt - -- --digits --workers --rounds --zones --watch --quick --wide --to"
    " --digits=12 --digits= --digits=019 --zones=z.txt --quick=1 --wid -d --help 0 1 5 12 18 19 64 65 007 +3 -1"
    " 4000000000 4000000001 1000 1001 99999999999999999999 é RUN 1e3"
).split() + ["", "a b"]
SHAPES = (
    "run a.nam", "run a.nam --watch 5 --quick", "run a.nam --digits 3", "check a.nam l.txt", "batch list.txt",
    "write a.nam", "run a.nam --zones z.txt --quick", "run a.nam --to b.nam", "write a.nam --wide",
    "run a.nam --watch 5 --workers 2 --rounds 7", "check a.nam l.txt --to b.nam --digits 0",
)  # fmt: skip


def changed(words: list[str], draw: Random) -> list[str]:
    """The words with one change."""
    at = draw.randrange(len(words) + 1)
    change = draw.randrange(3)
    if change == 0:
        return words[:at] + words[at + 1 :]
    return words[:at] + [draw.choice(WORDS)] + words[at + (change == 1) :]


def compare_words(bench: Bench, label: str, draw: Random) -> None:
    """In an empty folder the first file that is asked for is missing, so the first refusal names it."""
    words = draw.choice(SHAPES).split(" ")
    for _ in range(draw.choice([0, 1, 1, 2, 3])):
        words = changed(words, draw)
    order = bench.order_of_words(tuple(map(text, ["heads", *words])))
    if order.arguments and order.arguments[0].name == "Make":
        return
    with tempfile.TemporaryDirectory() as folder:
        status, answer = bench.run(folder, words)
    case = bench.case_of(order, file_set({}))
    wanted = (1, b"USAGE") if case.name == "NoWords" else (2, bench.refusal(case.arguments[0]))
    bench.agree(f"command lines: {label} {words}", wanted, (status, answer[: len(wanted[1])]))
