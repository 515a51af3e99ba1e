"""The programs of tests/crates/, in a copy of the tree in which `rt try` builds and runs them.

Their sources end in .rs, and tests/crates/list.txt has their lines of crates.txt, since `rt ci` takes no .rt file that
no check reads, and one crates.txt. In the copy the files end in .rt and the lines stand in crates.txt.
"""
import shutil
import subprocess
from pathlib import Path

TOP = Path(__file__).resolve().parent.parent
CRATES = TOP / "tests" / "crates"
# The most steps of the interpreter, which stops there without harm, and the most seconds of the compiled program.
STEPS, SECONDS = 2_000_000_000, 600


def names():
    return sorted(path.parent.name for path in CRATES.glob("*/stdin"))


def copy_tree(to):
    """Copies what `rt try` reads: the code and the definitions of all crates, with those of the tests among them."""
    for part in sorted([*TOP.glob("crates/*/src"), *TOP.glob("crates/*/specs")]):
        shutil.copytree(part, to / part.relative_to(TOP))
    for source in sorted(CRATES.glob("*/src/**/*.rs")):
        copied = to / "crates" / source.relative_to(CRATES).with_suffix(".rt")
        copied.parent.mkdir(parents=True, exist_ok=True)
        shutil.copy(source, copied)
    shutil.copy(TOP / "HANDLES", to)
    lines = [path.read_text(encoding="utf-8") for path in (TOP / "crates.txt", CRATES / "list.txt")]
    (to / "crates.txt").write_text("".join(lines), encoding="utf-8")


def try_program(tree, name, given, *more):
    """What `rt try` prints of a program on standard output and on standard error, and its status."""
    folder = CRATES / name
    data = [path for path in sorted((folder / "data").rglob("*")) if path.is_file()]
    words = ["rt", "try", "--steps", str(STEPS), "--seconds", str(SECONDS), *more]
    words += [word for path in data for word in ("--data", f"{path.relative_to(folder / 'data')}={path}")]
    if (folder / "args").exists():
        words += ["--", *(folder / "args").read_text(encoding="utf-8").splitlines()]
    done = subprocess.run(words, cwd=tree / "crates" / name, input=given, capture_output=True, check=False)
    return done.stdout.decode(errors="replace"), done.stderr.decode(errors="replace"), done.returncode
