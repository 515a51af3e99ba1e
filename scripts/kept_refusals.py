"""Where refusals of wrong bodies are kept, and the sums of what they rest on."""
import hashlib
import os
import subprocess
from pathlib import Path

from edited_functions import without_bodies

TOP = Path(__file__).resolve().parent.parent
KEPT = Path(os.environ.get("XDG_CACHE_HOME", Path.home() / ".cache")) / "heads" / "wrong_bodies"
PARTS = ("src", "specs", "proofs")


def files_of(crate):
    return sorted(path for part in PARTS for path in (crate / part).rglob("*") if path.is_file())


def seen_in(path):
    """What the proofs of a crate above see of a file: no body of a function, and no proof of a function."""
    if path.suffix == ".rt":
        return without_bodies(path.read_text(encoding="utf-8")).encode()
    return b"" if path.name in ("Answers.antt", "Invariants.antt") else path.read_bytes()


def sum_of(crate, read):
    """A sum of what `read` gives of each file of a crate."""
    made = hashlib.sha256()
    for path in files_of(crate):
        made.update(repr((str(path.relative_to(TOP)), read(path))).encode())
    return made.hexdigest()


def kit_and_logic():
    """The name of the kit, and the sum of its logic."""
    said = subprocess.run(["rt", "version"], stdout=subprocess.PIPE, text=True, check=True).stdout
    return said.split()[0], said.split()[-1]


def sums_of(kept):
    """For each crate a sum of its files, of what its proofs see of all crates below it, and of the kit's logic."""
    _, logic = kit_and_logic()
    whole = {name: sum_of(TOP / "crates" / name, Path.read_bytes) for name in kept}
    seen = {name: sum_of(TOP / "crates" / name, seen_in) for name in kept}
    return {name: "".join([logic, whole[name], *(seen[each] for each in sorted(kept[name]))]) for name in kept}
