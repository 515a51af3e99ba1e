"""Names of the files of a deck, and why one may not be there."""
from __future__ import annotations

import re
from pathlib import Path, PureWindowsPath

from ..common.text import on_disk, read_text, words


def name_lines(folder: Path) -> list[tuple[Path, str]]:
    """The lines of a folder's name files that aren't comments, each with its name file."""
    files = sorted(f for f in folder.iterdir() if f.suffix.lower() in (".nam", ".mfn")) if folder.is_dir() else []
    return [
        (nam, line) for nam in files for line in read_text(nam).split("\n") if words(line) and not line.startswith("#")
    ]


def nam_of(folder: Path, file: str) -> Path | None:
    """A name file of the folder that names a file."""
    return next((nam for nam, line in name_lines(folder) if words(line)[2:3] == [file]), None)


def kind_of(folder: Path, file: str) -> str:
    """The package that a file belongs to, by a name file of the folder."""
    return next((words(line)[0].upper() for _, line in name_lines(folder) if words(line)[2:3] == [file]), "")


def missing(name: str, folder: Path) -> str:
    """Why a file that a deck in a folder names may not be there."""
    if re.match(r"[A-Za-z]:", name):
        return (
            f"{name} is a path of a Windows machine. Write the bare name into the name file and run in the model's"
            " folder (`heads-tools plain` does)."
        )
    if name[:1] in "'\"":
        return "Quotes are read as part of a name: take them out (`heads-tools plain` does)."
    path = on_disk(folder, name)
    here = sorted(f.name for f in path.parent.iterdir()) if path.parent.is_dir() else []
    same = [f for f in here if f.lower() == path.name.lower()]
    if same:
        return (
            f"On disk it is named {same[0]}: capital and small letters count here. Rename it, or write the name so"
            " (`heads-tools plain` does)."
        )
    near = [f for f in here if f.startswith(path.name + " ")]
    parted = [
        " ".join(words(line)[2:])
        for _, line in name_lines(folder)
        if words(line)[2:3] == [name] and len(words(line)) > 3
    ]
    parted = [t for t in parted if not re.fullmatch(r"(OLD|NEW|REPLACE|UNKNOWN|#.*|\d+)", t.split()[1].upper())]
    if parted and not near:
        return (
            "The line of the name file goes on after this word: a blank ends a name. If the file is named"
            f" `{parted[0]}`, put the name into quotes and use `heads-tools plain`, or rename the file."
        )
    if near:
        return (
            f"On disk there is `{near[0]}`: a blank ends a name. Put the name into quotes and use `heads-tools plain`,"
            " or rename the file."
        )
    return (
        "Names are looked up from the folder in which the program runs, as MODFLOW's are: `cd` into the model's folder"
        " first (`heads-tools run` does)."
    )


def plain_name(name: str) -> str:
    """A file's name without folders, of printable letters alone."""
    return re.sub(r"[^\x21-\x7e]", "_", PureWindowsPath(name).name)
