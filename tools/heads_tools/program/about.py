"""What is known of a file for other programs, in a small file beside it, where its own form has no place for that."""
from __future__ import annotations

from pathlib import Path

from ..common.kept_files import BESIDE
from ..common.text import sha256
from ..common.whole_files import whole_file
from .verdict import Verdict


def about_file(path: Path) -> Path:
    return path.with_name(path.name + BESIDE)


def write_about(path: Path, verdict: Verdict, files: list[Path] | None = None) -> None:
    """Writes NAME.about beside a file, or beside the first of some files: their sha256, and the verdict."""
    with whole_file(about_file(path), is_own=True) as file:
        file.writelines(f"{sha256(each)}  {each.name}\n" for each in files or [path])
        file.writelines(f"{name}: {text}\n" for name, text in verdict.facts().items())
