"""Files and folders that are written whole or not at all: beside their place, looked at, and renamed. What is there
stays where heads-tools didn't make it, and where a deck or the command itself reads it."""
from __future__ import annotations

import os
import shutil
import signal
import tempfile
import threading
from contextlib import contextmanager
from pathlib import Path
from typing import IO, Callable, Iterator

from .kept_files import demand_free
from .text import Problem


def why(error: OSError, path: Path) -> Problem:
    return Problem(f"{path} can't be written: {error.strerror or error}")


@contextmanager
def draft_of(path: Path) -> Iterator[Path]:
    """An empty file in the folder of `path`, for what is to get its name; if it is still there at the end, it goes. A
    fault of writing it is told by the name `path`."""
    try:
        path.parent.mkdir(parents=True, exist_ok=True)
        handle, name = tempfile.mkstemp(prefix=f".{path.name[:200]}.", dir=path.parent)
        os.close(handle)
    except OSError as error:
        raise why(error, path) from None
    try:
        os.chmod(name, 0o644)
        yield Path(name)
    except OSError as error:
        if error.filename not in (None, name):
            raise
        raise why(error, path) from None
    finally:
        if os.path.exists(name):
            os.unlink(name)


@contextmanager
def whole_file(path: Path | str, binary: bool = False, is_own: bool = False) -> Iterator[IO]:
    """A file to write, which gets its name once all was written. After an exception nothing of it is left. `is_own`: by
    its name the file is one of heads-tools' own, so that an earlier one needs no mark."""
    path = Path(path)
    with draft_of(path) as new:
        # Lines end with LF on each system: `heads` refuses a listing with CR LF.
        mode, encoding, newline = ("wb", None, None) if binary else ("w", "utf-8", "\n")
        with open(new, mode, encoding=encoding, newline=newline) as file:
            yield file
        if not is_own:
            demand_free(path, new)
        os.replace(new, path)


def write_whole(path: Path | str, content: bytes, look: Callable[[Path], None] | None = None) -> None:
    """Writes a file whose content some package made; `look` opens it again before it gets its name, and raises where it
    isn't whole."""
    path = Path(path)
    demand_free(path)
    with draft_of(path) as new:
        new.write_bytes(content)
        if new.stat().st_size != len(content):
            raise Problem(f"{path} can't be written: {new.stat().st_size} of {len(content)} bytes were")
        if look:
            try:
                look(new)
            except Exception as error:
                raise Problem(f"{path} isn't written: it couldn't be read again ({error})") from None
        os.replace(new, path)


def copy_whole(source: Path, target: Path) -> None:
    """A copy of a file, in a folder of heads-tools' own."""
    with draft_of(target) as new:
        with open(source, "rb") as old, open(new, "wb") as copy:
            shutil.copyfileobj(old, copy)
        os.replace(new, target)


@contextmanager
def whole_folder(folder: Path, first: str = "", is_own: bool = False) -> Iterator[Path]:
    """A folder to write into, whose files come into `folder` once all of them are written. After an exception `folder`
    is as it was. `first`: a file that will be among them, whose place has to be free from the beginning; `is_own`: the
    files of `folder` are known to be of an earlier call."""
    made = [each for each in (folder, *folder.parents) if not each.exists()]
    try:
        try:
            folder.mkdir(parents=True, exist_ok=True)
            if first:
                demand_free(folder / first)
            new = Path(tempfile.mkdtemp(prefix=".heads-tools.", dir=folder))
        except FileExistsError:
            raise Problem(f"{folder} is a file, and a folder is due") from None
        except OSError as error:
            raise why(error, folder) from None
        try:
            yield new
            move_files(new, folder, is_own)
        except Problem as error:
            raise Problem(str(error).replace(str(new), str(folder))) from None
        except OSError as error:
            if error.filename is not None and not str(error.filename).startswith(str(new)):
                raise
            raise why(error, folder) from None
        finally:
            shutil.rmtree(new, ignore_errors=True)
    except BaseException:
        for each in made:
            if each.is_dir() and not any(each.iterdir()):
                each.rmdir()
        raise


def move_files(new: Path, folder: Path, is_own: bool) -> None:
    """Moves all files of one folder into another; a signal to end waits for the last of them."""
    files = sorted(path.relative_to(new) for path in new.rglob("*") if path.is_file())
    for file in files:
        if not is_own:
            demand_free(folder / file, new / file)
        (folder / file).parent.mkdir(parents=True, exist_ok=True)
    with signals_wait():
        for file in files:
            os.replace(new / file, folder / file)


@contextmanager
def signals_wait() -> Iterator[None]:
    """Signals to end are taken after the block."""
    if threading.current_thread() is not threading.main_thread() or not hasattr(signal, "pthread_sigmask"):
        yield
        return
    old = signal.pthread_sigmask(signal.SIG_BLOCK, {signal.SIGINT, signal.SIGTERM})
    try:
        yield
    finally:
        signal.pthread_sigmask(signal.SIG_SETMASK, old)
