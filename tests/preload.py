"""Environments in which one of a program's calls of the C library fails, by tests/preload.c."""
import functools
import os
import subprocess
import tempfile

SOURCE = os.path.join(os.path.dirname(os.path.realpath(__file__)), "preload.c")


@functools.cache
def library():
    """The library, compiled where all may read it."""
    folder = tempfile.mkdtemp(prefix="heads_preload_")
    os.chmod(folder, 0o755)
    path = os.path.join(folder, "preload.so")
    subprocess.run(["gcc", "-O1", "-shared", "-fPIC", "-w", "-o", path, SOURCE, "-ldl"], check=True)
    return path


def preloaded(**options):
    """The environment with these options, whose names are written in small letters."""
    return {"LD_PRELOAD": library()} | {name.upper(): str(value) for name, value in options.items()}
