"""The command heads-tools: words and what they do."""
from __future__ import annotations

import argparse
import logging
import os
import re
import signal
import sys
import threading
from pathlib import Path
from typing import Iterable

from .commands import EXAMPLES, HELP, PASSING, command
from .commands.shared import guarded
from .commands.words import Parser, Wrong
from .common.text import VERSION, Problem

EPILOG = """\
Nothing in heads-tools is proved. The program is found by the environment variable HEADS, else in this checkout,
else on the PATH.
Statuses: those of heads where it ran; 2 for bad input; 1 where the answer is no (inside, plain, version). Windows: a
wheel of tools/wheel, or WSL (Debian or Ubuntu)."""


def parser(loaded: Iterable[str] = HELP) -> Parser:
    """The parser of all commands, and of the words of those that are to be loaded."""
    top = Parser(
        prog="heads-tools",
        description="Runs, explains, feeds and shows `heads`.",
        epilog=EPILOG,
        formatter_class=argparse.RawDescriptionHelpFormatter,
    )
    top.add_argument("--version", action="version", version=f"heads-tools {VERSION}")
    commands = top.add_subparsers(dest="command", metavar="COMMAND", required=True)
    for name, text in HELP.items():
        example = f"Example: heads-tools {EXAMPLES[name]}"
        sub = commands.add_parser(name, help=text, description=text, epilog=example)
        sub.set_defaults(own=sub)
        if name in loaded:
            command(name).add(sub)
    return top


def stop(*_: object) -> None:
    """A signal to end is taken as one from the keyboard, so that the program that was called ends too."""
    raise KeyboardInterrupt


def silenced() -> bool:
    """Whether standard output can't be written; what it still holds then goes nowhere."""
    try:
        sys.stdout.flush()
        return False
    except OSError:
        os.dup2(os.open(os.devnull, os.O_WRONLY), sys.stdout.fileno())
        return True


def complete(top: argparse.ArgumentParser) -> None:
    """Completion in the shell, where python3-argcomplete is installed: eval "$(register-python-argcomplete
    heads-tools)"."""
    try:
        import argcomplete
    except ImportError:
        return
    argcomplete.autocomplete(top)


def joined(words: list[str]) -> list[str]:
    """The words, with a range that begins with a minus joined to its option: by itself it would count as an option."""
    out: list[str] = []
    for word in words:
        if out and out[-1].startswith("--") and re.match(r"-[\d.].*\.\.", word):
            out[-1] += f"={word}"
        else:
            out.append(word)
    return out


def take_folder(args: argparse.Namespace, rest: list[str]) -> None:
    """Takes a folder that stands after options: argparse has filled it with nothing by then."""
    if args.command == "drawdown" and args.folder is None and len(rest) == 1 and not rest[0].startswith("-"):
        args.folder = Path(rest.pop())


def main(words: list[str] | None = None) -> int:
    """Does what the words say; the status."""
    # Where the home can't be written, matplotlib warns of its own folder, which a user can't act on.
    logging.getLogger("matplotlib").setLevel(logging.ERROR)
    given = sys.argv[1:] if words is None else words
    top = parser(HELP if "_ARGCOMPLETE" in os.environ else given[:1])
    complete(top)
    try:
        args, rest = top.parse_known_args(joined(given))
        take_folder(args, rest)
        if rest and args.command not in PASSING:
            args.own.error(f"unknown words: {' '.join(rest)}")
        if threading.current_thread() is threading.main_thread():
            signal.signal(signal.SIGTERM, stop)
            if signal.getsignal(signal.SIGINT) is signal.SIG_DFL:
                signal.signal(signal.SIGINT, stop)
        with guarded(args, rest):
            status = command(args.command).do(args, rest, sys.stdout)
        sys.stdout.flush()
        return status
    except Wrong as error:
        print(error.usage, file=sys.stderr)
        return 2
    except Problem as error:
        print(f"heads-tools: {error}", file=sys.stderr)
        return 2
    except BrokenPipeError:
        sys.stderr.close()
        return 141
    except OSError as error:
        where = error.filename or ("standard output" if silenced() else "")
        print(f"heads-tools: {where}{': ' * bool(where)}{error.strerror or error}", file=sys.stderr)
        return 2
    except KeyboardInterrupt:
        print("heads-tools: stopped", file=sys.stderr)
        return 130


def mf2005() -> int:
    """The command heads-mf2005."""
    return main(["mf2005", *sys.argv[1:]])
