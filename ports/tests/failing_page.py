"""Each call of a page's program fails in turn: the trials of tests/failing_calls and tests/refused_memory with the page
in place of a program. The page is one that was built with faults.c; Node or a browser's worker runs its module."""
from __future__ import annotations

import base64
import importlib.machinery
import importlib.util
import json
import subprocess
import sys
from pathlib import Path
from types import ModuleType
from typing import Any, Callable, Protocol

HERE = Path(__file__).resolve().parent
TESTS = HERE.parents[1] / "tests"
RUNNER = HERE / "run_faults.mjs"
FAULTS = HERE / "faults.mjs"
BY_WORKER = HERE / "run_in_worker.mjs"


def script(name: str) -> ModuleType:
    """A script of tests/ as a module."""
    if str(TESTS) not in sys.path:
        sys.path.insert(0, str(TESTS))
    loader = importlib.machinery.SourceFileLoader(name, str(TESTS / name))
    spec = importlib.util.spec_from_loader(name, loader)
    assert spec
    module = importlib.util.module_from_spec(spec)
    loader.exec_module(module)
    return module


class Runner(Protocol):
    """Runs words on files with some calls failing. Its answer has status, out and side, the latter two in base64, and
    `noted`: how many threads were started after a call had failed, or None where none did."""

    def run(self, asked: dict[str, Any]) -> dict[str, Any]: ...


class Node:
    """A process of Node that compiles the page's module once. It is to be closed."""

    def __init__(self, page: Path):
        words = ["node", str(RUNNER), str(page)]
        self.process = subprocess.Popen(words, stdin=subprocess.PIPE, stdout=subprocess.PIPE, text=True)

    def run(self, asked: dict[str, Any]) -> dict[str, Any]:
        assert self.process.stdin and self.process.stdout
        self.process.stdin.write(json.dumps(asked) + "\n")
        self.process.stdin.flush()
        return json.loads(self.process.stdout.readline())

    def close(self) -> None:
        assert self.process.stdin
        self.process.stdin.close()
        self.process.wait()


class InBrowser:
    """The worker of a page that a browser has open: one worker for all runs. `has_faults`: the page was built with
    faults.c."""

    def __init__(self, browser: Any, has_faults: bool):
        self.browser, self.call = browser, BY_WORKER.read_text(encoding="utf-8")
        if has_faults:
            browser.evaluate(f"window.faults_script = {json.dumps(FAULTS.read_text(encoding='utf-8'))}; 0")

    def run(self, asked: dict[str, Any]) -> dict[str, Any]:
        return json.loads(self.browser.evaluate(f"{self.call}({json.dumps(asked)})"))


def answer_of(runner: Runner) -> Callable[..., tuple[int, bytes, bytes]]:
    """What stands for `Trials.answer`: the page's program on the files of a folder. The words of the environment are
    those of faults.c; FAILED is a file that is made where a call fails."""

    def answer(words: list[str], folder: str, env: dict[str, str], timeout: float) -> tuple[int, bytes, bytes]:
        files = {path.name: path.read_bytes() for path in Path(folder).iterdir()}
        options = {name: int(value) for name, value in env.items() if value.isdigit()}
        held = {name: base64.b64encode(content).decode() for name, content in files.items()}
        found = runner.run({"words": words, "files": held, "options": options})
        if found["noted"] is not None:
            Path(env["FAILED"]).write_bytes(b"t" * found["noted"])
        return found["status"], base64.b64decode(found["out"]), base64.b64decode(found["side"])

    return answer


def try_calls(runner: Runner, program: Path) -> int:
    """tests/failing_calls with a page; `program` says which commands there are."""
    return try_each(script("failing_calls"), "FailingCalls", "fail_each", runner, program)


def try_memory(runner: Runner, program: Path, most: int | None = None) -> int:
    """tests/refused_memory with a page, of so many commands, all where `most` is left out."""
    return try_each(script("refused_memory"), "RefusedMemory", "refuse_each", runner, program, most)


def try_each(module: ModuleType, name: str, part: str, runner: Runner, program: Path, most: int | None = None) -> int:
    trials = getattr(module, name)(program)
    trials.answer = answer_of(runner)
    commands = (trials.commands + module.built(trials.program, module.FURTHER))[:most]
    each = getattr(trials, part)
    return trials.run((" ".join(command.words), lambda command=command: each(command)) for command in commands)
