"""What Windows does otherwise: marks and ends of lines in text, the program's name, and how it is started."""
import ast
import re
import subprocess
import sys

import pytest
from conftest import TOOLS, TOP, heads

from heads_tools.program import program
from heads_tools.listing.listing import read_listing
from heads_tools.common.marks import plain, plain_listing
from heads_tools.common.text import Problem

SPELLINGS = {
    "UTF-16 of PowerShell": lambda text: b"\xff\xfe" + text.replace("\n", "\r\n").encode("utf-16-le"),
    "UTF-16, most byte first": lambda text: b"\xfe\xff" + text.encode("utf-16-be"),
    "a byte-order mark": lambda text: b"\xef\xbb\xbf" + text.encode(),
    "CR LF": lambda text: text.replace("\n", "\r\n").encode(),
}


@pytest.mark.parametrize("spelling", SPELLINGS)
def test_a_listing_is_read_as_it_was_written(spelling):
    text = "HEADS 2 DIGITS 12 UNIT 2\nEND\n"
    content, said = plain_listing(SPELLINGS[spelling](text))
    assert content == text.encode() and said
    assert plain_listing(text.encode()) == (text.encode(), "")


def test_bytes_that_are_no_text_stay_as_they_are():
    for raw in (b"\xff\xfe\x00", b"\xff\xfe\x00\xd8\x00\x00", b"\x2c\x00\x00\x00", b""):
        assert plain(raw) == (raw, "")


@pytest.mark.program
@pytest.mark.parametrize("spelling", SPELLINGS)
def test_a_listing_that_a_shell_wrote_is_checked_as_its_plain_text(spelling, example, tool, tmp_path):
    nam = example("three_cells")
    text = heads(["run", nam.name], nam.parent).stdout
    written = nam.with_name("shell.heads")
    written.write_bytes(SPELLINGS[spelling](text))
    assert heads(["check", nam.name, written.name], nam.parent).returncode != 0
    status, out, err = tool("look", written, tmp_path / "look", "--name", nam)
    assert status == 0 and "CERTIFIED" in out + (tmp_path / "look" / "index.html").read_text(), out + err
    assert "heads-tools reads it, and `heads` itself doesn't" in err
    plain_file = nam.with_name("plain.heads")
    plain_file.write_text(text)
    assert read_listing(written).sha256 == read_listing(plain_file).sha256


@pytest.mark.program
@pytest.mark.parametrize("spelling", list(SPELLINGS)[:3])
def test_a_deck_with_marks_is_explained_and_rewritten(spelling, example, tool, tmp_path):
    nam = example("three_cells")
    path = next(path for path in nam.parent.iterdir() if path.suffix.lower() == ".lpf")
    path.write_bytes(SPELLINGS[spelling](path.read_text()))
    status, out, err = tool("run", nam)
    assert status == 2 and "heads-tools plain" in out + err, out + err
    assert tool("plain", nam, tmp_path / "plain")[0] == 0
    new = next((tmp_path / "plain").glob("*.nam"))
    assert heads(["run", new.name], new.parent).returncode == 0


@pytest.mark.program
def test_a_table_of_heads_may_be_in_utf_16(example, tool):
    nam = example("three_cells")
    table = nam.with_name("given.csv")
    table.write_bytes("\ufefflayer,row,col,head\r\n1,1,2,15\r\n".encode("utf-16-le"))
    status, out, err = tool("certify", nam, table)
    assert status == 0 and out.startswith("CERTIFIED"), out + err


def text_writers(tree):
    """Calls that open a file for text to write: its mode has a w or an a, and no b."""
    for call in (node for node in ast.walk(tree) if isinstance(node, ast.Call)):
        name = getattr(call.func, "attr", getattr(call.func, "id", ""))
        words = [word.value for word in call.args if isinstance(word, ast.Constant) and isinstance(word.value, str)]
        if name == "write_text":
            yield call
        if name in ("open", "fdopen", "TemporaryFile", "NamedTemporaryFile") and words:
            if any(re.fullmatch(r"[wax]\+?t?", word) for word in words[:2]):
                yield call


def test_text_is_written_with_lf_on_each_system():
    """Without `newline` Windows writes CR LF, and `heads check` refuses a listing with it."""
    for path in (TOOLS / "heads_tools").rglob("*.py"):
        for call in text_writers(ast.parse(path.read_text())):
            has_newline = any(word.arg == "newline" for word in call.keywords)
            assert has_newline, f"{path.name}:{call.lineno} writes text by the system's ends of lines"


@pytest.fixture
def windows(monkeypatch, tmp_path):
    """A checkout at Windows with a script and a port, of a program of these bytes."""
    (tmp_path / "dist").mkdir()
    (tmp_path / "dist" / "heads.exe").write_bytes(b"MZ")
    (tmp_path / "dist" / "heads.exe").chmod(0o755)
    (tmp_path / "heads").write_text("#!/usr/bin/env bash\n")
    (tmp_path / "heads").chmod(0o755)
    for name, value in {"IS_WINDOWS": True, "NAME": "heads.exe", "TOP": tmp_path, "BIN": tmp_path / "bin"}.items():
        monkeypatch.setattr(program, name, value)
    monkeypatch.delenv("HEADS", raising=False)
    monkeypatch.setenv("PATH", str(tmp_path / "none"))

    def record(of="a" * 64):
        line = f"port heads.exe {program.sha256(tmp_path / 'dist' / 'heads.exe')} of {of} (gcc, 2026-01-01)"
        (tmp_path / "dist" / "heads.txt").write_text(f"sources {'0' * 64}\nkit k\nprogram {'a' * 64}\n{line}\n")

    record()
    return tmp_path, record


def test_windows_takes_the_port_and_not_the_script(windows):
    folder, _ = windows
    assert program.program() == folder / "dist" / "heads.exe"
    known = program.version()
    assert known.is_recorded and f"port    of the program {'a' * 64}" in known.lines


def test_a_port_of_an_older_program_is_not_taken(windows):
    folder, record = windows
    record(of="b" * 64)
    with pytest.raises(Problem):
        program.program()
    (folder / "bin").mkdir()
    for name in ("heads.exe", "heads.txt"):
        (folder / "dist" / name).rename(folder / "bin" / name)
    (folder / "bin" / "heads.exe").chmod(0o755)
    known = program.version()
    assert known.is_recorded is False and any("OLDER PROGRAM" in line for line in known.lines)


def test_a_port_with_other_bytes_is_not_taken(windows):
    folder, _ = windows
    (folder / "dist" / "heads.exe").write_bytes(b"MZ other")
    with pytest.raises(Problem):
        program.program()


def test_the_command_hands_its_status_on_where_a_program_is_not_replaced(windows, monkeypatch):
    called = []
    monkeypatch.setattr(program.subprocess, "call", lambda words: called.append(words) or 3)
    monkeypatch.setattr(sys, "argv", ["heads", "run", "a.nam"])
    with pytest.raises(SystemExit) as ended:
        program.main()
    assert ended.value.code == 3 and called[0][1:] == ["run", "a.nam"]


def test_wheels_are_the_same_bytes_twice(tmp_path):
    if subprocess.run([sys.executable, "-c", "import setuptools, wheel"], capture_output=True).returncode:
        pytest.skip("without setuptools and wheel")
    made = []
    for name in ("a", "b"):
        done = subprocess.run([sys.executable, TOOLS / "wheel", tmp_path / name], capture_output=True, text=True)
        assert done.returncode == 0, done.stderr
        made.append({path.name: path.read_bytes() for path in (tmp_path / name).iterdir()})
    assert made[0] == made[1] and any(name.endswith("-none-any.whl") for name in made[0])
    assert (TOP / "dist" / "heads.txt").is_file()
