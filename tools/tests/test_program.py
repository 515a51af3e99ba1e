"""The program that is called is the one of the checkout's sources, without a hash of them at each call."""
import os
import shutil
import subprocess

import pytest
from conftest import TOP

from heads_tools import Problem
from heads_tools.program import program

PATH = "/usr/bin:/bin"
KEPT = "#!/bin/sh\necho ran\n"


def sha256(path):
    return subprocess.run(["sha256sum", path], capture_output=True, text=True).stdout.split()[0]


@pytest.fixture
def checkout(tmp_path):
    """A checkout with two crates, whose kept program is a script, some time after its files were written."""
    top = tmp_path / "checkout"
    for folder in ("crates/heads/src", "crates/low/proofs", "dist", "scripts"):
        (top / folder).mkdir(parents=True)
    (top / "crates.txt").write_text("low:\nheads: low\n")
    (top / "HANDLES").write_text("\n")
    (top / "crates/heads/src/main.rt").write_text("one\n")
    (top / "crates/low/proofs/P.antt").write_text("two\n")
    for name in ("scripts/check_dist", "scripts/program_sources", "heads"):
        shutil.copy(TOP / name, top / name)
    (top / "dist/heads").write_text(KEPT)
    (top / "dist/heads").chmod(0o755)
    sources = subprocess.run([top / "scripts/program_sources"], capture_output=True, text=True).stdout.strip()
    (top / "dist/heads.txt").write_text(f"sources {sources}\nkit none\nprogram {sha256(top / 'dist/heads')}\n")
    return top


@pytest.fixture
def hashes(tmp_path, monkeypatch):
    """Counts how often the sources are hashed: each time xargs is called."""
    folder, log = tmp_path / "bin", tmp_path / "log"
    folder.mkdir()
    (folder / "xargs").write_text(f'#!/bin/sh\necho >>{log}\nexec /usr/bin/xargs "$@"\n')
    (folder / "xargs").chmod(0o755)
    monkeypatch.setenv("PATH", f"{folder}:{PATH}")

    def count():
        lines = log.read_text().count("\n") if log.exists() else 0
        log.unlink(missing_ok=True)
        return lines

    return count


def ran(checkout):
    done = subprocess.run([checkout / "heads"], capture_output=True, text=True)
    return done.stdout == "ran\n" and done.returncode == 0


def grow_old(monkeypatch, checkout):
    """Has the script take all files to be old: its clock goes an hour before ours."""
    (checkout.parent / "bin").mkdir(exist_ok=True)
    date = checkout.parent / "bin" / "date"
    date.write_text("#!/bin/sh\nexec /usr/bin/date -d 'now + 1 hour' \"$@\"\n")
    date.chmod(0o755)
    monkeypatch.setenv("PATH", f"{date.parent}:{PATH}")


def test_sources_are_hashed_once_as_long_as_nothing_changes(checkout, hashes, monkeypatch):
    grow_old(monkeypatch, checkout)
    assert ran(checkout) and hashes() > 0
    assert (checkout / "dist/heads.checked").is_file()
    assert ran(checkout) and ran(checkout) and hashes() == 0


def test_files_that_have_just_changed_are_hashed_again(checkout, hashes):
    for _ in range(2):
        assert ran(checkout) and hashes() > 0
    assert not (checkout / "dist/heads.checked").exists()


def rewritten(path, text):
    """Another text of the same size, with the time of the old one."""
    at = path.stat()
    assert len(text) == at.st_size
    path.write_text(text)
    os.utime(path, ns=(at.st_atime_ns, at.st_mtime_ns))


CHANGES = {
    "a source of the same size and time": lambda top: rewritten(top / "crates/heads/src/main.rt", "wan\n"),
    "a proof": lambda top: (top / "crates/low/proofs/P.antt").write_text("three\n"),
    "a new file": lambda top: (top / "crates/low/proofs/Q.antt").write_text("four\n"),
    "a file that is gone": lambda top: (top / "crates/low/proofs/P.antt").unlink(),
    "the list of crates": lambda top: (top / "crates.txt").write_text("low:\nheads:\n"),
    "the handles": lambda top: rewritten(top / "HANDLES", " "),
    "the program itself": lambda top: rewritten(top / "dist/heads", KEPT.replace("ran", "RAN")),
    "its record": lambda top: (top / "dist/heads.txt").write_text("sources none\nprogram none\n"),
}


@pytest.mark.parametrize("name", CHANGES)
def test_a_program_of_other_sources_is_never_run(name, checkout, monkeypatch):
    grow_old(monkeypatch, checkout)
    assert ran(checkout) and ran(checkout) and (checkout / "dist/heads.checked").is_file()
    CHANGES[name](checkout)
    done = subprocess.run([checkout / "heads"], capture_output=True, text=True)
    assert done.returncode == 70 and done.stdout == "" and "dist/heads" in done.stderr, done


@pytest.mark.parametrize("folder", ["checkout[1]", "a *", "c?"])
def test_the_name_of_the_checkouts_folder_is_no_pattern(folder, checkout, monkeypatch):
    grow_old(monkeypatch, checkout)
    moved = checkout.rename(checkout.parent / folder)
    assert ran(moved) and ran(moved) and (moved / "dist/heads.checked").is_file()
    rewritten(moved / "crates/heads/src/main.rt", "wan\n")
    assert subprocess.run([moved / "heads"], capture_output=True).returncode == 70


def test_a_find_that_cannot_tell_times_keeps_nothing(checkout, monkeypatch, hashes):
    grow_old(monkeypatch, checkout)
    find = checkout.parent / "bin" / "find"
    find.write_text("#!/bin/sh\ncase \"$*\" in *-printf*|*-newerct*) exit 1 ;; esac\nexec /usr/bin/find \"$@\"\n")
    find.chmod(0o755)
    assert ran(checkout) and ran(checkout) and hashes() > 0 and not (checkout / "dist/heads.checked").exists()
    rewritten(checkout / "crates/heads/src/main.rt", "wan\n")
    assert subprocess.run([checkout / "heads"], capture_output=True).returncode == 70


def test_the_whole_check_believes_nothing(checkout, monkeypatch, hashes):
    grow_old(monkeypatch, checkout)
    assert ran(checkout) and hashes() > 0
    assert subprocess.run([checkout / "scripts/check_dist"]).returncode == 0 and hashes() > 0


@pytest.fixture
def tools_there(checkout, monkeypatch):
    """The tools, as if they lay in that checkout."""
    monkeypatch.delenv("HEADS", raising=False)
    monkeypatch.setattr(program, "TOP", checkout)
    program.look_again()
    yield
    program.look_again()


def test_the_tools_call_the_program_itself(checkout, tools_there, tmp_path):
    assert program.direct_program() == checkout / "dist/heads"
    assert program.program_file.__doc__ and program.call([], tmp_path).last == "ran"


def test_the_tools_look_again_as_a_command_begins(checkout, tools_there, monkeypatch, tmp_path):
    """Of other sources only the script runs a program, which builds it; without rt that is told at once."""
    assert program.direct_program() == checkout / "dist/heads"
    (checkout / "crates/heads/src/main.rt").write_text("changed\n")
    program.look_again()
    monkeypatch.setenv("PATH", PATH)
    with pytest.raises(Problem, match="was built from other sources than these; there is no rt to build it with"):
        program.direct_program()
    (tmp_path / "rt").write_text("#!/bin/sh\n")
    (tmp_path / "rt").chmod(0o755)
    monkeypatch.setenv("PATH", f"{tmp_path}:{PATH}")
    assert program.direct_program() == checkout / "heads"


@pytest.mark.program
def test_a_batch_and_its_plans_hash_nothing_for_each_model(tmp_path, monkeypatch):
    """Of 20 models: the script `heads` would be called for each of them."""
    if not (TOP / "dist" / "heads").is_file():
        pytest.skip("no kept program")
    called = tmp_path / "called"
    (tmp_path / "heads").write_text(f'#!/bin/sh\necho >>{called}\nexec {TOP}/dist/heads "$@"\n')
    (tmp_path / "heads").chmod(0o755)
    (tmp_path / "scripts").mkdir()
    (tmp_path / "dist").mkdir()
    shutil.copy(TOP / "dist" / "heads", tmp_path / "dist")
    (tmp_path / "scripts" / "check_dist").write_text(f"#!/bin/sh\necho >>{called}\n")
    (tmp_path / "scripts" / "check_dist").chmod(0o755)
    shutil.copytree(TOP / "examples" / "three_cells", tmp_path / "m", ignore=shutil.ignore_patterns("*.heads*", "look"))
    text = (tmp_path / "m" / "a.nam").read_text()
    names = [f"p{n}.nam" for n in range(20)]
    for name in names:
        (tmp_path / "m" / name).write_text(text)
    (tmp_path / "m" / "list.txt").write_text("\n".join(names) + "\n")
    monkeypatch.delenv("HEADS", raising=False)
    monkeypatch.setattr(program, "TOP", tmp_path)
    from heads_tools.cli import main

    for words in (["batch", tmp_path / "m/list.txt"], ["plans", tmp_path / "m/list.txt", tmp_path / "page"]):
        called.unlink(missing_ok=True)
        assert main([str(word) for word in words]) == 0
        assert called.read_text() == "\n", "check_dist is called once a command, the script never"
    program.look_again()
