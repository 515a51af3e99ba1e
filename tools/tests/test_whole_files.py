"""What is written is whole or not there: on a full disk, under a limit of files' sizes, in a folder that may not be
written, after Ctrl-C. What was there before stays as it was."""
import importlib
import importlib.util
import os
import resource
import shutil
import signal
import subprocess
import sys
import time
from pathlib import Path

import pytest
from conftest import TOOLS, TOP

pytestmark = pytest.mark.program
COMMANDS = {
    "look": "look m.heads look --name m.nam",
    "netcdf": "export m.heads out --name m.nam --at 155000,463000,12,28992 --as nc",
    "geotiff": "export m.heads out --name m.nam --as tif",
    "vtk": "export m.heads out --name m.nam --as vtu",
    "csv": "export m.heads out --name m.nam --as csv",
    "hds": "hds m.heads m.hds --name m.nam",
    "run": "run m.nam",
    "plain": "plain m.nam plain",
    "between": "between m.nam two --wells 0..1",
    "drawdown": "drawdown m.heads m.heads down",
    "compare": "compare m.heads m.hds --csv off.csv",
    "observe": "observe m.heads points.txt --name m.nam --out seen.csv",
    "certify": "certify m.nam m.hds",
}
PACKAGES = {"netcdf": "netCDF4 xarray", "geotiff": "rasterio", "vtk": "meshio", "csv": "pandas"}
# The most bytes of a file: less than the first one that the command writes has, or than its second one.
LIMITS = {"between": 100, "compare": 100, "observe": 100, "look": 30_000}


def is_here(name):
    return all(importlib.util.find_spec(package) for package in PACKAGES.get(name, "").split())


def command(words, folder, **more):
    env = os.environ | {"PYTHONPATH": str(TOOLS)}
    script = [sys.executable, "-m", "heads_tools", *words.split()]
    return subprocess.Popen(
        script, cwd=folder, env=env, stdout=subprocess.PIPE, stderr=subprocess.PIPE, text=True, **more
    )


def contents(folder):
    return {str(f.relative_to(folder)): f.read_bytes() for f in sorted(folder.rglob("*")) if f.is_file()}


@pytest.fixture(scope="module")
def made(tmp_path_factory):
    """A model in whose folder each command has run once."""
    folder = tmp_path_factory.mktemp("made") / "valley"
    shutil.copytree(TOP / "examples" / "river_valley", folder, ignore=shutil.ignore_patterns("*.heads*", "look"))
    (folder / "points.txt").write_text("name,x,y\na,500,500\n")
    for name in ("run", "hds", *COMMANDS):
        assert not is_here(name) or command(COMMANDS[name], folder).wait(120) == 0, name
    return folder


@pytest.fixture
def valley(made, tmp_path):
    return Path(shutil.copytree(made, tmp_path / "valley"))


def demand_as_before(ended, folder, before):
    """One line that names a file and why, and nothing in the folder has changed."""
    out, err = ended.communicate(timeout=120)
    last = err.strip().split("\n")[-1]
    assert ended.returncode == 2 and "Traceback" not in err and last.startswith("heads-tools: "), out + err
    assert "can't be written: " in last and "standard output" not in last, err
    assert contents(folder) == before, sorted(set(contents(folder)) ^ set(before))


@pytest.mark.parametrize("name", COMMANDS)
def test_a_limit_of_sizes_leaves_what_was_there(name, valley):
    if not is_here(name):
        pytest.skip("a package is missing")
    before, most = contents(valley), LIMITS.get(name, 3000)
    limit = lambda: resource.setrlimit(resource.RLIMIT_FSIZE, (most, most))
    demand_as_before(command(COMMANDS[name], valley, preexec_fn=limit), valley, before)


def test_a_full_disk_leaves_what_was_there(valley, tmp_path):
    disk = tmp_path / "disk"
    disk.mkdir()
    if subprocess.run(["mount", "-t", "tmpfs", "-o", "size=3m", "tmpfs", disk], capture_output=True).returncode:
        pytest.skip("no disk can be mounted here")
    try:
        folder = Path(shutil.copytree(valley, disk / "valley"))
        fill(disk / "fill")
        before = contents(folder)
        for name in ("look", "netcdf", "geotiff", "hds", "run"):
            if is_here(name):
                demand_as_before(command(COMMANDS[name], folder), folder, before)
        ended = command("exhibit m.nam shown", folder)
        out, err = ended.communicate(timeout=120)
        assert ended.returncode == 2 and "shown/deck/m." in err and "can't be written: No space left" in err, err
        assert contents(folder) == before
    finally:
        subprocess.run(["umount", disk], check=True)


def fill(path):
    """Takes all room of a disk but that of one page."""
    with open(path, "wb", buffering=0) as file:
        try:
            while file.write(bytes(4096)):
                pass
        except OSError:
            pass
        file.truncate(os.fstat(file.fileno()).st_size // 4096 * 4096 - 4096)


@pytest.mark.parametrize("name", ["look", "hds", "run"])
def test_a_folder_that_may_not_be_written_is_named(name, valley):
    if os.geteuid() == 0 and subprocess.run(["setpriv", "--version"], capture_output=True).returncode:
        pytest.skip("the user may write everywhere")
    before = contents(valley)
    if os.geteuid() == 0:
        for path in (valley, *valley.parents[:-2]):
            path.chmod(0o755)
        user = {"user": 65534, "group": 65534}
    else:
        valley.chmod(0o555)
        user = {}
    try:
        ended = command(COMMANDS[name], valley, **user)
        out, err = ended.communicate(timeout=60)
    finally:
        valley.chmod(0o755)
    if "No module" in err:
        pytest.skip("another user can't read the tools here")
    assert ended.returncode == 2 and len(err.strip().split("\n")) == 1 and "can't be written: Permission denied" in err
    assert contents(valley) == before


@pytest.mark.parametrize("words", [COMMANDS["look"], "export m.heads out --name m.nam", "exhibit m.nam shown"])
def test_after_ctrl_c_nothing_is_left_half(words, valley):
    before = contents(valley)
    for seconds in (0.8, 1.6):
        ended = command(words, valley)
        time.sleep(seconds)
        ended.send_signal(signal.SIGINT)
        out, err = ended.communicate(timeout=60)
        if ended.returncode == 0 or "\nwritten: " in out or "\nopen " in out:
            break  # all was done, and the process about to end
        assert contents(valley) == before, (seconds, err)


def keys_are_heard():
    """Where the tests run in the background of a script, the shell has them ignore SIGINT."""
    signal.signal(signal.SIGINT, signal.SIG_DFL)


def test_ctrl_c_while_the_modules_are_loaded_says_nothing(tmp_path):
    """The first library that is loaded presses the keys."""
    for package in ("numpy", "scipy", "matplotlib"):
        (tmp_path / package).mkdir()
        code = "import os, signal, time\nos.kill(os.getpid(), signal.SIGINT)\ntime.sleep(5)\n"
        (tmp_path / package / "__init__.py").write_text(code)
    env = os.environ | {"PYTHON": sys.executable, "PYTHONPATH": str(tmp_path)}
    ended = subprocess.run(
        [TOOLS / "heads-tools", "version"], env=env, capture_output=True, text=True, preexec_fn=keys_are_heard
    )
    assert (ended.returncode, ended.stdout, ended.stderr) == (-signal.SIGINT, "", "")


@pytest.mark.parametrize("kind", ["nc", "tif", "vtu"])
def test_a_file_that_cannot_be_read_again_is_not_called_written(kind, valley, tool, monkeypatch):
    """What the library made is cut in the middle."""
    if not all(map(is_here, PACKAGES)):
        pytest.skip("a package is missing")
    shutil.rmtree(valley / "out")
    import heads_tools.exports.files
    import heads_tools.exports.netcdf
    from heads_tools.common import whole_files

    def cut(path, content, look=None):
        whole_files.write_whole(path, content[: len(content) * 2 // 3], look)

    for module in (heads_tools.exports.files, heads_tools.exports.netcdf):
        monkeypatch.setattr(module, "write_whole", cut)
    status, out, err = tool("export", valley / "m.heads", valley / "out", "--name", valley / "m.nam", "--as", kind)
    assert status == 2 and f"heads.{kind} isn't written: it couldn't be read again" in err, out + err
    assert not (valley / "out").exists()


def test_a_page_is_replaced_as_a_whole(valley, tool, monkeypatch):
    """The last file of the new page can't be written: all others stay those of the old page."""
    words = "look", valley / "m.heads", valley / "look"
    before = contents(valley / "look")
    from heads_tools import Problem

    def fails(page, folder):
        raise Problem(f"{folder / 'index.html'} can't be written: no reason")

    monkeypatch.setattr(importlib.import_module("heads_tools.pages.look"), "write_page", fails)
    status, out, err = tool(*words, "--cell", "1,1,1")
    assert status == 2 and f"{valley / 'look' / 'index.html'} can't be written" in err
    assert contents(valley / "look") == before


def test_nobody_else_can_read_half_a_page(tmp_path):
    from heads_tools.common.whole_files import whole_folder

    with whole_folder(tmp_path / "page") as new:
        (new / "a.csv").write_text("period,step,least\n")
        assert list((tmp_path / "page").glob("*.csv")) == [] and new.parent == tmp_path / "page"
    assert [f.name for f in (tmp_path / "page").iterdir()] == ["a.csv"]
    with pytest.raises(ZeroDivisionError), whole_folder(tmp_path / "more" / "page"):
        1 / 0
    assert not (tmp_path / "more").exists()
