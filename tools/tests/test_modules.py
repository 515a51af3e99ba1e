"""The modules of heads_tools: in layers, without import cycles, none too long to be read at once."""
import ast
import re
import subprocess
import sys

import pytest
from conftest import TOOLS

PACKAGE = TOOLS / "heads_tools"
# A folder imports from itself and from those before it.
LAYERS = [
    {"common"},
    {"deck"},
    {"listing", "modflow6"},
    {"program"},
    {"numbers", "planning", "exports"},
    {"water", "pages"},
    {"commands"},
    {""},
]
# What a command loads only where it draws or solves: matplotlib, scipy and jinja2 take longer than most commands.
LATE = ("pages", "numbers", "water", "commands")
MOST_LINES = 400
MODULES = {path.relative_to(TOOLS).with_suffix("").parts: path for path in PACKAGE.rglob("*.py")}


def folder_of(module):
    return module[1] if len(module) > 2 else ""


def imports_of(module):
    """The modules of heads_tools that a module imports, each with the line."""
    package = module[:-1]
    for node in ast.walk(ast.parse(MODULES[module].read_text(encoding="utf-8"))):
        if not isinstance(node, ast.ImportFrom) or not node.level:
            continue
        base = package[: len(package) - node.level + 1] + tuple(node.module.split(".") if node.module else ())
        for name in node.names:
            found = next((each for each in ((*base, name.name), base, (*base, "__init__")) if each in MODULES), None)
            assert found, f"{MODULES[module]}:{node.lineno}"
            yield found, node


@pytest.mark.parametrize("module", sorted(MODULES), ids=".".join)
def test_a_module_imports_from_the_folders_below_it(module):
    at = {folder: n for n, layer in enumerate(LAYERS) for folder in layer}
    here = folder_of(module)
    for other, node in imports_of(module):
        there = folder_of(other)
        assert there == here or at[there] < at[here], f"{'.'.join(module)} imports {'.'.join(other)}"
        is_late = here == "commands" and there in LATE
        assert node.col_offset == 0 or is_late, f"{'.'.join(module)}:{node.lineno} imports within a function"


def test_no_module_imports_itself_by_others():
    edges = {module: {other for other, _ in imports_of(module)} for module in MODULES}
    done = set()

    def go(module, way):
        assert module not in way, " imports ".join(map(".".join, [*way[way.index(module) :], module]))
        if module not in done:
            for other in sorted(edges[module] - {module}):
                go(other, [*way, module])
            done.add(module)

    for module in sorted(edges):
        go(module, [])


@pytest.mark.parametrize("module", sorted(MODULES), ids=".".join)
def test_a_module_can_be_read_at_once(module):
    assert len(MODULES[module].read_text(encoding="utf-8").splitlines()) <= MOST_LINES


def test_so_can_each_test_and_each_script_of_the_map():
    paths = [*TOOLS.glob("tests/*.py"), *TOOLS.glob("heads_tools/map/*")]
    assert [path.name for path in paths if len(path.read_text(encoding="utf-8").splitlines()) > MOST_LINES] == []


def test_each_folder_is_in_the_wheel():
    listed = re.findall(r'^    "heads_tools(?:\.(\w+))?",$', (TOOLS / "pyproject.toml").read_text(), re.M)
    assert sorted(listed) == sorted({folder_of(module) for module in MODULES}) == sorted(set().union(*LAYERS))


def test_help_and_wrong_words_load_neither_matplotlib_nor_scipy_nor_jinja2():
    code = "import sys, heads_tools; from heads_tools.commands import HELP, command; [command(name) for name in HELP]"
    code += "; print({'matplotlib', 'scipy', 'jinja2'} & set(sys.modules))"
    done = subprocess.run([sys.executable, "-c", code], cwd=TOOLS, capture_output=True, text=True)
    assert done.stdout == "set()\n", done.stdout + done.stderr
