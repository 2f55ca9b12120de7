"""Who imports whom: no package imports one above it, no modules import one another in a circle, and each package can be imported alone."""
import ast
import graphlib
import os
import pathlib
import subprocess
import sys
import tomllib

import pytest

from domethyme.extras import EXTRAS

pytestmark = pytest.mark.timeout(300)
PYTHON = pathlib.Path(__file__).resolve().parents[1]
# What each package may import; domethyme_launcher is above all.
BELOW = {
    "domethyme": set(), "domethyme_service": {"domethyme"}, "domethyme_tools": {"domethyme"},
    "domethyme_launcher": {"domethyme", "domethyme_service", "domethyme_tools"}
}
# Imports every module of a package, and prints what was imported of the others.
IMPORT_ALL = """
import importlib, pathlib, pkgutil, sys
name = sys.argv[1]
found = importlib.import_module(name)
for each in pkgutil.walk_packages(getattr(found, "__path__", []), name + "."):
    if not each.name.endswith("__main__"):
        importlib.import_module(each.name)
print(*sorted({each.partition(".")[0] for each in sys.modules if each.startswith("domethyme")}))
"""


def path_of(module):
    """The file of a module of these packages, or None."""
    found = PYTHON / module.replace(".", "/")
    return next((path for path in (found / "__init__.py", found.with_suffix(".py")) if path.is_file()), None)


def modules():
    """{module: its file} of all packages."""
    tops = [path for name in BELOW if (path := path_of(name))]
    files = {path for top in tops for path in ([top] if top.parent == PYTHON else top.parent.rglob("*.py"))}
    return {".".join(path.relative_to(PYTHON).with_suffix("").parts).removesuffix(".__init__"): path for path in sorted(files)}


def imports_of(module, path):
    """The modules of these packages that a module imports, in functions too, but for types alone."""
    package = module.split(".") if path.name == "__init__.py" else module.split(".")[:-1]
    waiting, found = [ast.parse(path.read_text(encoding="utf-8"))], set()
    while waiting:
        node = waiting.pop()
        if isinstance(node, ast.If) and "TYPE_CHECKING" in ast.unparse(node.test):
            waiting += node.orelse
            continue
        if isinstance(node, ast.Import):
            found |= {alias.name for alias in node.names}
        elif isinstance(node, ast.ImportFrom):
            base = ".".join([*package[: len(package) + 1 - node.level if node.level else 0], *filter(None, [node.module])])
            found |= {name if path_of(name := f"{base}.{alias.name}") else base for alias in node.names}
        waiting += ast.iter_child_nodes(node)
    return {name for name in found if path_of(name)} - {module}


IMPORTS = {module: imports_of(module, path) for module, path in modules().items()}


def test_no_package_imports_one_above_and_no_circle():
    """(A package that is imported stands for its own __init__, which imports its modules: so it is left out below itself.)"""
    tops = {(module.partition(".")[0], name.partition(".")[0]) for module, names in IMPORTS.items() for name in names}
    assert [(package, other) for package, other in tops if package != other and other not in BELOW[package]] == []
    graph = {module: {name for name in names if not module.startswith(f"{name}.")} for module, names in IMPORTS.items()}
    graphlib.TopologicalSorter(graph).prepare()


@pytest.mark.parametrize("package", [name for name in BELOW if name != "domethyme_launcher"])
def test_alone(tmp_path, package):
    for name in {package} | BELOW[package]:
        path = path_of(name)
        source = path if path.parent == PYTHON else path.parent
        (tmp_path / source.name).symlink_to(source)
    environment = {**os.environ, "PYTHONPATH": str(tmp_path), "PYTHONDONTWRITEBYTECODE": "1"}
    command = [sys.executable, "-P", "-c", IMPORT_ALL, package]
    ended = subprocess.run(command, cwd=tmp_path, capture_output=True, text=True, env=environment)
    assert ended.returncode == 0, ended.stderr
    assert set(ended.stdout.split()) <= {package} | BELOW[package]


def test_what_a_call_needs_is_in_its_extra():
    """By the name that an error says."""
    extras = tomllib.loads((PYTHON / "pyproject.toml").read_text(encoding="utf-8"))["project"]["optional-dependencies"]
    assert [name for name, extra in EXTRAS.items() if not any(each.startswith(f"{name}>=") for each in extras[extra])] == []
