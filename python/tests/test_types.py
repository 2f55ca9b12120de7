"""Types and names of the Python of this repository, by Debian's mypy and pyflakes."""
import subprocess
import sys

import pytest
from tool_case import PYTHON, ROOT

pytestmark = pytest.mark.timeout(3600)


def scripts(folder):
    """The files of Python in a folder, those without an ending too."""
    return sorted(path for path in folder.iterdir() if path.is_file() and is_python(path))


def is_python(path):
    with open(path, "rb") as file:
        return path.suffix == ".py" or b"python3" in file.readline().partition(b"#!")[2]


STRICT = ("mypy", "--strict", "--cache-dir=/dev/null", "--scripts-are-modules")
# What pyproject.toml has mypy look at, and a script that is made of the same packages.
PACKAGES = ("domethyme", "domethyme_service", "domethyme_tools", "domethyme_launcher.py")
CHECKS = [ROOT / "packaging/container/domethyme-container"]
KIT = sorted((ROOT / "tests/kit").glob("*.py"))
FOLDERS = [PYTHON / "tests", ROOT / "packaging", ROOT / "packaging/container", ROOT / "packaging/web", ROOT / "bench", *sorted((ROOT / "tests").glob("[a-z]*/"))]


@pytest.mark.parametrize("folder, words", [
    (PYTHON, ["mypy", "--scripts-are-modules", *PACKAGES, *CHECKS]),
    (ROOT / "tests", [*STRICT, *KIT]),
    (ROOT / "packaging", [*STRICT, "readme_session.py", "tool_completions", "web/for_wasm64", "web/stack_depth", "web/without_table"]),
    (ROOT, ["pyflakes", PYTHON, *(path for folder in FOLDERS for path in scripts(folder))]),
], ids=["packages", "kit", "packaging", "names"])
def test_types_and_names(folder, words):
    ended = subprocess.run([sys.executable, "-P", "-m", *map(str, words)], cwd=folder, capture_output=True, text=True)
    assert ended.returncode == 0, ended.stdout + ended.stderr
