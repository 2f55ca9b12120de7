"""What the tests of the tools share: a folder for each test, and runs of the tools in it."""
import csv
import os
import pathlib
import re
import shutil
import subprocess
import sys
import tempfile
import types
import unittest

import pytest

from domethyme.csv_tables import unescape_formula
from domethyme.network.columns import COLUMNS

HERE = pathlib.Path(__file__).resolve().parent
ROOT = HERE.parents[1]
PYTHON, TOOLS = ROOT / "python", ROOT / "tools"
VILLAGE = HERE / "village.osm"

# The columns of a network that are in its tables, or made of them
IN_TABLES = [name for name, column in COLUMNS.items() if not column.is_derived and column.part != "map"]

# What only a hang exceeds, in seconds, for what has a limit of its own, as a connection. No test expects anything sooner: each ends
# by its own limit.
SECONDS = 1800
# Before the words of a program that is sent signals. What a test inherits may ignore them, as a shell's background job
# does, and Python makes no KeyboardInterrupt of an interrupt that it was started to ignore.
TAKES_SIGNALS = ["/usr/bin/env", "--default-signal=HUP,INT,QUIT,TERM"]


def read_rows(path):
    """The rows of NETWORK.nodes.csv or NETWORK.arcs.csv, whose columns from, to and WKT are start, end and wkt here; no osm is None."""
    with open(path, newline="", encoding="utf-8") as file:
        return [types.SimpleNamespace(**dict(map(read_field, row, row.values()))) for row in csv.DictReader(file)]


def read_field(name, text):
    if name in ("seconds", "metres", "lon", "lat"):
        return name, float(text)
    if name in ("node", "from", "to", "weight", "osm"):
        return {"from": "start", "to": "end"}.get(name, name), int(text) if text else None
    return name.lower(), unescape_formula(text)


class ToolCase(unittest.TestCase):
    """A test in an empty folder of its own, `self.folder`, in which the tools run."""

    # (for it starts many processes, each of which takes seconds on a busy machine)
    pytestmark = pytest.mark.timeout(1200)

    def setUp(self):
        self.folder = pathlib.Path(tempfile.mkdtemp(prefix="map-tools-"))
        self.addCleanup(shutil.rmtree, self.folder)

    def run_tool(self, tool, *words, status=0, given=None, environment=None):
        """Runs a tool with `given` as its standard input; it has to end with the status."""
        return self.run_program([TOOLS / tool, *words], status, given, environment)

    def run_program(self, words, status=0, given=None, environment=None):
        stdin = {"stdin": subprocess.DEVNULL} if given is None else {"input": given}
        ended = subprocess.run([*map(str, words)], cwd=self.folder, capture_output=True, encoding="utf-8",
                               env={**os.environ, **(environment or {})}, **stdin)
        self.assertEqual(ended.returncode, status, ended.stderr)
        return ended

    def assert_refused(self, tool, *words, says, given=None, environment=None):
        """Wants status 1, one line on standard error with the text `says`, nothing written, and the folder as it was."""
        before = self.contents()
        ended = self.run_tool(tool, *words, status=1, given=given, environment=environment)
        rest = "" if says.endswith("\n") else ".*\n"
        assert re.fullmatch(f"{tool}: .*{re.escape(says)}{rest}", ended.stderr), ended.stderr
        assert (ended.stdout, self.contents()) == ("", before)

    def contents(self):
        return {path: path.read_bytes() for path in self.folder.rglob("*") if path.is_file()}

    def write(self, name, text):
        path = self.folder / name
        path.write_text(text, encoding="utf-8")
        return path


def run_python(code, *words, folder=None, status=0, **environment):
    """Runs code in a process of its own, which finds the packages, and wants the status."""
    environment = {**os.environ, "PYTHONPATH": str(PYTHON), "OPENBLAS_NUM_THREADS": "1", **environment}
    ended = subprocess.run([sys.executable, "-P", "-c", code, *words], cwd=folder, env=environment, capture_output=True, text=True)
    assert ended.returncode == status, ended.stderr
    return ended


def contrast(*colours: str) -> float:
    """The ratio of two colours, by the Web Content Accessibility Guidelines."""
    parts = [[int(colour[place : place + 2], 16) / 255 for place in (1, 3, 5)] for colour in colours]
    linear = [[part / 12.92 if part <= 0.04045 else ((part + 0.055) / 1.055) ** 2.4 for part in some] for some in parts]
    low, high = sorted(0.2126 * red + 0.7152 * green + 0.0722 * blue for red, green, blue in linear)
    return (high + 0.05) / (low + 0.05)


def is_running(number: int) -> bool:
    """Whether a process runs; one that has ended, and that its parent hasn't waited for, doesn't."""
    try:
        return pathlib.Path(f"/proc/{number}/stat").read_text().rpartition(")")[2].split()[0] != "Z"
    except OSError:
        return False


def end(process):
    process.kill()
    process.wait()
