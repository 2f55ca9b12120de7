"""Tests of the launcher: each command has a file in tools/, and no module of the working folder is taken."""
import os
import subprocess

from service_case import ServiceCase
from tool_case import PYTHON, TOOLS, ToolCase

from domethyme_launcher import COMMANDS

LAUNCHER = PYTHON / "domethyme_launcher.py"
TAKEN = "raise SystemExit('a module of the working folder was taken')\n"


class LauncherTests(ToolCase):
    def test_each_command_has_a_file(self):
        started = f"/../{LAUNCHER.relative_to(PYTHON.parent)}"
        files = [path.name for path in TOOLS.iterdir() if path.is_file() and started in path.read_text(encoding="utf-8")]
        self.assertEqual(sorted(name.removeprefix("domethyme-") for name in files), sorted(COMMANDS))

    def test_tools_by_their_names(self):
        for name in ("domethyme-to-network", "to_network"):
            (self.folder / name).symlink_to(LAUNCHER)
            said = self.run_program([self.folder / name, "--help"]).stdout
            self.assertRegex(said, rf"(?s)^usage: {name} .*\nExit status: .*\n\nexamples:\n  {name} ")
        self.assertIn("usage: draw ", self.run_program([LAUNCHER, "draw", "--help"]).stdout)
        for words in ([LAUNCHER], [LAUNCHER, "drew"]):
            ended = self.run_program(words, status=2)
            self.assertIn("there are build_converter, draw", ended.stderr)

    def test_a_package_that_is_missing(self):
        (self.folder / "elsewhere").mkdir()
        self.write("elsewhere/scipy.py", "raise ModuleNotFoundError(name='scipy')\n")
        told = self.run_tool("osm_to_gr", "--help", status=1, environment={"PYTHONPATH": str(self.folder / "elsewhere")})
        self.assertIn("osm_to_gr: Python's module scipy", told.stderr)


class FolderTests(ServiceCase):
    def test_no_module_of_the_working_folder_is_taken(self):
        for name in ("domethyme", "domethyme_service", "domethyme_tools", "numpy", "gunicorn", "json"):
            self.write(f"{name}.py", TAKEN)
        self.addCleanup(os.chdir, os.getcwd())
        os.chdir(self.folder)
        self.assertEqual(subprocess.run([TOOLS / "routes", "--help"], stdout=subprocess.DEVNULL).returncode, 0)
        self.serve("--workers", "4", "--network", self.folder / "v")
        self.assertEqual(self.ask("/health")[0], 200)
