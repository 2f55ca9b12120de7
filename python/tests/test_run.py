"""What ends a run of the tests: its last line, its status, what is left out, and what is printed of a test that hangs."""
import shutil
import subprocess
import sys

import pytest
from tool_case import PYTHON, ROOT

pytestmark = pytest.mark.timeout(300)
PASSES, NEEDS = "def test_a(): pass\n", "@pytest.mark.needs('{}')\nclass Test{}:\n def test_it(self): pass\n"
# A test of a limit of a second; and a body of which no signal interrupts the second step, which takes a lock again.
HANGS = "@pytest.mark.timeout(1)\ndef test_b():\n"
LOCKED = " lock = ctypes.create_string_buffer(64)\n for _ in range(2): ctypes.CDLL(None).pthread_mutex_lock(lock)\n"


@pytest.mark.parametrize("text, counts, status, told", [
    (PASSES + "def test_b(): assert True", "2 passed, 0 failed", 0, ""),
    (PASSES + "def test_b(): assert False", "1 passed, 1 failed", 1, ""),
    (PASSES + "def test_b(): pytest.skip('needs its-package')", "1 passed, 1 failed", 1, ""),
    (PASSES + "@pytest.mark.needs('of no list')\ndef test_b(): pass", "1 passed, 1 failed", 1, ""),
    (PASSES + "@pytest.fixture\ndef f():\n yield\n assert False\ndef test_b(f): pass", "1 passed, 1 failed", 1, ""),
    ("import no_such_module\ndef test_a(): pass", "0 passed, 1 failed", 1, ""), ("", "0 passed, 0 failed", 1, ""),
    (NEEDS.format("sh", "A") + NEEDS.format("sh", "B(TestA)") + NEEDS.format("no-such-program", "C"), "2 passed, 0 failed",
     0, "left out: python/tests/test_it.py::TestC::test_it needs its-package\npython/tests/run: "),
    (HANGS + " threading.Thread(target=time.sleep, args=[9], name='beside', daemon=True).start()\n time.sleep(100)\n" + PASSES,
     "1 passed, 1 failed", 1, "Stack of beside"),
    (PASSES + HANGS + LOCKED, "1 passed, 1 failed", 1, "in test_b\n"),
], ids=["passes", "fails", "skipped", "needs what isn't listed", "fails at its end", "isn't imported", "none", "left out", "hangs",
        "hangs in C"])
def test_last_line(tmp_path, text, counts, status, told):
    """Runs pytest as tests/run does, by the same settings, on a file of tests with this text."""
    (tmp_path / "tests/kit").mkdir(parents=True)
    shutil.copy(PYTHON / "pyproject.toml", tmp_path)
    shutil.copy(PYTHON / "tests/conftest.py", tmp_path / "tests")
    shutil.copy(ROOT / "tests/kit/optional.py", tmp_path / "tests/kit")
    (tmp_path / "tests/optional.txt").write_text("# A list.\nsh dash\nno-such-program its-package\n")
    (tmp_path / "tests/test_it.py").write_text(f"import ctypes\nimport threading\nimport time\nimport pytest\n{text}\n")
    ended = subprocess.run([sys.executable, "-m", "pytest", "-q", "-n", "1"], cwd=tmp_path, capture_output=True, text=True)
    said = ended.stdout + ended.stderr
    assert ended.stdout.splitlines()[-1] == f"python/tests/run: {counts}" and told in said, said
    assert ended.returncode == status
