"""What the tests add to pytest: those that wait begin first, what is optional is left out, the last line counts all, and a test
that isn't interrupted at its limit ends the run."""
import faulthandler
import os
import subprocess

import pytest
from kit import optional

# Tests that mostly wait, or take longest: each begins in a worker of its own, before all others.
FIRST = ["AttackTests", "ReplacedTests", "test_dask.py", "test_web.py", "test_page.py"]
# The limit of tests that draw: an hour, and none if DRAWS says how many.
DRAWN = pytest.mark.timeout(0 if os.environ.get("DRAWS") else 3600)


@pytest.fixture
def run(tmp_path):
    """Runs a program in the test's folder, and returns what it says on standard error."""

    def run_program(*words, status=0):
        ended = subprocess.run([*map(str, words)], cwd=tmp_path, capture_output=True, text=True, stdin=subprocess.DEVNULL)
        assert ended.returncode == status, ended.stderr
        return ended.stderr

    return run_program


@pytest.fixture
def write(tmp_path, monkeypatch):
    """Writes a text file of the test's folder, in which the test runs."""
    monkeypatch.chdir(tmp_path)
    return lambda name, text: (tmp_path / name).write_text(text, encoding="utf-8")


def pytest_configure(config):
    config.addinivalue_line("markers", "needs(program): without this program of tests/optional.txt the test is left out")
    config.standard_error = os.dup(2)  # (which pytest takes for each test)


@pytest.hookimpl(hookwrapper=True)
def pytest_timeout_set_timer(item, settings):
    """No alarm interrupts code in C, nor a test that takes the alarm for itself: after twice its limit the process ends, with the
    stacks of all threads."""
    yield
    faulthandler.dump_traceback_later(2 * settings.timeout, exit=True, file=item.config.standard_error)


@pytest.hookimpl(hookwrapper=True)
def pytest_timeout_cancel_timer():
    yield
    faulthandler.cancel_dump_traceback_later()


@pytest.hookimpl(trylast=True)
def pytest_collection_modifyitems(items):
    for item in items:
        if item.get_closest_marker("hypothesis"):
            item.add_marker(DRAWN)
    items.sort(key=lambda item: next((at for at, name in enumerate(FIRST) if name in item.nodeid), len(FIRST)))


@pytest.hookimpl(tryfirst=True)
def pytest_runtest_setup(item):
    for marker in item.iter_markers("needs"):
        package = optional.lacking(*marker.args)
        if package:
            item.user_properties.append(("needs", package))
            pytest.skip(f"needs {package}")


@pytest.hookimpl(hookwrapper=True, tryfirst=True)
def pytest_sessionfinish(session):
    """The last lines, once pytest has printed all of its own. Another test that is skipped has failed, and none at all is a failure."""
    yield
    if hasattr(session.config, "workerinput") or session.config.option.collectonly:
        return
    reporter = session.config.pluginmanager.get_plugin("terminalreporter")
    ended = {kind: {report.nodeid for report in reporter.stats.get(kind, [])} for kind in ("passed", "failed", "error", "skipped")}
    skipped = reporter.stats.get("skipped", [])
    lacking = {report.nodeid: package for report in skipped for key, package in report.user_properties if key == "needs"}
    failed = ended["failed"] | ended["error"] | ended["skipped"] - lacking.keys()
    passed = ended["passed"] - failed - lacking.keys()
    for test, package in sorted(lacking.items()):
        reporter.write_line(optional.left_out(f"python/{test}", package))
    reporter.write_line(f"python/tests/run: {len(passed)} passed, {len(failed)} failed")
    if failed or not passed or session.exitstatus:
        session.exitstatus = pytest.ExitCode.TESTS_FAILED
