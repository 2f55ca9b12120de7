"""Tests of --scheduler: routes and table by workers of Dask on the loopback, which may be killed, or have other files."""
import contextlib
import logging
import os
import pathlib
import random
import shutil
import signal
import subprocess
import time

import pytest
from draws import run_tool
from tool_case import PYTHON, SECONDS, TAKES_SIGNALS, TOOLS, VILLAGE, end

import domethyme
from domethyme_tools import routes, table

# How long Dask tries to connect.
TIMEOUT = "DASK_DISTRIBUTED__COMM__TIMEOUTS__CONNECT"
# What a worker loads where a test has to know or to choose when a trip is answered: it writes its process to `begun`, and waits
# while `hold` is there.
HELD = """
import os, time
from domethyme import Hierarchy
ask = Hierarchy.asked = getattr(Hierarchy, "asked", Hierarchy.directions)  # (Dask loads this twice)

def directions(self, places, **options):
    with open("{folder}/begun", "a") as file:
        file.write(f"{{os.getpid()}}\\n")
    while os.path.exists("{folder}/hold"):
        time.sleep(0.02)
    return ask(self, places, **options)

Hierarchy.directions = directions
"""
ROUTES = "net", "net.rch", "trips.csv", "-o", "out.geojson"


@pytest.fixture(scope="module")
def made(tmp_path_factory):
    """A folder with the village's network and 1,000 trips, of which some have no path, and what one process makes of them."""
    folder, draw = tmp_path_factory.mktemp("made"), random.Random(3)
    with contextlib.chdir(folder):
        run_tool("osm_to_gr", VILLAGE, "net", "--keep-islands")
        domethyme.prepare("net.gr", "net.rch", workers=1).close()
        places = [f"{draw.uniform(-0.005, 0.02):.6f},{draw.uniform(-0.001, 0.005):.6f}" for _ in range(1000)]
        rows = (f"{row},{one},{other}\n" for row, (one, other) in enumerate(zip(places, reversed(places))))
        (folder / "trips.csv").write_text("trip,from_lon,from_lat,to_lon,to_lat\n" + "".join(rows))
        (folder / "places.csv").write_text("lon,lat\n" + "".join(f"{place}\n" for place in places[:100]))
        run_tool("routes", *ROUTES)
        os.rename("out.geojson", "wanted")
    return folder


class Cluster:
    """The test's folder, with links to the files of `made`, and programs that run in it beside the test."""

    def __init__(self, folder: pathlib.Path, opened: contextlib.ExitStack) -> None:
        self.folder, self.opened, self.call = folder, opened, None
        (folder / "held.py").write_text(HELD.format(folder=folder))

    def start(self, words, log, folder=".", **environment):
        """A program in a folder below the test's, its output in a file, that is killed at the end."""
        with open(self.folder / log, "wb") as file:
            process = subprocess.Popen(
                [*TAKES_SIGNALS, *map(str, words)], cwd=self.folder / folder, stdin=subprocess.DEVNULL, stdout=file, stderr=file,
                env={**os.environ, "PYTHONPATH": str(PYTHON), **environment}
            )
        self.opened.callback(end, process)
        return process

    def dask(self, *words, log, **more):
        """A scheduler or a worker, which finds the others by the scheduler's file."""
        file = "--scheduler-file", self.folder / "scheduler.json", "--host", "127.0.0.1", "--no-dashboard"
        return self.start(["/usr/bin/dask", *words, *file], log, **more)

    def scheduler(self):
        process = self.dask("scheduler", "--port", 0, log="scheduler")
        self.until((self.folder / "scheduler.json").exists)
        return process

    def worker(self, name, *words, **more):
        """A worker of one thread that the scheduler knows."""
        local = "--name", name, "--nthreads", 1, "--no-nanny", "--local-directory", self.folder / "workers"
        process = self.dask("worker", *local, *words, log=name, **more)
        self.until(lambda: "Registered to" in self.text(name))
        return process

    def held_worker(self, name):
        return self.worker(name, "--preload", self.folder / "held.py")

    def routes(self, *words, **environment):
        """The call that the scheduler answers; what it says goes to the file `said`."""
        self.call = self.start([TOOLS / "routes", *(words or ROUTES), "--scheduler", "scheduler.json"], "said", **environment)
        return self.call

    def hold(self):
        (self.folder / "hold").touch()
        self.opened.callback((self.folder / "hold").unlink, missing_ok=True)

    def text(self, name):
        path = self.folder / name
        return path.read_text() if path.exists() else ""

    def until(self, is_so):
        """Waits until it is so, while the call runs; that it doesn't wait for ever is all that the time is for."""
        last = time.monotonic() + SECONDS
        while not is_so():
            assert time.monotonic() < last and (self.call is None or self.call.poll() is None), self.text("said")
            time.sleep(0.02)

    def until_begun(self, process):
        """Waits until a worker answers a trip."""
        self.until(lambda: f"{process.pid}\n" in self.text("begun"))

    def assert_ends(self, run, status, says=""):
        """Wants the status, what is said, and the routes of one process, or after a failure the older file and no other."""
        assert run.wait(SECONDS) == status, self.text("said")
        assert self.text("said") == says
        assert self.text("out.geojson") == (self.text("wanted") if status == 0 else "as it was\n")
        assert not list(self.folder.glob("out.geojson.*"))


@pytest.fixture
def cluster(made, tmp_path, monkeypatch):
    monkeypatch.chdir(tmp_path)
    for path in made.iterdir():
        (tmp_path / path.name).symlink_to(path)
    (tmp_path / "out.geojson").write_text("as it was\n")
    with contextlib.ExitStack() as opened:
        yield Cluster(tmp_path, opened)


@pytest.fixture
def two_workers(cluster):
    cluster.scheduler()
    for name in ("one", "two"):
        cluster.worker(name)
    return cluster


def test_routes_by_two_workers(two_workers):
    two_workers.assert_ends(two_workers.routes(), 0)


TABLE = "table", "net", "net.rch", "places.csv", "places.csv"


@pytest.mark.parametrize("words, outputs", [
    (["routes", *ROUTES[:4], "steps.geojson", "--steps"], ["steps.geojson"]), (["routes", *ROUTES[:4], "out.csv"], ["out.csv"]),
    ([*TABLE, "-o", "t.npy", "--metres", "m.csv"], ["t.npy", "m.csv"]), ([*TABLE, "-o", "t.csv"], ["t.csv"]),
])
def test_small_blocks(two_workers, monkeypatch, words, outputs):
    """Steps, tables, and routes as a table, to the byte."""
    found = []
    for scheduler in ([], ["--scheduler", "scheduler.json"]):
        run_tool(*words, *scheduler)
        found.append([pathlib.Path(name).read_bytes() for name in outputs])
        monkeypatch.setattr(table, "CELLS", 700)
        monkeypatch.setattr(routes, "TRIPS_PER_BLOCK", 17)
    logging.disable(logging.NOTSET)
    assert found[0] == found[1]


def test_processes_of_this_machine(cluster):
    two = ",".join(map(str, sorted(os.sched_getaffinity(0))[:2]))
    run = cluster.start(["/usr/bin/taskset", "-c", two, TOOLS / "routes", *ROUTES, "--scheduler", "local"], "said")
    cluster.assert_ends(run, 0)


def test_a_worker_that_is_killed(cluster):
    """Another one, which comes later, answers its blocks."""
    cluster.hold()
    cluster.scheduler()
    run = cluster.routes()
    cluster.until(lambda: cluster.text("said") == "routes: there is no worker yet: waiting for one\n")
    first = cluster.held_worker("first")
    cluster.until_begun(first)
    end(first)
    late = cluster.held_worker("late")
    cluster.until_begun(late)
    os.unlink("hold")
    cluster.assert_ends(run, 0, "routes: there is no worker yet: waiting for one\n")


def test_workers_that_are_all_killed(cluster):
    """While they have the one block that there is."""
    (cluster.folder / "few.csv").write_text("".join(cluster.text("trips.csv").splitlines(keepends=True)[:10]))
    cluster.hold()
    cluster.scheduler()
    worker = cluster.held_worker("first")
    run = cluster.routes("net", "net.rch", "few.csv", "-o", "out.geojson")
    for name in ("second", "third", None):
        cluster.until_begun(worker)
        end(worker)
        if name:
            worker = cluster.held_worker(name)
    cluster.assert_ends(run, 1, "routes: 3 workers died while they had one block, the last one was third\n")


@pytest.mark.parametrize("file", ["net.rch", "net.net"])
@pytest.mark.parametrize("is_there", [True, False])
def test_a_worker_with_another_file(cluster, file, is_there):
    """Or without it: by a path that leads to a file of its own for each process."""
    (cluster.folder / "other").mkdir()
    for name in ("net.net", "net.rch"):
        if name != file or is_there:
            (cluster.folder / "other" / name).write_bytes((cluster.folder / name).read_bytes() + b"x" * (name == file))
    cluster.scheduler()
    cluster.worker("stale", folder="other")
    run = cluster.routes("/proc/self/cwd/net", "/proc/self/cwd/net.rch", *ROUTES[2:])
    cluster.assert_ends(run, 1, f"routes: worker stale: /proc/self/cwd/{file}: isn't the file with which the call began\n")


def test_a_worker_of_another_version(cluster):
    for name in ("domethyme", "domethyme_tools"):
        shutil.copytree(PYTHON / name, cluster.folder / "python" / name, ignore=shutil.ignore_patterns("__pycache__"))
    with open("python/domethyme/limits.py", "a", encoding="utf-8") as file:
        file.write("# another version\n")
    cluster.scheduler()
    cluster.worker("older", PYTHONPATH=str(cluster.folder / "python"))
    cluster.assert_ends(cluster.routes(), 1, "routes: worker older: has another version of these tools\n")


def test_an_interrupt(cluster):
    cluster.hold()
    cluster.scheduler()
    worker = cluster.held_worker("one")
    run = cluster.routes()
    cluster.until_begun(worker)
    run.send_signal(signal.SIGINT)
    cluster.assert_ends(run, 130)


def test_the_scheduler_goes_away(cluster):
    cluster.hold()
    scheduler = cluster.scheduler()
    worker = cluster.held_worker("one")
    run = cluster.routes(**{TIMEOUT: "10s"})
    cluster.until_begun(worker)
    end(scheduler)
    assert run.wait(SECONDS) == 1
    assert cluster.text("said").startswith("routes: the scheduler scheduler.json doesn't answer: ")
    assert cluster.text("said").count("\n") == 1


def test_no_scheduler_and_no_dask(cluster):
    (cluster.folder / "elsewhere").mkdir()
    (cluster.folder / "elsewhere/distributed.py").write_text("raise ModuleNotFoundError(name='distributed')\n")
    for environment, says in (({TIMEOUT: "1s"}, "the scheduler tcp://127.0.0.1:1 doesn't answer: "),
                              ({"PYTHONPATH": str(cluster.folder / "elsewhere")}, "Python's module distributed is missing: ")):
        run = cluster.start([TOOLS / "routes", *ROUTES, "--scheduler", "tcp://127.0.0.1:1"], "said", **environment)
        assert run.wait(SECONDS) == 1
        assert cluster.text("said").startswith(f"routes: {says}") and cluster.text("said").count("\n") == 1
        assert cluster.text("out.geojson") == "as it was\n"
