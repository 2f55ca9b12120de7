"""Tests of a hierarchy in this process: threads, forks, interrupts, files that are refused, and what can't be found."""
import collections
import concurrent.futures
import contextlib
import os
import signal
import unittest.mock

import pytest
from kit.hierarchy_file import NONE, spelled
from tool_case import run_python

import domethyme
from domethyme import library
from domethyme.router import Router

pytestmark = pytest.mark.timeout(300)

# Asks a far question in each way, with 2 MB for it and then with as much as it takes, in a process that has freed nothing before.
REFUSED = """
import ctypes, resource, sys
import domethyme

hierarchy, last = domethyme.Hierarchy(sys.argv[1]), int(sys.argv[2])
assert hierarchy.length(1, 2) is None and hierarchy.lengths([[1, 2]])[0] == -1 == hierarchy.matrix([1], [2])[0, 0]
for ask in (
    lambda: hierarchy.length(0, last),
    lambda: hierarchy.route(0, last).length,
    lambda: hierarchy.between({0: 0}, {last: 0}).length,
    lambda: int(hierarchy.lengths([[0, last]])[0]),
    lambda: int(hierarchy.matrix([0], [last])[0, 0]),
):
    ctypes.CDLL(None).malloc_trim(0)
    with open("/proc/self/statm") as sizes:
        now = int(sizes.read().split()[0]) * resource.getpagesize()
    soft, hard = resource.getrlimit(resource.RLIMIT_AS)
    resource.setrlimit(resource.RLIMIT_AS, (now + (2 << 20), hard))
    try:
        print(ask())
    except domethyme.OutOfMemory as error:
        print("refused", error.status)
    resource.setrlimit(resource.RLIMIT_AS, (soft, hard))
    print(ask())
"""
# One question at a time without numpy, with the keys a to h, and what needs more.
WITHOUT_NUMPY = """
import sys
import threading
sys.modules.update(dict.fromkeys(["numpy", "scipy", "pandas"]))
import domethyme
from domethyme import *
assert Hierarchy is domethyme.Hierarchy and {"Network", "Routes"} <= set(dir(domethyme))
with domethyme.Hierarchy(*sys.argv[1:], keys={key: node for node, key in enumerate("abcdefgh")}) as hierarchy:
    print(hierarchy.length("a", "c"), hierarchy.route("a", "c").nodes, hierarchy.between(["a"], {"b": 7}).length)
    for attempt in (lambda: hierarchy.lengths([]), lambda: domethyme.Routes, lambda: domethyme.Graph([], [], [])):
        try:
            attempt()
        except ImportError as error:
            print(error)
"""


@pytest.fixture(scope="module")
def path(tmp_path_factory):
    """The file of a ring of 60 nodes, each of which leads to the next by 1."""
    file = tmp_path_factory.mktemp("ring") / "ring.rch"
    domethyme.Graph([*range(60)], [*range(1, 60), 0], [1] * 60).prepare(file, workers=1).close()
    return file


@pytest.fixture
def ring(path):
    with domethyme.Hierarchy(path) as hierarchy:
        yield hierarchy


def test_a_route_longer_than_its_room(tmp_path):
    """Of 5,000 nodes, from one and from several."""
    nodes = 5000
    with domethyme.Graph(range(nodes - 1), range(1, nodes), [2] * (nodes - 1)).prepare(tmp_path / "line.rch") as hierarchy:
        assert hierarchy.route(0, nodes - 1).nodes == [*range(nodes)]
    with domethyme.Hierarchy(tmp_path / "line.rch") as hierarchy:
        found = hierarchy.between({1: 3, 0: 6}, {nodes - 1: 7})
        assert (found.length, found.nodes) == (2 * (nodes - 2) + 10, [*range(1, nodes)])
        assert hierarchy.routes([[0, nodes - 1]] * 3)[2].tolist() == [*range(nodes)]


def test_threads_ask_at_once(ring):
    """Each by a searcher that no other has."""
    with concurrent.futures.ThreadPoolExecutor(8) as pool:
        one = [pool.submit(ring.length, number % 60, (number * 7) % 60) for number in range(400)]
        many = [pool.submit(ring.lengths, [[0, number]] * 2000) for number in range(20)]
        assert [run.result() for run in one] == [(number * 6) % 60 for number in range(400)]
        assert [run.result().tolist() for run in many] == [[number] * 2000 for number in range(20)]
        with ring._router.searcher() as first, ring._router.searcher() as second:
            assert pool.submit(ring.length, 0, 7).result() == 7 and first is not second
            assert (first.length(1, 3), second.length(1, 4)) == (2, 3)


def test_a_fork_while_searchers_are_taken(ring):
    """The child asks by a searcher of its own; where one was being made, which is as another thread left it, it is closed."""
    def child_fails():
        child = os.fork()
        if child == 0:
            try:
                os._exit(0 if ring.length(0, 1) == 1 else 1)
            except ValueError:
                os._exit(2)
        return os.waitstatus_to_exitcode(os.waitpid(child, 0)[1])

    with ring._router.searcher():
        assert child_fails() == 0
    with ring._router._making:
        assert child_fails() == 2
    assert ring.length(0, 1) == 1


def test_an_interrupt_loses_no_searcher(ring):
    """An alarm that raises between any two steps of Python: the next question is answered, and lost searchers are closed."""
    def alarm(*_):
        raise TimeoutError

    old, counts = signal.signal(signal.SIGALRM, alarm), collections.Counter()
    try:
        for number in range(300):
            try:
                signal.setitimer(signal.ITIMER_REAL, 0.0005 + number % 7 / 10000)
                while True:
                    ring.length(0, 7)
                    ring.route(0, 7)
            except TimeoutError:
                counts["interrupts"] += 1
            finally:
                signal.setitimer(signal.ITIMER_REAL, 0)
            assert ring.length(0, 8) == 8
    finally:
        signal.signal(signal.SIGALRM, old)
    assert counts["interrupts"] == 300 and len(ring._router._made) < 5


def test_a_searcher_that_is_lost_in_the_hands_of_an_interrupt(ring):
    router = ring._router
    assert router._acquire() is not None
    assert (router.length(0, 7), len(router._made)) == (7, 1)
    lost = router._acquire()
    assert (router.length(0, 7), len(router._made)) == (7, 2)
    del lost
    assert len(router._made) == 1


def test_no_memory_for_a_searcher(ring):
    router = ring._router
    no_memory = unittest.mock.patch.object(type(router._first), "clone", return_value=None)
    for ask in (lambda: router.length(0, 7), router.clone):
        with no_memory, pytest.raises(domethyme.OutOfMemory, match="ring.rch: ") as caught:
            ask()
        assert caught.value.status == 6
    with router.searcher() as searcher, no_memory, unittest.mock.patch.object(domethyme.router, "PATIENCE", 0.05):
        with pytest.raises(domethyme.OutOfMemory):
            router.length(0, 7)
        assert searcher.length(0, 8) == 8


def test_a_question_that_is_refused_memory(tmp_path):
    """A search that comes to 500,000 nodes raises OutOfMemory where there are 2 MB, and answers once there is more."""
    last = 499_999
    links = [(0, node, 2, 1, NONE) for node in range(1, last)] + [(0, last, 1, 1, NONE)]
    (tmp_path / "fan.rch").write_bytes(spelled(range(last + 1), links, 2 * last))
    ended = run_python(REFUSED, tmp_path / "fan.rch", str(last))
    assert (ended.stdout.split(), ended.stderr) == (["refused", "6", "1"] * 5, "")


def test_bytes_that_are_refused(ring, path, tmp_path):
    """By the library, and by the head of their file before."""
    whole, file, of_size = path.read_bytes(), tmp_path / "f.rch", r"has \d+ bytes, and its head"
    for data, of_library, of_head in (
        (b"", "end too early", "is no file"), (b"X" + whole[1:], "no hierarchy file", "is no file"),
        (whole[:-1], "end too early", of_size), (whole + b"x", "follow the last link", of_size),
        (whole[:24] + whole[28:32] * 2 + whole[32:], "two nodes have one rank", "two nodes have one rank"),
    ):
        file.write_bytes(data)
        for says, read in ((of_library, lambda: Router(data, "f.rch")), (of_head, lambda: domethyme.Hierarchy(file))):
            with pytest.raises(domethyme.HierarchyError, match=f"f.rch: .*{says}") as caught:
                read()
            assert caught.value.status == 4
    assert (ring.nodes, ring.links) == (60, (len(whole) - 24 - 240) // 24)


def test_a_file_of_no_graph(tmp_path):
    """A route by it would go through a node twice; others are answered."""
    links = [(0, 1, 2, 2, 3), (0, 3, 1, 1, NONE), (1, 2, 2, 2, 3), (1, 3, 1, 1, NONE), (3, 1, 1, 1, NONE), (3, 2, 1, 1, NONE)]
    (tmp_path / "x.rch").write_bytes(spelled([1, 3, 2, 0], links, 100))
    with domethyme.Hierarchy(tmp_path / "x.rch") as hierarchy:
        for ask in (lambda: hierarchy.route(0, 2), lambda: hierarchy.routes([[0, 2]])):
            with pytest.raises(domethyme.HierarchyError, match="x.rch: the route would repeat a node"):
                ask()
        assert hierarchy.route(0, 1).nodes == [0, 3, 1]


def test_where_the_library_is_looked_for(tmp_path, monkeypatch):
    """As it is named, in the package, then in the clone, then by the system."""
    inside, built, told, named = (tmp_path / f"{name}.so" for name in ("inside", "built", "told", "named"))
    monkeypatch.delenv("DOMETHYME_LIBRARY", raising=False)
    with unittest.mock.patch.multiple(library, INSIDE=inside, BUILT=built):
        for file in (tmp_path / "none", built, inside):
            file.write_text("")
            assert library.find_library() == ("libdomethyme.so.1" if file.stem == "none" else str(file))
    for file in (told, named):
        file.write_text("")
    monkeypatch.setenv("DOMETHYME_LIBRARY", str(told))
    assert (library.find_library(), library.find_library(named)) == (str(told), str(named))
    with contextlib.chdir(tmp_path):
        assert library.find_library("named.so") == f"{os.getcwd()}/named.so"
    for place, says in ((tmp_path, "is no file of a library"), (tmp_path / "no.so", "no.so: No such file or directory")):
        monkeypatch.setenv("DOMETHYME_LIBRARY", str(place))
        with pytest.raises(domethyme.LibraryNotFound, match=says):
            library.find_library()


def test_without_numpy(path):
    """One question at a time needs Python alone; what needs more says so by ImportError."""
    says = "this call needs numpy, which is missing: pip install 'domethyme[arrays]', or Debian's python3-numpy\n"
    assert run_python(WITHOUT_NUMPY, path).stdout == "2 ['a', 'b', 'c'] 8\n" + 3 * says
    without_pandas = 'import sys\nsys.modules["pandas"] = None\nfrom domethyme import *\nprint(Network.__name__, Routes.__name__)'
    assert run_python(without_pandas).stdout == "Network Routes\n"
