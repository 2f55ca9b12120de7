"""Tests of the package domethyme: what goes through arrays, files and the program, and what nobody can mean."""
import functools
import json
import re
import subprocess
import tracemalloc
import types
import typing
from unittest import mock

import numpy as np
import pandas as pd
import pytest
from draws import drawn
from hypothesis import given
from hypothesis import strategies as st
from tool_case import run_python

import domethyme
from domethyme import batch, errors, find_program, graphs

pytestmark = pytest.mark.timeout(300)

# Four nodes: two ways from 0 to 2, of 3 + 4 = 7 and of 9; back from 2 to 0 by 5; node 3 leads to 0 by 6, and nothing to it.
SQUARE = ([0, 1, 0, 2, 3], [1, 2, 2, 0, 0], [3, 4, 9, 5, 6])
LARGE = [1 << 40, -5, 7, 9]


@pytest.fixture(scope="module")
def square(tmp_path_factory):
    """The hierarchy of SQUARE."""
    with domethyme.Graph(*SQUARE).prepare(tmp_path_factory.mktemp("square") / "square.rch") as hierarchy:
        yield hierarchy


@drawn(200)
@given(st.lists(st.decimals(0, 40_000, places=2), min_size=1, max_size=4))
def test_scaled_weights(values):
    """Hundredths are integers, whatever their floats are."""
    graph = domethyme.Graph.from_keys(range(len(values)), range(1, len(values) + 1), [float(value) for value in values], scale=100)
    assert graph.weights.tolist() == [int(100 * value) for value in values]


@drawn(200)
@given(
    st.sampled_from([*range(1, 11), -9]),
    st.lists(st.tuples(st.booleans(), st.sampled_from(["a", "b  c", "\xe9\udce9"])), max_size=4), st.sampled_from(["", "net.rch"])
)
def test_errors_of_what_the_program_says(status, lines, file):
    """The message is the first line that is no warning, and others explain it, in their order."""
    said = "".join(f"{'routecli: warning: ' * is_warning}{text}\n" for is_warning, text in lines)
    at = next((row for row, (is_warning, _) in enumerate(lines) if not is_warning), None)
    texts = [" ".join(text.split()).replace("\udce9", "\ufffd") for _, text in lines]
    of_file = f"{file}: " if file and status == 4 else ""
    wanted = f"routecli ended with status {status}" if at is None else of_file + texts.pop(at)
    kinds = {3: errors.GraphError, 4: errors.HierarchyError, 6: errors.OutOfMemory, 7: errors.ReadWriteError}
    kind = kinds.get(status, errors.ProgramError)
    error = errors.error_from_exit(status, said.encode("utf-8", "surrogateescape"), file)
    if status < 0:
        kind, wanted, status, texts = errors.ProgramStopped, "routecli was ended by signal 9", 1, []
    assert (type(error), error.message, error.status, error.explanation) == (kind, wanted, status, texts)


@pytest.mark.parametrize("options, words", [
    ({}, "balanced"), ({"switch_order_after": 2}, "depth --stint 2"), ({"switch_order_after": 0}, "depth --stint 0"),
    ({"workers": 0, "seed": 0}, "balanced --workers 0 --seed 0"),
    ({"order": "edges", "seed": 5, "sequential": True}, "edges --seed 5 --sequential"),
])
def test_options_of_prepare(tmp_path, options, words):
    domethyme.write_graph(tmp_path / "a.gr", *SQUARE)
    with mock.patch.object(graphs, "run_making", side_effect=KeyError) as run, pytest.raises(KeyError):
        domethyme.prepare(tmp_path / "a.gr", "a.rch", **options)
    assert run.call_args.args[1:3] == (f"prepare --order {words}".split(), [f"{tmp_path}/a.gr", "a.rch"])


def test_orders_are_those_of_the_program(tmp_path):
    said = subprocess.run([find_program(), "prepare", "--help"], check=True, stdout=subprocess.PIPE, text=True).stdout
    offered = re.findall(r"possible values: ([^]]*)\]", said)[0].split(", ")
    assert list(typing.get_args(domethyme.graphs.Order)) == offered
    for options in (*({"order": order} for order in offered), {"order": "edges", "workers": 1, "seed": 7, "switch_order_after": 2}):
        with domethyme.Graph(*SQUARE).prepare(tmp_path / "a.rch", **options) as hierarchy:
            assert hierarchy.length(3, 2) == 13
    with pytest.raises(domethyme.ProgramError, match="--stint takes"):
        domethyme.Graph(*SQUARE).prepare(tmp_path / "a.rch", order="balanced", switch_order_after=2)


def test_renewed(tmp_path):
    """The order is that of the old hierarchy, and the lengths are those of the new weights. The old file may be replaced."""
    domethyme.write_graph(tmp_path / "old.gr", *SQUARE)
    old, new = domethyme.prepare(tmp_path / "old.gr", tmp_path / "old.rch", order="depth", workers=1), tmp_path / "new.rch"
    keys, told = [2**40, 5, 7, 6], []
    sources, targets = ([keys[node] for node in side] for side in SQUARE[:2])
    graph = domethyme.Graph.from_keys(sources, targets, [1, 1, 9, 5, 6])
    assert list(graph.keys) == keys
    with graph.renew(old, new) as hierarchy:
        assert (hierarchy.length(keys[3], keys[2]), hierarchy.length(keys[2], keys[1])) == (8, 6)
    assert len({(tmp_path / f"{name}.rch").read_bytes()[24:40] for name in ("old", "new")}) == 1
    with domethyme.renew(tmp_path / "old.gr", new, new, progress=lambda *now: told.append(now)) as hierarchy:
        assert hierarchy.length(3, 2) == 13 and {(what, nodes) for what, _, nodes in told} <= {("renew", 4)}
    domethyme.write_graph(tmp_path / "more.gr", *SQUARE, nodes=5)
    with pytest.raises(domethyme.WrongHierarchy, match=r"new.rch: wrong: nodes$") as caught:
        domethyme.renew(tmp_path / "more.gr", new, tmp_path / "none.rch")
    assert caught.value.status == 9
    with pytest.raises(domethyme.HierarchyError, match="old.gr: .*BadMagic"):
        domethyme.renew(tmp_path / "old.gr", tmp_path / "old.gr", tmp_path / "none.rch")
    assert not (tmp_path / "none.rch").exists()


def test_names_that_begin_with_a_hyphen(tmp_path):
    """They are names of files, and no options."""
    domethyme.write_graph(tmp_path / "-x.gr", *SQUARE)
    code = "import domethyme as d; d.prepare('-x.gr', '--help').close(); d.check('-x.gr', '--help')"
    assert run_python(f"{code}; print(d.Hierarchy('--help').length(0, 2))", folder=tmp_path).stdout == "7\n"


def test_the_library_is_looked_for_before_the_work(tmp_path):
    """Without it nothing is prepared, and the error is one line that names it once."""
    domethyme.write_graph(tmp_path / "square.gr", *SQUARE)
    (tmp_path / "no.so").write_text("no library")
    code = "import domethyme; domethyme.prepare('square.gr', 'square.rch')"
    ended = run_python(code, folder=tmp_path, status=1, DOMETHYME_LIBRARY=str(tmp_path / "no.so"))
    last = ended.stderr.splitlines()[-1]
    assert re.match(r"domethyme.errors.LibraryNotFound: .*no.so: .*build it by packaging/build-library", last)
    assert (last.count("no.so"), ended.stderr.count("Traceback")) == (1, 1)
    assert not (tmp_path / "square.rch").exists()


def test_all_that_is_public_has_a_docstring():
    others = "Any LATER TYPE_CHECKING need open".split()
    public = {name for name in dir(domethyme) if name[0] != "_" and not isinstance(getattr(domethyme, name), types.ModuleType)}
    assert {*domethyme.__all__, *others} == public
    for name in {*domethyme.__all__} - {"NO_PATH"}:
        found = getattr(domethyme, name)
        assert found.__doc__, name
        for member in vars(found) if isinstance(found, type) else ():
            method = getattr(found, member)
            assert member.startswith("_") or not callable(method) or method.__doc__, f"{name}.{member}"


# Arrays of a graph, and what is said of them.
WRONG_GRAPHS = [
    (([0.0], [1], [1]), "from_nodes have to be integers, and are float64"), (([0], [1], ["x"]), "weights have to be integers"),
    (([0], [1], [-1]), "weights have to be from 0 to 4294967295, and are from -1 to -1"), (([0], [1], [1 << 32]), "weights have"),
    (([0], [-1], [1]), "to_nodes have to be from 0 to 33554431, and are from -1 to -1"), (([0], [2**63], [1]), "to_nodes have to"),
    *((([0], [1], np.array([7], kind)), "weights have to be integers, and are .*ns") for kind in ("m8[ns]", "M8[ns]")),
    (([0], [1 << 25], [1]), "to_nodes have to be .*, and are from 33554432 to"), (([1 << 25], [1], [1]), "from_nodes have to be"),
    (([0], [1, 2], [1]), "as long as one another"), (([[0]], [[1]], [[1]]), "of one dimension"),
    *((([0], [5], [1], nodes), "an integer from 6, by the arcs, to 33554432") for nodes in (5, (1 << 25) + 1, 6.5, "7")),
]


NO_NODES = ("0", 0.0, None, True, np.True_, np.float64(0), np.array([0]), np.array(0.0), np.array([0, 1]), np.zeros((1, 2), int))
NOT_WHOLE = ([0, 2.0], [0.0, np.uint64(2)], np.array([0, 2.0], object), np.array([True, 2], object), [True, 2], [np.True_, 2])
# A method of the square's hierarchy, its arguments, what is said of them, and the key of a NoSuchNode.
WRONG_CALLS = [
    *(("length", (0, node), "nodes 0 to 3", node) for node in (4, -1, np.uint64(1 << 63))),
    *((*each, "is no node") for node in NO_NODES for each in (("route", (node, 0)), ("between", ([node], [0])))),
    *(("between", ([(0, node)], [0]), "must be integers") for node in NO_NODES),
    *(("between", sides, "a node or more") for sides in (([], [0]), ([0], {}))),
    *(("between", sides, "from 0 to 4294967295") for sides in (({0: -1}, [0]), ([0], {0: 1 << 32}))),
    *(("between", (side, [0]), "in a list, of one dimension") for side in (np.zeros((2, 2), int), pd.DataFrame([[3, 5], [0, 9]]))),
    ("between", ({0: 1.5}, [0]), "must be integers, not 1.5"), ("between", ([7], [0]), "nodes 0 to 3", 7),
    ("between", ([0], np.uint32(1)), r"ends are nodes in a list, as \[1\]"), ("between", ([0], None), "ends are nodes in a list"),
    *(("between", (start, [0]), f"starts are nodes in a list, as {re.escape(repr([start]))}") for start in (0, None, np.array(0))),
    *(("routes", (pairs,), "rows of two nodes") for pairs in ([[0, 1, 2]], [0, 1], 5)), ("routes", ([[0.5, 1]],), "integers"),
    *(("lengths", (pairs,), "pairs have to be from 0") for pairs in ([[0, -1]], [[0, 1 << 60]])),
    ("routes", ([[0, 1], [2, 3], [3, 4], [5, 0]],), r"row 2 of the pairs, \[3, 4\], has a node that the hierarchy lacks", 4),
    *((*each, "have to be integers") for nodes in NOT_WHOLE for each in (("matrix", (nodes,)), ("routes", ([[*nodes]],)))),
    *(("lengths", (pd.DataFrame({"from": [0, missing], "to": [1, 1]}, dtype="Int64"),), "integers") for missing in (pd.NA, None)),
    ("matrix", ([0, 4], [1]), "sources have node 4, and the hierarchy has 4", 4), ("matrix", ([0], [1, 4]), "targets have", 4),
    ("matrix", ([-1], [0]), "sources"), ("matrix", ([0], [1 << 32]), "targets"), ("matrix", ([0.5], [1]), "sources"),
    ("matrix", ([[0, 1]], [1]), "sources have to be of one dimension"), ("matrix", ([0], [[1]]), "targets have to be of one"),
]


@pytest.mark.parametrize("method, arguments, says, key", [(*row, None)[:4] for row in WRONG_CALLS])
def test_nodes_that_nobody_can_mean(square, method, arguments, says, key):
    with pytest.raises(ValueError, match=says) as caught:
        getattr(square, method)(*arguments)
    assert getattr(caught.value, "key", None) == key


def test_errors_by_their_kinds(tmp_path):
    graph, file = tmp_path / "bad.gr", tmp_path / "bad.rch"
    graph.write_text("p sp 2 1\na 1 3 5\n")
    missing, few = "No such file or directory", domethyme.Graph([0], [1], [5])
    calls = [(domethyme.prepare, [graph, file]), (domethyme.check, [graph, file]), (domethyme.renew, [graph, file, file]),
             (few.prepare, [file]), (few.renew, [file, file])]
    for kind, message, status, attempt, *explained in [
        (domethyme.GraphError, "routecli: graph: NodeRange line 2", 3, lambda: domethyme.prepare(graph, file), "bad.gr:2: a 1 3 5"),
        (domethyme.ReadWriteError, "routecli: write", 7, lambda: few.prepare(tmp_path / "nowhere/few.rch"), "nowhere"),
        (domethyme.ReadWriteError, f"no.gr: {missing}", 7, lambda: domethyme.prepare("no.gr", file)),
        (domethyme.HierarchyError, f"{graph}: is no file that `routecli prepare` wrote", 4, lambda: domethyme.Hierarchy(graph)),
        (domethyme.HierarchyError, f"{tmp_path}: Is a directory", 7, lambda: domethyme.Hierarchy(tmp_path)),
        (domethyme.HierarchyError, "/dev/null: is no regular file", 7, lambda: domethyme.Hierarchy("/dev/null")),
        (domethyme.HierarchyNotFound, f"{file}: {missing}: `routecli prepare --order balanced {graph} {file}` makes it", 7,
         lambda: domethyme.Hierarchy(file)),
        (FileNotFoundError, f"no: {missing}", 7, lambda: domethyme.Hierarchy("no")),
        *((domethyme.ProgramNotFound, "no: is no program that can be run", 1, functools.partial(call, *files, program="no"))
          for call, files in calls),
    ]:
        with pytest.raises(kind) as caught:
            attempt()
        assert isinstance(caught.value, domethyme.DomethymeError)
        assert isinstance(caught.value, FileNotFoundError) == issubclass(kind, FileNotFoundError)
        assert (caught.value.message, caught.value.status) == (message, status)
        assert str(caught.value) == "\n  ".join([message, *caught.value.explanation])
        assert all(text in caught.value.explanation[0] for text in explained)
    assert [*tmp_path.iterdir()] == [graph]
    kinds = {FileNotFoundError: "HierarchyNotFound LibraryNotFound ProgramNotFound", MemoryError: "OutOfMemory",
             OSError: "ReadWriteError", LookupError: "NoSuchNode", errors.FileError: "MapError NetworkError",
             errors.HierarchyError: "NotProved WrongHierarchy", errors.ProgramError: "ProgramStopped"}
    assert all(base in getattr(errors, kind).__mro__ for base, names in kinds.items() for kind in names.split())


def test_unsigned_numbers_beside_others(square):
    """numpy makes floats of such a list, and of two such columns; and objects of pandas' own integers."""
    mixed, wanted = [np.uint64(0), 2, np.int8(1)], square.matrix(iter([0, 2, 1])).tolist()
    assert square.matrix(mixed).tolist() == square.matrix(np.array(mixed, object)).tolist() == wanted
    frame = pd.DataFrame({"from": np.array([0, 1], np.uint64), "to": [2, 1]})
    for pairs in (frame, frame.astype("Int64"), zip([0, 1], [2, 1])):
        assert square.lengths(pairs).tolist() == [7, 0]
    assert square.routes(frame)[np.uint64(1)].tolist() == [1]
    assert square.between([3] * 20 + [(3, 1)], [2] * 20).length == 13


def test_routes_that_are_equal_or_not_there(square):
    pairs = [[0, 2], [0, 3], [3, 2], [1, 1]]
    routes = square.routes(pairs)
    parts = [routes.lengths, routes.nodes, routes.offsets, routes.pairs]
    assert routes == square.routes(np.array(pairs)) == domethyme.Routes(*parts) != routes[1:]
    assert all(routes != domethyme.Routes(*parts[:place], parts[place] + 1, *parts[place + 1 :]) for place in range(4))
    assert repr(routes) == "<4 routes of 8 nodes>"
    for row in (4, -5):
        with pytest.raises(IndexError, match=f"there is no route {row} among 4"):
            routes[row]


@pytest.mark.parametrize("rows, columns, processors, at_a_time", [
    (1, 1, 4, 512), (10, 10, 4, 51), (100, 100, 4, 25), (1000, 100, 4, 250), (10_000, 100, 4, 256), (1000, 1000, 4, 65),
    (16, 1_000_000, 4, 1), (1, 1 << 25, 64, 1), (100_000, 1, 1, 512),
])
def test_rows_of_a_call(rows, columns, processors, at_a_time):
    with mock.patch.object(batch, "cpu_count", return_value=processors):
        assert batch.rows_at_a_time(rows, columns) == at_a_time


def test_too_many_cells(square):
    """A thousand million of them are refused before there is memory for them."""
    side = np.zeros(31_623, np.int64)
    tracemalloc.start()
    try:
        with pytest.raises(domethyme.OutOfMemory, match="square.rch: a table of 31623 x 31623 lengths has more than 536870912:"):
            square.matrix(side)
        assert tracemalloc.get_traced_memory()[1] < 1 << 22
    finally:
        tracemalloc.stop()
    with mock.patch.object(batch, "MAX_CELLS", 6):
        assert square.matrix([1, 2], [1, 2, 3]).size == 6
        with pytest.raises(domethyme.OutOfMemory) as caught:
            square.matrix([1], [1] * 7)
    assert caught.value.status == 6


@pytest.mark.parametrize("keys", [LARGE, np.array(LARGE), dict(zip(LARGE, range(4))), domethyme.Keys(LARGE)])
def test_keys_given_as_numbers_arrays_or_mappings(square, keys):
    with domethyme.Hierarchy(square.path, keys=keys) as hierarchy:
        assert [each.tolist() for each in hierarchy.routes([[7, 9], [1 << 40, 7]])[1:]] == [[1 << 40, -5, 7]]
        assert hierarchy.length(np.int64(1 << 40), -5) == 3
        for pairs in (5, None, [7, 9], np.array([7, 9]), [[7, 9, 7]], [(7, 9), None], ["ab"], np.array(["ab", "cd"])):
            with pytest.raises(ValueError, match="rows of two nodes"):
                hierarchy.lengths(pairs)
        for key in (pd.NA, np.zeros((2, 2)), np.array([7])):
            with pytest.raises(domethyme.NoSuchNode, match="names no node"):
                hierarchy.length(key, 7)


@pytest.mark.parametrize("missing", [None, np.nan, pd.NA, pd.NaT])
def test_nodes_without_a_key(square, missing):
    for keys in (pd.Series(["a", missing, "c", missing], dtype=object), {"a": 0, missing: 1, "c": 2}):
        with domethyme.Hierarchy(square.path, keys=keys) as hierarchy:
            assert ([*hierarchy.keys], len(hierarchy.keys), hierarchy.length("a", "c")) == (["a", None, "c", None], 4, 7)
            with pytest.raises(domethyme.NoSuchNode, match="names no node"):
                hierarchy.matrix(pd.Series(["a", missing], dtype=object))


@pytest.mark.parametrize("keys, says", [
    ([1, 1], "key 1 names two nodes"), (domethyme.Keys([1, 2]), "keys of 2 nodes"), ({"a": 0, "b": 0}, "name one node"),
    *((range(count), f"keys of {count} nodes, and the hierarchy has 4") for count in (3, 5)), ([["a"]] * 4, "have to be hashable"),
    *(({"a": node}, "is no node") for node in (-1, 0.5, float("inf"), None)),
    (set("abcd"), "in order, .* no set"), (pd.DataFrame(columns=list("abcd")), "no DataFrame"), (np.zeros((4, 1)), "no ndarray"),
])
def test_keys_that_nobody_can_mean(square, keys, says):
    with pytest.raises(ValueError, match=says):
        domethyme.Hierarchy(square.path, keys=keys)


def test_graphs_without_arcs_and_with_keys_of_a_list(tmp_path):
    for frame in (pd.DataFrame({"from": [], "to": [], "weight": []}), pd.DataFrame(columns=["from", "to", "weight"])):
        with domethyme.Graph.from_frame(frame).prepare(tmp_path / "few.rch", workers=0) as none:
            assert (none.nodes, none.matrix([]).shape, len(none.routes([]))) == (0, (0, 0), 0)
    with pytest.raises(domethyme.NoSuchNode, match="the hierarchy has no nodes"):
        domethyme.Graph([], [], []).prepare(tmp_path / "few.rch").reach([0])
    assert domethyme.Graph([0], [1], [5], keys=["a", "b"]).prepare(tmp_path / "few.rch").length("a", "b") == 5
    assert domethyme.Graph([0], [5], [1], nodes=1 << 25).nodes == 1 << 25
    graph = domethyme.Graph.from_keys("ab", "ca", [1, 2])
    assert ([*graph.keys], repr(graph), repr(graph.keys)) == (["a", "b", "c"], "<Graph of 3 nodes and 2 arcs>", "<Keys of 3 nodes>")


def test_weights_that_are_no_whole_numbers(tmp_path):
    assert domethyme.Graph.from_keys(["a"], ["b"], [4294967.295], scale=1000).weights.tolist() == [(1 << 32) - 1]
    graph = domethyme.Graph.from_keys(["a", "b"], ["b", "c"], [0.5, 1.9996], scale=1000)
    with graph.prepare(tmp_path / "scaled.rch") as hierarchy:
        lengths = [hierarchy.length("a", "c"), hierarchy.length("c", "a"), -1, pd.NA, 0]
        assert [domethyme.unscaled(length, 1000) for length in lengths] == [2.5, *[float("inf")] * 3, 0]
        assert domethyme.unscaled(hierarchy.matrix(np.array(["a", "c"])), 1000).tolist() == [[0, 2.5], [float("inf"), 0]]
        series = domethyme.unscaled(hierarchy.lengths(pd.DataFrame({"from": ["a", "c"], "to": ["b", "b"]}, index=[4, 5])))
        assert series.to_dict() == {4: 500, 5: float("inf")}


def test_scales_that_lose_weights():
    with pytest.warns(UserWarning, match="2 of 4 weights are above 0, and 0 once they are scaled by 1") as told:
        domethyme.Graph.from_keys("abcd", "bcda", [0.3, 0, 0.4, 2], scale=1)
    assert told[0].filename == __file__


KEYED, FRAMED = domethyme.Graph.from_keys, domethyme.Graph.from_frame
PAIR = pd.DataFrame({"from": [0, 1], "to": [1, 0], "weight": [3, 4]}, dtype="Int64")
WITH_MISSING = pd.Series([1, None]), pd.Series([1, None], dtype="Int64"), pd.Series(["a", None], dtype="category")
# Calls with their arguments, and what is said of them.
NO_GRAPHS = [
    *((KEYED, (sources, ["b"], [1]), "lists of hashable ones") for sources in ([["a"]], 5, None)),
    *((KEYED, (["a", missing], ["b", "c"], [1, 2]), "an arc has no key at an end") for missing in (None, np.nan, pd.NA, pd.NaT)),
    *((FRAMED, (pd.DataFrame({"from": some, "to": [*some][::-1]}).assign(weight=1),), "no key at an end") for some in WITH_MISSING),
    *((FRAMED, (pd.concat([PAIR, PAIR[[name]]], axis=1),), f"the frame has several columns {name}") for name in PAIR),
    *((FRAMED, (PAIR.replace(4, pd.NA), *more), "weights have to be") for more in ((), ("from", "to", "weight", 10))),
    *((KEYED, ("ab", "bc", [1.0, wrong], 1000), "weights times 1000 have to be from 0") for wrong in (-1.0, 5e6, float("nan"))),
    *((call, (*some, scale), "the scale has to be above 0") for scale in (0, -1, float("inf"), float("nan"), "7")
      for call, some in ((KEYED, ("a", "b", [0.5])), (domethyme.unscaled, (7,)))),
    (domethyme.Graph, ([0], [1], [5], None, ["a"]), "keys of 1 nodes"), *((domethyme.Graph, *row) for row in WRONG_GRAPHS),
]


@pytest.mark.parametrize("call, arguments, says", NO_GRAPHS)
def test_graphs_that_are_refused(call, arguments, says):
    with pytest.raises(ValueError, match=says):
        call(*arguments)


def test_frames_without_a_pair(tmp_path):
    frame = pd.DataFrame({"from": ["a", "b", "a"], "to": ["b", "c", "c"], "weight": [3, 4, 9]})
    with domethyme.Graph.from_frame(frame).prepare(tmp_path / "f.rch") as hierarchy:
        for columns, says in ((["name", "from", "there"], "has 'name', 'from', 'there': rename"),
                              (["destination", "origin"], r"give frame\[\['destination', 'origin'\]\].to_numpy\(\)")):
            with pytest.raises(ValueError, match=f"columns from and to, or source and target, and .*{says}"):
                hierarchy.lengths(pd.DataFrame([["a", "c", "a"][: len(columns)]], columns=columns))
        assert hierarchy.lengths(pd.DataFrame({"o": ["a"], "d": ["c"]}).to_numpy()).tolist() == [7]
        of_tool = pd.DataFrame({"from_node": ["b"], "to_node": ["a"], "from_key": ["a"], "to_key": ["c"]})
        assert hierarchy.lengths(of_tool).tolist() == [7]
    for names in (["to"], ["from", "to"]):  # (levels of the index are columns too)
        graph = domethyme.Graph.from_frame(frame.set_index(names))
        assert [each.tolist() for each in (graph.from_nodes, graph.to_nodes, graph.weights)] == [[0, 1, 0], [1, 2, 2], [3, 4, 9]]
    assert domethyme.Graph.from_frame(PAIR).weights.tolist() == [3, 4]


def test_keys_that_are_saved(tmp_path):
    path, saved = tmp_path / "firm.rch", tmp_path / "firm.rch.keys"
    domethyme.Graph.from_keys(["a", "b", 7], ["b", 7, "a"], [3, 4, 5]).prepare(path).close()
    with domethyme.Hierarchy(path, keys=domethyme.Keys.load(path)) as hierarchy:
        assert (hierarchy.length("a", 7), hierarchy.route("b", "a").nodes) == (7, ["b", 7, "a"])
    for keys in (["a", "b", 7], {"a": 0, 7: 2}, ["x", "y", "z"]):
        with domethyme.Hierarchy(path, keys=keys) as hierarchy:
            assert [*hierarchy.keys] == ([*keys] if isinstance(keys, list) else ["a", None, 7])
    with pytest.raises(ValueError, match="key 'b' names node 0 here, and node 1 in .*firm.rch.keys"):
        domethyme.Hierarchy(path, keys=["b", "a", 7])
    whole = saved.read_text(encoding="utf-8")
    changes = ("keys 1", "keys 2"), ('"chosen":[]', '"chosen":[["a",2]]'), ('"a"', '"c"')
    earlier = {name: each for name, each in json.loads(whole).items() if name not in ("sum", "ends")}
    other = json.dumps({**earlier, "chosen": [["a", 2]]})  # (without a digest)
    for text in ("", "[]", whole[:-1], *(whole.replace(*change) for change in changes), other):
        saved.write_text(text, encoding="utf-8")
        with pytest.raises(domethyme.FileError):
            domethyme.Keys.load(path)
        domethyme.Hierarchy(path, keys=["b", "a", 7]).close()
    saved.write_text(json.dumps(earlier), encoding="utf-8")
    assert [*domethyme.Keys.load(path)] == ["a", "b", 7]
    saved.write_text(whole, encoding="utf-8")
    domethyme.Graph([0, 1], [1, 0], [1, 1]).prepare(path).close()
    domethyme.Hierarchy(path, keys=["b", "a"]).close()
    no_file = [(name, "No such file") for name in ("nowhere", "firm.rch.keys")]
    for name, says in (("firm.rch", "has the keys of another file than .*firm.rch"), *no_file):
        with pytest.raises(domethyme.FileError, match=says):
            domethyme.Keys.load(tmp_path / name)
    texts = ["7", "-7", "0", "007", "-0", "7a", "", "+7", "--7", "-", "\u0663"]
    assert [*map(domethyme.keys.parse_key, texts)] == [7, -7, 0, "007", "-0", "7a", None, *texts[7:]]


def test_keys_of_a_column(tmp_path):
    """Of one type; and the key of the other type that was meant."""
    for known, key, says in (([7, 8], "8", "'8' names no node; there is 8, a number$"), (["-17"], -17, "there is '-17', a text$")):
        with pytest.raises(domethyme.NoSuchNode, match=says) as caught:
            domethyme.Keys(known).node(key)
        assert caught.value.key == key
    (tmp_path / "t.csv").write_text("shop\n7\n\"\"\nx\n")
    assert [*domethyme.Keys.read(tmp_path / "t.csv", "shop")] == ["7", None, "x"]
    great = domethyme.Keys([1 << 62, (1 << 63) - 1, 1 << 63])
    for count, kind in ((2, np.int64), (3, object)):
        found = great.of(np.arange(count))
        assert (found.dtype, found.tolist()) == (kind, [*great][:count])


def test_files_that_are_checked(tmp_path):
    path, program = tmp_path / "ring.rch", find_program()
    right, lighter, heavier, more = (domethyme.Graph([0, 1, 2], [1, 2, 0], [first, 4, last], nodes)
                                     for first, last, nodes in [(3, 5, 3), (2, 5, 3), (3, 6, 3), (3, 5, 4)])
    right.prepare(path, program=program).close()
    right.write(tmp_path / "ring.gr")
    for graph in (right, tmp_path / "ring.gr"):
        assert domethyme.check(graph, path, program) is None
    with pytest.raises(domethyme.WrongHierarchy, match="ring.rch: wrong: pair") as caught:
        domethyme.check(lighter, path, program)
    least = {(0, 1): 2, (0, 2): 6, (1, 2): 4, (1, 0): 9, (2, 0): 5, (2, 1): 7}
    with domethyme.Hierarchy(path) as hierarchy:
        assert hierarchy.length(*caught.value.pair) != least[caught.value.pair]
    assert caught.value.status == 9 and caught.value.explanation[-1].endswith("prepare it again of the graph")
    for graph, file, kind, says in [
        (more, path, domethyme.WrongHierarchy, "wrong: nodes"), (heavier, path, domethyme.NotProved, "not shown: bound"),
        (right, tmp_path / "ring.gr", domethyme.HierarchyError, "ring.gr: routecli: hierarchy: BadMagic"),
        (tmp_path / "nowhere.gr", path, domethyme.ReadWriteError, "nowhere.gr: No such file"),
    ]:
        with pytest.raises(kind, match=says) as caught:
            domethyme.check(graph, file, program)
        assert getattr(caught.value, "pair", None) is None
