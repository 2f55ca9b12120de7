"""What is read, made or written in parts is the same in parts of three, which is how many the constants are set to here."""
import io
import os
import pathlib
import subprocess
import sys
import tempfile
import tracemalloc
import types
import zlib
from typing import NamedTuple

import numpy as np
import pytest
from tool_case import TOOLS, VILLAGE

import domethyme
from domethyme import atomic_files, batch, belonging, dimacs, hierarchy_file, links
from domethyme.network import from_tables, leg_tables, net_file, parallel, reach, snapping
from domethyme_service import tiles
from domethyme.network import table_files
from domethyme_tools import places, table
from domethyme.drawing import roads as draw_roads

pytestmark = pytest.mark.timeout(300)
BENCH = pathlib.Path(__file__).resolve().parents[2] / "bench"
ARCS = np.arange(1, 9), np.roll(np.arange(1, 9), 1), np.arange(10, 18)
PLACES = "name,lon,lat\n" + "".join(f"p{number},{{}},{{}}\n" for number in range(7))


class Drawn(NamedTuple):
    """Drawn roads, their files in an empty folder, and their hierarchy."""

    prefix: str
    network: net_file.MappedNetwork
    hierarchy: domethyme.Hierarchy


@pytest.fixture(scope="module")
def drawn(tmp_path_factory):
    prefix = str(tmp_path_factory.mktemp("drawn") / "net")
    subprocess.run([sys.executable, BENCH / "make_roads.py", "1000", "7", prefix], check=True, capture_output=True)
    domethyme.prepare(f"{prefix}.gr", f"{prefix}.rch", workers=1).close()
    network = net_file.read(f"{prefix}.net")
    spots = np.column_stack((network.node_lon[:7], network.node_lat[:7])) / net_file.UNITS
    pathlib.Path(f"{prefix}.csv").write_text(PLACES.format(*spots.ravel().tolist()))
    with domethyme.Hierarchy(f"{prefix}.rch", network=prefix) as hierarchy:
        yield Drawn(prefix, network, hierarchy)


def plain(value):
    """A value whose arrays are lists, so that two can be compared."""
    if isinstance(value, np.ndarray):
        return value.tolist()
    return [plain(each) for each in value] if isinstance(value, (list, tuple)) else value


def arrays_of(drawn):
    return net_file.Arrays({name: np.asarray(getattr(drawn.network, name)[:]) for name in net_file.Arrays.NAMES})


def comparing(drawn):
    """What is said of a network with one weight that the hierarchy hasn't, and of its own."""
    domethyme.Hierarchy(f"{drawn.prefix}.rch", network=drawn.prefix).close()
    arrays = arrays_of(drawn)
    arrays.arc_weight = arrays.arc_weight.copy()
    arrays.arc_weight[len(arrays.arc_weight) // 2] += 1
    with open(f"{drawn.prefix}.rch", "rb") as file, pytest.raises(domethyme.WrongHierarchy) as caught:
        other = net_file.map_tempfile(arrays, "other")
        belonging.compare(file.fileno(), "net.rch", other)
    return str(caught.value)


def table_by_tool(drawn):
    """The table that the tool writes, of seven places."""
    words = [f"{drawn.prefix}.rch", f"{drawn.prefix}.csv", f"{drawn.prefix}.csv", "--name", "name"]
    with pytest.MonkeyPatch.context() as patch:
        patch.setattr(sys, "argv", ["table", drawn.prefix, *words, "-o", f"{drawn.prefix}.table.csv"])
        table.main()
    return pathlib.Path(f"{drawn.prefix}.table.csv").read_text()


def tiles_of(drawn):
    """The tiles of four zooms in which the middle of the roads is."""
    west, south, east, north = drawn.network.box
    found = []
    for zoom in (8, 11, 14, 16):
        x, y = (int(each) for each in (tiles.to_mercator(np.array([[(west + east) / 2, (south + north) / 2]])) * (1 << zoom))[0])
        found.append(tiles.Tiles(drawn.network).tile(zoom, x, y))
    return found


def reached(drawn):
    lengths = drawn.hierarchy.reach([0])
    found = reach.Reach(drawn.network, lengths, [30_000, 90_000])
    return plain([found.roads(0), found.roads(1), [tuple(box) for box in found.boxes]])


def written(drawn):
    """The file of a network, with what is derived of its arrays."""
    file = io.BytesIO()
    net_file.write(file, arrays_of(drawn))
    return file.getvalue()


def straight(drawn):
    nodes, arcs = from_tables.read_nodes(f"{drawn.prefix}.csv").arrays, ([1, 2, 3, 4, 5], [2, 3, 4, 5, 6], [7] * 5)
    return plain(from_tables.straight_arcs(*map(np.array, arcs), nodes).columns["arc_metres"])


def in_blocks(drawn):
    """The lengths and routes of many pairs."""
    pairs = [[row * 7 % 50, row % 40] for row in range(100)]
    routes = drawn.hierarchy.routes(pairs)
    return plain([routes.lengths, [routes[row] for row in range(100)], drawn.hierarchy.lengths(pairs)])


def summed(drawn):
    """Metres from seven nodes to one, and to two."""
    ask = drawn.hierarchy.matrix
    return [plain(ask(np.arange(7), np.arange(count), missing=-1, sums=["metres"])["metres"]) for count in (1, 2)]


def graph_of(_drawn):
    """The text of a graph, of arrays and of lists."""
    files = io.BytesIO(), io.BytesIO()
    for file, arcs in zip(files, (ARCS, [each.tolist() for each in ARCS])):
        dimacs.write_graph(file, 9, arcs, ["a comment"])
    return [file.getvalue().splitlines() for file in files]


def tables_of(drawn):
    """The tables of a network."""
    files = io.StringIO(), io.StringIO()
    table_files.write_nodes(files[0], drawn.network)
    table_files.write_arcs(files[1], arrays_of(drawn))
    return [file.getvalue() for file in files]


def read_again(drawn):
    """The lines of the tables of a network, as they are read."""
    with tempfile.TemporaryDirectory() as folder:
        for name, text in zip(("nodes", "arcs"), tables_of(drawn)):
            pathlib.Path(folder, f"n.{name}.csv").write_text(text)
        return from_tables.arrays_from_tables(f"{folder}/n").points.tolist()


def snapped(drawn):
    """Points of roads near places, of few and of many at once, and edges, also of few and of many."""
    roads, numbers = snapping.RoadIndex(drawn.network), [7 * row % 50 for row in range(40)]
    spots = [*map(tuple, (np.column_stack((drawn.network.node_lon[:40], drawn.network.node_lat[:40])) / 1e7 + 1e-4).tolist())]
    found = [each for some in (spots, spots[:3], *zip(spots)) for each in roads.nearest_within(some, [300.0] * len(some))]
    edges = [roads.find_edges(some)[each] for some in (numbers, numbers[:5], numbers[30:34]) for each in some]
    return plain([found, roads.nearest_of_each(spots, 3, 300.0), edges])


CASES = [
    (batch, "CHUNK_SIZE", in_blocks), (batch, "MAX_SUMMED_CELLS", summed), (links, "AT_A_TIME", comparing),
    (hierarchy_file, "MAX_READ", lambda drawn: domethyme.Hierarchy(f"{drawn.prefix}.rch").length(0, 5)),
    (from_tables, "ARCS_AT_ONCE", straight),
    (net_file, "SECONDS_AT_A_TIME", lambda drawn: net_file.read(f"{drawn.prefix}.net").has_seconds),
    (reach, "CHUNK", reached), (parallel, "SLICE_ROWS", written),
    (from_tables, "LINES_AT_ONCE", read_again),
    *((snapping, name, snapped) for name in ("EDGE_CACHE_SIZE", "FEW_PLACES", "MANY_EDGES", "MAX_CANDIDATES", "PLACES_PER_BATCH")),
    (snapping, "SEGMENTS_PER_BATCH", lambda drawn: snapping.RoadIndex(drawn.network).nearest((0.1, 0.1), 100)),
    (table, "CELLS", table_by_tool),
    (places, "PLACES_AT_ONCE", table_by_tool),
    (dimacs, "ROWS_AT_ONCE", graph_of), (table_files, "ROWS_AT_ONCE", tables_of),
    (tiles, "SEGMENTS_PER_CHUNK", tiles_of),
    (draw_roads, "PART", lambda drawn: plain(draw_roads.read_roads(drawn.network, None))),
]


@pytest.mark.parametrize("module, constant, made", CASES, ids=[f"{module.__name__}.{constant}" for module, constant, _ in CASES])
def test_in_parts_of_three(drawn, monkeypatch, module, constant, made):
    whole = made(drawn)
    monkeypatch.setattr(module, constant, 3)
    assert made(drawn) == whole and whole


@pytest.mark.parametrize("cells, most_rows", [(1, 256), (60, 256), (1 << 20, 5), (1 << 20, 1)])
def test_tables_by_parts(drawn, monkeypatch, cells, most_rows):
    """Each part asks once, for whole rows to the same nodes."""
    roads = drawn.hierarchy.network.roads
    points = [roads.snap(tuple(place), edge) for edge, place in enumerate((drawn.network.points[:20] / 1e7).tolist())]
    (whole,) = leg_tables.weight_rows(drawn.hierarchy.matrix, roads, points, points, 1 << 20)
    monkeypatch.setattr(leg_tables, "MAX_ROWS", most_rows)
    asked = []

    def ask(*sides):
        asked.append(sides)
        return drawn.hierarchy.matrix(*sides)

    parts = [*leg_tables.weight_rows(ask, roads, points, points, cells)]
    np.testing.assert_array_equal(np.concatenate(parts), whole)
    assert len(parts) == len(asked) > 1 and all(np.array_equal(targets, asked[0][1]) for _, targets in asked)
    assert max(map(len, parts)) == max(1, min(most_rows, cells // sum(len(point.entries) for point in points)))


def test_shares_of_a_map(tmp_path):
    """The converter's threads have a share of the roads each, and many more than one."""
    found = []
    for steps in ("131072", "3"):
        environment = {**os.environ, "DOMETHYME_STEPS_AT_ONCE": steps}
        subprocess.run([TOOLS / "osm_to_gr", VILLAGE, "v"], cwd=tmp_path, env=environment, check=True, capture_output=True)
        found.append([(tmp_path / f"v.{ending}").read_bytes() for ending in ("gr", "net")])
    assert found[0] == found[1]


def peak_of(call):
    """The bytes that a call takes at most."""
    tracemalloc.start()
    call()
    _, peak = tracemalloc.get_traced_memory()
    tracemalloc.stop()
    return peak


def test_the_memory_that_a_graph_takes(tmp_path):
    """Some bytes an arc, and no objects of Python for all arcs at once."""
    count = 400_000
    graph = domethyme.Graph(np.arange(count), np.arange(count)[::-1], np.arange(count))
    assert peak_of(lambda: graph.write(tmp_path / "graph.gr")) < 60 * count


def test_the_memory_that_a_file_takes(tmp_path, monkeypatch):
    """Its bytes are in memory once, and not beside the parts in which they are read."""
    (tmp_path / "file").write_bytes(bytes(1 << 20))
    monkeypatch.setattr(hierarchy_file, "MAX_READ", 1 << 16)
    with open(tmp_path / "file", "rb", buffering=0) as file:
        assert peak_of(lambda: hierarchy_file.pread_all(file.fileno(), 0, 1 << 20)) < 1.1 * (1 << 20)
        assert hierarchy_file.pread_all(file.fileno(), 1 << 19, 1 << 20) == bytes(1 << 19)


def test_the_checksum_of_a_large_table(tmp_path):
    """Of several parts of a mebibyte."""
    (tmp_path / "table").write_bytes(bytes(range(251)) * 9000)
    assert net_file.checksum_of(tmp_path / "table") == zlib.crc32(bytes(range(251)) * 9000)


@pytest.mark.parametrize("mtime, ctime, is_younger", [(5, 5, False), (6, 0, True), (0, 6, True), (4, 5, False)])
def test_files_that_are_younger(mtime, ctime, is_younger):
    """By a nanosecond, of the time that a file bears, or of its last change."""
    stats = [types.SimpleNamespace(st_mtime_ns=one, st_ctime_ns=other) for one, other in ((mtime, ctime), (5, 5))]
    assert net_file.is_younger(*stats) == is_younger


def test_reads_that_end_early(tmp_path, monkeypatch):
    """A call may read less than it is asked for, as Linux does of 2 GiB: others read the rest, as far as the file has it."""
    whole, preadv = bytes(range(100)), os.preadv
    (tmp_path / "file").write_bytes(whole)
    monkeypatch.setattr(os, "preadv", lambda file, views, place: preadv(file, [views[0][:3]], place))
    with open(tmp_path / "file", "rb", buffering=0) as file:
        assert hierarchy_file.pread_all(file.fileno(), 1, 200) == whole[1:]


def test_files_are_on_the_disk_before_they_have_their_names(tmp_path, monkeypatch):
    done, sync, replace = [], os.fsync, os.replace

    def note_sync(file):
        done.append(("synced", os.readlink(f"/proc/self/fd/{file}"), os.fstat(file).st_size))
        sync(file)

    def note_replace(source, target):
        done.append(("named", str(source), os.stat(source).st_size))
        replace(source, target)

    monkeypatch.setattr(os, "fsync", note_sync)
    monkeypatch.setattr(os, "replace", note_replace)
    paths = [tmp_path / "one", tmp_path / "other"]
    with atomic_files.atomic_write_all(*paths) as files:
        for file in files:
            file.write("text")
    assert [kind for kind, _, _ in done] == ["synced"] * 2 + ["named"] * 2
    assert {path for kind, path, _ in done if kind == "synced"} == {path for kind, path, _ in done if kind == "named"}
    assert all(size == 4 for _, _, size in done) and all(path.read_text() == "text" for path in paths)
