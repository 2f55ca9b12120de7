"""Tests of the mapped files of networks: the same as the tables, and what becomes of one that is older, damaged or hostile."""
import gc
import os
import re
import subprocess
import sys
import tracemalloc
import zlib

import numpy as np
import pytest
from draws import run_tool
from tool_case import IN_TABLES, PYTHON, ROOT, VILLAGE

import domethyme
from domethyme.network import column_file, from_tables, net_file
from domethyme.network.columns import ABOUT, COLUMNS, ColumnSpec
from domethyme.network.snapping import RoadIndex
from domethyme_service.tiles import Tiles

pytestmark = pytest.mark.timeout(1200)

# Two nodes, a road both ways and one that is straight on.
NODES = "node,osm,lon,lat,ends\n1,7,-0.0003,0,\n2,,0.001,0,\n3,9,0.001,0.0011,\n"
ARCS = """\
from,to,weight,seconds,metres,osm,highway,name,WKT
1,2,10,1,111.2,5,primary,High Street,"LINESTRING (-0.0003 0, 0.001 0)"
2,1,10,1,111.2,5,primary,High Street,"LINESTRING (0.001 0, -0.0003 0)"
2,3,9,1,111.2,6,residential,,"LINESTRING (0.001 0, 0.001 0.0011)"
"""


@pytest.fixture
def village(tmp_path):
    """The prefix of the files of the village, and of its tables."""
    run_tool("osm_to_gr", VILLAGE, tmp_path / "v", "--keep-islands", "--tables")
    return str(tmp_path / "v")


@pytest.fixture
def small(tmp_path):
    """The file of a network of three nodes, so that each byte of it can be changed."""
    (tmp_path / "n.csv").write_text(NODES)
    (tmp_path / "a.csv").write_text(ARCS)
    run_tool("to_network", tmp_path / "n.csv", tmp_path / "a.csv", tmp_path / "v", "--attribution", "Us")
    return tmp_path / "v.net"


def assert_same(one, other):
    for name in IN_TABLES:
        values = [np.asarray(getattr(each, name)) for each in (one, other)]
        np.testing.assert_array_equal(*values, name)
        assert values[0].dtype == values[1].dtype, name


def answers(path):
    """All that is in a network's file, and some of what is answered by it."""
    roads = RoadIndex(str(path).removesuffix(".net"))
    found = columns_of(roads.arrays), roads.nearest((0.0004, 0.0001), 2), roads.lightest((0, 1, 0)).tolist(), roads.unit
    return str((found, Tiles(roads.arrays).about))


def columns_of(arrays):
    return {name: column[:].tolist() for name, column in arrays.file.columns.items()}


def refused(path, says):
    with pytest.raises(domethyme.NetworkError, match=rf"v\.net: {says}"):
        answers(path)


def test_the_file_and_the_tables(village, tmp_path):
    """Both have the same arrays, the file also alone, and name the same node that isn't there."""
    before = from_tables.arrays_from_tables(village)
    for name in ("nodes.csv", "arcs.csv"):
        (tmp_path / f"v.{name}").rename(tmp_path / f"copy.{name}")
    assert_same(from_tables.load_network(village), before)
    networks = domethyme.Network(village), domethyme.Network(tmp_path / "copy")
    assert [net_file.is_current(each.prefix) for each in networks] == [True, False]
    for each in networks:
        for nodes, says in (([1, 0, 37], "arc from node 0 to node 37"), ([0, 38], "it has 38 nodes"), ([-1, 0], "has 38 nodes")):
            with pytest.raises(domethyme.NetworkError, match=rf"{each.prefix}.arcs.csv: .*has.* {says}"):
                each.line(nodes)
    (tmp_path / "copy.nodes.csv").write_text((tmp_path / "copy.nodes.csv").read_text() + "\n")
    with pytest.raises(domethyme.NetworkError, match="copy.nodes.csv: isn't the table of the nodes that .*copy has"):
        networks[1].keys("ends")


def test_one_that_is_older_or_of_other_tables_is_not_read(village, tmp_path):
    """The tables are, and what they lack of the profile is kept."""
    arcs, nodes, arrays = tmp_path / "v.arcs.csv", tmp_path / "v.nodes.csv", from_tables.arrays_from_tables(village)
    whole, text = arcs.read_bytes(), nodes.read_text()
    arrays.about |= {"driving_side": 1, "mode": 2}
    with open(f"{village}.net", "wb") as file:
        net_file.write(file, arrays)
    for time in (os.stat(f"{village}.net").st_mtime + 1, 1):
        os.utime(arcs, (time, time))
        assert net_file.is_current(village)
        arcs.write_bytes(whole.replace(b"High Street", b"Low  Street"))
        os.utime(arcs, (time, time))
        assert not net_file.is_current(village)
        arcs.write_bytes(whole)
    assert net_file.is_current(village)
    nodes.write_text("\ufeff" + text.rstrip("\n"))
    arcs.write_bytes(whole.replace(b"\n", b"\r\n"))  # (as other programs write them)
    os.utime(nodes, (1, 1))
    assert not net_file.is_current(village)
    found = from_tables.load_network(village)
    assert (len(found.node_osm), found.driving_side, found.mode) == (text.count("\n") - 1, "left", "walking")
    arcs.unlink()
    with pytest.raises(domethyme.NetworkError, match="v.nodes.csv: has changed since .*v.net was made of it: run `to_network`"):
        from_tables.load_network(village)
    arcs.write_bytes(whole)
    for words, side in (((), "left"), (("--driving-side", "right"), "right")):
        run_tool("to_network", nodes, arcs, village, *words)
        found = net_file.read(f"{village}.net")
        assert (found.driving_side, found.mode) == (side, "walking")
    nodes.unlink()
    run_tool("osm_to_gr", VILLAGE, village)  # (which removes the other one, and has no tables)
    for table, some in ((arcs, whole), (nodes, text.encode())):
        assert net_file.is_current(village)
        table.write_bytes(some)
    assert not net_file.is_current(village)


def test_an_archive_of_an_earlier_version(village, tmp_path):
    """It isn't read; the tables of the map give its graph and network again."""
    graph, before = (tmp_path / "v.gr").read_bytes(), net_file.read(tmp_path / "v.net")
    (tmp_path / "v.net").rename(tmp_path / "v.npz")
    with pytest.raises(domethyme.NetworkError, match=r"v\.npz: is an archive of an earlier version.*`to_network .*v\.nodes\.csv"):
        from_tables.load_network(village)
    run_tool("to_network", f"{village}.nodes.csv", f"{village}.arcs.csv", village)
    assert (tmp_path / "v.gr").read_bytes() == graph
    assert_same(from_tables.load_network(village), before)


def test_written_in_place(small):
    """A file that is written while it is mapped: what was verified is verified anew, and another file is refused."""
    arrays = net_file.read(small)
    before, whole = columns_of(arrays), small.read_bytes()
    os.utime(small, (1, 1))
    arrays.file.check_unchanged()
    assert columns_of(arrays) == before

    def write(place, byte):
        with open(small, "r+b") as file:
            file.seek(place)
            file.write(byte)

    write(whole.index(arrays.points[:].tobytes()), b"\x77")
    arrays.file.check_unchanged()
    for name, column in arrays.file.columns.items():
        if name != "points":
            assert column[:].tolist() == before[name]
    arrays.file.verify(len(whole) - 1)  # (the service has files of no more bytes verified before it begins)
    for attempt in (lambda: arrays.points[:], lambda: arrays.file.verify(len(whole))):
        with pytest.raises(domethyme.NetworkError, match="v.net: is damaged: points has another checksum"):
            attempt()
    os.truncate(small, len(whole) + 1)
    with pytest.raises(domethyme.NetworkError, match="was written to while it was in use"):
        arrays.file.check_unchanged()
    os.truncate(small, len(whole))
    arrays.file.check_unchanged()
    write(len(whole) - 1, b"\x77")
    for attempt in (arrays.file.check_unchanged, lambda: arrays.points[:]):
        with pytest.raises(domethyme.NetworkError, match="was written to while it was in use"):
            attempt()


@pytest.fixture
def mapped(tmp_path, monkeypatch):
    """Writes numbers to a file, eight to a block, and maps it."""
    monkeypatch.setattr(column_file, "BLOCK", 64)

    def map_numbers(numbers, **spec):
        form = {"a": ColumnSpec("<i8", **spec)}
        with open(tmp_path / "array", "w+b") as file:
            column_file.write(file, form, 1, [("a", np.array(numbers))])
            file.flush()
            return column_file.MappedFile(file, "array", {1: form}, "").columns["a"]

    return map_numbers


@pytest.mark.parametrize("damaged", range(3))
@pytest.mark.parametrize("index", [
    8, np.int64(23), slice(None), slice(8, 16), slice(7, 9), slice(4, 20), slice(16, None), slice(9, 9), slice(15, 7, -1),
    slice(8, 6, -1), slice(None, None, -1), slice(23, 8, -5), np.array([3, 20]), np.array([[16], [9]]), np.array([], int),
    np.arange(24) % 8 == 7
], ids=repr)
def test_what_an_index_takes_is_verified(mapped, tmp_path, index, damaged):
    """Each time, and also a block that was verified before the file was written; another that is damaged is no hindrance."""
    column, rows, path = mapped(range(24)), np.arange(24), tmp_path / "array"
    assert column[3] == 3
    whole, before = bytearray(path.read_bytes()), os.stat(path)
    whole[column_file.HEAD.itemsize + 64 * damaged] ^= 99
    path.write_bytes(whole)
    os.utime(path, ns=(before.st_atime_ns, before.st_mtime_ns + 1))
    for _ in range(2):
        if damaged in np.atleast_1d(rows[index]) // 8:
            with pytest.raises(domethyme.NetworkError, match="a has another checksum"):
                column[index]
        else:
            assert column[index].tolist() == rows[index].tolist()


@pytest.mark.parametrize("numbers, spec, says", [
    ([*range(8), 6, *range(9, 24)], {"min_step": 0, "low": 0, "high": 23}, "has wrong offsets"),
    ([24, *range(1, 24)], {"low": 0, "high": 23}, "isn't from 0 to 23"),
    ([*range(7), -1, *range(8, 24)], {"low": 0, "high": 23}, "isn't from 0 to 23"),
])
def test_values_that_can_not_be(mapped, numbers, spec, says):
    """They are refused where their block is read; an offset is compared with that of the next block."""
    column = mapped(numbers, **spec)
    assert column[9] == 9
    with pytest.raises(domethyme.NetworkError, match=f"is damaged: a {says}"):
        column[5]


def test_each_byte_changed(small):
    """A named fault, or the same answers: those of the bytes between arrays, which nobody reads."""
    whole, before, count = small.read_bytes(), answers(small), 0
    padding = sum(-column[:].nbytes % column_file.ALIGNED for column in net_file.read(small).file.columns.values())
    for place, byte in enumerate(whole):
        small.write_bytes(whole[:place] + bytes([byte ^ (0x01 if place % 2 else 0xA5)]) + whole[place + 1 :])
        try:
            assert answers(small) == before, place
        except domethyme.NetworkError as error:
            assert re.search(r"v\.net: (is damaged: |isn't a network's file|has version )", str(error))
            count += 1
    assert count == len(whole) - padding


def test_what_is_no_such_file(small):
    """Of each length, of another version, and no file."""
    whole, remedy = small.read_bytes(), "convert the map again, or make it of its tables, as `to_network"
    short = [(whole[:length], "is damaged: ") for length in [*range(0, len(whole), 13), len(whole) - 1]]
    version = whole[:8] + bytes([99]) + whole[9:], f"has version 99 and not one from 2 to 6; {remedy}"
    for text, says in (*short, (whole + b"\0", "is damaged: its size isn't the one"), version):
        small.write_bytes(text)
        refused(small, says)
    small.unlink()
    os.mkfifo(small)
    refused(small, "is no regular file")


def test_hostile_sizes_take_no_memory(small):
    """Sizes that are as great as can be, with the right checksum of head and tail."""
    whole, size = small.read_bytes(), column_file.HEAD.itemsize
    head = np.frombuffer(whole[:size], column_file.HEAD).copy()
    tail, head["sum"] = int(head["tail"][0]), 0
    for array in range(len(net_file.FORMS[4])):
        for rows in (1 << 62, (1 << 64) - 1, 1 << 33, 10**9):
            changed = whole[tail : tail + 8 * array] + rows.to_bytes(8, "little") + whole[tail + 8 * array + 8 :]
            summed = head.copy()
            summed["sum"] = zlib.crc32(changed, zlib.crc32(head.tobytes()))
            small.write_bytes(summed.tobytes() + whole[size:tail] + changed)
            tracemalloc.start()
            refused(small, "is damaged: ")
            most = tracemalloc.get_traced_memory()[1]
            tracemalloc.stop()
            assert most < 1 << 20


@pytest.mark.parametrize("name, change", [
    ("arc_from", lambda old: old + 100), ("arc_to", lambda old: old * 0 - 1), ("node_ends", lambda old: old + 4),
    ("edge_begin", lambda old: old[::-1]), ("arc_row", lambda old: old + 7), ("row_texts", lambda old: old - 2),
    ("points", lambda old: old + 2_000_000_000), ("arc_weight", lambda old: old - 10**9), ("arc_metres", lambda old: old * np.nan),
    ("text_begin", lambda old: old[:0]), ("arc_edge", lambda old: old + 9), ("about", lambda old: old * 0),
    ("out_arcs", lambda old: old + 3), ("out_begin", lambda old: old[::-1]), ("edge_things", lambda old: old + 9),
    ("node_cells", lambda old: old[::-1]), ("step_edges", lambda old: old - 5), ("step_points", lambda old: old + 9),
    ("out_arcs", lambda old: np.append(old, 0)), *((name, lambda old: old[:-1]) for name in ("edge_begin", "points", "node_lon",
        "about", "degrees", "edge_keys", "edge_arcs", "arc_penalty", "point_osm", "edge_metres"))
])
def test_arrays_that_do_not_fit(request, name, change):
    """Right checksums, and values that can't be: they are refused where they are read."""
    of_map = COLUMNS[name].part == "map"
    path = f"{request.getfixturevalue('village')}.net" if of_map else request.getfixturevalue("small")
    before, version = {name: column[:].copy() for name, column in net_file.read(path).file.columns.items()}, 6 if of_map else 4
    with open(path, "wb") as file:
        column_file.write(file, net_file.FORMS[version], version, {**before, name: change(before[name])}.items())
    refused(path, "is damaged: ")


def test_an_earlier_version(small, tmp_path):
    """A file of version 2, without checksums of tables, has what this one has, also with fewer kinds of texts."""
    arrays, frames = net_file.read(small), []
    columns = {name: column[:] for name, column in arrays.file.columns.items()}
    columns |= {"about": columns["about"][: ABOUT.index("nodes_sum")]}
    for texts in (columns["row_texts"] * (np.arange(8) < 5), columns["row_texts"]):
        with open(tmp_path / "old.net", "w+b") as file:
            column_file.write(file, net_file.FORMS[4], 2, {**columns, "row_texts": texts}.items())
        frames.append(domethyme.Network(tmp_path / "old").arcs_frame().values.tolist())
    assert_same(net_file.read(tmp_path / "old.net"), arrays)
    assert (frames[0], columns["about"][2:5].tolist()) == (frames[1], [0, 3, 3])
    assert zlib.crc32(small.read_bytes()) == 3362017521  # (other bytes are another form, and need another version's number)


def test_files_are_closed_once_nobody_has_their_network(small):
    before = len(os.listdir("/proc/self/fd"))
    for _ in range(3):
        net_file.read(small)
    gc.collect()
    assert len(os.listdir("/proc/self/fd")) <= before


def test_a_process_has_what_it_uses(tmp_path):
    """A network whose arrays have 25 MB: opening it and looking for places takes a few."""
    subprocess.run([ROOT / "bench/make_roads.py", "100000", "1", tmp_path / "large"], check=True, capture_output=True)
    assert os.path.getsize(tmp_path / "large.net") > 20_000_000
    program = f"""
import re
from domethyme.network.snapping import RoadIndex
from domethyme_service.tiles import Tiles
own = lambda: int(re.search(r"RssAnon:\\s+(\\d+)", open("/proc/self/status").read())[1])
before = own()
roads = RoadIndex({str(tmp_path / "large")!r})
for place in range(200):
    roads.nearest((9 + place / 3000, 47 + place / 4000), 3)
Tiles(roads.arrays).tile(10, 537, 358)
print(own() - before)
"""
    environment = {**os.environ, "PYTHONPATH": str(PYTHON)}
    ended = subprocess.run([sys.executable, "-P", "-c", program], env=environment, capture_output=True, text=True, check=True)
    assert int(ended.stdout) < 10_000, "KiB"
