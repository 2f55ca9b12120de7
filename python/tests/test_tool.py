"""Tests of cli.py, csv_tables.py and tables.py: files that are whole or as they were, tables, texts, and how tools end."""
import contextlib
import errno
import gzip
import os
import pathlib
import shutil
import signal
import stat
import subprocess
import textwrap
from unittest import mock

import pytest
from tool_case import PYTHON, TAKES_SIGNALS

from domethyme import DomethymeError, atomic_files, csv_tables, dimacs, find_program, program
from domethyme.network import from_tables, geo, table_files, tables

WHOLE = ("first", "second", "third")
pytestmark = pytest.mark.usefixtures("write")


def assert_fault(says, call, *values):
    with pytest.raises(DomethymeError) as caught:
        result = call(*values)
        list(result if hasattr(result, "__next__") else ())
    assert str(caught.value) == says


def texts():
    return {path.name: path.read_text() for path in pathlib.Path().iterdir()}


class TestWholeFiles:
    def write_all(self, text):
        with atomic_files.atomic_write_all(*WHOLE) as opened:
            for file in opened:
                file.write(text)

    def test_nothing_is_seen_before_the_end(self):
        """And an exception leaves the old files."""
        self.write_all("old")
        with atomic_files.atomic_write_all(*WHOLE) as opened:
            for file in opened:
                file.write("new")
                file.flush()
            assert [pathlib.Path(name).read_text() for name in WHOLE] == ["old"] * 3
        assert texts() == dict.fromkeys(WHOLE, "new")
        with pytest.raises(ZeroDivisionError), atomic_files.atomic_write_all(*WHOLE) as opened:
            opened[0].write("newer")
            raise ZeroDivisionError
        assert texts() == dict.fromkeys(WHOLE, "new")

    def test_where_one_can_not_take_its_name_all_are_as_they_were(self, write):
        write("second", "old")
        for link in (os.link, mock.Mock(side_effect=OSError)):  # (file systems may have no links)
            patched = mock.patch.object(os, "link", link)
            with patched, pytest.raises(OSError), atomic_files.atomic_write_all(*WHOLE) as opened:
                opened[0].write("new")
                os.makedirs("third/folder")
            shutil.rmtree("third")
            assert texts() == {"second": "old"}

    def test_what_can_not_be_written_is_named(self, write):
        """All files that may have filled the disk, and one that is only to be read."""
        for number in (errno.ENOSPC, errno.EDQUOT, errno.EFBIG, errno.EIO, errno.EPIPE):
            with pytest.raises(OSError) as caught, atomic_files.atomic_write_all(*WHOLE):
                raise OSError(number, "told")
            name = None if number == errno.EPIPE else ", ".join(WHOLE)
            assert (caught.value.errno, caught.value.filename) == (number, name)
        write("second", "old")
        with mock.patch.object(os, "access", return_value=False), pytest.raises(PermissionError, match="be written: 'second'"):
            self.write_all("new")
        assert texts() == {"second": "old"}

    def test_permissions_and_links_stay(self):
        """New files go by the mask, which isn't changed, as other threads would see that."""
        old = os.umask(0o027)
        with contextlib.ExitStack() as stack:
            stack.callback(os.umask, old)
            stack.enter_context(mock.patch.object(os, "umask", side_effect=AssertionError))
            self.write_all("old")
        assert stat.S_IMODE(os.stat("first").st_mode) == 0o640
        os.chmod("first", 0o666)
        os.rename("second", "elsewhere")
        os.symlink("elsewhere", "second")
        self.write_all("new")
        assert stat.S_IMODE(os.stat("first").st_mode) == 0o666 and os.path.islink("second")
        assert texts() == dict.fromkeys((*WHOLE, "elsewhere"), "new")


class TestEnds:
    def start(self, body, encoding="utf-8", **streams):
        head = "import sys\nfrom domethyme import atomic_files\nfrom domethyme_tools import cli\ndef main():\n"
        pathlib.Path("tool").write_text(f"{head}{textwrap.indent(body, '    ')}\ncli.run(main)\n", encoding="utf-8")
        environment = {**os.environ, "PYTHONPATH": str(PYTHON), "PYTHONIOENCODING": encoding}
        streams = {"stdout": subprocess.PIPE, "stderr": subprocess.PIPE, **streams}
        return subprocess.Popen([*TAKES_SIGNALS, "/usr/bin/python3", "tool"], encoding="utf-8", env=environment, **streams)

    def assert_ends(self, child, status, says):
        stdout, stderr = child.communicate()
        assert (child.returncode, stderr) == (status, says)
        return stdout

    def test_done(self):
        assert self.assert_ends(self.start("print('told')"), 0, "") == "told\n"
        body = "for mode, text in (('w', 'é'), ('wb', b'!')):\n  with atomic_files.atomic_write('-', mode) as out: out.write(text)"
        assert self.assert_ends(self.start(body, encoding="latin-1"), 0, "") == "é!"

    @pytest.mark.parametrize("body, status, says", [
        ("raise cli.ToolError('is wrong', 'file', 3)", 1, "file, row 3: is wrong"), ("raise OSError('odd')", 1, "odd"),
        ("raise cli.ToolError('two\\nlines', '-', status=5)", 5, "standard input: two lines"),
        ("raise OSError(2, 'is gone', 'f')", 1, "f: is gone"), ("raise MemoryError", 1, "there isn't enough memory"),
        ("with cli.require_packages():\n    import no_such_module\n", 1,
         "Python's module no_such_module is missing: run tools/check_packages, and the tool by /usr/bin/python3"),
    ])
    def test_a_fault(self, body, status, says):
        self.assert_ends(self.start(body), status, f"tool: {says}\n")

    def test_where_nothing_can_be_written(self):
        with open("/dev/full", "w", encoding="ascii") as full:
            self.assert_ends(self.start("print('told')", stdout=full), 1, "tool: No space left on device\n")
        reading, writing = os.pipe()
        os.close(reading)
        child = self.start("print('told')", stdout=writing)
        os.close(writing)
        self.assert_ends(child, 1, "")

    @pytest.mark.parametrize("number, status", [(signal.SIGTERM, 143), (signal.SIGINT, 130)])
    def test_signals_leave_nothing(self, number, status):
        body = "with atomic_files.atomic_write_all('first', 'second'):\n    print('ready', flush=True)\n    sys.stdin.read()"
        child = self.start(body, stdin=subprocess.PIPE)
        assert child.stdout.readline() == "ready\n" and len(texts()) == 3
        child.send_signal(number)
        self.assert_ends(child, status, "")
        assert list(texts()) == ["tool"]


def rows(text, needed=("a", "b")):
    pathlib.Path("table.csv").write_bytes(text)
    with csv_tables.open_table("table.csv", needed) as found:
        return found.columns, list(found)


def test_columns_go_by_name():
    columns, found = rows('\ufeffb,c,a\r\n1,"x,\ny",2\r\n\r\n3,é,4\r\n'.encode())
    assert columns == ["b", "c", "a"]
    assert found == [(3, {"b": "1", "c": "x,\ny", "a": "2"}), (5, {"b": "3", "c": "é", "a": "4"})]


@pytest.mark.parametrize("text, says", [
    (b"", ": is empty"), (b"a,c\n", ", row 1: has no column b; its columns are a, c"), (b"a,b,a\n", ", row 1: has two columns a"),
    (b"a;b\n", ", row 1: has no columns a, b; its columns are a;b: fields have to be separated by commas"),
    *((f"a,{name}\n".encode(), f", row 1: has no column b; its columns are a, {name}: there is a blank beside b") for name in (" b", "b ")),
    (b"a,b\n1,2\n3\n", ", row 3: has 1 fields in place of 2"), (b"a,b\n1,2,3\n", ", row 2: has 3 fields in place of 2"),
    (b"a,b\n\xff,2\n", ", row 2: isn't UTF-8: save it as CSV UTF-8"),
    (b'a,b\n"1,2\n', ", row 2: isn't CSV: unexpected end of data"),
    *((",".join(names).encode(), f", row 1: has no columns a, b; its columns are {', '.join(names[:12])}{more}")
      for names, more in (("cdefghijklmn", ""), ("cdefghijklmno", ", ..."))),
])
def test_faults_tell_the_row(text, says):
    assert_fault(f"table.csv{says}", rows, text)


def test_gzip():
    """A file, and standard input: whole, cut off, and with a byte changed in what is packed, in its checksum and its length."""
    path, packed = pathlib.Path("table.csv"), gzip.compress(b"a,b\n1,2\n", mtime=0)
    changed = [packed[:place] + bytes([packed[place] ^ 255]) + packed[place:][1:] for place in (10, -8, -4)]
    for data in (packed, packed[:-9], *changed):
        path.write_bytes(data)
        for name in (path, "-"):
            refused = pytest.raises(DomethymeError, match="isn't a whole file of gzip")
            with open(path) as stream, mock.patch("sys.stdin", stream), contextlib.nullcontext() if data == packed else refused:
                with csv_tables.open_table(name, "ab") as found:
                    assert list(found) == [(2, {"a": "1", "b": "2"})]


def test_numbers():
    parse_int, parse_float = csv_tables.parse_int, csv_tables.parse_float
    assert [parse_int("-3", "n", "f", 1, -5, 5), parse_int(b"+007", "n", "f", 1), parse_float("1.5e1", "n", "f", 1)] == [-3, 7, 15.0]
    assert [*map(csv_tables.escape_formula, ("-1.5e-7", "+.5", "-5.", "-"))] == ["-1.5e-7", "+.5", "'-5.", "'-"]
    for text in ("", "1_0", "1.0", "٣", "x" * 40, "x" * 41, "9" * 5000):
        shown = repr(text if len(text) <= 40 else text[:40] + "..")
        assert_fault(f"f, row 1: n {shown} isn't an integer", parse_int, text, "n", "f", 1)
    for says, call, text, *ends in (
        ("6 isn't from 0 to 5", parse_int, "6", 0, 5), ("-1 isn't from 0 to 4294967295", parse_int, "-1"),
        ("'181' isn't from -180 to 180", parse_float, "181", -180, 180), ("'nan' is no finite number", parse_float, "nan"),
        *((f"{text!r} is not a number", parse_float, text) for text in ("x", "1_0", "\N{FULLWIDTH DIGIT FIVE}0"))):
        assert_fault(f"f, row 1: n {says}", call, text, "n", "f", 1, *ends)


# By the names of files their readers, and their texts and what is said of them.
READERS = {"n.nodes.csv": lambda path: from_tables.read_nodes(path, is_beside_graph=True), "n.co": from_tables.read_co,
           "n.gr": dimacs.read_graph}
HEAD = "node,osm,lon,lat\n"
FAULTS = {
    "n.nodes.csv": [
        (HEAD + "2,,0,0\n", ", row 2: has node '2' where node 1 comes next"),
        (HEAD + "1,x,0,0\n", ", row 2: osm 'x' isn't an integer"),
        (HEAD + "1,,0,0\n2,,0,91\n", ", row 3: lat '91' isn't from -90 to 90"),
    ],
    "n.co": [
        ("v 1 0 0\n", ", row 1: is no line of coordinates before the line `p aux sp co N`"), ("", ": has no line `p aux sp co N`"),
        ("p aux sp p2p 2\n", ", row 1: is no problem line `p aux sp co NUMBER`"),
        ("p aux sp co 2\nv 1 0 0\n", ": has no coordinates of node 2"),
        ("p aux sp co 1\nv 2 0 0\n", ", row 2: node 2 isn't from 1 to 1"),
        *((f"p aux sp co 1\n{line}\n", ", row 2: is no line of coordinates") for line in ("v 1 0 0 0", "p aux sp co 1")),
    ],
    "n.gr": [
        ("c only\n", ": has no line `p sp NODES ARCS`"), ("a 1 2 3\n", ", row 1: is no line of a graph"),
        *((f"p sp 2 1\n{line}\n", ", row 2: is no line of a graph") for line in ("a 1 2 3 4", "p sp 2 1")),
        *((f"cc p\n\np sp 2 1\na {ends} 3\n", f", row 4: node {far} isn't from 1 to 2") for ends, far in (("1 3", 3), ("0 1", 0))),
        ("p sp 33554433 0\n", ", row 1: the number of nodes 33554433 isn't from 0 to 33554432"),
        *((f"p sp {nodes} 134217729\n", ", row 1: the number of arcs 134217729 isn't from 0 to 134217728") for nodes in (1, 2)),
        ("p sp 2 1\na 1 2 4294967296\n", ", row 2: weight 4294967296 isn't from 0 to 4294967295"),
        *((f"p sp 2 {announced}\n" + "a 1 2 3\n" * there, f": has {there} arcs and announces {announced}")
          for there, announced in ((1, 2), (0, 134217728), (2, 1))),
    ],
}


@pytest.mark.parametrize("name, text, says", [(name, text, says) for name, some in FAULTS.items() for text, says in some])
def test_faults(write, name, text, says):
    write(name, text)
    assert_fault(f"{name}{says}", READERS[name], name)


def test_words_that_name_no_network(write):
    by = "name the network by the prefix of its files"
    for word, says in [("li.gr", f"is a graph: {by}, li, or a file of coordinates, li.co"), ("li.rch", f"is a hierarchy: {by}"),
                       *((word, f"{by}, li") for word in ("li.net", "li.nodes.csv", "li.arcs.csv"))]:
        assert_fault(f"{word}: {says}", tables.nodes_file, word)
    words = ("li", "li.co", "li.co.gz")
    assert [tables.nodes_file(word) for word in words] == ["li.nodes.csv", "li.co", "li.co.gz"]
    assert [tables.arcs_file(word) for word in words] == ["li.arcs.csv", "li.gr", "li.gr"]
    for there in ("li.gr.gz", "li.gr"):  # (the one that isn't packed is taken where both are there)
        write(there, "")
        assert [tables.graph_of(word) for word in words[1:]] == [there] * 2


def test_attributions(write):
    for text, wanted in [("c by hand\nc attribution:  \u00a9 A: B \nc attribution: C\np sp 1 0\n", "\u00a9 A: B"),
                         ("p sp 1 0\nc attribution: A\n", ""), ("", "")]:
        write("n.gr", text)
        assert [tables.read_attribution(word) for word in ("n", "n.co", "none")] == [wanted, wanted, ""]


def test_there_and_back(write):
    nodes = """node,osm,lon,lat,ends
1,12000000005,-180.0000000,-90.0000000,
2,,0.1234567,0.0000000,from
3,-7,180.0000000,90.0000000,no
"""
    arcs = """from,to,weight,seconds,metres,osm,highway,name,ref,junction,destination,structure,toll,WKT
1,2,16012,16.012,222.39,10000000101,tertiary,"High ""Street"", N",,,'=x,,,"LINESTRING (-180.0000000 -89.9999999, 0.1234567 0.0000001)"
2,1,1,0.000,0.00,-5,residential,,,,,,yes,"LINESTRING (0.1234567 0.0000000, -180.0000000 -90.0000000)"
"""
    write("n.nodes.csv", nodes)
    write("n.arcs.csv", arcs)
    network, again = from_tables.arrays_from_tables("n"), pathlib.Path("again")
    for made, text in ((table_files.write_nodes, nodes), (table_files.write_arcs, arcs)):
        with atomic_files.atomic_write(again) as file:
            made(file, network)
        assert again.read_text() == text
    with atomic_files.atomic_write(again, "wb") as file:
        dimacs.write_graph(file, 3, [[0, 0, 2], [1, 1, 2], [7, 8, 1]], ["a comment"])
    assert again.read_text() == "c a comment\np sp 3 3\na 1 2 7\na 1 2 8\na 3 3 1\n"
    assert dimacs.read_graph(again) == dimacs.GraphLists(3, [0, 0, 2], [1, 1, 2], [7, 8, 1])
    write("ny.co", "c New York\np aux sp co 2\nv 2 -73530767 41085396\nv 1 -73530538 41086098\n")
    assert from_tables.read_co("ny.co").tolist() == [[-735305380, 410860980], [-735307670, 410853960]]


def test_lines():
    """Over the 180th meridian each part ends where the line crosses it, and is more than a point."""
    points = [(-0.0016667, 0.0), (9.5, 47.1878542)]
    assert geo.format_linestring(points) == "LINESTRING (-0.0016667 0.0000000, 9.5000000 47.1878542)"
    assert geo.parse_linestring(geo.format_linestring(points)) == points
    assert geo.parse_linestring(" LineString(1 2,-3  4.5)\n") == [(1.0, 2.0), (-3.0, 4.5)]
    bodies = ("(1 2)", "(1_0 2, 3 4)", "(1 2, 3)", "(1 2, 3 4", "EMPTY", "(1 2, 3 4) 5", "(1 2, 3 x)")
    for text in ("", "POINT (1 2, 3 4)", *(f"LINESTRING {body}" for body in bodies)):
        assert_fault(f"f, row 7: WKT {text!r} is no line", geo.parse_linestring, text, "f", 7)
    west, east, cut = (179.9, 10.0), (-179.7, 14.0), [(-180.0, 11.0), (180.0, 11.0)]
    for line, parts in (([west, east, west], [[west, cut[1]], [cut[0], east, cut[0]], [cut[1], west]]),
                        ([(180.0, 5.0), (-179.9, 6.0)], [[(-180.0, 5.0), (-179.9, 6.0)]]),
                        ([(179.9, 5.0), (180.0, 6.0)], [[(179.9, 5.0), (180.0, 6.0)]])):
        assert geo.split_at_antimeridian(line) == parts


def found_program(named=None, **environment):
    with mock.patch.dict(os.environ, {"PATH": "/nowhere", **environment}, clear=True):
        return find_program(named)


def test_which_program_is_found(write, tmp_path):
    named, told, on_path, inside, built = paths = [tmp_path / name for name in ("named", "told", "routecli", "in", "built")]
    for path in paths:
        path.write_text("#!/bin/sh\n")
        path.chmod(0o755)
    environment, path = {"ROUTECLI": str(told), "PATH": str(tmp_path)}, {"PATH": str(tmp_path)}
    assert [found_program(str(named), **environment), found_program(**environment), found_program(**path)] == [*map(str, paths[:3])]
    with mock.patch.multiple(program, INSIDE=inside, BUILT=built):
        assert found_program("./named", **environment) == f"{os.getcwd()}/named"
        assert [found_program(**environment), found_program(**path)] == [str(told), str(inside)]
        inside.unlink()
        assert [found_program(**path), found_program(ROUTECLI="")] == [str(on_path), str(built)]
    write("text", "no program")
    assert_fault(f"{tmp_path}/text: is no program that can be run", found_program, str(tmp_path / "text"))
    assert_fault("/none: is no program that can be run", lambda: found_program(ROUTECLI="/none"))


def test_progress_in_pieces():
    """Figures that a program shows at a terminal are reported, in whatever pieces they come, and the rest is what it said."""
    lines = [f"\x1b[?7l\r{done} %: {done} of 100 nodes\x1b[K\x1b[?7h" for done in (3, 10, 100)]
    text = f"routecli: warning: first\n{''.join(lines)}\r\x1b[Kroutecli: graph: last\n".encode()
    for size in (1, 7, len(text)):
        told, pieces = [], [text[begin : begin + size] for begin in range(0, len(text), size)]
        with mock.patch.object(program, "read_terminal", side_effect=[*pieces, b""]):
            said = program.read_shown(0, lambda *now: told.append(now), "prepare")
        assert said == b"routecli: warning: first\nroutecli: graph: last\n"
        assert told == [("prepare", done, 100) for done in (3, 10, 100)]
