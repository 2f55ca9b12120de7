"""Networks of one's own, of tables and of DIMACS files. A thousandth of a degree is 111.195 m along the equator."""
import argparse
import math
import os
import re

import numpy as np
import pytest
from draws import drawn, run_tool
from hypothesis import given
from hypothesis import strategies as st
from test_generated_service import ask, open_service
from tool_case import VILLAGE, read_rows

import domethyme
from domethyme.csv_tables import escape_formula, unescape_formula
from domethyme.network import components, from_tables, net_file
from domethyme.network.tables import read_attribution
from domethyme_tools.cli import ToolError
from domethyme_tools.to_network import mark

pytestmark = pytest.mark.timeout(300)
NODES = "node,lon,lat\ndepot,0,0\nshop,0.001,0\n=farm,0.001,0.002\n"
STREETS = {"50,High Street,primary": ("depot,shop", "shop,depot"), "30,=Lane,residential": ("shop,=farm", "=farm,shop")}
ARCS = "".join(["from,to,kmh,name,highway\n", *(f"{ends},{street}\n" for street, rows in STREETS.items() for ends in rows)])


@drawn(400)
@given(st.text("'=+-@\t\r19.eExX", max_size=6))
def test_texts_that_sheets_take_for_formulas(text):
    """What is shown is itself again, and what begins as a formula is a number, which isn't changed."""
    shown = escape_formula(text)
    assert shown in (text, "'" + text) and unescape_formula(shown) == text
    assert shown == text or text.lstrip("'")[:1] in tuple("=+-@\t\r") and not re.fullmatch(r"[-+]?\d+(\.\d+)?", text)
    if shown[:1] in tuple("=+-@\t\r"):
        assert math.isfinite(float(shown)), shown


def test_marks():
    assert [mark(text) for text in ("tab", "\\t", "\t", ";", "|", " ")] == ["\t", "\t", "\t", ";", "|", " "]
    for text in ("", ";;", "a", "5", "é", '"', "\n", "\r"):
        with pytest.raises(argparse.ArgumentTypeError, match="is no mark"):
            mark(text)


@pytest.fixture
def folder(tmp_path, monkeypatch):
    """The folder in which the test runs, with tables."""
    monkeypatch.chdir(tmp_path)
    (tmp_path / "nodes.csv").write_text(NODES)
    (tmp_path / "arcs.csv").write_text(ARCS)
    return tmp_path


def test_tables_that_it_writes(folder):
    said = {"\udcff a\n b": "? a b", None: "? a b", "": "", "© Firm": "© Firm"}  # (a byte that isn't UTF-8; and none given)
    for attribution, wanted in said.items():
        words = [] if attribution is None else ["--attribution", attribution]
        run_tool("to_network", "nodes.csv", "arcs.csv", "net", "--tables", *words)
        assert [read_attribution("net"), net_file.read("net.net").texts[0]] == [wanted] * 2
    assert net_file.is_current("net")
    nodes, arcs = read_rows("net.nodes.csv"), read_rows("net.arcs.csv")
    assert [node.lon for node in nodes] == [0, 0.001, 0.001]
    assert [(arc.name, arc.weight, arc.seconds, arc.metres) for arc in arcs[1:3]] == [
        ("High Street", 8006, 8.006, 111.2), ("=Lane", 26687, 26.687, 222.39)]
    for name, text in (("nodes.csv", ",,'=farm\n"), ("arcs.csv", ",residential,'=Lane,"), ("nodes.prj", "GEOGCS")):
        assert text in (folder / f"net.{name}").read_text()
    assert (folder / "net.gr").read_text().startswith("c attribution: © Firm\np sp 3 4\n")
    # other tables are beside the network then: they aren't taken for others' that are given
    with pytest.raises(ToolError, match="net.nodes.csv: is there, and isn't nodes.csv"):
        run_tool("to_network", "nodes.csv", "arcs.csv", "net")


def test_what_the_tool_refuses(folder):
    (folder / "half.csv").write_text("node,lon,lat\ndepot,0,0\nshop,180,0\n=farm,90,0\n")
    with pytest.raises(ToolError, match="arcs.csv: a line leads half round the earth"):
        run_tool("to_network", "half.csv", "arcs.csv", "net")
    for out in (".", "net.net", "net.rch"):  # (a network of the second name couldn't be opened by that)
        with pytest.raises(SystemExit, match="2"):
            run_tool("to_network", "nodes.csv", "arcs.csv", out)
    assert not [*folder.glob("net*")]


def test_nodes_without_arcs():
    """Of the nodes that aren't kept, whatever the kept ones have; and the quartiles of arcs, of speeds without those of no seconds."""
    nodes = from_tables.NodeArrays({"node_lon": np.arange(4), "node_lat": np.arange(4)})
    arcs = from_tables.straight_arcs(*(np.array([each]) for each in (1, 2, 7)), nodes)
    for kept, says in ([1, 0, 0, 0], "1 of 4 nodes reach one another, and 3 don't, of which 1"), ([0, 1, 1, 0], "of which 2"):
        assert f"{says} have no arc" in components.islands(arcs, np.array(kept, bool))[0]
    columns = {"arc_metres": np.array([50, 10, 20, 40, 30]), "arc_seconds": np.array([0, 1, 1, 2, 0.5])}
    shown = [line.split(": ")[1] for line in components.quartiles(arcs._replace(columns=columns))]
    assert shown == ["10, 20, 30, 40, 50", "36, 63, 72, 108, 216"]


CO, GR = "c places\np aux sp co 3\nv 1 0 0\nv 2 1000 0\nv 3 1000 2000\n", "c roads\np sp 3 3\na 1 2 7\na 2 1 7\na 2 3 9\n"


def dimacs(folder, co=CO, gr=GR):
    """What the network of these files has, by the name of the file of coordinates, without others."""
    (folder / "x.co").write_text(co)
    (folder / "x.gr").write_text(gr)
    return domethyme.Network(folder / "x.co").arrays


@pytest.mark.parametrize("co, gr", [
    (CO.replace("v 2", "c more\nv 2"), GR), (CO.replace("v 2 1000", " v  2\t1000"), GR), (CO, GR.replace("a 2 3 9\n", "a 2 3 9")),
    (CO, GR.replace("a 2 1 7\n", "a 2 1 7 \n\nc\n")), ("p aux sp co 3\nv 3 1000 2000\nv 1 0 0\nv 2 1000 0\n", GR),
    (CO, GR.replace("1 2 7", "1 2 +7")),
])
def test_dimacs_files_in_another_form(tmp_path, co, gr):
    """Comments between, blanks, and places in another order: what the quick reader leaves to the other one."""
    found, wanted = (dimacs(tmp_path, *files).file.columns for files in ((co, gr), (CO, GR)))
    assert {name: found[name][:].tolist() for name in found} == {name: wanted[name][:].tolist() for name in wanted}


def test_a_network_of_dimacs_files(tmp_path):
    arrays = dimacs(tmp_path, gr=f"c\nc attribution: Us\n{GR}")
    columns = (arrays.arc_from, arrays.arc_to, arrays.arc_weight, arrays.arc_seconds, arrays.arc_metres)
    assert [*zip(*(column[:].tolist() for column in columns))] == [(0, 1, 7, 0, 111.2), (1, 0, 7, 0, 111.2), (1, 2, 9, 0, 222.39)]
    assert (arrays.texts[0], arrays.unit, arrays.node_lat[:].tolist()) == ("Us", "weight", [0, 0, 20_000])


@pytest.mark.parametrize("co, gr, says", [
    *((co, GR, f"co{says}") for co, says in (
        (CO.replace("v 3 1000 2000\n", ""), ": has no coordinates of node 3"), (CO + "v 1 0 0\n", ", row 6: node 1 comes twice"),
        (CO.replace("1000 0", "180000001 0"), ", row 4: x 180000001 isn't from -180000000 to 180000000"),
        (CO.replace("1000 0", f"-{1 << 63} 0"), f", row 4: x -{1 << 63} isn't from -180000000 to 180000000"),
        (CO.replace("1000 2000", "0 -90000001"), ", row 5: y -90000001 isn't from -90000000 to 90000000"),
        ("p aux sp co 0\n", ", row 1: the number of nodes 0 isn't from 1 to 33554432"))),
    *((CO, gr, f"gr{says}") for gr, says in (
        (GR.replace("a 2 3", "a 2 4"), ", row 5: node 4 isn't from 1 to 3"),
        (GR.replace("a 1", "a 0"), ", row 3: node 0 isn't from 1 to 3"),
        (GR.replace("a 1 2 7\na 2 1 7", "a 1 2\na 7 2 1 7"), ", row 3: is no line of a graph"),
        (GR.replace("a 2 3", "a 2 3-9"), ", row 5: node '3-9' isn't an integer"),
        (GR.replace("3 3", "3 4"), ": has 3 arcs and announces 4"),
        (GR.replace("p sp 3", "p sp 4"), ": has 4 nodes, and there are places of 3"),
        ("p sp 3 0\n", ": has 0 arcs, and a network has from 1 to 134217728"))),
])
def test_dimacs_files_that_are_refused(tmp_path, co, gr, says):
    with pytest.raises(domethyme.NetworkError) as refused:
        dimacs(tmp_path, co, gr)
    assert str(refused.value) == f"{tmp_path}/x.{says}"


def test_a_file_that_changes_while_it_is_served(tmp_path, caplog):
    """By a backup or `touch` answers are as they were. A damaged block is refused where a request needs it."""
    run_tool("osm_to_gr", VILLAGE, tmp_path / "v", "--keep-islands")
    domethyme.prepare(tmp_path / "v.gr", tmp_path / "v.rch", workers=1).close()
    network, service = tmp_path / "v.net", open_service(tmp_path / "v")
    paths = ("/nearest/v1/car/0.0003,0.00001", "/route/v1/car/0,0;0.008,0?steps=true", "/map/roads/15/16384/16383")
    before = [ask(service, path) for path in paths]
    os.utime(network)
    assert [ask(service, path) for path in paths] == before and [status for status, _ in before] == [200] * 3
    whole = network.read_bytes()
    place = whole.index(np.asarray(net_file.read(network).step_codes).tobytes())
    with open(network, "r+b") as file:
        file.seek(place)
        file.write(bytes([whole[place] ^ 1]))
    status, found = ask(service, paths[2])
    assert (status, found["code"], ask(service, "/health")[0]) == (500, "InternalError", 200)
    (line,) = caplog.messages
    assert line.startswith(f"{network}: is damaged: step_codes has another checksum")
