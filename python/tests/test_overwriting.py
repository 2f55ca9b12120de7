"""Tests that no tool overwrites or removes a file of its user: outputs that are inputs, and tables that no tool has written."""
import argparse
import itertools
import os
import pathlib
import subprocess
import sys

import pytest
from draws import assert_refused, run_tool
from tool_case import TOOLS, VILLAGE

import domethyme
from domethyme.network import from_tables, net_file

pytestmark = pytest.mark.timeout(600)
NODES = "node,lon,lat\ndepot,0,0\nshop,0.001,0\n"
ARCS = "from,to,kmh\ndepot,shop,50\nshop,depot,50\n"
TRIPS = "from_lon,from_lat,to_lon,to_lat\n0,0,0.001,0\n"


# A call of each tool, and the files that it writes.
CALLS = [
    ("routes net net.rch trips.csv -o out.geojson", "out.geojson"),
    ("table net net.rch places.csv trips.csv -o out.npy --metres more.npy", "out.npy more.npy"),
    ("reach net net.rch places.csv -o out", "out"), ("match net net.rch places.csv -o out", "out"),
    ("reweigh net places.csv out --unmatched more", "out.gr out.net more"), ("without net toll out", "out"),
    ("draw net answers out.svg", "out.svg"), ("page net net.rch out.html", "out.html"), ("draw x.co answers out.svg", "out.svg"),
    ("to_network places.csv trips.csv out --tables", "out.gr out.net out.nodes.csv out.arcs.csv out.arcs.prj"),
    ("osm_to_gr answers out --profile own.json --tables", "out.gr out.net out.nodes.csv out.arcs.csv out.nodes.csvt"),
]
BESIDE = {"net": ["net.net", "net.gr", "net.nodes.csv", "net.arcs.csv"], "x.co": ["x.gr"]}


@pytest.mark.parametrize("call, outputs", CALLS, ids=[call.split()[0] for call, _ in CALLS])
def test_no_output_is_an_input(tmp_path, monkeypatch, call, outputs):
    """By none of its names: the call is refused before anything is read, and nothing is written."""
    monkeypatch.chdir(tmp_path)
    tool, *words = call.split()
    inputs = "net.rch", "answers", ".csv", ".json", ".co"
    files = [*(name for word in words for name in BESIDE.get(word, [])), *(word for word in words if word.endswith(inputs))]
    for name in files:
        (tmp_path / name).write_text(name)
    with pytest.raises((domethyme.DomethymeError, ValueError)):  # (of the files, not of the words)
        run_tool(tool, *words)
    for output, name in itertools.product(outputs.split(), files):
        os.link(name, output)
        with pytest.raises(SystemExit) as ended:
            run_tool(tool, *words)
        assert ended.value.code == 2 and {path.name: path.read_text() for path in tmp_path.iterdir()} == {**{each: each for each in files}, output: name}
        os.unlink(output)


# Calls whose outputs are one file, or standard output.
TWICE = [
    "reweigh net places.csv out --unmatched out.gr", "reweigh net places.csv out --unmatched ./out.net",
    "table net net.rch places.csv trips.csv -o out --metres ./out", "table net net.rch places.csv trips.csv -o out --metres out",
    "table net net.rch places.csv trips.csv --metres -", "table net net.rch places.csv trips.csv -o /dev/stdout --metres -",
    "table net net.rch a.csv b.csv -o - --metres /dev/fd/1", "table net net.rch a.csv b.csv -o /dev/fd/1 --metres /dev/stdout"
]


@pytest.mark.parametrize("call, outputs", [*((call, "") for call in TWICE), *(row for row in CALLS if " " in row[1])])
def test_no_output_is_another(tmp_path, monkeypatch, call, outputs):
    """By none of its names: the call is refused before anything is read, and nothing is written."""
    monkeypatch.chdir(tmp_path)
    monkeypatch.setattr(argparse.ArgumentParser, "error", lambda _, text: sys.exit(text))
    tool, *words = call.split()
    for link, name in itertools.permutations(outputs.split(), 2) if outputs else [("link", "nothing")]:
        os.symlink(name, link)
        with pytest.raises(SystemExit, match="one would be written over the other"):
            run_tool(tool, *words)
        assert os.listdir() == [link]
        os.unlink(link)


@pytest.fixture
def folder(tmp_path, monkeypatch):
    """The folder in which the test runs, with tables of a user."""
    monkeypatch.chdir(tmp_path)
    for name, text in (("firm.nodes.csv", NODES), ("firm.arcs.csv", ARCS), ("trips.csv", TRIPS)):
        (tmp_path / name).write_text(text)
    return tmp_path


def contents():
    return {path: path.read_bytes() for path in pathlib.Path().iterdir()}


def test_standard_input_and_output(folder):
    """What is written to a file is behind what it has already; a full disk is named."""
    run_tool("to_network", "firm.nodes.csv", "firm.arcs.csv", "net")
    domethyme.prepare("net.gr", "net.rch", workers=1).close()
    (folder / "places.csv").write_text("lon,lat\n0,0\n0.001,0\n")
    before, table = contents(), [TOOLS / "table", "net", "net.rch", "places.csv"]
    with open("trips.csv", encoding="utf-8") as trips:
        ended = subprocess.run([*table, "-", "-o", "trips.csv"], stdin=trips, capture_output=True, text=True)
    assert (ended.returncode, contents()) == (2, before)
    assert "trips.csv and standard input are one file: it would be overwritten" in ended.stderr
    table.append("places.csv")
    for output in (subprocess.PIPE, subprocess.DEVNULL):
        subprocess.run([*table, "-o", "/dev/null", "--metres", "/dev/null"], stdout=output, check=True)
    with open("told", "w") as file:
        for output in ("-", "/dev/stdout", "/dev/fd/1", "/proc/self/fd/1", "/dev/stderr", "/dev/fd/2"):
            subprocess.run([*table, "-o", output], stdout=file, stderr=file, check=True)
    assert pathlib.Path("told").read_text() == 6 * "from,1,2\n1,0,8006\n2,8006,0\n"
    ended = subprocess.run([*table, "-o", "/dev/full"], capture_output=True, text=True)
    assert (ended.returncode, ended.stderr) == (1, "table: /dev/full: No space left on device\n")


def test_tables_of_a_user(folder):
    """They are neither overwritten nor removed, and are never read in place of the network's file."""
    before = contents()
    run_tool("osm_to_gr", VILLAGE, "firm")
    assert {path: text for path, text in contents().items() if path.suffix == ".csv"} == before
    assert len(from_tables.load_network("firm").node_osm) > 10
    (folder / "other.csv").write_text(NODES)
    (folder / "others.csv").write_text(ARCS)
    assert_refused("to_network", "other.csv", "firm.arcs.csv", "firm", "--tables", says="")
    for words in (("osm_to_gr", VILLAGE), ("to_network", "other.csv", "others.csv")):
        assert_refused(*words, "firm", "--tables", says="firm.nodes.csv: is there, and no tool has written it")
    assert "weight" in domethyme.Network("firm").arcs_frame().columns


def test_tables_that_a_tool_has_written(folder):
    run_tool("osm_to_gr", VILLAGE, "v", "--tables")
    (folder / "bare.osm").write_text("<osm version='0.6'/>")
    assert_refused("osm_to_gr", "bare.osm", "v", says="has no road")
    own, calls = folder / "v.arcs.prj", (("osm_to_gr", VILLAGE), ("to_network", "firm.nodes.csv", "firm.arcs.csv"))
    own.write_text("my own")
    said = run_tool("osm_to_gr", VILLAGE, "v")[1]
    assert "osm_to_gr: removed v.nodes.csv, v.arcs.csv, v.nodes.csvt, v.nodes.prj, v.arcs.csvt, which were of" in said
    assert sorted(path.suffix for path in folder.glob("v.*")) == [".gr", ".net", ".prj"]
    for words in calls:
        assert_refused(*words, "v", "--tables", says="v.arcs.prj: is there, and no tool has written it: move it, or choose")
    own.unlink()
    run_tool("osm_to_gr", VILLAGE, "v", "--tables")
    with open("v.arcs.csv", "a", encoding="utf-8") as file:
        file.write("1,2,7,1,1,0,,,\n")
    for words in ((*calls[0], "v"), (*calls[1], "v", "--tables")):
        assert_refused(*words, says="has changed since v.net was made of it: move it, or choose another OUT")


def test_own_tables_that_were_edited(folder):
    """Beside the network that was made of both, whose side of the road stays, or of one: a sentence, and no other table is read."""
    tables = ("firm.nodes.csv", "firm.arcs.csv"), ("others.csv", "edit.arcs.csv"), ("more.nodes.csv", "others.csv")
    for net, (nodes, arcs) in zip(("firm", "edit", "more"), tables):
        for name, text in ((nodes, NODES), (arcs, ARCS)):
            (folder / name).write_text(text)
        run_tool("to_network", nodes, arcs, net, "--driving-side", "left")
        assert domethyme.Network(net).nearest(0.001, 0)[0] == 1
        edited = nodes if arcs == "others.csv" else arcs
        (folder / edited).write_text((folder / edited).read_text() + "\n")
        says = f"{edited}: has changed since {net}.net was made of it: run `to_network` again"
        assert_refused("without", net, "toll", "out.gr", says=says)
        with pytest.raises(domethyme.NetworkError, match=says):
            domethyme.Network(net).arcs_frame()
        run_tool("to_network", nodes, arcs, net)
        assert domethyme.Network(net).nearest(0.001, 0)[0] == 1
        assert net_file.read(f"{net}.net").driving_side == ("left" if net == "firm" else "right")
    assert domethyme.Network("firm").arcs_frame()["from"].tolist() == [0, 1]
