"""Networks of drawn maps, whose ways have tags of all kinds, are those of the model."""
import json
import math
import pathlib
import re
import tempfile
from collections import Counter
from collections.abc import Sequence
from typing import Any
from unittest import mock
from xml.sax.saxutils import quoteattr

import numpy as np
import pandas
import pytest
from comparing import difference
from draws import ORIGINS, drawn, run_tool
from hypothesis import given
from hypothesis import strategies as st
from model.conversion import Arc, Map, Node, convert, largest, rules_of, split
from model.network import Ambiguous
from model.sphere import Point
from model.vehicles import duration, is_barrier, is_road, limit, speeds
from test_profiles import BARRIERS, VEHICLES, tags_of, ways_of
from tool_case import IN_TABLES, PYTHON

import domethyme
from domethyme.dimacs import read_graph
from domethyme.errors import MapError
from domethyme.maps import vehicle_profile
from domethyme.network import from_tables, parallel
from domethyme.network.columns import TEXTS

pytestmark = pytest.mark.timeout(300)

# What tags of ways may be, beside those of test_profiles.
ACCESS = ["yes", "no", "private", "destination", "delivery", "agricultural; forestry", "agricultural;yes", "bicycle", "dismount"]
SPEEDS = """ 30 mph |45mph|10 knots|70.5kph|50 km/h|40kmh| 50 |none|walk|DE:urban|RO:rural|XY:rural|DE:zone:30|NL:zone60|
    DE:variable|signals|-50|0|0.9|1|1000|1001""".replace("\n    ", "").split("|")
LIMITS = """3.9|4|380 cm|11'6"|13' 1"|13'2"|12' 6.5"|12'|12.5 ft|4.1m|3,5|tall|7.5 t|39999 kg|40 st|45 st|39 lt|88000 lbs|700 cwt|0|
    none|no|default|unsigned|no_sign|unspecified""".replace("\n    ", "").split("|")
NAMES = {
    "name": ["High  Street", "\u2003", " =1+1 ", "Rue \u00e9"], "ref": ["B 1", " M2;E3", ""], "destination": ["X;Y ", ""],
    "junction": [" yes  x"], "tunnel": ["no", "yes", "passage"], "bridge": ["viaduct", "no"], "toll": ["yes", "no", "hgv"],
}
TAGS = NAMES | {
    **dict.fromkeys(("access", "vehicle", "motor_vehicle", "motorcar", "hgv", "bicycle", "foot"), ACCESS),
    **dict.fromkeys(("maxspeed", "maxspeed:forward", "maxspeed:backward", "maxspeed:hgv", "maxspeed:hgv:backward"), SPEEDS),
    **dict.fromkeys(("maxheight", "maxwidth", "maxlength", "maxbogieweight", "maxweightrating:hgv", "maxaxleload"), LIMITS),
    **dict.fromkeys(("oneway", "oneway:bicycle", "oneway:foot"), "yes true 1 -1 reverse no reversible alternating".split()),
    "junction": ["roundabout", "circular"], "area": ["yes", "no"], "surface": ["gravel", "mud", "asphalt", "sand"],
    "cycleway": ["opposite", "lane"], "cycleway:left:oneway": ["-1", "yes"], "motorroad": ["yes", "no"], "route": ["ferry", "bus"],
}
PAIRS = [(key, value) for key, values in TAGS.items() for value in values]
PAIRS += [(key, value) for tags in (tags_of(row[0]) for row in BARRIERS) for key, value in tags.items() if key == "barrier"]
PAIRS += [("highway", kind) for kind in "motorway trunk residential footway cycleway service construction ferry".split()]
DURATIONS = ["1:30", "0:07", " 00:02:30", "100:00:01", "PT2M5S", "PT1H", "3", "0", "PT", "P1D", "12345", "1:60", "1:2"]
TURNS = """restriction=no_left_turn|restriction=only_right_turn|restriction=only_straight_on|restriction=no_u_turn|restriction=stop|
    restriction:hgv=no_entry|restriction=no_exit except=bicycle|restriction=only_u_turn except=x;~motor_vehicle|
    restriction:foot=no_left_turn|restriction:conditional=no_left_turn|restriction:motorcar=give_way restriction=no_entry|
    restriction:bicycle=no_u_turn|restriction:motor_vehicle=no_straight_on|type=route restriction=no_entry""".split("|")
# Members that a profile may have in place of its own.
MEMBERS = {
    "turns": [{"left": 500, "right": 200, "back": 2000}, {"left": 0, "right": 0}, {"back": 1}], "driving_side": ["left", "right"],
    "mode": ["driving", "walking"], "fastest": [20, 60.5], "surfaces": [{"mud": 4}], "barriers": [["gate"]],
    "closed_by": [["motorroad=yes"], []], "only_where_allowed": [["primary"]], "both_ways": [["cycleway=opposite"]],
    "oneway": [["oneway", "oneway:foot"]], "restrictions": [["restriction:foot", "restriction:hgv"]],
    "maxspeed": [["maxspeed:hgv", "maxspeed"], []], "maxspeed_words": [{"*:urban": 44, "DE:urban": 45.5, "signals": 10}],
    "measures": [{"maxheight": 4, "maxbogieweight": 7.5}], "oneway_highways": [["primary"]],
}


@st.composite
def profiles(draw: Any) -> dict[str, Any]:
    """The members of a profile."""
    path = PYTHON / f"domethyme/maps/profiles/{draw(st.sampled_from(VEHICLES))}.json"
    names = draw(st.sets(st.sampled_from([*["turns"] * 4, *sorted(MEMBERS)]), max_size=3))
    return json.loads(path.read_text(encoding="utf-8")) | {name: draw(st.sampled_from(MEMBERS[name])) for name in sorted(names)}


@st.composite
def maps(draw: Any) -> Map:
    """A map of ways that meet, pass barriers and the same nodes again, name nodes that it lacks, and are cut at nodes."""
    origin, first = draw(st.sampled_from([(9.5, 70.1), ORIGINS[1], (0.0, 0.0003)])), draw(st.sampled_from([1, -40, 1 << 33, (1 << 62) + 1]))
    # (in units of a degree, 8 of which are a step, so that few cuts are between two of them)
    step, grain = draw(st.sampled_from([(st.integers(-40, 40), 1000), (st.integers(-2, 2), 20_000)]))
    steps = draw(st.lists(st.tuples(step, step, st.sampled_from([0, 0, 8])), min_size=2, max_size=9))
    wide = grain / math.cos(math.radians(origin[1])) / 8
    units = [(8 * round(wide * east), north * grain + more) for east, north, more in steps]
    places = [(math.remainder(origin[0] + east * 1e-7, 360), origin[1] + north * 1e-7) for east, north in units]
    barriers = st.one_of(st.just({}), st.just({}), st.just({}), st.sampled_from([tags_of(row[0]) for row in BARRIERS]))
    nodes = {number: ((round(lon, 7), round(lat, 7)), draw(barriers)) for number, (lon, lat) in enumerate(places, first)}
    refs = st.lists(st.sampled_from([*nodes, first + len(nodes)]), min_size=1, max_size=6)
    ends, ways, relations = st.lists(st.sampled_from([*nodes]), min_size=2, max_size=3), {}, []
    kinds = [tags_of(text) for name in VEHICLES for text, *_ in ways_of(name)]
    for way in range(draw(st.integers(1, 9))):
        tags: dict[str, str] = {"highway": draw(st.sampled_from(["residential", "primary", "tertiary"]))}
        kind = draw(st.sampled_from(["plain", "plain", "more", "more", "texts", "page", "ferry"]))
        tags = {"ferry": {"route": "ferry"}, "page": tags | draw(st.sampled_from(kinds))}.get(kind, tags)
        texts = {"plain": {}, "texts": NAMES, "ferry": {"duration": DURATIONS}}.get(kind, TAGS)
        keys = draw(st.lists(st.sampled_from([*texts]), min_size=kind == "ferry", max_size=5)) if texts else []
        ways[first + way] = draw(st.one_of(refs, ends)), tags | {key: draw(st.sampled_from(texts[key])) for key in keys}
    for _ in range(draw(st.sampled_from([0, 1, 3, 6]))):
        via = draw(st.sampled_from([*nodes]))
        near = [way for way, (line, _) in ways.items() if via in (line[0], line[-1])] or [*ways]
        start, tags = draw(st.sampled_from(near)), {"type": "restriction", **tags_of(draw(st.sampled_from(TURNS)))}
        for stop in draw(st.lists(st.sampled_from([*near * 3, first + 30]), min_size=1, max_size=2)):
            some = [("w", start, "from"), ("n", via, "via"), ("w", stop, "to")]
            more = ("w", near[0], "from"), ("n", via, "to"), ("n", via, "via"), ("w", via, "where"), ("w", via, "via")
            some += draw(st.sampled_from([[], [], [], *([member] for member in more)]))
            relations.append((tags, some[:1] + some[2:] if draw(st.integers(0, 20)) == 0 else some))
    return Map(nodes, ways, relations)


def xml_of(made: Map, is_turned: bool) -> str:
    """The text of a map; turned round, its nodes come last."""
    def element(name: str, number: int, tags: Any, more: str = "", inner: str = "") -> str:
        text = "".join(f"<tag k={quoteattr(key)} v={quoteattr(value)}/>" for key, value in tags.items())
        return f"<{name} id='{number}'{more}>{inner}{text}</{name}>"

    kinds = {"w": "way", "n": "node"}
    nodes = [element("node", node, tags, f" lon='{lon:.7f}' lat='{lat:.7f}'") for node, ((lon, lat), tags) in made.nodes.items()]
    lines = []
    for way, (refs, tags) in made.ways.items():
        lines.append(element("way", way, tags, inner="".join(f"<nd ref='{ref}'/>" for ref in refs)))
    for number, (tags, members) in enumerate(made.relations):
        rows = (f"<member type='{kinds[kind]}' ref='{ref}' role='{role}'/>" for kind, ref, role in members)
        lines.append(element("relation", number, tags, inner="".join(rows)))
    return f"<osm version='0.6'>{''.join(lines + nodes[::-1] if is_turned else nodes + lines)}</osm>"


def rows_of_file(network: Any) -> dict[str, list[Any]]:
    """The nodes and arcs of a network's file, with places as texts."""
    nodes, arcs = network.nodes_frame(), network.arcs_frame()
    columns = [[None if value is pandas.NA else value for value in nodes[name].tolist()] for name in ("osm", "lon", "lat", "ends")]
    of_arcs = (arcs[name].tolist() for name in ("from", "to", "weight", "seconds", "metres", "osm", *TEXTS, "WKT"))
    return {"nodes": [(osm, wkt([(lon, lat)]), ends) for osm, lon, lat, ends in zip(*columns)], "arcs": [*zip(*of_arcs)]}


def rows_of(nodes: list[Node], arcs: list[Arc], weight: str) -> dict[str, list[Any]]:
    """The same of the model's."""
    rows = []
    for arc in arcs:
        number = max(1, round(amount_of(arc, weight))) + 10 * arc.penalty * (weight == "time")
        figures = number, round(amount_of(arc, "time") / 1000 + arc.penalty / 100, 3), round(arc.metres, 2)
        rows.append((arc.start, arc.end, *figures, arc.way, *arc.texts, wkt(arc.line)))
    return {"nodes": [(node.osm, wkt([node.place]), node.ends) for node in nodes], "arcs": rows}


def amount_of(arc: Arc, weight: str) -> float:
    """The milliseconds of an arc, or its centimetres, without a penalty."""
    return arc.metres * 3600 / arc.kmh if weight == "time" else arc.metres * 100


def wkt(line: Sequence[Point]) -> str:
    return f"LINESTRING ({', '.join(f'{lon + 0.0:.7f} {lat + 0.0:.7f}' for lon, lat in line)})"


@drawn(150)
@given(profiles(), st.lists(st.lists(st.sampled_from(PAIRS), max_size=5), min_size=20, max_size=20), st.sampled_from(DURATIONS))
def test_rules(members: dict[str, Any], rows: list[list[tuple[str, str]]], text: str) -> None:
    """Of ways, barriers and limits, by the tags that are read."""
    profile = vehicle_profile.validate_profile(dict(members), "own.json")
    for row in rows:
        tags = {"highway": "primary", **dict(row)}
        found = vehicle_profile.judge({key: tags[key] for key in vehicle_profile.way_keys(profile) if key in tags}, profile)
        assert (found.refusal or [found.forward, found.backward]) == speeds(tags, members), (tags, members)
        assert vehicle_profile.blocks_way(tags, profile) == is_barrier(tags, members), (tags, members)
        for key, value in tags.items() & {pair for pair in PAIRS if pair[1] in LIMITS}:
            assert vehicle_profile.limit_of(key, value) == limit(key, value)
    for kind in ("ferry", "primary"):
        tags = {"highway": kind, "duration": text}
        assert np.nan_to_num(vehicle_profile.seconds_of(tags)) == duration(tags)


@drawn(100)
@given(st.data())
def test_networks(data: Any) -> None:
    made, profile = data.draw(maps()), data.draw(profiles())
    weight, longest = data.draw(st.sampled_from(["time", "length"])), data.draw(st.sampled_from([90, 250, 2000]))
    ignore, islands, rows = data.draw(st.integers(0, 3)) == 0, data.draw(st.booleans()), data.draw(st.sampled_from([1, 7, 1 << 16]))
    assert_network(made, profile, longest, weight, ignore, islands, rows, data.draw(st.booleans()))


# Nodes in units of a degree, ways, and the longest arc.
FAR_IDS = [*range(-150, 0), *(number << 40 for number in range(1, 40)), *range((1 << 62) + 7, (1 << 62) + 60)]
RARE = {
    "steps without a length at a junction": (
        {1: (0, 0), 2: (4000, 0), 3: (4000, 3000), 4: (4000, 3000), 5: (4000, 3000), 6: (8000, 3000), 7: (4000, 7000),
         8: (4000, 3000), 9: (1000, 3500)}, [(1, 2, 3, 4, 5), (5, 6), (5, 7), (5, 8, 9)], 2000),
    "cuts within a millimetre of a node, and a little more": (
        {0: (0, 0), 4: (23_001, 0), **{number: (1000 * number + (number > 9), 0) for number in (1, 2, 3, 20, 21, 22)},
         5: (0, 100), 6: (1000, 100), 7: (10_001, 100), 8: (11_001, 100)}, [(0, 1, 2, 3, 20, 21, 22, 4), (5, 6, 7, 8)], 11.13),
    "ids far apart, which most ways share, and some aren't there": (
        {osm: (1000 * (place % 17), 900 * (place // 17)) for place, osm in enumerate(FAR_IDS) if place % 9},
        [*zip(FAR_IDS, FAR_IDS[1:], FAR_IDS[2:], FAR_IDS[80:]), tuple(FAR_IDS[::-7])], 2000),
}


@pytest.mark.parametrize("nodes, ways, longest", RARE.values(), ids=RARE)
def test_rare_networks(nodes: dict[int, tuple[int, int]], ways: list[tuple[int, ...]], longest: float) -> None:
    places = {osm: ((round(east * 1e-7, 7), round(north * 1e-7, 7)), dict[str, str]()) for osm, (east, north) in nodes.items()}
    made = Map(places, {way: (refs, {"highway": "primary"}) for way, refs in enumerate(ways, 1)}, [])
    profile = json.loads((PYTHON / "domethyme/maps/profiles/car.json").read_text(encoding="utf-8")) | {"turns": MEMBERS["turns"][0]}
    assert_network(made, profile, longest, "time", False, True, 7, False)


def assert_network(
    made: Map, profile: Any, longest: float, weight: str, ignore: bool, islands: bool, rows: int, is_turned: bool
) -> None:
    """By any profile, with and without islands, however long the parts are that threads make; and what is said. The file has the
    arrays that the reader of tables makes."""
    try:
        nodes, arcs = convert(made, profile, longest)
    except Ambiguous:
        return
    rules, others = rules_of(made, profile)
    arcs = split(nodes, arcs, {} if ignore else rules, profile.get("turns", {}))
    candidates = [(nodes, arcs)] if islands else [*largest(nodes, arcs)]
    words = ["--weight", weight, "--longest-arc", longest, *["--ignore-turn-restrictions"] * ignore, *["--keep-islands"] * islands]
    with tempfile.TemporaryDirectory() as name, mock.patch.object(parallel, "SLICE_ROWS", rows):
        out = pathlib.Path(name, "map")
        out.with_suffix(".osm").write_text(xml_of(made, is_turned), encoding="utf-8")
        out.with_suffix(".json").write_text(json.dumps(profile))
        try:
            said = run_tool("osm_to_gr", f"{out}.osm", out, "--profile", f"{out}.json", "--tables", *words)[1]
        except MapError as error:
            assert ("has no nodes that reach one another" if arcs else "has no road that the profile takes") in str(error)
            assert not arcs or not islands and not all(some for _, some in candidates)
            return
        network, graph, of_tables = domethyme.Network(out), read_graph(f"{out}.gr"), from_tables.arrays_from_tables(str(out))
        found, arrays = rows_of_file(network), network.arrays
        for each in IN_TABLES:
            np.testing.assert_array_equal(getattr(arrays, each)[:], getattr(of_tables, each), each, strict=True)
    assert graph.nodes == len(found["nodes"])
    assert [*zip(graph.starts, graph.ends, graph.weights)] == [row[:3] for row in found["arcs"]]
    fits = [each for each in candidates if rows_of(*each, weight) == found]
    assert fits, difference(found, rows_of(*candidates[0], weight))
    assert (arrays.driving_side, arrays.mode) == (profile.get("driving_side", "right"), profile.get("mode", "driving"))
    refused = (speeds({"highway": "ferry", **tags}, profile) for _, tags in made.ways.values() if is_road(tags, profile))
    counts = Counter(reason for reason in refused if isinstance(reason, str))
    for what, count in others.items():
        counts[f"turn restrictions {what}"] = 0 if ignore and what.endswith(("left out", "the node")) else count
    counts["nodes outside the largest strongly connected component"] = len(nodes) - len(found["nodes"])
    counts["weights raised to 1"] = sum(amount_of(arc, weight) <= 0.5 for arc in fits[0][1])
    split_by = "nodes split by turns" if any(profile.get("turns", {}).values()) else "junctions split by turn restrictions"
    counts[split_by] = sum(node.ends == "from" for node in nodes)
    for what in {*counts, *re.findall("(?:ways left out (?:by|as)|turn restrictions) .*(?=:)", said)}:
        assert (f"osm_to_gr: {what}: {counts[what]}\n" in said) == (f": {what}: " in said) == (counts[what] > 0), (said, counts)
    metres = {arc.piece: arc.metres for arc in fits[0][1]}.values()
    assert f"/map: {len(found['nodes'])} nodes, {len(found['arcs'])} arcs, {sum(metres) / 1000:.1f} km of road\n" in said
