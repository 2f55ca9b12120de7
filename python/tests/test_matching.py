"""Traces by the package: on the village, where each figure is one of the drawing, and what is drawn by the model."""
import contextlib
import datetime
import itertools
import json
import math
import pathlib
import pickle
import re
import tempfile
from types import SimpleNamespace

import numpy as np
import pytest
from draws import ORIGINS, drawn, model_of, networks, places, points_near, run_tool, write_network
from hypothesis import given
from hypothesis import strategies as st
from model import matching as model_matching
from model.network import Ambiguous
from model.request import Request
from model.sphere import along, metres_between, nearest_on_segment, point_at
from tool_case import VILLAGE

import domethyme
from domethyme.network.legs import Leg
from domethyme.network.matching import Matcher, Trace, nearest_marks, parts_of

pytestmark = pytest.mark.timeout(600)
STEP = 111.195


@pytest.fixture(scope="module")
def village(tmp_path_factory):
    """The hierarchy of the village with its islands."""
    with domethyme.from_osm(VILLAGE, tmp_path_factory.mktemp("village") / "v", keep_islands=True) as hierarchy:
        yield hierarchy


@pytest.mark.parametrize("step, turn", [(0.0001, 1), (0.0001, -1), (0.0004, 1)])
def test_a_drive_along_a_street(village, monkeypatch, step, turn):
    """Each place is where it was drawn, some metres beside the street, and so is each leg's time, but for one that is too far, and one
    in another direction."""
    monkeypatch.setattr("domethyme.network.matching.STEPS_AT_ONCE", 2)
    trace = [(0.000304 + step * number, 0.00002 * (-1) ** number + 0.0002 * (number == 7)) for number in range(16)][::turn]
    bearings = np.full((16, 2), (180 - 90 * turn, 30))
    bearings[5, 0] = 0
    (way,), places = village.match(trace, deviation=np.float32(5), bearings=bearings)
    lost = 5, 7 if turn == 1 else 8
    assert way.points == [number for number in range(16) if number not in lost] and {places[each] for each in lost} == {None}
    for number, (place, (lon, lat)) in enumerate(zip(places, trace)):
        if number not in lost:
            assert metres_between((place.lon, place.lat), (lon, 0.0)) < 0.2 and place.name == "High Street"
            assert place.metres == pytest.approx(abs(lat) * 1000 * STEP, abs=0.2)
    found, whole = way.directions, village.directions([(trace[end][0], 0.0) for end in (0, -1)])
    assert found.weight == whole.weight and found.metres == pytest.approx(15 * step * 1000 * STEP, abs=0.5) and way.confidence > 0.5
    for leg, (here, there) in zip(found.legs, itertools.pairwise(way.points), strict=True):
        metres = 1000 * STEP * abs(trace[there][0] - trace[here][0])
        assert (leg.metres, leg.seconds) == pytest.approx((metres, whole.seconds / whole.metres * metres), abs=0.2)
    again = pickle.loads(pickle.dumps(way))
    assert again.geojson() == way.geojson() == way.__geo_interface__ and again.confidence == way.confidence
    assert again.points == way.geojson()["properties"]["points"] == way.points and way.directions._repr_html_() is None


def test_an_island(village):
    """Where no way leads on another one begins, but for up to three places in a row, of which there may be more in all."""
    far = [(0.020 + 0.0004 * number, 0.005) for number in (0, 1, 2, 0)]
    near = [(0.0001 + 0.0004 * number, 0.0) for number in range(6)]
    for trace, wanted in [
        (near[:3] + far[:3], [[0, 1, 2], [3, 4, 5]]), (near[:2] + far[:3] + near[2:3], [[0, 1, 5]]),
        (near[:2] + far + near[2:3], [[0, 1], [2, 3, 4, 5]]), ([*itertools.chain(*zip(near, 6 * far[:1]))], [[0, 2, 4, 6, 8, 10]]),
    ]:
        assert [way.points for way in village.match(trace).matchings] == wanted


TRACE = [(0.0001, 0.0), (0.0005, 0.0)]
REFUSED = {
    "two places or more": [{"trace": [(0, 0)]}], "-180": [{"trace": [(0, 0), (200, 0)]}], "gaps has to be": [{"gaps": "both"}],
    "above 0": [{"deviation": 0}, {"deviation": 201}], "don't fall": [{"seconds": [2, 1]}, {"seconds": [-math.inf, 1]}],
    "one for each place": [{name: some} for name, some in (
        ("deviation", [5]), ("deviation", np.array(5.0)), ("seconds", [1]), ("seconds", 5), ("bearings", [None]), ("bearings", 5))],
    "have to be numbers": [{"deviation": None}, *({"seconds": some} for some in (
        [1, math.nan], *(np.array([0, 9], kind) for kind in ("M8[ns]", "m8[ns]")), [datetime.datetime(2024, 5, 1)] * 2))],
    "a bearing is": [{"bearings": [some, None]} for some in ((400, 1), 90, ("a", 1))],
}


@pytest.mark.parametrize("says", REFUSED)
def test_arguments_that_are_refused(village, says):
    for words in REFUSED[says]:
        with pytest.raises(ValueError, match=re.escape(says)):
            village.match(**{"trace": TRACE, **words})
    assert len(village.match(TRACE, [3, 3], deviation=[200, 200]).matchings) == 1


BESIDE = "lon,lat\n0.0003,0.0003\n0.0008,0.0003\n"


@pytest.mark.parametrize("text, words, wanted", [
    (BESIDE, [], 0), (BESIDE, ["--deviation", "12"], 1),  # (without a column of them; 33 m beside the street)
    ("lon,lat\n0,0\n", [], "two places or more"), ("lon,lat,seconds\n0,0,1\n0,0,x\n", [], "row 3: seconds 'x' is not a number"),
    ("lon,lat,seconds\n0,0,1\n0,0,\n", [], "row 3: seconds '' is not a number"),
    ("lon,lat,seconds\n0,0,2\n0,0,1\n", [], "don't fall"), ("lon,lat,deviation\n0,0,\n0,0,0\n", [], "above 0"),
    *((f"lon,lat,{name},{name}\n0,0,1,5\n", [], f"has two columns {name}") for name in ("seconds", "deviation")),
])
def test_tool(village, tmp_path, text, words, wanted):
    out = tmp_path / "out"
    with contextlib.nullcontext() if isinstance(wanted, int) else pytest.raises(domethyme.FileError, match=re.escape(wanted)):
        run_tool("match", village.network.prefix, village.path, "-", *words, "-o", out, given=text)
        assert len(json.loads(out.read_text())["features"]) == wanted
    assert out.exists() == isinstance(wanted, int)


@drawn(300)
@given(st.data())
def test_places_that_decide(data):
    """What is left out as tidy, where a gap of time is, and each k-th place are the model's."""
    count, is_dense = data.draw(st.one_of(st.integers(2, 12), st.just(40))), data.draw(st.booleans())

    def some(*values):
        return data.draw(st.lists(st.sampled_from(values), min_size=count, max_size=count))

    steps = some(0, 1, 1) if is_dense else some(0, 1, 2, 5, 9, 10, 11, 20)
    places = [(9.5 + 2.7e-5 * step, 0.0) for step in itertools.accumulate(steps)]
    seconds = [*itertools.accumulate(some(0, 1, 4, 5, 6, 6, 60, 61, 100, 700))] if data.draw(st.integers(0, 3)) else []
    words, is_tidy, gaps = some("", "1.5", "5", "10"), data.draw(st.booleans()), data.draw(st.sampled_from(["split", "ignore"]))
    query = {"radiuses": ";".join(words), "timestamps": ";".join(map(str, seconds)), "gaps": gaps, "tidy": str(is_tidy).lower()}
    request = Request("match", places, query)
    with contextlib.suppress(Ambiguous):
        wanted = model_matching.parts(request)
        matcher = Matcher(None, None, None, Trace(places, seconds or None, model_matching.deviations(request), [None] * count))
        parts = matcher._parts(gaps == "split", matcher._tidied() if is_tidy else [*range(count)])
        assert parts == wanted
        for part in parts:
            assert matcher._thinned(part) == model_matching.thinned(request, part)


@pytest.mark.parametrize("count, step, most, wanted", [
    (2501, 9.01e-7, 10**8, [0, 1198, 2396, 2500]), (10, 0.0, 25, [0, 3, 6, 9]), (2, 0.0, 1, [0, 1]), (1, 0.0, 10**8, [0]),
])
def test_places_that_decide_of_many(monkeypatch, count, step, most, wanted):
    """Each k-th one if k steps are more than 120 m, or if none are the k up to which there is time."""
    monkeypatch.setattr("domethyme.network.matching.MAX_STEPS", most)
    matcher = Matcher(None, None, None, Trace([(step * number, 0.0) for number in range(count)], None, [20.0] * count, [None] * count))
    assert matcher._thinned([*range(count)]) == wanted


@drawn(250)
@given(data=st.data())
def test_ways_in_the_village(village, data):
    """The points of each way, their places, its weight and its confidence are the model's, by all ways through all states."""
    roads = model_of(village.network.prefix)
    count, one_of = data.draw(st.sampled_from([2, 3, 4, 4, 5, 6, 6])), lambda *values: data.draw(st.sampled_from(values))
    steps = [one_of(5, 7, 9, 12, -6) for _ in range(count - 1)]
    for at in data.draw(st.sets(st.integers(0, count - 2), max_size=(count - 2) // 2)):
        steps[at] = one_of(-0.3, -0.5, -0.8, -1.5)  # (fewer than half, so each place decides)
    along = itertools.accumulate(steps, initial=one_of(-1, 2, 9, 15, 27))
    places = [(1e-4 * each, 1e-5 * data.draw(st.integers(-10, 10))) for each in along]
    words = [one_of("", "2", "3", *(("8", "20") if count == 2 else ())) for _ in places]
    bearings = [one_of("", "", "90,60", "270,160") for _ in places]
    request = Request("match", places, {"radiuses": ";".join(words), "bearings": ";".join(bearings)})
    with contextlib.suppress(Ambiguous):
        wanted = model_matching.ways(roads, request)
        found = village.match(places, deviation=model_matching.deviations(request), bearings=request.bearings()).matchings
        for way, options in zip(found, wanted, strict=True):
            assert any(is_way(way, option) for option in options)


@drawn(150)
@given(st.data())
def test_ways_between_states(data):
    """Those from each state of a place to each of another one are as likely as the model's, also where junctions are split."""
    made, radiuses = data.draw(networks(most=5)), data.draw(st.sampled_from(["20;20", "90;200", "200;60"]))
    request = Request("match", data.draw(places(made.roads, 2)), {"radiuses": radiuses})
    with tempfile.TemporaryDirectory() as folder, contextlib.suppress(Ambiguous):
        wanted = [model_matching.states(made.roads, request, number) for number in (0, 1)]
        write_network(made, pathlib.Path(folder) / "net")
        hierarchy = domethyme.Hierarchy(f"{folder}/net.rch", network=f"{folder}/net")

        def sums(sources, targets):
            found = hierarchy.matrix(sources, targets, missing=-1, sums=["metres"])
            return found["length"], np.rint(1000 * found["metres"]).astype(int)

        trace = Trace(request.places, None, model_matching.deviations(request), [None] * 2)
        matcher = Matcher(None, sums, hierarchy.network.roads, trace)
        states = matcher._states([0, 1])
        assert [len(state.points) for state in states] == [*map(len, wanted)]
        ways = matcher._ways_between([states])[0] if all(wanted) else []
        for (start, end), way in zip(itertools.product(*wanted), np.ravel(ways), strict=True):
            with contextlib.suppress(Ambiguous):
                assert way == pytest.approx(-model_matching.surplus(made.roads, request, (0, 1), start, end), abs=2e-3)


def is_way(found, way):
    """Whether a way has the points of the model's, leads by their places, and weighs as much."""
    if found.points != way.numbers or abs(found.confidence - way.confidence) > 1e-3:
        return False
    rows = zip(found.matched.places, way.places, strict=True)
    off = [(math.dist((place.lon, place.lat), point.place), abs(place.metres - point.metres)) for place, point in rows]
    weight = sum(part[3] for leg in way.legs for part in leg)
    return all(degrees < 1e-6 and metres < 0.2 for degrees, metres in off) and found.directions.weight == weight


def drawn_leg(draw, weights):
    """A leg along arcs of these weights, from a share of the first to one of the last."""
    begin, end = (draw(st.sampled_from([0.0, draw(st.integers(1, 96)) / 97, 1.0])) for _ in range(2))
    if len(weights) == 1:
        begin, end = sorted((begin, end))
    driven = [*weights[:-1], round(end * weights[-1])]
    driven[0] -= round(begin * weights[0])
    return Leg(sum(driven), np.arange(len(weights)), np.array(driven), begin, end)


def ways_to(lines, leg, place, reach):
    """For each segment that is driven of these lines the square of the metres to a place, up to a reach, and the mark there."""
    for number, line in enumerate(lines):
        first, last = leg.begin if number == 0 else 0.0, leg.end if number == len(lines) - 1 else 1.0
        for ends in itertools.pairwise(metres / along(line)[-1] for metres in along(line)):
            low, high = max(first, ends[0]), min(last, ends[1])
            if low <= high:
                metres, share = nearest_on_segment(place, *(point_at(line, each) for each in (low, high)))
                yield min(metres, reach) ** 2, (number, low + share * (high - low))


@drawn(120)
@given(st.data())
def test_places_on_legs(data):
    """Places are put in order along what is driven of legs for the least sum of squares, of all ways to take segments that rise; and the
    parts of a leg weigh what is driven between."""
    draw = data.draw
    origin, scale = draw(st.sampled_from(ORIGINS)), draw(st.sampled_from([1, 1, 40]))
    spots = points_near(origin, scale if origin[1] < 80 else 1)
    counts = draw(st.lists(st.integers(1, 3), min_size=1, max_size=3))
    points = draw(st.lists(spots, min_size=sum(counts) + 1, max_size=sum(counts) + 1, unique=True))
    bounds = itertools.pairwise(itertools.accumulate(counts, initial=0))
    lines, weights = [points[first : last + 1] for first, last in bounds], [draw(st.integers(1, 1000)) for _ in counts]
    units = [np.rint(np.array(line) * 1e7).astype(int) for line in lines]

    def arc_lines(arcs):
        some = [units[arc] for arc in arcs.tolist()]
        return np.cumsum([0, *map(len, some)]), np.concatenate(some)

    roads = SimpleNamespace(arrays=SimpleNamespace(arc_lines=arc_lines, arc_weight=np.array(weights)))
    legs, numbers = [drawn_leg(draw, weights) for _ in range(3)], [[0, 1, 2][: draw(st.integers(1, 3))], [3], [4, 5]]
    near = [point_at(draw(st.sampled_from(lines)), draw(st.integers(0, 31)) / 31) for _ in range(6)]
    places = [(lon, min(90.0, lat + 1e-5 * draw(st.integers(-20, 20)))) for lon, lat in near]
    reach = [draw(st.sampled_from([10.0, 1000.0])) for _ in places]
    for leg, some, marks in zip(legs, numbers, nearest_marks(roads, legs, numbers, np.array(places), np.array(reach)), strict=True):
        rows = [[*ways_to(lines, leg, places[number], reach[number])] for number in some]
        orders = itertools.combinations_with_replacement(range(len(rows[0])), len(some))
        ways = [[*zip(*(row[at] for row, at in zip(rows, order)))] for order in orders]
        least = min(sum(costs) for costs, _ in ways)
        best = [[*itertools.accumulate(found, max)] for costs, found in ways if sum(costs) <= least + 0.1]
        places_of = [[[point_at(lines[arc], share) for arc, share in pair] for pair in zip(marks, way)] for way in best]
        assert any(all(metres_between(*pair) < 0.5 for pair in pairs) for pairs in places_of), (marks, best)
        parts = parts_of(roads, leg, marks)
        assert len(parts) == len(marks) + 1 and marks == sorted(marks)
        before = [round(leg.begin * weights[0]), *[0] * len(weights)]
        gone = [sum(leg.weights[:arc]) + round(share * weights[arc]) - before[arc] for arc, share in marks]
        assert [*itertools.accumulate(part.weight for part in parts)] == [*gone, leg.weight]
        for part in parts:
            assert part.weight == part.weights.sum() and (part.weights >= 0).all() and len(part.weights) == len(part.arcs)
        ends = [(part.arcs[0] + part.begin, part.arcs[-1] + part.end) for part in parts if len(part.arcs)]
        ends = [(leg.begin, leg.begin), *ends, (len(lines) - 1 + leg.end,) * 2]
        assert all(before[1] == pytest.approx(behind[0], abs=1e-9) for before, behind in itertools.pairwise(ends))
