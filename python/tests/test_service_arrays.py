"""What the service computes in arrays: lines that are simplified by GEOS and level by level, and numbers as JSON."""
import json

import numpy as np
import pytest

from domethyme_service import json_text, osrm_geometry
from domethyme_service.costs import Meter
from domethyme_service.errors import RequestError
from domethyme_service.json_text import decimal_texts, number_texts, point_texts
from domethyme_service.osrm_geometry import MAX_GEOS_POINTS, Budget, simplified, simplify_lines

pytestmark = pytest.mark.timeout(300)


@pytest.fixture(autouse=True, params=[None, 76])
def chunk(request, monkeypatch):
    """What is computed at once: as much as ever, and so little that there are several parts."""
    if request.param:
        monkeypatch.setattr(json_text, "CHUNK", request.param)
        monkeypatch.setattr(osrm_geometry, "CHUNK", request.param)


def budget(by_geos=10**9, examined=10**9):
    found = Budget(Meter(), 1)
    found.examined_by_geos, found.examined = by_geos, examined
    return found


def walk(count, seed=1):
    """A random line in microdegrees, across the 180th meridian."""
    steps = np.random.default_rng(seed).integers(-2000, 2000, (count, 2))
    line = steps.cumsum(axis=0) + (179_999_000, 47_000_000)
    line[:, 0] = (line[:, 0] + 180_000_000) % 360_000_000 - 180_000_000
    return line


@pytest.mark.parametrize("line", [
    *(walk(count) for count in (2, 3, 10, 500, MAX_GEOS_POINTS)), np.zeros((2, 2), int), np.zeros((9, 2), int),
    np.concatenate((walk(50), walk(50)[::-1])), np.concatenate((walk(9), walk(9)[:1])),
])
@pytest.mark.parametrize("tolerance", [0.0, 700.0, 20_000.0, 1e7])
def test_both_ways_keep_the_same_points(line, tolerance):
    by_geos, by_levels = (simplified(line, tolerance, budget(most)).tolist() for most in (10**9, -1))
    assert by_geos[0] == 0 and by_geos[-1] == len(line) - 1 and len(by_geos) >= 2
    if tolerance:  # (without one GEOS drops points of straight lines by other last digits)
        assert by_geos == by_levels


@pytest.mark.parametrize("aside, count", [(9, 2), (11, 3)])
def test_a_thousandth_of_the_extent(aside, count):
    """That is of all legs, by the latitude if they lead east, here of 10,000 microdegrees; across the 180th meridian, and north."""
    east = np.array([(0, 0), (2000, aside), (4000, 0), (20_000, 0)]) + (0, 60_000_000)
    across = np.column_stack(((east[:, 0] + 359_990_000) % 360_000_000 - 180_000_000, east[:, 1]))
    north = np.column_stack((east[:, 1] - 60_000_000, east[:, 0] // 2))
    for line in (east, across, north):
        assert [*map(len, simplify_lines([line[:3], line[2:]], budget()))] == [count, 2]


def test_a_zigzag_whose_points_lie_ever_nearer():
    """Each point is a level of its own: as many as there are crash GEOS, which takes the square of them, and so the budget ends it."""
    count = 60_000
    line = np.column_stack((np.arange(count), np.where(np.arange(count) % 2, 1, -1) * np.arange(count, 0, -1) * 100))
    with pytest.raises(RequestError, match="takes too long to simplify"):
        simplified(line, 1.0, budget(examined=1_000_000))
    assert len(simplified(line[: MAX_GEOS_POINTS], 1.0, budget())) == MAX_GEOS_POINTS


@pytest.mark.parametrize("digits", [0, 1, 2, 3, 6])
@pytest.mark.parametrize("most", [1, 10, 999, 10**6, 18 * 10**7, *(9 * 10**power for power in (8, 9, 10, 12, 14))])
def test_numbers_are_those_of_std(digits, most):
    draw = np.random.default_rng(most)
    values = np.append(draw.integers(-most, most, 300), (0, most, -most, 1, -1))
    wanted = [value / 10**digits if digits else value for value in values.tolist()]
    is_null = draw.random(len(values)) < 0.2
    shown = [np.format_float_positional(value, trim="0") if digits else str(value) for value in wanted]  # (none with an exponent)
    assert number_texts(values, digits).array(0, len(values)) == f"[{','.join(shown)}]"
    found = json.loads(number_texts(values, digits, is_null).array(0, len(values)))
    assert found == [None if is_none else value for value, is_none in zip(wanted, is_null)]
    points = point_texts(values[:304].reshape(-1, 2), digits)
    assert [*map(json.loads, points.rows(np.arange(152)))] == np.reshape(wanted[:304], (-1, 2)).tolist()


@pytest.mark.parametrize("values, text", [
    ([0.0005, -1.0, np.nan, 2.25], "[0.0,-1.0,null,2.25]"), ([1e300, np.nan, 1.50049], "[1e+300,null,1.5]"), ([], "[]"),
])
def test_decimals(values, text):
    found = decimal_texts(np.array(values, float), 3)
    assert (found.array(0, len(values)), f"[{','.join(found.all_rows())}]", found.array(0, 0)) == (text, text, "[]")
