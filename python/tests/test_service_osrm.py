"""OSRM's API: large tables, gaps of traces, messages, and options of the command."""
import pytest
from reach_case import Road, prepared
from service_case import ServiceCase
from test_generated_service import ask, open_service

from domethyme_service import osrm

HIGH = "0.0003,0.00001;0.0077,-0.00002"


class OsrmCase(ServiceCase):
    words = ()

    def setUp(self):
        super().setUp()
        self.serve("--network", self.folder / "v", "--radius", "5000", *self.words)

    def good(self, path):
        status, found = self.ask(path)
        self.assertEqual((status, found["code"]), (200, "Ok"), (path, found))
        return found


@pytest.mark.parametrize("gaps, ways, stops, legs", [
    ("split", [0, 0, 0, 1, 1, 1], [0, None, 1, 0, 1, 2], [1, 2]), ("ignore", [0] * 6, [0, None, None, None, 1, 2], [2]),
])
def test_a_trace_with_a_gap(tmp_path, gaps, ways, stops, legs):
    """The ends of each way are ends of legs, and of the others those of `waypoints`, which may be on different ways."""
    prepared([(0, 0), (0.02, 0)], [Road(0, 1, 20_000, 20_000)], tmp_path / "net").close()
    places = ";".join(f"{0.001 + 0.003 * number:.3f},0" for number in range(6))
    path = f"/match/v1/car/{places}?timestamps=0;10;20;900;910;920&waypoints=0;4;5&gaps={gaps}"
    found = ask(open_service(tmp_path / "net"), path)[1]
    assert [(point["matchings_index"], point["waypoint_index"]) for point in found["tracepoints"]] == [*zip(ways, stops)]
    assert [len(way["legs"]) for way in found["matchings"]] == legs


@pytest.mark.parametrize("path, says", [
    ("nearest/v1/car/47.1,9.5", "{road} within 1000 m of place 0, 47.1,9.5 (LON,LAT; is it LAT,LON?). {box} 0"),
    ("nearest/v1/car/9.5,49", "{road} within 1000 m of place 0, 9.5,49 (LON,LAT). {box} 0"),
    ("route/v1/car/9.5,47;9.5,47?bearings=90,9;0,9&radiuses=;50.5",
     "{road} of that bearing within 50.5 m of place 1, 9.5,47 (LON,LAT). {box} 1"),
    ("route/v1/car/9.5,47;9.5,47.1?radiuses=;0&bearings=90,9;", "{road} within 0 m of place 1, 9.5,47.1 (LON,LAT). {box} 1"),
    ("table/v1/car/9.5,47;9.5,47.1?radiuses=unlimited;0", "{road} within 0 m of place 1, 9.5,47.1 (LON,LAT). {box} 1"),
    ("nearest/v1/car/9.5,47?bearings=0,9&radiuses=unlimited", "{road} of that bearing for place 0, 9.5,47 (LON,LAT). {box} 0"),
    ("route/v1/car/9.5,47;9.501,47;9.502,47;9.5,47?continue_straight=true", "there is no route from place 1 to place 2"),
    ("route/v1/car/9.5,47;9.501,47;9.502,47;9.5,47", "there is no route from place 1 to place 2"),
    ("route/v1/car/9.5,47;200,10", "place 1 is 200,10: {first}"),
    ("route/v1/car/10,100;9.5,47", "place 0 is 10,100: {first}; is it LAT,LON?"),
    ("nearest/v1/car/9.5,47;1,2;3,4", "the path has to have one place, and has 3"),
    ("match/v1/car/9.5,47", "the path has to have two places or more, and has 1"),
    ("match/v1/car/9.5,47;9.5,49;9.5,48;9.501,47?waypoints=0;1;2;3", "place 1 is one of waypoints, and has no match"),
    ("route/v1/car/9.5,47;9.501,47?exclude=toll,ferry", "exclude=ferry,toll isn't answered: it was started without --exclude"),
])
def test_what_messages_say(tmp_path, monkeypatch, path, says):
    """Which place is meant, whether its numbers may be the wrong way round, and at the end its own number, as VROOM reads it."""
    monkeypatch.setattr(osrm, "SNAP_BATCH", 1)
    places = [(9.5, 47.0), (9.501, 47.0), (9.502, 47.0), (9.503, 47.0)]
    prepared(places, [Road(0, 1, 1000, 1000), Road(2, 3, 1000, 1000)], tmp_path / "net").close()
    message = ask(open_service(tmp_path / "net"), f"/{path}")[1]["message"]
    box = "The roads are from 9.5000,47.0000 to 9.5030,47.0000. No segment for coordinate"
    first = "longitude first, from -180 to 180, then latitude, from -90 to 90"
    assert message == says.format(road="there is no road", box=box, first=first)


class RequestTests(OsrmCase):
    def test_a_million_cells(self):
        places = [f"{0.00001 * number:.5f},0.00001" for number in range(1000)]
        found = self.good(f"/table/v1/car/{';'.join(places)}?skip_waypoints=true")["durations"]
        some = self.good(f"/table/v1/car/{';'.join(places[::100])}")["durations"]
        self.assertEqual(({len(row) for row in found}, [row[::100] for row in found[::100]]), ({1000}, some))

    def test_queries_are_counted(self):
        """A table has a query for each node that its sources lead to, here 1, 11, 2, 21, 3 and 4, and for each sum."""
        words = ";".join(f"{0.0005 * number},0.00005" for number in range(10))
        for more, queries in ("", 6), ("?sources=1", 2), ("?destinations=1", 6), ("?annotations=distance,duration", 6):
            before = self.value("queries_total")
            self.assertEqual(self.ask(f"/table/v1/car/{words}{more}")[0], 200)
            self.assertEqual(self.value("queries_total") - before, queries, more)
        self.assertEqual([line for line in self.said if line.startswith("{")], [], "without an option there is no log")

    def test_options(self):
        """Cells of a table, metres to a road, the words that PROFILE may be, which may be any without, and places in the log."""
        words = ["--max-table-cells", "5", "--radius", "70", "--profile", "car", "--profile", "driving", "--log-places"]
        self.serve("--network", self.folder / "v", *words)
        self.assertIn("no road within 70 m of place 0", self.ask("/nearest/v1/car/-0.0025,0.001")[1]["message"])
        self.good(f"/table/v1/car/{HIGH};0.001,0;0.002,0;0.003,0?destinations=1")
        for query in (";0.001,0", "?sources=0;1;1&destinations=0;0"):
            status, found = self.ask(f"/table/v1/car/{HIGH}{query}")
            self.assertEqual((status, found["code"]), (400, "TooBig"))
            self.assertIn("5 cells (--max-table-cells)", found["message"])
        for service, places in (("route", HIGH), ("table", HIGH), ("nearest", "0,0"), ("isochrone", "0,0")):
            query = "?contours_minutes=1" if service == "isochrone" else ""
            for word, status in (("car", 200), ("mapbox/driving" if query else "driving", 200), ("bike", 400)):
                found = self.ask(f"/{service}/v1/{word}/{places}{query}")
                self.assertEqual(found[0], status, found)
        self.assertEqual(found[1], {"code": "InvalidValue", "message": "PROFILE has to be one of car, driving"})
        self.wait_for(lambda: any('"/nearest"' in line and "-0.0025,0.001" in line and '"127.0.0.1"' in line for line in self.said))
