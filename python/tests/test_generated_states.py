"""What open hierarchies, pickled ones and services answer by while files are replaced, in drawn orders."""
import concurrent.futures
import functools
import os
import pathlib
import pickle
import shutil
import tempfile
from collections.abc import Callable
from typing import Any

import pytest
from draws import Drawn, drawn, write_network
from hypothesis import strategies as st
from hypothesis.stateful import Bundle, RuleBasedStateMachine, initialize, multiple, rule
from model.network import Arc, Network, Node
from model.reach import reached_lines
from model.sphere import Point, along
from test_generated_service import ask, open_service

import domethyme

NODES, VERSIONS = 6, 3
FILES = ("gr", "net", "rch")
# The question, and a node or two, or a place near a node. Some need nothing open, and some read the file again, once.
Question = tuple[str, int, int]
ANSWERS: dict[str, Callable[[domethyme.Hierarchy, int, int], Any]] = {
    "length": lambda each, one, other: each.length(one, other),
    "metres": lambda each, one, other: each.route(one, other).geojson()["properties"]["metres"],
    "towards": lambda each, one, other: each.reach([other], towards=True)[one],
    "summed": lambda each, one, other: each.reach([one], sums=["metres"])["metres"][other],
    "none": lambda each, one, _: len([each.lengths, each.routes, each.matrix][one % 3]([])),
    "stay": lambda each, one, _: each.directions([beside(one)] * 2).weight,
    "nearest": lambda each, one, _: each.nearest(*beside(one))[0],
    "lon": lambda each, one, _: float(each.network.lon[one]),
    "reached": lambda each, one, _: metres_of(each.within(beside(one), [4000 / 60_000], shape="roads")["features"][0]["geometry"]),
}
QUESTIONS = st.tuples(st.sampled_from([*ANSWERS]), st.integers(0, NODES - 1), st.integers(0, NODES - 1))
ANY_TIME, READ_AGAIN = ("nearest", "lon", "pickled"), ("towards", "summed", "pickled")


@functools.cache
def version(number: int) -> Network:
    """A ring of roads, whose nodes and weights differ from version to version, and whose numbers of them don't."""
    places = [(9.5 + 0.004 * (node * (number + 1) % 7) / 7, 47.1 + 0.003 * (node * node % 5) / 5) for node in range(NODES)]
    nodes = [Node(round(lon, 7), round(lat, 7), str(node + 1)) for node, (lon, lat) in enumerate(places)]
    arcs = []
    for node in range(NODES):
        ends = (node, (node + 1) % NODES)
        line = nodes[ends[0]].place, nodes[ends[1]].place
        weight = 3000 + 1000 * (node * (number + 2) % 5) + number
        for step in (1, -1):
            arcs.append(Arc(*ends[::step], weight, weight / 1000, round(along(line)[-1], 2), line[::step], node + 1))
    return Network(nodes, arcs)


@functools.cache
def prepared() -> "tempfile.TemporaryDirectory[str]":
    """The files of all versions, until the end."""
    folder = tempfile.TemporaryDirectory(prefix="versions-")
    for number in range(VERSIONS):
        write_network(Drawn(version(number), version(number), False), pathlib.Path(folder.name, f"v{number}"))
    return folder


def expected(number: int, question: Question) -> Any:
    """The answer by a version of the network."""
    network, (what, one, other) = version(number), question
    if what in ("length", "towards"):
        return network.lengths({one: 0})[other]
    if what in ("none", "stay"):
        return 0
    if what == "nearest":
        return min(network.nearest(beside(one), "from")[0])
    if what == "lon":
        return network.nodes[one].lon
    if what == "reached":
        _, point = next(network.by_distance(beside(one), None))
        assert point is not None
        return round(sum(along(line)[-1] for line in reached_lines(network, [point], 4000)))
    return {round(sum(arc.metres for arc in walk), 2) for walk in walks(network, one, other, network.lengths({one: 0})[other])}


def walks(network: Network, one: int, other: int, length: int) -> list[list[Arc]]:
    """The ways of a length from one node to another."""
    if one == other and not length:
        return [[]]
    steps = [arc for arc in network.arcs if arc.start == one and arc.weight <= length]
    return [[arc, *rest] for arc in steps for rest in walks(network, arc.end, other, length - arc.weight)]


def beside(node: int) -> Point:
    lon, lat = version(0).nodes[node].place
    return lon + 0.00003, lat + 0.00002


def metres_of(geometry: Any) -> float:
    lines = [geometry["coordinates"]] if geometry["type"] == "LineString" else geometry["coordinates"]
    return sum(along([tuple(point) for point in line])[-1] for line in lines)


class Handle:
    """An open hierarchy, and the version that it has to answer by."""

    def __init__(self, hierarchy: domethyme.Hierarchy, number: int, generation: int) -> None:
        self.hierarchy, self.number, self.generation = hierarchy, number, generation
        self.is_closed, self.read = False, set[str]()

    def refuses(self, kind: str, generation: int) -> Any:
        """The error for what is closed, or would have to read the file of another generation; None for what is answered."""
        if self.is_closed and kind not in ANY_TIME:
            return ValueError
        is_late = kind in READ_AGAIN and kind not in self.read and self.generation != generation
        return domethyme.WrongHierarchy if is_late else None

    def check(self, question: Question, generation: int) -> None:
        """The right answer, or the right error."""
        kind, *nodes = question
        if refused := self.refuses(kind, generation):
            with pytest.raises(refused):
                ANSWERS[kind](self.hierarchy, *nodes)
            return
        self.read.add(kind)
        found, wanted = ANSWERS[kind](self.hierarchy, *nodes), expected(self.number, question)
        if kind in ("metres", "summed"):
            assert any(abs(found - each) < 0.011 for each in wanted)
        else:
            assert abs(found - wanted) <= (3 if kind == "reached" else 0)


class Files(RuleBasedStateMachine):
    """`there`: the version of each file, and how often it was replaced."""

    handles, pickles, services = Bundle("handles"), Bundle("pickles"), Bundle("services")

    def __init__(self) -> None:
        super().__init__()
        self.folder = pathlib.Path(tempfile.mkdtemp(prefix="states-"))
        self.there: dict[str, int] = {}
        self.generation = 0

    def teardown(self) -> None:
        shutil.rmtree(self.folder)

    @initialize(number=st.integers(0, VERSIONS - 1))
    def begin(self, number: int) -> None:
        self.rename(number, list(FILES))

    @rule(number=st.integers(0, VERSIONS - 1), files=st.sampled_from([[*FILES], [*FILES], ["net"], ["rch"]]))
    def rename(self, number: int, files: list[str]) -> None:
        """New files get the names of the old ones, as each night; or one of them alone."""
        for suffix in files:
            shutil.copy(f"{prepared().name}/v{number}.{suffix}", self.folder / f"new.{suffix}")
            os.replace(self.folder / f"new.{suffix}", self.folder / f"net.{suffix}")
            self.there[suffix] = number
        self.generation += "rch" in files

    def belong_together(self) -> bool:
        return self.there["net"] == self.there["rch"]

    @rule(target=handles, is_word=st.booleans())
    def open(self, is_word: bool) -> Any:
        path = self.folder / "net"
        if not self.belong_together():
            with pytest.raises(domethyme.WrongHierarchy):
                domethyme.Hierarchy(f"{path}.rch", network=path)
            return multiple()
        hierarchy = domethyme.Hierarchy(f"{path}.rch", network=path if is_word else domethyme.Network(path))
        return Handle(hierarchy, self.there["rch"], self.generation)

    @rule(handle=handles, question=QUESTIONS)
    def ask(self, handle: Handle, question: Question) -> None:
        handle.check(question, self.generation)

    @rule(handle=handles, question=QUESTIONS)
    def fork(self, handle: Handle, question: Question) -> None:
        """A child has the hierarchy too, as it is."""
        child = os.fork()
        if not child:
            status = 1
            try:
                handle.check(question, self.generation)
                status = 0
            finally:
                os._exit(status)
        assert os.waitstatus_to_exitcode(os.waitpid(child, 0)[1]) == 0

    @rule(handle=handles, questions=st.lists(QUESTIONS, min_size=2, max_size=2))
    def ask_in_two_threads(self, handle: Handle, questions: list[Question]) -> None:
        with concurrent.futures.ThreadPoolExecutor(2) as threads:
            assert len([*threads.map(handle.check, questions * 3, [self.generation] * 6)]) == 6

    @rule(handle=handles)
    def close(self, handle: Handle) -> None:
        handle.hierarchy.close()
        handle.is_closed = True

    @rule(target=pickles, handle=handles)
    def dump(self, handle: Handle) -> Any:
        """Refused where the file is there no more: no other process could read it."""
        if refused := handle.refuses("pickled", self.generation):
            with pytest.raises(refused):
                pickle.dumps(handle.hierarchy)
            return multiple()
        handle.read.add("pickled")
        return pickle.dumps(handle.hierarchy), handle.number

    @rule(target=handles, pickled=pickles)
    def load(self, pickled: tuple[bytes, int]) -> Any:
        """The file that it was pickled of, or none."""
        data, number = pickled
        if self.there["rch"] != number or not self.belong_together():
            with pytest.raises(domethyme.WrongHierarchy):
                pickle.loads(data)
            return multiple()
        handle = Handle(pickle.loads(data), number, self.generation)
        handle.read.add("pickled")
        return handle

    @rule(target=services)
    def reload(self) -> Any:
        """A service of the files that are there."""
        if not self.belong_together():
            with pytest.raises(domethyme.WrongHierarchy):
                open_service(self.folder / "net")
            return multiple()
        return open_service(self.folder / "net"), self.there["rch"]

    @rule(service=services, one=st.integers(0, NODES - 1), other=st.integers(0, NODES - 1))
    def ask_a_service(self, service: tuple[Any, int], one: int, other: int) -> None:
        """One that was begun before files were replaced answers as it did."""
        begun, number = service
        status, found = ask(begun, f"/nodes/length?from={one + 1}&to={other + 1}")
        assert (status, found["length"]) == (200, expected(number, ("length", one, other)))
        lon, lat = beside(one)
        status, found = ask(begun, f"/nearest/v1/car/{lon:.7f},{lat:.7f}")
        metres, _ = next(version(number).by_distance((round(lon, 7), round(lat, 7)), None))
        assert status == 200 and abs(found["waypoints"][0]["distance"] - metres) < 2e-5


TestFiles = Files.TestCase
TestFiles.settings = drawn(120)
