"""What requests cost, by counts; who gets slots, and what a worker does with requests that wait, by a clock of the test's own."""
import collections
import contextlib
import fcntl
import functools
import itertools
import json
import math
import os
import random
import re
import signal
import socket
import subprocess
import sys
from unittest import mock

import numpy as np
import pytest
from dearest import Climber
from draws import drawn
from gunicorn.config import Config
from hypothesis import given
from hypothesis import strategies as st
from service_case import ServiceCase, changed, workers_of
from test_generated_service import ask, environ_of, open_service
from tool_case import PYTHON, ROOT

from domethyme_service import endpoints, queries, slots, worker
from domethyme_service.costs import MOST, SHORT, Meter, NeedsSlot, Size, Work, expected
from domethyme_service.errors import RequestError
from domethyme_service.log_stream import LossyWriter
from domethyme_service.metrics import SharedMetrics
from domethyme_service.osrm_request import parse_request
from domethyme_service.slots import Client, Slots

pytestmark = pytest.mark.timeout(300)

# A map of half a million nodes, and places on it.
BIG = Size(534_105, 2_600_000, 4.03, 1.58)
A, B, OTHER = Client("203.0.113.9", True), Client("203.0.113.10", True), Client("10.0.0.1", False)
DRAW = random.Random(1)
FAR = [f"{DRAW.uniform(8.36, 9.64):.3f},{DRAW.uniform(46.55, 47.45):.3f}" for _ in range(5)]


def cost(size, service, places, query, unit):
    """The cost of a request, where this is what weights are, in units."""
    path = f"/{service}/v1/car/{';'.join(places)}"
    endpoint = endpoints.find_endpoint(path)
    request = parse_request(endpoint, path, query, 1000.0)
    return endpoint.formula(expected(size, request.places, request.values, unit))


TWICE = "sources=" + "0;" * 99 + "0&destinations=" + "1;" * 99 + "1"
PAGE = (ROOT / "docs/SERVICE.md").read_text()
# Texts of parameters that change what a request costs; of those that have a value for each place, for the first two.
LINES = {"steps": ["true"], "overview": ["full", "false"], "annotations": ["true", "nodes,speed"]}
CHANGING = {
    "route": {**LINES, "alternatives": ["true", "2", "9"], "continue_straight": ["true"], "bearings": ["45,0;"]},
    "nearest": {"number": ["7"]}, "trip": {**LINES, "bearings": ["45,0;0,9"]}, "match": {**LINES, "radiuses": ["0.5;", "15;20"]},
    "table": {"annotations": ["distance", "weight,distance"], "sources": ["0", "1;0;0"], "destinations": ["1;1", "0;1"]},
    "isochrone": {"contours_minutes": ["1", "0.5,2,30,600"], "contours_meters": ["700,9000"], "bearings": ["45,0"]},
}


def cost_by_the_page(size, service, places, query, unit):
    """The same by the tables of docs/SERVICE.md."""
    count, known = len(places), collections.defaultdict(str, query)
    points = [(float(lon) % 360, float(lat)) for lon, lat in (each.split(",") for each in places)]
    ways = [math.dist(*ends) for ends in itertools.pairwise(points)]
    if service == "trip":  # (as two places of a square are on average)
        ways = [0.37 * math.dist(*([side(each) for each in zip(*points)] for side in (min, max)))] * count
    nodes = 2 * math.sqrt(size.nodes) * sum(min(1, way / size.degrees) for way in ways)
    names = {"true": 6, "": 0}.get(known["annotations"], known["annotations"].count(",") + 1)
    each_point = 1 + names + (known["steps"] == "true") + (known["overview"] != "false")
    times = 4 if known["continue_straight"] == "true" else 1
    sides = [known[name].split(";") if known[name] else range(count) for name in ("sources", "destinations")]
    rows, columns = (len({*side}) for side in sides)
    others = min({"true": 1, "": 0, "9": 3}.get(known["alternatives"], 2), size.alternatives) if count == 2 else 0
    sums = 4 * rows * columns * len({*(known["annotations"] or "duration").split(",")} - {unit, "weight"})
    if service == "match":
        sums = sum(16 * min(float(each or 5), 16) ** 2 for each in (known["radiuses"] or ";" * (count - 1)).split(";"))
    metres = [float(each) * 130_000 / 60 for each in known["contours_minutes"].split(",") if each]
    metres += map(float, filter(None, known["contours_meters"].split(",")))
    shares = [2 * math.pi * (each / 111_195 / size.degrees) ** 2 for each in metres]
    numbers = {
        "P": count, "B": sum(map(bool, known["bearings"].split(";"))), "K": int(known["number"] or 1), "N": size.nodes,
        "G": times * len(ways), "W": times * nodes, "V": nodes * size.points * each_point, "A": others, "U": min(1, others),
        "M": 2 * rows, "L": min(size.links, 20 * math.sqrt(size.nodes) * columns), "Z": len(sides[0]) * len(sides[1]), "S": sums,
        "C": len(shares), "R": sum(min(150_000, size.nodes * min(1, share)) for share in shares)
    }
    text = re.search(rf"(?m)^\|`/{service}`\|`(.*)`\|$", PAGE)[1]
    return eval(re.sub(r"(?<=[\w)]) (?=[\w(])", "*", text.replace(",", "")), numbers)


@pytest.mark.parametrize("service", CHANGING)
def test_costs_are_those_of_the_page(service):
    """With each of these parameters, and without; between places near and far away, of a small map and a large one."""
    lists = [FAR[:1]] if service in ("nearest", "isochrone") else [FAR[:2], ["179.9,-5", "-179.9,-5"], FAR[:5]]
    for (size, unit), places in itertools.product(((BIG, "duration"), (Size(3000, 9000, 3.0, 0.5, 3), "distance")), lists):
        for texts in itertools.product(*(["", *some] for some in CHANGING[service].values())):
            query = {name: text for name, text in zip(CHANGING[service], texts) if text}
            for name in {"bearings", "radiuses"} & query.keys():
                query[name] += ";" * (len(places) - 1 - query[name].count(";"))
            found = cost(size, service, places, query, unit)
            assert found == pytest.approx(cost_by_the_page(size, service, places, query, unit), rel=1e-3), (size, places, query)


@drawn(60)
@given(st.integers(1, 10**7), st.integers(0, 10**8), st.integers(0, 40), st.integers(0, 40))
def test_what_calls_of_the_library_cost(nodes, links, sources, targets):
    """By the prices of docs/SERVICE.md, of a hierarchy of any size; and how many queries each is."""
    router, summer, meter, metrics = mock.MagicMock(nodes=nodes), mock.MagicMock(), Meter(), SharedMetrics()
    router.between.return_value.nodes, summer.table.return_value = [0] * sources, (0, 0)
    asked = queries.Queries(router, links, metrics, meter, turned=router, summers={"distance": summer, "duration": summer})
    sides = np.zeros(sources, np.int64), np.zeros(targets, np.int64)
    a_row = 2 * (1 + min(links, 10 * math.sqrt(nodes) * targets) / 10_000)
    for call, count, units in [
        (lambda: asked.length(0, 0), 1, 250), (lambda: asked.route(0, 0), 1, 250 + 1.3 * sources),
        (lambda: asked.lengths([(0, 0)] * sources), sources, 250 * sources), (lambda: asked.reach([(0, 0)], 1), 1, 0.1 * nodes),
        (lambda: asked.reach([(0, 0)], 1, True), 1, 0.1 * nodes), (lambda: asked.table(*sides), sources, sources * a_row),
        (lambda: asked.table_sums(*sides, ["distance"]), sources, 0.5 * sources * targets),
        (lambda: asked.table_sums(*sides, ["distance", "duration"]), 2 * sources, sources * targets)
    ]:
        meter.begin(0, True)
        before = metrics.own.queries_total
        with mock.patch.object(queries, "batch"):
            call()
        assert (metrics.own.queries_total - before, meter.spent) == (count, pytest.approx(units))
    # (other routes are searched for in up to so many nodes)
    for count, turned, most in ((5_000_000, router, 3), (5_000_001, router, 0), (9, None, 0)):
        assert queries.Queries(mock.MagicMock(nodes=count), links, metrics, meter, turned=turned).alternatives == most


def test_a_meter_ends_what_costs_too_much():
    """By units alone: SHORT without a slot, which it then needs, and MOST with one; and it calls `tick` meanwhile."""
    meter, ticks = Meter(), []
    meter.tick = lambda: ticks.append(meter.spent)
    meter.begin(1000, False)
    with pytest.raises(NeedsSlot):
        for _ in range(MOST):
            meter.spend(Work.PAIR)
    assert SHORT < meter.spent <= SHORT + Work.PAIR.units and len(ticks) > 5
    with pytest.raises(NeedsSlot):
        meter.begin(SHORT + 1, False)
    meter.begin(SHORT + 1, True)
    with pytest.raises(RequestError, match="costs more than 10,000,000 units:") as raised:
        for _ in range(MOST):
            meter.spend(Work.ROAD, 1000)
    for text in (f"and {Work.ROAD.units} for each road that is looked at", f"Above {SHORT:,} units it is a long", f"|{MOST:,} units|"):
        assert text in " ".join(PAGE.split())
    assert raised.value.code == "TooBig" and MOST < meter.spent <= MOST + 1000 * Work.ROAD.units
    assert max(later - now for now, later in itertools.pairwise(ticks)) < 50_000
    with pytest.raises(RequestError, match="would cost 10,000,001 units, and may cost 10,000,000:"):
        meter.begin(MOST + 1, True)
    with pytest.raises(NeedsSlot):
        meter.begin(100 * MOST, False, True)
    meter.begin(100 * MOST, True, True)
    for _ in range(2):  # (what is at a limit isn't above it, and each block of an answer has all of it)
        ticks.clear()
        meter.spend(Work.CELL, MOST)
        meter.next_block()
        assert len(ticks) == 1
    meter.begin(MOST, True)
    meter.begin(SHORT, False)
    meter.spend(Work.CELL, SHORT)
    assert meter.counts == {Work.CELL: SHORT}


def test_slots_are_shared_fairly():
    """Each set of slots stands for a process: a client has half of the long ones, and a public one is answered by half of the workers."""
    found, other, third, fourth = Slots(8), Slots(11), Slots(8), Slots(8)

    def in_process(client, is_long, slots_of=found):
        """Whether a process gets its slots, which it keeps until the test ends."""
        reads, writes = os.pipe()
        if not (child := os.fork()):
            try:
                os.close(ends[1])
                os.write(writes, b"%d" % slots_of.acquire(client, is_long))
                os.read(ends[0], 1)
            finally:
                os._exit(0)
        children.append(child)
        os.close(writes)  # (else there is no end to read, if the child ends before)
        with open(reads, "rb", buffering=0) as answer:
            return answer.read(1) == b"1"

    children, ends = [], os.pipe()
    try:
        assert [in_process(A, True) for _ in range(3)] == [True, True, False]
        assert [in_process(A, False) for _ in range(3)] == [True, True, False]
        assert [in_process(OTHER, True) for _ in range(3)] == [True, True, False]
        assert [in_process(OTHER, False) for _ in range(9)] == [True] * 9
        assert [in_process(OTHER, True, other) for _ in range(3)] == [True, True, False]
        assert [in_process(A, is_long, third) for is_long in (False, False, True, True, True)] == [True, True, True, True, False]
        in_process(A, True, mock.Mock(acquire=lambda *_: bool(setattr(fourth, "workers", 1))))  # (which all processes see)
        assert [in_process(OTHER, True, fourth) for _ in range(2)] == [True, False]
        assert [in_process(Client(), True, other) for _ in range(4)] == [True, True, True, False]  # (which is no client)
        assert [in_process(B, True), in_process(B, False)] == [False, True]
        os.kill(children[0], signal.SIGKILL)
        os.waitpid(children.pop(0), 0)
        assert in_process(B, True)
    finally:
        os.close(ends[1])
        for child in children:
            os.waitpid(child, 0)


@pytest.mark.parametrize("address, network, is_public", [
    ("203.0.113.9", "203.0.113.9", True), ("10.1.2.3", "10.1.2.3", False), ("::ffff:203.0.113.9", "203.0.113.9", True),
    ("2001:db8:1:2:3::4", "2001:db8:1:2::/64", True), ("2001:db8:1:2:ffff::", "2001:db8:1:2::/64", True), ("fd00::1", "fd00::/64", False),
    ("", "", False), ("unix:", "", False), ("fe80::1%eth0", "fe80::/64", False),
])
def test_clients(address, network, is_public):
    assert slots.client_at(address) == (network, is_public)
    assert slots.client_of("", [("X-REAL-IP", address)]) == (network, is_public)
    assert slots.client_of(("127.0.0.1", 1), [("X-REAL-IP", address)]) == ("127.0.0.1", False)


def test_private_addresses_are_those_of_nginx():
    text = (ROOT / "packaging/nginx/domethyme.conf").read_text()
    listed = re.findall(r"([0-9a-f:.]+/\d+) 1;", text)
    assert [*map(str, slots.PRIVATE)] == listed


class OneSlot:
    """A slot that this process has, or not: those of the kernel are always free to the process that has them."""

    is_taken = False

    def acquire(self, _client, _is_long):
        was_taken, self.is_taken = self.is_taken, True
        return not was_taken

    def release(self):
        self.is_taken = False


class Waiting:
    """A worker without sockets, whose clock goes on while it answers: `seconds` for each block of an answer, in tenths of a second, of
    which each costs what has the service's meter call it."""

    def __init__(self, seconds):
        self.now, self.seconds, self.served, self.refused, self.messages = 0.0, seconds, [], [], []
        self.worker = worker.Worker.__new__(worker.Worker)
        metrics, self.meter = SharedMetrics(2), Meter()
        self.worker.app, self.worker.row, self.worker.is_probe = mock.Mock(metrics=metrics), metrics.rows[0], False
        self.worker.app.wsgi = lambda: mock.Mock(meter=self.meter)
        self.worker.load_wsgi()
        self.worker.queue, self.worker.awaiting_head, self.worker.lingering = [], {}, {}
        self.worker.slots = OneSlot()
        self.worker.begin, self.worker.end = lambda connection: self.answers[connection], self.served.append
        self.worker.reject, self.worker.set_alarm = self.reject, lambda seconds: None
        self.answers, self.other = {}, metrics.rows[1]

    def connection(self, owner=A, is_long=True, blocks=1, method="GET"):
        found = worker.Connection(None, "", self.now + worker.SLOT_SECONDS, mock.Mock(method=method), owner, is_long, self.now)
        self.answers[found] = worker.Answer(mock.Mock(), {}, self.work(blocks), method == "POST")
        return found

    def work(self, blocks):
        for _ in range(blocks):
            self.meter.begin(0, True)
            for _ in range(round(10 * self.seconds)):
                self.now += 0.1
                self.meter.spend(Work.TILE)
                assert self.worker.row.reported == self.now, "it reports that it is alive"
            yield b""

    def reject(self, connection, error):
        assert self.now < connection.deadline + 0.2, "nobody waits longer than its limit"
        self.refused.append(connection)
        self.messages.append(error.message)

    @contextlib.contextmanager
    def clock(self):
        with mock.patch.object(worker.time, "monotonic", lambda: self.now):
            yield


def test_a_worker_that_ends_answers_all_that_wait():
    """Also where that takes longer than the second in which heads may still come."""
    case = Waiting(0.8)
    case.worker.alive, case.worker.sockets, case.worker.PIPE = False, [mock.Mock()], (0, 1)
    case.worker.queue += [case.connection(A, True, 4, "POST"), case.connection(), case.connection(B)]
    with case.clock(), mock.patch.object(worker.select, "epoll", mock.MagicMock):
        case.worker.run()
    assert (len(case.served), case.refused, case.worker.queue) == (3, [], [])


@pytest.mark.parametrize("seconds, served", [(9.0, 1), (0.1, 10)])
def test_nobody_waits_longer_than_its_limit(seconds, served):
    """Of ten requests one is answered in each turn. Those that have waited for five seconds are refused, though the worker is at
    work, and it reports."""
    case, turns = Waiting(seconds), 0
    with case.clock():
        case.worker.queue += [case.connection() for _ in range(10)]
        while case.worker.take_turn():
            turns += 1
            assert len(case.served) == turns
    assert (len(case.served), len(case.refused), case.now) == (served, 10 - served, pytest.approx(served * seconds))
    assert case.worker.row.long_requests_refused_total == 10 - served


def test_the_queue_is_bounded():
    """64 wait, 32 of one client; others are refused at once. Once all have waited too long none waits any more, and the metric says so."""
    case = Waiting(0.1)
    with case.clock():
        case.worker.slots.is_taken = True
        for owner, count in ((A, 100), (B, 100), (OTHER, 100)):
            for _ in range(count):
                case.worker.serve_or_queue(case.connection(owner))
    assert (len(case.worker.queue), len(case.refused)) == (64, 236)
    assert [sum(each.owner == owner for each in case.worker.queue) for owner in (A, B, OTHER)] == [32, 32, 0]
    assert case.worker.row.requests_waiting == 64
    case.now += worker.SLOT_SECONDS + 0.1
    with case.clock():
        assert not case.worker.take_turn()
    assert (case.worker.queue, case.worker.row.requests_waiting, len(case.refused)) == ([], 0, 300)


def test_a_request_that_is_refused_is_counted_and_logged():
    """By its endpoint if it has waited for a slot, and with the time that it has waited; and one that can't be read."""
    case, (client, other) = Waiting(0.1), socket.socketpair()
    case.worker.epoll, case.worker.reject = mock.Mock(), functools.partial(worker.Worker.reject, case.worker)
    case.worker.log_places, names = True, ("method", "endpoint", "status", "milliseconds", "error", "path", "remote", "message")
    with case.clock(), contextlib.closing(client), contextlib.closing(other), mock.patch.object(worker, "access_log") as log:
        waits, malformed = case.connection(), worker.Connection(client, ("127.0.0.1", 1), 0.0)
        waits.client, waits.environ["domethyme.endpoint"] = client.dup(), "/table"
        waits.request.configure_mock(uri="/table/x", headers=[("X-REAL-IP", "10.0.0.1")])
        case.worker.queue.append(waits)
        case.now = worker.SLOT_SECONDS + 0.1
        case.worker.tick()
        case.worker.read_request(malformed, worker.HeadState.MALFORMED)
        assert b"\r\nRetry-After: 1\r\n" in other.recv(1000)
    lines = [json.loads(call.args[0]) for call in log.info.call_args_list]
    assert [tuple(map(line.get, names)) for line in lines] == [
        ("GET", "/table", 503, 5100.0, "Overloaded", "/table/x", "10.0.0.1", "too many long requests at once"),
        (None, "other", 400, 0.0, "InvalidUrl", None, "127.0.0.1", "the request cannot be read")
    ]
    text = case.worker.app.metrics.text(1)
    assert 'requests_total{endpoint="/table",status="503"} 1' in text and 'request_seconds_sum{endpoint="/table"} 5.1' in text


def test_what_waits_for_the_same_is_answered_first():
    """And what doesn't isn't held up. A short request that is refused is counted as none of the long ones."""
    case = Waiting(0.1)
    with case.clock():
        first = case.connection()
        case.worker.queue.append(first)
        others = case.connection(), case.connection(B), case.connection(is_long=False)
        for each in others:
            case.worker.serve_or_queue(each)
        assert (case.worker.queue, case.served) == ([first, others[0]], [*others[1:]])
        case.worker.refuse(case.connection(is_long=False))
    assert (case.worker.row.long_requests_refused_total, case.messages) == (0, ["too many requests at once"])


@pytest.mark.parametrize("is_probe, owner", [(False, A), (True, Client())])
def test_whose_a_request_is_and_how_long_it_waits(is_probe, owner):
    """That of the client that nginx names, but what asks whether the service is alive; and 5 seconds from when it was read."""
    case, (client, other) = Waiting(0.1), socket.socketpair()
    case.worker.cfg, case.worker.is_probe, case.worker.slots.is_taken, case.now = Config(), is_probe, True, 7.0
    with case.clock(), contextlib.closing(client), contextlib.closing(other):
        other.sendall(b"GET /health HTTP/1.1\r\nX-Real-IP: 203.0.113.9\r\n\r\n")
        case.worker.read_request(worker.Connection(client, "", 1.0), worker.HeadState.WHOLE)
    assert [(each.owner, each.deadline, each.is_long) for each in case.worker.queue] == [(owner, 12.0, False)]


def test_a_head_that_comes_too_late():
    case = Waiting(0.1)
    case.worker.epoll = mock.Mock()
    with case.clock():
        case.worker.awaiting_head = {9: case.connection(), 8: case.connection()}
        for case.now, left in ((worker.SLOT_SECONDS, 2), (worker.SLOT_SECONDS + 0.1, 0)):
            case.worker.take_turn()
            assert len(case.worker.awaiting_head) == left
    assert case.messages == ["the request's head has not come whole"] * 2 and worker.HEAD_SECONDS == 10


@pytest.mark.parametrize("taken", range(12))
def test_an_answer_that_the_kernel_takes_in_parts(taken):
    """As it does where a signal comes."""
    got, client = [], mock.Mock(sendall=lambda data: got.append(bytes(data)))
    client.sendmsg = lambda parts: len(got.append(b"".join(parts)[:taken]) or got[-1])
    head = worker.BufferedHead(client)
    for part in (b"head", b"body", b"more"):
        head.sendall(part)
    assert b"".join(got) == b"headbodymore"


def test_a_batch_frees_its_slot_between_blocks():
    """Others are answered between its blocks, of which each is a turn of its own; and it waits a moment if other workers have requests
    that wait. A second one waits for its end, if it is a long one."""
    case = Waiting(0.3)
    with case.clock():
        batch, second = (case.connection(owner, True, blocks, "POST") for owner, blocks in ((A, 4), (B, 2)))
        other, short = case.connection(B), case.connection(B, False)
        short.request.method = "POST"
        case.worker.serve_or_queue(batch)
        assert (case.worker.queue, case.worker.slots.is_taken, case.now) == ([batch], False, pytest.approx(0.3))
        case.worker.serve_or_queue(second)
        assert case.worker.row.requests_waiting == 1
        case.worker.queue.append(other)
        case.other.requests_waiting = 1
        assert case.worker.take_turn() and case.worker.queue == [second, other, batch] and batch.earliest > case.now
        assert case.worker.take_turn() and case.worker.queue == [second, batch] and case.served == [other]
        case.worker.serve_or_queue(short)
        case.now = batch.earliest - 0.01
        assert not case.worker.take_turn() and case.served.pop() == short
        case.now += 0.02
        assert case.worker.take_turn() and not case.worker.slots.is_taken
        case.other.requests_waiting = 0
        for _ in range(2):
            case.now += 0.02
            assert case.worker.take_turn()
        assert case.served == [other, batch]
        while case.worker.take_turn():
            case.now += 0.02
    assert (case.served, case.refused, case.worker.row.requests_waiting) == ([other, batch, second], [], 0)


def test_a_line_that_was_cut():
    """Only its end is lost, and the next one that is taken begins a line of its own. Each line is counted once."""
    got, lost, room = [], [], iter([0, 3, 0, 0, 100, 100])

    def send(data):
        got.append(data[: next(room)])
        return len(got[-1]) or os.write(-1, data)

    writer = LossyWriter(send)
    writer.on_lost = lost.append
    for line in (b"zero\n", b"one\n", b"two\n", b"3\n4\n", b"five\n", b"six\n"):
        assert writer.write(line) == len(line)
    assert (b"".join(got), lost) == (b"one\nfive\nsix\n", [1, 1, 1, 2])


@pytest.mark.parametrize("kind", ["pipe", "socket", "file"])
def test_where_lines_go(tmp_path, kind):
    """To a file all of them; a pipe or a socket that nobody reads holds nobody up. Any characters are written."""
    script = f"import sys\nsys.path.insert(0, {str(PYTHON)!r})\nfrom domethyme_service.log_stream import keep_from_blocking\n"
    script += "lost, stream = [], keep_from_blocking()\nif stream:\n stream.on_lost = lost.append\n"
    script += "for _ in range(20_000):\n sys.stderr.write('\\udcff \u00e9\\n')\nprint(sum(lost))"
    ends = os.pipe() if kind == "pipe" else [each.detach() for each in socket.socketpair()]
    if kind == "file":
        ends = [os.open(tmp_path / "log", os.O_RDWR | os.O_CREAT), os.open(tmp_path / "log", os.O_WRONLY)]
    found = subprocess.run([sys.executable, "-c", script], stdout=subprocess.PIPE, stderr=ends[1], check=True)
    text = os.read(ends[0], 1 << 20)
    assert {*text.splitlines()[:99]} == {b"\\udcff \xc3\xa9"}
    assert (text.count(b"\n") + int(found.stdout), int(found.stdout) > 10_000) == (20_000, kind != "file")
    for end in ends:
        os.close(end)


class ArbiterTests(ServiceCase):
    """The service outlives what the kernel refuses, and leaves to others what is theirs."""

    def test_the_dearest_requests(self):
        """Whatever is asked, and however it is changed to cost more, it ends by its units: it is answered, refused as TooBig, or needs a
        slot. What is named twice, and what is far away, costs nearly nothing."""
        service = open_service(self.folder / "v")
        climber = Climber(service, random.Random(7))
        with mock.patch.multiple("domethyme_service.costs", SHORT=20_000, MOST=60_000):
            climber.climb(120)
        assert climber.most <= 60_000 + 5_000 and climber.ends["answered"] > 10 and climber.ends["needs a slot"] > 3, climber.ends
        twice = f"/table/v1/car/0.0003,0;0.0077,0?annotations=distance&{TWICE}"
        assert ask(service, twice)[0] == 200 and service.meter.counts[Work.SUM] <= 4 and service.meter.counts[Work.PLACE] == 2
        assert ask(service, "/nearest/v1/car/-179.99,0.01")[1]["code"] == "NoSegment" and not service.meter.counts[Work.ROAD]
        for path, count in (("/nearest/v1/car/{}?radiuses={}", 1), ("/route/v1/car/{}?radiuses={}&overview=false", 500)):
            each = (";".join([word] * count) for word in ("-179.99,0.01", "unlimited"))
            assert ask(service, path.format(*each))[0] == 200 and service.meter.counts[Work.ROAD] > 10

    def test_what_requests_are_to_cost_and_do(self):
        """By the formulas of docs/SERVICE.md before any work, a batch by its bytes; and what is counted then. A batch that needs a
        slot after all is read once."""
        service, line, places = open_service(self.folder / "v"), '{"from": 1, "to": 7}\n', "car/0.0003,0;0.0013,0;0.002,0"
        nodes = 1.3 * 2 * math.sqrt(service.queries.nodes)
        for path, lines, cost, counts in (
            ("/nodes/length?from=1&to=7", "", 250, {"PAIR": 1}), ("/map/roads/16/32768/32767", "", 50_000, {}),
            ("/nodes/route?from=1&to=7", "", 250 + nodes, {"PAIR": 1, "NODE": 7}),
            ("/nodes/lengths", 300 * line, 315 * 255, {"PAIR": 300, "LINE": 300}),
            ("/nodes/routes", 300 * line, 315 * (255 + nodes), {"PAIR": 300, "LINE": 300, "NODE": 2100}),
            ("/nearest/v1/car/0,0?number=7&bearings=90,20", "", 13_200, {"PLACE": 7, "BEARING": 1}),
            # (the text of a row that comes twice, of 23 bytes, and that of another one)
            (f"/table/v1/{places}?sources=0;1;0&destinations=0;1;1;2", "", 0, {"PLACE": 3, "CELL": 8, "BYTE": 2 * 23 + 21}),
            (f"/trip/v1/{places}", "", 0, {"PLACE": 3, "STOP": 3, "PAIR": 3}), (f"/match/v1/{places}", "", 0, {"TRACE": 3}),
            (f"/route/v1/{places}?steps=true&annotations=nodes,speed", "", 0, {"PLACE": 3, "PAIR": 2, "POINT": 4 * 5}),
            ("/isochrone/v1/car/0,0?contours_minutes=0.2,0.5&bearings=90,20", "", 0, {"BEARING": 1, "REACH": 38, "CONTOUR": 2}),
        ):
            with mock.patch.object(service.meter, "begin", wraps=service.meter.begin) as begin:
                assert ask(service, path, lines)[0] == 200
            assert {work.name: count for work, count in service.meter.counts.items()}.items() >= counts.items(), path
            assert begin.call_args.args == (pytest.approx(cost) if cost else mock.ANY, True, bool(lines))
        environ = {**environ_of("/nodes/lengths", 20 * line.replace(" ", "")), "domethyme.has_slot": False}
        with mock.patch("domethyme_service.costs.SHORT", 5000), pytest.raises(NeedsSlot):
            service(environ, None)
        assert b"".join(service(environ | {"domethyme.has_slot": True}, lambda *_: None)).count(b"length") == 20
        assert ask(service, "/nodes/lengths", line, CONTENT_LENGTH="99")[1][0]["message"] == "the body has not come whole"
        assert ask(service, "/nodes/lengths", line, HTTP_CONTENT_ENCODING="Identity")[0] == 200

    def test_a_network_that_is_written_in_place(self):
        """An answer while it is being written, or after which it has been, is right, or an error inside: about the map, the nearest road, a
        route, and a tile. A service that is asked for the first time then has read what all answers have."""
        path, targets = self.folder / "v.net", ("/nearest/v1/car/0.0003,0.00001", "/route/v1/car/0.0003,0;0.0077,0", "/map/roads/16/32768/32767")
        service, others, whole = open_service(self.folder / "v"), [open_service(self.folder / "v") for _ in range(7)], path.read_bytes()
        right = {each: ask(service, each) for each in ("/map/about", *targets)}
        for begin, other in zip(range(0, len(whole), len(whole) // 7), others):
            def damage(_count=0, begin=begin):
                with open(path, "r+b") as file:
                    file.seek(begin)
                    file.write(bytes(len(whole) // 7))

            damage()
            for each, some in right.items():
                for answer in (ask(service, each), ask(other, each)):
                    self.assertTrue(answer == some or answer[0] == 500, (each, answer))
            path.write_bytes(whole)
            for each in targets[:2]:
                late = open_service(self.folder / "v")
                late.engine.roads.on_looked = damage
                answer = ask(late, each)
                self.assertTrue(answer == right[each] or answer[0] == 500, (each, answer))
                path.write_bytes(whole)
                late.engine.roads.on_looked = lambda _count: None
                self.assertEqual(ask(late, each), right[each])  # (nothing is kept of what was wrong)
                touches = [0]
                late.engine.roads.on_looked = lambda _count: os.utime(path, ns=(1, touches.pop())) if touches else None
                self.assertEqual(ask(late, each), right[each])
        for size, message in ((0, "an error inside"), (1, "a file of the service can't be read: its log says why")):
            def fail(*_nodes, size=size):
                path.write_bytes(whole + bytes(size))
                raise ValueError("secret")

            with self.assertLogs("domethyme_service", "ERROR") as logged, mock.patch.object(service.queries, "length", fail):
                found = ask(service, "/nodes/length?from=1&to=2")
            self.assertEqual(found, (500, {"code": "InternalError", "message": message}))
            self.assertEqual([word in logged.output[0] for word in (str(path), "secret")], [size > 0, size == 0])

    def test_processes_that_the_kernel_refuses(self):
        """At a reload, and for a worker that has ended: the old ones stay, and it is tried again."""
        flag = self.folder / "refuse"
        script = f"own, flag = os.NAME, pathlib.Path({str(flag)!r})\ndef refuse(*words):\n if flag.exists():\n"
        script += "  raise OSError(11, os.strerror(11))\n return own(*words)\nos.NAME = refuse\n"
        for name in ("fork", "pipe"):
            with self.subTest(name=name):
                self.command = changed(script.replace("NAME", name))
                process = self.serve()
                flag.touch()
                self.reload(process, "it is tried again")
                os.kill(workers_of(process)[0], signal.SIGKILL)
                self.wait_for(lambda: self.says("has ended"))
                self.assertEqual((self.ask("/health")[0], self.value("last_reload_failed")), (200, 1))
                flag.unlink()
                self.wait_for(lambda: self.value("reloads_total") == 1 and self.value("workers") == 4)
                self.assertEqual((self.value("last_reload_failed"), self.value("reload_failures_total")), (0, 1))
                self.stop(process)

    def test_a_worker_that_ends_while_they_are_counted(self):
        """The arbiter handles its signal between any two steps; it stays, and replaces the worker."""
        flag = self.folder / "kill"
        script = f"flag, own = pathlib.Path({str(flag)!r}), gunicorn_app.Arbiter.manage_workers\n"
        script += "def manage(arbiter):\n global workers\n workers = arbiter.WORKERS\n own(arbiter)\n"
        script += "def generation(worker):\n if flag.exists():\n  flag.unlink()\n  killed = max(workers)\n  os.kill(killed, 9)\n"
        script += "  while killed in workers:\n   time.sleep(0.01)\n return worker.number\n"
        script += "worker.Worker.number = 0\n"
        script += "worker.Worker.generation = property(generation, lambda worker, number: setattr(worker, 'number', number))\n"
        script += "gunicorn_app.Arbiter.manage_workers = manage\n"
        self.command = changed(script)
        process = self.serve()
        flag.touch()
        self.wait_for(lambda: self.says("has ended: another one is started"))
        self.wait_for(lambda: self.value("workers") == 4)
        self.stop(process)

    def test_a_step_of_the_clock(self):
        """By an hour, to either side, as the arbiter and its workers see it: no worker is taken for a silent one."""
        step, looks = self.folder / "step", self.folder / "looks"
        step.write_text("0")
        script = f"own, step, looks = time.time, pathlib.Path({str(step)!r}), open({str(looks)!r}, 'wb', 0)\n"
        script += "time.time = lambda: own() + int(step.read_text() or 0)\nmurder = gunicorn_app.Arbiter.murder_workers\n"
        script += "gunicorn_app.Arbiter.murder_workers = lambda arbiter: (murder(arbiter), looks.write(b'.'))\n"
        self.command = changed(script)
        process = self.serve()
        before = workers_of(process)
        for seconds in (3600, -3600):
            step.write_text(str(seconds))
            count = looks.stat().st_size
            self.wait_for(lambda count=count: looks.stat().st_size > count + 2)  # (of which two begin after the step)
            self.assertEqual((workers_of(process), self.says("WORKER TIMEOUT")), (before, 0))
        self.stop(process)

    def test_a_log_that_nobody_reads(self):
        """Requests are answered while nobody reads standard error, a pipe that is soon full; and the service ends."""
        process = self.serve("--access-log", reads_log=False)
        fcntl.fcntl(process.stderr, fcntl.F_SETPIPE_SZ, 4096)
        for _ in range(100):
            self.assertEqual(self.ask("/health")[0], 200)
        self.assertGreater(self.value("log_lines_lost_total"), 0)
        self.stop(process)
