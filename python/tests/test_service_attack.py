"""Attacks on the service: each is one that an earlier version didn't withstand. Those with many clients at once are in
test_service_load."""
import contextlib
import os
import re
import signal
import socket
import subprocess

import pytest
from service_case import NO_END, ServiceCase, changed, read_answer, workers_of
from tool_case import ROOT, SECONDS, is_running

from domethyme_service import access, endpoints, osrm_request, parameters, worker, wsgi
from domethyme_service.costs import Meter, Work
from domethyme_service.errors import RequestError
from domethyme_service.osrm_geometry import Budget

pytestmark = pytest.mark.timeout(300)
PATH = "/nodes/length?from=1&to=2"


class RestartTests(ServiceCase):
    """Connections and requests while processes end, hang, are replaced, or have much to do."""

    def test_a_worker_that_is_silent_is_replaced(self):
        """A worker that hangs, as in a loop that blocks signals, is killed after half a minute and replaced."""
        process = self.serve()
        hung = workers_of(process)[0]
        os.kill(hung, signal.SIGSTOP)
        self.wait_for(lambda: self.says(f"WORKER TIMEOUT .pid:{hung}"))
        self.wait_for(lambda: len(workers_of(process)) == 4 and hung not in workers_of(process))
        self.wait_for(lambda: self.value("workers") == 4)
        self.assertEqual((self.value("worker_timeouts_total"), self.value("worker_restarts_total")), (1, 1))
        self.assertEqual(self.ask(PATH)[0], 200)

    def test_an_answer_that_takes_too_long(self):
        """It ends with 504 at the alarm, which is early here, and its worker is replaced, while others are answered. Each block of
        a batch has the whole time."""
        alarms = self.folder / "alarms"
        slow = f"def set_alarm(self, seconds):\n open({str(alarms)!r}, 'a').write(f'{{seconds:g}} ')\n own(self, seconds)\n"
        slow += "own, worker.Worker.set_alarm = worker.Worker.set_alarm, set_alarm\n"
        slow += "node_queries.length_answer = lambda *words: signal.setitimer(signal.ITIMER_REAL, 0.01) and time.sleep(600)\n"
        self.command = changed(slow)
        process = self.serve()
        before = set(workers_of(process))
        self.assertEqual(self.ask(PATH), (504, {"code": "Timeout", "message": "the answer took more than 10 s"}))
        self.wait_for(lambda: len(workers_of(process)) == 4 and len(before & set(workers_of(process))) == 3)
        self.assertEqual(self.value("requests_cancelled_total"), 1)
        status, text = self.ask("/nodes/lengths", "POST", '{"from": 1, "to": 1}\n' * 256 * 5)
        self.assertEqual((status, text.count("length")), (200, 256 * 5))
        self.assertEqual(alarms.read_text().split().count("25"), 1 + 5)

    def test_an_arbiter_that_is_killed_leaves_nothing(self):
        """Its workers are forked without threads, and end with it."""
        process = self.serve("--network", self.folder / "v")
        left = workers_of(process)
        for number in (process.pid, *left):
            self.assertEqual(os.listdir(f"/proc/{number}/task"), [str(number)])
        process.kill()
        self.wait_for(lambda: not any(map(is_running, left)))

    def test_workers_collect_nothing_that_they_share(self):
        """Most objects are of before the fork, and frozen: a collection in a worker would write to them, and so copy their pages."""
        counts = "gc.get_freeze_count(), len(gc.get_objects())"
        self.command = changed(f"node_queries.length_answer = lambda *_: b'[%d, %d]' % ({counts})")
        self.serve()
        frozen, others = self.ask(PATH)[1]
        self.assertGreater(frozen, others)

    def test_reloads_that_fail_say_why(self):
        """A reload fails whatever is wrong with the files, and however the process that opens them ends."""
        process = self.serve("--network", self.folder / "v")
        wanted = self.ask(PATH)
        hierarchy, network = self.folder / "v.rch", self.folder / "v.net"
        good = {path: path.read_bytes() for path in (hierarchy, network)}
        cases = [
            (hierarchy, None, "v.rch: No such file"), (hierarchy, b"", "v.rch: is no file that `routecli prepare` wrote"),
            (hierarchy, good[hierarchy][:-1], "v.rch: has"), (network, good[network][:-9], "v.net: is damaged"),
            (network, b"no network" * 10, "v.net: isn't a network's file"),
        ]
        for path, bytes_, says in cases:
            with self.subTest(path=path.name, says=says):
                path.unlink()
                if bytes_ is not None:
                    path.write_bytes(bytes_)
                self.reload(process, f"reload refused: .*{says}")
                path.unlink(missing_ok=True)
                path.write_bytes(good[path])
        hierarchy.unlink()
        os.mkfifo(hierarchy)  # (to which nobody writes)
        self.reload(process, "v.rch: is no regular file")
        self.assertEqual(self.ask(PATH), wanted)
        names = "reload_failures_total", "last_reload_failed", "reloads_total"
        self.assertEqual([*map(self.value, names)], [len(cases) + 1, 1, 0])

    def test_a_hierarchy_that_is_overwritten(self):
        """The file is overwritten in place by one of the same size: a worker that is restarted answers as before, until a
        reload. A connection that comes while there is no worker is answered by the next one."""
        process = self.serve()
        wanted = self.ask(PATH)
        self.prepare(2, "n.rch")
        with open(self.folder / "v.rch", "r+b") as file:
            file.write((self.folder / "n.rch").read_bytes())
        self.assertEqual(self.ask(PATH), wanted)
        for number in workers_of(process):
            os.kill(number, signal.SIGKILL)
        self.assertEqual(self.ask(PATH), wanted)
        self.reload(process)
        self.assertEqual(self.ask(PATH)[1]["length"], 2 * wanted[1]["length"])

    def test_a_restart_of_the_whole_service(self):
        """Under systemd's socket activation, a connection that arrives while the service is down is answered by the next one."""
        listening = socket.create_server(("127.0.0.1", 0))
        self.addCleanup(listening.close)
        os.dup2(listening.fileno(), 99)
        self.addCleanup(os.close, 99)
        hand_over = 'exec 3<&99 99<&-; LISTEN_FDS=1 LISTEN_PID=$$ exec "$@"'
        self.command = ("bash", "-c", hand_over, "", *self.command)
        first = self.serve(descriptors=[99])
        self.assertEqual(self.port, listening.getsockname()[1])
        wanted = self.ask(PATH)
        self.stop(first)
        with socket.create_connection(("127.0.0.1", self.port), SECONDS) as stream:
            stream.sendall(f"GET {PATH} HTTP/1.1\r\nHost: x\r\nConnection: close\r\n\r\n".encode())
            self.serve(descriptors=[99])
            self.assertIn(f'"length":{wanted[1]["length"]}'.encode(), b"".join(iter(lambda: stream.recv(4096), b"")))

    def test_what_is_under_way_as_the_service_ends(self):
        """A batch is answered completely, and a signal after many others isn't lost."""
        process = self.serve(environment=NO_END)
        body = b'{"from": 1, "to": 7}\n' * 100_000
        head = f"POST /nodes/routes HTTP/1.1\r\nHost: x\r\nContent-Type: application/json\r\nContent-Length: {len(body)}\r\n\r\n"
        with socket.create_connection(("127.0.0.1", self.port), SECONDS) as held:
            held.sendall(head.encode() + body)
            held.recv(1, socket.MSG_PEEK)  # (the answer has begun)
            for _ in range(20):
                process.send_signal(signal.SIGHUP)
            process.send_signal(signal.SIGTERM)
            answer = read_answer(held)
            self.assertEqual((answer.status, answer.body.count(b"nodes")), (200, 100_000))
        self.assertEqual(process.wait(), 0)

    def test_what_a_connection_sends(self):
        """It has one request: garbage or another one behind it is ignored. Sixty fields of one form are parsed: no pattern takes
        exponential time, which no limit would see the end of. More than a hundred are rejected. A head of 130,000 bytes is read.
        Bodies in parts aren't, however they end: gunicorn would wait for their end in a loop."""
        self.serve()
        get = f"GET {PATH} HTTP/1.1\r\nHost: x\r\n"
        post = "POST /nodes/lengths HTTP/1.1\r\nHost: x\r\nContent-Type: application/json\r\nTransfer-Encoding: chunked\r\n\r\n"
        fields = (60, 1, 200), (99, 1300, 200), (100, 1, 400), (500, 1, 400)
        bodies = "0\r\n" + "x: y\r\n" * 3000 + "\r\n", "f" * 60_000 + "\r\nx", "5\r\nhello\r\n0\r\n\r\n", "5\r\nhello", "5\r\nhel"
        for sent, status in (
            (f"{get}Connection: Upgrade\r\nUpgrade: websocket\r\n\r\n\x16\x03\x01garbage\r\n\r\n", 200),
            ("CONNECT x:443 HTTP/1.1\r\nHost: x\r\n\r\ngarbage", 400), (f"{get}\r\n" * 101, 200),
            *((get + f"x-a: {'b' * size}\r\n" * count + "\r\n", status) for count, size, status in fields),
            *((post + body, 411) for body in bodies),
        ):
            answer = self.raw(sent.encode("latin-1"), sent.startswith("POST"))
            self.assertEqual((answer.count(b"HTTP/1.1 "), answer[:13]), (1, f"HTTP/1.1 {status} ".encode()), sent[-99:])
        self.assertFalse(self.says("Traceback"), self.said)


class BrowserTests(ServiceCase):
    """Requests of a page of another origin, in a browser on the same machine."""

    def test_an_origin_that_may_ask(self):
        self.serve("--cors", "https://map.example")
        mine = {"Origin": "https://map.example", "Sec-Fetch-Site": "cross-site", "Sec-Fetch-Mode": "cors"}
        self.assertEqual(self.ask(PATH, headers={**mine, "Access-Control-Request-Method": "GET"})[0], 200)
        self.assertEqual((self.headers["Access-Control-Allow-Origin"], self.headers["Vary"]), ("https://map.example", "Origin"))
        self.assertEqual(self.ask(PATH, "OPTIONS", headers=mine)[0], 405)
        self.assertEqual(self.ask(f"{PATH}x", headers=mine)[0], 400)
        self.assertEqual(self.headers["Access-Control-Allow-Origin"], "https://map.example")
        status = self.raw(b"OPTIONS /nodes/lengths HTTP/1.1\r\nHost: x\r\nOrigin: https://map.example\r\nConnection: close\r\n"
                          b"Access-Control-Request-Method: POST\r\nAccess-Control-Request-Headers: content-type\r\n\r\n")
        self.assertRegex(status, rb"(?s)^HTTP/1.1 204 .*-Allow-Methods: GET, POST\r\n.*-Allow-Headers: Content-Type\r\n")


def test_addresses():
    for name, local in (("[::1]", "::1"), ("10.0.0.7", "::ffff:10.0.0.7"), ("[::ffff:10.0.0.7]", "::ffff:10.0.0.7"),
                        ("[fe80::1]", "fe80::1%eth0"), ("localhost", "::1"), ("localhost", "::ffff:127.0.0.1"),
                        ("localhost", "127.8.0.1")):
        assert access.is_address(name, local), (name, local)
    for name, host, is_allowed in (
        ("Routes.Example", "routes.example:443", True), ("Routes.Example.", "routes.example.", True), ("x", "X:", True),
        ("road_router~1", "road_router~1:5000", True), ("*", "other", True), ("*", "a b", False), ("x", "10.0.0.7:80", True),
        ("x", "10.0.0.7.x", False), ("x", "10.0.0.8", False), ("x", "localhost", False)
    ):
        assert access.AccessPolicy.from_options([name], "none").allows_host(host, "10.0.0.7") == is_allowed


@pytest.mark.parametrize("cors, host, origin, site, status", [
    ("none", "x:81", "http://X:81", "none", 200), ("none", "X:81", "http://x:81", "none", 200),
    ("none", "x", "http://x:81", "none", 403), ("none", "x", "null", "none", 403), ("none", None, "http://x", "none", 403),
    ("none", "x", "none", "cross-site", 403), ("none", "x", None, "same-origin", 200), ("none", "x", None, "same-site", 403),
    # (a proxy may have changed the host: the browser knows better)
    ("none", "x", "http://other", "same-origin", 200), ("none", "x", "http://other", "same-site", 403),
    ("*", "x", "http://other", "cross-site", 200), ("*", "other", "http://other", "cross-site", 421),
    ("https://other", "x", "http://other", "cross-site", 403), ("https://other", "x", None, "cross-site", 403),
    ("https://other", "other", "https://other", "cross-site", 421),
])
def test_origins(cors, host, origin, site, status):
    policy = access.AccessPolicy.from_options(["x"], cors)
    with contextlib.nullcontext() if status == 200 else pytest.raises(RequestError) as raised:
        policy.check(host, "10.0.0.7", {"HTTP_ORIGIN": origin, "HTTP_SEC_FETCH_SITE": site}, False)
    assert status == 200 or raised.value.status == status
    vary = {"Vary": "Origin"} if cors.startswith("https") else {}
    assert policy.headers == ({} if cors == "none" else {"Access-Control-Allow-Origin": cors, **vary})


def test_budgets():
    budget = Budget(Meter(), 3)
    budget.spend(1_500_000)
    assert budget.meter.counts == {Work.POINT: 4_500_000}
    with pytest.raises(RequestError, match="more than 1500000 points"):
        budget.spend(1)


# The worst texts of each pattern that is applied to requests, to be repeated.
WORST = {
    "METRES": ("9", "9.9", "0."), "BEARING": ("9", "9,", ","), "INDEX": ("9",), "NODE": ("9",), "COUNT": ("9",),
    "PLACE": ("9", "9.", "+9", "9e", ".9", "9,9"), "PROFILE": ("a", "a.", "."), "POLYLINE": ("polyline(", "(", "polyline6("),
    "TILE": ("/map/roads/9/", "9/", "/"), "HOST": ("a", "a.", "[:", "a:9", "["), "ORIGIN": ("a", "a:", "://"),
    "TARGET": ("/", "http://", "a"), "LENGTH": ("9",), "BODY_LENGTH": ("\r\ncontent-length:", " ", "9"),
    "DECIMAL": ("9", "9.", "."), "COLOR": ("a", "9"), "TIMESTAMP": ("9",),
    "PATH": ("polyline", "polyline(", "polyline()", "?", "()"),
}


def test_each_pattern_is_linear():
    """Each that is applied to requests ends soon: if it took time by the square of the text, it would take an hour."""
    modules = access, endpoints, osrm_request, parameters, worker, wsgi
    found = {name: value for module in modules for name, value in vars(module).items() if isinstance(value, re.Pattern)}
    assert found.keys() == WORST.keys(), "a pattern without its worst texts, or texts without a pattern"
    for name, pattern in found.items():
        for part in WORST[name]:
            for begin, end in (("", ""), ("", "\0"), ("polyline(", "\n"), ("\r\ncontent-length:", "\0")):
                text = begin + part * (1_000_000 // len(part)) + end
                given = text.encode() if isinstance(pattern.pattern, bytes) else text
                (pattern.search if pattern is worker.BODY_LENGTH else pattern.fullmatch)(given)


@pytest.mark.needs("systemd-analyze")
def test_exposure():
    """systemd-analyze rates the unit's exposure at most 2.0 of 10."""
    words = ["systemd-analyze", "security", "--offline=true", "--threshold=20", ROOT / "packaging/domethyme-serve.service"]
    ended = subprocess.run(words, capture_output=True, text=True)
    assert (ended.returncode, "Overall exposure level" in ended.stdout) == (0, True), ended.stdout[-300:] + ended.stderr


def test_the_unit_starts_again():
    """After a fault; and one process that is killed for want of memory ends no other."""
    lines = (ROOT / "packaging/domethyme-serve.service").read_text().splitlines()
    assert {"Restart=on-failure", "RestartSec=2", "OOMPolicy=continue"} <= set(lines)
