"""The service under many clients and attacks, on its own port and through nginx with the shipped configuration. Each answer
is compared, and `/health` is requested all the time."""
import concurrent.futures
import contextlib
import gzip
import http.client
import itertools
import os
import random
import resource
import signal
import socket
import threading
import time

import pytest
from nginx_case import NginxCase
from service_case import PATIENT, ServiceCase, changed, read_answer, workers_of
from tool_case import PYTHON, SECONDS

# How many requests of others have to be answered while an attack goes on.
BESIDE = 20
PATH = "/nodes/length?from=1&to=7"
LINE = b'{"from": 1, "to": 7}\n'


def post(size, path="/nodes/routes", more=""):
    """The head of a batch."""
    fields = f"Host: x\r\nContent-Type: application/x-ndjson\r\n{more}Content-Length: {size}\r\n\r\n"
    return f"POST {path} HTTP/1.1\r\n{fields}".encode()


def allow_files():
    """Has this process open up to 4096 files."""
    soft, hard = resource.getrlimit(resource.RLIMIT_NOFILE)
    resource.setrlimit(resource.RLIMIT_NOFILE, (max(soft, 4096 if hard == resource.RLIM_INFINITY else min(4096, hard)), hard))


class LoadCase(ServiceCase):
    """A test of either way to the service; `begin` starts it."""

    pytestmark = pytest.mark.timeout(1800)

    def begin(self, *words):
        return self.serve("--network", self.folder / "v", *words)

    @contextlib.contextmanager
    def under_attack(self):
        """Asserts that others are answered during the block, and while the connections that it has made are open."""
        asked = ("/health",), (PATH,), ("/nodes/lengths", "POST", LINE)
        with self.asking({each: [self.ask(*each)] for each in asked}, 1) as (probe,):
            yield probe
            self.wait_for(lambda: probe.right > BESIDE or probe.lost or probe.wrong)
        self.assertEqual(probe.lost, [])
        self.assertFalse([line for line in self.said if "Traceback" in line], self.said)

    def connect(self, stack):
        return stack.enter_context(socket.create_connection(("127.0.0.1", self.port), SECONDS))


class AttackTests(LoadCase):
    """On the service's own port."""

    def test_slow_heads_and_bodies(self):
        """Heads that stop arriving, byte by byte and at once, and bodies that do, short and long ones: others are answered
        meanwhile."""
        self.begin()
        with contextlib.ExitStack() as stack, self.under_attack():
            heads = [self.connect(stack) for _ in range(200)]
            for number, stream in enumerate(heads):
                stream.sendall(f"GET {PATH} HTTP/1.1\r\nHost: x\r\n".encode()[: 10 + number % 40])
            bodies = [self.connect(stack) for _ in range(60)]
            for number, stream in enumerate(bodies):
                stream.sendall(post((99, 1_000_000)[number % 2]) + LINE)
            for _ in range(120):  # (until their timeout)
                for stream in heads[:20]:
                    with contextlib.suppress(OSError):
                        stream.sendall(b"x")
                time.sleep(0.1)

    def test_idle_connections(self):
        """More connections than the workers keep: the oldest are closed, and others are answered."""
        allow_files()
        self.begin()
        with contextlib.ExitStack() as stack, self.under_attack() as probe:
            for _ in range(11):
                for _ in range(200):
                    self.connect(stack)
                # (the probe's is never among the oldest)
                before = probe.right
                self.wait_for(lambda before=before: probe.right > before or probe.lost)

    def test_slow_readers_of_batches(self):
        """Clients that request more than the kernel buffers, and read little of it."""
        self.begin()
        body = LINE * 150_000
        with contextlib.ExitStack() as stack, self.under_attack():
            streams = []
            for _ in range(6):
                stream = stack.enter_context(socket.socket())
                stream.setsockopt(socket.SOL_SOCKET, socket.SO_RCVBUF, 4096)
                stream.settimeout(SECONDS)
                stream.connect(("127.0.0.1", self.port))
                streams.append(stream)
                threading.Thread(target=self.write, args=[stream, post(len(body)) + body], daemon=True).start()
            for _ in range(40):
                time.sleep(0.1)
                for stream in streams:
                    with contextlib.suppress(OSError):
                        stream.recv(2000, socket.MSG_DONTWAIT)

    def write(self, stream, data):
        with contextlib.suppress(OSError):
            stream.sendall(data)

    def test_long_requests(self):
        """Batches, tables and routes with many places, and annotations with one name many times, each nine times, sixteen at once: each
        gets its answer in the end, and 503 while there is no slot."""
        self.begin()
        draw = random.Random(3)
        places = ";".join(f"{draw.uniform(0, 0.008):.6f},{draw.uniform(-0.0001, 0.0001):.6f}" for _ in range(45))
        paths = [f"/table/v1/car/{places}?annotations=duration,distance", f"/route/v1/car/{places}?steps=true&annotations=true",
                 f"/route/v1/car/{places}?annotations={'speed,' * 5000}speed", "/nearest/v1/car/0,0?number=100&radiuses=unlimited&bearings=0,0"]
        wanted = {asked: self.ask(*asked) for asked in [(path,) for path in paths] + [("/nodes/routes", "POST", LINE * 3000)]}
        self.assertEqual([status for status, _ in wanted.values()], [200, 200, 400, 200, 200])
        self.assertEqual([*wanted.values()][-1][1].count("nodes"), 3000)

        def ask(asked):
            while (found := self.ask(*asked))[0] == 503:
                self.assertRegex(found[1]["message"], "too many (long )?requests at once")
                time.sleep(1)
            self.assertEqual(found, wanted[asked])

        with self.under_attack(), concurrent.futures.ThreadPoolExecutor(16) as pool:
            self.assertEqual(len([*pool.map(ask, [*wanted] * 9)]), 45)


class NginxAttackTests(NginxCase, AttackTests):
    """The same through nginx."""

    def begin(self, *words):
        return self.serve_behind_nginx(*words)


class ReplacedTests(LoadCase):
    """Workers that are killed, and reloads of valid and damaged files, under load."""

    command, may_lose = PATIENT, True

    def setUp(self):
        super().setUp()
        self.process = self.begin("--radius", "5000")

    def answers(self):
        draw = random.Random(4)
        places = [f"{draw.uniform(0, 0.008):.6f},{draw.uniform(-0.0001, 0.0001):.6f}" for _ in range(12)]
        lines = "".join(f'{{"from": {one}, "to": {other}}}\n' for one, other in itertools.product(range(1, 9), repeat=2)).encode()
        asked = [(f"/nodes/route?from={node}&to={40 - node}",) for node in range(2, 39)]
        asked += [(f"/route/v1/car/{one};{other}?steps=true",) for one, other in itertools.pairwise(places)]
        asked += [(f"/table/v1/car/{';'.join(places)}",), ("/map/roads/16/32768/32767",), ("/nodes/routes", "POST", lines)]
        answers = {each: [self.ask(*each)] for each in asked}
        self.assertEqual({status for (status, _), in answers.values()}, {200})
        return answers

    def test_twenty_reloads(self):
        """Alternately valid and damaged files: no request is lost, and no answer is wrong."""
        good = {name: (self.folder / name).read_bytes() for name in ("v.rch", "v.net")}
        with self.asking(self.answers()) as clients:
            for number in range(20):
                self.wait_for_answers(clients)
                name, text = [*good.items()][number % 2]
                damaged = [text[: len(text) // 2], bytes(len(text))][number % 2]
                self.replace(name, damaged if number % 3 == 2 else text)
                self.reload(self.process, "reload refused: " if number % 3 == 2 else "")
                self.replace(name, text)
        self.assertEqual([client.lost for client in clients], [[]] * 4)
        self.assertEqual((self.value("reloads_total"), self.value("reload_failures_total")), (14, 6))

    def wait_for_answers(self, clients):
        """Waits until each client has got right answers."""
        before = [client.right for client in clients]
        self.wait_for(lambda: all(client.right > old + 2 or client.wrong for client, old in zip(clients, before)))

    def replace(self, name, text):
        (self.folder / "new").write_bytes(text)
        (self.folder / "new").rename(self.folder / name)

    def test_workers_that_are_killed(self):
        """Through nginx a request is repeated until a part of its answer has come, so none is lost but batches, whose answers are then cut;
        without it those of the killed workers are."""
        with self.asking(self.answers()) as clients:
            for _ in range(8):
                self.wait_for_answers(clients)
                killed = random.Random(4).choice(workers_of(self.process))
                os.kill(killed, signal.SIGKILL)
                self.wait_for(lambda killed=killed: killed not in workers_of(self.process))
        lost = [each for client in clients for each in client.lost]
        # (each client may lose one by each worker)
        self.assertLessEqual(len(lost), 8 * len(clients))
        if not self.may_lose:
            lost = [(path, why) for path, why in lost if path != "/nodes/routes" or not isinstance(why, http.client.IncompleteRead)]
            self.assertEqual(lost, [])
        self.wait_for(lambda: len(workers_of(self.process)) == (4 if self.may_lose else 5))
        self.wait_for(lambda: self.value("worker_restarts_total") == 8)


class NginxReplacedTests(NginxCase, ReplacedTests):
    may_lose = False

    def begin(self, *words):
        # (a request is repeated however long it was under way)
        return self.serve_behind_nginx(*words, instead={"proxy_next_upstream_timeout 5s": f"proxy_next_upstream_timeout {SECONDS}s"})


class NginxTests(NginxCase, LoadCase):
    """Other parts of the configuration, and what one public client leaves to others."""

    def test_the_way_through(self):
        self.serve_behind_nginx("--access-log")
        self.assertEqual(self.ask("/health")[0], 200)
        with socket.create_connection(("127.0.0.1", self.port), SECONDS) as stream:
            stream.sendall(b"GET /map/main.js HTTP/1.1\r\nHost: x\r\nAccept-Encoding: gzip\r\n\r\n")
            answer = read_answer(stream)
        self.assertEqual((answer.status, answer.fields["content-encoding"]), (200, "gzip"))
        self.assertEqual(gzip.decompress(answer.body), (PYTHON / "domethyme_service/page/main.js").read_bytes())
        self.assertEqual(oct(os.stat(self.folder / "serve.sock").st_mode & 0o777), "0o660")
        for host, status in (("127.0.0.1", 200), (f"127.0.0.1:{self.port}", 200), ("localhost", 200), ("x", 200), ("evil.example", 421)):
            self.assertEqual(self.ask(PATH, headers={"Host": host})[0], status, host)
        for headers, status in (({"X-Local-Address": "203.0.113.1", "Host": "203.0.113.1"}, 421), ({"X_Local_Address": "203.0.113.1", "Host": "203.0.113.1"}, 421),
                                ({"Sec-Fetch-Site": "cross-site"}, 403)):
            self.assertEqual(self.ask(PATH, headers=headers)[0], status, headers)
        # (metrics are for the machine itself)
        for address, path, status in (("127.0.0.1", "/metrics", 200), ("192.0.2.7", "/metrics", 403), ("10.0.0.7", "/metrics", 403),
                                      ("192.0.2.7", "/./metrics", 403), ("192.0.2.7", "/%6detrics", 403), ("192.0.2.7", "/health", 200)):
            self.assertEqual(self.ask(path, headers={"X-Test-Address": address})[0], status, path)

    def test_errors_of_nginx_are_json(self):
        process = self.serve_behind_nginx()
        for path, method, body, status, code in (
            ("/%zz", "GET", None, 400, "InvalidUrl"), ("/nodes/lengths", "POST", b" " * (5 << 20), 413, "TooBig"),
            ("/" + "x" * 70_000, "GET", None, 400, "InvalidUrl"), ("/health", "TRACE", None, 405, "MethodNotAllowed"),
        ):
            found = self.ask(path, method, body)
            self.assertEqual((found[0], found[1]["code"]), (status, code))
        self.stop(process)
        for path in ("/health", PATH):
            found = self.ask(path)
            self.assertEqual((found[0], found[1]["code"], self.headers["Retry-After"]), (503, "Overloaded", "1"))

    def test_rates(self):
        """A public address has a burst of 200 requests, here with one more in a minute in place of 100 a second; so has a /64 of
        IPv6, by as many of its addresses. A private address isn't limited."""
        self.serve_behind_nginx(instead={"rate=100r/s": "rate=1r/m"})
        public, private = ("203.0.113.9", "172.15.255.254", "172.32.0.1"), ("10.1.2.3", "172.16.0.1", "172.31.255.254")
        networks = "2001:db8:1:2:{:x}:1:1:1", "2001:db8:1::{:x}", "2001:db8:1:3:{:x}:1:1:1"
        for address, refused in [*((each, True) for each in (*public, *networks)), *((each, False) for each in private)]:
            statuses = []
            with contextlib.closing(http.client.HTTPConnection("127.0.0.1", self.port, timeout=SECONDS)) as connection:
                for number in range(1, 301):
                    connection.request("GET", "/nothing", headers={"X-Test-Address": address.format(number)})
                    answer = connection.getresponse()
                    answer.read()
                    statuses.append(answer.status)
            self.assertEqual((statuses[:201], 429 in statuses), ([404] * 201, refused), address)

    def test_connections(self):
        """A public address has 100 connections, of which 4 may be for what is long, and others aren't kept from theirs."""
        self.serve_behind_nginx(instead={"client_body_timeout 10s": f"client_body_timeout {SECONDS}s"})
        mine, other = {"X-Test-Address": "203.0.113.9"}, {"X-Test-Address": "203.0.113.10"}
        with contextlib.ExitStack() as stack:
            self.hold(stack, "/nodes/lengths", "203.0.113.9", 4)
            self.assertEqual([self.ask("/table/v1/car/0,0", headers=each)[0] for each in (mine, other)], [429, 200])
            self.assertEqual(self.ask("/health", headers=mine)[0], 200)
            self.hold(stack, "/nothing", "203.0.113.9", 96)
            self.assertEqual([self.ask("/nothing", headers=each)[0] for each in (mine, other)], [429, 404])
        self.wait_for(lambda: self.ask("/nothing", headers=mine)[0] == 404)

    def test_no_place_is_logged(self):
        """A rejected request is logged neither by nginx nor by the service."""
        self.serve_behind_nginx("--access-log")
        self.ask("/route/v1/car/0.0003,0.00001;0.0077,-0.00002")
        self.ask("/nearest/v1/car/0.0003,500")
        self.wait_for(lambda: sum(line.startswith("{") for line in self.said) == 2)
        os.remove(self.folder / "serve.sock")
        self.assertEqual(self.ask("/route/v1/car/0.0003,0.00001;0.0077,-0.00002")[0], 503)
        log = self.folder / "domethyme.log"
        self.wait_for(lambda: log.read_text().count("\n") == 3)
        lines = log.read_text().splitlines()
        # (each of nginx's workers writes its own when it likes)
        self.assertCountEqual([line.split()[1:4] for line in lines], [["GET", "/route", "200"], ["GET", "/nearest", "400"], ["GET", "other", "503"]])
        said = "".join([*self.said, *lines, *((self.folder / name).read_text() for name in ("domethyme-error.log", "nginx.log"))])
        self.assertNotIn("0.0003", said)
        self.assertNotIn("127.0.0.1", "".join(lines))

    def test_workers_that_are_busy(self):
        """Eight requests of one public client that don't end hold two of the four workers; another one's are answered. Once others
        hold all, nginx gets the service's health from a worker for probes."""
        script = "worker.ANSWER_SECONDS, arbiter, own = 1e6, os.getpid(), node_queries.length_answer\n"
        script += "def busy(queries, source, target):\n if source != 1:\n  return own(queries, source, target)\n"
        script += f" os.getppid() != arbiter and os._exit(0)\n os.mkfifo(f'{self.folder}/busy-{{os.getpid()}}')\n"
        script += " while os.getppid() == arbiter:\n  time.sleep(0.1)\n os._exit(0)\n"
        script += "node_queries.length_answer = busy\n"
        self.command = changed(script)
        self.serve_behind_nginx()
        with contextlib.ExitStack() as stack:
            for address, count in (("203.0.113.9", 2), ("10.0.0.1", 4)):
                for _ in range(8):
                    fields = f"Host: x\r\nX-Test-Address: {address}\r\n"
                    self.connect(stack).sendall(f"GET /nodes/length?from=2&to=1 HTTP/1.1\r\n{fields}\r\n".encode())
                self.wait_for(lambda count=count: len([*self.folder.glob("busy-*")]) == count)
                for other in ("203.0.113.10", "10.0.0.1") if count == 2 else ():
                    for _ in range(10):
                        self.assertEqual(self.ask(PATH, headers={"X-Test-Address": other})[0], 200)
                self.assertEqual(len([*self.folder.glob("busy-*")]), count)
            for _ in range(BESIDE):
                self.assertEqual(self.ask("/health")[0], 200)
