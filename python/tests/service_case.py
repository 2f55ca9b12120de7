"""The village's service for tests: started and ended, and requests to it."""
import contextlib
import http.client
import json
import os
import pathlib
import random
import re
import signal
import socket
import subprocess
import sys
import threading
import time
from typing import NamedTuple

from tool_case import PYTHON, SECONDS, TOOLS, VILLAGE, ToolCase, end

import domethyme
from domethyme.dimacs import read_graph

# KiB that a worker may grow by in a round without a leak, and the number of rounds. Python's allocator and the threads' arenas
# grow in early rounds, and more on a busy machine: memory has to stay level in one of the rounds.
MOST_GROWN, ROUNDS = 2048, 6
# The type of the body of a batch.
NDJSON = {"Content-Type": "application/x-ndjson"}
# The environment of a service that waits for what is under way, however long that takes, before it ends.
NO_END = {"GUNICORN_CMD_ARGS": f"--graceful-timeout={10 * SECONDS}"}


def changed(script):
    """The command of a service that begins with a script."""
    before = f"import gc, os, pathlib, signal, sys, time\nsys.path.insert(0, {str(PYTHON)!r})\n"
    before += "from domethyme_service import command, gunicorn_app, node_queries, worker\n"
    return sys.executable, "-c", f"{before}{script}\ncommand.main()"


# One whose workers wait for the heads of connections however long that takes.
PATIENT = changed("worker.HEAD_SECONDS = worker.DRAIN_SECONDS = 1e6")


class Answer(NamedTuple):
    """An answer: its fields by lowercase name, and its body without chunk headers."""

    status: int
    fields: dict[str, str]
    body: bytes


class Client(threading.Thread):
    """Asks what has right answers, in any order, each on a connection of its own, until it is over. Counts those that it gets, and
    keeps what is lost, without an answer or by 503, and what is wrong."""

    def __init__(self, case, answers, number):
        super().__init__(daemon=True)
        self.case, self.answers, self.draw, self.is_over = case, [*answers.items()], random.Random(number), threading.Event()
        self.right, self.lost, self.wrong = 0, [], []

    def run(self):
        while not self.is_over.wait(0.01):
            asked, answers = self.draw.choice(self.answers)
            try:
                found = self.case.ask(*asked)
            except (OSError, http.client.HTTPException) as error:
                self.lost.append((asked[0], error))
                continue
            if found in answers:
                self.right += 1
            else:
                (self.lost if found[0] == 503 else self.wrong).append((asked[0], found))


class ServiceCase(ToolCase):
    """A test with the hierarchy of the village, v.rch, and its network v. `command` starts the service."""

    command = (TOOLS / "domethyme-serve",)

    def map_file(self):
        return VILLAGE

    def setUp(self):
        super().setUp()
        self.run_tool("osm_to_gr", self.map_file(), "v", "--keep-islands", "--tables")
        domethyme.prepare(self.folder / "v.gr", self.folder / "v.rch", workers=1).close()
        self.graph = read_graph(self.folder / "v.gr")

    def prepare(self, factor, name="v.rch"):
        """Writes a hierarchy with this many times the village's weights."""
        graph = self.graph
        weights = [factor * weight for weight in graph.weights]
        domethyme.write_graph(self.folder / "n.gr", graph.starts, graph.ends, weights, nodes=graph.nodes)
        domethyme.prepare(self.folder / "n.gr", self.folder / name, workers=1).close()

    def serve(self, *words, descriptors=(), reads_log=True, environment={}):
        """Starts the service, and returns its process, the arbiter's, once it listens at `self.port`. What it says then is read on,
        or left."""
        where = () if "--bind" in words else ("--port", "0")
        given = [*self.command, self.folder / "v.rch", *where, "--allowed-host", "x", *words]
        more = {"pass_fds": descriptors, "env": os.environ | environment}
        process = subprocess.Popen([*map(str, given)], stderr=subprocess.PIPE, text=True, **more)
        self.said = []
        self.addCleanup(print_lines, self.said)
        self.addCleanup(end, process)
        for line in process.stderr:
            self.said.append(line)
            if found := re.search(r"listens at (?:http://127\.0\.0\.1:(\d+)/|unix:)", line):
                self.port = int(found[1] or 0)
                if reads_log:
                    threading.Thread(target=read_rest, args=(process.stderr, self.said), daemon=True).start()
                self.wait_for(lambda: len(workers_of(process)) >= 4)
                return process
        self.fail(f"the service didn't start: {self.said}")

    def ask(self, path, method="GET", body=None, headers=None):
        """The status and the body of an answer, as JSON where it is JSON."""
        with contextlib.closing(http.client.HTTPConnection("127.0.0.1", self.port, timeout=SECONDS)) as connection:
            connection.request(method, path, body, {**(NDJSON if method == "POST" else {}), **(headers or {})})
            answer = connection.getresponse()
            text = answer.read().decode()
        self.headers = dict(answer.getheaders())
        return answer.status, json.loads(text) if "/json" in self.headers["Content-Type"] else text

    @contextlib.contextmanager
    def asking(self, answers, count=4):
        """Clients that ask during the block; none may get a wrong answer."""
        clients = [Client(self, answers, number) for number in range(count)]
        for each in clients:
            each.start()
        try:
            yield clients
        finally:
            for each in clients:
                each.is_over.set()
        for each in clients:
            each.join()
        self.assertEqual([each.wrong for each in clients], [[]] * count)

    def raw(self, sent, half_close=False):
        """All that the service sends to bytes on a connection, until it closes."""
        with socket.create_connection(("127.0.0.1", self.port), SECONDS) as stream:
            stream.sendall(sent)
            if half_close:
                stream.shutdown(socket.SHUT_WR)
            return b"".join(iter(lambda: stream.recv(1 << 16), b""))

    def wait_for(self, what):
        """Waits until a condition is true."""
        while not what():
            time.sleep(0.05)

    def says(self, text):
        """How many lines of the log have a text, a regular expression."""
        return sum(re.search(text, line) is not None for line in self.said)

    def reload(self, process, says=""):
        """Has the service read its files again, and waits until its log says how that ended: well, if it isn't named."""
        says = says or f"reloaded, {self.graph.nodes} nodes\n"
        before = self.says(says)
        process.send_signal(signal.SIGHUP)
        self.wait_for(lambda: self.says(says) > before)

    def stop(self, process):
        process.send_signal(signal.SIGTERM)
        self.assertEqual(process.wait(), 0)

    def assert_level(self, process, act):
        """Calls `act` in rounds, until one in which no worker grows; fails if memory grows in each round."""
        sizes = []
        for _ in range(ROUNDS):
            act()
            sizes.append([resident(number) for number in workers_of(process)])
            self.assertTrue(sizes[-1], "there is a worker")
            if len(sizes) > 1 and all(new <= old + MOST_GROWN for old, new in zip(*sizes[-2:], strict=True)):
                return
        self.fail(f"memory grows in each round: {sizes} KiB")

    def value(self, name):
        """A value of /metrics, 0 if it isn't there. An answer is counted just after it was sent, so a test waits for its count."""
        status, text = self.ask("/metrics")
        self.assertEqual(status, 200)
        found = re.search(rf"(?m)^domethyme_{re.escape(name)} (.*)$", text)
        return float(found[1]) if found else 0.0


def read_answer(stream: socket.socket) -> Answer:
    """The answer on a connection; raises an HTTPException if that ends before it is complete."""
    response = http.client.HTTPResponse(stream)
    response.begin()
    return Answer(response.status, {name.lower(): value for name, value in response.getheaders()}, response.read())


def workers_of(process: "subprocess.Popen[str]") -> list[int]:
    """The workers of a service, which its arbiter has forked."""
    found = []
    for path in pathlib.Path("/proc").glob("[0-9]*/stat"):
        with contextlib.suppress(OSError):
            if int(path.read_text().rpartition(")")[2].split()[1]) == process.pid:
                found.append(int(path.parent.name))
    return sorted(found)


def resident(number: int) -> int:
    """The resident memory of a process, in KiB."""
    return int(re.search(r"VmRSS:\s+(\d+) kB", pathlib.Path(f"/proc/{number}/status").read_text())[1])


def read_rest(stream, lines):
    """Adds the lines that are left of a stream to others, and closes it at its end, which is when no worker is left."""
    with stream:
        lines.extend(stream)


def print_lines(lines):
    """Prints a service's log, which pytest shows with a test that fails."""
    print("".join(lines))
