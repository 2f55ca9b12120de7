#!/usr/bin/python3
"""Measures the service over HTTP: pairs of nodes, routes with geometry and steps, and tables with single requests beside them.

    service_load.py HIERARCHY NETWORK [--answers] [--direct] [--workers N] [--connections N] [--seconds S] [--rounds N]

NETWORK is the prefix of a network's files, as bench/make_roads.py writes them. Near pairs are those whose numbers
are at most 3,000 apart, which in such networks are some 90 arcs. It needs Debian's wrk, and asks through nginx, with the configuration
that ships and its processor time counted, or with --direct the service's own port. Each line has the requests in a second,
the median and the 99th percentile in ms, and the processor time of the service and of wrk for each request, since
other work on the machine makes the former smaller and not the latter. Each is the median of the rounds. Beside tables single
requests are asked one after the other, each on a connection of its own, after as many without tables. With --answers the
requests are those of answer_speed.py, and a line has the bytes of an answer with gzip and without.
"""
import concurrent.futures
import getpass
import http.client
import json
import os
import pathlib
import random
import re
import resource
import shutil
import signal
import socket
import statistics
import subprocess
import tempfile
import threading
import time

from kit.counted import parser  # (finds domethyme too)
import answer_speed

from domethyme.network import net_file
from domethyme.network.from_tables import load_network

ROOT = pathlib.Path(__file__).resolve().parent.parent

NEAR = 3000
PATHS = 4000
PLACES = 100
TICK = os.sysconf("SC_CLK_TCK")
LUA = """
local paths = {{}}
for line in io.lines("{file}") do paths[#paths + 1] = line end
local at = math.random(#paths)
request = function()
  at = at % #paths + 1
  return wrk.format("GET", paths[at])
end
local wrong = 0
response = function(status) if status ~= 200 then wrong = wrong + 1 end end
done = function(summary, latency)
  io.write(string.format("%d %d %d %d %d\\n", summary.requests, summary.duration, latency:percentile(50), latency:percentile(99),
    summary.errors.status + summary.errors.connect + summary.errors.read + summary.errors.timeout))
end
"""


class Service:
    """The service, with its processes. `in_http` is added to nginx's settings."""

    in_http = ""

    def __init__(self, given):
        self.folder, self.nginx = pathlib.Path(tempfile.mkdtemp(prefix="service-load-")), None
        where = ("--port", "0") if given.direct else ("--bind", f"unix:{self.folder}/serve.sock")
        words = [ROOT / "tools/domethyme-serve", given.hierarchy, "--network", given.network, *where, "--workers", given.workers]
        begun = time.monotonic()
        self.process = subprocess.Popen(list(map(str, words)), stderr=subprocess.PIPE, text=True)
        for line in self.process.stderr:
            if found := re.search(r"listens at (?:http://127\.0\.0\.1:(\d+)/|unix:)", line):
                self.port = int(found[1] or 0)
                break
        else:
            raise SystemExit("service_load: the service doesn't start")
        self.seconds_to_begin = time.monotonic() - begun
        threading.Thread(target=self.process.stderr.read, daemon=True).start()
        if not given.direct:
            self.start_nginx()

    def start_nginx(self):
        """nginx by the configuration that ships, at a port of its own."""
        with socket.create_server(("127.0.0.1", 0)) as stream:
            self.port = stream.getsockname()[1]
        text = (ROOT / "packaging/nginx/domethyme.conf").read_text().replace("/run/domethyme", str(self.folder))
        text = text.replace("/var/log/nginx", str(self.folder)).replace("listen [::]:80;", "").replace("listen 80;", f"listen 127.0.0.1:{self.port};")
        user = f"user {getpass.getuser()};" if os.geteuid() == 0 else ""
        folders = "".join(f"{name}_temp_path {self.folder}/{name};" for name in ("client_body", "proxy", "fastcgi", "uwsgi", "scgi"))
        many = "worker_rlimit_nofile 40000; events { worker_connections 16384; }"
        head = f"{user} daemon off; worker_processes 2; pid {self.folder}/pid; {many}"
        (self.folder / "nginx.conf").write_text(f"{head} http {{ {folders} {self.in_http}\n{text} }}")
        self.nginx = subprocess.Popen(["nginx", "-c", self.folder / "nginx.conf", "-e", self.folder / "nginx.log"])
        time.sleep(1)

    def processes(self):
        """Those of the service, and of nginx."""
        return [*descendants(self.process.pid), *([] if self.nginx is None else descendants(self.nginx.pid))]

    def seconds(self):
        """The processor seconds of its processes."""
        texts = [pathlib.Path(f"/proc/{number}/stat").read_text() for number in self.processes()]
        return sum(int(ticks) for text in texts for ticks in text.rpartition(")")[2].split()[11:13]) / TICK

    def memory(self):
        """The megabytes of all its processes, where pages that several have in common are shared out (PSS), how many of them are those of
        the mapped network, and how many a worker has of its own, on average."""
        numbers = descendants(self.process.pid)
        texts = {number: pathlib.Path(f"/proc/{number}/smaps_rollup").read_text() for number in numbers}
        of = lambda name, some: sum(int(re.search(rf"{name}:\s+(\d+)", text)[1]) for text in some) // 1024  # noqa: E731
        workers = [text for number, text in texts.items() if descendants(number) == [number]]
        return of("Pss", texts.values()), of("Pss_File", texts.values()), of("Private_Dirty", workers) // len(workers)

    def ask(self, path):
        connection = http.client.HTTPConnection("127.0.0.1", self.port, timeout=60)
        connection.request("GET", path)
        found = json.loads(connection.getresponse().read())
        connection.close()
        return found

    def size(self, path, coding):
        """The bytes of an answer's body."""
        connection = http.client.HTTPConnection("127.0.0.1", self.port, timeout=60)
        connection.request("GET", path, headers={"Accept-Encoding": coding})
        found = len(connection.getresponse().read())
        connection.close()
        return found

    def end(self):
        for process in filter(None, (self.nginx, self.process)):
            process.send_signal(signal.SIGTERM)
            process.wait()
        shutil.rmtree(self.folder)


def descendants(number):
    found = [number]
    for child in pathlib.Path(f"/proc/{number}/task/{number}/children").read_text().split():
        found += descendants(int(child))
    return found


class Places:
    """Nodes, and where they lie."""

    def __init__(self, network):
        arrays = load_network(network)
        self.lon, self.lat = arrays.node_lon[:] / net_file.UNITS, arrays.node_lat[:] / net_file.UNITS
        self.count, self.box = len(self.lon), arrays.box

    def pair(self, draw, is_near):
        one = draw.randint(1, self.count)
        return one, min(self.count, max(1, one + draw.randint(-NEAR, NEAR))) if is_near else draw.randint(1, self.count)

    def text(self, nodes, draw):
        """The places beside nodes, as OSRM's API takes them."""
        beside = lambda: draw.gauss(0, 0.0002)  # noqa: E731 (a name for what follows)
        return ";".join(f"{self.lon[node - 1] + beside():.6f},{self.lat[node - 1] + beside():.6f}" for node in nodes)


def load(service, name, paths, given):
    """Asks for the paths by wrk, and prints the medians of the rounds."""
    with tempfile.TemporaryDirectory() as folder:
        file, script = pathlib.Path(folder) / "paths", pathlib.Path(folder) / "wrk.lua"
        file.write_text("".join(f"{path}\n" for path in paths))
        script.write_text(LUA.format(file=file))
        rows = [one_load(service, script, given) for _ in range(given.rounds)]
    rate, median, late, used, asking, wrong = (statistics.median(column) for column in zip(*rows))
    low, high = min(row[0] for row in rows), max(row[0] for row in rows)
    said = f"{name}: {rate:,.0f}/s ({low:,.0f} to {high:,.0f}), median {median:.1f} ms, p99 {late:.1f} ms"
    print(f"{said}; processor time {used:.0f} µs service, {asking:.0f} µs wrk; {wrong:.0f} errors", flush=True)


def one_load(service, script, given):
    before = service.seconds(), seconds_of_children()
    words = ["wrk", "-t", "2", "-c", given.connections, "-d", given.seconds, "-s", script, f"http://127.0.0.1:{service.port}"]
    said = subprocess.run(list(map(str, words)), capture_output=True, text=True, check=True).stdout.splitlines()[-1]
    requests, duration, median, late, wrong = map(int, said.split())
    after = service.seconds(), seconds_of_children()
    each = (1e6 * (now - then) / max(1, requests) for now, then in zip(after, before))
    return 1e6 * requests / duration, median / 1000, late / 1000, *each, wrong


def answers(service, places, given):
    """Loads of each kind of answer, and the bytes of the first one."""
    requests = answer_speed.Requests([*zip(places.lon.tolist(), places.lat.tolist())], places.box)
    for kind in answer_speed.KINDS:
        paths = requests.targets(kind)
        plain, packed = (service.size(paths[0], coding) for coding in ("identity", "gzip"))
        load(service, f"{kind} ({plain:,} bytes, {packed:,} by gzip)", paths, given)


def seconds_of_children():
    """The processor seconds of processes that this one has waited for."""
    used = resource.getrusage(resource.RUSAGE_CHILDREN)
    return used.ru_utime + used.ru_stime


def tables(service, places, draw, given):
    """The seconds of tables, and of single requests while there is always one."""
    node = draw.randint(1, places.count)
    nodes = [min(places.count, max(1, node + draw.randint(-NEAR, NEAR))) for _ in range(PLACES)]
    path = f"/table/v1/car/{places.text(nodes, draw)}?skip_waypoints=true"
    single = [f"/nodes/route?from={pair[0]}&to={pair[1]}" for pair in (places.pair(draw, True) for _ in range(300))]
    without = sorted(timed(service, one) for one in single)
    before = service.seconds()
    alone = [timed(service, path) for _ in range(max(5, given.rounds))]
    used = service.seconds() - before
    with concurrent.futures.ThreadPoolExecutor(1) as pool:
        running = pool.submit(lambda: [timed(service, path) for _ in range(8)])
        beside = []
        while not running.done():
            beside.append(timed(service, single[len(beside) % len(single)]))
    beside.sort()
    print(
        f"table of {PLACES} x {PLACES}: {1000 * statistics.median(alone):.0f} ms alone ({1000 * min(alone):.0f} to {1000 * max(alone):.0f}), "
        f"processor time {1000 * used / len(alone):.0f} ms"
    )
    for name, times in (("without", without), ("beside", beside)):
        late = times[int(len(times) * 0.99)]
        print(f"single requests {name} tables: median {1000 * statistics.median(times):.1f} ms, p99 {1000 * late:.1f} ms, of {len(times)}", flush=True)


def timed(service, path):
    begun = time.monotonic()
    if "code" in (found := service.ask(path)) and found["code"] != "Ok":
        raise AssertionError(found)
    return time.monotonic() - begun


def main():
    words = parser(__doc__)
    words.add_argument("hierarchy", metavar="HIERARCHY")
    words.add_argument("network", metavar="NETWORK")
    words.add_argument("--answers", action="store_true")
    words.add_argument("--direct", action="store_true")
    words.add_argument("--workers", type=int, default=4)
    words.add_argument("--connections", type=int, default=16)
    words.add_argument("--seconds", type=int, default=4)
    words.add_argument("--rounds", type=int, default=3)
    given = words.parse_args()
    draw, places = random.Random(1), Places(given.network)
    service = Service(given)
    try:
        loads = " ".join(pathlib.Path("/proc/loadavg").read_text().split()[:2])
        print(f"{given.workers} workers, {given.connections} connections, {places.count:,} nodes, {os.cpu_count()} processors, load {loads}")
        print(f"ready after {service.seconds_to_begin:.1f} s")
        if given.answers:
            return answers(service, places, given)
        for is_near, name in ((True, "near"), (False, "random")):
            pairs = [places.pair(draw, is_near) for _ in range(PATHS)]
            load(service, f"{name} pairs of nodes", [f"/nodes/route?from={one}&to={two}" for one, two in pairs], given)
            shape = "overview=false&steps=true&geometries=geojson&generate_hints=false"
            paths = [f"/route/v1/car/{places.text(pair, draw)}?{shape}" for pair in pairs]
            load(service, f"{name} routes with geometry and steps", paths, given)
        tables(service, places, draw, given)
        print("memory: {} MB in all processes, {} MB of it files; a worker has {} MB of its own".format(*service.memory()))
    finally:
        service.end()


if __name__ == "__main__":
    main()
