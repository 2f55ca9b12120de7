#!/usr/bin/python3
"""Measures what others get while one public client repeats the dearest requests that are allowed, through nginx as it is packaged.

    hostile_clients.py HIERARCHY NETWORK [--seconds S] [--rounds N] [--only WORD]

NETWORK is the prefix of a network's files, as osm_to_gr or bench/make_roads.py write them. The client has eight
connections, each of which asks again at once: routes, tables, isochrones and places far away, some of which nginx refuses. Then there are
two batches of 4 MiB, forty connections with places at the antipode, and 1,600 heads that never end. Meanwhile another public client
asks for routes by two near places, one after the other, each on a connection of its own. Each line has its median and its slowest
answer, and how many there were, at rest and then, and how often the median of these at rest that is; then what the first client got.
At last each attack has the median of its rounds' ratios, the greatest, and its slowest answer.
"""
import collections
import contextlib
import http.client
import itertools
import multiprocessing
import os
import pathlib
import random
import socket
import statistics
import time

from kit.counted import parser, positive

import service_load

HOSTILE, OTHER = "203.0.113.9", "198.51.100.7"
CONNECTIONS, FAR_CONNECTIONS, HEADS = 8, 40, 1600
EVERYTHING = "steps=true&annotations=true&overview=full&geometries=geojson"
NDJSON = {"Content-Type": "application/x-ndjson"}


class Service(service_load.Service):
    in_http = "set_real_ip_from 127.0.0.1; real_ip_header X-Test-Address;"


def polyline(places):
    """Places, (lon, lat), as a polyline of five digits."""
    found, before = [], (0, 0)
    for lon, lat in places:
        here = round(lat * 1e5), round(lon * 1e5)
        for step in (here[0] - before[0], here[1] - before[1]):
            value = ~(step << 1) if step < 0 else step << 1
            while value >= 32:
                found.append(chr((32 | value & 31) + 63))
                value >>= 5
            found.append(chr(value + 63))
        before = here
    return "polyline(" + "".join(f"%{ord(char):02x}" for char in "".join(found)) + ")"


def attacks(places, draw):
    """The requests of the hostile client by name: (connections, method, target, body)."""
    nodes = [draw.randrange(places.count) for _ in range(1000)]
    spread = [(float(places.lon[node]), float(places.lat[node])) for node in nodes]
    near = [(spread[0][0] + draw.gauss(0, 0.002), spread[0][1] + draw.gauss(0, 0.002)) for _ in range(110)]
    text = ";".join(f"{lon:.5f},{lat:.5f}" for lon, lat in spread)
    first = lambda count: ";".join(text.split(";")[:count])  # noqa: E731
    antipode = f"{(spread[0][0] + 360) % 360 - 180:.4f},{-spread[0][1]:.4f}"
    twice = ";".join("0" * 100), ";".join("1" * 100)
    lines = (b'{"from": %d, "to": %d}\n' % (draw.randint(1, places.count), draw.randint(1, places.count)) for _ in itertools.count())
    body, size = [], 0
    while size + len(line := next(lines)) <= 4 << 20:
        body.append(line)
        size += len(line)
    get = {
        "table of two places, each 100 times": f"/table/v1/car/{first(2)}?annotations=distance&sources={twice[0]}&destinations={twice[1]}",
        "short route with everything": f"/route/v1/car/{first(3)}?{EVERYTHING}",
        "route by 60 places, a polyline": f"/route/v1/car/{polyline(spread[:60])}?{EVERYTHING}",
        "route by 240 places": f"/route/v1/car/{first(240)}?{EVERYTHING}",
        "table of 110 places with bearings": f"/table/v1/car/{polyline(near)}?bearings={';'.join(['45,0'] * 110)}",
        "table of 1,000 places": f"/table/v1/car/{text}?annotations=weight",
        "isochrones of 600 minutes": f"/isochrone/v1/car/{first(1)}?contours_minutes=597,598,599,600&polygons=true",
        "all of these": "",
    }
    found = {name: [(CONNECTIONS, "GET", target, None)] for name, target in get.items() if target}
    found["all of these"] = [(1, *row[0][1:]) for row in found.values()]
    found["40 x the antipode"] = [(FAR_CONNECTIONS, "GET", f"/nearest/v1/car/{antipode}?radiuses=unlimited", None)]
    found["2 batches of 4 MiB"] = [(2, "POST", "/nodes/routes", b"".join(body))]
    return found


def repeat(port, rows, counts):
    """Asks for each row on its connections, as threads of a process of their own would, until the process is ended."""
    import threading

    def client(method, target, body):
        while True:
            connection = http.client.HTTPConnection("127.0.0.1", port, timeout=300)
            with contextlib.suppress(OSError, http.client.HTTPException):
                connection.request(method, target, body, {"X-Test-Address": HOSTILE, "Host": "localhost", **(NDJSON if body else {})})
                answer = connection.getresponse()
                while answer.read(1 << 16):
                    pass
                counts.put(answer.status)
            connection.close()

    for count, *row in rows:
        for _ in range(count):
            threading.Thread(target=client, args=row, daemon=True).start()
    threading.Event().wait()


def hold_heads(port, _rows, counts):
    """Keeps heads open that never end, and opens others for those that are closed."""
    held = collections.deque()
    while True:
        with contextlib.suppress(OSError):
            while len(held) < HEADS:
                stream = socket.create_connection(("127.0.0.1", port), 5)
                stream.sendall(b"GET /health HTTP/1.1\r\nHost: x\r\nX-Test-Address: 203.0.113.9\r\nX-")
                held.append(stream)
                counts.put("opened")
        stream = held.popleft()
        stream.setblocking(False)
        try:
            if stream.recv(1):
                held.append(stream)
        except BlockingIOError:
            held.append(stream)
        except OSError:
            pass
        time.sleep(0.001)


def ask(port, target):
    """The seconds of an answer to the other client, which has to be right."""
    begun = time.monotonic()
    connection = http.client.HTTPConnection("127.0.0.1", port, timeout=300)
    connection.request("GET", target, headers={"X-Test-Address": OTHER, "Host": "localhost"})
    answer = connection.getresponse()
    answer.read()
    connection.close()
    if answer.status != 200:
        raise AssertionError(f"{target}: {answer.status}")
    return time.monotonic() - begun


def measure(port, targets, seconds):
    end, found = time.monotonic() + seconds, []
    while time.monotonic() < end or len(found) < 5:
        found.append(ask(port, targets[len(found) % len(targets)]))
        time.sleep(0.02)
    return found


def main():
    words = parser(__doc__)
    words.add_argument("hierarchy", metavar="HIERARCHY")
    words.add_argument("network", metavar="NETWORK")
    words.add_argument("--seconds", type=float, default=15)
    words.add_argument("--rounds", metavar="N", type=positive, default=1)
    words.add_argument("--only", metavar="WORD", default="")
    given = words.parse_args()
    given.direct, given.workers, draw, places = False, 4, random.Random(1), service_load.Places(given.network)
    service = Service(given)
    try:
        targets = [f"/route/v1/car/{places.text(places.pair(draw, True), draw)}" for _ in range(100)]
        rows = {**attacks(places, draw), "1,600 heads that never end": []}
        for target in targets[:20]:
            ask(service.port, target)
        found = collections.defaultdict(list)
        for name, some in [*rows.items()] * given.rounds:
            if given.only not in name:
                continue
            rest, counts = measure(service.port, targets, given.seconds / 2), multiprocessing.Queue()
            hostile = multiprocessing.Process(target=repeat if some else hold_heads, args=(service.port, some, counts), daemon=True)
            hostile.start()
            time.sleep(2)
            load = pathlib.Path("/proc/loadavg").read_text().split()[0]
            try:
                then = measure(service.port, targets, given.seconds)
            finally:
                hostile.kill()
                hostile.join()
            got = collections.Counter()
            while not counts.empty():
                got[counts.get()] += 1
            show = lambda times: f"{1000 * statistics.median(times):.0f}, {1000 * max(times):.0f} ms ({len(times)})"  # noqa: E731
            times = statistics.median(then) / statistics.median(rest)
            found[name].append((times, max(then)))
            print(f"{name}: at rest {show(rest)}, beside it {show(then)}, {times:.1f} times; "
                  f"{os.cpu_count()} processors, load {load}; it got {dict(got)}", flush=True)
            time.sleep(5)
        for name, some in found.items():
            ratios, slowest = zip(*some)
            shown = f"{statistics.median(ratios):.1f} times (at most {max(ratios):.1f}), at worst {1000 * max(slowest):.0f} ms"
            print(f"{name}: {shown}, {len(some)} rounds")
    finally:
        service.end()


if __name__ == "__main__":
    main()
