#!/usr/bin/python3
"""Measures the library as WebAssembly in Chromium beside the native one, and prints the table of docs/BROWSER.md.

    bench/browser_speed.py [--nodes N] [--rounds ROUNDS] [--folder FOLDER] [--library FOLDER]

By default on the sparse network (make_sparse.cpp) of 250,000 nodes, by `--order depth`, with 10,000 random pairs, in 5 rounds with each
way in turn: native by ctypes, and both forms of the module, each in a page of its own that is opened anew for each round. Times are of
the wall clock; a figure is the median of its rounds, with the least and the greatest:

  open           a file's bytes in memory, the first one in the page
  open again     the same bytes, once the first is closed
  route, length  for a pair, in microseconds; a route with the copy of its nodes
  reach          from a node without a limit, the first call and the median of the next 9

All lengths are compared. It needs g++, chromium, the proved program, the native library, and what packaging/build-web made, out/web
by default.
"""
import argparse
import ctypes
import functools
import http.server
import json
import os
import pathlib
import statistics
import subprocess
import sys
import tempfile
import threading
import time

from kit import counted
from kit.program import PROGRAM, need_compiled, need_program

ROOT = pathlib.Path(__file__).resolve().parents[1]
sys.path[1:1] = [str(ROOT / "python"), str(ROOT / "python/tests")]

from browser import Browser  # noqa: E402  (found by the path above)

from domethyme.library import NO_LENGTH, Handle, RouteInfo, Seed, load_library  # noqa: E402

PAIRS, SEED, REACHES = 10_000, 1, 9
ROWS = ("open", "open again", "route", "length", "reach, first", "reach, again")
FORMS = ("domethyme.wasm", "domethyme64.wasm")
PAGE = """<!DOCTYPE html><meta charset="utf-8"><link rel="icon" href="data:,"><script type="module">
import { NO_LENGTH, load } from "./domethyme.js";

const bytes = async (name) => new Uint8Array(await (await fetch(name)).arrayBuffer());
const timed = (call) => {
  const begun = performance.now(), found = call();
  return [(performance.now() - begun) / 1000, found];
};

globalThis.measured = async (form, pairs) => {
  const hierarchy = await bytes("map.rch"), domethyme = await load(form), took = {};
  const opened = (name) => {
    const [seconds, router] = timed(() => domethyme.open(hierarchy));
    took[name] = seconds;
    return router;
  };
  opened("open").close();
  const router = opened("open again"), lengths = [], nodes = [];
  took.route = timed(() => { for (const [from, to] of pairs) nodes.push(router.route(from, to)?.length ?? NO_LENGTH); })[0] / pairs.length;
  took.length = timed(() => { for (const [from, to] of pairs) lengths.push(router.length(from, to) ?? NO_LENGTH); })[0] / pairs.length;
  const reach = () => timed(() => router.reach([{ node: pairs[0][0] }]));
  const [first, reached] = reach(), others = Array.from({ length: REACHES }, () => reach()[0]).sort((one, other) => one - other);
  Object.assign(took, { "reach, first": first, "reach, again": others[REACHES >> 1] });
  const sum = (values) => String(values.reduce((all, each) => BigInt.asUintN(64, all + each), 0n));
  return { took, sums: [sum(nodes), sum(lengths), sum(reached)], memory: domethyme.memory };
};
</script>""".replace("REACHES", str(REACHES))

Measured = tuple[dict[str, float], list[str]]


def made(folder: pathlib.Path, nodes: int) -> list[tuple[int, int]]:
    """Makes the hierarchy of a sparse network, map.rch; its pairs, of nodes from 0."""
    graph, pairs = folder / "map.gr", folder / "map.pairs"
    words = [need_compiled(folder, "make_sparse"), nodes, 0, SEED, graph, PAIRS, pairs]
    subprocess.run(list(map(str, words)), check=True, stdout=subprocess.DEVNULL, stderr=subprocess.DEVNULL)
    if not (folder / "map.rch").exists():
        subprocess.run([PROGRAM, "prepare", "--order", "depth", graph, folder / "map.rch"], check=True)
    lines = [line.split() for line in pairs.read_text().splitlines() if line.startswith("q")]
    return [(int(line[1]) - 1, int(line[2]) - 1) for line in lines]


def native(folder: pathlib.Path, pairs: list[tuple[int, int]]) -> Measured:
    """What the native library takes, and the sums of what it finds."""
    data, library, took = (folder / "map.rch").read_bytes(), load_library(), dict[str, float]()
    handle, info, length, count = Handle(), RouteInfo(), ctypes.c_uint64(), ctypes.c_uint32()
    at = ctypes.byref(handle)
    for name in ("open", "open again"):
        library.domethyme_close(at)
        begun = time.perf_counter()
        assert library.domethyme_open(at, data, len(data)) == 0
        took[name] = time.perf_counter() - begun
    library.domethyme_nodes(at, ctypes.byref(count))
    nodes, sums = (ctypes.c_uint32 * count.value)(), [0, 0, 0]
    calls = [("route", library.domethyme_route, (ctypes.byref(info), nodes, count.value), lambda: info.length),
             ("length", library.domethyme_length, (ctypes.byref(length),), lambda: length.value)]
    for number, (name, call, rest, found) in enumerate(calls):
        begun = time.perf_counter()
        for start, end in pairs:
            sums[number] += NO_LENGTH if call(at, start, end, *rest) else found()
        took[name] = (time.perf_counter() - begun) / len(pairs)
    lengths, start, times = (ctypes.c_uint64 * count.value)(), (Seed * 1)(Seed(0, pairs[0][0], 0)), []
    for _ in range(1 + REACHES):
        begun = time.perf_counter()
        assert load_library().domethyme_reach(at, start, 1, NO_LENGTH, lengths, count.value) == 0
        times.append(time.perf_counter() - begun)
    took |= {"reach, first": times[0], "reach, again": statistics.median(times[1:])}
    sums[2] = sum(lengths)
    library.domethyme_close(at)
    return took, [str(each % (1 << 64)) for each in sums]


class Quiet(http.server.SimpleHTTPRequestHandler):
    """Serves a folder, and prints nothing."""

    extensions_map = {".js": "text/javascript", ".wasm": "application/wasm", ".html": "text/html"}

    def log_message(self, format: str, *words: object) -> None:
        pass


def in_browser(port: int, form: str, pairs: list[tuple[int, int]]) -> tuple[dict[str, float], list[str], int]:
    """What a form of the module takes in a new browser, the sums, and its memory at the end."""
    browser = Browser()
    try:
        browser.open(f"http://127.0.0.1:{port}/page.html")
        browser.until("typeof measured === 'function'")
        found = browser.value(f"measured({json.dumps(form)}, {json.dumps(pairs)})")
    finally:
        browser.close()
    return found["took"], found["sums"], found["memory"]


def shown(values: list[float], unit: float) -> str:
    figures = [value / unit for value in (statistics.median(values), min(values), max(values))]
    median, least, most = (f"{value:,.0f}" if value > 20 else f"{value:.1f}" for value in figures)
    return f"{median} ({least} to {most})"


def main() -> None:
    words = counted.parser(__doc__)
    words.add_argument("--nodes", type=counted.positive, default=250_000)
    words.add_argument("--rounds", type=counted.positive, default=5)
    words.add_argument("--folder", type=pathlib.Path, help="where the network is made, and kept")
    words.add_argument("--library", type=pathlib.Path, default=ROOT / "out/web")
    options: argparse.Namespace = words.parse_args()
    need_program()
    with tempfile.TemporaryDirectory(prefix="browser-speed-") as name:
        folder = (options.folder or pathlib.Path(name)).resolve()
        folder.mkdir(exist_ok=True)
        pairs = made(folder, options.nodes)
        for file in (*FORMS, "domethyme.js"):
            (folder / file).write_bytes((options.library / file).read_bytes())
        (folder / "page.html").write_text(PAGE, encoding="utf-8")
        server = http.server.ThreadingHTTPServer(("127.0.0.1", 0), functools.partial(Quiet, directory=str(folder)))
        threading.Thread(target=server.serve_forever, daemon=True).start()
        took: dict[str, dict[str, list[float]]] = {way: {row: [] for row in ROWS} for way in ("native", *FORMS)}
        for _ in range(options.rounds):
            figures, wanted = native(folder, pairs)
            ways = {"native": figures}
            for form in FORMS:
                ways[form], sums, memory = in_browser(server.server_port, form, pairs)
                if sums != wanted:
                    sys.exit(f"{form} finds other lengths")
                print(f"{form}: {memory / (1 << 20):.0f} MB at the end; load {os.getloadavg()[0]:.1f}", file=sys.stderr)
            for way, found in ways.items():
                for row in ROWS:
                    took[way][row].append(found[row])
        print(f"| {options.nodes:,} nodes, {options.rounds} rounds | native | 32-bit | beside native | 64-bit | beside native |")
        print("|---|---|---|---|---|---|")
        for row in ROWS:
            unit = 1e-6 if row in ("route", "length") else 1e-3
            ratios = {form: statistics.median(took[form][row]) / statistics.median(took["native"][row]) for form in FORMS}
            cells = [cell for form in FORMS for cell in (shown(took[form][row], unit), f"{ratios[form]:.2f}")]
            print(f"| {row}, {'µs' if unit == 1e-6 else 'ms'} | {shown(took['native'][row], unit)} | {' | '.join(cells)} |")
        server.shutdown()


if __name__ == "__main__":
    main()
