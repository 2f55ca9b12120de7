"""The recipes and sessions of pages do what the pages say, in a folder in place of the machine's own."""
import fcntl
import hashlib
import json
import os
import pathlib
import re
import shutil
import signal
import socket
import subprocess
import sys
import unittest.mock

import pytest
from nginx_case import SHIPPED, NginxCase
from test_osm_to_gr import write_map
from tool_case import ROOT, SECONDS, TOOLS, VILLAGE, end

import domethyme
from domethyme import find_program
from domethyme.dimacs import read_graph

pytestmark = pytest.mark.timeout(300)
sys.path.insert(0, str(ROOT / "packaging"))

from readme_session import blocks  # noqa: E402

PAGE, PYTHON_PAGE, FROM_OSRM = ((ROOT / "docs" / name).read_text(encoding="utf-8") for name in ("OPERATING.md", "PYTHON.md", "FROM_OSRM.md"))
PLACE = "/route/v1/{}/0.001,0;0.012,0?overview=false&generate_hints=false"
REFRESH = ROOT / "packaging/container/refresh"


def is_taken(path):
    """Whether a unix socket takes connections."""
    with socket.socket(socket.AF_UNIX) as stream:
        return stream.connect_ex(path) == 0


def moved_village(folder):
    """The village as a map, moved to where the pages ask for places."""
    moved = re.sub(r"(?<=l(on|at))='([^']*)'", lambda at: f"='{float(at[2]) + (9.5215 if at[1] == 'on' else 47.141):.7f}'", VILLAGE.read_text())
    (folder / "li.osm").write_text(moved)
    return folder / "li.osm"


def commands(folder, **said):
    """The environment with commands: the tools as the package names them, routecli, and those that are given as lines of sh."""
    for name in ("osm_to_gr", "reweigh", "to_network", "without"):
        said[f"domethyme-{name.replace('_', '-')}"] = f'exec {TOOLS}/{name} "$@"'
    said["routecli"] = f'exec {pathlib.Path(os.environ["ROUTECLI"]).resolve()} "$@"'
    (folder / "bin").mkdir()
    for name, lines in said.items():
        (folder / "bin" / name).write_text(f"#!/bin/sh\n{lines}\n", encoding="utf-8")
        (folder / "bin" / name).chmod(0o755)
    return {**os.environ, "PATH": f"{folder}/bin:{os.environ['PATH']}"}


@pytest.fixture
def clone(tmp_path):
    """A folder with some of the clone's, and one for files."""
    (tmp_path / "out").mkdir()
    for name in ("examples", "tools", "python"):
        (tmp_path / name).symlink_to(ROOT / name)
    return tmp_path


@pytest.mark.needs("curl")
def test_from_osrm(clone):
    """Each command, with the village in the place of the page's map; the service answers."""
    environment = commands(clone)
    write_map(clone / "out/liechtenstein-2013-08-03.osm.pbf", moved_village(clone))
    # (nobody else is given a port that is bound; the service may listen at it)
    kept = socket.socket()
    kept.setsockopt(socket.SOL_SOCKET, socket.SO_REUSEADDR, 1)
    kept.bind(("127.0.0.1", 0))
    port = str(kept.getsockname()[1])
    serving, pricing = re.findall(r"^```sh\n(.*?)^```$", FROM_OSRM, re.S | re.M)
    serving = serving.replace("--network out/osrm &", f"--network out/osrm --port {port} &").replace(":5000/", f":{port}/")
    serving = serving.replace("9.5090,47.1650", "9.5225,47.1410").replace("--retry 50 ", f"--retry {SECONDS} ")  # (what only a hang exceeds)
    with kept:
        for block in (f"trap 'kill $(jobs -p); wait' EXIT\n{serving}", pricing):
            ran = subprocess.run(["bash", "-euc", block], cwd=clone, env=environment, capture_output=True, text=True)
            assert ran.returncode == 0, ran.stderr
            printed = ran.stdout if block == pricing else json.loads(ran.stdout)["code"]
            assert printed.strip() == ("right" if block == pricing else "Ok")
    words = {"tools/osm_to_gr", "tools/domethyme-serve", "routecli", "curl"}
    assert {line.partition(" ")[0] for line in f"{serving}{pricing}".splitlines()} == words


@pytest.mark.needs("import:geopandas")
@pytest.mark.needs("import:folium")
def test_folium(clone):
    """The block makes both files, with the village in the place of the page's map."""
    (block,) = blocks(PYTHON_PAGE, "import domethyme\nimport folium")
    domethyme.from_osm(moved_village(clone), clone / "out/li").close()
    environment = {**os.environ, "PYTHONPATH": os.pathsep.join([str(ROOT / "python"), os.environ.get("PYTHONPATH", "")])}
    code = block.replace("(9.5090, 47.1650)", "(9.5225, 47.1410)")
    ran = subprocess.run(["/usr/bin/python3", "-c", code], cwd=clone, env=environment, capture_output=True, text=True)
    assert ran.returncode == 0, ran.stderr
    page, routes = (clone / f"out/{made}" for made in ("page.html", "routes.gpkg"))
    assert "geojson" in page.read_text().lower() and routes.stat().st_size > 10_000


class RecipeTests(NginxCase):
    def here(self, text):
        """A text with the test's folder before the folders of the machine that it writes to, and reads units from."""
        return re.sub(r"(?<![\w.])/(?=(?:etc|lib|var/lib)/)", f"{self.folder}/", text)

    def machine(self):
        """What the package installs, below the folder."""
        for name in ("etc/default", "etc/systemd/system", "lib/systemd/system", "var/lib/domethyme"):
            (self.folder / name).mkdir(parents=True)
        shutil.copy(ROOT / "packaging/domethyme-serve.default", self.folder / "etc/default/domethyme-serve")
        for unit in ("domethyme-serve.service", "domethyme-serve.socket"):
            shutil.copy(ROOT / "packaging" / unit, self.folder / "lib/systemd/system")

    def test_several_vehicles(self):
        self.machine()
        write_map(self.folder / "country.osm.pbf", VILLAGE)
        (block,) = blocks(PAGE, "domethyme-osm-to-gr --profile bicycle")
        environment = commands(self.folder, systemctl=f"echo $* >> {self.folder}/asked")
        self.run_program(["sh", "-euc", self.here(block)], environment=environment)
        self.assertEqual((self.folder / "asked").read_text(), "enable --now domethyme-bicycle\n")

        default = (self.folder / "etc/default/domethyme-bicycle").read_text()
        self.assertIn("\nHIERARCHY=/var/lib/domethyme/bicycle.rch\n", default)
        self.assertIn('\nOPTIONS="--network /var/lib/domethyme/bicycle"\n', default)
        unit, sockets = ((self.folder / f"etc/systemd/system/domethyme-bicycle.{kind}").read_text() for kind in ("service", "socket"))
        for line in ("Requires=domethyme-bicycle.socket", "Also=domethyme-bicycle.socket", "EnvironmentFile=/etc/default/domethyme-bicycle"):
            self.assertIn(f"\n{line}\n", unit)
        self.assertIn("\nListenStream=/run/domethyme-bicycle/serve.sock\n", sockets)
        self.assertNotIn("/run/domethyme/", unit + sockets)

        self.serve_both(self.folder / "var/lib/domethyme/bicycle")
        for service, member in (("route", "routes"), ("trip", "trips"), ("match", "matchings")):
            path = PLACE.replace("route", service)
            car, bicycle = (self.ask(path.format(word))[1][member][0]["duration"] for word in ("car", "bicycle"))
            self.assertGreater(bicycle, car, service)
            status, answer = self.ask(path.format("lorry"))
            self.assertEqual((status, answer["message"]), (404, "the vehicles are car and bicycle"))
        self.assertEqual(self.ask("/health")[1]["nodes"], self.graph.nodes)

    def serve_both(self, bicycles):
        """The services of bicycles and of the village's cars, behind nginx by the shipped configuration with the page's lines."""
        sockets, self.said = self.folder / "domethyme-bicycle", ["the second service"]
        sockets.mkdir()
        words = f"{bicycles}.rch", "--network", bicycles, "--bind", f"unix:{sockets}/serve.sock"
        process = subprocess.Popen([TOOLS / "domethyme-serve", *words], stderr=subprocess.DEVNULL)
        self.addCleanup(end, process)
        self.wait_for(lambda: is_taken(f"{sockets}/serve.sock"))
        (upstream,), (locations,) = blocks(PAGE, "upstream domethyme_bicycle"), blocks(PAGE, "    location ~ ^/(route")
        text = SHIPPED.read_text(encoding="utf-8")
        for before, lines in (("server {\n", upstream), ("    location / {\n", locations)):
            self.assertEqual(text.count(f"\n{before}"), 1)
            text = text.replace(f"\n{before}", f"\n{lines}{before}")
        changed = self.write("changed.conf", text.replace("/run/domethyme-bicycle", str(sockets)))
        with unittest.mock.patch("nginx_case.SHIPPED", changed):
            self.serve_behind_nginx()

    @pytest.mark.needs("curl")
    def test_each_night(self):
        self.machine()
        served = self.folder / "var/lib/domethyme"
        self.run_tool("osm_to_gr", VILLAGE, served / "network", "--profile", "bicycle")
        self.run_tool("without", served / "network", "motorway", served / "free.gr")
        for graph, name in (("network", "network"), ("free", "network.without-motorway")):
            domethyme.prepare(served / f"{graph}.gr", served / f"{name}.rch", workers=1).close()
        process = self.serve_network(served / "network", "--exclude", f"motorway={served}/network.without-motorway.rch")
        before = self.ask("/health")[1]["nodes"]
        write_map(self.folder / "village.osm.pbf", VILLAGE)
        checksum, environment = hashlib.md5((self.folder / "village.osm.pbf").read_bytes()).hexdigest(), commands(self.folder)
        night = ["sh", REFRESH, f"file://{self.folder}/village.osm.pbf", served / "network"]
        self.write("village.osm.pbf.md5", f"{checksum}  village.osm.pbf\n")
        self.run_program(night, environment={**environment, "SHRINK": "0.3", "EXCLUDE": "tunnel motorway"})
        self.assertTrue((served / "network.without-tunnel.rch").exists())
        process.send_signal(signal.SIGHUP)
        self.wait_for(lambda: self.value("reloads_total") == 1)
        nodes = read_graph(served / "network.gr").nodes
        self.assertNotEqual(nodes, before)
        self.assertEqual(self.ask("/health")[1]["nodes"], nodes)

        # the map of the last run, another run, a step that fails, here the check, and maps that are damaged or lose too much
        held = {path: path.read_bytes() for path in served.glob("network.*") if path.suffix not in (".md5", ".lock")}
        self.run_program(night, status=3, environment=environment)
        with open(served / "network.lock", "w", encoding="utf-8") as lock:
            fcntl.flock(lock, fcntl.LOCK_EX)
            self.assertIn("another run", self.run_program(night, status=3, environment=environment).stderr)
        self.write("village.osm.pbf.md5", f"{'0' * 32}  village.osm.pbf\n")
        self.assertIn("did NOT match", self.run_program(night, status=1, environment=environment).stderr)
        self.write("village.osm.pbf.md5", f"{checksum}  village.osm.pbf\n")
        (served / "network.md5").unlink()
        for words, says in (({"AT_LEAST": "1"}, "of 38 nodes reach one another, less than 100%"), ({"SHRINK": "2"}, "less than 2 of them")):
            self.assertIn(says, self.run_program(night, status=1, environment={**environment, **words}).stderr)
        (self.folder / "bin/routecli").write_text('#!/bin/sh\n[ "$1" = prepare ] && : > "$5" || exit 10\n')
        self.run_program(night, status=10, environment=environment)
        self.assertEqual({path: path.read_bytes() for path in held}, held)

    def test_each_hour(self):
        """The village's own speeds, and then an hour in which all roads are slow and one is closed."""
        self.machine()
        served, asked = self.folder / "var/lib/domethyme", self.folder / "asked"
        shutil.copy(ROOT / "packaging/domethyme-refresh.service", self.folder / "lib/systemd/system")
        (night,), (hour,) = blocks(PAGE, "sed 's|domethyme/network|domethyme/map|'"), blocks(PAGE, "cd /var/lib/domethyme\ndomethyme-reweigh")
        environment = commands(self.folder, systemctl=f"echo $* >> {asked}")
        self.run_program(["sh", "-euc", self.here(night)], environment=environment)
        unit = (self.folder / "etc/systemd/system/domethyme-refresh.service").read_text()
        self.assertIn("\nExecStart=/usr/libexec/domethyme/refresh $URL /var/lib/domethyme/map\n", unit)
        self.run_tool("osm_to_gr", VILLAGE, served / "map")
        domethyme.prepare(served / "map.gr", served / "map.rch", order="depth", workers=1).close()
        (served / "speeds.csv").write_text("way,kmh\n")
        self.run_program(["sh", "-euc", self.here(hour)], environment=environment)
        process = self.serve_network(served / "network")
        before = self.ask(PLACE.format("car"))[1]["routes"][0]["duration"]

        ways = [f"{way},5\n" for way in re.findall(r"<way id='([0-9]+)'", VILLAGE.read_text(encoding="utf-8"))]
        (served / "speeds.csv").write_text("".join([*ways, "1,61,0\n61,1,0\n"]))
        self.run_program(["sh", "-euc", self.here(hour)], environment=environment)
        self.assertEqual(asked.read_text(), "daemon-reload\n" + 2 * "reload domethyme-serve\n")
        domethyme.check(served / "network.gr", served / "network.rch", find_program())
        made = [(served / f"{name}.rch").read_bytes() for name in ("network", "map")]
        self.assertEqual(*(data[24 : 24 + 4 * int.from_bytes(data[4:8], "big")] for data in made))  # (the ranks)
        self.assertLess(len(read_graph(served / "network.gr").weights), len(read_graph(served / "map.gr").weights))
        process.send_signal(signal.SIGHUP)
        self.wait_for(lambda: self.value("reloads_total") == 1)
        self.assertGreater(self.ask(PLACE.format("car"))[1]["routes"][0]["duration"], before)

    def serve_network(self, network, *options):
        """A service of these files at a port, as `serve` starts that of the village."""
        rch = self.folder / "v.rch"
        rch.unlink()
        rch.symlink_to(f"{network}.rch")
        return self.serve("--network", network, *options)
