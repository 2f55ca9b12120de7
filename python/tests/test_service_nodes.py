"""Routes and lengths by numbers of nodes: against a Dijkstra search, batches, invalid requests, and the command."""
import datetime
import json
import os
import platform
import re
import socket
import sys
import time
from unittest import mock

import gunicorn
import pytest
from draws import one_road
from service_case import ServiceCase
from test_generated_service import ask, serve
from tool_case import PYTHON, ROOT, TOOLS

from domethyme import find_program
from domethyme_service import command
from domethyme_service.access import AccessPolicy
from domethyme_service.dataset import DatasetPaths
from domethyme_service.errors import StartupError
from domethyme_service.wsgi import Options

pytestmark = pytest.mark.timeout(300)


@pytest.fixture(scope="module")
def told(tmp_path_factory):
    """What a service of two nodes tells of each line of a batch of lengths."""
    service = serve(one_road((0.0, 0.0), (0.001, 0.0)), tmp_path_factory.mktemp("road"))
    return lambda *lines: ask(service, "/nodes/lengths", "\n".join(lines), HTTP_CONTENT_ENCODING="Identity")[1]


def test_faults_in_lines_of_a_batch(told):
    line, none = '{"from": 1, "to": 1', "has to be a node from 1 to 2"
    found = told(
        '{"from": 1, "to": 1}', "", "[1, 2]", '{"from": 1}', '{"from": true, "to": 1}', '{"from": 1.5, "to": 1}',
        '{"from": 1, "to": 1, "x": "' + "x" * 300 + '"}', "[" * 200, '{"from": "1", "to": 1}', '{"from": 1, "from": 2, "to": 3}',
        '{"from_key": "a", "to_key": "b"}', *(line.ljust(count) + "}" for count in (255, 256))
    )
    assert [each.get("line") for each in found] == [None, 2, 3, 4, 5, 6, 7, 8, None, 10, 11, None, 13]
    assert found[9]["message"] == "a name is there twice"
    # (lines that are parsed at once where all of them are right)
    for wrong, says in ((line.ljust(256) + "}", "a line has at most 256 bytes"), ('{"from": 3, "to": 1}', f"from {none}"),
                        ('{"from": 1, "to": 3}', f"to {none}"), ('{"from": 1, "to": 0}', f"to {none}")):
        found = told('{"from": 2, "to": 2}', wrong, '{"from": 1, "to": 1}')
        assert [each.get("message", each.get("to")) for each in found] == [2, says, 1]


def test_too_many_faults_in_a_batch(told):
    """The answer ends with the first error beyond the limit, after the lines before it."""
    found = told(*["x"] * 300, '{"from": 1, "to": 2}', *["x"] * 4000)
    assert (len(found), found[300]["from"], found[-1]["line"], found[-1]["code"]) == (1002, 1, 1002, "TooBig")
    assert "more than 1000 lines have an error: this line and all behind it aren't answered" in found[-1]["message"]
    assert len(told(*["x"] * 1000, *['{"from": 1, "to": 2}'] * 50)) == 1050


def test_lines_that_look_good_together(told):
    """Lines that are invalid one by one, and would be pairs if they were parsed as one text."""
    lines = ['{"from": [', '2], "from": 1, "to": 2}', '{"from": 1, "to": 2},0,{"from": 1, "to": 2}', '{"from": 1,', '"to": 2}',
             '{"from": "1', '2", "to": 1}', '1,0,2', '{"from": 01, "to": 1}', '{"from": 1, "to": NaN}', '{"from": 1, "to": 1}, 3']
    for some in (lines, *([line, *[lines[2]] * 2] for line in lines), *map(list, zip(lines, lines[1:]))):
        assert [each["line"] for each in told(*some)] == [*range(1, len(some) + 1)]
    found = told('{ "to":2,"from" : 1 }\r', '  {"from": "1", "to": 2}', " ")
    assert [each.get("from", each.get("line")) for each in found] == [1, 1]


class NodesTests(ServiceCase):
    def test_a_service_without_a_network(self):
        """It has no places. A batch of one block is sent whole, with its length, so a client, and nginx, knows where it ends."""
        self.serve()
        line = '{"from": 1, "to": 2}'
        most = "\n".ljust((4 << 20) - len(line))
        for count, end in ((0, ""), (1, ""), (256, ""), (256, "\n"), (257, ""), (257, "\n"), (1, most)):
            status, text = self.ask("/nodes/lengths", "POST", "\n".join([line] * count) + end)
            is_whole = "Content-Length" in self.headers
            self.assertEqual((status, text.count("\n"), is_whole), (200, count, count <= 256), (count, len(end)))
        self.assertEqual(self.ask("/nodes/lengths", "POST", line + most + " ")[0], 413)
        self.assertEqual(self.ask("/")[0], 200)
        for path in ("/map/about", "/map/roads/1/0/0", "/route/v1/car/0,0;1,1", "/isochrone/v1/car/0,0?contours_minutes=1"):
            self.assertEqual(self.ask(path)[1]["code"], "InvalidService")

    def test_health_metrics_and_log(self):
        self.serve("--access-log")
        links = int.from_bytes((self.folder / "v.rch").read_bytes()[8:16], "big")
        wanted = {"status": "ok", "nodes": self.graph.nodes, "links": links, "towards": False, "alternatives": 0}
        self.assertEqual(self.ask("/health"), (200, wanted))
        self.ask("/nodes/length?from=1&to=2")
        size = int(self.headers["Content-Length"])
        counted = 'requests_total{endpoint="/nodes/length",status="200"}'
        self.wait_for(lambda: counted in self.ask("/metrics")[1])  # (an answer is counted once it has gone)
        self.assertEqual([self.value(name) for name in (counted, "queries_total", "nodes")], [1, 1, self.graph.nodes])
        self.assertEqual(self.headers["Content-Type"], "text/plain; version=0.0.4; charset=utf-8")
        self.ask("/nodes/length?from=1&to=0")
        text = self.ask("/metrics")[1]
        names = [set(re.findall(rf"(?m)^# {word} (\S+) \S", text)) for word in ("TYPE", "HELP")]
        self.assertEqual((names[0], len(names[0]) > 10), (names[1], True))
        told = re.findall(r'(?m)^domethyme_request_seconds_(?:bucket|count){endpoint="/nodes/length".*} (\d+)$', text)
        # (each bucket has those of the ones before it, and the last has all)
        self.assertEqual((len(told), told, told[-2:]), (16, sorted(told, key=int), told[-1:] * 2))
        least = {"resident_memory_bytes": 1 << 20, "last_reload_timestamp_seconds": time.time() - 1000, "workers": 4}
        self.assertEqual([name for name, each in least.items() if self.value(name) < each], [])
        version = re.search(r'(?m)^version = "(.*)"', (ROOT / "python/pyproject.toml").read_text())[1]
        versions = f'version="{version}",python="{platform.python_version()}",gunicorn="{gunicorn.__version__}"'
        self.assertIn(f"\ndomethyme_build_info{{{versions}}} 1\n", text)
        self.wait_for(lambda: sum('"/nodes/length"' in line for line in self.said) == 2)
        good, refused = (json.loads(line) for line in self.said if '"/nodes/length"' in line)
        self.assertEqual(({*good}, good["bytes"]), ({"time", "method", "endpoint", "status", "bytes", "milliseconds"}, size))
        self.assertIn(f"at http://127.0.0.1:{self.port}/, {self.graph.nodes} nodes\n", "".join(self.said))
        self.assertEqual((set(refused) - set(good), refused["error"], refused["status"]), ({"error"}, "InvalidValue", 400))
        self.assertLess(abs(datetime.datetime.fromisoformat(good["time"]).timestamp() - time.time()), 1000)
        self.assertRegex(good["time"], r"^[0-9-]{10}T[0-9:]{8}\.[0-9]{3}Z$")


@pytest.mark.parametrize("program", [[TOOLS / "domethyme-serve"], [sys.executable, "-m", "domethyme_service"]])
def test_what_can_not_start(run, tmp_path, monkeypatch, program):
    monkeypatch.setenv("PYTHONPATH", str(PYTHON))
    (tmp_path / "v.rch").write_text("no hierarchy")
    for words, says in ((["v.rch"], "v.rch: is no file that `routecli prepare` wrote"), (["none"], "none: No such file or directory\n"),
                        (["v.rch", "--network", "net"], "net.net: No such file or directory")):
        assert run(*program, *words, "--port", "0", status=1).startswith(f"domethyme-serve: {says}")


WORDS = "--network net --verify g.gr --towards --exclude toll=a=b.rch --exclude ferry=c.rch --radius 7 --workers 5 "
WORDS += "--max-table-cells 9 --profile car --profile van --allowed-host A.org --allowed-host b --cors a://B:80 --log-places"
EXCLUDED = {frozenset({"toll"}): "a=b.rch", frozenset({"ferry"}): "c.rch"}


@pytest.mark.parametrize("words, paths, options, more, says", [
    ("--compare-all --workers 2 --allowed-host * --allowed-host [::1]", DatasetPaths("a.rch", None, compare_all=True),
     Options(AccessPolicy(frozenset({"*", "[::1]"}), "none"), 1000, 1_000_000, []), (4, True, False),
     ["domethyme-serve: --workers 2: takes 4, the least, since a long request holds one"]),
    (WORDS, DatasetPaths("a.rch", "net", "g.gr", find_program(), False, True, EXCLUDED),
     Options(AccessPolicy(frozenset({"a.org", "b"}), "a://b:80"), 7, 9, ["car", "van"]), (5, True, True), []),
], ids=["one", "others"])
def test_what_the_options_start(words, paths, options, more, says, capsys):
    with mock.patch.multiple(command, Application=mock.DEFAULT, open_sockets=mock.DEFAULT) as patched:
        patched["open_sockets"].return_value = ["fd://9"], True
        command.main(["a.rch", *words.split()])
    where = patched["open_sockets"].call_args.args[0]
    assert (where.host, where.port, where.bind) == ("127.0.0.1", 5000, None)
    patched["Application"].assert_called_once_with(paths, options, ["fd://9"], *more)
    assert sorted(capsys.readouterr().err.splitlines()) == sorted(says)


@pytest.mark.parametrize("option, low, high", [
    ("--radius", 0, 10_000_000), ("--port", 0, 65_535), ("--workers", 1, 64), ("--max-table-cells", 1, 4_000_000)
])
def test_numbers_of_options(option, low, high):
    parse = command.argument_parser().parse_args
    for number in (low, high):
        assert vars(parse(["a.rch", option, f"0{number}"]))[option[2:].replace("-", "_")] == number
    for text in (low - 1, high + 1, "", "1.5", "+1", "\N{SUPERSCRIPT TWO}", f"{'0' * 12}{high + 1}", "9" * 5000):
        with pytest.raises(SystemExit, match="2"):
            parse(["a.rch", f"{option}={text}"])


@pytest.mark.parametrize("words, says", [
    ("--exclude toll=a --exclude toll=b", "the same classes twice"), ("--cors example.org", "an origin is SCHEME://HOST"),
    ("--cors a://b/", "an origin is"), ("--cors https://", "an origin is"), ("--cors a://b?c", "an origin is"),
    *((f"--allowed-host {host}", "a host is a name or an address") for host in ("a:80", "*.a", "https://a", "[::1", "a/")),
    *((f"--{words}", "packaging/nginx/domethyme.conf") for words in (
        "host 0.0.0.0", "host ::", "host 192.0.2.1", "bind 0.0.0.0:5000", "bind unix:")),
])
def test_options_that_are_refused(words, says, capsys):
    """Also other addresses than the loopback's, and sockets without a path."""
    with pytest.raises(SystemExit) as raised:
        command.main(["a.rch", *words.split()])
    assert says in (capsys.readouterr().err if raised.value.code == 2 else raised.value.code)


def test_sockets(tmp_path, monkeypatch):
    """Of two that systemd passes one is for probes, and none may be for other machines. At a unix socket's path only one at which nobody
    listens is replaced; a port is free once its service has ended."""
    path = tmp_path / "serve.sock"
    with socket.socket(socket.AF_UNIX) as first, socket.socket(socket.AF_UNIX) as asking:
        first.bind(str(path))
        monkeypatch.setattr(command.systemd, "SD_LISTEN_FDS_START", 196)
        for count, has_probe in ((1, False), (2, True)):
            os.dup2(first.fileno(), 195 + count)
            monkeypatch.setattr(command.systemd, "listen_fds", lambda count=count, **_words: count)
            assert command.open_sockets(None) == ([], has_probe)
        with socket.create_server(("0.0.0.0", 0)) as listening:
            os.dup2(listening.fileno(), 197)
        with pytest.raises(StartupError, match="won't listen at 0.0.0.0: other machines ask through nginx"):
            command.open_sockets(None)
        os.closerange(196, 198)
        first.listen(0)
        asking.connect(str(path))  # (as many as wait, so that another one is told to come again)
        with pytest.raises(StartupError, match="another service does"):
            command.listen_unix(str(path))
    os.close(int(command.listen_unix(str(path)).removeprefix("fd://")))
    path.unlink()
    with socket.socket(socket.AF_UNIX, socket.SOCK_DGRAM) as other, pytest.raises(StartupError, match="another service does"):
        other.bind(str(path))
        command.listen_unix(str(path))
    for listen, words, says in ((command.listen_unix, [f"{path}{'x' * 200}"], "AF_UNIX path too long"), (command.listen_tcp, ["a..b", 0], "no name of a host")):
        with pytest.raises(StartupError, match=says):
            listen(*words)
    path.unlink()
    path.write_text("a file")
    with pytest.raises(StartupError, match="Address already in use"):
        command.listen_unix(str(path))
    assert path.read_text() == "a file"
    with socket.socket() as kept:  # (nobody else is given a port that is bound; the service may listen at it)
        kept.setsockopt(socket.SOL_SOCKET, socket.SO_REUSEADDR, 1)
        kept.bind(("127.8.0.1", 0))
        address = kept.getsockname()
        for _ in range(2):
            with socket.socket(fileno=int(command.listen_tcp(*address).removeprefix("fd://"))) as listening:
                says = f", port {address[1]}: Address already in use: another --port, or 0 for any that is free"
                with pytest.raises(StartupError, match=says):
                    command.listen_tcp(*address)
                with socket.create_connection(address):
                    listening.accept()[0].close()
    command.check_loopback("::1")
