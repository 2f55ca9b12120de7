"""Tests of the program by which osm_to_gr reads maps: how it is built, interrupted and fails; and of arrays by threads."""
import os
import random
import shutil
import signal
import subprocess
import time

import numpy as np
import pytest
from tool_case import PYTHON, TAKES_SIGNALS, VILLAGE, ToolCase, end

from domethyme.errors import MapError
from domethyme.maps import conversion, map_arrays, road_network
from domethyme.network import figures, parallel

# A compiler that writes the program to the path behind -o
BUILT = '#!/bin/sh\necho "$@" >words\nwhile [ "$1" != -o ]; do shift; done\ncp program "$2"\nchmod +x "$2"\n'


class ProgramCase(ToolCase):
    """Tests with a copy of the packages in which no converter is built, and with programs of their own in PATH."""

    def setUp(self):
        super().setUp()
        self.copy, self.programs = self.folder / "python", self.folder / "programs"
        for name in ("domethyme", "domethyme_tools"):
            shutil.copytree(PYTHON / name, self.copy / name, ignore=shutil.ignore_patterns("built", "__pycache__"))
        shutil.copy(PYTHON / "domethyme_launcher.py", self.copy)
        self.programs.mkdir()
        self.command = ["/usr/bin/python3", "-P", "-B", self.copy / "domethyme_launcher.py"]
        self.environment = {**os.environ, "PATH": str(self.programs), "HOME": str(self.folder / "home")}
        self.run_tool("osm_to_gr", VILLAGE, "old")

    def put(self, name, text):
        path = self.programs / name
        path.write_text(text, encoding="utf-8")
        path.chmod(0o755)

    def put_compiler(self, program):
        """Has g++ build this script."""
        self.write("program", program)
        for name in ("sh", "cp", "chmod", "sleep", "cat"):
            if not (self.programs / name).exists():
                (self.programs / name).symlink_to(shutil.which(name))
        self.put("g++", BUILT)

    def outputs(self):
        return {path.name: path.read_bytes() for path in self.folder.iterdir() if path.name.startswith(("out", "old"))}

    def refused(self, *says, status=1):
        """Wants that the map is refused in one line, and the files are as they were."""
        self.write("out.gr", "old")
        before = self.outputs()
        ended = self.run_program([*self.command, "osm_to_gr", VILLAGE, "out"], status, environment=self.environment)
        self.assertEqual(ended.stderr.count("\n"), 1, ended.stderr)
        for text in says:
            self.assertIn(text, ended.stderr)
        self.assertEqual(self.outputs(), before)


class BuildTests(ProgramCase):
    INSTALL = "as root, apt-get install g++ libosmium2-dev\n"

    def built(self, **more):
        return self.run_program([*self.command, "build_converter"], environment={**self.environment, **more}).stdout.strip()

    def test_no_library(self):
        wrong = "x.cpp:9:10: fatal error: osmium/io/any_input.hpp: No such file"
        self.put("g++", f"#!{shutil.which('sh')}\necho '{wrong}' >&2\nexit 1\n")
        self.refused(f"the converter can't be built: {wrong}: {self.INSTALL}")
        self.assertEqual([path.name for path in (self.copy / "domethyme/maps/converter/built").iterdir()], ["lock"])

    def test_it_is_built_once_for_its_source(self):
        self.put_compiler("#!/bin/sh\nexit 3\n")
        self.put("dpkg-buildflags", '#!/bin/sh\necho "-D$2=$DEB_BUILD_MAINT_OPTIONS"\n')
        built = self.built()
        (self.programs / "g++").unlink()
        for name in ("CPPFLAGS", "CXXFLAGS", "LDFLAGS"):
            self.assertIn(f"-D{name}=hardening=+all ", (self.folder / "words").read_text())
        self.assertEqual(self.built(), built)
        source = self.copy / "domethyme/maps/converter/map_arrays.cpp"
        source.write_text(source.read_text(encoding="utf-8") + "// changed\n", encoding="utf-8")
        self.refused("the converter has to be built, and g++ is missing: ", self.INSTALL)

    def test_a_folder_that_can_not_be_written(self):
        self.put_compiler("#!/bin/sh\nexit 3\n")
        (self.copy / "domethyme/maps/converter/built").write_text("no folder", encoding="utf-8")
        for cache, more in (("home/.cache", {}), ("cache", {"XDG_CACHE_HOME": str(self.folder / "cache")})):
            self.assertEqual(os.path.dirname(self.built(**more)), str(self.folder / cache / "domethyme"))
        self.environment["XDG_CACHE_HOME"] = str(self.folder / "program")  # (a file)
        self.refused("program/domethyme: can't be written, and the converter has to be built there")


class FailureTests(ProgramCase):
    def test_what_the_program_reports(self):
        """Its own error, of a folder beside OUT, a full disk, which names the files, no memory, and a signal."""
        for lines, *says in (
            ("case $2 in ./out.*.arrays | $PWD/out.*.arrays) echo 'x: is wrong' >&2 ;; esac\nexit 2", "osm_to_gr: x: is wrong\n"),
            ("echo 'way_osm: No space left on device' >&2\nexit 2", "osm_to_gr: out.gr, out.", ": No space left on device\n"),
            ("exit 3", "osm_to_gr: there isn't enough memory\n"),
            ("kill -9 $$", "osm_to_gr: the converter's ways ended with status -9\n"),
        ):
            self.put_compiler(f"#!/bin/sh\n{lines}\n")
            self.refused(*says)
            shutil.rmtree(self.copy / "domethyme/maps/converter/built")

    def test_signals_leave_nothing(self):
        # (a pipe has no room for all of this, so the tool is reading when there is a pid)
        self.put_compiler("#!/bin/sh\ni=0\nwhile [ $i -lt 40000 ]; do echo 1; i=$((i + 1)); done\necho $$ >pid\nexec sleep 100\n")
        self.write("out.net", "old")
        before = self.outputs()
        for number, status in ((signal.SIGINT, 130), (signal.SIGTERM, 143)):
            words = [*TAKES_SIGNALS, *map(str, self.command), "osm_to_gr", str(VILLAGE), "out"]
            process = subprocess.Popen(words, cwd=self.folder, env=self.environment, stderr=subprocess.PIPE, text=True)
            self.addCleanup(end, process)
            while not ((self.folder / "pid").exists() and (self.folder / "pid").read_text()):
                time.sleep(0.05)
            program = int((self.folder / "pid").read_text())
            process.send_signal(number)
            said = process.communicate()[1]
            self.assertEqual((process.returncode, said), (status, ""))
            self.assertEqual(self.outputs(), before)
            with self.assertRaises(ProcessLookupError):
                os.kill(program, 0)
            (self.folder / "pid").unlink()


def test_the_program_of_the_package(tmp_path, monkeypatch):
    """It is taken in Debian's package alone, where it is there."""
    program, found = tmp_path / "map_arrays", []
    monkeypatch.setattr(map_arrays, "PACKAGED", str(program))
    for packages, is_there in ((map_arrays.PACKAGES, True), (str(PYTHON), True), (str(PYTHON), False)):
        monkeypatch.setattr(map_arrays, "PACKAGES", packages)
        program.touch() if is_there else program.unlink()
        found.append(map_arrays.ensure_built(lambda *told: None) == str(program))
    assert found == [False, True, False]


def test_progress(tmp_path, monkeypatch):
    """The bytes of the map that are done, and all."""
    (tmp_path / "program").write_text("#!/bin/sh\necho 3\necho 5\n")
    (tmp_path / "program").chmod(0o755)
    monkeypatch.setattr(map_arrays, "ensure_built", lambda report: str(tmp_path / "program"))
    told, size = [], VILLAGE.stat().st_size
    map_arrays.Folder(str(tmp_path), lambda *now: told.append(now)).read_map("ways", VILLAGE, [])
    assert told == [("ways", 3, size), ("ways", 5, size)]


def test_a_network_that_is_too_large():
    conversion.check_limits(1 << 25, 1 << 27, "map.osm")
    for nodes, arcs, says in (((1 << 25) + 1, 0, "33554433 nodes, and there may be 33554432:"), (0, (1 << 27) + 1, "134217729 a")):
        with pytest.raises(MapError, match=f"map.osm: makes a network of {says}"):
            conversion.check_limits(nodes, arcs, "map.osm")


@pytest.mark.parametrize("count", [0, 1, 4, 5, 100])
def test_parts_by_threads(monkeypatch, count):
    """Of arrays, of four numbers each."""
    monkeypatch.setattr(parallel, "SLICE_ROWS", 4)
    draw = random.Random(count)
    row = [draw.randrange(20) for _ in range(count)]
    found = parallel.map_slices(lambda part: row[part], count)
    assert [value for part in found for value in part] == row
    assert len(found) == max(1, -(-count // 4)) and all(len(part) <= 4 for part in found)
    values = np.array(row, np.uint64)
    parallel.parallel_sort(values)
    assert values.tolist() == sorted(row)
    assert parallel.parallel_argsort(np.array(row, np.int32)).tolist() == sorted(range(count), key=row.__getitem__)
    assert parallel.differs_from_previous(np.array(row)).tolist() == [at == 0 or row[at] != row[at - 1] for at in range(count)]


def test_the_first_fault_of_threads_is_raised(monkeypatch):
    def fail(part):
        if part.start >= 8:
            raise ValueError(part.start)

    monkeypatch.setattr(parallel, "SLICE_ROWS", 4)
    with pytest.raises(ValueError, match="^8$"):
        parallel.map_slices(fail, 100)


def test_rounding():
    """As Python rounds. A weight is at least 1 without its penalty, and half of one is rounded to an even number."""
    draw = random.Random(1)
    values = [number / 16 for number in range(200)] + [number / 2000 for number in range(2000)]
    values += [draw.uniform(0, 10.0 ** draw.randrange(7)) for _ in range(2000)]
    for digits in (2, 3):
        assert road_network.rounded_exactly(np.array(values), digits).tolist() == [round(value, digits) for value in values]
    amounts, penalty = np.array([0.2, 0.4, 1.5, 2.5, 1234.4]), np.array([0, 3, 0, 250, 1])
    assert figures.whole_weights(amounts, 10 * penalty).tolist() == [1, 31, 2, 2502, 1244]
    assert figures.seconds_of(amounts, penalty).tolist() == [0.0, 0.03, 0.002, 2.502, 1.244]
