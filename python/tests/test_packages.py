"""Tests of check_packages and fetch_extract where they have no network: with programs in the place of Debian's."""
import hashlib
import os
import shutil
import tempfile
from unittest import mock

from draws import run_tool
from tool_case import TOOLS, ToolCase

from domethyme_tools import fetch_extract


class PackagesCase(ToolCase):
    """Tests with a folder of programs that come before those of the machine, and are told in PATH."""

    def setUp(self):
        super().setUp()
        self.programs = self.folder / "programs"
        self.programs.mkdir()
        self.path = {"PATH": f"{self.programs}:{os.environ['PATH']}"}

    def put_program(self, name, text):
        path = self.programs / name
        path.write_text(text, encoding="ascii")
        path.chmod(0o755)


class CheckPackages(PackagesCase):
    def setUp(self):
        super().setUp()
        self.write("packages", "# a comment\nfirst-package # and another\n\nsecond-package\n")
        self.put_program("sleep", "#!/bin/sh\n")

    def test_the_second_is_missing(self):
        """For root: it is installed, also without lists of another source, or by a mirror that is busy at first; there is no
        network; and an installation of which apt-get says that all went well."""
        there, says = "echo -n installed >status", "check_packages: Debian packages of the map tools are missing"
        remedy = ": as root, apt-get install second-package\n"
        self.put_program("id", "#!/bin/sh\necho 0\n")
        self.put_program("dpkg-query", '#!/bin/sh\ncase "$4" in first-*) echo -n installed ;; *) cat status ;; esac\n')
        for apt_get, count, said in (
            (there, 2, ""), (f'case "$*" in *update) echo "E: no lists" >&2; exit 100 ;; *) {there} ;; esac', 2, ""),
            (f"[ $(wc -l <calls) = 6 ] || exit 100\n{there}", 6, ""),
            ("echo 'E: no network' >&2\nexit 100", 6, f"{says} (no network){remedy}"), ("", 2, f"{says}{remedy}"),
        ):
            self.put_program("apt-get", f'#!/bin/sh\necho "$@" >>calls\n{apt_get}\n')
            self.write("status", "not-installed")
            self.write("calls", "")
            ended = self.run_tool("check_packages", "packages", environment=self.path, status=1 if said else 0)
            self.assertEqual((ended.stdout, ended.stderr), ("installs Debian's packages second-package\n", said))
            calls = (self.folder / "calls").read_text(encoding="ascii").splitlines()
            self.assertEqual(len(calls), count)
            self.assertTrue(calls[0].endswith(" update"))
            self.assertTrue(calls[1].endswith(" install -y --no-install-recommends second-package"))

    def test_where_apt_get_is_not_called(self):
        """Others than root are told what to install; and where all are there there is nothing to do."""
        self.put_program("apt-get", "#!/bin/sh\necho called >calls\n")
        self.put_program("id", "#!/bin/sh\necho 1000\n")
        self.put_program("dpkg-query", "#!/bin/sh\nexit 1\n")
        says = "are missing: as root, apt-get install first-package second-package\n"
        self.assert_refused("check_packages", "packages", says=says, environment=self.path)
        self.put_program("id", "#!/bin/sh\necho 0\n")
        self.put_program("dpkg-query", "#!/bin/sh\necho -n installed\n")
        ended = self.run_tool("check_packages", "packages", environment=self.path)
        self.assertEqual((ended.stdout, ended.stderr, (self.folder / "calls").exists()), ("", "", False))

    def test_arguments_that_are_refused(self):
        self.run_tool("check_packages", "none", status=2)
        self.run_tool("check_packages", "packages", "packages", status=2)
        self.assertIn("packages.txt", self.run_tool("check_packages", "--help").stdout)

    def test_the_list_names_what_the_tools_import(self):
        listed = (TOOLS / "packages.txt").read_text(encoding="ascii")
        for package in ("pyosmium", "numpy", "scipy", "tqdm"):
            self.assertIn(f"\npython3-{package}\n", listed)


class FetchExtract(PackagesCase):
    def test_what_apt_get_says(self):
        """A wrong file of the right size is fetched anew, and stays where that fails."""
        name = "liechtenstein-2013-08-03.osm.pbf"
        self.write(name, "x" * 592_570)
        for lines, says in (
            ("echo 'W: slow' >&2\necho 'E: Could not connect' >&2\nexit 100", f"{name} can't be had: apt-get says: Could not connect\n"),
            ("case $* in *update) echo 'E: No lists' >&2; exit 100; esac", "can't be had: apt-get says: No lists\n"),
            ("touch empty\ntar -cf osm2pgsql_1.tar.gz empty", "can't be had: Debian's source package hasn't got it"),
            (f"echo wrong >{name}\ntar -cf osm2pgsql_1.tar.gz {name}",
             "can't be had: Debian's source package has another file of that name"),
        ):
            self.put_program("apt-get", f"#!/bin/sh\n{lines}\n")
            self.assert_refused("fetch_extract", ".", says=says, environment=self.path)

    def test_what_is_fetched(self):
        """The file of that name in any folder of the package, by lists and a cache of its own, which are removed; and once only."""
        name = fetch_extract.NAME
        self.put_program("apt-get", f"""#!/bin/sh\necho "$@" >>{self.folder}/calls\ncat "$PWD/sources.list" >>{self.folder}/calls
mkdir -p a/b/{name} c/b\necho whole >c/b/{name}\necho no >c/b/no-{name}\ntar -cf osm2pgsql_1.tar.gz a c/b/no-{name} c/b/{name}\n""")
        digest = mock.patch.object(fetch_extract, "SHA256", hashlib.sha256(b"whole\n").hexdigest())
        with digest, mock.patch.dict(os.environ, self.path), mock.patch.object(tempfile, "tempdir", str(self.folder)):
            said = [run_tool("fetch_extract", self.folder / "new/out")[1] for _ in range(2)]
        self.assertEqual((self.folder / "new/out" / name).read_text(), "whole\n")
        self.assertEqual([text.split(name)[1] for text in said], [": 6 bytes\n", " is there already\n"])
        calls = (self.folder / "calls").read_text().splitlines()
        self.assertEqual([line.split()[-1] for line in calls], ["update", "main", "osm2pgsql=1.8.0+ds-1", "main"])
        self.assertIn(" [signed-by=/usr/share/keyrings/debian-archive-keyring.gpg] ", calls[1])
        own = f"{self.folder}/fetch-extract-"
        for setting in ("Dir::Etc::SourceList=", "Dir::State=", "Dir::Cache="):
            self.assertEqual([setting + own in line for line in calls], [True, False] * 2)
        self.assertEqual({path.name for path in self.folder.iterdir() if path.is_dir()}, {"programs", "new"})

    def test_no_apt_get(self):
        for name in ("dirname", "readlink"):  # which the command of the tool calls
            (self.programs / name).symlink_to(shutil.which(name))
        says = "can't be had: there is no apt-get on this machine"
        self.assert_refused("fetch_extract", ".", says=says, environment={"PATH": str(self.programs)})

    def test_arguments_that_are_refused(self):
        self.run_tool("fetch_extract", ".", "..", status=2)
        self.assertIn("ODbL", self.run_tool("fetch_extract", "--help").stdout)
