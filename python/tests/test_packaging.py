"""Tests of what goes into the Debian packages: the command routecli, which may put an allocator under the program, and the lists
of libraries in packaging/copyright and packaging/library/copyright."""
import re
import shutil

import pytest
from kit import toolchain
from tool_case import ROOT, ToolCase

from domethyme_launcher import COMMANDS

PACKAGING = ROOT / "packaging"
JEMALLOC, MIMALLOC = "libjemalloc.so.2", "libmimalloc.so.2.0"
# A library of the C library that has next to nothing in it.
LIBRARY = "/usr/lib/x86_64-linux-gnu/libutil.so.1"
PRINTS = '#!/bin/sh\nprintf "%s|" "${LD_PRELOAD-${GLIBC_TUNABLES-nothing}}" "$@"\nexit 7\n'
TUNED = "glibc.malloc.mmap_threshold=1048576"
COMPACT = f"{TUNED}:glibc.malloc.arena_max=1"
SAYS = "routecli: ROUTECLI_ALLOCATOR: "
OF_C = f"{SAYS}the allocator of the C library"


class CommandTests(ToolCase):
    """The command with a program in the place of the proved one, which prints LD_PRELOAD or GLIBC_TUNABLES, and its arguments."""

    def setUp(self):
        super().setUp()
        self.libraries = self.folder / "libraries"
        self.libraries.mkdir()
        text = (PACKAGING / "routecli").read_text(encoding="utf-8")
        for path, instead in (("/usr/libexec/domethyme/routecli", "program"), ("/usr/lib/x86_64-linux-gnu", "libraries")):
            self.assertEqual(text.count(f"={path}\n"), 1)
            text = text.replace(f"={path}\n", f"={self.folder / instead}\n")
        self.write("command", text).chmod(0o755)
        self.write("program", PRINTS).chmod(0o755)

    def ran(self, *words, status=7, **environment):
        """What the command prints on both streams."""
        unset = [word for name in ("LD_PRELOAD", "GLIBC_TUNABLES", "ROUTECLI_ALLOCATOR") for word in ("-u", name)]
        settings = [f"{name}={value}" for name, value in environment.items()]
        ended = self.run_program(["/usr/bin/env", *unset, *settings, self.folder / "command", *words], status)
        return ended.stdout, ended.stderr

    def test_where_none_is_installed(self):
        """A library that isn't there is asked for in vain, and so is a word that is none of the choices."""
        self.assertEqual(self.ran("prepare"), (f"{TUNED}|prepare|", ""))
        self.assertEqual(self.ran("prepare", ROUTECLI_ALLOCATOR="auto"), (f"{TUNED}|prepare|", f"{OF_C}, {TUNED}\n"))
        for word, says in [
            ("jemalloc", f"{self.libraries / JEMALLOC} isn't installed"),
            ("mimalloc", f"{self.libraries / MIMALLOC} isn't installed"),
            ("tcmalloc", "'tcmalloc' isn't one of auto, mimalloc, jemalloc, tuned, compact and none"),
        ]:
            self.assertEqual(self.ran("prepare", status=2, ROUTECLI_ALLOCATOR=word), ("", f"{SAYS}{says}\n"))

    def test_where_both_are_installed(self):
        """Only prepare gets one; a choice is said where it is asked for; arguments, the status and what is set already are kept."""
        for name in (JEMALLOC, MIMALLOC):
            shutil.copy(LIBRARY, self.libraries / name)
        path = {name: self.libraries / name for name in (JEMALLOC, MIMALLOC)}
        for command in ("route", "answer", "--version"):
            self.assertEqual(self.ran(command, ROUTECLI_ALLOCATOR="jemalloc"), (f"nothing|{command}|", ""))
        self.assertEqual(self.ran("route", "a b", "", "*"), ("nothing|route|a b||*|", ""))
        self.assertEqual(self.ran(), ("nothing|", ""))
        self.assertEqual(self.ran("prepare", "a b", ""), (f"{path[MIMALLOC]}|prepare|a b||", ""))
        libraries = ("auto", MIMALLOC), ("mimalloc", MIMALLOC), ("jemalloc", JEMALLOC)
        for word, preloaded, said in [
            *((word, path[name], f"{SAYS}{path[name]}\n") for word, name in libraries),
            ("none", "nothing", f"{OF_C}\n"), ("tuned", TUNED, f"{OF_C}, {TUNED}\n"), ("compact", COMPACT, f"{OF_C}, {COMPACT}\n"),
        ]:
            self.assertEqual(self.ran("prepare", ROUTECLI_ALLOCATOR=word), (f"{preloaded}|prepare|", said))
        # (the loader warns on standard error, since there is no such library, and goes on)
        self.assertEqual(self.ran("prepare", LD_PRELOAD="/none.so")[0], "/none.so|prepare|")
        self.assertIn("stays as it is", self.ran("prepare", LD_PRELOAD="/none.so", ROUTECLI_ALLOCATOR="auto")[1])
        own = "glibc.malloc.arena_max=2"
        for word in ("auto", "compact"):
            found = self.ran("prepare", GLIBC_TUNABLES=own, ROUTECLI_ALLOCATOR=word)
            self.assertEqual(found, (f"{own}|prepare|", f"{SAYS}GLIBC_TUNABLES is set, and stays as it is\n"))


class CompletionTests(ToolCase):
    """The completions that Debian's package has for the commands domethyme-NAME."""

    def setUp(self):
        super().setUp()
        names = sorted(set(COMMANDS) - {"build_converter"})
        self.run_program([PACKAGING / "tool_completions", self.folder, *names])

    def completed(self, *words):
        """What bash completes the last of the words to."""
        file = self.folder / "bash-completion/completions" / words[0]
        script = 'source "$1"; shift; COMP_WORDS=("$@"); COMP_CWORD=$(($# - 1)); _domethyme; printf "%s\\n" "${COMPREPLY[@]}"'
        return self.run_program(["/bin/bash", "-c", script, "bash", file, *words]).stdout.split()

    def test_options_and_values(self):
        for words, *wanted in [
            ("routes --ra", "--radius"), ("serve net.rch --log", "--log-places"), ("reach --shape l", "lines"),
            ("osm-to-gr --weight ", "length", "time"), ("routes net",),
        ]:
            self.assertEqual(self.completed(*f"domethyme-{words}".split(" ")), wanted)
        self.assertIn("-h", self.completed("domethyme-fetch-extract", "-"))

    def test_names_in_the_files(self):
        self.assertIn("domethyme-osm-to-gr", (self.folder / "zsh/vendor-completions/_domethyme_tools").read_text(encoding="utf-8"))
        files = sorted((self.folder / "fish/vendor_completions.d").iterdir())
        self.assertEqual(len(files), len(COMMANDS) - 1)
        for file in files:
            self.assertIn(file.stem, file.read_text(encoding="utf-8"))

    @pytest.mark.needs("zsh")
    def test_zsh_takes_the_file(self):
        self.run_program(["zsh", "-n", self.folder / "zsh/vendor-completions/_domethyme_tools"])

    @pytest.mark.needs("fish")
    def test_fish_takes_the_files(self):
        for file in (self.folder / "fish/vendor_completions.d").iterdir():
            self.run_program(["fish", "-n", file])


class CopyrightTests(ToolCase):
    """The libraries that a crate's copyright names beside crates.txt, and beside the toolchain's kit."""

    FILE, CRATE, LEAST = "copyright", "routecli", 6

    def setUp(self):
        super().setUp()
        self.text = (PACKAGING / self.FILE).read_text(encoding="utf-8")
        parts = self.text.partition("\n\n")[0].split("\n .\n")
        # (the toolchain's own come last; before them are ports that the crate uses, if it uses any, and what these use)
        *ports, self.own = filter(None, (set(re.findall(r"^  (\w+): ", part, re.M)) for part in parts))
        self.direct = ports[0] if ports else set()
        self.indirect = set().union(*ports[1:])
        lines = (line.partition(":") for line in (ROOT / "crates.txt").read_text(encoding="utf-8").splitlines())
        uses = {words.split()[0]: names.split() for words, colon, names in lines if colon}
        todo = [self.CRATE]
        for name in todo:
            todo += [each for each in uses.get(name, []) if each not in todo]
        # (std is always there, and crates.txt doesn't list it)
        self.used = {"std"} | {name for name in todo if name not in uses}

    def test_libraries_are_those_of_crates_txt(self):
        self.assertEqual(self.direct | (self.own & self.used), self.used)
        self.assertGreaterEqual(len(self.direct), self.LEAST)

    def test_libraries_are_those_of_the_kit(self):
        kit = toolchain.kit()
        todo = [*self.used]
        for name in todo:
            uses = re.findall(r"^dep (\w+)$", (kit / f"rlibs/{name}.rlib/format").read_text(encoding="utf-8"), re.M)
            todo += [each for each in uses if each not in todo]
        self.assertEqual(self.direct | self.indirect | self.own, set(todo))

    def test_notices_are_those_of_the_kit(self):
        kit = toolchain.kit()
        flat = " ".join(self.text.split())
        for name in self.direct | self.indirect:
            licences = list((kit / "rattle" / name).glob("LICENSE*"))
            self.assertTrue(licences, name)
            holders = [holder for path in licences if path.name != "LICENSE-APACHE"
                       for holder in re.findall(r"^Copyright (?:\(c\)|©)? ?(.*)$", path.read_text(encoding="utf-8"), re.M)]
            for holder in holders:
                words = re.sub(r"\b(?:19|20)\d\d(?:-(?:19|20)\d\d)?\b", "", holder).replace(",", "").split()
                self.assertIn(" ".join(words), flat.replace(",", ""), name)
        for name in self.own:
            self.assertFalse(list((kit / "rattle" / name).glob("LICENSE*")), name)


class LibraryCopyrightTests(CopyrightTests):
    """The same of the library."""

    FILE, CRATE, LEAST = "library/copyright", "domethyme_c", 0


class PagesTests(ToolCase):
    """The pages of the package domethyme, as packaging/build-deb puts them there."""

    def test_links_lead_to_files_of_the_package(self):
        listed = re.findall(r"pages < <\((git ls-files .*)\)$", (PACKAGING / "build-deb").read_text(encoding="utf-8"), re.M)
        files = self.run_program(["bash", "-c", f"cd {ROOT}; {listed[0]}"]).stdout.split()
        folder = self.folder / "pages"
        self.run_program([PACKAGING / "pages", folder, *files])
        pages = sorted(folder.rglob("*.md"))
        links = [(page, link) for page in pages for link in re.findall(r"\]\((?![a-z]+:|#)([^)#\s]+)", page.read_text(encoding="utf-8"))]
        self.assertEqual([(str(page), link) for page, link in links if not (page.parent / link).exists()], [])
        self.assertLessEqual({"README.md", "CHANGELOG.md", "docs/FORMATS.md", "tools/README.md"}, {str(page.relative_to(folder)) for page in pages})
        self.assertGreater(len(links), 100)
        told = (folder / "README.md").read_text(encoding="utf-8")
        self.assertIn("Licence: MIT or Apache 2.0, at your option.", told)
        self.assertIn("[docs/INSTALL.md](docs/INSTALL.md)", told)
