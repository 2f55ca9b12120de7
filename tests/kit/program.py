"""Where the program is, how the C++ programs of bench/ are compiled, and what a run takes."""
import os
import pathlib
import re
import subprocess
import sys
import time
import typing
from collections.abc import Iterable

from .answers import Path

ROOT = pathlib.Path(__file__).resolve().parents[2]

# The proved program: the one that is built here, or that the environment variable ROUTECLI names.
PROGRAM = pathlib.Path(os.environ.get("ROUTECLI") or ROOT / "crates/routecli/out/routecli").resolve()

# The library, likewise, with the environment variable DOMETHYME_LIBRARY.
LIBRARY = pathlib.Path(os.environ.get("DOMETHYME_LIBRARY") or ROOT / "out/library/libdomethyme.so.1").resolve()

# What only a hang exceeds, in seconds: no test expects a run to end sooner.
SECONDS = 1800
NOBODY = 65534


# The orders that take turns where `--stint` is given.
IN_TURN = ["edges", "neighbours", "depth"]


def offered_orders() -> list[str]:
    """The orders of the program's help."""
    said = subprocess.run([PROGRAM, "prepare", "--help"], check=True, stdout=subprocess.PIPE, text=True).stdout
    values: list[str] = re.findall(r"--order .*possible values: ([^]]*)\]", said)
    return values[0].split(", ")


def need_program() -> None:
    if not PROGRAM.exists():
        sys.exit(f"{PROGRAM} isn't built: README.md says how")


class Ended(typing.NamedTuple):
    """How a run ended: its status, and what it wrote on standard output and on standard error, where these are pipes."""

    status: int
    out: bytes
    err: bytes


def run_to_end(words: Iterable[object], **how: typing.Any) -> Ended:
    """Runs words to their end, or until only a hang would take so long: then the status is -1."""
    how = {"stdout": subprocess.PIPE, "stderr": subprocess.PIPE, **how}
    try:
        ran = subprocess.run([each if isinstance(each, bytes) else str(each) for each in words], timeout=SECONDS, check=False, **how)
    except subprocess.TimeoutExpired:
        return Ended(-1, b"", f"it hadn't ended after {SECONDS} seconds".encode())
    return Ended(ran.returncode, ran.stdout or b"", ran.stderr or b"")


def as_nobody() -> None:
    """Before a run as root, to whom no file is closed."""
    if os.getuid() == 0:
        os.setgroups([])
        os.setgid(NOBODY)
        os.setuid(NOBODY)


def compiled(folder: Path, name: str) -> pathlib.Path | None:
    """The program of bench/NAME.cpp, compiled into the folder; None where there is no g++, or what it needs isn't there."""
    target = pathlib.Path(folder) / name
    words: list[typing.Any] = ["g++", "-O3", "-std=c++17", "-o", target, ROOT / f"bench/{name}.cpp"]
    try:
        done = subprocess.run(words, stderr=subprocess.PIPE)
    except FileNotFoundError:
        return None
    return target if done.returncode == 0 else None


def need_compiled(folder: Path, name: str) -> pathlib.Path:
    """The same, for what a script can't do without."""
    target = compiled(folder, name)
    if target is None:
        sys.exit(f"bench/{name}.cpp can't be compiled, which needs g++")
    return target


def built_library() -> pathlib.Path:
    """The library, which is built where it isn't there, or is older than its archive."""
    archive = pathlib.Path(os.environ.get("DOMETHYME_ARCHIVE") or ROOT / "crates/domethyme_c/out/libdomethyme_c.a")
    own = "DOMETHYME_LIBRARY" not in os.environ
    if not LIBRARY.exists() or own and archive.exists() and archive.stat().st_mtime > LIBRARY.stat().st_mtime:
        subprocess.run([ROOT / "packaging/build-library", LIBRARY.parent], check=True)
    return LIBRARY


def linked(folder: Path, source: str) -> pathlib.Path:
    """The program of bench/SOURCE over the library, compiled into the folder."""
    library = built_library()
    target = pathlib.Path(folder) / pathlib.Path(source).stem
    words = ["g++", "-std=c++17"] if source.endswith(".cpp") else ["gcc"]
    words += ["-O3", "-pthread", f"-I{ROOT}/packaging/library", f"-I{ROOT}/tests/library", "-o", str(target)]
    subprocess.run([*words, str(ROOT / "bench" / source), str(library), f"-Wl,-rpath,{library.parent}"], check=True)
    return target


def refuse_library(folder: Path) -> str:
    """The library that refuses growths and calls of the system (tests/program/refuse.c), compiled into the folder."""
    library = str(pathlib.Path(folder) / "refuse.so")
    words = ["g++", "-x", "c", "-Wall", "-Werror", "-shared", "-fPIC", "-O1", "-o", library]
    subprocess.run([*words, str(ROOT / "tests/program/refuse.c")], check=True)
    return library


class Taken(typing.NamedTuple):
    """What a run took: seconds of the wall clock, seconds of the processors, the greatest resident size in MB; and what it
    said on standard error."""

    wall: float
    processor: float
    memory: float
    said: str


class Runs:
    """Runs programs one after the other, by a small one (bench/resident.cpp), since the size of this one would count."""

    def __init__(self, folder: Path) -> None:
        self.folder = pathlib.Path(folder)
        self.resident = need_compiled(folder, "resident")

    def taken(self, words: Iterable[object], out: Path = os.devnull, wanted: int = 0, **more: typing.Any) -> Taken:
        """Runs the words, which have to end with the status that is wanted."""
        ended = self.folder / "ended"
        given = [str(word) for word in [self.resident, ended, *words]]
        start = time.perf_counter()
        with open(out, "wb") as sink:
            child = subprocess.Popen(given, stdout=sink, stderr=subprocess.PIPE, text=True, **more)
            said = "" if child.stderr is None else child.stderr.read()
            _, _, usage = os.wait4(child.pid, 0)
        wall = time.perf_counter() - start
        child.returncode = 0
        status, kilobytes = map(int, ended.read_text().split())
        if status != wanted:
            sys.exit(f"{' '.join(given[2:])} ended with {status}: {said[-300:]}")
        return Taken(wall, usage.ru_utime + usage.ru_stime, kilobytes / 1024, said)
