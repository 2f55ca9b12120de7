"""Finds the program `routecli` and runs it once."""
import errno
import os
import pathlib
import re
import shutil
import subprocess
import tty
from typing import Any, Union

from .errors import ProgramError, ProgramNotFound, os_reason
from .progress import OnProgress

StrPath = Union[str, "os.PathLike[str]"]

HERE = pathlib.Path(__file__).resolve().parent
INSIDE = HERE / "routecli"
# What the program shows at a terminal: lines of its progress, and that the last one is taken away.
SHOWN = re.compile(rb"\x1b\[\?7l\r(.*?)\x1b\[K\x1b\[\?7h|\r\x1b\[K")
FIGURES = re.compile(rb"[0-9]+ %: ([0-9]+) of ([0-9]+) nodes")
BUILT = HERE.parents[1] / "crates/routecli/out/routecli"


def find_program(named: StrPath | None = None) -> str:
    """The absolute path of `routecli`: the one that is named, else that of the environment variable ROUTECLI, else the one inside
    this package (of a wheel), else that on PATH, else the one that was built in this repository.

    Raises ProgramNotFound.
    """
    choice = named or os.environ.get("ROUTECLI")
    for place in [choice] if choice else [INSIDE, "routecli", BUILT]:
        if (found := shutil.which(place)) is not None:
            return os.path.abspath(found)
    if choice:
        raise ProgramNotFound(f"{os.fspath(choice)}: is no program that can be run")
    raise ProgramNotFound("routecli isn't found: name it as `program`, set ROUTECLI, or build it as README.md says")


def run_explaining(
    program: str, arguments: list[str], files: list[str], **options: Any
) -> "subprocess.CompletedProcess[bytes]":
    """Runs the program to its end on files of any names, with empty standard input; stderr has its explanation."""
    words = [program, *arguments, "--explain", "--", *files]
    try:
        return subprocess.run(words, stdin=subprocess.DEVNULL, stderr=subprocess.PIPE, **options)
    except OSError as error:
        raise ProgramError(f"{program}: {os_reason(error)}") from error


def run_watched(program: str, arguments: list[str], files: list[str], on_progress: OnProgress) -> "subprocess.CompletedProcess[bytes]":
    """As `run_explaining` without standard output, and reports how many nodes are done. The program shows that at a terminal alone, so it
    has one, of which this reads the other end; where there can be none, nothing is reported."""
    try:
        ours, theirs = os.openpty()
    except OSError:
        return run_explaining(program, arguments, files, stdout=subprocess.DEVNULL)
    try:
        try:
            tty.setraw(theirs)  # (so that lines come as they were written)
            words = [program, *arguments, "--progress", "--explain", "--", *files]
            process = subprocess.Popen(words, stdin=subprocess.DEVNULL, stdout=subprocess.DEVNULL, stderr=theirs)
        finally:
            os.close(theirs)
        try:
            said = read_shown(ours, on_progress, arguments[0])
        except BaseException:
            process.kill()
            raise
        finally:
            process.wait()
    except OSError as error:
        raise ProgramError(f"{program}: {os_reason(error)}") from error
    finally:
        os.close(ours)
    return subprocess.CompletedProcess(words, process.returncode, None, said)


def read_shown(terminal: int, on_progress: OnProgress, what: str) -> bytes:
    """What a program writes to a terminal until it ends, without its progress, which is reported."""
    text = b""
    while chunk := read_terminal(terminal):
        text += chunk
        for shown in SHOWN.finditer(text):
            if figures := FIGURES.match(shown[1] or b""):
                on_progress(what, int(figures[1]), int(figures[2]))
        text = SHOWN.sub(b"", text)
    return text


def read_terminal(terminal: int) -> bytes:
    """The bytes that come next, none at the end: Linux says then that there is no other end any more."""
    try:
        return os.read(terminal, 1 << 16)
    except OSError as error:
        if error.errno != errno.EIO:
            raise
        return b""
