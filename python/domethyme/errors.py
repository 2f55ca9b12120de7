"""The errors of this package: a DomethymeError for what the program, the library or a file refuses. Many are errors of
Python's own too. Arguments that can't be used at all, such as arrays of a wrong shape, raise a plain ValueError, and a
package that is missing a plain ImportError.
"""
import contextlib
import os
from collections.abc import Iterator, Sequence


class DomethymeError(Exception):
    """What went wrong, as one line; `str` adds the explanation, a line each.

    message      the line
    status       the exit status: 3 to 10 as `routecli` ended, else 1
    explanation  lines by which `routecli` explains a refusal: the file, its line, what was expected. Often there are none
    """

    def __init__(self, message: str, status: int = 1, explanation: Sequence[str] = ()) -> None:
        super().__init__(message)
        self.message, self.status, self.explanation = message, status, list(explanation)

    def __str__(self) -> str:
        return "\n  ".join([self.message, *self.explanation])


class ProgramError(DomethymeError):
    """`routecli` can't be run, or ended in a way that no input explains."""


class ProgramNotFound(ProgramError, FileNotFoundError):
    """There is no program `routecli` where it was looked for."""


class ProgramStopped(ProgramError):
    """The program was ended by a signal."""


class LibraryError(DomethymeError):
    """The library libdomethyme refused a question that this package takes for a right one."""


class LibraryNotFound(LibraryError, FileNotFoundError):
    """There is no library libdomethyme where it was looked for, or it is another one."""


class GraphError(DomethymeError):
    """The text of a graph is refused; the message has the program's kind and line."""


class HierarchyError(DomethymeError):
    """The file of a hierarchy is refused."""


class HierarchyNotFound(HierarchyError, FileNotFoundError):
    """There is no file of a hierarchy at this path."""


class WrongHierarchy(HierarchyError):
    """The file of a hierarchy isn't right for the graph that it was checked against.

    pair  two nodes from 0 between which it has another length than the graph, None where it has another number of nodes
    """

    pair: tuple[int, int] | None = None


class NotProved(HierarchyError):
    """A check showed neither that a hierarchy is right for a graph nor that it isn't; the message says where it ended."""


class FileError(DomethymeError):
    """A file is refused: `FILE, row ROW: MESSAGE`, where rows are lines from 1, and the file `-` is standard input."""

    def __init__(
        self, message: str, file: "str | os.PathLike[str] | None" = None, row: int | None = None, status: int = 1
    ) -> None:
        place = "" if file is None else "standard input" if str(file) == "-" else str(file)
        if row is not None:
            place += f", row {row}"
        super().__init__(f"{place}: {message}" if place else message, status)


class NetworkError(FileError):
    """A file of a network is refused, or a table or text of places, pairs or answers in one."""


class MapError(FileError):
    """A map of OpenStreetMap, or the profile of a vehicle, is refused; or the program that reads maps can't be built."""


class NoSuchNode(DomethymeError, ValueError, LookupError):
    """A node that the hierarchy doesn't have, or a key that names none.

    key  the node or key; the number from 0 of a place without one near it
    """

    def __init__(self, message: str, key: object = None) -> None:
        super().__init__(message)
        self.key = key


class OutOfMemory(DomethymeError, MemoryError):
    """The program or the library ran out of memory."""


class ReadWriteError(DomethymeError, OSError):
    """The program failed to read or write a file."""


WARNING = "routecli: warning: "
KINDS: dict[int, type[DomethymeError]] = {3: GraphError, 4: HierarchyError, 6: OutOfMemory, 7: ReadWriteError}


def error_from_exit(status: int, stderr: bytes, file: str = "") -> DomethymeError:
    """The error for a run of the program that ended with a status other than 0 and wrote `stderr` to standard error: a line, and
    with --explain more. One of a hierarchy's file begins with the name of the file, where it is given."""
    if status < 0:
        return ProgramStopped(f"routecli was ended by signal {-status}")
    lines = [" ".join(line.split()) for line in stderr.decode("utf-8", "replace").splitlines()]
    found = next((row for row, line in enumerate(lines) if not line.startswith(WARNING)), None)
    message = f"routecli ended with status {status}" if found is None else lines.pop(found)
    if file and found is not None and KINDS.get(status) is HierarchyError:
        message = f"{file}: {message}"
    return KINDS.get(status, ProgramError)(message, status, [line.removeprefix(WARNING) for line in lines])


def os_reason(error: OSError) -> str:
    """The reason of an OSError without its number and file."""
    return error.strerror or os.strerror(error.errno or 0)


@contextlib.contextmanager
def raised_as(kind: type[FileError], file: "str | os.PathLike[str]", caught: type[Exception] = OSError) -> Iterator[None]:
    """What is caught in the block, an OSError unless it is named, is raised as an error of this package with the file."""
    try:
        yield
    except caught as error:
        raise kind(os_reason(error) if isinstance(error, OSError) else str(error), file) from error
