"""What a machine may lack (tests/optional.txt): a test says what it `needs`, and is left out without it."""
import functools
import importlib.util
import pathlib
import shutil
import typing

LIST = pathlib.Path(__file__).resolve().parents[1] / "optional.txt"

Function = typing.Callable[..., typing.Any]


class LeftOut(Exception):
    """A test needs something of the list that isn't there: `package` has it."""

    def __init__(self, need: str) -> None:
        self.package = packages()[need]


@functools.cache
def packages() -> dict[str, str]:
    """The packages by what tests need of them."""
    lines = LIST.read_text(encoding="utf-8").splitlines()
    return dict(line.split() for line in lines if not line.startswith("#"))


def lacking(program: str) -> str | None:
    """The package of a program, or import:MODULE, that isn't there. KeyError if it isn't in the list."""
    package, (kind, _, module) = packages()[program], program.partition(":")
    found = importlib.util.find_spec(module) if kind == "import" else shutil.which(program)
    return package if found is None else None


def needs(program: str) -> typing.Callable[[Function], Function]:
    """Before a function: it raises LeftOut where the program isn't there. Tests of pytest have the marker of this name."""

    def of(function: Function) -> Function:
        @functools.wraps(function)
        def wrapped(*words: typing.Any) -> typing.Any:
            if lacking(program):
                raise LeftOut(program)
            return function(*words)

        return wrapped

    return of


def left_out(test: str, package: str) -> str:
    """The line that says so, which ./test counts."""
    return f"left out: {test} needs {package}"
