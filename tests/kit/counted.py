"""How a test script counts what it tries, which cases a word names, and how it ends."""
import argparse
import faulthandler
import subprocess
import sys
import typing
from collections.abc import Callable, Iterable

from .optional import LeftOut, left_out
from .program import need_program


# ./test ends what hangs by SIGABRT: the stacks of all threads are printed.
faulthandler.enable()


class Failed(Exception):
    """A case failed, for the reason that it says."""


def need(holds: bool, why: str) -> None:
    """Fails a case in which this doesn't hold."""
    if not holds:
        raise Failed(why)


class Found(typing.NamedTuple):
    """How much a part compared, and what differs."""

    compared: int
    wrong: list[str]

    def told(self) -> str:
        """How much that is. Raises Failed where something differs."""
        if self.wrong:
            raise Failed("\n  ".join([f"{self.compared} compared, {len(self.wrong)} wrong", *(line[:2000] for line in self.wrong[:10])]))
        return f"{self.compared} compared"


def parser(told: str) -> argparse.ArgumentParser:
    """A parser of a script's arguments, whose help is the script's own text."""
    return argparse.ArgumentParser(description=told, formatter_class=argparse.RawDescriptionHelpFormatter)


def positive(word: str) -> int:
    """A number of things to try, for a parser: 0 would try nothing."""
    if not word.isdecimal() or int(word) == 0:
        raise argparse.ArgumentTypeError(f"{word!r} isn't a number from 1 on")
    return int(word)


def chosen(words: argparse.ArgumentParser, names: typing.Iterable[str], word: str) -> list[str]:
    """The names that have the word. Ends with status 2 where none has it."""
    found = [name for name in names if word in name]
    if not found:
        words.error(f"no case has {word!r} in its name")
    return found


def run_parts(script: str, told: str, parts: dict[str, Callable[[], Found]]) -> typing.NoReturn:
    """Runs the parts that a word names, as cases: the main function of a script of that text."""
    words = parser(told)
    words.add_argument("word", nargs="?", default="", metavar="WORD")
    names = chosen(words, parts, words.parse_args().word)
    need_program()
    run_cases(script, ((name, parts[name]) for name in names))


def end(script: str, passed: int, failed: int) -> typing.NoReturn:
    """Prints the count as the last line, and ends with status 0 only where something passed and nothing failed."""
    print(f"{script}: {passed:d} passed, {failed:d} failed", flush=True)
    sys.exit(1 if failed or not passed else 0)


def run_cases(script: str, cases: Iterable[tuple[str, Callable[[], object]]]) -> typing.NoReturn:
    """Runs cases, and prints a line for each by its name, with what it returns, and the count. One that needs what isn't there is left
    out."""
    passed = failed = 0
    for name, case in cases:
        try:
            told = case()
            told = told.told() if isinstance(told, Found) else told
            passed += 1
            print(f"ok: {name}" + (f": {told}" if told else ""), flush=True)
        except LeftOut as lacking:
            print(left_out(f"{script} {name}", lacking.package), flush=True)
        except (AssertionError, Failed, OSError, subprocess.SubprocessError) as why:
            failed += 1
            print(f"FAILED: {name}: {why}", flush=True)
    end(script, passed, failed)
