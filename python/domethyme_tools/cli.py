"""How the map tools take their arguments, write rows of CSV, and end."""
import argparse
import contextlib
import csv
import itertools
import json
import os
import pathlib
import signal
import stat
import sys
from collections.abc import Callable, Iterable, Iterator, Mapping
from typing import IO, Any, NoReturn

from domethyme.csv_tables import escape_formula
from domethyme.errors import DomethymeError, FileError


class ToolError(FileError):
    """What is wrong, in one line: `FILE, row ROW: MESSAGE`; rows are lines of the file, from 1. `status` is what the tool
    ends with."""


def run(main: Callable[[], None]) -> NoReturn:
    """Calls main() as a tool and ends the process: with 0, or an error's line on standard error and its status; with 130
    after an interrupt, 143 after SIGTERM, and 1 without a line where a reader of standard output went away."""
    # (an exception, so that with-blocks remove what they have begun)
    signal.signal(signal.SIGTERM, lambda number, _: sys.exit(128 + number))
    status, line = 1, ""
    try:
        main()
        sys.stdout.flush()
        status = 0
    except DomethymeError as fault:
        status, line = fault.status, str(fault)
    except KeyboardInterrupt:
        status = 130
    except BrokenPipeError:
        pass
    except OSError as error:
        reason = error.strerror or str(error)
        line = f"{error.filename}: {reason}" if error.filename else reason
    except MemoryError:
        line = "there isn't enough memory"
    if line:
        warn(line)
    if status != 0:
        # Python flushes again at its end, and would fail a second time: what is left goes nowhere
        with contextlib.suppress(OSError, ValueError):
            os.dup2(os.open(os.devnull, os.O_WRONLY), sys.stdout.fileno())
    sys.exit(status)


def warn(text: str) -> None:
    """Prints a line on standard error, with the tool's name."""
    print(f"{pathlib.Path(sys.argv[0]).name}: {' '.join(text.split())}", file=sys.stderr)


@contextlib.contextmanager
def require_packages() -> Iterator[None]:
    """Around imports of Debian's modules, in scripts: one that is missing ends the tool with one line and status 1."""
    try:
        yield
    except ModuleNotFoundError as error:
        is_clone = (pathlib.Path(__file__).resolve().parents[2] / "tools/check_packages").exists()
        of_clone, of_wheel = "run tools/check_packages, and the tool by /usr/bin/python3", "pip install 'domethyme[tools,service]'"
        remedy = of_clone if is_clone else of_wheel
        warn(f"Python's module {error.name} is missing: {remedy}")
        sys.exit(1)


def display_name(path: str) -> str:
    """The name by which messages call an input file."""
    return "standard input" if path == "-" else path


def argument_parser(doc: str | None, *examples: str) -> argparse.ArgumentParser:
    """A parser of a tool's arguments. Its `--help` shows the docstring line by line, and ends with calls of the tool, in
    which `%(prog)s` is the name that it was called by."""
    epilog = "\n  ".join(["examples:", *examples]) if examples else None
    return argparse.ArgumentParser(description=doc, epilog=epilog, formatter_class=argparse.RawDescriptionHelpFormatter)


def add_scheduler(parser: argparse.ArgumentParser) -> None:
    """Adds the option by which workers of Dask answer."""
    says = "the address, or the file, of a Dask scheduler whose workers answer; `local`: processes of this machine"
    parser.add_argument("--scheduler", metavar="ADDRESS", help=says)


def add_compare_all(parser: argparse.ArgumentParser) -> None:
    parser.add_argument("--compare-all", action="store_true", help="compare all links, also of more than ten million")


def refuse_overwriting(
    parser: argparse.ArgumentParser, outputs: Iterable[str | None], inputs: Iterable[str | None]
) -> None:
    """Ends with status 2 where an output is a file that is read too, by whatever name, or by standard input; or another output. What is no
    regular file, as /dev/null, may be written twice."""
    given = [(path, file) for path in inputs if path is not None and (file := file_at(path)) is not None]
    written, standard_output = dict[str, str](), os.path.realpath("/dev/stdout")
    for output in outputs:
        if output is None:
            continue
        found = None if output == "-" else file_at(output)
        for path, file in given:
            if found is not None and os.path.samestat(found, file):
                parser.error(f"{output} and {display_name(path)} are one file: it would be overwritten")
        # (of files with two names each is written anew, so links alone lead to one)
        target = os.path.realpath(output)
        if output == "-" or target == standard_output != os.devnull:
            target = "-"
        if target in written and (target == "-" or found is not None or not os.path.exists(output)):
            both = "two outputs are standard output" if target == "-" else f"{written[target]} and {output} are one file"
            parser.error(f"{both}: one would be written over the other")
        written[target] = output


def file_at(path: str) -> os.stat_result | None:
    """The regular file at a path, or that is standard input; None for anything else."""
    try:
        found = os.fstat(0) if path == "-" else os.stat(path)
    except (OSError, ValueError):
        return None
    return found if stat.S_ISREG(found.st_mode) else None


def write_collection(file: IO[str], features: Iterable[str], members: Mapping[str, Any]) -> None:
    """Writes a FeatureCollection with other members, and each text of a feature, or of several with commas between, on a new line."""
    file.write('{"type":"FeatureCollection","features":[')
    for before, feature in zip(itertools.chain(["\n"], itertools.repeat(",\n")), features):
        file.write(before + feature)
    others = (f",{to_json(name)}:{to_json(value)}" for name, value in members.items())
    file.write(f"\n]{''.join(others)}}}\n")


def to_json(value: Any) -> str:
    """A value as JSON, on one line."""
    return json.dumps(value, ensure_ascii=False, separators=(",", ":"))


def write_rows(file: IO[str], rows: Iterable[Iterable[Any]]) -> None:
    """Writes rows of CSV, whose texts no program takes for formulas."""
    csv.writer(file, lineterminator="\n").writerows(
        [escape_formula(field) if isinstance(field, str) else field for field in row] for row in rows
    )
