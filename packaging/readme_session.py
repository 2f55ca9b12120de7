"""Runs what README.md, docs/START.md and docs/SERVICE.md show, with the packages of packaging/build-deb installed; packaging/check-deb calls it.

    readme_session.py session README    runs the commands behind `$`, each of which has to print what is shown below it
    readme_session.py map START         runs the block of the map tools, with `tools/routes` as domethyme-routes
    readme_session.py service SERVICE   starts domethyme-serve by /etc/default/domethyme-serve, as its unit does, but at any
                                        port, runs the commands of docs/SERVICE.md, reloads it and ends it

Runs in the folder where it is called, which needs README's `examples`. Status 1: something isn't as it is shown. tests/docs/typed
types all pages by the same functions, in a clone.
"""
from __future__ import annotations

import contextlib
import pathlib
import re
import signal
import subprocess
import sys
from collections.abc import Iterator

MARK = "-- end of a command --"
# What differs from run to run, or with the form of a file: the number of links, rates, and the checksum of a network's file.
VARIES = [(re.compile(r'^(ready \d+ |.*"links":)\d+', re.M), r"\1LINKS"), (re.compile(r"^ *\d+%\|.*$", re.M), "PROGRESS"),
          (re.compile(r'"version": "\w+"'), '"version": VERSION')]
UNIT = """\
. /etc/default/domethyme-serve
exec domethyme-serve $HIERARCHY $OPTIONS --port 0
"""


class Wrong(Exception):
    """Commands didn't end, or didn't print, as a page shows it."""


def all_blocks(text: str) -> list[tuple[str, str, str]]:
    """The blocks of a document as (language, text, the paragraph before): those between fences, and those of four spaces."""
    fenced = re.compile(r"^```(\w*)\n(.*?)^```$", re.S | re.M)
    found = [(match.start(), match[1], match[2], text[: match.start()].rstrip().rpartition("\n\n")[2]) for match in fenced.finditer(text)]
    outside = fenced.sub(lambda match: re.sub(r"[^\n]", "x", match[0]), text)
    found += [(match.start(), "sh", re.sub(r"^    ", "", match[0], flags=re.M), "")
              for match in re.finditer(r"(?<=\n\n)(?:    \S.*\n)+", outside)]
    return [it[1:] for it in sorted(found)]


def blocks(text: str, beginning: str) -> list[str]:
    """The texts of the blocks that begin so."""
    return [block for _, block, _ in all_blocks(text) if block.startswith(beginning)]


def steps(block: str) -> list[tuple[str, str]]:
    """Each command of a block, and what is shown below it."""
    parts = re.split(r"^\$ ", block, flags=re.M)[1:]
    return [(command, shown) for command, _, shown in (part.partition("\n") for part in parts)]


def comparable(text: str) -> str:
    """A text without what varies, empty lines, and blanks at the ends of lines."""
    for form, instead in VARIES:
        text = form.sub(instead, text)
    return "\n".join(line.rstrip() for line in text.replace("\r", "\n").split("\n") if line.strip())


def run(script: str) -> subprocess.CompletedProcess[str]:
    """Runs a script by bash; what it prints, on either stream, is kept."""
    words = ["bash", "-c", script]
    return subprocess.run(words, stdin=subprocess.DEVNULL, stdout=subprocess.PIPE, stderr=subprocess.STDOUT, text=True, check=False)


def type_session(block: str) -> int:
    """Runs the commands of a block, each of which has to print what is shown below it, and returns how many there are."""
    shown = steps(block)
    script = "".join(f"{command}\nstatus=$?; echo '{MARK}'; (exit $status)\n" for command, _ in shown)
    printed = run(script).stdout.split(f"{MARK}\n")
    if len(printed) != len(shown) + 1:
        raise Wrong(f"the session ended behind {len(printed) - 1} of {len(shown)} commands: {printed[-1][-300:]}")
    for (command, wanted), got in zip(shown, printed[:-1], strict=True):
        if comparable(wanted) != comparable(got) and "PROGRESS" not in comparable(wanted):
            raise Wrong(f"$ {command}\nprinted:\n{got}\nand the text shows:\n{wanted}")
    return len(shown)


def session(text: str) -> int:
    """Runs the sessions of the text, and returns how many commands printed what is shown."""
    return sum(type_session(block) for block in blocks(text, "$ "))


def command_of(tool: re.Match[str]) -> str:
    """The command of tools/NAME."""
    name: str = tool[1]
    return "domethyme-" + name.replace("_", "-")


def map_tools(text: str) -> int:
    """Runs the block that begins with tools/check_packages without that line, and returns the number of its commands."""
    lines = [line for block in blocks(text, "tools/check_packages") for line in block.splitlines()[1:]]
    commands = [re.sub(r"\btools/(\w+)", command_of, line) for line in lines]
    ended = run("\n".join(["set -euo pipefail", *commands]))
    if ended.returncode != 0:
        raise Wrong(f"status {ended.returncode} of the map tools:\n{ended.stdout}")
    return len(commands)


@contextlib.contextmanager
def serving() -> Iterator[tuple[subprocess.Popen[str], str]]:
    """A service as the unit starts it, and its address. One that doesn't start is an error."""
    with subprocess.Popen(["sh", "-c", UNIT], stderr=subprocess.PIPE, text=True) as process:
        try:
            found = wait_for(process, r"listens at http://(127\.0\.0\.1:\d+)/")
            yield process, found[1]
        finally:
            process.kill()


def wait_for(process: subprocess.Popen[str], pattern: str) -> re.Match[str]:
    """The first line of a service's log that has a pattern. A log that ends before is an error."""
    lines = []
    assert process.stderr is not None
    for line in process.stderr:
        lines.append(line)
        if found := re.search(pattern, line):
            return found
    sys.exit(f"the service printed {lines[-5:]}")


def service(text: str) -> int:
    """Runs the commands of the text beside a service, which then is reloaded and ended."""
    with serving() as (process, address):
        count = session(text.replace("127.0.0.1:5000", address))
        process.send_signal(signal.SIGHUP)
        wait_for(process, "reloaded")
        process.terminate()
        if (status := process.wait(60)) != 0:
            sys.exit(f"at SIGTERM the service ended with status {status}")
    return count


def main() -> None:
    """Runs what is asked for. A README without it is an error."""
    kind, readme = sys.argv[1:]
    text = pathlib.Path(readme).read_text(encoding="utf-8")
    try:
        count = {"session": session, "map": map_tools, "service": service}[kind](text)
    except Wrong as wrong:
        sys.exit(str(wrong))
    if count == 0:
        sys.exit(f"{readme} shows no {kind}")
    print(f"{count} commands of the {kind}")


if __name__ == "__main__":
    main()
