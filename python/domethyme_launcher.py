#!/usr/bin/python3 -P
"""All commands of these packages: the one by whose name this file is called (domethyme-NAME in Debian's package is a link to it,
and a wheel has the same names), or that the first argument names, as tools/NAME in a clone does. `--help` behind it says more."""
import importlib
import pathlib
import sys

HERE = str(pathlib.Path(__file__).resolve().parent)
if HERE not in sys.path:
    sys.path.insert(0, HERE)

from domethyme_tools.cli import require_packages, run  # found by the path above

COMMANDS = (
    "build_converter", "draw", "fetch_extract", "match", "osm_to_gr", "page", "reach", "reweigh", "routes", "serve", "table",
    "to_network", "without",
)


def main() -> None:
    """Runs the command, and ends the process."""
    if pathlib.Path(sys.argv[0]).name == "domethyme_launcher.py":
        del sys.argv[0]
    name = pathlib.Path(sys.argv[0]).name.removeprefix("domethyme-").replace("-", "_") if sys.argv else ""
    if name not in COMMANDS:
        print(f"domethyme_launcher: no command {name!r}: there are {', '.join(COMMANDS)}", file=sys.stderr)
        sys.exit(2)
    with require_packages():
        command = importlib.import_module("domethyme_service.command" if name == "serve" else f"domethyme_tools.{name}")
    if name == "serve":
        command.main()
    else:
        run(command.main)


if __name__ == "__main__":
    main()
