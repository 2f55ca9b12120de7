#!/usr/bin/python3
"""The search of pgRouting, to compare times with.

    bench/pgrouting_search.py NETWORK.gr NETWORK.pairs

`pgr_dijkstraCost` over a table of arcs in a PostgreSQL of its own, which listens on no port and is gone at the end. Each call
reads all arcs anew, as pgRouting does. It takes well-formed texts alone, and prints a line `r S T LENGTH` or `n S T` for each
pair; on standard error the seconds to fill the table and to search. It needs Debian's postgresql-15-pgrouting.
"""
import os
import pathlib
import shutil
import subprocess
import sys
import tempfile
import time

from kit.counted import parser

BIN = pathlib.Path("/usr/lib/postgresql/15/bin")
# A server isn't started for root.
AS_USER = ["runuser", "-u", "postgres", "--"] if os.geteuid() == 0 else []
TABLE = "CREATE EXTENSION pgrouting CASCADE; CREATE TABLE arcs (id serial, source int, target int, cost float8);"
SEARCH = "SELECT coalesce((SELECT agg_cost::bigint FROM pgr_dijkstraCost('SELECT id, source, target, cost FROM arcs', {}, {})), -1);"


class Server:
    """A server in a folder, to be asked through a socket there."""

    def __init__(self, folder):
        self.folder = folder
        if AS_USER:
            shutil.chown(folder, "postgres")
        self.run([BIN / "initdb", "-D", folder / "data", "-U", "postgres", "-A", "trust", "--no-sync"])
        options = f"-k {folder} -c listen_addresses='' -c fsync=off -c jit=off"
        self.run([BIN / "pg_ctl", "-D", folder / "data", "-w", "-l", folder / "log", "-o", options, "start"])

    def run(self, words):
        subprocess.run([*AS_USER, *words], check=True, stdout=subprocess.DEVNULL, stderr=subprocess.DEVNULL, cwd="/")

    def ask(self, text):
        words = ["psql", "-qAtX", "-v", "ON_ERROR_STOP=1", "-h", self.folder, "-U", "postgres"]
        done = subprocess.run(words, input=text, check=True, stdout=subprocess.PIPE, stderr=subprocess.PIPE, text=True)
        return done.stdout.split()

    def stop(self):
        self.run([BIN / "pg_ctl", "-D", self.folder / "data", "-m", "immediate", "stop"])


def answers(server, graph, pairs):
    start = time.perf_counter()
    server.ask(TABLE)
    with open(graph) as lines:
        arcs = "".join("\t".join(line.split()[1:]) + "\n" for line in lines if line.startswith("a "))
    server.ask(f"COPY arcs (source, target, cost) FROM STDIN;\n{arcs}\\.\nANALYZE arcs;\n")
    read = time.perf_counter()
    found = server.ask("".join(SEARCH.format(*pair) + "\n" for pair in pairs if pair[0] != pair[1]))
    print(f"read {read - start:.3f} search {time.perf_counter() - read:.6f}", file=sys.stderr)
    return iter(found)


def main():
    words = parser(__doc__)
    words.add_argument("graph", metavar="NETWORK.gr")
    words.add_argument("pairs", metavar="NETWORK.pairs")
    asked = words.parse_args()
    with open(asked.pairs) as lines:
        pairs = [tuple(map(int, line.split()[1:])) for line in lines if line.startswith("q ")]
    with tempfile.TemporaryDirectory() as folder:
        server = Server(pathlib.Path(folder))
        try:
            found = answers(server, asked.graph, pairs)
        finally:
            server.stop()
    for source, target in pairs:
        length = "0" if source == target else next(found)
        print(f"n {source} {target}" if length == "-1" else f"r {source} {target} {length}")


if __name__ == "__main__":
    main()
