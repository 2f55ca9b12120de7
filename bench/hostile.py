#!/usr/bin/env python3
"""Prints what memory `routecli route` takes for hierarchy files that announce much and bring little.

    bench/hostile.py

Each file is written, routed, and refused: the table has its bytes, the name of the refusal, which is compared, the
greatest resident size in kB, what of it is beyond that of a file of no byte, and that for each byte of the file. Some files
are of version 1. The last two files are well made, and by them walks have more arcs than 32 bits count: of two pairs by the
one the first has to be answered rightly, and by the other, of version 1, none can be. It needs
g++ and the proved program, which is crates/routecli/out/routecli (README.md says how to build it) or the path in the
environment variable ROUTECLI.
"""
import itertools
import pathlib
import random
import subprocess
import sys
import tempfile

from kit.counted import parser
from kit.hierarchy_file import NONE, head, link, ranks, spelled
from kit.program import PROGRAM, need_compiled, need_program

MOST = 1 << 25


def files():
    """What each file shows, its bytes, and the refusal that it asks for."""
    most_links = MOST * (MOST - 1)
    draw = random.Random(1)
    spread = list(range(0, MOST, 1 << 12))
    many = draw.sample(range(MOST), 1_000_000)
    yield "no byte", b"", "Truncated"
    yield "the greatest numbers and no more", head(MOST, most_links), "Truncated"
    yield "one node too many", head(MOST + 1, 0), "TooBig"
    yield "one link too many", head(MOST, most_links + 1), "TooBig"
    yield "the greatest numbers and no more, version 1", head(MOST, most_links, version=1), "Truncated"
    yield "one link too many, version 1", head(MOST, most_links + 1, version=1), "TooBig"
    yield "the greatest rank first", head(MOST, 0) + ranks([MOST - 1]), "Truncated"
    yield "the same rank twice", head(MOST, 0) + ranks([MOST - 1, MOST - 1]), "RankTwice"
    yield "8,192 ranks far apart", head(MOST, 0) + ranks(spread), "Truncated"
    yield "1,000,000 ranks of 2^25, drawn", head(MOST, 0) + ranks(many), "Truncated"
    yield "2,097,153 ranks of 2^25, so that marks are made", head(MOST, 0) + ranks(range(MOST // 16 + 1)), "Truncated"
    yield "1,024 nodes, all ranks, no link of 1,047,552", head(1024, 1024 * 1023, 1) + ranks(range(1024)), "Truncated"
    few = head(65_536, 65_536 * 65_535, 1) + ranks(range(65_536))
    yield "65,536 nodes, all ranks, one link of 4,294,901,760", few + link(0, 1, 1), "Truncated"
    few = head(65_536, 65_536 * 65_535, 1, version=1) + ranks(range(65_536))
    yield "the same in version 1", few + link(0, 1, 1, version=1), "Truncated"


def many_arcs():
    """A file, two pairs of nodes, and the answer of the first one.

    A chain of nodes has a link from each to the next that represents 2^16 + 2 arcs and weighs nothing. With six arcs behind
    it, the last of which weighs 1, its links represent 2^32 + 2 arcs. Its start and end are joined by three arcs too, the
    first of which weighs 1, so that the chain is gone along before. From the second node on there is the chain alone.
    """
    below, top, steps = 16, 17, 65_534
    doubled = [(i, j) for i in range(top + 1) for j in range(top + 1) if i != j]
    links = [(i, j, 0, 1 << min(i, j), min(i, j) - 1 if min(i, j) else NONE) for i, j in doubled]
    chain = range(top + 1, top + 1 + steps + 1)
    for node in chain:
        links += [(node, top, 0, 1, NONE), (below, node, 0, 1, NONE), (top, node, 0, (1 << below) + 1, below)]
    links += [(node, node + 1, 0, (1 << below) + 2, top) for node in chain[:-1]]
    behind = range(chain[-1], chain[-1] + 6)
    first, second, end = (behind[-1] + step for step in (1, 2, 3))
    links += [(node, node + 1, 0, 1, NONE) for node in behind[:-1]]
    links += [(behind[-1], end, 1, 1, NONE)]
    links += [(chain[0], first, 1, 1, NONE), (first, second, 0, 1, NONE), (second, end, 0, 1, NONE)]
    pairs = f"p aux sp p2p 2\nq {chain[0] + 1} {end + 1}\nq {chain[1] + 1} {end + 1}\n"
    answer = f"r {chain[0] + 1} {end + 1} 1 3 {chain[0] + 1} {first + 1} {second + 1} {end + 1}\n"
    return spelled(range(end + 1), sorted(links), 1), pairs, answer


def cascade():
    """A file of version 1, and a pair of nodes.

    Of 38 nodes each two are linked, by way of the node below the lower one, so a link of the last two represents 2^36 arcs.
    """
    ends = [(i, j) for i in range(38) for j in range(38) if i != j]
    links = [(i, j, 1 << min(i, j), 0, min(i, j) - 1 if min(i, j) else NONE) for i, j in ends]
    return spelled(range(38), links, 37 * NONE, version=1), "p aux sp p2p 1\nq 38 37\n"


def main():
    parser(__doc__).parse_args()
    need_program()
    print("| File | bytes | refusal | resident, kB | beyond no byte, kB | for each byte |\n|---|---|---|---|---|---|")
    with tempfile.TemporaryDirectory() as folder:
        folder = pathlib.Path(folder)
        resident, file, queries = need_compiled(folder, "resident"), folder / "hostile.rch", folder / "hostile.pairs"
        least = None
        last, pairs, answer = many_arcs()
        very_last, pair = cascade()
        long = [("2^32 + 2 arcs in a walk", last, "TooLong", pairs, answer)]
        long += [("2^36 arcs in a walk, version 1", very_last, "TooLong", pair, "")]
        cases = itertools.chain(((*each, pairs, "") for each in files()), long)
        for name, content, wanted, asked, written in cases:
            file.write_bytes(content)
            queries.write_text(asked)
            command = [resident, folder / "figures", PROGRAM, "route", file, queries]
            done = subprocess.run(command, check=True, capture_output=True, text=True)
            status, size = map(int, (folder / "figures").read_text().split())
            if (status, done.stdout, done.stderr) != (4, written, f"routecli: hierarchy: {wanted}\n"):
                sys.exit(f"{name}: status {status}, {done.stdout[:200]!r}, {done.stderr!r}")
            least = size if least is None else least
            each = f"{(size - least) * 1024 / len(content):.1f}" if len(content) > 1 << 16 else ""
            print(f"| {name} | {len(content):,} | {wanted} | {size:,} | {size - least:,} | {each} |")


if __name__ == "__main__":
    main()
