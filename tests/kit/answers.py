"""Reads lines of answers, and compares them with others."""
import itertools
import os
from collections.abc import Iterable
from typing import Union

Path = Union[str, "os.PathLike[str]"]
Least = dict[tuple[int, int], int]


def least_arcs_of(graph: Path) -> Least:
    """The weight of the least arc of each pair of nodes, of a graph's text."""
    with open(graph) as source:
        arcs = (line.split()[1:] for line in source if line.startswith("a "))
        return least_arcs((int(start), int(end), int(weight)) for start, end, weight in arcs)


def least_arcs(arcs: Iterable[tuple[int, int, int]]) -> Least:
    """The same of arcs as (start, end, weight)."""
    least: Least = {}
    for start, end, weight in arcs:
        least[start, end] = min(weight, least.get((start, end), weight))
    return least


def costs_in(file: Path) -> list[list[str]]:
    """Of each line the pair, its length and its number of arcs, or the pair alone."""
    with open(file) as lines:
        return [line.split()[:5] for line in lines]


def is_walk(nodes: list[int], length: int, least: Least) -> bool:
    """Whether a walk along these nodes has this length, by the least arcs between them."""
    steps = list(zip(nodes, nodes[1:]))
    return all(step in least for step in steps) and sum(least[step] for step in steps) == length


def is_answer(ours: list[str], theirs: list[str], least: Least) -> bool:
    """Whether the fields of a line begin as the other ones, with the pair, the length and the number of arcs, and go on with
    nodes along which a walk has both."""
    if ours[:5] != theirs[:5]:
        return False
    if not ours or ours[0] == "n":
        return len(ours) == 3
    source, target, length, arcs, *nodes = map(int, ours[1:])
    return len(nodes) == arcs + 1 and (nodes[0], nodes[-1]) == (source, target) and is_walk(nodes, length, least)


def are_answers(ours: Path, theirs: Path, least: Least) -> bool:
    """Whether each line of a file is such an answer, beside the line of another one."""
    with open(ours) as our_lines, open(theirs) as their_lines:
        pairs = list(itertools.zip_longest(our_lines, their_lines, fillvalue=""))
    return all(is_answer(line.split(), other.split(), least) for line, other in pairs)
