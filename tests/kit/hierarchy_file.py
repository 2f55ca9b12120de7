"""Spells hierarchy files in the form of docs/FORMATS.md, for the scripts that need whole or broken files of their own."""
import os
import struct
from collections.abc import Iterable, Sequence
from typing import Union

NONE = 0xFFFFFFFF
HEAD_BYTES = 24
LINK_BYTES = {1: 20, 2: 24}


def head(nodes: int, links: int, bound: int = 0, version: int = 2) -> bytes:
    """What is before the ranks. The bound is a weight alone."""
    return b"RCH%d" % version + struct.pack(">IQQ", nodes, links, bound)


def ranks(numbers: Sequence[int]) -> bytes:
    return struct.pack(f">{len(numbers)}I", *numbers)


def link(start: int, end: int, weight: int, arcs: int = 1, middle: int = NONE, version: int = 2) -> bytes:
    """A link, which in version 1 doesn't have its arcs."""
    told = struct.pack(">I", arcs) if version == 2 else b""
    return struct.pack(">IIQ", start, end, weight) + told + struct.pack(">I", middle)


def spelled(numbers: Sequence[int], links: Iterable[tuple[int, int, int, int, int]], bound: int, version: int = 2) -> bytes:
    """The file of these ranks and these links, which are (start, end, weight, arcs, middle)."""
    texts = [link(*each, version=version) for each in links]
    return head(len(numbers), len(texts), bound, version) + ranks(numbers) + b"".join(texts)


def ranks_in(file: bytes) -> tuple[int, ...]:
    """The ranks that a file has."""
    return struct.unpack_from(f">{int.from_bytes(file[4:8], 'big')}I", file, HEAD_BYTES)


def links_in(file: Union[str, "os.PathLike[str]"]) -> int:
    """How many links a file says that it has."""
    with open(file, "rb") as source:
        return int.from_bytes(source.read(16)[8:], "big")
