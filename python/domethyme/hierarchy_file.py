"""Opens and reads the file of a hierarchy."""
import os
import stat
from typing import IO, NamedTuple

from .errors import HierarchyError, HierarchyNotFound, os_reason

HEAD_BYTES = 24
LINK_BYTES = {b"RCH1": 20, b"RCH2": 24}
# Bytes that are read at once: a call reads no more than 2 GiB.
MAX_READ = 1 << 30


def open_hierarchy_file(name: str) -> IO[bytes]:
    """The open file of a hierarchy, which has to be a regular one: it is read again for each process."""
    try:
        file = open(name, "rb", buffering=0, opener=open_nonblocking)
    except OSError as error:
        kind = HierarchyNotFound if isinstance(error, FileNotFoundError) else HierarchyError
        makes = f": `routecli prepare --order balanced {name.removesuffix('.rch')}.gr {name}` makes it" if name.endswith(".rch") else ""
        raise kind(f"{name}: {os_reason(error)}{makes if kind is HierarchyNotFound else ''}", 7) from error
    if not stat.S_ISREG(os.fstat(file.fileno()).st_mode):
        file.close()
        raise HierarchyError(f"{name}: is no regular file", 7)
    return file


def open_nonblocking(name: str, flags: int) -> int:
    """Opens a file without a wait: a pipe that nobody writes to is none that is waited for."""
    return os.open(name, flags | os.O_NONBLOCK)


class FileStamp(NamedTuple):
    """The state of an open file, by which another one of its name is told: device, inode, bytes, and nanoseconds of its time."""

    device: int
    inode: int
    size: int
    modified: int


def file_stamp(file: int) -> FileStamp:
    found = os.fstat(file)
    return FileStamp(found.st_dev, found.st_ino, found.st_size, found.st_mtime_ns)


def read_header(file: int, name: str) -> tuple[int, int]:
    """The numbers of nodes and links of a file, by its head, which has to fit its size."""
    head, size = os.pread(file, HEAD_BYTES, 0), os.fstat(file).st_size
    if head[:4] not in LINK_BYTES:
        raise HierarchyError(f"{name}: is no file that `routecli prepare` wrote", 4)
    nodes, links = int.from_bytes(head[4:8], "big"), int.from_bytes(head[8:16], "big")
    if size != HEAD_BYTES + 4 * nodes + LINK_BYTES[head[:4]] * links:
        raise HierarchyError(f"{name}: has {size} bytes, and its head announces others: prepare it again", 4)
    return nodes, links


def pread_all(file: int, place: int, size: int) -> bytearray:
    """Bytes of an open file, as far as it has them, which are in memory once."""
    found, begin = bytearray(size), 0
    with memoryview(found) as view:
        while count := os.preadv(file, [view[begin : begin + MAX_READ]], place + begin):
            begin += count
    del found[begin:]
    return found
