"""Standard error that blocks nobody: where it is a pipe or a socket whose reader has stopped, lines are lost and counted."""
import functools
import io
import os
import socket
import stat
import sys
from collections.abc import Callable


class LossyWriter(io.RawIOBase):
    """Bytes that are written by `send`, which doesn't block. What it refuses is lost, and `on_lost` gets the number of its lines."""

    def __init__(self, send: Callable[[bytes], int]) -> None:
        self._send, self._is_cut = send, False
        self.on_lost: Callable[[int], object] = lambda lines: None

    def writable(self) -> bool:
        return True

    def fileno(self) -> int:
        return 2

    def write(self, data: bytes) -> int:  # type: ignore[override] # (of a TextIOWrapper)
        whole = b"\n" + bytes(data) if self._is_cut else bytes(data)
        try:
            sent = self._send(whole)
        except OSError:
            sent = 0
        if sent < len(whole):
            # (the end of the line that was cut has been counted)
            self.on_lost(whole.count(b"\n", max(sent, len(whole) - len(data))))
        self._is_cut = self._is_cut if sent == 0 else sent < len(whole)
        return len(data)


def keep_from_blocking() -> LossyWriter | None:
    """Has this process and those that it forks write to standard error without waiting for its reader; None if it is a file, or a
    terminal, and stays as it is."""
    mode = os.fstat(2).st_mode
    try:
        if stat.S_ISSOCK(mode):
            stream = socket.socket(fileno=os.dup(2))
            send: Callable[[bytes], int] = lambda data: stream.send(data, socket.MSG_DONTWAIT)  # noqa: E731
        elif stat.S_ISFIFO(mode):  # (with a flag of its own: the pipe may be others' too)
            send = functools.partial(os.write, os.open("/proc/self/fd/2", os.O_WRONLY | os.O_NONBLOCK))
        else:
            return None
    except OSError:
        return None
    writer = LossyWriter(send)
    sys.stderr = io.TextIOWrapper(writer, "utf-8", "backslashreplace", write_through=True)  # type: ignore[arg-type]
    return writer
