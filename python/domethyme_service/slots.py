"""Slots: how many requests are answered at once, of all clients and of one, in all processes of the service."""
import contextlib
import ctypes
import fcntl
import functools
import ipaddress
import mmap
import os
from collections.abc import Iterable
from typing import Any, NamedTuple

# Addresses without limits of their own, as in nginx's file (packaging/nginx/domethyme.conf).
PRIVATE = [
    ipaddress.ip_network(text) for text in (
        "127.0.0.0/8", "10.0.0.0/8", "172.16.0.0/12", "192.168.0.0/16", "169.254.0.0/16", "::1/128", "fc00::/7", "fe80::/10"
    )
]
# Of an address of IPv6 so many bits are one client: a machine has all addresses of such a network.
IPV6_PREFIX = 64
# The bytes of each client's slots, at most so many of them; and so many clients are told apart.
CLIENT_BYTES, CLIENTS = 256, 1 << 40


class Client(NamedTuple):
    """Who asks: an address or its network, "" for nobody in particular, and whether it is a public one."""

    network: str = ""
    is_public: bool = False


class Slots:
    """The slots of a service with so many workers, shared with the processes that are forked after it was made, as is the number. A long
    request needs one of as many as half of the workers, of which a client has at most half. A public client is answered by at
    most half of the workers at once. A slot is a kernel lock on a byte of a file in memory, so those of a process that ends,
    however it ends, are free again."""

    def __init__(self, workers: int) -> None:
        self._workers, self._file = ctypes.c_long.from_buffer(mmap.mmap(-1, mmap.PAGESIZE)), os.memfd_create("slots")
        self.workers = workers

    @property
    def workers(self) -> int:
        return self._workers.value

    @workers.setter
    def workers(self, count: int) -> None:
        self._workers.value = count

    def acquire(self, client: Client, is_long: bool) -> bool:
        """Takes the slots of a request for this process, which has none; returns whether all were free."""
        own, most = (1 + hash(client.network) % CLIENTS) * CLIENT_BYTES, half(self.workers)
        taken = not client.is_public or self._take(own, most)
        if is_long:
            taken = taken and (not client.network or self._take(own + CLIENT_BYTES // 2, half(most))) and self._take(0, most)
        if not taken:
            self.release()
        return taken

    def _take(self, first: int, count: int) -> bool:
        """Locks one of some bytes; returns whether one was free."""
        for slot in range(first, first + count):
            with contextlib.suppress(OSError):
                fcntl.lockf(self._file, fcntl.LOCK_EX | fcntl.LOCK_NB, 1, slot)
                return True
        return False

    def release(self) -> None:
        """Frees the slots of this process."""
        fcntl.lockf(self._file, fcntl.LOCK_UN)


def half(count: int) -> int:
    return max(1, count // 2)


def client_of(address: Any, headers: Iterable[tuple[str, str]]) -> Client:
    """Who asks: what nginx says (X-Real-IP) on a unix socket, and the other end of the connection elsewhere."""
    if isinstance(address, tuple):
        return client_at(str(address[0]))
    return client_at(dict(headers).get("X-REAL-IP", ""))


@functools.lru_cache(1 << 12)
def client_at(address: str) -> Client:
    """The client at an address."""
    try:
        found = ipaddress.ip_address(address.partition("%")[0])
    except ValueError:
        return Client()
    found = getattr(found, "ipv4_mapped", None) or found
    is_public = not any(found in network for network in PRIVATE)
    if found.version == 6:
        return Client(str(ipaddress.ip_network((found, IPV6_PREFIX), strict=False)), is_public)
    return Client(str(found), is_public)
