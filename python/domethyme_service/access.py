"""Which requests are allowed. Any page in a browser of this machine can send requests to a service on the loopback, also
under a host name of its own (DNS rebinding). So a request has to be for an allowed host, and not marked as of another
origin unless that is allowed. Batches need a Content-Type that makes the browser send a CORS preflight."""
import functools
import ipaddress
import re
from collections.abc import Iterable, Mapping
from typing import Any, NamedTuple

from .errors import RequestError

# A host and its port.
HOST = re.compile(r"(\[[0-9A-Fa-f:.]{2,45}\]|[0-9A-Za-z._~-]{1,253})(?::[0-9]{0,5})?")
BATCH_TYPES = ("application/x-ndjson", "application/ndjson", "application/jsonl", "application/json")
ANY_HOST, ANY_ORIGIN, NO_ORIGIN = "*", "*", "none"
ORIGIN = re.compile(r"[a-z][a-z0-9+.-]*://[^/?#\s]+")


class AccessPolicy(NamedTuple):
    """The hosts that are allowed besides the connection's address, and the allowed origin or none; `*` is any."""

    hosts: frozenset[str]
    origin: str

    @classmethod
    def from_options(cls, hosts: Iterable[str], origin: str) -> "AccessPolicy":
        return cls(frozenset(host.lower().rstrip(".") for host in hosts), origin.lower())

    def check(self, host: str | None, local: str, environ: Mapping[str, Any], is_page: bool) -> None:
        """Raises RequestError if a request isn't allowed. `host` is its Host, None for HTTP/1.0 without one; `local` the
        address of this end of the connection; `environ` WSGI's. Navigation from other sites to the page is allowed."""
        if host is not None and not self.allows_host(host, local):
            message = f"this service isn't for the host {host[:100]}: --allowed-host names others"
            raise RequestError(421, "InvalidHost", message)
        site: str = environ.get("HTTP_SEC_FETCH_SITE", "none")
        origin: str | None = environ.get("HTTP_ORIGIN")
        if self.origin == ANY_ORIGIN or self.origin != NO_ORIGIN and origin == self.origin:
            return
        is_navigation = is_page and environ.get("HTTP_SEC_FETCH_MODE") == "navigate"
        is_cross_site = site not in ("none", "same-origin") and not is_navigation
        is_other = origin is not None and origin.partition("://")[2].lower() != (host or "").lower()
        if is_cross_site or site != "same-origin" and is_other:
            raise RequestError(403, "Forbidden", "a page of another origin asks: --cors names one that may")

    def allows_host(self, host: str, local: str) -> bool:
        """Whether a host is an allowed name, or the address of this end of the connection."""
        found = HOST.fullmatch(host)
        if found is None:
            return False
        name = found[1].lower().rstrip(".")
        return name in self.hosts or ANY_HOST in self.hosts or is_address(name, local)

    @property
    def headers(self) -> dict[str, str]:
        if self.origin == NO_ORIGIN:
            return {}
        return {"Access-Control-Allow-Origin": self.origin, **({} if self.origin == ANY_ORIGIN else {"Vary": "Origin"})}


@functools.lru_cache(256)
def is_address(name: str, local: str) -> bool:
    """Whether a name is this address, or `localhost` and the address is of the loopback."""
    try:
        address = ipaddress.ip_address(local.partition("%")[0])
        mapped = getattr(address, "ipv4_mapped", None) or address
        if name == "localhost":
            return bool(mapped.is_loopback)
        return ipaddress.ip_address(name.strip("[]")) in (address, mapped)
    except ValueError:
        return False


def check_content_type(kind: str) -> None:
    """Raises RequestError unless the Content-Type is one of BATCH_TYPES."""
    if kind.partition(";")[0].strip().lower() not in BATCH_TYPES:
        hint = f"as by curl -H 'Content-Type: {BATCH_TYPES[0]}'"
        raise RequestError(415, "InvalidQuery", f"the Content-Type has to be {BATCH_TYPES[0]}, {hint}")
