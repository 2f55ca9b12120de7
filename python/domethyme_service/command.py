"""The command `domethyme-serve`: a routing service over HTTP.

HIERARCHY is the file that `routecli prepare` wrote. The service answers http://127.0.0.1:PORT/ until it is ended. Other
machines ask it through nginx, by packaging/nginx/domethyme.conf and --bind unix:PATH. SIGHUP reads the files again, and
requests are answered meanwhile; SIGTERM answers those received, and ends the service.

Exit status: 0; 1 if it can't start, with one line on standard error; 2 for invalid arguments.
"""
import argparse
import errno
import ipaddress
import logging
import os
import pathlib
import socket
import sys
from collections.abc import Callable, Sequence
from typing import Any

from gunicorn import systemd

from domethyme import DomethymeError, find_program
from domethyme.network.without import parse_classes

from .access import ANY_HOST, HOST, ORIGIN, AccessPolicy
from .dataset import DatasetPaths
from .errors import StartupError
from .gunicorn_app import Application
from .wsgi import Options

EXAMPLES = """examples:
  %(prog)s net.rch --network net
  %(prog)s net.rch --network net --verify net.gr --workers 8 --bind unix:/run/domethyme/serve.sock
  curl 'http://127.0.0.1:5000/route/v1/car/9.5215,47.1410;9.6090,47.1020?overview=false'"""
NGINX = "packaging/nginx/domethyme.conf (/usr/share/doc/domethyme/examples/nginx.conf)"
# The least number of workers: a long request occupies one.
MIN_WORKERS = 4
# The path of the socket for probes, that is for what asks whether the service is alive, is that of the other with this suffix. A
# worker of its own answers there, so it is no later while all others are busy.
PROBE_SUFFIX = ".probe"
BACKLOG = 1024
# Bytes that the kernel buffers of a client: a worker peeks at the complete head of a request before it reads it.
RECEIVE_BUFFER = 1 << 18


def argument_parser() -> argparse.ArgumentParser:
    """The arguments of the command."""
    parser = argparse.ArgumentParser(
        prog="domethyme-serve", description=__doc__, epilog=EXAMPLES, formatter_class=argparse.RawDescriptionHelpFormatter
    )
    add = parser.add_argument
    add("hierarchy", metavar="HIERARCHY", help="the file of a hierarchy")
    graph = "the graph for which the hierarchy has to be right, proved at each start"
    add("--verify", metavar="GRAPH", help=graph)
    add("--network", metavar="NETWORK", help="prefix of the network's files (PREFIX.net); needed for coordinates, OSRM's API and the map")
    add("--towards", action="store_true", help="what leads to places too: reverse=true of isochrones, and alternatives, by a second hierarchy in memory")
    add("--exclude", metavar="CLASSES=HIERARCHY", type=parse_excluded, action="append", default=[],
        help="the hierarchy without these classes of roads, as `without` leaves them out, for exclude=CLASSES; several times")
    add("--compare-all", action="store_true", help="compare all links with the network, also of more than ten million")
    radius = "metres from a place to a road, where a request has no radiuses (1000)"
    add("--radius", metavar="METRES", type=int_between(0, 10_000_000), default=1000, help=radius)
    add("--bind", metavar="unix:PATH", help=f"listen at a unix socket, for nginx, and at PATH{PROBE_SUFFIX}, for probes")
    add("--host", metavar="ADDRESS", default="127.0.0.1", help="the address of the loopback to listen at (127.0.0.1)")
    add("--port", metavar="PORT", type=int_between(0, 65535), default=5000, help="the port, 0 for any that is free (5000)")
    workers = f"processes that answer, {MIN_WORKERS} or more ({MIN_WORKERS})"
    add("--workers", metavar="N", type=int_between(1, 64), default=MIN_WORKERS, help=workers)
    cells = "cells of a table (1000000)"
    add("--max-table-cells", metavar="N", type=int_between(1, 4_000_000), default=1_000_000, help=cells)
    profile = "a word that PROFILE may be in paths, by default any; several times"
    add("--profile", metavar="WORD", action="append", default=[], help=profile)
    add("--program", metavar="FILE", help="routecli, for --verify: by default that of ROUTECLI, on PATH, or built here")
    host = "a host that requests may be for, * for any; several times"
    add("--allowed-host", metavar="NAME", type=parse_host, action="append", default=[], help=host)
    add("--cors", metavar="ORIGIN", type=parse_origin, default="none", help="the origin whose pages may ask, * for any (none)")
    add("--access-log", action="store_true", help="a line of JSON on standard error for each request")
    add("--log-places", action="store_true", help="also log the request's path and the client's address (implies --access-log)")
    return parser


def int_between(low: int, high: int) -> Callable[[str], int]:
    def parse(text: str) -> int:
        if not text.isascii() or not text.isdigit() or len(text) > 12 or not low <= int(text) <= high:
            raise argparse.ArgumentTypeError(f"has to be from {low} to {high}")
        return int(text)

    return parse


def parse_excluded(text: str) -> tuple[frozenset[str], str]:
    """The classes of an argument, and the file of their hierarchy."""
    words, equals, path = text.partition("=")
    try:
        classes = parse_classes(words)
    except ValueError as error:
        raise argparse.ArgumentTypeError(str(error)) from None
    if not equals or not path:
        raise argparse.ArgumentTypeError(f"{text} has no =HIERARCHY")
    return classes, path


def parse_host(text: str) -> str:
    """The host of an argument, as requests name it, but for a port."""
    found = HOST.fullmatch(text)
    if text != ANY_HOST and (found is None or found[1] != text):
        raise argparse.ArgumentTypeError("a host is a name or an address as in a URL, without a port, or *")
    return text


def parse_origin(text: str) -> str:
    """The origin of an argument, as browsers send it."""
    if text not in ("*", "none") and not ORIGIN.fullmatch(text):
        raise argparse.ArgumentTypeError("an origin is SCHEME://HOST, such as https://example.org")
    return text


def open_sockets(args: argparse.Namespace) -> tuple[list[str], bool]:
    """Opens the sockets to listen on. Returns gunicorn's `bind`, empty if systemd passes them, and whether one is for probes."""
    if count := systemd.listen_fds(unset_environment=False):
        for number in range(count):
            with socket.socket(fileno=os.dup(systemd.SD_LISTEN_FDS_START + number)) as listening:
                name = listening.getsockname()
            if isinstance(name, tuple):
                check_loopback(name[0])
        return [], count > 1
    if args.bind is None:
        return [listen_tcp(args.host, args.port)], False
    kind, _, path = args.bind.partition(":")
    if kind != "unix" or not path:
        raise StartupError(f"--bind {args.bind}: the loopback is --host and --port, and others ask through nginx, by {NGINX}, and --bind unix:PATH")
    return [listen_unix(path), listen_unix(f"{path}{PROBE_SUFFIX}")], True


def listen_tcp(host: str, port: int) -> str:
    """Listens at an address of the loopback; returns gunicorn's `bind`. Raises StartupError."""
    try:
        family, _, _, _, address = socket.getaddrinfo(host, port, type=socket.SOCK_STREAM)[0]
        check_loopback(str(address[0]))
        return listen(family, address)
    except UnicodeError as error:
        raise StartupError(f"can't listen at {host}: it is no name of a host") from error
    except OSError as error:
        hint = ": another --port, or 0 for any that is free" if error.errno == errno.EADDRINUSE else ""
        raise StartupError(f"can't listen at {host}, port {port}: {error.strerror}{hint}") from error


def listen_unix(path: str) -> str:
    """The same for a unix socket of mode 0660; a socket at which nobody listens is replaced. (gunicorn would change the owner
    of its own, which the systemd unit doesn't allow.) Raises StartupError."""
    before = os.umask(0o117)
    try:
        if pathlib.Path(path).is_socket():
            with socket.socket(socket.AF_UNIX) as asking:
                asking.setblocking(False)
                if asking.connect_ex(path) != errno.ECONNREFUSED:
                    raise StartupError(f"can't listen at unix:{path}: another service does")
            os.unlink(path)
        return listen(socket.AF_UNIX, path)
    except OSError as error:
        raise StartupError(f"can't listen at unix:{path}: {error.strerror or error}") from error
    finally:
        os.umask(before)


def listen(family: int, address: Any) -> str:
    listening = socket.socket(family, socket.SOCK_STREAM)
    listening.setsockopt(socket.SOL_SOCKET, socket.SO_REUSEADDR, 1)
    listening.setsockopt(socket.SOL_SOCKET, socket.SO_RCVBUF, RECEIVE_BUFFER)
    listening.bind(address)
    listening.listen(BACKLOG)
    return f"fd://{listening.detach()}"


def check_loopback(address: str) -> None:
    """Raises StartupError for an address that other machines can reach."""
    if not ipaddress.ip_address(address.partition("%")[0]).is_loopback:
        raise StartupError(f"won't listen at {address}: other machines ask through nginx, by {NGINX}, and --bind unix:PATH")


def main(words: Sequence[str] | None = None) -> None:
    """The command; ends the process."""
    args = argument_parser().parse_args(words)
    access_log = logging.getLogger("domethyme_service.access")
    access_log.setLevel(logging.INFO if args.access_log or args.log_places else logging.WARNING)
    logging.getLogger("domethyme_service").setLevel(logging.INFO)
    if len(dict(args.exclude)) < len(args.exclude):
        argument_parser().error("--exclude has the same classes twice")
    if args.workers < MIN_WORKERS:
        why = f"takes {MIN_WORKERS}, the least, since a long request holds one"
        print(f"domethyme-serve: --workers {args.workers}: {why}", file=sys.stderr)
    try:
        program = None if args.verify is None else find_program(args.program)
        paths = DatasetPaths(args.hierarchy, args.network, args.verify, program, args.compare_all, args.towards, dict(args.exclude))
        access = AccessPolicy.from_options(args.allowed_host, args.cors)
        options = Options(access, args.radius, args.max_table_cells, args.profile)
        bind, has_probe = open_sockets(args)
        Application(paths, options, bind, max(args.workers, MIN_WORKERS), has_probe, args.log_places).run()
    except (StartupError, DomethymeError, OSError) as fault:
        sys.exit(f"domethyme-serve: {fault}")
