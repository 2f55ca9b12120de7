"""A sync worker of gunicorn that doesn't block on slow clients: it reads a request once its head has arrived, and answers it once the
slots that it needs are free. It ends an answer that takes too long, counts and logs requests, and reports HTTP errors as JSON."""
import contextlib
import ctypes
import dataclasses
import datetime
import enum
import json
import logging
import math
import os
import re
import resource
import select
import signal
import socket
import time
from collections.abc import Iterable, Iterator
from typing import Any, NamedTuple

from gunicorn.http import RequestParser, wsgi
from gunicorn.http.errors import NoMoreData
from gunicorn.workers.sync import SyncWorker

from .costs import NeedsSlot
from .dataset import end_with_parent
from .errors import RequestError, malformed
from .handlers import JSON, Environ
from .metrics import Row
from .slots import Client, Slots, client_of
from .wsgi import STATUS_LINES, Service, StartResponse

# Seconds for a head and a short body to arrive. Those for an answer, for one to a long request, or for a block of a batch, are a net: an
# answer ends by what it costs (costs) long before.
HEAD_SECONDS, ANSWER_SECONDS, LONG_SECONDS = 10.0, 10.0, 25.0
# Seconds for which a request waits for slots, and between two tries.
SLOT_SECONDS, SLOT_POLL_SECONDS = 5.0, 0.01
# Seconds for connections to send their heads when the worker ends, and to close after an answer.
DRAIN_SECONDS, LINGER_SECONDS = 1.0, 2.0
# Seconds to wait for the head of a new connection before others are served.
FIRST_WAIT_SECONDS = 0.002
# Bytes of a head and of its first line; and of a body that is read with its head.
MAX_HEAD, MAX_LINE, SHORT_BODY = 1 << 17, 65_600, 2048
# Connections of a worker that may wait for their heads; and requests that may wait for slots, half of them of one client.
MAX_WAITING, MAX_QUEUE = min(500, resource.getrlimit(resource.RLIMIT_NOFILE)[0] // 4), 64
# Bytes of an answer after which memory is returned to the kernel, as it is after a long request.
LARGE_ANSWER = 8 << 20
LIBC = ctypes.CDLL(None)
# The control characters that a head may not contain.
CONTROL_CHARACTERS = bytes([*range(9), 11, 12, *range(14, 32), 127])
END_SIGNALS = (signal.SIGTERM, signal.SIGINT, signal.SIGQUIT)
BODY_LENGTH = re.compile(rb"\ncontent-length:[ \t]*([0-9]{1,4})[ \t]*\r")
HANGUP_EVENTS = select.EPOLLRDHUP | select.EPOLLHUP | select.EPOLLERR
access_log, log = logging.getLogger("domethyme_service.access"), logging.getLogger("domethyme_service")


class AnswerTimeout(BaseException):
    """An answer has taken too long."""


class HeadState(enum.Enum):
    """What has arrived: the head and a short body, a part of them, nothing (the client has closed), an invalid head."""

    WHOLE, PARTIAL, CLOSED, MALFORMED = range(4)


class Answer(NamedTuple):
    """An answer that is written: gunicorn's response, WSGI's environ, the blocks of the body that are left, and whether each of these is
    written in a turn of its own."""

    response: Any
    environ: Environ
    blocks: Iterator[bytes]
    is_in_blocks: bool


@dataclasses.dataclass(eq=False)
class Connection:
    """A socket, the address of its other end, and until when it may wait. Once its request was read: that, whose it is, and whether it is
    a long one, and when that was. Once it is answered: WSGI's environ, the answer, and when its next block may be written."""

    client: socket.socket
    address: Any
    deadline: float
    request: Any = None
    owner: Client = Client()
    is_long: bool = False
    started: float = 0.0
    environ: Environ = dataclasses.field(default_factory=dict)
    answer: Answer | None = None
    earliest: float = 0.0


class BufferedHead:
    """A socket that sends the head of an answer together with the first part of the body. That saves a system call, and if the
    worker is killed before the body, nothing was sent, so nginx can repeat the request."""

    def __init__(self, client: socket.socket) -> None:
        self._client = client
        self._head: bytes | None = None

    def __getattr__(self, name: str) -> Any:
        return getattr(self._client, name)

    def sendall(self, data: bytes) -> None:
        if self._head is None:
            self._head = data
        else:  # (without a copy, for an answer may be long)
            head, self._head = self._head, b""
            sent = self._client.sendmsg([head, data])
            if sent < len(head):
                self._client.sendall(head[sent:])
            if sent < len(head) + len(data):
                self._client.sendall(memoryview(data)[max(0, sent - len(head)) :])

    def flush(self) -> None:
        """Sends the head of an answer without a body."""
        if self._head:
            self._client.sendall(self._head)


class Worker(SyncWorker):  # type: ignore[misc] # (gunicorn has no types)
    """A worker. Before the fork the arbiter sets its metrics, the slots of all, and whether the access log has paths. What isn't set
    here or there, as cfg, sockets, alive and PIPE, is gunicorn's; so are the names init_process, init_signals, load_wsgi, run, notify and
    age, which it calls or reads."""

    row: Row
    slots: Slots
    log_places = False
    # Of the arbiter: which load of the files it serves, whether it answers probes, and whether it was sent a signal to end.
    generation, is_probe, is_stopping = 0, False, False

    @property
    def age(self) -> tuple[int, bool, int]:
        """The arbiter ends workers of the least age: those of replaced files first, and the one for probes behind others of its files."""
        return self.generation, self.is_probe, self._age

    @age.setter
    def age(self, number: int) -> None:
        self._age = number

    def init_process(self) -> None:
        """In the new process: has it end with the arbiter, and count in its own row. (If the kernel refuses what it needs it is replaced:
        gunicorn would end the whole service for one that can't boot.)"""
        self.booted = True
        end_with_parent(signal.SIGTERM)
        self.row.process, self.app.metrics.own = os.getpid(), self.row
        self.awaiting_head: dict[int, Connection] = {}
        self.lingering: dict[int, Connection] = {}
        self.queue: list[Connection] = []
        self.seconds = 0.0
        super().init_process()

    def init_signals(self) -> None:
        super().init_signals()
        signal.signal(signal.SIGALRM, self.handle_alarm)
        signal.pthread_sigmask(signal.SIG_UNBLOCK, END_SIGNALS)

    def handle_alarm(self, _number: int, _frame: object) -> None:
        if self.seconds:
            raise AnswerTimeout

    def load_wsgi(self) -> None:
        self.service: Service = self.app.wsgi()
        self.service.meter.tick = self.tick

    def run(self) -> None:
        """Answers requests until a signal to end, and then those of open connections."""
        listener, self.epoll = self.sockets[0], select.epoll()
        self.epoll.register(self.PIPE[0], select.EPOLLIN)
        self.epoll.register(listener, select.EPOLLIN | select.EPOLLEXCLUSIVE)
        listener.setblocking(False)
        self.row.workers = 1
        while self.alive and self.is_parent_alive():
            has_served = self.take_turn()
            has_accepted = self.accept(listener)
            if self.awaiting_head or self.lingering or not has_accepted:
                self.poll(0.0 if has_accepted or has_served else 1.0)
        self.row.workers = 0
        self.epoll.unregister(listener)
        end = time.monotonic() + DRAIN_SECONDS
        while self.queue or (self.awaiting_head or self.lingering) and time.monotonic() < end:
            self.poll(0.0 if self.take_turn() else SLOT_POLL_SECONDS)

    def accept(self, listener: Any) -> bool:
        """Accepts a connection; returns whether there was one."""
        if len(self.awaiting_head) >= MAX_WAITING:
            oldest = self.stop_waiting(next(iter(self.awaiting_head)))
            self.reject(oldest, RequestError(503, "Overloaded", "too many connections"))
        try:
            client, address = listener.accept()
        except (BlockingIOError, ConnectionAbortedError):
            return False
        except OSError as error:  # (no descriptors, or no memory for one)
            log.error("can't accept connections: %s", error.strerror)
            time.sleep(1.0)
            return False
        connection = Connection(client, address, time.monotonic() + HEAD_SECONDS)
        # (of many at once none is waited for)
        client.settimeout(0.0 if self.awaiting_head else FIRST_WAIT_SECONDS)
        head = peek_head(client)
        client.setblocking(True)
        if head is HeadState.PARTIAL:
            self.awaiting_head[client.fileno()] = connection
            self.epoll.register(client, select.EPOLLIN | select.EPOLLRDHUP | select.EPOLLET)
        else:
            self.read_request(connection, head)
        return True

    def poll(self, seconds: float) -> None:
        """Waits for new connections, data of open ones, and signals."""
        for number, events in self.epoll.poll(min(seconds, SLOT_POLL_SECONDS) if self.queue else seconds):
            if number == self.PIPE[0]:
                os.read(number, 4096)
            elif number in self.awaiting_head:
                head = peek_head(self.awaiting_head[number].client)
                if head is not HeadState.PARTIAL or events & HANGUP_EVENTS:
                    self.read_request(self.stop_waiting(number), HeadState.CLOSED if head is HeadState.PARTIAL else head)
            elif number in self.lingering and not discard(self.lingering[number].client):
                self.lingering.pop(number).client.close()

    def stop_waiting(self, number: int) -> Connection:
        self.epoll.unregister(number)
        return self.awaiting_head.pop(number)

    def notify(self) -> None:
        self.row.reported = time.monotonic()

    def take_turn(self) -> bool:
        """Reports that the worker is alive, rejects what is late, and answers one request that has waited, or a block of it, if its
        slots are free; returns whether there was one."""
        self.tick()
        now = time.monotonic()
        while self.awaiting_head and (first := next(iter(self.awaiting_head.items())))[1].deadline < now:
            late = self.stop_waiting(first[0])
            self.reject(late, RequestError(408, "Timeout", "the request's head has not come whole"))
        while self.lingering and (first := next(iter(self.lingering.items())))[1].deadline < now:
            self.lingering.pop(first[0]).client.close()
        refused = set[tuple[Client, bool]]()
        for connection in self.queue:
            needs = connection.owner, connection.is_long
            if needs not in refused and connection.earliest <= now and not self.is_held_up(connection):
                if self.slots.acquire(*needs):
                    self.queue.remove(connection)
                    self.serve(connection)
                    return True
                refused.add(needs)
        return False

    def is_held_up(self, connection: Connection) -> bool:
        """Whether it is a long batch that hasn't begun, and another one is under way: a worker has the lines of one in memory."""
        is_batch = connection.is_long and connection.request.method == "POST" and connection.answer is None
        return is_batch and any(each.answer for each in self.queue)

    def tick(self) -> None:
        """Reports that the worker is alive, and rejects requests that have waited too long: also while it answers another one."""
        self.notify()
        now = time.monotonic()
        for late in [each for each in self.queue if each.deadline < now]:
            self.queue.remove(late)
            self.refuse(late)

    def read_request(self, connection: Connection, head: HeadState) -> None:
        """Reads the head of a request, and answers or queues it."""
        if head is not HeadState.WHOLE:
            return connection.client.close() if head is HeadState.CLOSED else self.reject(connection, malformed())
        try:
            request = next(RequestParser(self.cfg, connection.client, connection.address))
        except (NoMoreData, StopIteration, OSError):
            return connection.client.close()
        except Exception:  # (gunicorn's errors of heads have no common class)
            return self.reject(connection, malformed())
        # (as nginx does: gunicorn takes SCRIPT_NAME, and X_Y for X-Y)
        request.headers = [(name, value) for name, value in request.headers if "_" not in name]
        connection.request, connection.started = request, time.monotonic()
        connection.deadline = connection.started + SLOT_SECONDS
        connection.owner = Client() if self.is_probe else client_of(connection.address, request.headers)
        self.serve_or_queue(connection)

    def serve_or_queue(self, connection: Connection) -> None:
        """Answers a request if its slots are free, and nothing holds it up. Else it waits, or is refused if too many do."""
        waiting = [each for each in self.queue if each.answer is None]
        is_first = not any((each.owner, each.is_long) == (connection.owner, connection.is_long) for each in waiting)
        if is_first and not self.is_held_up(connection) and self.slots.acquire(connection.owner, connection.is_long):
            self.serve(connection)
        elif len(waiting) >= MAX_QUEUE or sum(each.owner == connection.owner for each in waiting) >= MAX_QUEUE // 2:
            self.refuse(connection)
        else:
            self.queue.append(connection)
            self.row.requests_waiting = len(waiting) + 1

    def refuse(self, connection: Connection) -> None:
        """Rejects a request that has waited too long, or among too many."""
        self.row.long_requests_refused_total += connection.is_long
        self.row.requests_waiting = sum(each.answer is None for each in self.queue)
        kind = "long requests" if connection.is_long else "requests"
        self.reject(connection, RequestError(503, "Overloaded", f"too many {kind} at once"))

    def serve(self, connection: Connection) -> None:
        """Answers a request that has its slots, or one block of it, and frees them. If it turns out to be a long one it waits for
        a slot, as for the next block."""
        self.row.requests_waiting = sum(each.answer is None for each in self.queue)
        self.set_alarm(LONG_SECONDS if connection.is_long else ANSWER_SECONDS)
        needs_slot, is_over = False, True
        try:
            connection.answer = connection.answer or self.begin(connection)
            is_over = self.write(connection.answer)
        except NeedsSlot:
            needs_slot, is_over = True, False
        except OSError:  # (the client has gone)
            pass
        except AnswerTimeout:
            self.end_after_alarm()
        except Exception:
            log.exception("error while answering")
            if connection.answer is None or not connection.answer.response.headers_sent:
                send_error(connection.client, RequestError(500, "InternalError", "an error inside"))
        finally:
            self.set_alarm(0.0)
            self.slots.release()
            if is_over:
                self.end(connection)
        if needs_slot:
            connection.is_long = True
            self.serve_or_queue(connection)
        elif not is_over:
            is_asked_for = any(row.requests_waiting for row in self.app.metrics.rows)
            connection.deadline = math.inf
            connection.earliest = time.monotonic() + 2 * SLOT_POLL_SECONDS if is_asked_for else 0.0
            self.queue.append(connection)

    def begin(self, connection: Connection) -> Answer:
        """Begins to answer a request. Raises NeedsSlot if it needs a slot and has none."""
        sender = BufferedHead(connection.client)
        if connection.environ:
            response = wsgi.Response(connection.request, sender, self.cfg)
        else:
            local = self.sockets[0].getsockname()
            response, connection.environ = wsgi.create(connection.request, sender, connection.address, local, self.cfg)
        response.force_close()
        connection.environ["domethyme.has_slot"] = connection.is_long
        blocks = self.answer(connection.environ, response.start_response)
        return Answer(response, connection.environ, iter(blocks), not isinstance(blocks, list))

    def write(self, answer: Answer) -> bool:
        """Writes an answer, or the next block of one in blocks; returns whether it is whole."""
        for block in answer.blocks:
            answer.response.write(block)
            if answer.is_in_blocks:
                return False
        answer.response.close()
        answer.response.sock.flush()
        return True

    def end(self, connection: Connection) -> None:
        """Counts and logs an answer, and closes its connection."""
        response = None if connection.answer is None else connection.answer.response
        self.record(connection, response)
        if connection.is_long or response is not None and response.sent > LARGE_ANSWER:
            connection.answer, connection.environ = None, {}
            LIBC.malloc_trim(0)
        is_plain = connection.request.method in ("GET", "HEAD") and not connection.is_long
        connection.client.close() if is_plain else self.linger(connection)

    def answer(self, environ: Environ, start_response: StartResponse) -> Iterable[bytes]:
        """The WSGI application. An answer that takes too long is 504, and ends the worker: resources may be lost."""
        heads: list[tuple[object, ...]] = []
        try:
            blocks = self.service(environ, lambda *head: heads.append(head))
        except AnswerTimeout:
            self.end_after_alarm()
            error = RequestError(504, "Timeout", f"the answer took more than {self.seconds:g} s")
            blocks = self.service.error_response(environ, lambda *head: heads.append(head), error)
        start_response(*heads[-1])
        return blocks

    def set_alarm(self, seconds: float) -> None:
        """Sets the time limit of an answer; 0 for none."""
        self.seconds = seconds
        signal.setitimer(signal.ITIMER_REAL, seconds)

    def end_after_alarm(self) -> None:
        self.row.requests_cancelled_total += 1
        self.alive = False

    def reject(self, connection: Connection, error: RequestError) -> None:
        """Sends an error in place of an answer, discards what has arrived, and closes."""
        connection.environ["domethyme.error"] = error
        self.record(connection, None, error.status)
        discard(connection.client)
        send_error(connection.client, error)
        connection.client.close() if connection.request is None else self.linger(connection)

    def linger(self, connection: Connection) -> None:
        """Closes a connection after its client has, or some seconds later: with unread data it would be reset."""
        try:
            connection.client.shutdown(socket.SHUT_WR)
            connection.deadline, connection.answer = time.monotonic() + LINGER_SECONDS, None
            self.lingering[connection.client.fileno()] = connection
            self.epoll.register(connection.client, select.EPOLLIN | select.EPOLLRDHUP)
        except OSError:
            connection.client.close()

    def record(self, connection: Connection, response: Any, status: int = 500) -> None:
        """Counts and logs an answer that was written, or broken off, or an error of this status in its place."""
        environ, request = connection.environ, connection.request
        seconds = 0.0 if request is None else time.monotonic() - connection.started
        endpoint = environ.get("domethyme.endpoint", "other")
        if response is not None:
            status = response.status_code
            self.log.access(response, request, environ, datetime.timedelta(seconds=seconds))
        self.row.count(endpoint, status, seconds)
        if not access_log.isEnabledFor(logging.INFO):
            return
        now = datetime.datetime.now(datetime.timezone.utc).isoformat(timespec="milliseconds").replace("+00:00", "Z")
        line = {"time": now, "method": request and request.method, "endpoint": endpoint, "status": status}
        line |= {"bytes": response.sent if response is not None else 0, "milliseconds": round(1000 * seconds, 3)}
        error: RequestError | None = environ.get("domethyme.error")
        if error is not None:
            line["error"] = error.code
        if self.log_places:
            is_tcp, headers = isinstance(connection.address, tuple), [] if request is None else request.headers
            line |= {"path": request and request.uri, "remote": connection.address[0] if is_tcp else dict(headers).get("X-REAL-IP")}
            line |= {} if error is None else {"message": error.message}
        access_log.info(json.dumps(line))


def peek_head(client: socket.socket) -> HeadState:
    """What has arrived of a request, which isn't consumed."""
    try:
        received = client.recv(MAX_HEAD, socket.MSG_PEEK | socket.MSG_DONTWAIT)
    except (BlockingIOError, TimeoutError):
        return HeadState.PARTIAL
    except OSError:
        return HeadState.CLOSED
    return classify_head(received) if received else HeadState.CLOSED


def classify_head(received: bytes) -> HeadState:
    """What was received. RFC 9112 lets a server reject a control character, a CR or an LF alone, and a folded line."""
    end = received.find(b"\r\n\r\n")
    head = received.removesuffix(b"\r") if end < 0 else received[: end + 4]
    lines = head.count(b"\r\n")
    has_control = len(head.translate(None, CONTROL_CHARACTERS)) < len(head)
    is_folded = b"\n " in head or b"\n\t" in head
    if has_control or is_folded or not head.count(b"\r") == lines == head.count(b"\n"):
        return HeadState.MALFORMED
    if end < 0:
        is_too_long = len(received) == MAX_HEAD or not lines and len(received) > MAX_LINE
        return HeadState.MALFORMED if is_too_long else HeadState.PARTIAL
    lowered = head.lower()
    length = BODY_LENGTH.search(lowered)
    if length is None or int(length[1]) > SHORT_BODY or len(received) - end - 4 >= int(length[1]):
        return HeadState.WHOLE
    # (one with several lengths is refused by gunicorn, which says `100 Continue` to who waits for that)
    is_read_now = b"\ntransfer-encoding" in lowered or b"\nexpect" in lowered or lowered.count(b"\ncontent-length") > 1
    return HeadState.WHOLE if is_read_now else HeadState.PARTIAL


def send_error(client: socket.socket, error: RequestError) -> None:
    """Sends a complete error response."""
    body = error.json()
    headers = {"Content-Type": JSON, "Content-Length": len(body), "Connection": "close", **error.headers}
    lines = [f"HTTP/1.1 {STATUS_LINES[error.status]}", *(f"{name}: {value}" for name, value in headers.items())]
    with contextlib.suppress(OSError):
        client.send("\r\n".join([*lines, "", body]).encode())


def discard(client: socket.socket) -> bool:
    """Discards what has arrived, at most 4 MiB; returns whether more may arrive."""
    try:
        return all(client.recv(1 << 16, socket.MSG_DONTWAIT) for _ in range(64))
    except BlockingIOError:
        return True
    except OSError:
        return False
