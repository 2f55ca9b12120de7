"""The service under gunicorn: the arbiter opens the files and forks the workers, which share their memory. At SIGHUP a
child opens the files first, and the arbiter if the child succeeds; if not, the old ones stay in use. gunicorn's settings
are read from GUNICORN_CMD_ARGS, as by its own command, except those that the service depends on (FIXED_SETTINGS)."""
import contextlib
import ctypes
import gc
import logging
import os
import pathlib
import platform
import select
import signal
import socket
import time
from typing import Any, NoReturn

import gunicorn
import gunicorn.arbiter
from gunicorn.app.base import BaseApplication
from gunicorn.sock import close_sockets

from domethyme import DomethymeError

from . import VERSION
from .dataset import DatasetPaths, end_with_parent, open_dataset
from .errors import StartupError
from .log_stream import keep_from_blocking
from .metrics import SharedMetrics
from .slots import Slots
from .worker import END_SIGNALS, Worker
from .wsgi import Options, Service

# Seconds after which gunicorn kills a worker that doesn't report, more than an answer may take; and for the service to end.
TIMEOUT, GRACEFUL_SECONDS = 30, 30
# Generations of workers, one for each load of the files, that can have rows of metrics at once.
MAX_GENERATIONS = 8
M_ARENA_MAX = -8  # (malloc.h)
FIXED_SETTINGS = {
    "worker_class": "domethyme_service.worker.Worker", "preload_app": True, "threads": 1, "timeout": TIMEOUT,
    "daemon": False, "reload": False, "limit_request_line": 0, "limit_request_fields": 100,
    "limit_request_field_size": 8190, "max_requests": 0, "reuse_port": False, "secure_scheme_headers": {},
}
log = logging.getLogger("domethyme_service")


class LoadInterrupted(BaseException):
    """A signal to end came while files were opened."""


class Application(BaseApplication):  # type: ignore[misc] # (gunicorn has no types)
    def __init__(
        self, paths: DatasetPaths, options: Options, bind: list[str], workers: int, has_probe: bool, log_places: bool
    ) -> None:
        """What to serve: the files, the options of answers, gunicorn's `bind`, empty if systemd passes the sockets, the number of
        workers, whether a second socket is for probes, with one more worker, and whether the access log has paths."""
        self.paths, self.options, self.bind = paths, options, bind
        self.workers, self.has_probe, self.log_places = workers + has_probe, has_probe, log_places
        versions = {"version": VERSION, "python": platform.python_version(), "gunicorn": gunicorn.__version__}
        self.metrics = SharedMetrics(1 + MAX_GENERATIONS * self.workers, versions)
        self.slots = Slots(workers)
        self.generation = 0
        # (gunicorn would block on a socket that nobody reads)
        self.notify_socket = os.environ.pop("NOTIFY_SOCKET", "")
        super().__init__()

    def load_config(self) -> None:
        """Sets the settings of the environment, and then those of the service."""
        self.cfg.set("graceful_timeout", GRACEFUL_SECONDS)
        if os.access("/dev/shm", os.W_OK):
            self.cfg.set("worker_tmp_dir", "/dev/shm")
        for name, value in vars(self.cfg.parser().parse_args(self.cfg.get_cmd_args_from_env())).items():
            if value is not None and name != "args":
                self.cfg.set(name, value)
        hooks = {hook.__name__: hook for hook in (pre_fork, child_exit, when_ready, nworkers_changed)}
        for name, value in {**FIXED_SETTINGS, **hooks, "bind": self.bind, "workers": self.workers}.items():
            self.cfg.set(name, value)
        # (a request reads some twenty: as attributes they take a tenth of the time)
        self.cfg.__dict__.update((name, setting.get()) for name, setting in self.cfg.settings.items())

    def load(self, paths: DatasetPaths | None = None) -> Service:
        """Opens the files. Raises StartupError or a DomethymeError."""
        return Service(open_dataset(paths or self.paths), self.options, self.metrics)

    def run(self) -> None:
        """Runs the service; ends the process. Raises StartupError or a DomethymeError if it can't start."""
        if stream := keep_from_blocking():
            stream.on_lost = self.count_lost
        log.parent = logging.getLogger("gunicorn.error")
        log.parent.addFilter(is_no_end_of_worker)
        access_log = logging.getLogger("domethyme_service.access")
        access_log.addHandler(logging.StreamHandler())
        access_log.propagate = False
        Arbiter(self).run()

    def count_lost(self, lines: int) -> None:
        self.metrics.own.log_lines_lost_total += lines


class Arbiter(gunicorn.arbiter.Arbiter):  # type: ignore[misc] # (gunicorn has no types)
    """gunicorn's arbiter, except that it drops no signal, and that it reloads files after a child has opened them."""

    app: Application
    # The pipe to which a child that opens the files writes `ready STAMP`, or the error.
    trial: int | None = None
    wants_reload = is_opening = has_failed = False
    # Unfinished reloads, and the workers of replaced files: a reload is finished when none of these accepts connections.
    pending_reloads, old_workers = 0, list[Worker]()
    LISTENERS: list[Any]

    def setup(self, app: Application) -> None:
        """Prepares the memory for the fork, too: returns what is free, collects none of it, and has one arena of malloc."""
        super().setup(app)
        gc.collect()
        gc.freeze()
        libc = ctypes.CDLL(None)
        libc.mallopt(M_ARENA_MAX, 1)
        libc.malloc_trim(0)

    def signal(self, sig: int, frame: object) -> None:
        """Queues a signal for the main loop, one of each kind. A signal to end interrupts the opening of files."""
        if sig not in self.SIG_QUEUE:
            self.SIG_QUEUE.append(sig)
        self.wakeup()
        if self.is_opening and sig in END_SIGNALS:
            raise LoadInterrupted

    def handle_hup(self) -> None:
        """Has the files opened. A signal that comes meanwhile repeats that afterwards."""
        log.info("reload: the files are read again%s", "" if self.trial is None else " once the reload under way has ended")
        if self.trial is None:
            self.start_trial()
        else:
            self.wants_reload = True

    def start_trial(self) -> None:
        """Has a child open the files; tries again in a second if the kernel refuses one."""
        try:
            self.trial, writes = os.pipe()
            with contextlib.closing(os.fdopen(writes, "wb", buffering=0)):
                if not os.fork():
                    run_trial(self.app, writes)
        except OSError as error:
            if self.trial is not None:
                os.close(self.trial)
            self.trial = None
            if not self.wants_reload:
                self.refuse_reload(f"{error.strerror}: it is tried again")
            self.wants_reload = True
        else:
            self.wants_reload = False

    def handle_ttou(self) -> None:
        """Ends a worker, but not the last one that isn't for probes."""
        if self.num_workers > 1 + self.app.has_probe:
            super().handle_ttou()

    def handle_usr2(self) -> None:
        log.error("SIGUSR2 is not supported: SIGHUP reads the files again, and a restart takes another version")

    def manage_workers(self) -> None:
        """Checks on the workers, a trial, and an unfinished reload. Each worker of the files that are served now is there, or is tried
        again at the next call."""
        if self.trial is not None and select.select([self.trial], [], [], 0)[0]:
            self.end_trial(self.trial)
        if self.trial is None and self.wants_reload:
            self.start_trial()
        # (gunicorn takes out workers that have ended whenever their signal comes, so no loop is over its own table)
        current = sum(worker.generation == self.app.generation for worker in list(self.WORKERS.values()))
        while current < self.num_workers and self.spawn_worker():
            current += 1
        if current >= self.num_workers:
            super().manage_workers()
        self.old_workers = [worker for worker in self.old_workers if worker.pid in self.WORKERS]
        if self.pending_reloads and not any(worker.row.workers for worker in self.old_workers):
            self.app.metrics.own.reloads_total += self.pending_reloads
            self.pending_reloads = 0
            log.info("reloaded, %d nodes", self.app.callable.queries.nodes)

    def end_trial(self, trial: int) -> None:
        """Reloads the files if the child has opened them, or logs its error."""
        with open(trial, "rb", buffering=0) as pipe:
            report = pipe.read(1 << 16).decode("utf-8", "replace")
        self.trial = None
        if report.startswith("ready "):
            self.reload_files(report)
        else:
            self.refuse_reload(report or "the process that opens the files has ended")

    def reload_files(self, report: str) -> None:
        """Opens the files, which a child has checked against the graph, and replaces the workers."""
        self.is_opening = True
        try:
            service = self.app.load(self.app.paths._replace(graph=None))
            if ready_message(service) != report:
                raise StartupError(f"{self.app.paths.hierarchy}: has changed since it was tried")
        except Exception as fault:
            return self.refuse_reload(failure_reason(fault))
        except LoadInterrupted:
            return
        finally:
            self.is_opening = False
        self.old_workers, self.pending_reloads = list(self.WORKERS.values()), self.pending_reloads + 1
        gc.unfreeze()
        # (as many as SIGTTIN and SIGTTOU have left)
        self.app.workers = self.num_workers
        self.app.callable, self.app.generation = service, self.app.generation + 1
        del service
        self.reload()
        self.record_load()

    def record_load(self) -> None:
        own = self.app.metrics.own
        own.last_reload_failed, own.last_reload_timestamp_seconds = 0, time.time()

    def refuse_reload(self, why: str) -> None:
        self.app.metrics.own.reload_failures_total += 1
        self.app.metrics.own.last_reload_failed = 1
        log.error("reload refused: %s", why)

    def spawn_worker(self) -> int:
        """Forks a worker; 0 if the kernel refuses one. Until it handles signals itself those to end it wait: it would take them for the
        arbiter's."""
        signal.pthread_sigmask(signal.SIG_BLOCK, END_SIGNALS)
        try:
            self.has_failed, pid = False, int(super().spawn_worker())
            return pid
        except OSError as error:
            if not self.has_failed:
                log.error("can't start a worker: %s: it is tried again", error.strerror)
            self.has_failed = True
            return 0
        finally:
            signal.pthread_sigmask(signal.SIG_UNBLOCK, END_SIGNALS)

    def murder_workers(self) -> None:
        """Ends workers that don't report, by a clock that nobody sets."""
        for pid, worker in list(self.WORKERS.items()):
            if time.monotonic() - worker.row.reported > self.timeout:
                if not worker.aborted:
                    log.critical("WORKER TIMEOUT (pid:%s)", pid)
                self.kill_worker(pid, signal.SIGKILL if worker.aborted else signal.SIGABRT)
                worker.aborted = True

    def stop(self, graceful: bool = True) -> None:
        """Ends the workers. The path of a unix socket stays, since it may be another service's by now; a start replaces that of a service
        that has ended."""
        close_sockets(self.LISTENERS, unlink=False)
        self.LISTENERS = []
        self.kill_workers(signal.SIGTERM if graceful else signal.SIGQUIT)
        end = time.monotonic() + self.cfg.graceful_timeout
        while self.WORKERS and time.monotonic() < end:
            time.sleep(0.1)
        self.kill_workers(signal.SIGKILL)

    def kill_worker(self, pid: int, sig: int) -> None:
        """Sends a signal to a worker, to end it; SIGABRT if it doesn't report."""
        worker = self.WORKERS.get(pid)
        if sig == signal.SIGABRT:
            self.app.metrics.own.worker_timeouts_total += 1
        elif worker is not None and sig in (signal.SIGTERM, signal.SIGQUIT):
            worker.is_stopping = True
        super().kill_worker(pid, sig)


def is_no_end_of_worker(record: logging.LogRecord) -> bool:
    """Whether a line of gunicorn's isn't its warning that a worker which it has told to end, as at each reload, has ended."""
    args = record.args if isinstance(record.args, tuple) else ()
    return not (record.msg.startswith("Worker with pid") and args[1:] == (signal.SIGTERM,)) if isinstance(record.msg, str) else True


def pre_fork(arbiter: Arbiter, worker: Worker) -> None:
    """Assigns a worker its row of metrics and its socket."""
    app, others = arbiter.app, list(arbiter.WORKERS.values())
    used = {id(other.row) for other in others}
    worker.row = next((row for row in app.metrics.rows[1:] if id(row) not in used), app.metrics.rows[-1])
    worker.slots, worker.log_places, worker.generation = app.slots, app.log_places, app.generation
    worker.row.reported = time.monotonic()
    if app.has_probe:
        worker.is_probe = not any(other.is_probe and other.generation == app.generation for other in others)
        worker.sockets = [arbiter.LISTENERS[worker.is_probe]]


def child_exit(arbiter: Arbiter, worker: Worker) -> None:
    """Counts a worker that ended by itself, which the arbiter replaces."""
    worker.row.process = worker.row.workers = worker.row.requests_waiting = 0
    if not worker.is_stopping:
        arbiter.app.metrics.own.worker_restarts_total += 1
        log.error("worker %s has ended: another one is started", worker.pid)


def nworkers_changed(arbiter: Arbiter, count: int, _before: int | None) -> None:
    """SIGTTIN and SIGTTOU change the slots too."""
    arbiter.app.slots.workers = count - arbiter.app.has_probe


def when_ready(arbiter: Arbiter) -> None:
    """The service listens: logs that, and notifies systemd."""
    arbiter.app.metrics.own.process = os.getpid()
    arbiter.record_load()
    address = str(arbiter.LISTENERS[0])
    url = f"{address}/" if address.startswith("http") else address
    log.info("listens at %s, %d nodes", url, arbiter.app.callable.queries.nodes)
    notify_systemd(arbiter.app.notify_socket)


def ready_message(service: Service) -> str:
    """The report of a trial that succeeded: the states of the hierarchies' files."""
    datasets = [service.dataset, *service.dataset.excluded.values()]
    return f"ready {' '.join(str(number) for each in datasets for number in each.stamp)}"


def failure_reason(error: Exception) -> str:
    """The error of opening files, in one line."""
    kind = "" if isinstance(error, (StartupError, DomethymeError, OSError)) else f"{type(error).__name__}: "
    return " ".join(f"{kind}{error}".split())


def run_trial(app: Application, pipe: int) -> NoReturn:
    """Opens the files in this forked process, writes a report to a pipe, and ends; it ends with the arbiter, too. If memory runs out
    this process is killed before the others."""
    try:
        with contextlib.suppress(OSError):
            pathlib.Path("/proc/self/oom_score_adj").write_text("1000", encoding="ascii")
        for number in (signal.SIGHUP, signal.SIGINT, signal.SIGTERM, signal.SIGCHLD):
            signal.signal(number, signal.SIG_IGN if number == signal.SIGHUP else signal.SIG_DFL)
        end_with_parent()
        try:
            report = ready_message(app.load())
        except Exception as fault:
            report = failure_reason(fault)
        os.write(pipe, report.encode("utf-8", "replace")[:4000])
    finally:
        os._exit(0)


def notify_systemd(name: str) -> None:
    """Tells systemd's notification socket, if there is one, that the service is ready, without blocking."""
    if name[:1] in ("/", "@"):
        with contextlib.suppress(OSError), socket.socket(socket.AF_UNIX, socket.SOCK_DGRAM) as stream:
            stream.setblocking(False)
            stream.sendto(b"READY=1", "\0" + name[1:] if name[0] == "@" else name)
