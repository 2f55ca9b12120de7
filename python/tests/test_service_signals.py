"""The service's signals under a small load: SIGHUP loads a new hierarchy, SIGTERM ends it, and no request is lost."""
import logging
import os
import pathlib
import signal
import socket
from unittest import mock

import pytest
from service_case import NO_END, PATIENT, ServiceCase, changed, workers_of
from tool_case import SECONDS, is_running

import domethyme
from domethyme_service import gunicorn_app
from domethyme_service.dataset import DatasetPaths
from domethyme_service.errors import StartupError
from domethyme_service.gunicorn_app import Application, Arbiter, child_exit
from domethyme_service.metrics import SharedMetrics
from domethyme_service.worker import Worker

pytestmark = pytest.mark.timeout(300)
PATH = "/nodes/length?from=1&to=2"


class SignalTests(ServiceCase):
    def test_a_file_that_changes_behind_its_trial(self):
        """A file that takes the hierarchy's name between the child's trial and the arbiter's opening is refused, though it is right;
        the next reload tries it, and the failed one is over."""
        self.command = changed("""
load = gunicorn_app.Application.load
def late(app, paths=None):
    if paths is not None and os.path.exists(app.paths.hierarchy + ".new"):
        os.replace(app.paths.hierarchy + ".new", app.paths.hierarchy)
    return load(app, paths)
gunicorn_app.Application.load = late
""")
        process = self.serve()
        old = self.ask(PATH)[1]["length"]
        (self.folder / "kept").write_bytes((self.folder / "v.rch").read_bytes())
        self.prepare(2)
        os.replace(self.folder / "v.rch", self.folder / "v.rch.new")
        os.replace(self.folder / "kept", self.folder / "v.rch")
        for factor, says, failed in ((1, "v.rch: has changed since it was tried", 1), (2, "", 0)):
            self.reload(process, says)
            self.assertEqual(self.ask(PATH)[1]["length"], factor * old)
            self.wait_for(lambda failed=failed: self.value("last_reload_failed") == failed)
        self.assertEqual(self.value("reload_failures_total"), 1)

    def test_a_hierarchy_that_is_checked(self):
        """A hierarchy that is right for its graph is served; one of other weights is rejected, at a reload and at a start."""
        right = self.folder / "right.gr"
        right.write_bytes((self.folder / "v.gr").read_bytes())
        process = self.serve("--verify", right)
        old = self.ask(PATH)
        self.prepare(2)
        self.reload(process, "reload refused: .*v.rch: not shown: bound")
        self.assertEqual(self.ask(PATH), old)
        ended = self.run_tool("domethyme-serve", "v.rch", "--port", "0", "--verify", right, status=1)
        self.assertIn("v.rch: not shown: bound", ended.stderr)
        # (the program reads it as an open descriptor, which messages don't name)
        self.assertNotIn("/proc/", ended.stderr + "".join(self.said))

    def test_a_signal_while_a_reload_is_under_way(self):
        """The log reports that it waits; a running check ends with the service, however that ends."""
        fast, checking = self.folder / "fast", self.folder / "checking"
        slow = self.write("slow", f'#!/bin/sh\n[ -e {fast} ] && exec {domethyme.find_program()} "$@"\necho $$ >{checking}\nexec sleep 600\n')
        slow.chmod(0o755)
        for number in (signal.SIGTERM, signal.SIGKILL):
            fast.touch()
            process = self.serve("--verify", self.folder / "v.gr", "--program", slow)
            fast.unlink()
            checking.unlink(missing_ok=True)
            process.send_signal(signal.SIGHUP)
            self.wait_for(lambda: checking.exists() and checking.read_text().strip())
            self.wait_for(lambda: self.says("reload: the files are read again\n"))
            self.reload(process, "are read again once the reload under way has ended")
            check = int(checking.read_text())
            self.assertTrue(is_running(check))
            self.assertEqual(pathlib.Path(f"/proc/{check}/oom_score_adj").read_text(), "1000\n")
            process.send_signal(number)
            self.wait_for(lambda: not is_running(check))

    def test_sigterm_answers_accepted_requests(self):
        """Accepted requests are answered; a connection in the backlog is reset or refused."""
        self.command = PATIENT
        process = self.serve(environment=NO_END)
        with self.asking({(PATH,): [self.ask(PATH)]}) as clients:
            self.wait_for(lambda: all(client.right > 1 for client in clients))
            self.stop(process)
        lost = {type(why) for client in clients for _, why in client.lost}
        self.assertLessEqual(lost, {ConnectionResetError, ConnectionRefusedError})

    def test_workers_that_begin_at_the_end(self):
        """A worker that doesn't handle signals yet when the service ends, ends with it."""
        script = "own = worker.Worker.init_signals\nworker.Worker.init_signals = lambda self: time.sleep(1) or own(self)"
        self.command = changed(script)
        self.stop(self.serve(environment=NO_END))

    def test_an_idle_connection_does_not_hold_up_the_end(self):
        """One that a worker has accepted, and whose head it waits for."""
        peeked = self.folder / "peeked"
        script = f"own, peeked = worker.peek_head, pathlib.Path({str(peeked)!r})\n"
        self.command = changed(f"{script}worker.peek_head = lambda client: (own(client), peeked.touch())[0]")
        process = self.serve(environment=NO_END)
        with socket.create_connection(("127.0.0.1", self.port), SECONDS) as idle:
            idle.sendall(b"GET")
            self.wait_for(peeked.exists)
            self.stop(process)

    def test_workers(self):
        """A worker that is killed is replaced; SIGHUP and SIGTERM reach all; SIGTTIN and SIGTTOU change their number. What all have
        counted stays."""
        process = self.serve()
        workers = workers_of(process)
        self.assertEqual(len(workers), 4)
        old = [self.ask(PATH)[1]["length"] for _ in range(30)][0]
        name = 'requests_total{endpoint="/nodes/length",status="200"}'
        self.wait_for(lambda: self.value(name) == 30)
        self.assertEqual({self.value(name) for _ in range(12)}, {30})
        os.kill(workers[0], signal.SIGKILL)
        self.wait_for(lambda: self.says(f"worker {workers[0]} has ended: another one is started"))
        self.wait_for(lambda: self.value("workers") == 4)
        self.assertEqual(self.value("worker_restarts_total"), 1)
        for number, count in ((signal.SIGTTIN, 5), (signal.SIGTTOU, 4)):
            process.send_signal(number)
            self.wait_for(lambda count=count: self.value("workers") == count)
        opened = self.value("last_reload_timestamp_seconds")
        self.prepare(2)
        self.reload(process)
        self.assertGreater(self.value("last_reload_timestamp_seconds"), opened)
        self.assertEqual((self.value(name), self.value("reloads_total")), (30, 1))
        self.assertEqual({self.ask(PATH)[1]["length"] for _ in range(20)}, {2 * old})
        self.wait_for(lambda: len(workers_of(process)) == 4)
        self.assertEqual(self.value("worker_restarts_total"), 1)
        workers = workers_of(process)
        self.stop(process)
        self.assertFalse(any(pathlib.Path(f"/proc/{number}").exists() for number in workers))

    def test_the_worker_for_probes_stays(self):
        """SIGTTOU ends other workers, but the last one: before workers are replaced, after it, and after a reload."""
        process = self.serve("--bind", f"unix:{self.folder}/serve.sock")
        self.wait_for(lambda: len(workers_of(process)) == 5)
        for round_ in range(3):
            for _ in range(4):
                count = len(workers_of(process))
                process.send_signal(signal.SIGTTOU)
                self.wait_for(lambda: len(workers_of(process)) == max(2, count - 1))
                self.assertEqual([self.health(name) for name in ("serve.sock", "serve.sock.probe")], [b"200", b"200"])
            for count in range(3, 7 - round_):  # (which a reload leaves)
                process.send_signal(signal.SIGTTIN)
                self.wait_for(lambda: len(workers_of(process)) == count)
            self.reload(process)
            self.wait_for(lambda: len(workers_of(process)) == count)

    def test_a_socket_that_is_in_use(self):
        """Another service refuses it, and takes one that is left behind. Where its path has gone it makes its own, which the end of
        the first one leaves alone. It drops fields whose names gunicorn would take for others."""
        path = self.folder / "serve.sock"
        first = self.serve("--bind", f"unix:{path}")
        said = self.run_tool("domethyme-serve", "v.rch", "--bind", f"unix:{path}", status=1).stderr
        self.assertIn(f"can't listen at unix:{path}: another service does", said)
        for each in (path, self.folder / "serve.sock.probe"):
            each.unlink()
        second = self.serve("--bind", f"unix:{path}")
        self.stop(first)
        self.assertEqual(self.health("serve.sock", "SCRIPT_NAME: /x\r\nX_Y: 1\r\n"), b"200")
        second.kill()
        second.wait()
        self.assertTrue(path.is_socket())
        self.serve("--bind", f"unix:{path}")

    def health(self, name, fields=""):
        """The status of /health at a unix socket."""
        with socket.socket(socket.AF_UNIX) as stream:
            stream.settimeout(SECONDS)
            stream.connect(str(self.folder / name))
            stream.sendall(f"GET /health HTTP/1.1\r\nHost: x\r\n{fields}\r\n".encode())
            return stream.makefile("rb").readline().split()[1]


def test_settings_of_gunicorn(monkeypatch):
    """Those of docs/OPERATING.md, some of which the environment changes."""
    for more, seconds in (("", 30), ("--graceful-timeout 9", 9)):
        monkeypatch.setenv("GUNICORN_CMD_ARGS", f"--timeout 5 --worker-class gthread --workers 9 --bind :1 --backlog 7 {more}")
        monkeypatch.setenv("NOTIFY_SOCKET", "/notify")
        app = Application(DatasetPaths("v.rch", None), None, ["fd://9"], 4, True, False)
        cfg = app.cfg
        assert (cfg.timeout, cfg.workers, cfg.bind, cfg.backlog, cfg.graceful_timeout) == (30, 5, ["fd://9"], 7, seconds)
        assert cfg.worker_class is Worker and cfg.preload_app and app.slots.workers == 4
        cfg.nworkers_changed(mock.Mock(app=app), 3, 5)
        # (where gunicorn would wait for a reader)
        assert (app.notify_socket, os.environ.get("NOTIFY_SOCKET"), app.slots.workers) == ("/notify", None, 2)


@pytest.fixture
def arbiter():
    """An arbiter without processes, with two workers."""
    found = Arbiter.__new__(Arbiter)
    found.app, found.wakeup, found.SIG_QUEUE = mock.Mock(metrics=SharedMetrics(3)), mock.Mock(), []
    found.WORKERS = {number: Worker.__new__(Worker) for number in (1 << 23, 2 << 23)}
    found._num_workers, found.app.generation, found._last_logged_active_worker_count = 2, 0, 2
    for worker, row in zip(found.WORKERS.values(), found.app.metrics.rows[1:]):
        worker.row, worker.pid, worker.age = row, 0, 1
        row.process = row.workers = row.requests_waiting = 3
    return found


@pytest.mark.parametrize("report, says", [(b"", "the process that opens the files has ended"), (b"v.rch: \xff", "v.rch: \ufffd")])
def test_a_trial_that_has_ended(arbiter, caplog, report, says):
    """Also if it was killed the log and the metrics say why, and the files stay. A signal that came meanwhile begins another."""
    arbiter.trial, writes = os.pipe()
    arbiter.start_trial, own = mock.Mock(), arbiter.app.metrics.own
    arbiter.handle_hup()
    arbiter.manage_workers()
    assert not arbiter.start_trial.called
    os.write(writes, report)
    os.close(writes)
    arbiter.manage_workers()
    arbiter.start_trial.assert_called_once_with()
    assert (own.last_reload_failed, own.reload_failures_total, own.last_reload_timestamp_seconds) == (1, 1, 0)
    assert (caplog.messages[-1], arbiter.app.load.called, arbiter.trial) == (f"reload refused: {says}", False, None)


def test_signals_while_files_are_opened(arbiter):
    """One to end interrupts that, which is no failure; others wait, one of each kind."""
    for _ in range(2):
        arbiter.signal(signal.SIGTERM, None)

    def load(_paths):
        arbiter.signal(signal.SIGHUP, None)
        arbiter.signal(signal.SIGINT, None)

    arbiter.app.load = load
    arbiter.reload_files("ready 1")
    assert arbiter.SIG_QUEUE == [signal.SIGTERM, signal.SIGHUP, signal.SIGINT]
    assert (arbiter.is_opening, arbiter.app.metrics.own.reload_failures_total) == (False, 0)


@pytest.mark.parametrize("graceful, number", [(True, signal.SIGTERM), (False, signal.SIGQUIT)])
def test_how_workers_end(arbiter, graceful, number):
    """By SIGTERM, or at once by SIGQUIT, and else by SIGKILL. Only one that nobody has ended is counted as a restart."""
    arbiter.cfg, killed = mock.Mock(graceful_timeout=0), []
    child_exit(arbiter, next(iter(arbiter.WORKERS.values())))
    with mock.patch("os.kill", lambda *words: killed.append(words)):
        arbiter.stop(graceful)
    assert killed == [(pid, each) for each in (number, signal.SIGKILL) for pid in arbiter.WORKERS]
    for worker in arbiter.WORKERS.values():
        child_exit(arbiter, worker)
        assert (worker.row.process, worker.row.workers, worker.row.requests_waiting) == (0, 0, 0)
    assert arbiter.app.metrics.own.worker_restarts_total == 1


@pytest.mark.parametrize("number", [signal.SIGTERM, signal.SIGKILL])
def test_lines_of_gunicorn(number):
    """It warns of workers that have ended, though it has told them to end."""
    record = logging.makeLogRecord({"msg": "Worker with pid %s was terminated due to signal %s", "args": (1, number)})
    assert gunicorn_app.is_no_end_of_worker(record) == (number != signal.SIGTERM)


@pytest.mark.parametrize("name", ["{}/notify", "@{}/notify"])
def test_systemd_is_told(tmp_path, name):
    """Also if nobody reads that, so often that its socket is full."""
    with socket.socket(socket.AF_UNIX, socket.SOCK_DGRAM) as stream:
        stream.bind(name.format(tmp_path).replace("@", "\0"))
        for _ in range(1000):
            gunicorn_app.notify_systemd(name.format(tmp_path))
        assert stream.recv(100, socket.MSG_DONTWAIT) == b"READY=1"


def test_what_a_trial_reports():
    """The state of each hierarchy; an error in one line, with the kind of one that isn't expected."""
    def stamped(*stamps):
        return mock.Mock(dataset=mock.Mock(stamp=stamps[0], excluded={each: mock.Mock(stamp=each) for each in stamps[1:]}))

    assert gunicorn_app.ready_message(stamped((1, 2), (3, 4))) == "ready 1 2 3 4"
    for error, text in ((StartupError("a\n  b"), "a b"), (OSError(2, "x"), "[Errno 2] x"), (KeyError("a"), "KeyError: 'a'")):
        assert gunicorn_app.failure_reason(error) == text
