"""Metrics of the whole service, in Prometheus' text format 0.0.4. Labels are names of endpoints, never paths. All processes share
one block of memory, in which each has a row of its own, so the counts of a process remain after its end."""
import bisect
import ctypes
import itertools
import mmap
import os
import pathlib
from collections.abc import Iterator
from typing import NamedTuple

import numpy as np

from .endpoints import ENDPOINTS

BUCKETS = (0.001, 0.0025, 0.005, 0.01, 0.025, 0.05, 0.1, 0.25, 0.5, 1.0, 2.5, 5.0, 10.0, 30.0)
STATUSES = (200, 204, 400, 403, 404, 405, 408, 411, 413, 415, 421, 500, 503, 504, 505)
ENDPOINT_NAMES = (*(endpoint.name for endpoint in ENDPOINTS), "other")
PAGE_SIZE = os.sysconf("SC_PAGE_SIZE")


class Metric(NamedTuple):
    """A metric without labels. Its name is without `domethyme_`."""

    name: str
    kind: str
    help: str


METRICS = (
    Metric("workers", "gauge", "Processes that accept connections."),
    Metric("last_reload_failed", "gauge", "1 if the last reload was refused, else 0."),
    Metric("last_reload_timestamp_seconds", "gauge", "When the files were opened that are served, in seconds since 1970."),
    Metric("nodes", "gauge", "Nodes of the hierarchy."),
    Metric("resident_memory_bytes", "gauge", "Resident memory of the largest process; the processes share most of it."),
    Metric("queries_total", "counter", "Queries to the hierarchy."),
    Metric("worker_restarts_total", "counter", "Workers that were replaced since they had ended."),
    Metric("worker_timeouts_total", "counter", "Workers that were killed since they were silent."),
    Metric("reloads_total", "counter", "Reloads of the files."),
    Metric("reload_failures_total", "counter", "Reloads that were refused."),
    Metric("requests_cancelled_total", "counter", "Requests that were ended since they took too long."),
    Metric("requests_waiting", "gauge", "Requests that wait for slots."),
    Metric("log_lines_lost_total", "counter", "Lines for standard error that were lost since nobody read it."),
    Metric("long_requests_refused_total", "counter", "Long requests that were refused since too many were under way."),
)


class Row(ctypes.Structure):
    """The metrics of one process, its number, and when it reported that it is alive (time.monotonic); and by endpoint its answers by
    status, by bucket of times, and the sum of times."""

    _fields_ = [
        *((name, ctypes.c_double) for name in ("process", "reported", *(metric.name for metric in METRICS))),
        ("requests", ctypes.c_double * len(STATUSES) * len(ENDPOINT_NAMES)),
        ("buckets", ctypes.c_double * (len(BUCKETS) + 1) * len(ENDPOINT_NAMES)),
        ("seconds", ctypes.c_double * len(ENDPOINT_NAMES)),
    ]

    def count(self, endpoint: str, status: int, seconds: float) -> None:
        number = ENDPOINT_NAMES.index(endpoint)
        self.requests[number][STATUSES.index(status)] += 1
        self.buckets[number][bisect.bisect_left(BUCKETS, seconds)] += 1
        self.seconds[number] += seconds


class SharedMetrics:
    """The rows of all processes, shared with those that are forked after it was made. `own` is the row of this process."""

    def __init__(self, rows: int = 1, versions: dict[str, str] | None = None) -> None:
        size = ctypes.sizeof(Row)
        self.memory, self.versions = mmap.mmap(-1, size * rows), versions or {}
        self.rows = [Row.from_buffer(self.memory, size * number) for number in range(rows)]
        self.own = self.rows[0]

    def text(self, nodes: int) -> str:
        """The text of /metrics: the sums of all rows, and the number of nodes."""
        sums = Row.from_buffer_copy(np.frombuffer(self.memory).reshape(len(self.rows), -1).sum(axis=0).tobytes())
        processes = [int(row.process) for row in self.rows if row.process]
        sums.nodes, sums.resident_memory_bytes = nodes, max(map(resident_bytes, processes), default=0)
        labels = ",".join(f'{name}="{version}"' for name, version in self.versions.items())
        header = format_header("build_info", "gauge", "1, with the versions as labels.")
        return "\n".join([*format_sums(sums), header, f"domethyme_build_info{{{labels}}} 1", ""])


def resident_bytes(process: int) -> int:
    """The resident memory of a process; 0 if it has ended."""
    try:
        return int(pathlib.Path(f"/proc/{process}/statm").read_text().split()[1]) * PAGE_SIZE
    except OSError:
        return 0


def format_header(name: str, kind: str, text: str) -> str:
    return f"# HELP domethyme_{name} {text}\n# TYPE domethyme_{name} {kind}"


def format_sums(sums: Row) -> Iterator[str]:
    """The lines of all metrics but build_info."""
    yield format_header("requests_total", "counter", "Requests that were answered, by endpoint and status.")
    for name, counts in zip(ENDPOINT_NAMES, sums.requests):
        for status, count in zip(STATUSES, counts):
            if count:
                yield f'domethyme_requests_total{{endpoint="{name}",status="{status}"}} {count:.0f}'
    yield format_header("request_seconds", "histogram", "Seconds until a request was answered, by endpoint.")
    for name, counts, seconds in zip(ENDPOINT_NAMES, sums.buckets, sums.seconds):
        label, totals = f'endpoint="{name}"', list(itertools.accumulate(counts))
        if totals[-1]:
            for bound, total in zip((*BUCKETS, "+Inf"), totals):
                yield f'domethyme_request_seconds_bucket{{{label},le="{bound}"}} {total:.0f}'
            yield f"domethyme_request_seconds_sum{{{label}}} {seconds:.6f}"
            yield f"domethyme_request_seconds_count{{{label}}} {totals[-1]:.0f}"
    for name, kind, text in METRICS:
        yield format_header(name, kind, text)
        yield f"domethyme_{name} {getattr(sums, name):.15g}"
