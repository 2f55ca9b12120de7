"""Rows that are answered in blocks, in order: in this process, or by the workers of a Dask scheduler. That hands them out, and
gives the block of a worker that died to another one. The workers have these packages, and the files by the same paths."""
import concurrent.futures
import contextlib
import dataclasses
import functools
import hashlib
import logging
import os
import pathlib
import pickle
import threading
import warnings
from collections.abc import Callable, Generator, Iterator, Sequence
from typing import Any

import tqdm

import domethyme
from domethyme import Hierarchy
from domethyme.belonging import digest_of
from domethyme.network.tables import Files

from .cli import ToolError, require_packages, warn

# Workers on which a block is tried, and blocks that wait, or are answered, for each of their threads.
ATTEMPTS, BLOCKS_PER_THREAD = 3, 4
# A worker's threads open the files one after the other.
opening = threading.Lock()


@dataclasses.dataclass(frozen=True)
class Job:
    """What a process needs to answer rows: the files, whether all links are compared, and how far a road may be."""

    network: str
    hierarchy: str
    compare_all: bool
    radius: float

    def open(self) -> Callable[[Sequence[Any]], Any]:
        """Opens the files, and returns what answers some rows."""
        raise NotImplementedError

    def open_hierarchy(self) -> Hierarchy:
        return Hierarchy(self.hierarchy, network=self.network, compare_all=self.compare_all)


def answer_rows(job: Job, rows: Sequence[Any], size: int, scheduler: str | None) -> Generator[Any, None, None]:
    """The answers of blocks of `size` rows, in order, and their progress at a terminal. Raises what the job does, and ToolError."""
    blocks = [rows[begin : begin + size] for begin in range(0, len(rows), size)]
    answers = map(job.open(), blocks) if scheduler is None else answers_of_workers(job, blocks, scheduler)
    with tqdm.tqdm(total=len(rows), unit="row", unit_scale=True, disable=None) as bar:
        for block, answer in zip(blocks, answers):
            yield answer
            bar.update(len(block))


def answers_of_workers(job: Job, blocks: Sequence[Sequence[Any]], scheduler: str) -> Iterator[Any]:
    """The answers of blocks by the workers of a scheduler. Raises ToolError once a block has failed on ATTEMPTS of them."""
    job = dataclasses.replace(job, network=os.path.abspath(job.network), hierarchy=os.path.abspath(job.hierarchy))
    task, numbers = pickle.dumps((version(), digests_of(job), job)), dict[str, int]()
    answers, given = dict[int, Any](), 0
    with connect(scheduler) as (client, completed):
        while given < len(blocks):
            ahead = max(1, BLOCKS_PER_THREAD * sum(client.nthreads().values()))
            for number in range(given + len(numbers) + len(answers), min(given + ahead, len(blocks))):
                future = client.submit(answer_block, task, blocks[number], retries=ATTEMPTS - 1, pure=False)
                numbers[future.key] = number
                completed.add(future)
            future = next(completed)
            answers[numbers.pop(future.key)] = future.result()
            while given in answers:
                yield answers.pop(given)
                given += 1


@contextlib.contextmanager
def connect(scheduler: str) -> Iterator[tuple[Any, Any]]:
    """A client of a scheduler, for `local` of one that ends with it, and what its futures come from. Dask's log is left out."""
    with require_packages():
        import distributed
    logging.disable()
    warnings.simplefilter("ignore")
    try:
        with contextlib.ExitStack() as opened:
            where = {"scheduler_file": scheduler} if os.path.isfile(scheduler) else {"address": scheduler}
            if is_local := scheduler == "local":
                words = {"threads_per_worker": 1, "memory_limit": 0, "dashboard_address": ":0", "silence_logs": logging.CRITICAL}
                where = {"address": opened.enter_context(distributed.LocalCluster(**words))}
            client = opened.enter_context(distributed.Client(**where))
            if is_local:  # (what these print of their ends is left out too)
                client.register_worker_callbacks(lambda: os.dup2(os.open(os.devnull, os.O_WRONLY), 2))
            # (by `retries` the death of a worker is no failure)
            client.run_on_scheduler(lambda dask_scheduler: setattr(dask_scheduler, "allowed_failures", ATTEMPTS - 1))
            if not client.nthreads():
                warn("there is no worker yet: waiting for one")
            yield client, distributed.as_completed()
    except distributed.scheduler.KilledWorker as error:
        raise ToolError(f"{ATTEMPTS} workers died while they had one block, the last one was {error.last_worker.name}") from error
    except (concurrent.futures.CancelledError, OSError, ValueError) as error:
        raise ToolError(f"the scheduler {scheduler} doesn't answer: {str(error) or 'it went away'}") from error


def answer_block(task: bytes, rows: Sequence[Any]) -> Any:
    """The answer of a block, by a job whose files are opened once. Raises ToolError with the worker's name."""
    from distributed import get_worker

    try:
        with opening:
            answer = open_job(task)
        return answer(rows)
    except Exception as error:
        raise ToolError(f"worker {get_worker().name}: {error}") from None


@functools.lru_cache(1)
def open_job(task: bytes) -> Callable[[Sequence[Any]], Any]:
    """What answers rows here. Raises ToolError where the packages or a file are others than those of the call."""
    wanted, digests, job = pickle.loads(task)
    if wanted != version():
        raise ToolError("has another version of these tools")
    need_same(digests, digests_of(job))
    answer: Callable[[Sequence[Any]], Any] = job.open()
    need_same(digests, digests_of(job))  # (a file that was replaced meanwhile has another stamp)
    return answer


def need_same(digests: dict[str, str], here: dict[str, str]) -> None:
    if wrong := [path for path in digests | here if digests.get(path) != here.get(path)]:
        raise ToolError("isn't the file with which the call began", wrong[0])


def digests_of(job: Job) -> dict[str, str]:
    """The digests of the files that a job reads, of those that are there. Each is read once, and again if it was replaced."""
    files = Files(job.network)
    there = {path: os.stat(path) for path in (job.hierarchy, files.binary, files.nodes, files.arcs) if os.path.exists(path)}
    return {path: digest_at(path, (at.st_dev, at.st_ino, at.st_size, at.st_mtime_ns)) for path, at in there.items()}


@functools.lru_cache(64)
def digest_at(path: str, _stamp: object) -> str:
    return digest_of(path)


@functools.cache
def version() -> str:
    """By what another version of these packages is told: a digest of their texts."""
    folders = [pathlib.Path(each).parent for each in (domethyme.__file__, __file__)]
    return hashlib.sha256(b"".join(path.read_bytes() for folder in folders for path in sorted(folder.rglob("*.py")))).hexdigest()
