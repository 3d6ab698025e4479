"""Executes the runs of a sweep in processes of this machine, or by the workers of a Dask cluster."""
import collections
import concurrent.futures.process
import glob
import os
import signal
import tempfile
import threading
import time
import zipfile
from typing import Any, Callable, Deque, Generator, Iterable, Iterator, List, Sequence, TypeVar

from ..fault import Fault
from .jobs import Job, Outcome, outcome, outcomes

AHEAD = 8  # tasks for each worker that are given out before they are collected
POLL = 0.5  # seconds between two looks whether the process that started this one is there
MOST_IN_TASK = 16  # runs of a task of a cluster, whose overhead is some ms

Outcomes = Generator[Outcome, None, None]
Task = TypeVar("Task")


def processors() -> int:
    """How many processors this process may use."""
    return len(os.sched_getaffinity(0)) if hasattr(os, "sched_getaffinity") else os.cpu_count() or 1


def in_order(submit: Callable[[Task], Any], tasks: Iterable[Task], most: int) -> Iterator[Any]:
    """The results of tasks in their order. At most `most` tasks are under way."""
    waiting: Deque[Any] = collections.deque()
    for task in tasks:
        waiting.append(submit(task))
        if len(waiting) >= most:
            yield waiting.popleft().result()
    while waiting:
        yield waiting.popleft().result()


def grouped(jobs: Sequence[Job], workers: int) -> List[Sequence[Job]]:
    """The jobs in tasks for this number of workers: several in a task if each worker still has many tasks."""
    size = max(1, min(MOST_IN_TASK, len(jobs) // (2 * AHEAD * workers)))
    return [jobs[at : at + size] for at in range(0, len(jobs), size)]


def pool_of(count: int) -> concurrent.futures.Executor:
    """A number of processes, which end when this process has ended."""
    return concurrent.futures.ProcessPoolExecutor(count, initializer=begin_process)


def begin_process() -> None:
    """In a process of a pool: an interruption is for the process that started it, and this one ends after that one."""
    for number in (signal.SIGINT, signal.SIGTERM):
        signal.signal(number, signal.SIG_IGN)
    threading.Thread(target=end_after, args=[os.getppid()], daemon=True).start()


def end_after(parent: int) -> None:
    """Ends this process when the process that started it has ended."""
    while os.getppid() == parent:
        time.sleep(POLL)
    os._exit(1)


def by_processes(jobs: Iterable[Job], count: int) -> Outcomes:
    """The outcomes of jobs, in their order, by a number of processes."""
    if count == 1:
        yield from map(outcome, jobs)
        return
    pool = pool_of(count)
    try:
        yield from in_order(lambda job: pool.submit(outcome, job), jobs, AHEAD * count)
    except concurrent.futures.process.BrokenProcessPool as error:
        raise Fault("a process of the sweep was killed, for example out of memory (--jobs takes fewer)") from error
    finally:
        pool.shutdown(wait=True, cancel_futures=True)


def by_dask(jobs: Iterable[Job], address: str, program: str) -> Outcomes:
    """The outcomes of jobs, in their order, by the workers of the cluster with this address."""
    try:
        from distributed import Client, KilledWorker
    except ImportError as error:
        raise Fault("--dask needs the package distributed (python3-distributed of Debian)") from error
    try:
        client = Client(address, timeout="10s", set_as_default=False)
    except (OSError, ValueError, TimeoutError) as error:
        raise Fault("--dask: no scheduler answers at %s" % address) from error
    with client:
        there = client.run(os.access, program, os.X_OK)
        if not there:
            raise Fault("--dask: the cluster at %s has no workers" % address)
        missing = sorted(worker for worker, found in there.items() if not found)
        if missing:
            raise Fault("--dask: the worker %s has no program %s (--program names one)" % (missing[0], program))
        with tempfile.TemporaryDirectory() as folder:
            client.upload_file(packed(folder))
        workers = max(sum(client.nthreads().values()), 1)
        tasks = grouped(list(jobs), workers)
        try:
            for found in in_order(lambda it: client.submit(outcomes, it, pure=False), tasks, AHEAD * workers):
                yield from found
        except KilledWorker as error:
            raise Fault("--dask: a worker was killed: %s" % error) from error


def packed(folder: str) -> str:
    """This package as a file that a worker imports."""
    package = os.path.dirname(os.path.dirname(os.path.abspath(__file__)))
    path = os.path.join(folder, "qss_tools.zip")
    with zipfile.ZipFile(path, "w", zipfile.ZIP_DEFLATED) as archive:
        for place in sorted(glob.glob(os.path.join(package, "**", "*.py"), recursive=True)):
            archive.write(place, os.path.relpath(place, os.path.dirname(package)))
    return path
