"""The job of season.py on Dask: one scheduler and two workers on this machine, one of them killed.

    dask_season.py MASKS OUT [--nights A B]

Scheduler and workers are processes of their own, which talk over the loopback. When a third of the
unions is done one worker gets SIGKILL: what it held is lost, and the scheduler has it done again.
Exit status as that of season; 2 if the worker was not killed in the middle of the job.
"""

from __future__ import annotations

import argparse
import os
import platform
import signal
import subprocess
import sys
import tempfile
import time
from collections.abc import Callable, Iterable
from pathlib import Path
from typing import Any

HERE = Path(__file__).resolve().parent
PATHS = [str(HERE), str(HERE.parents[1] / "python")]
sys.path[:0] = PATHS

import dask  # noqa: E402
import distributed  # noqa: E402

import season  # noqa: E402

WORKERS = 2


def tasks_run(dask_worker: distributed.Worker) -> int:
    """How many tasks a worker has run."""
    return dask_worker.state.executed_count


class Cluster:
    """A scheduler and its workers: processes on the loopback, ended with the block."""

    def __init__(self, folder: str) -> None:
        self.folder = folder
        self.file = os.path.join(folder, "scheduler.json")
        self.processes: list[subprocess.Popen[bytes]] = []

    def start(self, program: str, *options: str) -> subprocess.Popen[bytes]:
        """One process of Dask; what it says goes to a file of the folder."""
        paths = os.pathsep.join([*PATHS, os.environ.get("PYTHONPATH", "")])
        command = [sys.executable, "-m", f"distributed.cli.{program}", "--host", "127.0.0.1"]
        command += ["--no-dashboard", "--scheduler-file", self.file, *options]
        with open(os.path.join(self.folder, f"log-{len(self.processes)}"), "wb") as log:
            process = subprocess.Popen(
                command, env={**os.environ, "PYTHONPATH": paths}, stdout=log, stderr=log
            )
        self.processes.append(process)
        return process

    def __enter__(self) -> Cluster:
        self.start("dask_scheduler", "--port", "0")
        for number in range(WORKERS):
            options = ["--no-nanny", "--nthreads", "1", "--name", f"worker-{number}"]
            self.start("dask_worker", *options, "--local-directory", self.folder)
        return self

    def __exit__(self, *error: object) -> None:
        for process in reversed(self.processes):
            if process.poll() is None:
                process.terminate()
            process.wait()

    def worker(self, number: int) -> subprocess.Popen[bytes]:
        """A worker's process."""
        return self.processes[1 + number]


class KillingRun:
    """Maps over the cluster; in the first map a worker is killed when a third is done."""

    def __init__(self, client: distributed.Client, cluster: Cluster) -> None:
        self.client = client
        self.cluster = cluster
        self.in_the_middle = False
        self.killed = False

    def __call__(self, function: Callable[[Any], Any], items: Iterable[Any]) -> list[Any]:
        tasks = list(items)
        futures = self.client.map(function, tasks, pure=False)
        if not self.killed:
            self.kill(futures)
        results = self.client.gather(futures)
        ran = list(self.client.run(tasks_run).values())
        print(f"{function.__name__}: {len(results)} tasks done; "
              f"workers left: {len(ran)}, tasks run by it so far: {ran[0]}")
        return results

    def kill(self, futures: list[distributed.Future]) -> None:
        """SIGKILL for the last worker, as soon as a third of the tasks is done."""
        while 3 * sum(future.done() for future in futures) < len(futures):
            time.sleep(0.002)
        victim = self.cluster.worker(WORKERS - 1)
        held, waiting = self.state(f"worker-{WORKERS - 1}")
        done = sum(future.done() for future in futures)
        os.kill(victim.pid, signal.SIGKILL)
        status = victim.wait()
        self.killed = True
        self.in_the_middle = held > 0 and done < len(futures)
        print(f"killed worker {victim.pid} (ended by signal {-status}) "
              f"with {done} of {len(futures)} tasks done: "
              f"it held {held} results and had {waiting} tasks before it")

    def state(self, name: str) -> tuple[int, int]:
        """How many results a worker holds, and how many tasks it has to do."""
        workers = self.client.scheduler_info()["workers"]
        address = next(a for a, worker in workers.items() if worker["name"] == name)
        return len(self.client.has_what()[address]), len(self.client.processing()[address])


def job(masks: Path, out: Path, nights: tuple[str, str] | None) -> int:
    """The job, its report, its exit status."""
    print(f"Python {platform.python_version()}, Dask {dask.__version__}, "
          f"distributed {distributed.__version__}")
    with tempfile.TemporaryDirectory() as folder, Cluster(folder) as cluster:
        with distributed.Client(scheduler_file=cluster.file) as client:
            client.wait_for_workers(WORKERS, timeout=60)
            pids = [process.pid for process in cluster.processes]
            print(f"scheduler {pids[0]} at {client.scheduler.address}, workers {pids[1:]}")
            run = KillingRun(client, cluster)
            start = time.perf_counter()
            report = season.season(masks, out, nights, run)
            print(f"the job took {time.perf_counter() - start:.2f} s")
    for line in season.lines(report, nights):
        print(line)
    for refusal in report.refused:
        print(f"{refusal.path}: {refusal.words}", file=sys.stderr)
    if not run.in_the_middle:
        print("the worker was not killed in the middle of the job", file=sys.stderr)
        return 2
    return 1 if report.refused else 0


def main() -> int:
    """The command line."""
    parser = argparse.ArgumentParser(description="A season's job on Dask, with a worker killed.")
    parser.add_argument("masks", type=Path)
    parser.add_argument("out", type=Path)
    parser.add_argument("--nights", nargs=2, metavar=("A", "B"))
    given = parser.parse_args()
    return job(given.masks, given.out, tuple(given.nights) if given.nights else None)


if __name__ == "__main__":
    sys.exit(main())
