"""Tasks in the processes of a cluster, of a pool, or in this one."""
from __future__ import annotations

import sys
from concurrent.futures import ProcessPoolExecutor
from concurrent.futures.process import BrokenProcessPool
from contextlib import redirect_stdout
from functools import partial
from typing import Any, Callable, Dict, List, Optional, Sequence, Tuple
from uuid import uuid4

from .errors import TevasulimError

# How often a task that failed is run again.
AGAIN = 3


class Runner:
    """Runs tasks by a `distributed.Client`, a `concurrent.futures.Executor`, or without either in
    this process. A task that failed, but by what was handed in, is run again; a pool of processes
    that broke is begun again with as many.

    On a Dask cluster each task has its function's name on the dashboard, and `resources` are what a
    task needs of the resources that workers were started with."""

    def __init__(self, client: Any, resources: Optional[Dict[str, float]], shows: bool):
        self.client, self.resources, self.shows = client, resources, shows
        self.is_dask = hasattr(client, "scheduler")
        self._own: Optional[ProcessPoolExecutor] = None

    def close(self) -> None:
        if self._own is not None:
            self._own.shutdown()

    def run(self, function: Callable[..., Any], tasks: Sequence[Tuple[Any, ...]]) -> List[Any]:
        """What a function gives for each task's words, in their order."""
        if self.client is None or not tasks:
            return [function(*words) for words in tasks]
        if self.is_dask:
            # All in one message.
            more = self.settings(function, len(tasks))
            futures = self.client.map(function, *zip(*tasks), **more)
        else:
            futures = [self.submit(function, words) for words in tasks]
        if self.is_dask and self.shows:
            import distributed

            show: Any = distributed.progress
            # Standard output may be read by a program.
            with redirect_stdout(sys.stderr):
                show(futures, notebook=False)
        if self.is_dask:
            try:
                return list(self.client.gather(futures))
            except Exception:  # of one task, which is told or run again below
                pass
        again = [partial(self.submit, function, words) for words in tasks]
        return list(map(self.result_of, futures, again))

    def workers(self) -> int:
        """How many tasks run at the same time, as far as it is known."""
        if self.is_dask:
            return sum(self.client.nthreads().values()) or 1
        return getattr(self.client, "_max_workers", 1)

    def submit(self, function: Callable[..., Any], words: Tuple[Any, ...]) -> Any:
        if self.is_dask:
            more = self.settings(function, 1)
            return self.client.submit(function, *words, **{**more, "key": more["key"][0]})
        try:
            return self.client.submit(function, *words)
        except BrokenProcessPool:
            self.begin_again()
            return self.client.submit(function, *words)

    def settings(self, function: Callable[..., Any], count: int) -> Dict[str, Any]:
        """How Dask is to run so many tasks. It would give a failed task's error once more for a
        task of the same name, so that each run has names of its own."""
        run = uuid4().hex
        keys = [f"{function.__name__}-{run}-{number}" for number in range(count)]
        return {"key": keys, "pure": False, "resources": self.resources, "retries": AGAIN}

    def begin_again(self) -> None:
        """Takes a new pool of processes in place of one that broke."""
        if not isinstance(self.client, ProcessPoolExecutor):
            raise
        workers = self.client._max_workers  # type: ignore[attr-defined]
        self.close()
        self.client = self._own = ProcessPoolExecutor(workers)

    def result_of(self, future: Any, submit_again: Callable[[], Any]) -> Any:
        for _ in range(AGAIN):
            try:
                return future.result()
            except (TevasulimError, TypeError, ValueError):
                raise
            except Exception:  # a worker that ended, or its machine
                future = submit_again()
        return future.result()
