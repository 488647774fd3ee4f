"""The parts of a file on many threads, and what comes of them in the order of the file."""

from __future__ import annotations

import os
from collections import deque
from concurrent.futures import Future, ThreadPoolExecutor
from typing import Callable, Deque, Iterator, Optional, Tuple, TypeVar

from tbson.inputs import Part

T = TypeVar("T")


def processors() -> int:
    """How many processors this process may use."""
    return len(os.sched_getaffinity(0))


def in_order(work: Callable[[Part], T], parts: Iterator[Part], workers: Optional[int] = None) -> Iterator[Tuple[Part, T]]:
    """Does the work on each part, on so many threads at once, and gives what came of it in the order of the parts. A few parts are in memory at a time."""
    workers = workers or processors()
    pending: Deque[Tuple[Part, Future[T]]] = deque()
    with ThreadPoolExecutor(workers) as pool:
        try:
            for part in parts:
                pending.append((part, pool.submit(work, part)))
                while len(pending) > workers + 1 or (pending and pending[0][1].done()):
                    done, future = pending.popleft()
                    yield done, future.result()
            while pending:
                done, future = pending.popleft()
                yield done, future.result()
        finally:
            for _, future in pending:
                future.cancel()
