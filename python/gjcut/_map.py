"""One call over many functions, by the processes of this machine or by any executor."""
import itertools
import multiprocessing
import os
from collections import deque
from concurrent.futures import Executor, ProcessPoolExecutor
from concurrent.futures.process import BrokenProcessPool
from typing import Any, Callable, Iterable, Iterator, List, Optional, Sequence

from . import _progress
from ._arguments import NO_LISTS, whole, wrong
from ._functions import Function
from ._refusals import Refused

# So many parts are handed out at a time: enough for many processors, and few in memory.
WAITING = 256
GUARD = (
    "each process reads the script that it is for, so a script calls gjcut.map below the line "
    'if __name__ == "__main__":'
)


def map(  # noqa: A001, the name that Python and executors have for this
    command: Callable[[Function], Any],
    functions: Iterable[Function],
    executor: Optional[Executor] = None,
    *,
    chunk: int = 8,
    progress: Optional[bool] = None,
) -> Iterator[Any]:
    """The answers of a command, as `gjcut.extreme`, to many functions, in their order. A function
    that is refused does not stop the others: its `Refused` stands in the place of the answer.

    Without an executor new processes do the work, as many as there are processors. Any executor of
    `concurrent.futures` serves: threads, those of MPI, or a cluster by Dask, with
    `distributed.Client(..).get_executor()`. Each task has `chunk` functions. A line shows how far
    it is where tqdm is installed and standard error is a terminal, or with progress=True.

    >>> import concurrent.futures, gjcut
    >>> functions = [gjcut.family("gmic", "3/5"), gjcut.family("half", "3/5")]
    >>> with concurrent.futures.ThreadPoolExecutor() as threads:
    ...     [verdict.claim for verdict in gjcut.map(gjcut.minimal, functions, threads)]
    ['minimal', 'minimal']
    """
    if not callable(command):
        raise wrong(command, "a call that takes a function, as gjcut.extreme", "command")
    if isinstance(functions, NO_LISTS) or not hasattr(functions, "__iter__"):
        raise wrong(functions, "a list of functions", "functions")
    size, progress = whole(chunk, "chunk"), _progress.asked(progress)
    if size < 1:
        raise ValueError(f"chunk: {size} is below 1")
    checked(executor)
    total = len(functions) if hasattr(functions, "__len__") else None
    return _mapped(command, functions, executor, size, total, progress)


def checked(executor: Optional[Executor]) -> None:
    if executor is not None and not isinstance(executor, Executor):
        raise wrong(executor, "an executor of concurrent.futures, or None", "executor")


def _mapped(command, functions, executor, size, total, progress):
    if executor is None:
        if getattr(multiprocessing.current_process(), "_inheriting", False):
            raise RuntimeError(GUARD)
        # The child of a fork must not call where a process has threads.
        spawn = multiprocessing.get_context("spawn")
        count = max(1, min(processors(), total or processors()))
        with ProcessPoolExecutor(count, mp_context=spawn) as pool:
            try:
                yield from _mapped(command, functions, pool, size, total, progress)
            except BrokenProcessPool:
                raise BrokenProcessPool(f"a process ended before it answered; {GUARD}") from None
        return
    parts = ((command, part) for part in in_parts(functions, size))
    answers = answered(executor, _answers, parts)
    yield from _progress.shown(answers, "functions", total, progress)


def processors() -> int:
    """How many processors this process may use."""
    if hasattr(os, "sched_getaffinity"):
        return len(os.sched_getaffinity(0))
    return os.cpu_count() or 1


def in_parts(given: Iterable[Any], size: int) -> Iterator[List[Any]]:
    source = iter(given)
    while True:
        part = list(itertools.islice(source, size))
        if not part:
            return
        yield part


def answered(
    executor: Executor, task: Callable[..., Sequence[Any]], parts: Iterable[Sequence[Any]]
) -> Iterator[Any]:
    """What a task answers to each of its parts, one after the other; few parts wait at a time."""
    waiting: deque = deque()
    try:
        for part in parts:
            waiting.append(executor.submit(task, *part))
            if len(waiting) == WAITING:
                yield from waiting.popleft().result()
        while waiting:
            yield from waiting.popleft().result()
    finally:
        for each in waiting:
            each.cancel()


def _answers(command: Callable[[Function], Any], functions: Sequence[Function]) -> List[Any]:
    return [_answer(command, function) for function in functions]


def _answer(command: Callable[[Function], Any], function: Function) -> Any:
    try:
        return command(function)
    except Refused as refused:
        return refused
