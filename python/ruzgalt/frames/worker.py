"""The worker of Dask on which a task runs: which it is, what memory it has, and how it is asked."""
from __future__ import annotations

import socket
import sys
from typing import Any, Callable, Optional, Tuple


def sent_whole() -> Tuple[Callable[[], Optional[Any]], Callable[[], str]]:
    """Returns two functions. They are sent to workers by content, not by name, so they work without this package."""
    def current() -> Optional[Any]:
        """Returns the worker of this task, or None."""
        distributed = sys.modules.get("distributed")
        try:
            return distributed.get_worker() if distributed is not None else None
        except ValueError:
            return None

    def place() -> str:
        """Returns " on worker NAME at ADDRESS of HOST" for the worker of this task, or nothing."""
        worker = current()
        if worker is None:
            return ""
        names = dict.fromkeys(map(str, (worker.name, worker.address)))
        return f" on worker {' at '.join(names)} of {socket.gethostname()}"

    return current, place


current, place = sent_whole()


def memory() -> Optional[int]:
    """Returns the bytes that a run of the program may take: a worker's limit divided by its number of threads."""
    worker = current()
    limit = worker.memory_manager.memory_limit if worker is not None else None
    return limit // worker.state.nthreads if worker is not None and limit else None


def sent(function: Callable[..., Any], *given: Any) -> Callable[..., Any]:
    """Returns a function of partitions, with further arguments, that any worker can unpickle.

    It contains bytes that are unpickled when it is called. Otherwise a worker without this package would fail before,
    and Dask wouldn't say which worker that was.
    """
    import cloudpickle  # type: ignore[import]  # Debian's has no types.
    packed = cloudpickle.dumps((function, given))

    def asked(*parts: Any) -> Any:
        import pickle
        try:
            wanted, behind = pickle.loads(packed)
        except (AttributeError, ImportError) as error:
            reason = f"{error}{place()}: install the package ruzgalt there, in the version that is here"
            raise RuntimeError(reason) from None
        return wanted(*parts, *behind)

    asked.__name__ = function.__name__
    return asked
