"""How these tools and the calls of frames end early."""


class Misfit(Exception):
    """Some input isn't understood, or can't be done. The message is one line, for a person."""


class Stopped(RuntimeError):
    """The library or the program is missing, ran out of memory, or was killed.

    In a task of Dask the message names the worker and its host.

    Examples
    --------
    >>> issubclass(ruzgalt.Stopped, RuntimeError)
    True
    """


class OutOfMemory(Stopped):
    """Memory ran out: with fewer rows it may not. Callers see a Stopped."""
