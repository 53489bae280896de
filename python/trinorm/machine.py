"""What the machine has for this process, and a lock of it."""
from __future__ import annotations

import os
import threading
from typing import ContextManager


def processors() -> int:
    """The number of processors that this process may use; on a system that does not say it, the number of the machine."""
    if hasattr(os, "sched_getaffinity"):
        return len(os.sched_getaffinity(0))
    return os.cpu_count() or 1


class Lock:
    """A lock that one thread has at a time. A handler of a signal in this thread may take it too, and a child that was forked has a
    new one, since another thread may have had it then, which the child does not have."""

    def __init__(self) -> None:
        self._begin()
        if hasattr(os, "register_at_fork"):
            os.register_at_fork(after_in_child=self._begin)

    def _begin(self) -> None:
        self._lock = threading.RLock()

    def held(self) -> ContextManager[object]:
        """For a `with` statement."""
        return self._lock
