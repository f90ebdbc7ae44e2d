"""One call after another, over what several threads, a signal's handler or a forked process may share."""
import os
import sys
import threading
from types import FrameType
from typing import Any, Callable, Optional, TypeVar

_Result = TypeVar("_Result")


class Turn:
    """A turn in what is shared: ``run`` makes a call while no other call of ``run`` is under way.

    A second thread waits. ``RuntimeError`` where this thread is in a call already, as in a signal's handler that runs within one, and in a
    forked process where another thread of its parent was in one: there, waiting would never end.

    A signal's handler may raise between any two instructions of Python. So nothing of Python's own stands between the lock and its
    taker: a ``with`` of an ``RLock`` takes it and gives it back in C.
    """

    __slots__ = ("_lock", "_process")

    def __init__(self) -> None:
        self._lock: Any = threading.RLock()
        self._process = os.getpid()

    def run(self, call: Callable[..., _Result], *given: Any) -> _Result:
        """Returns what the call returns."""
        if self._process != os.getpid():
            self._begin_again()
        if self._lock._is_owned():
            self._look_for_another()
        # on one line, so that no trace function, which may raise too, is called between the call and the end of the turn
        with self._lock: return call(*given)  # fmt: skip

    def _begin_again(self) -> None:
        # the one thread of a forked process waits for no other
        if not self._lock.acquire(blocking=False):
            raise RuntimeError("the process was forked while another thread was in a call")
        self._process = os.getpid()
        self._lock.release()

    def _look_for_another(self) -> None:
        """Raises where a call of this thread is under way: then its ``run`` is on the stack. Else what was left of the turn is given back."""
        frame: Optional[FrameType] = sys._getframe(2)
        while frame is not None:
            if frame.f_code is Turn.run.__code__ and frame.f_locals["self"] is self:
                raise RuntimeError("this thread is in a call already")
            frame = frame.f_back
        while self._lock._is_owned():
            self._lock.release()
