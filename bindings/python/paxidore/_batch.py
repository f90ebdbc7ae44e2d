"""Batches of a map's changes."""
import functools
import threading
import weakref
from typing import TYPE_CHECKING, Any, Dict, Optional

if TYPE_CHECKING:
    from .map import Map

# what keys get: a value, or nothing where that is None
Changed = Dict[bytes, Optional[bytes]]


class Entered:
    """A batch that a thread is in as long as ``end`` is there, its changes, and which of their keys the map with a root has."""

    __slots__ = ("changes", "end", "had", "root")

    def __init__(self, changes: Changed, end: "weakref.ref[Any]") -> None:
        self.changes = changes
        self.end = end
        self.root = b""
        self.had: Dict[bytes, bool] = {}


class _End:
    """The exit of a batch: for each ``with`` an object of its own, that nothing else holds, and no frame does.

    So it is gone as soon as the ``with`` has ended, also where an exception of a signal's handler came before the first line of the
    exit, and is kept. A thread is in a batch as long as it is there.
    """

    def __get__(self, batch: "Optional[Batch]", owner: Any = None) -> Any:
        if batch is None:
            # of the class, as contextlib.ExitStack asks for it
            return Batch.leave
        end = functools.partial(_left, batch.map, batch.changes)
        batch.end = weakref.ref(end)
        return end


class Batch:
    """What ``Map.batch`` returns."""

    def __init__(self, own: "Map") -> None:
        self.map = own
        self.changes: Changed = {}
        self.end: "weakref.ref[Any]" = weakref.ref(self)

    def __enter__(self) -> "Map":
        if self.map._entered() is not None:
            raise RuntimeError("the map is in a batch already")
        self.changes.clear()
        # contextlib.ExitStack, which asks the class for its exit, holds the batch itself
        end = self.end if self.end() is not None else weakref.ref(self)
        self.map._batches[threading.get_ident()] = Entered(self.changes, end)
        return self.map

    if TYPE_CHECKING:

        def __exit__(self, *error: object) -> None: ...

    else:
        __exit__ = _End()

    def leave(self, *error: Any) -> None:
        _left(self.map, self.changes, *error)


def _left(own: "Map", changes: Changed, kind: Any, *error: Any) -> None:
    # first of all, so that a change of a signal's handler is none of the batch's any more, which is copied next
    own._batches.pop(threading.get_ident(), None)
    if kind is None:
        own._change(changes)
