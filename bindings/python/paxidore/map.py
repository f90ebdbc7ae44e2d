"""Maps with one root, for whoever keeps one and for clients. ``paxidore.Map`` is the class of this module."""
import contextlib
import ctypes
import heapq
import io
import os
import sqlite3
import threading
from typing import Any, Callable, ContextManager, Dict, Iterable, Iterator, Mapping, MutableMapping, Optional, Sequence, Tuple, TypeVar

from ._batch import Batch, Changed, Entered
from ._entries import ENTRY_BYTES, nodes_of, trusted
from ._library import DIGEST_BYTES, _bytes, _call, _digest, _int, _refusal, _size, _sizes
from ._map_checks import _ROW_BYTES, MapChecks, _Changes
from ._nodes import _MOST, _NOTHING, AsKept, DamagedMap, Versions, _alone, _root_of, _Store, reason_of
from ._turn import Turn

_Result = TypeVar("_Result")

_map_prove = _call("map_prove", ctypes.c_int32, ctypes.c_void_p, _size, _sizes, _bytes, _size, _bytes)
# as the header has it
_PROOF_BYTES = 3 + 64 + 32 + 256 * 32


class MapVersion(Mapping[bytes, bytes]):
    """A version of a map, as ``Map.at`` returns it: what it has, its root, and proofs of what it has and has not."""

    def __init__(self, store: _Store, turn: Turn, number: Optional[int]) -> None:
        self._store: Optional[_Store] = store
        self._turn = turn
        self._number = number

    def _open(self) -> _Store:
        if self._store is None or self._store.is_closed:
            raise ValueError("the map is closed")
        if self._store.process != os.getpid():
            raise ValueError("a forked process does not have the map of its parent")
        return self._store

    def _head(self) -> Tuple[int, bytes, int]:
        """The number, the root and the count of entries."""
        return self._asked(self._stated)

    def _asked(self, call: Callable[..., _Result], *given: Any) -> _Result:
        """Calls within a turn. What SQLite says of a file is an error of this module or of the system."""
        try:
            return self._turn.run(call, *given)
        except sqlite3.DatabaseError as error:
            raise reason_of(error, None if self._store is None else self._store.path) from None

    def _stated(self) -> Tuple[int, bytes, int]:
        store = self._open()
        store.settle()
        return store.head(self._number)

    def _look_up(self, keys: Sequence[bytes], removed: "frozenset[bytes]") -> "Tuple[bytes, bytes, Dict[bytes, bytes]]":
        """The root, the bytes of the tree that shows what is at keys, and its nodes."""
        return self._asked(self._looked_up, keys, removed)

    def _looked_up(self, keys: Sequence[bytes], removed: "frozenset[bytes]") -> "Tuple[bytes, bytes, Dict[bytes, bytes]]":
        store = self._open()
        return store.look_up(self._ways, store, keys, removed)

    def _ways(
        self, store: _Store, keys: Sequence[bytes], removed: "frozenset[bytes]"
    ) -> "Tuple[bytes, bytes, Dict[bytes, bytes]]":
        root = store.head(self._number)[1]
        tree, met = store.tree(root, keys, removed)
        return root, tree, met

    @property
    def root(self) -> bytes:
        """The root: 32 bytes."""
        return self._head()[1]

    @property
    def version(self) -> int:
        """The number of the version: how many changes there were before it."""
        return self._head()[0]

    def __len__(self) -> int:
        return self._head()[2]

    def _shown(self, key: bytes) -> Tuple[Optional[bytes], bytes]:
        """What the map has at a key, and the bytes of the proof, which were checked."""
        _digest(key, "key")
        root, tree, met = self._look_up((key,), frozenset())
        proof, count = ctypes.create_string_buffer(_PROOF_BYTES), _size()
        answer = _map_prove(proof, _PROOF_BYTES, ctypes.byref(count), tree, len(tree), key)
        if answer != 0:
            raise _damage(answer)
        shown = ctypes.string_at(proof, count.value)
        value = next((node[33:] for node in met.values() if node[0] == 0 and node[1:33] == key), None)
        if not MapChecks.verify(root, key, value, shown):
            raise DamagedMap("a node of the map is not the one that was stored")
        return value, shown

    def prove(self, key: bytes) -> bytes:
        """The bytes of the proof of what the map has at the key, a value or nothing, for ``Map.verify``."""
        return self._shown(key)[1]

    def __getitem__(self, key: bytes) -> bytes:
        value = self._shown(key)[0]
        if value is None:
            raise KeyError(key)
        return value

    def __contains__(self, key: object) -> bool:
        return isinstance(key, bytes) and self._shown(key)[0] is not None

    def _node(self, store: _Store, digest: bytes, root: bytes) -> bytes:
        """A node of a map with this root, as it is stored."""
        self._open()
        try:
            return store.node(digest)
        except DamagedMap:
            if store is self._store and store.head(self._number)[1] != root:
                raise RuntimeError("the map changed during iteration") from None
            raise

    def _entries(self, store: _Store, root: bytes) -> Iterator[bytes]:
        """The entries of the map with a root by rising keys, each its key and its value, each node checked."""
        parts = [(root, 0)]
        while parts:
            digest, level = parts.pop()
            if digest == _NOTHING:
                continue
            node = self._asked(self._node, store, digest, root)
            if _root_of(_alone(node)) != digest or level > 256:
                raise DamagedMap("a node of the map is not the one that was stored")
            if node[0] == 0:
                yield node[1:]
            else:
                parts += [(node[33:], level + 1), (node[1:33], level + 1)]

    def _still(self) -> Iterator[Tuple[Optional[bytes], int]]:
        """The entries by rising keys of the map as it is when the first one is asked for, and behind them None with the count that it
        states."""
        own = self._open()
        if own.path is None:
            yield from self._counted_entries(own, self._head())
            return
        store = self._asked(own.beside)
        try:
            # on one line, as in _Store.within: nothing keeps what was deleted meanwhile once the iteration has ended
            with store.base: yield from self._still_entries(store)  # fmt: skip
        finally:
            store.close()

    def _still_entries(self, store: _Store) -> Iterator[Tuple[Optional[bytes], int]]:
        yield from self._counted_entries(store, self._asked(self._begun, store))

    def _begun(self, store: _Store) -> Tuple[int, bytes, int]:
        store.base.execute("BEGIN")
        return store.head(self._number)

    def _counted_entries(self, store: _Store, head: Tuple[int, bytes, int]) -> Iterator[Tuple[Optional[bytes], int]]:
        for entry in self._entries(store, head[1]):
            yield entry, 0
        yield None, head[2]

    def __iter__(self) -> Iterator[bytes]:
        """The keys, rising, of the map as it is when the first one is asked for. A map in memory is not to change meanwhile; of one in a
        file, SQLite's log grows with each change as long as an iteration is left open: its ``close()`` ends it."""
        for entry, _ in self._still():
            if entry is not None:
                yield entry[:DIGEST_BYTES]

    def to_bytes(self) -> bytes:
        """The entries by rising keys, 64 bytes each: the key, then the value, for ``from_bytes`` of ``Map`` and ``KeptMap``.

        They are those of the map as it is at the call, without the changes of a batch, each node checked: raises ``DamagedMap``, and
        ``RuntimeError`` where a map in memory changes meanwhile.
        """
        entries = io.BytesIO()
        for entry, _ in self._still():
            if entry is not None:
                entries.write(entry)
        return entries.getvalue()

    def check(self) -> None:
        """Reads all nodes, and raises ``DamagedMap`` where one is not the one that was stored, or the count of entries is another."""
        found = 0
        for entry, stated in self._still():
            if entry is not None:
                found += 1
            elif found != stated:
                raise DamagedMap("the map states another count of entries")

    def __repr__(self) -> str:
        if self._store is None:
            return "<paxidore.%s, closed>" % type(self).__name__
        return "<paxidore.%s of %d entries>" % (type(self).__name__, len(self))

    def __reduce__(self) -> str:
        raise TypeError("a map is neither copied nor pickled")


def _damage(answer: int) -> Exception:
    # the library refuses a tree of nodes that are not the map's own, or memory
    refused = _refusal(answer)
    if isinstance(refused, MemoryError):
        return refused
    return DamagedMap("a node of the map is not the one that was stored (%s)" % refused)


class Map(MapVersion, MapChecks, MutableMapping[bytes, bytes]):
    """A map with one root, like a dict of keys of 32 bytes with values of 32 bytes, with proofs of what it has and has not.

    ``Map()`` keeps its nodes in memory, ``Map.open(path)`` in a file of SQLite. Hash other values first. Keys should be hashes: whoever
    chooses keys can make a neighbour's proof longer. ``map.root`` is the same for each map with these entries, whatever the order of
    changes. ``map.prove(key)`` gives a proof of a value or of nothing, and ``Map.verify`` checks it for a client.

    Each change is written whole or not at all, and makes a new version; ``update`` and ``batch`` make many changes one. What is read is
    checked against the root. Threads may share a map: its calls run one after the other, and a batch is its thread's own. A forked process
    does not have the map of its parent: there each call raises ``ValueError``.
    """

    def __init__(self) -> None:
        super().__init__(_Store(None, False, 0, 1), Turn(), None)
        self._batches: Dict[int, Entered] = {}

    @classmethod
    def open(
        cls,
        path: "os.PathLike[str] | os.PathLike[bytes] | str | bytes",
        *,
        read_only: bool = False,
        wait: float = 5,
        versions: Versions = AsKept(),
        root: Optional[bytes] = None,
    ) -> "Map":
        """The map that a file keeps; a new one where there is no such file.

        The map is as after the last change that returned, or also has the one that was under way. The newest ``versions`` are kept for
        ``at``, all where that is None; the file remembers how many, 1 where none was ever named. A map that is open for reading only sees
        what its keeper changes; it has to be there. A change waits for at most so many seconds while another process makes one. Where a
        root is given, it is to be the map's.

        A file has a map's tables and nothing else, or it is refused here, and nothing is written to it. One that lies on media where
        nothing can be written is read where it was closed.

        Raises ``DamagedMap``, which is ``ValueError``, where the file is no map's, what it states cannot be, the node of its root is
        damaged, or it has another root; ``OSError`` where it is not there or cannot be written, ``BlockingIOError`` where another process
        has it for too long. A change raises these too, and leaves the map as it was.
        """
        if versions is not None and not isinstance(versions, AsKept):
            versions = _int("versions", versions)
            if versions < 1:
                raise ValueError("versions is 1 or more")
            if versions >= _MOST:
                raise OverflowError("versions is below 2^62")
        self = cls.__new__(cls)
        try:
            MapVersion.__init__(self, _Store(path, read_only, wait, versions), Turn(), None)
        except sqlite3.DatabaseError as error:
            if isinstance(error, sqlite3.OperationalError):
                raise reason_of(error, os.fsdecode(path)) from None
            raise DamagedMap("the file is no map's (%s)" % error) from None
        self._batches = {}
        try:
            stated = self.root
            if root is not None and stated != _digest(root):
                raise DamagedMap("the map has another root")
            if stated != _NOTHING:
                self._shown(bytes(DIGEST_BYTES))
        except BaseException:
            self.close()
            raise
        return self

    @classmethod
    def from_bytes(
        cls,
        data: "bytes | bytearray | memoryview",
        root: bytes,
        path: "Optional[os.PathLike[str] | os.PathLike[bytes] | str | bytes]" = None,
        *,
        wait: float = 5,
        versions: Versions = AsKept(),
    ) -> "Map":
        """The map of the entries that ``to_bytes`` returned, where it has this root: that of the map that is trusted. It is in memory, or
        in a file that is made at ``path``, for which ``wait`` and ``versions`` are those of ``open``.

        The root is compared before a map takes any memory, and before the file is made. The nodes are written in one change.

        Raises ``EntriesError``, which is ``ValueError``, where the bytes end within an entry or a key is not above the one before it, and
        ``OtherRoot``, which is ``EntriesError``, where they have another root; ``FileExistsError`` where there is a file; ``OSError``. Then
        there is no new file, but a crash or an interrupt can leave that of an empty map.
        """
        entries = trusted(data, root)
        if path is None:
            own = cls()
            own._asked(own._fill, entries, root)
            return own
        name = os.fsdecode(path)
        os.close(os.open(name, os.O_RDWR | os.O_CREAT | os.O_EXCL | os.O_CLOEXEC, 0o666))
        made: "Optional[Map]" = None
        try:
            made = cls.open(name, wait=wait, versions=versions)
            made._asked(made._fill, entries, root)
        except BaseException as error:
            # before its file is gone: SQLite would remove the log of another one of this name
            if made is not None:
                made.close()
            # where the map has entries, the file is another process's by now
            if not isinstance(error, FileExistsError):
                for end in "", "-wal", "-shm":
                    with contextlib.suppress(FileNotFoundError):
                        os.unlink(name + end)
            raise
        return made

    def _fill(self, entries: bytes, root: bytes) -> None:
        store = self._open()
        if entries:
            store.change(store.fill, root, len(entries) // ENTRY_BYTES, nodes_of(entries))

    def close(self) -> None:
        """Closes the file. The map cannot be used any more. A second call does nothing."""
        self._turn.run(self._close)

    def _close(self) -> None:
        if self._store is not None:
            self._store.close()
        self._store = None

    def __enter__(self) -> "Map":
        return self

    def __exit__(self, *error: object) -> None:
        self.close()

    def at(self, version: int) -> MapVersion:
        """A version that is kept. Raises ``KeyError`` where it is not."""
        number = _int("version", version)
        return MapVersion(self._asked(self._kept, number), self._turn, number)

    def _kept(self, number: int) -> _Store:
        store = self._open()
        store.settle()
        store.head(number)
        return store

    def forget(self, version: int) -> None:
        """Removes the versions before this one, but not the newest."""
        self._asked(self._forget, _int("version", version))

    def _forget(self, number: int) -> None:
        store = self._open()
        store.change(lambda: store.forget(max(0, min(number, store.head(None)[0]))))

    def _change(self, changes: Mapping[bytes, Optional[bytes]]) -> None:
        """Makes changes in one step: a key gets its value, or is removed where that is None."""
        asked = _Changes(changes)
        if asked.keys:
            self._asked(self._make, asked)

    def _make(self, asked: _Changes) -> None:
        store = self._open()
        store.change(self._write, store, asked)

    def _write(self, store: _Store, asked: _Changes) -> None:
        number, root, entries = store.head(None)
        tree, old = store.tree(root, asked.keys, asked.removed)
        answer, new_root, made = asked.make(root, tree)
        if answer != 0:
            raise DamagedMap("a node of the map is not the one that was stored") if answer == 1 else _damage(answer)
        new = {made[i : i + 32]: made[i + 32 : i + 97] for i in range(0, len(made), _ROW_BYTES)}
        if new_root != root:
            entries += sum(node[0] == 0 for node in new.values()) - sum(node[0] == 0 for node in old.values())
            store.put(number + 1, new_root, entries, new, old)

    def witness(self, changes: Mapping[bytes, Optional[bytes]]) -> bytes:
        """The bytes of the tree that shows what changes need, from which ``Map.changed_root`` follows them without the map: a key gets
        its value, or is removed where that is None."""
        asked = _Changes(changes)
        return self._look_up(asked.keys, asked.removed)[1]

    def _entered(self) -> Optional[Entered]:
        """The batch that this thread is in."""
        entered = self._batches.get(threading.get_ident())
        return entered if entered is not None and entered.end() is not None else None

    def _batch(self) -> Optional[Changed]:
        """The changes of the batch that this thread is in."""
        entered = self._entered()
        return None if entered is None else entered.changes

    def _set(self, changes: Mapping[bytes, Optional[bytes]]) -> None:
        batch = self._batch()
        if batch is None:
            self._change(changes)
        else:
            _Changes(changes)
            batch.update(changes)

    def batch(self) -> "ContextManager[Map]":
        """Makes all changes of this thread within one: they are written together at its end, or not at all where it ends by an exception.

        ``map[key]``, ``key in map``, the length and iteration see them before; the root, proofs and other threads do not.
        """
        return Batch(self)

    def __getitem__(self, key: bytes) -> bytes:
        batch = self._batch()
        if batch is not None and key in batch:
            value = batch[key]
            if value is None:
                raise KeyError(key)
            return value
        return super().__getitem__(key)

    def __contains__(self, key: object) -> bool:
        batch = self._batch()
        if batch is not None and key in batch:
            return batch[key] is not None  # type: ignore[index]
        return super().__contains__(key)

    def __len__(self) -> int:
        entered = self._entered()
        if entered is None:
            return super().__len__()
        changes = dict(entered.changes)
        count, had = self._asked(self._counted, entered, changes)
        return count + sum((value is not None) - had[key] for key, value in changes.items())

    def _counted(self, entered: Entered, keys: Iterable[bytes]) -> Tuple[int, Dict[bytes, bool]]:
        """The count of entries without a batch, and which of the batch's keys the map has."""
        store = self._open()
        return store.look_up(self._had, store, entered, keys)

    def _had(self, store: _Store, entered: Entered, changed: Iterable[bytes]) -> Tuple[int, Dict[bytes, bool]]:
        _, root, count = store.head(None)
        # what was looked up for an earlier length is known, while the map has the root of then
        known = entered.had if entered.root == root else {}
        keys = [key for key in changed if key not in known]
        found = set()
        if keys:
            tree, met = store.tree(root, keys, frozenset())
            if _root_of(tree) != root:
                raise DamagedMap("a node of the map is not the one that was stored")
            found = {node[1:33] for node in met.values() if node[0] == 0}
        had = {**known, **{key: key in found for key in keys}}
        # not at once: between the two the answers would be taken for those of another root
        entered.root = b""
        entered.had = had
        entered.root = root
        return count, had

    def __iter__(self) -> Iterator[bytes]:
        """The keys, rising, of the map as it is when the first one is asked for. A map in memory is not to change meanwhile; of one in a
        file, SQLite's log grows with each change as long as an iteration is left open: its ``close()`` ends it."""
        batch = dict(self._batch() or {})
        stored = (key for key in super(Map, self).__iter__() if key not in batch)
        return iter(heapq.merge(stored, sorted(key for key, value in batch.items() if value is not None)))

    def __setitem__(self, key: bytes, value: bytes) -> None:
        _digest(value, "value")
        self._set({key: value})

    def __delitem__(self, key: bytes) -> None:
        if key not in self:
            raise KeyError(key)
        self._set({key: None})

    def update(self, *others: Any, **more: Any) -> None:
        """Puts many values in one change."""
        changes: Dict[bytes, Optional[bytes]] = dict(*others, **more)
        for value in changes.values():
            _digest(value, "value")  # type: ignore[arg-type]
        self._set(changes)

    def remove(self, keys: Iterable[bytes]) -> None:
        """Removes many keys in one change. A key that the map has not is left out of account."""
        self._set(dict.fromkeys(keys))

    def clear(self) -> None:
        """Removes all keys in one change."""
        self.remove(list(self))
