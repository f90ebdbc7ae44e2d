"""The nodes of a map in a database of SQLite, and the bytes of the trees that the library takes."""
import ctypes
import errno
import io
import os
import pathlib
import sqlite3
import stat
import time
import weakref
from typing import Any, Callable, Dict, Iterable, List, Optional, Sequence, Set, Tuple, TypeVar, Union

from ._library import DIGEST_BYTES, _bytes, _call, _refusal, _size

_Result = TypeVar("_Result")

_map_root = _call("map_root", ctypes.c_int32, ctypes.c_void_p, _bytes, _size)

# the bytes of a tree's parts that are no nodes: a node's part begins with its own first byte, 0 of an entry, 1 of a fork
_EMPTY, _HIDDEN = b"\2", b"\3"

# what the file of a map says that it is: "PxMp", and the version of its tables
_APPLICATION = 0x50784D70
_TABLES = 1

# A node by its digest, and from which version on it is no longer in the map; the roots of versions; how many versions are kept, NULL for
# all. A file has these and nothing else: a trigger could change what was not asked for.
_OBJECTS = {
    "node": "CREATE TABLE node (digest BLOB PRIMARY KEY, bytes BLOB NOT NULL, gone INTEGER) WITHOUT ROWID",
    "node_gone": "CREATE INDEX node_gone ON node (gone) WHERE gone IS NOT NULL",
    "version": "CREATE TABLE version (number INTEGER PRIMARY KEY, root BLOB NOT NULL, entries INTEGER NOT NULL)",
    "kept": "CREATE TABLE kept (versions INTEGER)",
}

# no version, no count of versions and no count of entries is as large
_MOST = 2**62


class DamagedMap(ValueError):
    """The file is no map's, or a node of the map is not there or is another than its digest says."""


class _Busy(sqlite3.OperationalError, BlockingIOError):
    """Another process has the file of the map for too long. It is SQLite's error too."""


class _NotDone(sqlite3.OperationalError, OSError):
    """The disk is full, or the file of the map could not be read or written. It is SQLite's error too."""


_REASONS = (
    ("database is locked", _Busy, errno.EAGAIN, "another process has the file for too long"),
    ("database or disk is full", _NotDone, errno.ENOSPC, "the disk is full"),
    ("disk I/O error", _NotDone, errno.EIO, "the file cannot be read or written"),
)


def reason_of(error: sqlite3.DatabaseError, path: Optional[str]) -> Exception:
    """The error of this module or of the system for what SQLite says of a file."""
    # its classes below are of what is locked, full or used in another way
    if type(error) is sqlite3.DatabaseError:
        return DamagedMap("the file is damaged (%s)" % error)
    for said, kind, number, why in _REASONS:
        if str(error).startswith(said):
            reason: Exception = kind(number, why, path)
            # what SQLite's errors have from Python 3.11 on: sqlite_errorcode, sqlite_errorname
            vars(reason).update(vars(error))
            return reason
    return error


class AsKept:
    """As many versions as the file was last asked to keep, 1 for a new one."""


# how many versions are kept: all where it is None
Versions = Union[int, None, AsKept]


def _root_of(tree: bytes) -> bytes:
    root = ctypes.create_string_buffer(DIGEST_BYTES)
    answer = _map_root(root, tree, len(tree))
    if answer != 0:
        raise _refusal(answer)
    return root.raw


_NOTHING = _root_of(_EMPTY)


def _has_bit(key: bytes, level: int) -> bool:
    return bool(key[level >> 3] >> (7 - (level & 7)) & 1)


def _hidden(digest: bytes) -> bytes:
    return _EMPTY if digest == _NOTHING else _HIDDEN + digest


def _alone(node: bytes) -> bytes:
    """The tree of a node that hides what is below it."""
    return node if node[0] == 0 else node[:1] + _hidden(node[1:33]) + _hidden(node[33:])


def _cleared(met: Dict[bytes, bytes], removed: "frozenset[bytes]") -> Set[bytes]:
    """Of nodes, each behind the one above it, those below which each key is removed."""
    gone: Set[bytes] = set()
    for digest, node in reversed(list(met.items())):
        sides = {node[1:33], node[33:]} - {_NOTHING}
        if node[1:33] in removed if node[0] == 0 else sides <= gone:
            gone.add(digest)
    return gone


def _is_count(number: object, least: int) -> bool:
    return type(number) is int and least <= number < _MOST


def _file_of(path: "os.PathLike[str] | os.PathLike[bytes] | str | bytes", is_there: bool) -> str:
    """The whole name of a map's file. It is a regular one, or there is none yet: to open a pipe would wait for another process."""
    name = os.path.abspath(os.fsdecode(path))
    if "\0" in name:
        # SQLite would end the name there
        raise ValueError("embedded null byte")
    try:
        kind = os.stat(name).st_mode
    except FileNotFoundError:
        if is_there:
            raise
        os.stat(os.path.dirname(name))
        return name
    if not stat.S_ISREG(kind):
        raise DamagedMap("the file is no map's: it is no regular file")
    if not is_there and not os.access(name, os.W_OK):
        raise _denied(name, "the file cannot be written: open it with read_only=True")
    return name


def _is_fixed(path: str) -> bool:
    """Whether the file is on media on which nothing can be written."""
    return bool(os.statvfs(path).f_flag & os.ST_RDONLY)


def _denied(path: str, why: str) -> OSError:
    return OSError(errno.EROFS if _is_fixed(path) else errno.EACCES, why, path)


# The stores that are open, and the connections that a forked process has of its parent.
_stores: "weakref.WeakSet[_Store]" = weakref.WeakSet()
_left_open: List[sqlite3.Connection] = []


def _leave_open() -> None:
    """Keeps a forked process from closing its parent's connections, also where it ends: SQLite would take itself for the last one that has
    the database, and remove the log that others write."""
    for store in list(_stores):
        _left_open.append(store.base)
        # where objects are counted, the interpreter's end would still close it
        if hasattr(ctypes, "pythonapi"):
            ctypes.pythonapi.Py_IncRef(ctypes.py_object(store.base))


if hasattr(os, "register_at_fork"):
    os.register_at_fork(after_in_child=_leave_open)


class _Store:
    """The nodes of a map and the roots of its versions, in a database of SQLite."""

    def __init__(self, path: "Optional[os.PathLike[str] | os.PathLike[bytes] | str | bytes]", read_only: bool, wait: float, versions: Versions) -> None:
        self.process = os.getpid()
        self.is_closed = False
        self.path = None if path is None else _file_of(path, read_only)
        self.read_only = read_only
        self.wait = wait
        self.versions = versions
        self.connect("?mode=ro" if read_only else "?mode=rwc")
        try:
            if read_only:
                self.look_only()
            else:
                self.make()
        except BaseException:
            self.close()
            raise

    def connect(self, mode: str) -> None:
        name = ":memory:" if self.path is None else pathlib.Path(self.path).as_uri() + mode
        is_name = self.path is not None
        self.base = sqlite3.connect(name, timeout=self.wait, isolation_level=None, check_same_thread=False, uri=is_name)
        _stores.add(self)
        # no function of this process is called by what a file has
        self.base.execute("PRAGMA trusted_schema = OFF")

    def look_only(self) -> None:
        assert self.path is not None
        try:
            self.look_up(self.look)
        except sqlite3.OperationalError as error:
            # SQLite keeps its log and what readers share beside the file
            if os.access(os.path.dirname(self.path), os.W_OK) and not _is_fixed(self.path):
                raise
            if not _is_fixed(self.path):
                raise _denied(self.path, "the folder of the file cannot be written, which SQLite needs (%s)" % error) from None
            if os.path.exists(self.path + "-wal") and os.path.getsize(self.path + "-wal"):
                raise _denied(
                    self.path, "the newest changes are in the log beside the file, which is read where it can be written: copy both"
                ) from None
            # it changes no more
            self.base.close()
            self.connect("?mode=ro&immutable=1")
            self.look_up(self.look)

    def close(self) -> None:
        self.is_closed = True
        if self.process == os.getpid():
            self.base.close()

    def number(self, question: str) -> int:
        answer: int = self.base.execute(question).fetchone()[0]
        return answer

    def is_new(self) -> bool:
        return self.number("SELECT count(*) FROM sqlite_master") == 0 and self.number("PRAGMA application_id") == 0

    def make(self) -> None:
        # nothing is written to a file that is another's
        if not self.is_new():
            self.look_up(self.look)
        self.write_ahead()
        self.base.execute("PRAGMA synchronous = FULL")
        self.change(self.make_tables)

    def make_tables(self) -> None:
        if self.is_new():
            self.base.execute("PRAGMA application_id = %d" % _APPLICATION)
            self.base.execute("PRAGMA user_version = %d" % _TABLES)
            for made in _OBJECTS.values():
                self.base.execute(made)
            self.base.execute("INSERT INTO version VALUES (0, ?, 0)", (_NOTHING,))
            self.base.execute("INSERT INTO kept VALUES (1)")
        self.look()
        if isinstance(self.versions, AsKept):
            self.versions = self.stated_versions()
        else:
            self.base.execute("UPDATE kept SET versions = ?", (self.versions,))

    def write_ahead(self) -> None:
        """Readers go on while a change is written, and a change that was cut off leaves nothing. SQLite itself waits for no other process
        that switches to it."""
        end = time.monotonic() + self.wait
        while True:
            try:
                self.base.execute("PRAGMA journal_mode = WAL")
                return
            except sqlite3.OperationalError:
                if time.monotonic() >= end:
                    raise
            time.sleep(0.01)

    def look(self) -> None:
        if self.number("PRAGMA application_id") != _APPLICATION:
            raise DamagedMap("the file is no map's")
        if self.number("PRAGMA user_version") != _TABLES:
            raise DamagedMap("the file is of another version of this module")
        if dict(self.base.execute("SELECT name, sql FROM sqlite_master")) != _OBJECTS:
            raise DamagedMap("the file has other tables than a map's")
        self.stated_versions()
        newest, oldest = self.head(None)[0], self.number("SELECT min(number) FROM version")
        first, last = self.base.execute("SELECT min(gone), max(gone) FROM node WHERE gone IS NOT NULL").fetchone()
        # a node that is gone was in the oldest version, or came later
        if oldest < 0 or not (first is None or (_is_count(first, oldest + 1) and _is_count(last, first) and last <= newest)):
            raise DamagedMap("the map states versions that it does not have")

    def stated_versions(self) -> Optional[int]:
        rows = self.base.execute("SELECT versions FROM kept LIMIT 2").fetchall()
        if len(rows) != 1 or not (rows[0][0] is None or _is_count(rows[0][0], 1)):
            raise DamagedMap("the map does not state how many versions it keeps")
        versions: Optional[int] = rows[0][0]
        return versions

    def settle(self) -> None:
        """Ends a transaction that is left of a call that was cut off."""
        if self.base.in_transaction:
            self.base.execute("ROLLBACK")

    def change(self, call: Callable[..., _Result], *given: Any) -> _Result:
        """Calls, and returns what that returns: what is written within is written whole or not at all."""
        if self.read_only:
            raise io.UnsupportedOperation("the map is open for reading only")
        return self.within("BEGIN IMMEDIATE", call, given)

    def look_up(self, call: Callable[..., _Result], *given: Any) -> _Result:
        """Calls, and returns what that returns: what is read within is of one moment."""
        return self.within("BEGIN", call, given)

    def within(self, begin: str, call: Callable[..., _Result], given: Tuple[Any, ...]) -> _Result:
        self.settle()
        # The `with` of a connection ends its transaction in C, before an exception that came within has left this call. On one line, so
        # that no trace function, which may raise too, is called between the call and the end of the transaction.
        with self.base: return self.begun(begin, call, given)  # fmt: skip

    def begun(self, begin: str, call: Callable[..., _Result], given: Tuple[Any, ...]) -> _Result:
        self.base.execute(begin)
        return call(*given)

    def beside(self) -> "_Store":
        """A second store of the same file, for one that reads for long. Of a map in memory it is this one."""
        return self if self.path is None else _Store(self.path, True, self.wait, None)

    def head(self, number: Optional[int]) -> Tuple[int, bytes, int]:
        """The number, the root and the count of entries of a version, the newest where none is given."""
        if number is None:
            row = self.base.execute("SELECT number, root, entries FROM version ORDER BY number DESC LIMIT 1").fetchone()
        else:
            row = None
            if 0 <= number < _MOST:
                row = self.base.execute("SELECT number, root, entries FROM version WHERE number = ?", (number,)).fetchone()
            if row is None:
                # a number may be too long to be printed
                raise KeyError("version %s is not kept" % (number if abs(number) < 1 << 64 else "of that number"))
        if row is None or type(row[1]) is not bytes or len(row[1]) != DIGEST_BYTES:
            raise DamagedMap("the map states no root")
        # so that the next version has a number too
        if not (_is_count(row[0], 0) and _is_count(row[2], 0) and row[0] < _MOST - 1) or (row[1] == _NOTHING) != (row[2] == 0):
            raise DamagedMap("the map states no version, or no count of entries")
        return row[0], row[1], row[2]

    def node(self, digest: bytes) -> bytes:
        row = self.base.execute("SELECT bytes FROM node WHERE digest = ?", (digest,)).fetchone()
        if row is None or type(row[0]) is not bytes or len(row[0]) != 65 or row[0][0] > 1:
            raise DamagedMap("a node of the map is not there")
        node: bytes = row[0]
        return node

    def tree(self, root: bytes, keys: Sequence[bytes], removed: "frozenset[bytes]") -> Tuple[bytes, Dict[bytes, bytes]]:
        """The bytes of the tree that shows the ways of keys, and the tops of what stands alone once those that are removed are gone; and
        its nodes."""
        tree: List[bytes] = []
        met: Dict[bytes, bytes] = {}
        # what no key's way meets: where it stands in the tree, its digest, and that of the other side
        asides: List[Tuple[int, bytes, bytes]] = []
        parts: List[Tuple[bytes, int, Sequence[bytes], Optional[bytes]]] = [(root, 0, keys, None)]
        while parts:
            digest, level, own, other = parts.pop()
            if other is not None:
                asides.append((len(tree), digest, other))
            if other is not None or digest == _NOTHING:
                tree.append(_hidden(digest))
                continue
            node = met[digest] = self.node(digest)
            if node[0] == 0:
                tree.append(node)
                continue
            if level == 256:
                raise DamagedMap("a way of the map has no end")
            tree.append(node[:1])
            left = [key for key in own if not _has_bit(key, level)]
            right = [key for key in own if _has_bit(key, level)]
            parts.append((node[33:], level + 1, right, None if right else node[1:33]))
            parts.append((node[1:33], level + 1, left, None if left else node[33:]))
        gone = _cleared(met, removed)
        for place, digest, other in asides:
            if other in gone and digest != _NOTHING:
                node = met[digest] = self.node(digest)
                tree[place] = _alone(node)
        return b"".join(tree), met

    def put(self, number: int, root: bytes, entries: int, new: Dict[bytes, bytes], old: Dict[bytes, bytes]) -> None:
        """Writes a version: its nodes that it has in the place of old ones. Nothing is written that would be refused when it is read."""
        if number >= _MOST - 1 or not _is_count(entries, 0) or (root == _NOTHING) != (entries == 0):
            raise DamagedMap("the map states another count of entries, or its version is the last one")
        for digest in old:
            if self.base.execute("SELECT gone FROM node WHERE digest = ?", (digest,)).fetchone()[0] is not None:
                raise DamagedMap("a node of the map is stated to be gone")
        added = ((digest, node) for digest, node in new.items() if digest not in old)
        gone = [digest for digest in old if digest not in new]
        # a node of a version before may come back
        self.base.executemany(
            "INSERT INTO node (digest, bytes) VALUES (?, ?) ON CONFLICT (digest) DO UPDATE SET bytes = excluded.bytes, gone = NULL", added
        )
        if self.versions == 1:
            self.base.executemany("DELETE FROM node WHERE digest = ?", ((digest,) for digest in gone))
        else:
            self.base.executemany("UPDATE node SET gone = ? WHERE digest = ?", ((number, digest) for digest in gone))
        self.base.execute("INSERT INTO version VALUES (?, ?, ?)", (number, root, entries))
        if isinstance(self.versions, int):
            self.forget(number - self.versions + 1)

    def fill(self, root: bytes, entries: int, nodes: Iterable[Tuple[bytes, bytes]]) -> None:
        """Writes the first version of a map that never had any node."""
        number = self.head(None)[0]
        if number != 0:
            raise FileExistsError(errno.EEXIST, "another process keeps a map in the file", self.path)
        self.base.executemany("INSERT INTO node (digest, bytes) VALUES (?, ?)", nodes)
        self.base.execute("INSERT INTO version VALUES (?, ?, ?)", (number + 1, root, entries))
        if isinstance(self.versions, int):
            self.forget(number + 2 - self.versions)

    def forget(self, number: int) -> None:
        self.base.execute("DELETE FROM version WHERE number < ?", (number,))
        self.base.execute("DELETE FROM node WHERE gone <= ?", (number,))
