"""Trees whose digests are kept in memory or in a file, so that nothing is rebuilt. ``paxidore.Tree`` is the class of this module."""
import ctypes
import mmap
import os
from types import TracebackType
from typing import Any, Callable, Optional, Sequence, Type, Union

from ._library import (
    DIGEST_BYTES,
    SizeError,
    _bytes,
    _call,
    _exact,
    _Given,
    _Leaves,
    _hashing,
    _multi_path_room,
    _path_digests,
    _refusal,
    _size,
    _sizes,
    _word,
    _words,
)
from ._turn import Turn
from .trees import Trees, rfc6962

_Path = Union[str, "os.PathLike[str]"]
_memory = ctypes.c_void_p
# after so many leaves a build reports its progress
_STEP = 1024


_build = _call("tree_build", ctypes.c_int32, _memory, _size, _hashing, _bytes, _size, _sizes, _size)
_rebuild = _call("tree_rebuild", ctypes.c_int32, _memory, _size, _hashing)
_set = _call("tree_set", ctypes.c_int32, _memory, _size, _hashing, _size, _bytes, _size)
_set_many = _call("tree_set_many", ctypes.c_int32, _memory, _size, _hashing, _sizes, _size, _bytes, _size, _sizes, _size)
_root = _call("tree_root", ctypes.c_int32, _memory, _memory, _size)
_path = _call("tree_path", ctypes.c_int32, _memory, _size, _sizes, _memory, _size, _size)
_multi_path = _call("tree_multi_path", ctypes.c_int32, _memory, _size, _sizes, _memory, _size, _sizes, _size)
_check = _call("tree_check", ctypes.c_int32, _hashing, _memory, _size)
_join = _call("tree_join", ctypes.c_int32, _memory, _size, _hashing, _bytes, _size, _size)


def _leaf_count(length: int) -> int:
    # how many leaves the tree has that is so many bytes long
    size = (length // DIGEST_BYTES + 1) // 2
    if size < 2 or size & (size - 1) or length != _length(size):
        raise _refusal(SizeError.code)
    return size


def _length(size: int) -> int:
    return DIGEST_BYTES * (2 * size - 1)


class Tree:
    """A tree whose digests are kept: 32 bytes each, the root first, those of the leaves last (``paxidore.h`` has the places).

    ``Tree(memory)`` is the tree that stands in a writable buffer, as a ``bytearray``, which is not copied; ``Tree.build`` makes one
    of leaves, ``Tree.open`` maps a file. ``trees`` is the hashing, ``rfc6962`` or ``sha256``: the digests do not say it. A path or a
    root is what stands there, without hashing, so ask ``check`` of memory or a file that others may have written.

    Each method raises ``ValueError`` behind ``close``. Threads may share a tree: its calls run one after the other. While a tree
    is open, a buffer cannot be resized, no other may write its digests, and its file must not be made shorter.
    """

    def __init__(self, memory: Any, *, trees: Trees = rfc6962) -> None:
        if not isinstance(trees, Trees):
            raise TypeError("trees is rfc6962 or sha256, not %s" % type(trees).__name__)
        length = memoryview(memory).nbytes
        self._size = _leaf_count(length)
        self._length = 2 * self._size - 1
        self._path_bytes = ctypes.c_char * (16 + _path_digests(self._size))
        self._trees = trees
        self._turn = Turn()
        # it keeps the buffer from being resized or closed
        self._held: Optional[Any] = (ctypes.c_uint8 * length).from_buffer(memory)
        self._map: Optional[mmap.mmap] = None

    @classmethod
    def build(
        cls,
        leaves: _Leaves,
        path: Optional[_Path] = None,
        *,
        length: Optional[int] = None,
        trees: Trees = rfc6962,
        progress: Optional[Callable[[int], object]] = None,
    ) -> "Tree":
        """The tree above the leaves, in memory of its own, or in a file that is made at ``path``.

        With ``length``, here and in ``set_many``, the leaves stand one behind the other in a buffer, and each has so many bytes.

        ``progress`` is called after each 1,024 leaves, and at the end, with the count of leaves that are done. What it raises ends
        the build, and the file is removed.

        Raises ``SizeError``, ``FileExistsError`` where there is a file, ``OSError``, ``MemoryError``. A crash can leave a file that
        ``check`` does not find to be a tree.
        """
        given = _Given(leaves, length)
        room = _length(_leaf_count(_length(given.count)))
        if path is None:
            tree = cls(bytearray(room), trees=trees)
            tree._build(given, progress)
            return tree
        file = os.open(path, os.O_RDWR | os.O_CREAT | os.O_EXCL | os.O_CLOEXEC, 0o666)
        try:
            try:
                # a write to a page for which the disk has no room would end the process
                os.posix_fallocate(file, 0, room)
                tree = cls._mapped(file, trees)
            finally:
                os.close(file)
            tree._build(given, progress)
        except BaseException:
            os.unlink(path)
            raise
        return tree

    @classmethod
    def join(cls, parts: "Sequence[Tree]") -> "Tree":
        """The tree over all leaves of some trees of equal size and one hashing, as threads can build them, in memory of its own: their
        digests are copied, and only those above them are hashed. There are 1, 2, 4, 8 .. parts.

        Raises ``SizeError`` for another count and for parts of different sizes, ``ValueError`` for parts of different hashings.
        """
        if len({part._size for part in parts}) != 1:
            raise _refusal(SizeError.code)
        if len({part._trees._hashing for part in parts}) != 1:
            raise ValueError("the parts have different hashings")
        apart = b"".join([part._turn.run(part._copied) for part in parts])
        room = _length(_leaf_count(_length(parts[0]._size * len(parts))))
        tree = cls(bytearray(room), trees=parts[0]._trees)
        tree._done(_join, given=(tree._trees._hashing, apart, len(apart) // DIGEST_BYTES, len(parts)))
        return tree

    @classmethod
    def open(cls, path: _Path, *, trees: Trees = rfc6962) -> "Tree":
        """The tree in a file, which is mapped and not read. Raises ``SizeError`` where no tree has so many bytes, ``OSError``."""
        file = os.open(path, os.O_RDWR | os.O_CLOEXEC)
        try:
            return cls._mapped(file, trees)
        finally:
            os.close(file)

    @classmethod
    def _mapped(cls, file: int, trees: Trees) -> "Tree":
        length = os.fstat(file).st_size
        _leaf_count(length)
        mapped = mmap.mmap(file, length)
        tree = cls(mapped, trees=trees)
        tree._map = mapped
        return tree

    def __repr__(self) -> str:
        return "<paxidore.Tree of %d leaves, %r>" % (self._size, self._trees)

    def __len__(self) -> int:
        """The count of leaves."""
        return self._size

    def __enter__(self) -> "Tree":
        return self

    def __exit__(
        self, kind: Optional[Type[BaseException]], error: Optional[BaseException], trace: Optional[TracebackType]
    ) -> None:
        self.close()

    @property
    def root(self) -> bytes:
        """The root: the digest that stands first."""
        root = ctypes.create_string_buffer(DIGEST_BYTES)
        self._done(_root, root, given=())
        return root.raw

    def path(self, index: int) -> bytes:
        """The bytes of the path of an index, as it stands there. Raises ``IndexBeyondSize``."""
        word, path = _word("index", index), self._path_bytes()
        self._done(_path, path, len(path), _size(), given=(word,))
        return path.raw

    def multi_path(self, indexes: Sequence[int]) -> bytes:
        """The bytes of the multi-proof of some indexes, in any order, as it stands there; it shows them rising and each once.

        Raises ``IndexBeyondSize`` also where there is no index, ``OutOfMemory``.
        """
        given, count = _words("an index", indexes), _size()
        room = _multi_path_room(self._size, given[1])
        proof = ctypes.create_string_buffer(room)
        self._done(_multi_path, proof, room, ctypes.byref(count), given=given)
        return ctypes.string_at(proof, count.value)

    def set(self, index: int, leaf: bytes) -> None:
        """Changes a leaf: writes its digest and those above it, from the lowest up. Raises ``IndexBeyondSize``."""
        self._done(_set, given=(self._trees._hashing, _word("index", index), _exact("leaf", leaf), len(leaf)))

    def set_many(self, indexes: Sequence[int], leaves: _Leaves, *, length: Optional[int] = None) -> None:
        """Changes leaves, one for each index, one after the other. Where the indexes rise, each digest above them is hashed once.

        Raises ``CountError``, ``IndexBeyondSize``.
        """
        given = _Given(leaves, length)
        self._done(_set_many, given=(self._trees._hashing, *_words("an index", indexes), *given.all()))

    def check(self) -> bool:
        """Whether each digest above those of the leaves is the hash of the two below it. It hashes as much as ``rebuild``."""
        return self._answer(_check, self._trees._hashing, given=()) == 0

    def rebuild(self) -> None:
        """Writes all digests above those of the leaves that stand there."""
        self._done(_rebuild, given=(self._trees._hashing,))

    def flush(self) -> None:
        """Waits until what was written is on the disk, where the tree is in a file."""
        self._turn.run(self._flush)

    def _flush(self) -> None:
        self._place()
        if self._map is not None:
            self._map.flush()

    def close(self) -> None:
        """Lets go of the memory or the file. What was written stays."""
        self._turn.run(self._close)

    def _close(self) -> None:
        self._held = None
        if self._map is not None:
            self._map.close()

    def _build(self, leaves: _Given, progress: Optional[Callable[[int], object]]) -> None:
        try:
            if progress is None:
                self._done(_build, given=(self._trees._hashing, *leaves.all()))
                return
            # each step hashes the places above its leaves; those that later steps lie under are hashed again by these
            for start in range(0, leaves.count, _STEP):
                end = min(start + _STEP, leaves.count)
                step = (*_words("an index", range(start, end)), *leaves.flat(start, end))
                self._done(_set_many, given=(self._trees._hashing, *step))
                progress(end)
        except BaseException:
            self.close()
            raise

    def _copied(self) -> bytes:
        return bytes(self._place())

    def _place(self) -> Any:
        if self._held is None:
            raise ValueError("the tree is closed")
        return self._held

    def _answer(self, call: Any, *before: Any, given: Any) -> int:
        answer: int = self._turn.run(self._asked, call, before, given)
        if answer < 0:
            raise _refusal(answer)
        return answer

    def _asked(self, call: Any, before: Any, given: Any) -> Any:
        # the memory is an argument of the call alone: no frame keeps it, so that it can be closed while an exception is kept
        return call(*before, self._place(), self._length, *given)

    def _done(self, call: Any, *before: Any, given: Any) -> None:
        self._answer(call, *before, given=given)
