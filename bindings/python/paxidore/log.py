"""Logs of any size, for whoever keeps one and for clients. ``paxidore.Log`` is the class of this module."""
import ctypes
import itertools
import os
from typing import Any, Callable, Iterable, Optional, Sequence, Tuple

from ._library import (
    DIGEST_BYTES,
    _bytes,
    _call,
    _digest,
    _exact,
    _Flat,
    _Given,
    _Leaves,
    _leaves,
    _path_digests,
    _refusal,
    _size,
    _sizes,
    _word,
    _words,
)
from ._log_file import _File
from ._turn import Turn

_log_kept = _call("log_kept", _size, _size)
_log_append = _call("log_append", ctypes.c_int32, ctypes.c_void_p, _size, _sizes, ctypes.c_void_p, _size, _size, *_leaves)
_log_join = _call("log_join", ctypes.c_int32, ctypes.c_void_p, _size, _sizes, ctypes.c_void_p, _size, _size, _bytes, _size, _size)
_log_root = _call("log_root", ctypes.c_int32, ctypes.c_void_p, ctypes.c_void_p, _size, _size)
_log_path = (ctypes.c_void_p, _size, _sizes, ctypes.c_void_p, _size, _size, _size)
_log_inclusion = _call("log_inclusion", ctypes.c_int32, *_log_path)
_log_consistency = _call("log_consistency", ctypes.c_int32, *_log_path)
_log_multi_inclusion = _call("log_multi_inclusion", ctypes.c_int32, *_log_path[:-1], _sizes, _size)
_log_check = _call("log_check", ctypes.c_int32, ctypes.c_void_p, _size, _size)


class _Memory:
    """Stored digests in memory."""

    def __init__(self) -> None:
        self.own = 0
        self.digests = bytearray()

    # What is lent is an argument of the call alone: no frame keeps it, so that an exception which is kept holds nothing.
    def lent(self) -> "ctypes.Array[ctypes.c_char]":
        return (ctypes.c_char * len(self.digests)).from_buffer(self.digests)

    def opened(self) -> "_Memory":
        return self

    def count(self) -> int:
        return len(self.digests) // DIGEST_BYTES

    def size(self) -> int:
        return self.own

    def append(self, flat: "_Flat") -> int:
        return self.grow(_log_append, flat[3], *flat)

    def join(self, size: int, digests: bytes) -> int:
        return self.grow(_log_join, size, digests, len(digests) // DIGEST_BYTES, size)

    def grow(self, call: Any, entries: int, *given: Any) -> int:
        size, count = self.own + entries, _size()
        room = max(_log_kept(size) - _log_kept(self.own), 0)
        more = ctypes.create_string_buffer(DIGEST_BYTES * room)
        answer = call(more, room, ctypes.byref(count), self.lent(), self.count(), self.own, *given)
        if answer != 0:
            raise _refusal(answer)
        added = ctypes.string_at(more, DIGEST_BYTES * count.value)
        # behind the stored ones, where an interrupted append may have left some
        at = DIGEST_BYTES * _log_kept(self.own)
        try:
            self.digests[at:] = added
        except BufferError:
            # an interrupted call still has what was lent to it
            self.digests = self.digests[:at] + added
        self.own = size
        return size

    def root(self, root: "ctypes.Array[ctypes.c_char]", size: int) -> int:
        answer: int = _log_root(root, self.lent(), self.count(), size)
        return answer

    def inclusion(self, path: "ctypes.Array[ctypes.c_char]", count: _size, size: int, index: int) -> int:
        answer: int = _log_inclusion(path, len(path), ctypes.byref(count), self.lent(), self.count(), size, index)
        return answer

    def consistency(self, proof: "ctypes.Array[ctypes.c_char]", count: _size, old_size: int, size: int) -> int:
        answer: int = _log_consistency(proof, len(proof), ctypes.byref(count), self.lent(), self.count(), old_size, size)
        return answer

    def multi_inclusion(self, proof: "ctypes.Array[ctypes.c_char]", count: _size, size: int, *given: Any) -> int:
        answer: int = _log_multi_inclusion(proof, len(proof), ctypes.byref(count), self.lent(), self.count(), size, *given)
        return answer

    def check(self) -> int:
        answer: int = _log_check(self.lent(), self.count(), self.own)
        return answer

    def close(self) -> None:
        self.digests = bytearray()


# how many entries `Log.extend` appends at once
_BATCH = 1024

# no proof has more digests
_PROOF_BYTES = 64 * DIGEST_BYTES


class Log:
    """A transparency log of any size (RFC 6962 and RFC 9162, section 2.1), for whoever keeps it and for its clients.

    ``Log()`` keeps the stored digests in memory, ``Log.open(path)`` in a file. They are those of the complete subtrees, fewer than
    two an entry; the entries themselves are not kept. The log publishes its root and its size. Its proofs are their digests alone,
    32 bytes each, in the order of the standard; ``Log.verify_inclusion`` and ``Log.verify_consistency`` check them for a client.

    Threads may share a log: its calls run one after the other. A call within a call of the same thread, as in a signal's handler,
    raises ``RuntimeError``. A file is locked while it is open to be appended to (``flock``). A forked process does not have the file
    of its parent's log: there each call raises ``ValueError``; one that is open for reading only it has. So does an append to a
    file that was moved, removed or replaced while it was open: what it wrote is not in the log of that name.
    """

    _inclusion = _call("log_verify_inclusion", ctypes.c_int32, _bytes, _size, _size, _bytes, _size, _bytes, _size)
    _inclusion_digest = _call("log_verify_inclusion_digest", ctypes.c_int32, _bytes, _size, _size, _bytes, _bytes, _size)
    _multi_inclusion = _call("log_verify_multi_inclusion", ctypes.c_int32, _bytes, _size, _sizes, _size, *_leaves, _bytes, _size)
    _consistency = _call("log_verify_consistency", ctypes.c_int32, _bytes, _size, _bytes, _size, _bytes, _size)

    def __init__(self) -> None:
        self._kept: "Optional[_Memory | _File]" = _Memory()
        self._turn = Turn()

    @classmethod
    def open(cls, path: "os.PathLike[str] | str", *, read_only: bool = False, wait: float = 0) -> "Log":
        """The log that a file keeps; a new one where there is no such file.

        The log has the entries of the last append that returned, or also those of the one that was under way. Opening it to append
        writes a sector again that was lost, or else the head as it is, and syncs it. Where the file is open already, it waits
        for at most so many seconds. A log that is open for reading only needs no lock, and sees what its keeper appends; it has
        to be there.

        Raises ``NoLog``, ``DamagedHead`` and ``ShortLog``, which are ``ValueError``, where the file is no log's, its head is damaged
        or it ends early, as it does once it was made shorter; ``BlockingIOError`` where it is still open, ``OSError``.
        """
        log = cls.__new__(cls)
        log._kept, log._turn = None, Turn()
        try:
            log._kept = _File(path, read_only, wait)
            return log
        except BaseException:
            log.close()
            raise

    def close(self) -> None:
        """Closes the file. The log cannot be used any more. A second call does nothing."""
        self._turn.run(self._close)

    def _close(self) -> None:
        if self._kept is not None:
            self._kept.close()
        self._kept = None

    def __enter__(self) -> "Log":
        return self

    def __exit__(self, *error: object) -> None:
        self.close()

    def _open(self) -> "_Memory | _File":
        if self._kept is None:
            raise ValueError("the log is closed")
        return self._kept.opened()

    def __len__(self) -> int:
        return self._turn.run(self._count)

    def _count(self) -> int:
        return self._open().size()

    def __repr__(self) -> str:
        if self._kept is None:
            return "<paxidore.Log, closed>"
        return "<paxidore.Log of %d entries>" % self._kept.own

    def __reduce__(self) -> str:
        raise TypeError("a Log is neither copied nor pickled")

    def append(self, entries: _Leaves, *, length: "Optional[int]" = None) -> int:
        """Appends entries, whole or not at all, and returns the new size. In a file they are synced then. With ``length`` they stand one
        behind the other in a buffer, and each has so many bytes.

        Raises ``SizeError`` for a size of 2^63 and above, ``OutOfMemory``; ``OSError``, after which a log in a file has the entries or
        has them not: where it has to be opened again, each call says so.
        """
        return self._turn.run(self._append, _Given(entries, length).all())

    def _append(self, flat: _Flat) -> int:
        return self._open().append(flat)

    def join(self, part: "Log") -> int:
        """Appends the entries of a part, a log whose own entries were hashed apart, as in a thread, and returns the new size: its digests
        are copied, and only those above them are hashed. Both logs are in memory, else ``ValueError``.

        A power of two that is at least the part's size has to divide this log's, else ``SizeError``: cut entries into parts of 2^k and
        a shorter last one, and join them in order.
        """
        return self._turn.run(self._join, *part._turn.run(part._stored))

    def _join(self, size: int, digests: bytes) -> int:
        return self._in_memory().join(size, digests)

    def _stored(self) -> "Tuple[int, bytes]":
        kept = self._in_memory()
        return kept.own, bytes(kept.digests)

    def _in_memory(self) -> _Memory:
        kept = self._open()
        if not isinstance(kept, _Memory):
            raise ValueError("a log in a file is not joined")
        return kept

    def extend(self, entries: Iterable[bytes], *, progress: Optional[Callable[[int], object]] = None) -> int:
        """Appends entries as they come, 1,024 at a time, and returns the new size. ``progress`` is called with the size after each append.

        An error, of an append or of what the entries come from, and what ``progress`` raises, leave the entries of the appends before.
        """
        left = iter(entries)
        while batch := list(itertools.islice(left, _BATCH)):
            size = self.append(batch)
            if progress is not None:
                progress(size)
        return len(self)

    def root(self, size: "Optional[int]" = None) -> bytes:
        """The root of the first ``size`` entries, of all where none is given. Raises ``SizeError`` for more than there are."""
        root = ctypes.create_string_buffer(DIGEST_BYTES)
        answer = self._turn.run(self._root, root, size)
        if answer != 0:
            raise _refusal(answer)
        return root.raw

    def _root(self, root: "ctypes.Array[ctypes.c_char]", size: "Optional[int]") -> int:
        kept = self._open()
        return kept.root(root, self._of(kept, size))

    @staticmethod
    def _of(kept: "_Memory | _File", size: "Optional[int]") -> int:
        return kept.size() if size is None else _word("size", size)

    def inclusion(self, index: int, *, size: "Optional[int]" = None) -> bytes:
        """The bytes of the path of an index in the first ``size`` entries.

        Raises ``SizeError`` for more than there are, ``IndexBeyondSize``, ``OutOfMemory``.
        """
        path, count = ctypes.create_string_buffer(_PROOF_BYTES), _size()
        answer = self._turn.run(self._path, path, count, _word("index", index), size)
        if answer != 0:
            raise _refusal(answer)
        return ctypes.string_at(path, count.value)

    def _path(self, path: "ctypes.Array[ctypes.c_char]", count: _size, index: int, size: "Optional[int]") -> int:
        kept = self._open()
        return kept.inclusion(path, count, self._of(kept, size), index)

    def multi_inclusion(self, indexes: Sequence[int], *, size: "Optional[int]" = None) -> bytes:
        """The bytes of the one proof of some rising indexes in the first ``size`` entries of a log in memory.

        Raises ``SizeError`` for more than there are, ``IndexBeyondSize``, also for no index and for one that does not rise,
        ``OutOfMemory``; ``ValueError`` for a log in a file.
        """
        return self._turn.run(self._multi, _words("an index", indexes), size)

    def _multi(self, given: "Tuple[Any, int]", size: "Optional[int]") -> bytes:
        kept, count = self._open(), _size()
        if not isinstance(kept, _Memory):
            raise ValueError("a log in a file has no proof of several entries")
        most = min(self._of(kept, size), kept.size())
        proof = ctypes.create_string_buffer(_path_digests(most) * min(given[1], most))
        answer = kept.multi_inclusion(proof, count, self._of(kept, size), *given)
        if answer != 0:
            raise _refusal(answer)
        return ctypes.string_at(proof, count.value)

    def consistency(self, old_size: int, size: "Optional[int]" = None) -> bytes:
        """The bytes of the proof that the first ``size`` entries continue the first ``old_size`` ones.

        Raises ``SizeError`` also for the old size 0 and for one above the size; ``OutOfMemory``.
        """
        proof, count = ctypes.create_string_buffer(_PROOF_BYTES), _size()
        answer = self._turn.run(self._continued, proof, count, _word("old_size", old_size), size)
        if answer != 0:
            raise _refusal(answer)
        return ctypes.string_at(proof, count.value)

    def _continued(self, proof: "ctypes.Array[ctypes.c_char]", count: _size, old: int, size: "Optional[int]") -> int:
        kept = self._open()
        return kept.consistency(proof, count, old, self._of(kept, size))

    def check(self) -> bool:
        """Whether each stored digest of two others is their hash. All of them are read and hashed."""
        answer = self._turn.run(self._checked)
        if answer < 0:
            raise _refusal(answer)
        return answer == 0

    def _checked(self) -> int:
        return self._open().check()

    @staticmethod
    def verify_inclusion_digest(root: bytes, size: int, index: int, digest: bytes, path: bytes) -> bool:
        """As ``verify_inclusion``, of an entry that is known by its digest: the SHA-256 of a zero byte and the entry."""
        _digest(root), _digest(digest, "digest"), _exact("path", path)
        place = _word("size", size), _word("index", index)
        answer: int = Log._inclusion_digest(root, *place, digest, path, len(path))
        if answer < 0:
            raise _refusal(answer)
        return answer == 0

    @staticmethod
    def verify_inclusion(root: bytes, size: int, index: int, entry: bytes, path: bytes) -> bool:
        """Whether the path shows that the entry stands at the index of the log of ``size`` entries with this root.

        ``False`` says that the path was read and leads elsewhere. Raises ``IndexBeyondSize``, ``TruncatedProof``,
        ``InvalidProof``, ``OutOfMemory``.
        """
        _digest(root), _exact("entry", entry), _exact("path", path)
        place = _word("size", size), _word("index", index)
        answer: int = Log._inclusion(root, *place, entry, len(entry), path, len(path))
        if answer < 0:
            raise _refusal(answer)
        return answer == 0

    @staticmethod
    def verify_multi_inclusion(
        root: bytes, size: int, indexes: Sequence[int], entries: _Leaves, proof: bytes, *, length: "Optional[int]" = None
    ) -> bool:
        """Whether one proof shows that each entry stands at its index of the log of ``size`` entries with this root. The indexes rise.

        Raises ``CountError`` for another count of entries, ``IndexBeyondSize``, also for no index and for one that does not rise,
        ``TruncatedProof``, ``InvalidProof``, ``OutOfMemory``. ``length`` is as in ``append``.
        """
        _digest(root), _exact("proof", proof)
        given = *_words("an index", indexes), *_Given(entries, length).all()
        answer: int = Log._multi_inclusion(root, _word("size", size), *given, proof, len(proof))
        if answer < 0:
            raise _refusal(answer)
        return answer == 0

    @staticmethod
    def verify_consistency(old_root: bytes, old_size: int, new_root: bytes, new_size: int, proof: bytes) -> bool:
        """Whether the proof shows that the log with the new root and size continues the one with the old root and size.

        Raises ``SizeError`` for the old size 0 and for one above the new size; ``TruncatedProof``, ``InvalidProof``,
        ``OutOfMemory``.
        """
        old = _digest(old_root, "old_root"), _word("old_size", old_size)
        new = _digest(new_root, "new_root"), _word("new_size", new_size)
        answer: int = Log._consistency(*old, *new, _exact("proof", proof), len(proof))
        if answer < 0:
            raise _refusal(answer)
        return answer == 0
