"""Trees of leaves that are handed over. ``paxidore.sha256`` and ``paxidore.rfc6962`` are of this module."""
import ctypes
from typing import Optional, Sequence

from ._library import (
    DIGEST_BYTES,
    _bytes,
    _call,
    _digest,
    _exact,
    _Given,
    _hashing,
    _Leaves,
    _leaves,
    _multi_path_room,
    _path_digests,
    _refusal,
    _size,
    _sizes,
    _word,
    _words,
)

_buffer = (ctypes.c_void_p, _size, _sizes)
_verify = _call("verify", ctypes.c_int32, _hashing, _bytes, _size, _size, _bytes, _size, _bytes, _size)
_multi_verify = _call("multi_verify", ctypes.c_int32, _hashing, _bytes, _size, _sizes, _size, *_leaves, _bytes, _size)
_root = _call("root", ctypes.c_int32, ctypes.c_void_p, _hashing, *_leaves)
_path = _call("path", ctypes.c_int32, *_buffer, _hashing, *_leaves, _size)
_multi_path = _call("multi_path", ctypes.c_int32, *_buffer, _hashing, *_leaves, _sizes, _size)


class Trees:
    """The calls of one hashing: ``sha256`` or ``rfc6962``."""

    def __init__(self, name: str, hashing: int) -> None:
        self.name = name
        self._hashing = hashing

    def __repr__(self) -> str:
        return "paxidore." + self.name

    def verify(self, root: bytes, size: int, index: int, leaf: bytes, path: bytes) -> bool:
        """Whether the path shows that the leaf stands at the index of the tree of ``size`` leaves with this root.

        ``False`` says that the path was read and leads elsewhere. Raises ``SizeError``, ``IndexBeyondSize``, ``TruncatedProof``,
        ``InvalidProof``, ``HeightError``, ``OutOfMemory``. As all calls do: ``TypeError`` where an argument is not ``bytes`` itself, or no ``int``,
        ``ValueError`` where the root has not 32 bytes, ``OverflowError`` where a number has not 64 bits.
        """
        _digest(root), _exact("leaf", leaf), _exact("path", path)
        place = _word("size", size), _word("index", index)
        answer: int = _verify(self._hashing, root, *place, leaf, len(leaf), path, len(path))
        if answer < 0:
            raise _refusal(answer)
        return answer == 0

    def multi_verify(
        self, root: bytes, size: int, indexes: Sequence[int], leaves: Sequence[bytes], proof: bytes
    ) -> bool:
        """Whether the proof shows each leaf at its index. The indexes rise, and there are as many leaves.

        Raises as ``verify`` does, ``IndexBeyondSize`` also where there is no index, and ``CountError``.
        """
        answer: int = _multi_verify(
            self._hashing,
            _digest(root),
            _word("size", size),
            *_words("an index", indexes),
            *_Given(leaves).all(),
            _exact("proof", proof),
            len(proof),
        )
        if answer < 0:
            raise _refusal(answer)
        return answer == 0

    def root(self, leaves: _Leaves, *, length: Optional[int] = None) -> bytes:
        """The root of the tree above the leaves. Raises ``SizeError``, ``OutOfMemory``.

        With ``length``, here and below, the leaves stand one behind the other in a buffer, as ``bytes`` or an array, and each has so many
        bytes: ``ValueError`` where the buffer has no whole leaves.
        """
        root = ctypes.create_string_buffer(DIGEST_BYTES)
        answer: int = _root(root, self._hashing, *_Given(leaves, length).all())
        if answer != 0:
            raise _refusal(answer)
        return root.raw

    def path(self, leaves: _Leaves, index: int, *, length: Optional[int] = None) -> bytes:
        """The bytes of the path of an index. Raises ``SizeError``, ``IndexBeyondSize``, ``OutOfMemory``."""
        flat, count = _Given(leaves, length).all(), _size()
        # as many as the path has
        room = 16 + _path_digests(flat[3])
        path = ctypes.create_string_buffer(room)
        answer: int = _path(path, room, ctypes.byref(count), self._hashing, *flat, _word("index", index))
        if answer != 0:
            raise _refusal(answer)
        return ctypes.string_at(path, count.value)

    def multi_path(self, leaves: _Leaves, indexes: Sequence[int], *, length: Optional[int] = None) -> bytes:
        """The bytes of the multi-proof of some indexes, in any order; it shows them rising and each once.

        Raises as ``path`` does.
        """
        flat, given, count = _Given(leaves, length).all(), _words("an index", indexes), _size()
        room = _multi_path_room(flat[3], given[1])
        proof = ctypes.create_string_buffer(room)
        answer: int = _multi_path(proof, room, ctypes.byref(count), self._hashing, *flat, *given)
        if answer != 0:
            raise _refusal(answer)
        return ctypes.string_at(proof, count.value)


sha256 = Trees("sha256", 1)
rfc6962 = Trees("rfc6962", 2)
