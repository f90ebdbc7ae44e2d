"""circomlib's Poseidon hash of 1 to 16 elements of the scalar field of BN254. ``paxidore.poseidon`` is this module.

Elements are numbers below ``MODULUS``, or bytes in an order that is named as in ``int.to_bytes``::

    from paxidore import poseidon

    poseidon.hash([1, 2])
    poseidon.hash_bytes([bytes(31) + b"\\x01", bytes(31) + b"\\x02"], "big")

``Log`` keeps a log over the hash of two: a LeanIMT, as Semaphore has it. Its leaves are the elements themselves, and a node without a
sibling is its own parent::

    log = poseidon.Log()
    log.append([11, 12, 13])
    poseidon.verify(log.root(), 3, 1, 12, log.inclusion(1))
    log.set(0, 0)

The last line removes a member as Semaphore does: its leaf becomes 0, and all others stay at their indexes.

The first hash of so many elements generates the constants for that count, which takes milliseconds.
"""
import ctypes
import itertools
from typing import Any, Dict, Iterable, Optional, Sequence, Tuple

from ._library import (
    DIGEST_BYTES,
    CountError,
    Refused,
    _bytes,
    _call,
    _exact,
    _int,
    _path_digests,
    _refusal,
    _size,
    _sizes,
    _word,
)
from ._turn import Turn

__all__ = ["MODULUS", "MOST_INPUTS", "ElementError", "Log", "hash", "hash_bytes", "path", "root", "verify", "verify_insertion"]

_table = _call("poseidon_table", ctypes.c_int32, ctypes.c_void_p, _size, ctypes.POINTER(_size), _size)
_hash = _call("poseidon", ctypes.c_int32, ctypes.c_void_p, ctypes.c_uint32, _bytes, _size, _bytes, _size)

_given = (_bytes, _size, _bytes, _size)
_kept = (_bytes, _size, ctypes.c_void_p, _size, _size)
_written = (ctypes.c_void_p, _size, _sizes)
_root = _call("poseidon_root", ctypes.c_int32, ctypes.c_void_p, *_given)
_path = _call("poseidon_path", ctypes.c_int32, *_written, *_given, _size)
_verify = _call("poseidon_verify", ctypes.c_int32, _bytes, _size, _bytes, _size, _size, _bytes, _bytes, _size)
_log_append = _call("poseidon_log_append", ctypes.c_int32, *_written, *_kept, _bytes, _size)
_log_kept = _call("log_kept", _size, _size)
_log_root = _call("poseidon_log_root", ctypes.c_int32, ctypes.c_void_p, *_kept)
_log_inclusion = _call("poseidon_log_inclusion", ctypes.c_int32, *_written, *_kept, _size)
_log_set = _call("poseidon_log_set", ctypes.c_int32, ctypes.c_void_p, _size, _bytes, _size, _size, _size, _bytes)
_log_insertion = _call("poseidon_log_insertion", ctypes.c_int32, *_written, ctypes.c_void_p, _size, _size)
_verify_insertion = _call("poseidon_log_verify_insertion", ctypes.c_int32, ctypes.c_void_p, *_given, *_given)

MODULUS = 0x30644E72E131A029B85045B68181585D2833E84879B9709143E1F593F0000001
MOST_INPUTS = 16

_ORDERS = {"little": 1, "big": 2}


class ElementError(Refused, ValueError):
    """A number is no element of the field: it is below 0, or not below the modulus."""

    code = -3


# by the count of inputs; two threads may make the same table
_tables: Dict[int, bytes] = {}


def _table_for(count: int) -> bytes:
    found = _tables.get(count)
    if found is not None:
        return found
    if not 1 <= count <= MOST_INPUTS:
        raise CountError("a hash takes 1 to 16 elements, not %d" % count)
    size = _size(0)
    # as the header has it
    room = ctypes.create_string_buffer(9 + 32 * ((count + 1) * (count + 11) + count * (2 * count + 1) + 70))
    answer = _table(room, len(room), ctypes.byref(size), count)
    if answer != 0:
        raise _refusal(answer)
    table = room.raw[: size.value]
    _tables[count] = table
    return table


def _hash_joined(inputs: bytes, count: int, byteorder: str) -> bytes:
    table = _table_for(count)
    digest = ctypes.create_string_buffer(DIGEST_BYTES)
    answer = _hash(digest, _ORDERS[byteorder], table, len(table), inputs, len(inputs))
    if answer == ElementError.code:
        raise ElementError("an element is not below the modulus")
    if answer != 0:
        raise _refusal(answer)
    return digest.raw


def _element(number: int, name: str = "an element") -> bytes:
    element = _int(name, number)
    if not 0 <= element < MODULUS:
        raise ElementError("%s is not below the modulus" % name)
    return element.to_bytes(32, "little")


def hash(inputs: Sequence[int]) -> int:
    """Returns the hash of 1 to 16 numbers below ``MODULUS``. ``ElementError``, ``CountError``, ``OutOfMemory``."""
    elements = tuple(map(_element, inputs))
    return int.from_bytes(_hash_joined(b"".join(elements), len(elements), "little"), "little")


def hash_bytes(inputs: Sequence[bytes], byteorder: str) -> bytes:
    """Returns the hash of 1 to 16 elements of 32 bytes each, in the byte order "little" or "big", as 32 bytes in the same order.

    ``ElementError``, ``CountError``, ``OutOfMemory``; ``ValueError`` for other bytes or another order."""
    if byteorder not in _ORDERS:
        raise ValueError('byteorder is "little" or "big"')
    elements = tuple(_exact("an element", element) for element in inputs)
    for element in elements:
        if len(element) != 32:
            raise ValueError("an element has 32 bytes, not %d" % len(element))
    return _hash_joined(b"".join(elements), len(elements), byteorder)


def root(elements: Sequence[int]) -> int:
    """Returns the root of a list of numbers below ``MODULUS``. ``SizeError`` for no element, ``ElementError``, ``OutOfMemory``."""
    given, table = b"".join(map(_element, elements)), _table_for(2)
    written = ctypes.create_string_buffer(DIGEST_BYTES)
    answer = _root(written, table, len(table), given, len(given) // DIGEST_BYTES)
    if answer != 0:
        raise _refusal(answer)
    return int.from_bytes(written.raw, "little")


def path(elements: Sequence[int], index: int) -> bytes:
    """Returns the bytes of the path of an index: 32 for each digest, the least first, from the element up.

    ``SizeError`` for no element, ``IndexBeyondSize``, ``ElementError``, ``OutOfMemory``."""
    given, table, place = b"".join(map(_element, elements)), _table_for(2), _word("index", index)
    count, length = len(given) // DIGEST_BYTES, _size()
    # as many as a path has at most
    room = _path_digests(count)
    written = ctypes.create_string_buffer(room)
    answer = _path(written, room, ctypes.byref(length), table, len(table), given, count, place)
    if answer != 0:
        raise _refusal(answer)
    return ctypes.string_at(written, length.value)


def verify(root: int, size: int, index: int, element: int, path: bytes) -> bool:
    """Whether the path shows that the element stands at the index among ``size`` elements with this root.

    ``False`` says that the path was read and leads elsewhere. ``SizeError`` for no element, ``IndexBeyondSize``, ``TruncatedProof``,
    ``InvalidProof`` where the path has more bytes or a digest that is not below the modulus, ``ElementError``, ``OutOfMemory``."""
    expected, leaf, table = _element(root, "the root"), _element(element), _table_for(2)
    place = _word("size", size), _word("index", index)
    answer = _verify(table, len(table), expected, *place, leaf, _exact("path", path), len(path))
    if answer < 0:
        raise _refusal(answer)
    return bool(answer == 0)


def verify_insertion(root: int, size: int, elements: Sequence[int], proof: bytes) -> "Optional[int]":
    """The root of a log of ``size`` elements with these behind them, by its root and size: what Semaphore's ``insertMany`` comes to.

    Know the size as you know the root: a proof makes the root under each size with as many ones in binary, and what is returned under
    a wrong one may be the root of no list. The proof is what ``Log.insertion_proof`` returns. ``None`` says that it was read and does
    not make the root. ``SizeError`` for a log of no element, ``TruncatedProof``, ``InvalidProof`` where the proof has more bytes or a
    digest that is not below the modulus, ``ElementError``, ``OutOfMemory``."""
    table, place = _table_for(2), _word("size", size)
    known, given = _element(root, "the root"), b"".join(map(_element, elements))
    written = ctypes.create_string_buffer(DIGEST_BYTES)
    behind = given, len(given) // DIGEST_BYTES, _exact("proof", proof), len(proof)
    answer = _verify_insertion(written, table, len(table), known, place, *behind)
    if answer < 0:
        raise _refusal(answer)
    return int.from_bytes(written.raw, "little") if answer == 0 else None


# how many elements `Log.extend` appends at once, and the room for a path of any size
_BATCH = 1024
_PATH_BYTES = 63 * DIGEST_BYTES


class Log:
    """A log over the hash of two elements: a LeanIMT, as Semaphore has it, of any size above 0.

    It keeps the stored digests in memory: those of the complete subtrees, the elements themselves among them, fewer than two an element.
    Threads may share it: its calls run one after the other.
    """

    def __init__(self) -> None:
        self._size = 0
        self._digests = bytearray()
        self._turn = Turn()

    def __len__(self) -> int:
        size: int = self._turn.run(getattr, self, "_size")
        return size

    def __repr__(self) -> str:
        return "<paxidore.poseidon.Log of %d elements>" % self._size

    def __reduce__(self) -> str:
        raise TypeError("a Log is neither copied nor pickled")

    # what is lent is an argument of the call alone
    def _lent_digests(self) -> "Tuple[ctypes.Array[ctypes.c_char], int]":
        digests = self._digests
        return (ctypes.c_char * len(digests)).from_buffer(digests), len(digests) // DIGEST_BYTES

    def _lent(self, size: int) -> "Tuple[bytes, int, ctypes.Array[ctypes.c_char], int, int]":
        table = _table_for(2)
        return (table, len(table), *self._lent_digests(), size)

    def append(self, elements: Sequence[int]) -> int:
        """Appends numbers below ``MODULUS``, whole or not at all, and returns the new size. ``ElementError``, ``OutOfMemory``."""
        return self._turn.run(self._append, b"".join(map(_element, elements)))

    def _append(self, given: bytes) -> int:
        count, written = len(given) // DIGEST_BYTES, _size()
        # no append writes more
        room = 2 * count + 62
        more = ctypes.create_string_buffer(DIGEST_BYTES * room)
        answer = _log_append(more, room, ctypes.byref(written), *self._lent(self._size), given, count)
        if answer != 0:
            raise _refusal(answer)
        added = ctypes.string_at(more, DIGEST_BYTES * written.value)
        # behind the stored ones, where an interrupted append may have left some
        at = DIGEST_BYTES * _log_kept(self._size)
        try:
            self._digests[at:] = added
        except BufferError:
            # an interrupted call still has what was lent to it
            self._digests = self._digests[:at] + added
        self._size += count
        return self._size

    def extend(self, elements: Iterable[int]) -> int:
        """Appends numbers as they come, 1,024 at a time, and returns the new size. An error leaves those of the appends before."""
        left = iter(elements)
        while batch := list(itertools.islice(left, _BATCH)):
            self.append(batch)
        return len(self)

    def set(self, index: int, element: int) -> None:
        """Changes the element at an index, and hashes the complete subtrees over it: at most one pair a level.

        Roots and paths of earlier sizes are then those of the changed elements too. Semaphore sets a member that leaves to 0, and a
        member's new commitment in place of the old one. ``IndexBeyondSize``, ``ElementError``, ``OutOfMemory``: each leaves the log."""
        self._turn.run(self._set, _word("index", index), _element(element))

    def _set(self, place: int, given: bytes) -> None:
        table = _table_for(2)
        answer = _log_set(*self._lent_digests(), table, len(table), self._size, place, given)
        if answer != 0:
            raise _refusal(answer)

    def root(self, size: "Optional[int]" = None) -> int:
        """The root of the first ``size`` elements, of all where none is given. ``SizeError`` for more than there are, and for none."""
        written = ctypes.create_string_buffer(DIGEST_BYTES)
        answer = self._turn.run(self._asked, _log_root, (written,), size)
        if answer != 0:
            raise _refusal(answer)
        return int.from_bytes(written.raw, "little")

    def inclusion(self, index: int, *, size: "Optional[int]" = None) -> bytes:
        """The bytes of the path of an index in the first ``size`` elements, as ``path`` returns them.

        ``SizeError`` for more than there are, and for none, ``IndexBeyondSize``, ``OutOfMemory``."""
        written, length, place = ctypes.create_string_buffer(_PATH_BYTES), _size(), _word("index", index)
        answer = self._turn.run(self._asked, _log_inclusion, (written, _PATH_BYTES, ctypes.byref(length)), size, place)
        if answer != 0:
            raise _refusal(answer)
        return ctypes.string_at(written, length.value)

    def insertion_proof(self, *, size: "Optional[int]" = None) -> bytes:
        """The bytes of the proof of an insertion behind the first ``size`` elements, for ``verify_insertion``: the roots of the complete
        subtrees into which they fall, the largest first. ``SizeError`` for more than there are, and for none."""
        written, length = ctypes.create_string_buffer(_PATH_BYTES), _size()
        answer = self._turn.run(self._insertion_proof, (written, _PATH_BYTES, ctypes.byref(length)), size)
        if answer != 0:
            raise _refusal(answer)
        return ctypes.string_at(written, length.value)

    def _insertion_proof(self, before: Any, size: "Optional[int]") -> Any:
        return _log_insertion(*before, *self._lent_digests(), self._size if size is None else _word("size", size))

    def _asked(self, call: Any, before: Any, size: "Optional[int]", *behind: int) -> Any:
        return call(*before, *self._lent(self._size if size is None else _word("size", size)), *behind)
