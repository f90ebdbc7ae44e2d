"""The library that is called, its answers as exceptions, and the arguments that it takes."""
import ctypes
import io
import os
from array import array
from typing import Any, Optional, Sequence, Tuple, Union

DIGEST_BYTES = 32

_size = ctypes.c_size_t
_sizes = ctypes.POINTER(_size)
_bytes = ctypes.c_char_p
_hashing = ctypes.c_uint32
# leaves one behind the other, and their lengths
_leaves = (_bytes, _size, _sizes, _size)
_Flat = Tuple[bytes, int, "ctypes.Array[ctypes.c_size_t]", int]
# leaves that are handed over: a sequence, or a buffer of leaves of one length
_Leaves = Union[Sequence[bytes], bytes, bytearray, memoryview]
# up to so many bytes of the first one, leaves are written into a buffer, and else joined
_SHORT = 256
# a wheel has the library beside this file
_beside = os.path.join(os.path.dirname(os.path.abspath(__file__)), "libpaxidore.so.1")
_found = os.environ.get("PAXIDORE_LIBRARY", _beside if os.path.exists(_beside) else "libpaxidore.so.1")
try:
    _library = ctypes.CDLL(_found)
except OSError as error:
    raise ImportError(
        "the library of paxidore cannot be loaded (%s): build it with tools/build-library, and set PAXIDORE_LIBRARY to the path of "
        "its lib/libpaxidore.so.1" % error
    ) from None


def _call(name: str, result: Any, *types: Any) -> Any:
    try:
        function = getattr(_library, "paxidore_" + name)
    except AttributeError:
        raise ImportError(
            "%s has no call paxidore_%s, so it is not the library that this module is for: build that with tools/build-library, and "
            "set PAXIDORE_LIBRARY to the path of its lib/libpaxidore.so.1" % (_found, name)
        ) from None
    function.argtypes = types
    function.restype = result
    return function


_strerror = _call("strerror", ctypes.c_char_p, ctypes.c_int32)


class Refused(Exception):
    """A call was refused. ``code`` is the answer of the library, as ``paxidore.h`` lists them.

    Each answer that a call of this module can give has a class below, with the code that is its own. An answer of a newer library is
    ``Refused`` itself, with its code.
    """

    code = 0


class TruncatedProof(Refused, ValueError):
    """The bytes of the proof end early."""

    code = -2


class InvalidProof(Refused, ValueError):
    """The bytes are no proof for these indexes: of others, not canonical, or with bytes behind."""

    code = -3


class HeightError(Refused, ValueError):
    """The proof is for a tree of another size."""

    code = -4


class SizeError(Refused, ValueError):
    """No tree has this count of leaves: a tree has 2, 4, 8, 16 .. of them; or no log continues one of the old size, or the log has
    fewer entries."""

    code = -5


class LengthsError(Refused, ValueError):
    """The lengths of the leaves do not sum to that of their bytes. No call of this module gives it."""

    code = -6


class CountError(Refused, ValueError):
    """There are not as many leaves as indexes; or no hash takes so many elements."""

    code = -7


class IndexBeyondSize(Refused, IndexError):
    """An index is not below the count of leaves, or there is none."""

    code = -8


class NoLog(Refused, ValueError):
    """The file is no log's."""

    code = -11


class ShortLog(Refused, ValueError):
    """The file of a log ends before the digests of the log's size."""

    code = -12


class DamagedHead(Refused, ValueError):
    """The file has the title of a log's, and neither of its two slots is whole; or its first sector was lost while the log was open."""

    code = -13


class DamagedLog(Refused, ValueError):
    """The file of a log has a digest that is not the one that was stored, or states another root."""

    code = -14


class HiddenTree(Refused, ValueError):
    """The witness of changes hides what they need."""

    code = -15


class NoPolicy(Refused, ValueError):
    """The text is no policy."""

    code = -16


class BadSignature(Refused, ValueError):
    """A signature that names a key is none by it."""

    code = -17


class NotSigned(Refused, ValueError):
    """The log did not sign the checkpoint, or too few witnesses did."""

    code = -18


class OtherOrigin(Refused, ValueError):
    """The checkpoint is of another origin, or the origin that is asked for is no text."""

    code = -19


class OutOfMemory(Refused, MemoryError):
    """A request for memory was refused."""

    code = -1


_KINDS = {
    kind.code: kind
    for kind in (
        OutOfMemory,
        TruncatedProof,
        InvalidProof,
        HeightError,
        SizeError,
        LengthsError,
        CountError,
        IndexBeyondSize,
        NoLog,
        ShortLog,
        DamagedHead,
        DamagedLog,
        HiddenTree,
        NoPolicy,
        BadSignature,
        NotSigned,
        OtherOrigin,
    )
}

# the answer that pieces of a file are to be read first
MORE = -10


def _refusal(answer: int) -> Refused:
    refused = _KINDS.get(answer, Refused)(_strerror(answer).decode("ascii"))
    refused.code = answer
    return refused


def _exact(name: str, value: bytes) -> bytes:
    # a subclass may say another length than that of its bytes, which the library would then read past
    if type(value) is not bytes:
        raise TypeError("%s is bytes, not %s" % (name, type(value).__name__))
    return value


def _digest(root: bytes, name: str = "root") -> bytes:
    if len(_exact(name, root)) != DIGEST_BYTES:
        raise ValueError("%s has 32 bytes, not %d" % (name, len(root)))
    return root


def _above(key: bytes) -> Optional[bytes]:
    """The key that follows, or None behind the last one."""
    number = int.from_bytes(key, "big") + 1
    return None if number >> 8 * DIGEST_BYTES else number.to_bytes(DIGEST_BYTES, "big")


def _int(name: str, number: int) -> int:
    # as int itself, since a subclass may compare in another way than its number does
    if not isinstance(number, int):
        raise TypeError("%s is int, not %s" % (name, type(number).__name__))
    return int.__index__(number)


def _word(name: str, number: int) -> int:
    # ctypes would take a number modulo 2^64
    word = _int(name, number)
    if not 0 <= word < 1 << 64:
        raise OverflowError("%s is not a number of 64 bits" % name)
    return word


def _words(name: str, numbers: Sequence[int]) -> Tuple["ctypes.Array[ctypes.c_size_t]", int]:
    # as a tuple, whose length cannot change between two looks at it
    words = tuple(_word(name, number) for number in numbers)
    return (_size * len(words))(*words), len(words)


class _Given:
    """Leaves one behind the other, as calls take them: of a sequence of bytes, or of a buffer where ``length`` is that of each."""

    __slots__ = ("_all", "_length", "count")

    def __init__(self, leaves: Any, length: Optional[int] = None) -> None:
        self._all: Any = tuple(leaves) if length is None else _copied(leaves)
        self._length = 0 if length is None else _word("length", length)
        self.count = len(self._all)
        if length is not None:
            if self._length == 0 or self.count % self._length:
                raise ValueError("a buffer of %d bytes has no whole leaves of %d" % (self.count, self._length))
            self.count //= self._length

    def flat(self, start: int, end: int) -> _Flat:
        """Those from ``start`` on up to ``end``."""
        if self._length == 0:
            return _flat(self._all[start:end])
        joined = self._all[start * self._length : end * self._length]
        lengths = array("Q", (self._length,)) * (end - start)
        return joined, len(joined), (_size * (end - start)).from_buffer(lengths), end - start

    def all(self) -> _Flat:
        return self.flat(0, self.count)


def _copied(buffer: Any) -> bytes:
    # another thread may write any buffer but bytes while a call reads it
    return buffer if type(buffer) is bytes else memoryview(buffer).tobytes()


def _flat(leaves: Tuple[bytes, ...]) -> _Flat:
    # one look at all types, which costs a third of a call for each leaf
    count = len(leaves)
    if list(map(type, leaves)).count(bytes) != count:
        for leaf in leaves:
            _exact("a leaf", leaf)
    # Short leaves are written one behind the other, which says their lengths too: a join lays out 80 bytes for each leaf first. It
    # copies many bytes once, where a buffer that grows may copy them again.
    if count and len(leaves[0]) <= _SHORT:
        buffer = io.BytesIO()
        written = list(map(buffer.write, leaves))
        joined = buffer.getvalue()
    else:
        written = list(map(len, leaves))
        joined = b"".join(leaves)
    # one length is repeated faster than a list of it is read
    if count and written.count(written[0]) == count:
        lengths = array("Q", written[:1]) * count
    else:
        lengths = array("Q", written)
    return joined, len(joined), (_size * count).from_buffer(lengths), count


def _path_digests(size: int) -> int:
    # how many bytes the digests of a path have in a tree of this size
    return DIGEST_BYTES * max(size - 1, 0).bit_length()


def _multi_path_room(size: int, count: int) -> int:
    # no multi-proof has more: four counts, and for each index, which is shown once, 24 bytes and a path
    return 32 + min(count, size) * (24 + _path_digests(size))
