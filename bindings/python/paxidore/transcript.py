"""Transcripts: the duplex sponge over Poseidon's permutation.

Who proves and who checks absorb the same messages, and squeeze the same challenges::

    from paxidore import Field, Transcript, ready_parameters

    transcript = Transcript(Field.BLS12_381_FR, ready_parameters(Field.BLS12_381_FR, rate=2))
    transcript.absorb_bytes(b"a message")
    challenge, = transcript.squeeze(1)

``parameters_bytes`` makes the bytes of parameters out of the numbers of any other permutation.
"""
import ctypes
import enum
from typing import Any, List, Sequence, Tuple

from ._library import CountError, Refused, _bytes, _call, _exact, _int, _refusal, _size, _word
from ._turn import Turn

_room = ctypes.c_void_p
_field = ctypes.c_uint32
_code = ctypes.c_int32
_ready = _call("transcript_ready_parameters", _code, _room, _size, ctypes.POINTER(_size), _field, _size)
_prepare = _call("transcript_prepare", _code, _room, _size, ctypes.POINTER(_size), _field, _bytes, _size)
_init = _call("transcript_init", _code, _room, _size, ctypes.POINTER(_size), _field, _bytes, _size)
_absorb = _call("transcript_absorb", _code, _room, _size, _field, _bytes, _size, _bytes, _size)
_absorb_bytes = _call("transcript_absorb_bytes", _code, _room, _size, _field, _bytes, _size, _bytes, _size)
_squeeze = _call("transcript_squeeze", _code, _room, _size, _room, _size, _field, _bytes, _size)
_squeeze_bytes = _call("transcript_squeeze_bytes", _code, _room, _size, _room, _size, _field, _bytes, _size)

OUT_OF_MEMORY = -1

# added to a field's number, it names that field with prepared parameters
_PREPARED = 256


class TranscriptError(Refused, ValueError):
    """The bytes are no parameters of the field, or a number is no element of it."""

    code = -3


class Field(enum.IntEnum):
    """The fields that transcripts have, by the numbers that ``paxidore.h`` gives them."""

    GOLDILOCKS = 1
    BABYBEAR = 2
    BLS12_381_FR = 3
    BN254_FR = 4

    @property
    def modulus(self) -> int:
        return _MODULI[self]

    @property
    def element_bytes(self) -> int:
        """How many bytes an element takes."""
        return (self.modulus.bit_length() + 7) // 8


_MODULI = {
    Field.GOLDILOCKS: 2**64 - 2**32 + 1,
    Field.BABYBEAR: 15 * 2**27 + 1,
    Field.BLS12_381_FR: 0x73EDA753299D7D483339D80809A1D80553BDA402FFFE5BFEFFFFFFFF00000001,
    Field.BN254_FR: 0x30644E72E131A029B85045B68181585D2833E84879B9709143E1F593F0000001,
}


def _done(answer: int) -> None:
    if answer == OUT_OF_MEMORY:
        raise _refusal(answer)
    if answer != 0:
        refused = TranscriptError("no parameters of the field, or no elements of it")
        refused.code = answer
        raise refused


def _elements(field: Field, numbers: Sequence[int]) -> bytes:
    each = field.element_bytes
    elements = [_int("an element", number) for number in numbers]
    for element in elements:
        if not 0 <= element < field.modulus:
            raise TranscriptError("a number is no element of the field")
    return b"".join(element.to_bytes(each, "little") for element in elements)


def _rows(field: Field, rows: Sequence[Sequence[int]]) -> bytes:
    words = [len(rows).to_bytes(8, "little")]
    for given in rows:
        row = tuple(given)
        words += [len(row).to_bytes(8, "little"), _elements(field, row)]
    return b"".join(words)


def parameters_bytes(
    field: Field,
    full_rounds: int,
    partial_rounds: int,
    alpha: int,
    rate: int,
    capacity: int,
    mds: Sequence[Sequence[int]],
    ark: Sequence[Sequence[int]],
) -> bytes:
    """Returns the canonical bytes of a permutation's parameters: the counts of rounds, the exponent of the S-box, a row of ``ark`` for
    each round, the matrix ``mds`` by rows, and how a state is parted. ``Transcript`` tests them."""
    field = Field(field)

    def word(name: str, number: int) -> bytes:
        return _word(name, number).to_bytes(8, "little")

    numbers = word("full_rounds", full_rounds) + word("partial_rounds", partial_rounds) + word("alpha", alpha)
    rows = _rows(field, tuple(ark)) + _rows(field, tuple(mds))
    return numbers + rows + word("rate", rate) + word("capacity", capacity)


def ready_parameters(field: Field, rate: int) -> bytes:
    """Returns the bytes of ready parameters over ``Field.BLS12_381_FR`` or ``Field.BN254_FR``, for a rate from 2 to 8 and a capacity of
    one: those that arkworks and circomlib have. ``TranscriptError`` for another field, ``CountError`` for another rate,
    ``OutOfMemory``."""
    size = _size(0)
    # the longest have 71 rows of constants and 9 of the matrix
    room = ctypes.create_string_buffer(64 + 80 * (8 + 9 * 32))
    answer = _ready(room, len(room), ctypes.byref(size), Field(field), _word("rate", rate))
    if answer == CountError.code:
        raise _refusal(answer)
    _done(answer)
    return room.raw[: size.value]


class Transcript:
    """A sponge that has absorbed nothing, over a field, with a permutation's parameters as bytes.

    ``TranscriptError`` where the bytes are no parameters of the field, ``OutOfMemory``.

    Threads may share a transcript: its calls run one after the other. ``copy.copy`` is ``copy``.
    """

    def __init__(self, field: Field, parameters: bytes) -> None:
        self._field = Field(field)
        given = _exact("parameters", parameters)
        size = _size(0)
        # prepared parameters are as long, and a state is shorter: parameters have a row for each element of it
        room = ctypes.create_string_buffer(len(given))
        _done(_prepare(room, len(room), ctypes.byref(size), self._field, given, len(given)))
        self._prepared = room.raw[: size.value]
        self._name = self._field + _PREPARED
        _done(_init(room, len(room), ctypes.byref(size), self._name, self._prepared, len(self._prepared)))
        self._state = ctypes.create_string_buffer(room.raw[: size.value], size.value)
        self._turn = Turn()

    def __repr__(self) -> str:
        return "<paxidore.Transcript over %s>" % self._field.name

    def _of(self) -> Tuple[Any, ...]:
        return self._state, len(self._state), self._name, self._prepared, len(self._prepared)

    def absorb(self, elements: Sequence[int]) -> None:
        """Absorbs elements of the field. An error leaves the transcript as before. ``TranscriptError``, ``OutOfMemory``."""
        given = _elements(self._field, tuple(elements))
        _done(self._turn.run(_absorb, *self._of(), given, len(given)))

    def absorb_bytes(self, data: bytes) -> None:
        """Absorbs bytes, behind their length. ``OutOfMemory``."""
        _done(self._turn.run(_absorb_bytes, *self._of(), _exact("data", data), len(data)))

    def squeeze(self, count: int) -> List[int]:
        """Returns the next elements. ``OutOfMemory``."""
        each = self._field.element_bytes
        out = self._given(_squeeze, _word("count", count) * each)
        return [int.from_bytes(out[i : i + each], "little") for i in range(0, len(out), each)]

    def squeeze_bytes(self, count: int) -> bytes:
        """Returns the next bytes. ``OutOfMemory``."""
        return self._given(_squeeze_bytes, _word("count", count))

    def _given(self, call: Any, count: int) -> bytes:
        out = ctypes.create_string_buffer(count) if count else None
        _done(self._turn.run(call, out, count, *self._of()))
        return out.raw if out else b""

    def copy(self) -> "Transcript":
        """Returns a transcript that has absorbed and squeezed the same."""
        other = object.__new__(Transcript)
        other._field, other._name, other._prepared = self._field, self._name, self._prepared
        other._turn = Turn()
        state = self._turn.run(bytes, self._state)
        other._state = ctypes.create_string_buffer(state, len(state))
        return other

    __copy__ = copy

    def __deepcopy__(self, memo: object) -> "Transcript":
        return self.copy()

    def __reduce__(self) -> str:
        raise TypeError("a Transcript is not pickled")
