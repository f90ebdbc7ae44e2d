"""SHA-256, BLAKE2s and commitments, the version of the library, and which of its builds runs."""
import ctypes

from ._library import DIGEST_BYTES, _bytes, _call, _digest, _exact, _size
from ._turn import Turn

_version = _call("version", ctypes.c_char_p)
_cpu = _call("cpu", ctypes.c_char_p)
_sha256 = _call("sha256", None, ctypes.c_void_p, _bytes, _size)
_blake2s = _call("blake2s", None, ctypes.c_void_p, _bytes, _size)
_blake2s_init = _call("blake2s_init", None, ctypes.c_void_p)
_blake2s_update = _call("blake2s_update", None, ctypes.c_void_p, _bytes, _size)
_blake2s_final = _call("blake2s_final", None, ctypes.c_void_p, ctypes.c_void_p)
_commit = _call("blake2s_commit", None, ctypes.c_void_p, _bytes, _size, _bytes)
_opens = _call("blake2s_opens", ctypes.c_int32, _bytes, _bytes, _size, _bytes)


def sha256_digest(data: bytes) -> bytes:
    """The SHA-256 of some bytes: 32 of them (FIPS 180-4). ``sha256`` has the trees."""
    digest = ctypes.create_string_buffer(DIGEST_BYTES)
    _sha256(digest, _exact("data", data), len(data))
    return digest.raw


def blake2s(data: bytes) -> bytes:
    """The BLAKE2s of some bytes: 32 of them, with no key (RFC 7693)."""
    digest = ctypes.create_string_buffer(DIGEST_BYTES)
    _blake2s(digest, _exact("data", data), len(data))
    return digest.raw


class Blake2s:
    """A BLAKE2s of a text that comes piece by piece, with no key (RFC 7693)."""

    def __init__(self, data: bytes = b"") -> None:
        # eight words, a block, a length: the state as paxidore.h has it, aligned as its words are
        self._state = (ctypes.c_uint64 * 13)()
        self._turn = Turn()
        _blake2s_init(self._state)
        self.update(data)

    def update(self, data: bytes) -> None:
        """Takes the next bytes of the text."""
        self._turn.run(_blake2s_update, self._state, _exact("data", data), len(data))

    def copy(self) -> "Blake2s":
        """A second text that begins as this one."""
        other = Blake2s()
        self._turn.run(ctypes.memmove, other._state, self._state, ctypes.sizeof(self._state))
        return other

    def digest(self) -> bytes:
        """The digest of the text so far, which can go on."""
        digest = ctypes.create_string_buffer(DIGEST_BYTES)
        _blake2s_final(digest, self.copy()._state)
        return digest.raw

    def __copy__(self) -> "Blake2s":
        return self.copy()

    def __reduce__(self) -> str:
        raise TypeError("the state of a Blake2s is not pickled")


def blake2s_commit(value: bytes, nonce: bytes) -> bytes:
    """The commitment to a value: the BLAKE2s of the value followed by the nonce.

    The nonce has 32 bytes, drawn at random for this commitment, as by ``secrets.token_bytes(32)``, and is kept secret until the value is
    shown: it is what hides the value, of which nothing is proved.
    """
    commitment = ctypes.create_string_buffer(DIGEST_BYTES)
    _commit(commitment, _exact("value", value), len(value), _digest(nonce, "nonce"))
    return commitment.raw


def blake2s_opens(commitment: bytes, value: bytes, nonce: bytes) -> bool:
    """Whether the commitment is that to the value, with this nonce."""
    _digest(commitment, "commitment"), _digest(nonce, "nonce")
    answer: int = _opens(commitment, _exact("value", value), len(value), nonce)
    return answer == 0


def version() -> str:
    """The version of the library that was found."""
    text: bytes = _version()
    return text.decode("ascii")


def cpu() -> str:
    """The level of processor for which the code that runs was built: ``"x86-64-v3"`` where this processor has all of it, else
    ``"x86-64-v2"``, on another machine its own, such as ``"aarch64"``. It is chosen as the library is loaded. With
    ``PAXIDORE_CPU=x86-64-v2`` in the environment it is the second one."""
    text: bytes = _cpu()
    return text.decode("ascii")
