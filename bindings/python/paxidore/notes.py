"""Signed checkpoints of logs (C2SP signed-note, tlog-checkpoint, tlog-cosignature), and receipts of their entries (C2SP tlog-proof).

A log states its size and its root in a checkpoint, which it signs. Who else has to sign is what a policy says, a text of lines as
``log KEY``, ``witness NAME KEY``, ``group NAME K MEMBER ..`` and ``quorum NAME``. Whoever trusts the log alone takes ``policy_of(KEY)``::

    from paxidore import notes

    shown = notes.open_receipt(notes.policy_of(key), entry, receipt)
    if shown is not None: ...  # the entry stands at shown.index of the log with shown.size entries
"""
import ctypes
import dataclasses
from typing import Any, NamedTuple, Optional

from ._library import DIGEST_BYTES, _bytes, _call, _digest, _exact, _refusal, _size, _word
from .ed25519 import KEY_BYTES, SEED_BYTES, _of_length

_uint64 = ctypes.c_uint64
_count = ctypes.POINTER(_size)
# a policy, a time and an origin
_asked = (_bytes, _size, _uint64, _bytes, _size)
_open = _call("checkpoint_open", ctypes.c_int32, ctypes.c_void_p, _count, *_asked, _bytes, _size)
_prove = _call("receipt_open", ctypes.c_int32, ctypes.c_void_p, _count, _count, *_asked, _bytes, _size, _bytes, _size)
_sign = _call("checkpoint_sign", ctypes.c_int32, ctypes.c_void_p, _size, _count, _bytes, _bytes, _size, _bytes, _size, _bytes, _size)
_verifier = _call("verifier_text", ctypes.c_int32, ctypes.c_void_p, _size, _count, _bytes, _size, _bytes)


class Checkpoint(NamedTuple):
    """What a log states: how many entries it has, and its root."""

    size: int
    root: bytes


@dataclasses.dataclass(frozen=True)
class Shown:
    """What a receipt shows: at which index the entry stands, in the log with this size and root."""

    index: int
    size: int
    root: bytes


def _text(name: str, text: str) -> bytes:
    if type(text) is not str:
        raise TypeError("%s is str, not %s" % (name, type(text).__name__))
    return text.encode("utf-8", "surrogateescape")


def _written(answer: int, text: Any, count: "ctypes.c_size_t") -> bytes:
    if answer != 0:
        raise _refusal(answer)
    raw: bytes = text.raw
    return raw[: count.value]


def policy_of(key: str) -> str:
    """The policy that asks for the signature of one log, by the text of its key."""
    return "log %s\nquorum none\n" % key


def open_checkpoint(policy: str, note: bytes, origin: str = "", since: int = 0) -> Checkpoint:
    """What the checkpoint of a note states, where the note is signed as the policy asks.

    A witness has to have signed at ``since`` or later, in seconds since 1970; 0 takes any time. An empty ``origin`` is the name of the
    log's key. Raises ``NoPolicy``; ``OtherOrigin``; ``InvalidProof`` for bytes that are no note or no checkpoint; ``BadSignature``;
    ``NotSigned``.
    """
    asked, named = _text("policy", policy), _text("origin", origin)
    root, size = ctypes.create_string_buffer(DIGEST_BYTES), _size(0)
    answer = _open(
        root, ctypes.byref(size), asked, len(asked), _word("since", since), named, len(named), _exact("note", note), len(note)
    )
    if answer != 0:
        raise _refusal(answer)
    return Checkpoint(size.value, root.raw)


def open_receipt(policy: str, entry: bytes, receipt: bytes, origin: str = "", since: int = 0) -> Optional[Shown]:
    """What a receipt shows of an entry, where its checkpoint is signed as the policy asks; ``None`` where its path does not lead from the
    entry to the root. Raises as ``open_checkpoint``, and ``InvalidProof`` for bytes that are no receipt."""
    asked, named = _text("policy", policy), _text("origin", origin)
    root, size, index = ctypes.create_string_buffer(DIGEST_BYTES), _size(0), _size(0)
    answer = _prove(
        root, ctypes.byref(size), ctypes.byref(index), asked, len(asked), _word("since", since), named, len(named),
        _exact("entry", entry), len(entry), _exact("receipt", receipt), len(receipt),
    )
    if answer == 1:
        return None
    if answer != 0:
        raise _refusal(answer)
    return Shown(index.value, size.value, root.raw)


def sign_checkpoint(seed: bytes, name: str, root: bytes, size: int, origin: Optional[str] = None) -> bytes:
    """The note of a checkpoint, signed by the key of a seed of 32 bytes under a name, which is the origin where none is given.

    The seed is the secret. Raises ``InvalidProof`` for a name or an origin that is none.
    """
    own = _text("name", name)
    named = own if origin is None else _text("origin", origin)
    note, count = ctypes.create_string_buffer(len(own) + len(named) + 200), _size(0)
    answer = _sign(
        note, len(note), ctypes.byref(count), _of_length("seed", seed, SEED_BYTES), own, len(own), named, len(named), _digest(root),
        _word("size", size),
    )
    return _written(answer, note, count)


def verifier_text(name: str, key: bytes) -> str:
    """The text of a key of 32 bytes under a name, as a policy has it. Raises ``InvalidProof`` for a name that is none."""
    own = _text("name", name)
    text, count = ctypes.create_string_buffer(len(own) + 64), _size(0)
    answer = _verifier(text, len(text), ctypes.byref(count), own, len(own), _of_length("key", key, KEY_BYTES))
    return _written(answer, text, count).decode("utf-8")
