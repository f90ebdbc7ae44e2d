"""Ed25519 signatures (RFC 8032, section 5.1)."""
import ctypes

from ._library import _bytes, _call, _exact, _size

SEED_BYTES = 32
KEY_BYTES = 32
SIGNATURE_BYTES = 64

_public_key = _call("ed25519_public_key", None, ctypes.c_void_p, _bytes)
_sign = _call("ed25519_sign", None, ctypes.c_void_p, _bytes, _bytes, _size)
_verify = _call("ed25519_verify", ctypes.c_int32, _bytes, _bytes, _size, _bytes)


def _of_length(name: str, value: bytes, length: int) -> bytes:
    if len(_exact(name, value)) != length:
        raise ValueError(f"{name} has {length} bytes, not {len(value)}")
    return value


def public_key(seed: bytes) -> bytes:
    """The key of a seed of 32 bytes, to be given to others.

    The seed is the secret. Draw it as by ``secrets.token_bytes(32)``. The time of this call and of ``sign`` depends on it.
    """
    key = ctypes.create_string_buffer(KEY_BYTES)
    _public_key(key, _of_length("seed", seed, SEED_BYTES))
    return key.raw


def sign(seed: bytes, message: bytes) -> bytes:
    """The signature of a message by the key of a seed: 64 bytes."""
    signature = ctypes.create_string_buffer(SIGNATURE_BYTES)
    _sign(signature, _of_length("seed", seed, SEED_BYTES), _exact("message", message), len(message))
    return signature.raw


def verify(key: bytes, message: bytes, signature: bytes) -> bool:
    """Whether it is a signature of the message under the key of 32 bytes. What has not 64 bytes is none."""
    _of_length("key", key, KEY_BYTES)
    if len(_exact("signature", signature)) != SIGNATURE_BYTES:
        return False
    answer: int = _verify(key, _exact("message", message), len(message), signature)
    return answer == 0
