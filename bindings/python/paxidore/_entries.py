"""The entries of a map as bytes: 64 of each, its key and its value, by rising keys."""
from typing import Any, Iterator, List, Tuple

from ._library import DIGEST_BYTES, _copied, _digest
from ._nodes import _NOTHING, _has_bit
from .hashes import sha256_digest

ENTRY_BYTES = 2 * DIGEST_BYTES


class EntriesError(ValueError):
    """The bytes are no entries of a map: they end within one, or a key is not above the one before it."""


class OtherRoot(EntriesError):
    """The entries of a map have another root than the one that is trusted."""


def _shared_bits(key: bytes, above: bytes) -> int:
    """How many first bits a key shares with the next one, which is above it."""
    if not key < above:
        raise EntriesError("a key is not above the one before it")
    return 8 * DIGEST_BYTES - (int.from_bytes(key, "big") ^ int.from_bytes(above, "big")).bit_length()


def nodes_of(entries: bytes) -> Iterator[Tuple[bytes, bytes]]:
    """The nodes of the map of some entries, each as its digest and the 65 bytes that are hashed, the topmost one last.

    It keeps a digest for each bit of a key at most, so that entries of another map, which may need many forks, take no memory.
    """
    # what stands left of an open fork, with the fork's level
    lefts: List[Tuple[int, bytes]] = []
    # how many forks stand above an entry and the one before it, and above it and the next one
    before = 0
    for place in range(0, len(entries), ENTRY_BYTES):
        key, above = entries[place : place + DIGEST_BYTES], entries[place + ENTRY_BYTES : place + ENTRY_BYTES + DIGEST_BYTES]
        behind = 1 + _shared_bits(key, above) if above else 0
        node = b"\0" + entries[place : place + ENTRY_BYTES]
        digest = sha256_digest(node)
        yield digest, node
        # the forks of which this key is the last one
        for level in range(before - 1, behind - 1, -1):
            if lefts and lefts[-1][0] == level:
                node = b"\1" + lefts.pop()[1] + digest
            elif _has_bit(key, level):
                node = b"\1" + _NOTHING + digest
            else:
                node = b"\1" + digest + _NOTHING
            digest = sha256_digest(node)
            yield digest, node
        if behind:
            lefts.append((behind - 1, digest))
        before = behind


def trusted(data: Any, root: bytes) -> bytes:
    """The entries that lie in a buffer, where they are those of the map with this root. It is looked at before a map takes any memory."""
    _digest(root)
    entries = _copied(data)
    if len(entries) % ENTRY_BYTES:
        raise EntriesError("the bytes end within an entry")
    found = _NOTHING
    for found, _ in nodes_of(entries):
        pass
    if found != root:
        raise OtherRoot("the entries have another root")
    return entries
