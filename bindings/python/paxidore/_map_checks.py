"""The checks of a map's proofs, and changes as the library takes them."""
import ctypes
from typing import List, Mapping, Optional, Tuple

from ._library import DIGEST_BYTES, _above, _bytes, _call, _digest, _exact, _refusal, _size, _sizes
from ._nodes import _root_of

_map_verify = _call("map_verify", ctypes.c_int32, _bytes, _bytes, _bytes, _bytes, _size)
_map_verify_absent = _call("map_verify_absent", ctypes.c_int32, _bytes, _bytes, _bytes, _size)
_map_next = _call("map_next", ctypes.c_int32, ctypes.c_void_p, ctypes.c_void_p, _bytes, _size, _bytes, _bytes)
# bytes, keys or values with their count
_run = (_bytes, _size)
_map_change = _call("map_change", ctypes.c_int32, ctypes.c_void_p, ctypes.c_void_p, _size, _sizes, _bytes, *_run, *_run, *_run)

# as the header has them
_ROW_BYTES = 97
_ROOM = -9


class _Changes:
    """Changes as the library takes them: the keys that get a value, with these, and behind them those that are removed."""

    def __init__(self, changes: Mapping[bytes, Optional[bytes]]) -> None:
        put = {_digest(key, "key"): _digest(value, "value") for key, value in changes.items() if value is not None}
        self.removed = frozenset(_digest(key, "key") for key, value in changes.items() if value is None)
        self.keys = [*put, *self.removed]
        self.count = len(put)
        self.flat_keys, self.flat_values = b"".join(self.keys), b"".join(put.values())

    def make(self, root: bytes, tree: bytes) -> Tuple[int, bytes, bytes]:
        """The answer of the library, the new root and the rows of the new tree."""
        new_root, count = ctypes.create_string_buffer(DIGEST_BYTES), _size()
        # each value may part two keys that share some bits; the library says where that is not enough
        room = _ROW_BYTES * (len(tree) // 33 + 4 * self.count + 8)
        while True:
            rows = ctypes.create_string_buffer(room)
            answer = _map_change(
                new_root, rows, room, ctypes.byref(count), root, tree, len(tree),
                self.flat_keys, len(self.keys), self.flat_values, self.count,
            )  # fmt: skip
            if answer != _ROOM:
                return answer, new_root.raw, ctypes.string_at(rows, count.value) if answer == 0 else b""
            room = count.value


class MapChecks:
    """What clients of a map check by its root alone. ``Map`` has these calls."""

    @staticmethod
    def verify(root: bytes, key: bytes, value: Optional[bytes], proof: bytes) -> bool:
        """Whether the bytes of a proof show that the map with this root has this at the key: a value, or nothing where it is None.

        Where it returns True, every map with this root has this at the key, or two different nodes with one SHA-256 are at hand. Raises
        ``TruncatedProof`` and ``InvalidProof``, which are ``ValueError``, for bytes that are no proof; ``OutOfMemory``.
        """
        _digest(root), _digest(key, "key")
        if type(proof) is not bytes:
            raise TypeError("proof is bytes, not %s" % type(proof).__name__)
        if value is None:
            answer = _map_verify_absent(root, key, proof, len(proof))
        else:
            answer = _map_verify(root, key, _digest(value, "value"), proof, len(proof))
        if answer < 0:
            raise _refusal(answer)
        return bool(answer == 0)

    @staticmethod
    def verify_range(root: bytes, first: bytes, last: bytes, tree: bytes) -> Optional[List[Tuple[bytes, bytes]]]:
        """All entries from ``first`` to ``last``, both with them, of the map with this root, by the bytes of ``prove_range``.

        None where the tree has another root. Else every map with this root has these there and no others, or two different nodes with one
        SHA-256 are at hand. Raises ``TruncatedProof`` and ``InvalidProof`` for bytes that are no tree, ``HiddenTree`` where the tree hides a
        part that may have an entry there; ``OutOfMemory``.
        """
        _digest(root), _digest(first, "first"), _digest(last, "last")
        if _root_of(_exact("tree", tree)) != root:
            return None
        entries: List[Tuple[bytes, bytes]] = []
        key, value = ctypes.create_string_buffer(DIGEST_BYTES), ctypes.create_string_buffer(DIGEST_BYTES)
        above: Optional[bytes] = first
        while above is not None:
            answer = _map_next(key, value, tree, len(tree), above, last)
            if answer < 0:
                raise _refusal(answer)
            if answer != 0:
                break
            entries.append((key.raw, value.raw))
            above = _above(key.raw)
        return entries

    @staticmethod
    def changed_root(root: bytes, changes: Mapping[bytes, Optional[bytes]], witness: bytes) -> Optional[bytes]:
        """The root after changes of the map with this root, by a witness of them; None where the witness has another root.

        Each map with the old root has the new one after the changes, or two different nodes with one SHA-256 are at hand. Raises
        ``TruncatedProof`` and ``InvalidProof`` for bytes that are no witness, ``HiddenTree`` for one that hides what the changes need,
        all ``ValueError``; ``OutOfMemory``.
        """
        if type(witness) is not bytes:
            raise TypeError("witness is bytes, not %s" % type(witness).__name__)
        answer, new_root, _ = _Changes(changes).make(_digest(root), witness)
        if answer < 0:
            raise _refusal(answer)
        return new_root if answer == 0 else None
