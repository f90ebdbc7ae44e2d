"""Maps whose entries and forks are kept in memory. ``paxidore.KeptMap`` is the class of this module."""
import ctypes
import io
from typing import Any, Callable, Iterable, Iterator, Mapping, MutableMapping, Optional, Tuple

from ._entries import ENTRY_BYTES, OtherRoot, trusted
from ._library import DIGEST_BYTES, _above, _bytes, _call, _digest, _refusal, _size, _sizes
from ._turn import Turn

_memory = ctypes.c_void_p


class _Head(ctypes.Structure):
    """Which map lies in memory, as the header's ``struct paxidore_kept_map``."""

    _fields_ = [("top", ctypes.c_uint64), ("entries", _size), ("forks", _size)]


_head = ctypes.POINTER(_Head)
# entries and forks, each with how many there is room for
_kept = (_head, _memory, _size, _memory, _size)

_put = _call("kept_map_put", ctypes.c_int32, *_kept, _bytes, _bytes)
_remove = _call("kept_map_remove", ctypes.c_int32, *_kept, _bytes)
_root = _call("kept_map_root", ctypes.c_int32, _memory, *_kept)
_get = _call("kept_map_get", ctypes.c_int32, _memory, *_kept, _bytes)
_next = _call("kept_map_next", ctypes.c_int32, _memory, _memory, *_kept, _bytes)
_prove = _call("kept_map_prove", ctypes.c_int32, _memory, _size, _sizes, *_kept, _bytes)
_prove_many = _call("kept_map_prove_many", ctypes.c_int32, _memory, _size, _sizes, *_kept, _bytes, _size)
_prove_range = _call("kept_map_prove_range", ctypes.c_int32, _memory, _size, _sizes, *_kept, _bytes, _bytes)
_bit = ctypes.POINTER(ctypes.c_uint8)
_differ = _call("kept_map_differ", ctypes.c_int32, _memory, _memory, _bit, _memory, _bit, _head, *_kept, _bytes)
_copy = _call("kept_map_copy", ctypes.c_int32, *_kept, *_kept)
_check = _call("kept_map_check", ctypes.c_int32, _memory, *_kept)

# as the header has them
_FORK_BYTES, _CHANGE_FORKS = 48, 256
_PROOF_BYTES = 3 + 64 + 32 + 256 * 32
_ROOM = -9
# a copy is made where a third of so many forks, or more, no longer belongs to the map
_FEW = 1024


class _State:
    """A head with its memory: one object, so that a call that is interrupted leaves the one before it or the one behind it."""

    __slots__ = ("head", "entries", "forks", "own_forks", "root", "lineage")

    def __init__(self, entries: int, forks: int) -> None:
        self.head = _Head()
        self.entries = ctypes.create_string_buffer(ENTRY_BYTES * entries)
        self.forks = ctypes.create_string_buffer(_FORK_BYTES * forks)
        # how many forks the map had when no other ones were there
        self.own_forks = 0
        self.root: Optional[bytes] = None
        # the same in copies that leave nothing out: there older heads still have their maps
        self.lineage = object()

    def all(self) -> Tuple[Any, ...]:
        entries, forks = len(self.entries) // ENTRY_BYTES, len(self.forks) // _FORK_BYTES
        return ctypes.byref(self.head), self.entries, entries, self.forks, forks

    def with_room(self) -> "_State":
        """This one or a copy, with room for a change."""
        head, (_, _, entries, _, forks) = self.head, self.all()
        if head.entries < entries and head.forks + _CHANGE_FORKS <= forks:
            return self
        more = self._sparse() if head.forks >= self.own_forks + self.own_forks // 2 + _FEW else None
        if more is None:
            more = _State(head.entries + head.entries // 8 + 16, head.forks + head.forks // 8 + 2 * _CHANGE_FORKS)
            ctypes.memmove(more.entries, self.entries, ENTRY_BYTES * head.entries)
            ctypes.memmove(more.forks, self.forks, _FORK_BYTES * head.forks)
            ctypes.pointer(more.head)[0] = head
            more.own_forks, more.lineage = self.own_forks, self.lineage
        more.root = self.root
        return more

    def _sparse(self) -> "_State":
        """A copy without what no longer belongs to the map, of which there is room for half as much again."""
        head = self.head
        copy = _State(head.entries, head.forks)
        answer = _copy(*copy.all(), *self.all())
        if answer != 0:
            raise _refusal(answer)
        made = copy.head
        more = _State(made.entries + made.entries // 2 + 16, made.forks + made.forks // 2 + _FEW + 2 * _CHANGE_FORKS)
        ctypes.memmove(more.entries, copy.entries, ENTRY_BYTES * made.entries)
        ctypes.memmove(more.forks, copy.forks, _FORK_BYTES * made.forks)
        ctypes.pointer(more.head)[0] = made
        more.own_forks = made.forks
        return more


class KeptVersion:
    """A version of a ``KeptMap``, for ``differences``. It takes no memory of its own."""

    def __init__(self, state: _State) -> None:
        self._lineage = state.lineage
        self._head = _Head(state.head.top, state.head.entries, state.head.forks)


class KeptMap(MutableMapping[bytes, bytes]):
    """A map with one root in memory, like a dict of keys of 32 bytes with values of 32 bytes.

    It takes some 190 bytes an entry, and 320 while it is copied. ``kept.root`` is that of ``Map`` with these entries, and
    ``kept.prove(key)`` gives a proof for ``Map.verify``. Of many changes each node is hashed once, when the root is asked for. The keys are
    iterated rising, and ``first_from`` finds the next one. Threads may share a map: its calls run one after the other. What ``update``
    raises, and what interrupts it, leaves the changes before it made.
    """

    def __init__(self, entries: "Mapping[bytes, bytes]" = {}) -> None:
        self._turn = Turn()
        self._state = _State(0, 0)
        # None where it is to be counted
        self._count: Optional[int] = 0
        self.update(entries)

    def _set(self, key: bytes, value: Optional[bytes]) -> bool:
        """Whether the map had the key."""
        state = self._state = self._state.with_room()
        had, count = self._look_up(key) is not None, self._count
        self._count, state.root = None, None
        answer = _remove(*state.all(), key) if value is None else _put(*state.all(), key, value)
        if answer != 0:
            raise _refusal(answer)
        if count is not None:
            self._count = count + (value is not None) - had
        return had

    def _look_up(self, key: bytes) -> Optional[bytes]:
        value = ctypes.create_string_buffer(DIGEST_BYTES)
        answer = _get(value, *self._state.all(), key)
        if answer < 0:
            raise _refusal(answer)
        return value.raw if answer == 0 else None

    def _hashed(self) -> bytes:
        state = self._state
        if state.root is None:
            root = ctypes.create_string_buffer(DIGEST_BYTES)
            answer = _root(root, *state.all())
            if answer != 0:
                raise _refusal(answer)
            state.root = root.raw
        return state.root

    @property
    def root(self) -> bytes:
        """The root: 32 bytes."""
        return self._turn.run(self._hashed)

    def _proved(self, key: bytes) -> bytes:
        self._hashed()
        proof, count = ctypes.create_string_buffer(_PROOF_BYTES), _size()
        answer = _prove(proof, _PROOF_BYTES, ctypes.byref(count), *self._state.all(), key)
        if answer != 0:
            raise _refusal(answer)
        return proof.raw[: count.value]

    def prove(self, key: bytes) -> bytes:
        """The bytes of the proof of what the map has at the key, a value or nothing, for ``Map.verify``."""
        return self._turn.run(self._proved, _digest(key, "key"))

    def _tree(self, call: "Callable[..., int]", words: Tuple[Any, ...], room: int) -> bytes:
        """The bytes of a tree of the map, which may want more room."""
        self._hashed()
        while True:
            tree, count = ctypes.create_string_buffer(room), _size()
            answer = call(tree, room, ctypes.byref(count), *self._state.all(), *words)
            if answer != _ROOM:
                break
            room = count.value
        if answer != 0:
            raise _refusal(answer)
        return ctypes.string_at(tree, count.value)

    def prove_many(self, keys: Iterable[bytes]) -> bytes:
        """The bytes of a tree that shows what the map has at these keys and hides the rest."""
        rising = sorted({_digest(key, "key") for key in keys})
        return self._turn.run(self._tree, _prove_many, (b"".join(rising), len(rising)), 512 * len(rising) + 64)

    def prove_range(self, first: bytes, last: bytes) -> bytes:
        """The bytes of a tree that shows all that the map has from ``first`` to ``last``, both with them, for ``Map.verify_range``."""
        return self._turn.run(self._tree, _prove_range, (_digest(first, "first"), _digest(last, "last")), 4096)

    def _found_from(self, key: bytes) -> Optional[Tuple[bytes, bytes]]:
        own, value = ctypes.create_string_buffer(DIGEST_BYTES), ctypes.create_string_buffer(DIGEST_BYTES)
        answer = _next(own, value, *self._state.all(), key)
        if answer < 0:
            raise _refusal(answer)
        return (own.raw, value.raw) if answer == 0 else None

    def first_from(self, key: bytes) -> Optional[Tuple[bytes, bytes]]:
        """The entry with the least key that is not below this one; None where there is none."""
        return self._turn.run(self._found_from, _digest(key, "key"))

    def _written(self) -> bytes:
        entries, words = io.BytesIO(), self._state.all()
        found = ctypes.create_string_buffer(ENTRY_BYTES)
        value = ctypes.byref(found, DIGEST_BYTES)
        above: Optional[bytes] = bytes(DIGEST_BYTES)
        while above is not None:
            answer = _next(found, value, *words, above)
            if answer < 0:
                raise _refusal(answer)
            if answer != 0:
                break
            entries.write(found)
            above = _above(found.raw[:DIGEST_BYTES])
        return entries.getvalue()

    def to_bytes(self) -> bytes:
        """The entries by rising keys, 64 bytes each: the key, then the value, for ``from_bytes``, here and of ``Map``."""
        return self._turn.run(self._written)

    @classmethod
    def from_bytes(cls, data: "bytes | bytearray | memoryview", root: bytes) -> "KeptMap":
        """The map of the entries that ``to_bytes`` returned, where it has this root: that of the map that is trusted.

        The root is compared before the map takes any memory, and once more with that of the library. Raises ``EntriesError``, which is
        ``ValueError``, where the bytes end within an entry or a key is not above the one before it, and ``OtherRoot``, which is
        ``EntriesError``, where they have another root; ``OutOfMemory``.
        """
        entries, kept = trusted(data, root), cls()
        for place in range(0, len(entries), ENTRY_BYTES):
            kept._set(entries[place : place + DIGEST_BYTES], entries[place + DIGEST_BYTES : place + ENTRY_BYTES])
        if kept.root != root:
            raise OtherRoot("the entries have another root")
        return kept

    def version(self) -> KeptVersion:
        """The map as it is now, for ``differences``. It is lost where a change copies the map without what no longer belongs to it."""
        return self._turn.run(lambda: KeptVersion(self._state))

    def _differs(self, version: KeptVersion, key: bytes) -> Optional[Tuple[bytes, Optional[bytes], Optional[bytes]]]:
        state = self._state
        if version._lineage is not state.lineage:
            raise KeyError("the version is no longer kept")
        own, old, new = (ctypes.create_string_buffer(DIGEST_BYTES) for _ in range(3))
        has_old, has_new = ctypes.c_uint8(), ctypes.c_uint8()
        answer = _differ(
            own, old, ctypes.byref(has_old), new, ctypes.byref(has_new), ctypes.byref(version._head), *state.all(), key
        )
        if answer < 0:
            raise _refusal(answer)
        return (own.raw, old.raw if has_old.value else None, new.raw if has_new.value else None) if answer == 0 else None

    def differences(self, version: KeptVersion) -> Iterator[Tuple[bytes, Optional[bytes], Optional[bytes]]]:
        """The keys at which the map differs from an older version of it, rising, each with what that has there and what the map has: a value
        or None. It costs what the difference asks for. Raises ``KeyError`` where the version is no longer kept.
        """
        from_key: Optional[bytes] = bytes(DIGEST_BYTES)
        while from_key is not None:
            found = self._turn.run(self._differs, version, from_key)
            if found is None:
                return
            yield found
            from_key = _above(found[0])

    def _checked(self) -> bool:
        root = ctypes.create_string_buffer(DIGEST_BYTES)
        answer = _check(root, *self._state.all())
        if answer not in (0, -14):
            raise _refusal(answer)
        return bool(answer == 0 and root.raw == self._hashed())

    def check(self) -> bool:
        """Whether each node, hashed anew, leads to the root."""
        return self._turn.run(self._checked)

    def __getitem__(self, key: bytes) -> bytes:
        value = self._turn.run(self._look_up, _digest(key, "key"))
        if value is None:
            raise KeyError(key)
        return value

    def __setitem__(self, key: bytes, value: bytes) -> None:
        self._turn.run(self._set, _digest(key, "key"), _digest(value, "value"))

    def __delitem__(self, key: bytes) -> None:
        if not self._turn.run(self._set, _digest(key, "key"), None):
            raise KeyError(key)

    def __iter__(self) -> Iterator[bytes]:
        """The keys, rising: each is the next one of the map as it is then."""
        found = self.first_from(bytes(DIGEST_BYTES))
        while found is not None:
            yield found[0]
            above = _above(found[0])
            found = None if above is None else self.first_from(above)

    def __len__(self) -> int:
        count = self._count
        if count is None:
            count = sum(1 for _ in self)
            self._count = count
        return count

    def __repr__(self) -> str:
        return "<paxidore.KeptMap of %d entries>" % len(self)

    def __reduce__(self) -> str:
        raise TypeError("a map is neither copied nor pickled")
