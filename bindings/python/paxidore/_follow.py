"""Following a log that publishes a checkpoint and tiles (C2SP tlog-tiles): ``paxidore.follow``, ``paxidore.prove_inclusion``.

What is read of the log is not believed: the state moves on only by a checkpoint that is signed as the policy asks, and by a proof that the
library checks. How the proof is made of tiles is no part of that, so a fault in it refuses a log, and accepts none.
"""
import fcntl
import hashlib
import os
import time
import urllib.error
import urllib.request
from typing import Callable, Dict, List, Optional, Tuple, Union

from ._library import DIGEST_BYTES
from .log import Log
from .notes import Checkpoint, open_checkpoint

_NOTE_BYTES = 1_000_000
_WIDTH = 256
_Fetch = Callable[[str], bytes]


class OldCheckpoint(Exception):
    """The log's checkpoint has fewer entries than the state."""


class WrongTiles(Exception):
    """The log's tiles do not lead to the root of its checkpoint."""


class Fork(Exception):
    """The log signed two checkpoints of which none continues the other.

    ``old`` and ``new`` are their notes. Where their sizes differ, ``words`` are those of ``paxlog verify-consistency``, by which
    anyone checks that the log of the new one has another root of the old size.
    """

    def __init__(self, old: bytes, new: bytes, words: str = "") -> None:
        super().__init__("the log does not continue")
        self.old, self.new, self.words = old, new, words


def _split(size: int) -> int:
    # the greatest power of two below
    return 1 << (size - 1).bit_length() - 1


def _name(level: int, index: int, width: int) -> str:
    groups = ["%03d" % (index % 1000)]
    while index >= 1000:
        index //= 1000
        groups.insert(0, "x%03d" % (index % 1000))
    return "tile/%d/%s%s" % (level, "/".join(groups), ".p/%d" % width if width < _WIDTH else "")


class _Tiles:
    """The digests of a log of some size, read out of its tiles."""

    def __init__(self, fetch: _Fetch, size: int) -> None:
        self.fetch, self.size = fetch, size
        self.read: Dict[Tuple[int, int], bytes] = {}

    def tile(self, level: int, index: int) -> bytes:
        if (level, index) not in self.read:
            width = min((self.size >> 8 * level) - _WIDTH * index, _WIDTH)
            try:
                data = self.fetch(_name(level, index, width))
            except FileNotFoundError:
                # the log grew meanwhile, and its full tile begins with the same digests
                if width == _WIDTH:
                    raise
                data = self.fetch(_name(level, index, _WIDTH))
            if len(data) < DIGEST_BYTES * width or len(data) > DIGEST_BYTES * _WIDTH:
                raise WrongTiles("the tile %s has %d bytes" % (_name(level, index, width), len(data)))
            self.read[level, index] = data
        return self.read[level, index]

    def node(self, start: int, end: int) -> bytes:
        """The root of the entries from ``start`` up to ``end``, by RFC 6962."""
        count = end - start
        if count & count - 1 or start % count:
            middle = start + _split(count)
            return hashlib.sha256(b"\1" + self.node(start, middle) + self.node(middle, end)).digest()
        level, beyond = divmod(count.bit_length() - 1, 8)
        index, at = divmod(start >> 8 * level, _WIDTH)
        tile = self.tile(level, index)
        row = [tile[DIGEST_BYTES * i : DIGEST_BYTES * (i + 1)] for i in range(at, at + (1 << beyond))]
        while len(row) > 1:
            row = [hashlib.sha256(b"\1" + row[i] + row[i + 1]).digest() for i in range(0, len(row), 2)]
        return row[0]

    def root(self, size: int) -> bytes:
        return self.node(0, size) if size else hashlib.sha256(b"").digest()

    def inclusion(self, index: int) -> List[bytes]:
        """The inclusion proof of an index, by RFC 6962, section 2.1.1."""
        start, end, path = 0, self.size, []
        while end - start > 1:
            middle = start + _split(end - start)
            if index < middle:
                path.append(self.node(middle, end))
                end = middle
            else:
                path.append(self.node(start, middle))
                start = middle
        return path[::-1]

    def consistency(self, old: int, start: int = 0, end: Optional[int] = None, whole: bool = True) -> List[bytes]:
        """The consistency proof from ``old`` entries, by RFC 6962, section 2.1.2."""
        end = self.size if end is None else end
        if old == end - start:
            return [] if whole else [self.node(start, end)]
        middle = start + _split(end - start)
        if start + old <= middle:
            return self.consistency(old, start, middle, whole) + [self.node(middle, end)]
        return self.consistency(start + old - middle, middle, end, False) + [self.node(start, middle)]


def _over_http(url: str, timeout: float) -> _Fetch:
    if not url.startswith(("http://", "https://")):
        raise ValueError("a log's address begins with http:// or https://, and not as %s" % url)

    def fetch(name: str) -> bytes:
        most = _NOTE_BYTES if name == "checkpoint" else DIGEST_BYTES * _WIDTH
        try:
            with urllib.request.urlopen("%s/%s" % (url.rstrip("/"), name), timeout=timeout) as answer:
                data: bytes = answer.read(most + 1)
        except urllib.error.HTTPError as error:
            error.close()
            if error.code in (404, 410):
                raise FileNotFoundError("%s has no %s" % (url, name)) from None
            raise
        if len(data) > most:
            raise ValueError("%s of %s is too long" % (name, url))
        return data

    return fetch


class _Locked:
    """The lock beside a state, which ``paxlog`` takes too. It is held as long as this lives."""

    def __init__(self, state: str, wait: float) -> None:
        self.file = os.open(state + ".lock", os.O_RDWR | os.O_CREAT | os.O_CLOEXEC | os.O_NOFOLLOW, 0o666)
        until = time.monotonic() + wait
        try:
            while True:
                try:
                    fcntl.flock(self.file, fcntl.LOCK_EX | fcntl.LOCK_NB)
                    return
                except BlockingIOError:
                    if time.monotonic() >= until:
                        raise BlockingIOError("the state %s is being moved on" % state) from None
                    time.sleep(0.02)
        except BaseException:
            os.close(self.file)
            raise

    def __enter__(self) -> "_Locked":
        return self

    def __exit__(self, *error: object) -> None:
        os.close(self.file)


def _written(path: str, data: bytes) -> None:
    # whole or not at all, and on the disk
    new = path + ".new"
    file = os.open(new, os.O_WRONLY | os.O_CREAT | os.O_TRUNC | os.O_CLOEXEC | os.O_NOFOLLOW, 0o666)
    try:
        at = 0
        while at < len(data):
            at += os.write(file, data[at:])
        os.fsync(file)
    finally:
        os.close(file)
    os.rename(new, path)
    folder = os.open(os.path.dirname(path) or ".", os.O_RDONLY | os.O_CLOEXEC)
    try:
        os.fsync(folder)
    finally:
        os.close(folder)


def _state(path: str) -> Optional[bytes]:
    if os.path.islink(path):
        raise OSError("the state %s is a symbolic link" % path)
    try:
        with open(path, "rb") as file:
            return file.read(_NOTE_BYTES + 1)
    except FileNotFoundError:
        return None


def _moved(fetch: _Fetch, policy: str, old_note: Optional[bytes], note: bytes, origin: str, since: int) -> Checkpoint:
    head = open_checkpoint(policy, note, origin, since)
    tiles = _Tiles(fetch, head.size)
    old = None if old_note is None else open_checkpoint(policy, old_note, origin)
    if old_note is None or old is None or old.size == 0:
        if tiles.root(head.size) != head.root:
            raise WrongTiles("the tiles do not lead to the root of the checkpoint")
        return head
    if head.size < old.size:
        raise OldCheckpoint("the checkpoint has %d entries, and the state %d" % (head.size, old.size))
    if head.size == old.size:
        if head.root != old.root:
            raise Fork(old_note, note)
        return head
    proof = b"".join(tiles.consistency(old.size))
    if Log.verify_consistency(old.root, old.size, head.root, head.size, proof):
        return head
    other = tiles.root(old.size)
    if other == old.root or not Log.verify_consistency(other, old.size, head.root, head.size, proof):
        raise WrongTiles("the tiles do not lead to the root of the checkpoint")
    raise Fork(old_note, note, "%d %s %d %s %s" % (old.size, other.hex(), head.size, head.root.hex(), proof.hex()))


def prove_inclusion(source: Union[str, _Fetch], head: Checkpoint, index: int, *, timeout: float = 30) -> bytes:
    """The inclusion proof of an index in the log of a checkpoint, made of its tiles: what ``Log.verify_inclusion`` checks.

    Nothing of it is believed before that says yes. ``source`` is as of ``follow``. Raises ``IndexError``, ``WrongTiles`` for a tile of another
    length, and ``OSError``.
    """
    if not 0 <= index < head.size:
        raise IndexError("no entry of a log of %d has the index %d" % (head.size, index))
    fetch = source if callable(source) else _over_http(source, timeout)
    return b"".join(_Tiles(fetch, head.size).inclusion(index))


def follow(
    source: Union[str, _Fetch],
    policy: str,
    state: "os.PathLike[str] | str",
    *,
    origin: str = "",
    since: int = 0,
    timeout: float = 30,
    wait: float = 0,
) -> Checkpoint:
    """Moves a follower's state on to the checkpoint that a log publishes, and returns what it states.

    ``source`` is the log's address, below which ``checkpoint`` and ``tile/..`` are, or a function from such a name to its bytes,
    which raises ``FileNotFoundError`` where there is none. ``state`` is a file with the last checkpoint that was accepted, as that
    of ``paxlog follow``; the first one takes the log as it is. Each accepted checkpoint continues the one before, which
    ``paxidore_log_verify_consistency`` checks. When the call returns, the state is on the disk; where it raises, it is as it was.

    Raises what ``notes.open_checkpoint`` does; ``OldCheckpoint``; ``WrongTiles``; ``Fork``, whose evidence is kept in files beside
    the state (``.fork``, ``.fork-proof``); ``BlockingIOError`` where another process moves the state on for longer than ``wait``
    seconds; ``OSError``.
    """
    path = os.fspath(state)
    fetch = source if callable(source) else _over_http(source, timeout)
    with _Locked(path, wait):
        old_note = _state(path)
        note = fetch("checkpoint")
        try:
            head = _moved(fetch, policy, old_note, note, origin, since)
        except Fork as fork:
            _written(path + ".fork", fork.new)
            if fork.words:
                _written(path + ".fork-proof", (fork.words + "\n").encode())
            elif os.path.exists(path + ".fork-proof"):
                os.remove(path + ".fork-proof")
            raise
        _written(path, note)
    return head
