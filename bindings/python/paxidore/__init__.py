"""Merkle trees over byte strings, transparency logs, transcripts, SHA-256, BLAKE2s, commitments, Ed25519 and circomlib's Poseidon, by
the proved code of libpaxidore.

A log or a store publishes the root of its leaves and their count, and hands out paths::

    from paxidore import rfc6962

    root = rfc6962.root(leaves)
    path = rfc6962.path(leaves, 3)

Whoever has the root and the count checks them without the other leaves::

    if rfc6962.verify(root, 8, 3, leaf, path): ...

``sha256`` has the same calls for trees whose hashes are SHA-256 of a leaf, and of left followed by right. There are 2, 4, 8, 16 ..
leaves in a tree. ``Tree`` keeps the digests of one in memory or in a file. ``Log`` is a log of any size, in memory or in a file, with
the checks for its clients. ``Map`` is a map with one root, in memory or in a file, with proofs of what it has and has not, ``KeptMap`` a larger one in memory.
``Transcript`` is Poseidon's duplex sponge over a field. ``blake2s_commit`` commits to a value that is
shown later. ``ed25519`` signs and verifies. ``notes`` has signed checkpoints and receipts, and
``follow`` follows a log over HTTP. ``poseidon`` has circomlib's hash.

The library is found by the variable ``PAXIDORE_LIBRARY`` (a path), else beside this file, where a wheel has it, else as the
system finds ``libpaxidore.so.1``. Where it is not there, or is older than this module, ``import paxidore`` raises
``ImportError``; so it does where Python runs without its global lock, under which the module was not tested.
"""
import sys

if not getattr(sys, "_is_gil_enabled", lambda: True)():
    raise ImportError("paxidore was not tested without Python's global lock: set PYTHON_GIL=1")

from . import ed25519, notes, poseidon
from ._entries import EntriesError, OtherRoot
from ._follow import Fork, OldCheckpoint, WrongTiles, follow, prove_inclusion
from ._library import (
    BadSignature,
    CountError,
    DamagedHead,
    DamagedLog,
    HeightError,
    HiddenTree,
    IndexBeyondSize,
    InvalidProof,
    LengthsError,
    NoLog,
    NoPolicy,
    NotSigned,
    OtherOrigin,
    OutOfMemory,
    Refused,
    ShortLog,
    SizeError,
    TruncatedProof,
)
from ._nodes import DamagedMap
from .hashes import Blake2s, blake2s, blake2s_commit, blake2s_opens, cpu, sha256_digest, version
from .kept_map import KeptMap, KeptVersion
from .log import Log
from .map import Map, MapVersion
from .transcript import Field, Transcript, TranscriptError, parameters_bytes, ready_parameters
from .tree import Tree
from .trees import Trees, rfc6962, sha256

__version__ = "1.0.0"

__all__ = [
    "BadSignature",
    "Blake2s",
    "CountError",
    "DamagedHead",
    "DamagedLog",
    "DamagedMap",
    "EntriesError",
    "Field",
    "Fork",
    "HeightError",
    "HiddenTree",
    "IndexBeyondSize",
    "InvalidProof",
    "KeptMap",
    "KeptVersion",
    "LengthsError",
    "Log",
    "Map",
    "MapVersion",
    "NoLog",
    "NoPolicy",
    "NotSigned",
    "OldCheckpoint",
    "OtherOrigin",
    "OtherRoot",
    "OutOfMemory",
    "Refused",
    "ShortLog",
    "SizeError",
    "Tree",
    "Transcript",
    "TranscriptError",
    "TruncatedProof",
    "Trees",
    "WrongTiles",
    "blake2s",
    "blake2s_commit",
    "blake2s_opens",
    "cpu",
    "ed25519",
    "follow",
    "notes",
    "parameters_bytes",
    "poseidon",
    "prove_inclusion",
    "ready_parameters",
    "rfc6962",
    "sha256",
    "sha256_digest",
    "version",
]
