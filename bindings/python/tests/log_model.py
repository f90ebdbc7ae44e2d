"""A model of RFC 6962's logs by hashlib, and what tests of kept logs share."""
import hashlib
import os
import random
import signal

from paxidore import Log

DRAWS = random.Random(6962)
# rounds of openers; PAXIDORE_ROUNDS=10000 takes the long way
ROUNDS = int(os.environ.get("PAXIDORE_ROUNDS", "300"))


def sha(data):
    return hashlib.sha256(data).digest()


TITLE = b"paxidore log, digests of SHA-256"
SECTOR_TITLE = b"paxidore log of SHA-256, sectors"


def apart(data):
    """The file with sectors of an older log's file."""
    first, second = SECTOR_TITLE + data[32:64], SECTOR_TITLE + data[64:96]
    return first.ljust(4096, b"\0") + second.ljust(4096, b"\0") + data[96:]


def dense(data):
    """The older file, whose slots lie in one sector, of a log's file with two."""
    return TITLE + data[32:64] + data[4128:4160] + data[8192:]


def largest_below(count):
    power = 1
    while 2 * power < count:
        power *= 2
    return power


def mth(digests):
    """RFC 6962, section 2.1."""
    if not digests:
        return sha(b"")
    if len(digests) == 1:
        return digests[0]
    k = largest_below(len(digests))
    return sha(b"\1" + mth(digests[:k]) + mth(digests[k:]))


def all_roots(digests):
    """The root of each first part, from complete subtrees that are joined as they come."""
    roots, subtrees = [mth([])], []
    for digest in digests:
        height, node = 0, digest
        while subtrees and subtrees[-1][0] == height:
            height, node = height + 1, sha(b"\1" + subtrees.pop()[1] + node)
        subtrees.append((height, node))
        for _, left in reversed(subtrees[:-1]):
            node = sha(b"\1" + left + node)
        roots.append(node)
    return roots


def end_within(calls):
    """The process is killed behind so many calls that write and sync, in the middle of the next one."""
    real_write, real_sync, left = os.pwrite, os.fsync, [calls]

    def is_last():
        left[0] -= 1
        return left[0] < 0

    def write(file, data, at):
        if is_last():
            real_write(file, bytes(data)[: DRAWS.randrange(len(data) + 1)], at)
            os.kill(os.getpid(), signal.SIGKILL)
        return real_write(file, data, at)

    def sync(file):
        if is_last():
            os.kill(os.getpid(), signal.SIGKILL)
        real_sync(file)

    os.pwrite, os.fsync = write, sync


def path(index, digests):
    """RFC 6962, section 2.1.1."""
    if len(digests) == 1:
        return []
    k = largest_below(len(digests))
    if index < k:
        return path(index, digests[:k]) + [mth(digests[k:])]
    return path(index - k, digests[k:]) + [mth(digests[:k])]


def subproof(old, digests, known):
    """RFC 6962, section 2.1.2."""
    if old == len(digests):
        return [] if known else [mth(digests)]
    k = largest_below(len(digests))
    if old <= k:
        return subproof(old, digests[:k], known) + [mth(digests[k:])]
    return subproof(old - k, digests[k:], False) + [mth(digests[:k])]


def stored(digests):
    """The roots of the complete subtrees, in the order in which they are completed."""
    kept = []
    for last in range(1, len(digests) + 1):
        width = 1
        while last % width == 0:
            kept.append(mth(digests[last - width : last]))
            width *= 2
    return kept


def entry_digests(entries):
    return [sha(b"\0" + entry) for entry in entries]


def drawn(count, longest=150):
    return [DRAWS.randbytes(DRAWS.randrange(longest)) for _ in range(count)]


def proofs_are(case, log, digests, size, pairs=None):
    digests = digests[:size]
    root = mth(digests)
    case.assertEqual(log.root(size), root)
    for index in range(size) if pairs is None else (DRAWS.randrange(size) for _ in range(pairs)):
        shown = log.inclusion(index, size=size)
        case.assertEqual(shown, b"".join(path(index, digests)))
        case.assertTrue(Log.verify_inclusion_digest(root, size, index, digests[index], shown))
    for old in range(1, size + 1) if pairs is None else (DRAWS.randrange(1, size + 1) for _ in range(pairs)):
        shown = log.consistency(old, size)
        case.assertEqual(shown, b"".join(subproof(old, digests, True)))
        case.assertTrue(Log.verify_consistency(mth(digests[:old]), old, root, size, shown))
