"""What a log is, by RFC 6962, section 2.1, and how its file has it; and the program that is asked. .ci/paxlog has the checks."""
import hashlib
import os
import random
import subprocess
import sys

TOP = os.path.dirname(os.path.dirname(os.path.abspath(__file__)))
PROGRAM = os.path.abspath(sys.argv[1] if len(sys.argv) > 1 else TOP + "/crates/paxlog/out/paxlog")
TITLE = b"paxidore log, digests of SHA-256"
SECTOR_TITLE = b"paxidore log of SHA-256, sectors"
SIZE = 21
ROUNDS = int(os.environ.get("ROUNDS", "20"))
KILLS = int(os.environ.get("KILLS", "60"))
PATIENCE = int(os.environ.get("PATIENCE", "120"))
LARGEST = int(os.environ.get("LARGEST", "66000"))
LARGE = int(os.environ.get("LARGE", "1000000"))
DRAWS = random.Random(61)
passed = failed = 0


def check(what, holds):
    global passed, failed
    if holds:
        passed += 1
    else:
        failed += 1
        print("FAILED: " + what)
        if "STOPS" in os.environ:
            print("%d passed, %d failed" % (passed, failed))
            sys.exit(1)


def ask(*words):
    try:
        ran = subprocess.run([PROGRAM, *map(str, words)], stdout=subprocess.PIPE, stderr=subprocess.PIPE, timeout=PATIENCE)
    except subprocess.TimeoutExpired:
        return -1, "", "it does not end"
    return ran.returncode, ran.stdout.decode(), ran.stderr.decode()


def sha(data):
    return hashlib.sha256(data).digest()


def split(count):
    return 1 << (count - 1).bit_length() - 1


def root(digests):
    if len(digests) < 2:
        return digests[0] if digests else sha(b"")
    k = split(len(digests))
    return sha(b"\1" + root(digests[:k]) + root(digests[k:]))


def path(index, digests):
    if len(digests) == 1:
        return b""
    k = split(len(digests))
    if index < k:
        return path(index, digests[:k]) + root(digests[k:])
    return path(index - k, digests[k:]) + root(digests[:k])


def proof(old, digests, whole=True):
    if old == len(digests):
        return b"" if whole else root(digests)
    k = split(len(digests))
    if old <= k:
        return proof(old, digests[:k], whole) + root(digests[k:])
    return proof(old - k, digests[k:], False) + root(digests[:k])


def stored(digests):
    kept = b""
    for last in range(1, len(digests) + 1):
        width = 1
        while last % width == 0:
            kept += root(digests[last - width : last])
            width *= 2
    return kept


def slot(size, top):
    word = size.to_bytes(8, "little")
    return word + sha(word)[:12] + sha(word + top)[:12]


def old_slot(size):
    """As older files have it: no root is stated."""
    word = size.to_bytes(8, "little")
    return word + sha(word)[:24]


def file_of(digests):
    return TITLE + slot(len(digests), root(digests)) * 2 + stored(digests)


def read(name):
    with open(name, "rb") as file:
        return file.read()


def apart(data):
    """The file with sectors of a log's file."""
    first, second = SECTOR_TITLE + data[32:64], SECTOR_TITLE + data[64:96]
    return first.ljust(4096, b"\0") + second.ljust(4096, b"\0") + data[96:]


def together(data):
    """The log's file of one with sectors."""
    return TITLE + data[32:64] + data[4128:4160] + data[8192:]


def read_log(name):
    """The log's file, whether its slots lie in one sector or in two. Behind a slot its sector has zeros."""
    data = read(name)
    if not data.startswith(SECTOR_TITLE):
        return data
    assert apart(together(data)) == data
    return together(data)


def write(name, data):
    with open(name, "wb") as file:
        file.write(data)
