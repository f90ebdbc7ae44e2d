import sys
from paxidore import Log

with Log.open(sys.argv[1]) as log:
    log.append([b"ann", b"bob", b"cat"])
    size, root = len(log), log.root()
    path = log.inclusion(1)
    log.append([b"dan"])
    proof = log.consistency(size)
    print(Log.verify_inclusion(root, size, 1, b"bob", path))
    print(Log.verify_consistency(root, size, log.root(), len(log), proof))
