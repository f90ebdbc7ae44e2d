import hashlib
import sys
from paxidore import Map

ann, bob = (hashlib.sha256(name).digest() for name in (b"ann", b"bob"))
with Map.open(sys.argv[1]) as keys:
    keys[ann] = hashlib.sha256(b"a key of hers").digest()
    root, has, has_not = keys.root, keys.prove(ann), keys.prove(bob)
print(Map.verify(root, ann, hashlib.sha256(b"a key of hers").digest(), has))
print(Map.verify(root, bob, None, has_not))
