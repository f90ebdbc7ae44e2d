from paxidore import rfc6962

leaves = [b"ann", b"bob", b"cat", b"dan"]
root = rfc6962.root(leaves)
path = rfc6962.path(leaves, 2)
print(rfc6962.verify(root, len(leaves), 2, b"cat", path))
