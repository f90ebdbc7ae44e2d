from concurrent.futures import ThreadPoolExecutor
from paxidore import Log, Tree

leaves = [b"leaf %d" % number for number in range(4096)]
shares = [leaves[first : first + 1024] for first in range(0, 4096, 1024)]


def hashed(share: "list[bytes]") -> Log:
    part = Log()
    part.append(share)
    return part


log = Log()
with ThreadPoolExecutor(4) as threads:
    tree = Tree.join(list(threads.map(Tree.build, shares)))
    for part in threads.map(hashed, shares):
        log.join(part)
print(tree.root == log.root() == Tree.build(leaves).root and tree.check() and log.check())
