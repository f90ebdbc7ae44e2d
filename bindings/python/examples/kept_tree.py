from paxidore import Tree, rfc6962

with Tree.build([b"ann", b"bob", b"cat", b"dan"], "names.tree") as tree:
    tree.set(3, b"eve")
with Tree.open("names.tree") as tree:
    if tree.check():
        print(rfc6962.verify(tree.root, len(tree), 3, b"eve", tree.path(3)))
