"""Kept trees, against trees that hashlib makes."""
import hashlib
import os
import random
import struct
import tempfile
import threading
import unittest

import paxidore
from paxidore import Tree

DRAWS = random.Random(21)


def sha(data):
    return hashlib.sha256(data).digest()


HASHINGS = (
    (paxidore.sha256, sha, lambda left, right: sha(left + right)),
    (paxidore.rfc6962, lambda leaf: sha(b"\0" + leaf), lambda left, right: sha(b"\1" + left + right)),
)


def word(number):
    return struct.pack("<Q", number)


def drawn_leaf():
    return DRAWS.randbytes(DRAWS.randrange(130))


class Model:
    """The digests of a tree by hashlib, from the root down."""

    def __init__(self, leaf, node, leaves):
        self.leaf, self.node, self.size = leaf, node, len(leaves)
        self.digests = [b""] * (self.size - 1) + [leaf(bytes_) for bytes_ in leaves]
        self.hash()

    def hash(self):
        for i in reversed(range(self.size - 1)):
            self.digests[i] = self.node(self.digests[2 * i + 1], self.digests[2 * i + 2])

    def set(self, index, leaf):
        self.digests[self.size - 1 + index] = self.leaf(leaf)
        self.hash()

    def path(self, index):
        place, beside = self.size - 1 + index, []
        while place:
            beside.append(self.digests[place + 1 if place % 2 else place - 1])
            place = (place - 1) // 2
        return beside[0] + word(len(beside) - 1) + b"".join(reversed(beside[1:])) + word(index)

    def bytes(self):
        return b"".join(self.digests)


class Trees(unittest.TestCase):
    def setUp(self):
        self.folder = tempfile.TemporaryDirectory()
        self.addCleanup(self.folder.cleanup)
        self.file = os.path.join(self.folder.name, "tree")

    def read(self):
        with open(self.file, "rb") as file:
            return file.read()

    def same(self, tree, model):
        self.assertEqual(tree.root, model.digests[0])
        for index in range(model.size) if model.size < 64 else DRAWS.sample(range(model.size), 16):
            self.assertEqual(tree.path(index), model.path(index))

    def test_every_size(self):
        for trees, leaf, node in HASHINGS:
            for log2 in range(1, 13):
                leaves = [drawn_leaf() for _ in range(1 << log2)]
                model = Model(leaf, node, leaves)
                memory = bytearray(32 * (2 * len(leaves) - 1))
                for tree in (Tree.build(leaves, trees=trees), Tree.build(leaves, self.file, trees=trees)):
                    with tree:
                        self.assertEqual(len(tree), len(leaves))
                        self.assertTrue(tree.check())
                        self.same(tree, model)
                self.assertEqual(self.read(), model.bytes())
                os.unlink(self.file)
                # the leaves' digests alone
                memory[32 * (len(leaves) - 1) :] = b"".join(map(leaf, leaves))
                tree = Tree(memory, trees=trees)
                self.assertFalse(tree.check())
                tree.rebuild()
                self.assertEqual(bytes(memory), model.bytes())
                self.assertTrue(tree.check())

    def test_leaves_of_every_length(self):
        for trees, leaf, node in HASHINGS:
            for length in range(0, 130):
                leaves = [DRAWS.randbytes(length) for _ in range(4)] + [drawn_leaf() for _ in range(4)]
                memory = bytearray(32 * 15)
                model = Model(leaf, node, leaves)
                memory[32 * 7 :] = model.bytes()[32 * 7 :]
                self.assertEqual(Tree.build(leaves, trees=trees).root, model.digests[0])

    def test_changes(self):
        for trees, leaf, node in HASHINGS:
            for size in (2, 4, 8, 64, 256):
                leaves = [drawn_leaf() for _ in range(size)]
                model = Model(leaf, node, leaves)
                memory = bytearray(model.bytes())
                tree = Tree(memory, trees=trees)
                for _ in range(40):
                    index, other = DRAWS.randrange(size), drawn_leaf()
                    leaves[index] = other
                    tree.set(index, other)
                    model.set(index, other)
                    self.assertEqual(bytes(memory), model.bytes())
                self.assertTrue(tree.check())
                self.same(tree, model)
                root = trees.root(leaves)
                self.assertEqual(root, tree.root)
                for index in DRAWS.sample(range(size), min(size, 8)):
                    self.assertEqual(trees.path(leaves, index), tree.path(index))
                    self.assertTrue(trees.verify(root, size, index, leaves[index], tree.path(index)))

    def test_multi_paths(self):
        for trees, _, _ in HASHINGS:
            for size in (2, 4, 8, 64, 1024):
                leaves = [drawn_leaf() for _ in range(size)]
                tree = Tree.build(leaves, trees=trees)
                for _ in range(30 if size < 1024 else 5):
                    # in any order, and some of them twice
                    indexes = [DRAWS.randrange(size) for _ in range(DRAWS.randrange(1, 2 * size))]
                    proof = tree.multi_path(indexes)
                    self.assertEqual(proof, trees.multi_path(leaves, indexes))
                    rising = sorted(set(indexes))
                    shown = [leaves[index] for index in rising]
                    self.assertTrue(trees.multi_verify(tree.root, size, rising, shown, proof))
                # whatever memory holds
                held = bytearray(DRAWS.randbytes(32 * (2 * size - 1)))
                proof = Tree(held, trees=trees).multi_path([size - 1, 0])
                self.assertEqual(proof[8:72], bytes(held[32 * size : 32 * size + 32] + held[-64:-32]))

    def test_several_changes(self):
        for trees, leaf, node in HASHINGS:
            for size in (2, 4, 8, 64, 256):
                leaves = [drawn_leaf() for _ in range(size)]
                model = Model(leaf, node, leaves)
                memory = bytearray(model.bytes())
                tree = Tree(memory, trees=trees)
                for count in (1, 2, 3, size // 2, size, 2 * size):
                    # in any order, and one index more than once: the last counts
                    indexes = [DRAWS.randrange(size) for _ in range(count)]
                    for given in (indexes, sorted(set(indexes))):
                        others = [drawn_leaf() for _ in given]
                        tree.set_many(given, others)
                        for index, other in zip(given, others):
                            model.digests[size - 1 + index] = leaf(other)
                        model.hash()
                        self.assertEqual(bytes(memory), model.bytes())
                self.assertTrue(tree.check())

    def test_several_changes_of_memory_that_holds_no_tree(self):
        for trees, leaf, node in HASHINGS:
            for size in (2, 8, 32):
                memory = bytearray(DRAWS.randbytes(32 * (2 * size - 1)))
                digests = [bytes(memory[32 * i : 32 * i + 32]) for i in range(2 * size - 1)]
                indexes = DRAWS.sample(range(size), max(1, size // 4))
                others = [drawn_leaf() for _ in indexes]
                above = set()
                for index, other in zip(indexes, others):
                    place = size - 1 + index
                    digests[place] = leaf(other)
                    while place:
                        place = (place - 1) // 2
                        above.add(place)
                for place in sorted(above, reverse=True):
                    digests[place] = node(digests[2 * place + 1], digests[2 * place + 2])
                Tree(memory, trees=trees).set_many(indexes, others)
                self.assertEqual(bytes(memory), b"".join(digests))

    def test_memory_that_holds_no_tree(self):
        # what is written is the leaf's digest and those above it, whatever stood there
        for trees, leaf, node in HASHINGS:
            for size in (2, 8, 32):
                memory = bytearray(DRAWS.randbytes(32 * (2 * size - 1)))
                tree = Tree(memory, trees=trees)
                model = Model(leaf, node, [b""] * size)
                model.digests = [bytes(memory[32 * i : 32 * i + 32]) for i in range(2 * size - 1)]
                self.same(tree, model)
                self.assertFalse(tree.check())
                index, other = DRAWS.randrange(size), drawn_leaf()
                tree.set(index, other)
                place = size - 1 + index
                model.digests[place] = leaf(other)
                while place:
                    place = (place - 1) // 2
                    model.digests[place] = node(model.digests[2 * place + 1], model.digests[2 * place + 2])
                self.assertEqual(bytes(memory), model.bytes())

    def test_each_byte_flipped_is_found(self):
        for trees, leaf, node in HASHINGS:
            leaves = [drawn_leaf() for _ in range(8)]
            Tree.build(leaves, self.file, trees=trees).close()
            whole = self.read()
            for place in range(len(whole)):
                other = bytearray(whole)
                other[place] ^= 1 << DRAWS.randrange(8)
                with open(self.file, "wb") as file:
                    file.write(other)
                with Tree.open(self.file, trees=trees) as tree:
                    self.assertFalse(tree.check())
                    tree.rebuild()
                    self.assertTrue(tree.check())
                    # above other leaves' digests stands another root
                    self.assertEqual(tree.root == whole[:32], place < 32 * 7)
            os.unlink(self.file)

    def test_a_change_that_stops_half_way_is_mended(self):
        for trees, leaf, node in HASHINGS:
            leaves = [drawn_leaf() for _ in range(16)]
            before = Model(leaf, node, leaves)
            for index in range(16):
                after = Model(leaf, node, leaves[:index] + [b"other"] + leaves[index + 1 :])
                place, memory = 15 + index, bytearray(before.bytes())
                while place:
                    memory[32 * place : 32 * place + 32] = after.digests[place]
                    tree = Tree(memory, trees=trees)
                    self.assertFalse(tree.check())
                    mended = Tree(bytearray(memory), trees=trees)
                    mended.rebuild()
                    self.assertEqual(mended.root, after.digests[0])
                    place = (place - 1) // 2

    def test_files(self):
        leaves = [drawn_leaf() for _ in range(32)]
        with Tree.build(leaves, self.file) as tree:
            root = tree.root
            self.assertRaises(FileExistsError, Tree.build, leaves, self.file)
            self.assertRaises(FileExistsError, lambda: Tree.build(leaves, self.file, trees=paxidore.sha256))
        self.assertEqual(os.path.getsize(self.file), 32 * 63)
        with Tree.open(self.file) as tree:
            self.assertEqual(tree.root, root)
            self.assertFalse(Tree.open(self.file, trees=paxidore.sha256).check())
            tree.set(31, b"other")
            tree.flush()
        leaves[31] = b"other"
        with Tree.open(self.file) as tree:
            self.assertTrue(tree.check())
            self.assertEqual(tree.root, paxidore.rfc6962.root(leaves))
        self.assertEqual(repr(tree), "<paxidore.Tree of 32 leaves, paxidore.rfc6962>")
        for length in (0, 1, 31, 32, 64, 95, 97, 32 * 5, 32 * 62, 32 * 63 - 1, 32 * 64):
            with open(self.file, "wb") as file:
                file.write(bytes(length))
            self.assertRaises(paxidore.SizeError, Tree.open, self.file)
        self.assertRaises(FileNotFoundError, Tree.open, self.file + "s")
        self.assertRaises(paxidore.SizeError, Tree.build, leaves[:3], self.file + "s")
        self.assertFalse(os.path.exists(self.file + "s"))

    def test_joins(self):
        leaves = [drawn_leaf() for _ in range(64)]
        for trees, leaf, node in HASHINGS:
            for size in (2, 4, 8, 16, 32, 64):
                for count in (1, 2, 4, 8, 16, 32):
                    if size * count > 64:
                        continue
                    parts = [Tree.build(leaves[size * n : size * n + size], trees=trees) for n in range(count)]
                    tree = Tree.join(parts)
                    self.assertEqual(bytes(tree._held), Model(leaf, node, leaves[: size * count]).bytes())
                    self.assertEqual(repr(tree), "<paxidore.Tree of %d leaves, %r>" % (size * count, trees))
        small, large = Tree.build(leaves[:2]), Tree.build(leaves[:4])
        for parts in ([], [small] * 3, [small, large], [large, small]):
            self.assertRaises(paxidore.SizeError, Tree.join, parts)
        self.assertRaises(ValueError, Tree.join, [small, Tree.build(leaves[:2], trees=paxidore.sha256)])
        # whatever a part holds
        other = Tree(bytearray(DRAWS.randbytes(96)))
        self.assertEqual(bytes(Tree.join([other, small])._held)[32:64], bytes(other._held)[:32])
        small.close()
        self.assertRaises(ValueError, Tree.join, [small, other])

    def test_progress(self):
        leaves = [drawn_leaf() for _ in range(4096)]
        for trees, leaf, node in HASHINGS:
            told = []
            tree = Tree.build(leaves, trees=trees, progress=told.append)
            self.assertEqual(told, [1024, 2048, 3072, 4096])
            self.assertEqual(bytes(tree._held), Model(leaf, node, leaves).bytes())
        told = []
        Tree.build(leaves[:2], self.file, progress=told.append).close()
        self.assertEqual(told, [2])
        os.unlink(self.file)

        def stop(count):
            if count > 2048:
                raise InterruptedError

        self.assertRaises(InterruptedError, Tree.build, leaves, self.file, progress=stop)
        self.assertFalse(os.path.exists(self.file))

    def test_refusals(self):
        leaves = [drawn_leaf() for _ in range(4)]
        tree = Tree.build(leaves)
        for error, call in (
            (paxidore.SizeError, lambda: Tree.build([])),
            (paxidore.SizeError, lambda: Tree.build(leaves[:1])),
            (paxidore.SizeError, lambda: Tree.build(leaves[:3])),
            (paxidore.SizeError, lambda: Tree(bytearray(32 * 8))),
            (paxidore.SizeError, lambda: Tree(bytearray())),
            (paxidore.IndexBeyondSize, lambda: tree.path(4)),
            (paxidore.IndexBeyondSize, lambda: tree.path((1 << 64) - 1)),
            (paxidore.IndexBeyondSize, lambda: tree.multi_path([0, 4])),
            (paxidore.IndexBeyondSize, lambda: tree.multi_path([])),
            (OverflowError, lambda: tree.multi_path([-1])),
            (paxidore.IndexBeyondSize, lambda: tree.set(4, b"")),
            (paxidore.IndexBeyondSize, lambda: tree.set_many([0, 4], [b"", b""])),
            (paxidore.IndexBeyondSize, lambda: tree.set_many([], [])),
            (paxidore.CountError, lambda: tree.set_many([0, 1], [b""])),
            (OverflowError, lambda: tree.set_many([-1], [b""])),
            (TypeError, lambda: tree.set_many([0], [bytearray(1)])),
            (OverflowError, lambda: tree.path(-1)),
            (OverflowError, lambda: tree.set(1 << 64, b"")),
            (TypeError, lambda: tree.set(0, bytearray(1))),
            (TypeError, lambda: tree.set(0, memoryview(b"a"))),
            (TypeError, lambda: Tree.build([b"", bytearray(1)])),
            (TypeError, lambda: Tree(bytes(32 * 7))),
            (TypeError, lambda: Tree(bytearray(32 * 7), trees="sha256")),
            (BufferError, lambda: held.append(0)),
        ):
            held = bytearray(32 * 7)
            holder = Tree(held)
            self.assertRaises(error, call)
            holder.close()
        held.append(0)
        for wrap in (float, str, lambda number: None):
            for name, call in (
                ("index", lambda: tree.path(wrap(1))),
                ("an index", lambda: tree.multi_path([0, wrap(1)])),
                ("index", lambda: tree.set(wrap(1), b"")),
                ("an index", lambda: tree.set_many([0, wrap(1)], [b"", b""])),
            ):
                self.assertRaisesRegex(TypeError, "^%s is int, not %s$" % (name, type(wrap(1)).__name__), call)
        self.assertTrue(tree.check())
        self.assertEqual(tree.root, paxidore.rfc6962.root(leaves))
        tree.close()
        tree.close()
        for call in (
            lambda: tree.root,
            lambda: tree.path(0),
            lambda: tree.set(0, b""),
            lambda: tree.set_many([0], [b""]),
            tree.check,
            tree.rebuild,
            tree.flush,
        ):
            self.assertRaisesRegex(ValueError, "^the tree is closed$", call)
        self.assertEqual(len(tree), 4)

    def test_threads_share_a_tree(self):
        tree = Tree.build([b""] * 256)

        def change(start):
            for i in range(200):
                tree.set((start + 7 * i) % 256, bytes([start]))

        threads = [threading.Thread(target=change, args=(start,)) for start in range(4)]
        for thread in threads:
            thread.start()
        for thread in threads:
            thread.join()
        self.assertTrue(tree.check())


if __name__ == "__main__":
    unittest.main()
