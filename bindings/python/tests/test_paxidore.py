"""Every call, against trees that hashlib makes."""
import array
import copy
import hashlib
import os
import pickle
import random
import resource
import struct
import subprocess
import sys
import unittest

import paxidore
from paxidore import _library

DRAWS = random.Random(20)


def sha(data):
    return hashlib.sha256(data).digest()


HASHINGS = (
    (paxidore.sha256, sha, lambda left, right: sha(left + right)),
    (paxidore.rfc6962, lambda leaf: sha(b"\0" + leaf), lambda left, right: sha(b"\1" + left + right)),
)


def word(number):
    return struct.pack("<Q", number)


class Tree:
    """A tree by hashlib, and its canonical bytes."""

    def __init__(self, leaf, node, leaves):
        self.rows = [[leaf(bytes_) for bytes_ in leaves]]
        while len(self.rows[-1]) > 1:
            row = self.rows[-1]
            self.rows.append([node(row[i], row[i + 1]) for i in range(0, len(row), 2)])
        self.root = self.rows[-1][0]

    def above(self, index):
        return [self.rows[level][index >> level ^ 1] for level in range(len(self.rows) - 2, 0, -1)]

    def path(self, index):
        above = self.above(index)
        return self.rows[0][index ^ 1] + word(len(above)) + b"".join(above) + word(index)

    def multi_path(self, indexes):
        siblings, prefixes, suffixes, before = b"", b"", b"", []
        for index in indexes:
            above = self.above(index)
            shared = 0
            while shared < len(before) and before[shared] == above[shared]:
                shared += 1
            siblings += self.rows[0][index ^ 1]
            prefixes += word(shared)
            suffixes += word(len(above) - shared) + b"".join(above[shared:])
            before = above
        count = word(len(indexes))
        return count + siblings + count + prefixes + count + suffixes + count + b"".join(map(word, indexes))


class Longer(bytes):
    # it says another length than that of its bytes
    def __len__(self):
        return 1 << 32


class Lower(int):
    # it says that it is below each other number
    def __lt__(self, other):
        return True

    __le__ = __lt__

    def __gt__(self, other):
        return False

    __ge__ = __gt__


class Index:
    # it has a number, but is none
    def __init__(self, number):
        self.number = number

    def __index__(self):
        return self.number


# what makes of a number something that is no int
NO_INTS = (float, str, complex, Index, lambda number: None, lambda number: [number])


def split(count):
    # the largest power of two below the count
    return 1 << (count - 1).bit_length() - 1


class History:
    """A log by hashlib, by the recursions of RFC 6962, section 2.1."""

    @staticmethod
    def root(digests):
        if len(digests) == 1:
            return digests[0]
        k = split(len(digests))
        return sha(b"\1" + History.root(digests[:k]) + History.root(digests[k:]))

    @staticmethod
    def path(index, digests):
        if len(digests) == 1:
            return b""
        k = split(len(digests))
        if index < k:
            return History.path(index, digests[:k]) + History.root(digests[k:])
        return History.path(index - k, digests[k:]) + History.root(digests[:k])

    @staticmethod
    def proof(old, digests, whole=True):
        if old == len(digests):
            return b"" if whole else History.root(digests)
        k = split(len(digests))
        if old <= k:
            return History.proof(old, digests[:k], whole) + History.root(digests[k:])
        return History.proof(old - k, digests[k:], False) + History.root(digests[:k])


def drawn_leaves(count):
    return [DRAWS.randbytes(DRAWS.randrange(80)) for _ in range(count)]


def flips(data, count):
    for place in DRAWS.sample(range(8 * len(data)), min(count, 8 * len(data))):
        other = bytearray(data)
        other[place // 8] ^= 1 << place % 8
        yield bytes(other)


class Calls(unittest.TestCase):
    def test_trees_of_every_size(self):
        for trees, leaf, node in HASHINGS:
            for log2 in range(1, 13):
                size = 1 << log2
                leaves = drawn_leaves(size)
                tree = Tree(leaf, node, leaves)
                self.assertEqual(trees.root(leaves), tree.root)
                for index in range(size):
                    self.assertTrue(trees.verify(tree.root, size, index, leaves[index], tree.path(index)))
                for index in range(size) if log2 < 6 else DRAWS.sample(range(size), 8):
                    path = trees.path(leaves, index)
                    self.assertEqual(path, tree.path(index))
                    self.assertFalse(trees.verify(tree.root, size, index, leaves[index] + b"x", path))
                    self.assertFalse(trees.verify(sha(tree.root), size, index, leaves[index], path))
                for _ in range(8):
                    indexes = sorted(DRAWS.sample(range(size), DRAWS.randrange(1, min(size, 200) + 1)))
                    proof = trees.multi_path(leaves, DRAWS.sample(indexes, len(indexes)))
                    self.assertEqual(proof, tree.multi_path(indexes))
                    shown = [leaves[index] for index in indexes]
                    self.assertTrue(trees.multi_verify(tree.root, size, indexes, shown, proof))
                    shown[DRAWS.randrange(len(shown))] += b"x"
                    self.assertFalse(trees.multi_verify(tree.root, size, indexes, shown, proof))

    def test_no_flipped_bit_is_accepted(self):
        for trees, leaf, node in HASHINGS:
            leaves = drawn_leaves(1024)
            tree = Tree(leaf, node, leaves)
            index = DRAWS.randrange(1024)
            for other in flips(tree.path(index), 1 << 20):
                self.assertIsNot(self.answer(trees.verify, tree.root, 1024, index, leaves[index], other), True)
            indexes = sorted(DRAWS.sample(range(1024), 40))
            shown = [leaves[index] for index in indexes]
            for other in flips(tree.multi_path(indexes), 2000):
                self.assertIsNot(self.answer(trees.multi_verify, tree.root, 1024, indexes, shown, other), True)

    def test_bytes_at_random_are_refused(self):
        for trees, _, _ in HASHINGS:
            for _ in range(3000):
                count = DRAWS.choice([0, 1, 2, 1 << 32, 1 << 63, (1 << 64) - 1])
                noise = DRAWS.randbytes(32) + word(count) + DRAWS.randbytes(DRAWS.randrange(100))
                self.assertIsNot(self.answer(trees.verify, bytes(32), 4, 1, b"leaf", noise), True)
                noise = word(count) + DRAWS.randbytes(DRAWS.randrange(100))
                self.assertIsNot(self.answer(trees.multi_verify, bytes(32), 4, [1], [b"leaf"], noise), True)

    def answer(self, call, *words):
        try:
            return call(*words)
        except paxidore.Refused as refused:
            return refused.code

    def test_refusals(self):
        trees = paxidore.sha256
        leaves = [b"", b"a", b"bb", b"ccc"]
        root, path = trees.root(leaves), trees.path(leaves, 2)
        proof = trees.multi_path(leaves, [0, 3])
        for error, call in (
            (paxidore.SizeError, lambda: trees.root(leaves[:3])),
            (paxidore.SizeError, lambda: trees.root([])),
            (paxidore.SizeError, lambda: trees.verify(root, 3, 2, b"bb", path)),
            (paxidore.HeightError, lambda: trees.verify(root, 8, 2, b"bb", path)),
            (paxidore.InvalidProof, lambda: trees.verify(root, 4, 3, b"bb", path)),
            (paxidore.IndexBeyondSize, lambda: trees.verify(root, 4, 4, b"bb", path)),
            (paxidore.IndexBeyondSize, lambda: trees.verify(root, 2, 2, b"bb", b"")),
            (paxidore.InvalidProof, lambda: trees.verify(root, 4, 2, b"bb", path + b"\0")),
            (paxidore.TruncatedProof, lambda: trees.verify(root, 4, 2, b"bb", path[:-1])),
            (paxidore.TruncatedProof, lambda: trees.verify(root, 4, 2, b"bb", b"")),
            (paxidore.IndexBeyondSize, lambda: trees.path(leaves, 4)),
            (paxidore.IndexBeyondSize, lambda: trees.multi_path(leaves, [1, 4])),
            (paxidore.IndexBeyondSize, lambda: trees.multi_path(leaves, [])),
            (paxidore.CountError, lambda: trees.multi_verify(root, 4, [0, 3], [b""], proof)),
            (paxidore.InvalidProof, lambda: trees.multi_verify(root, 4, [3, 0], [b"ccc", b""], proof)),
            (paxidore.IndexBeyondSize, lambda: trees.multi_verify(root, 4, [0, 4], [b"", b"ccc"], proof)),
            (paxidore.IndexBeyondSize, lambda: trees.multi_verify(root, 4, [], [], b"")),
            (ValueError, lambda: trees.verify(root[1:], 4, 2, b"bb", path)),
            (OverflowError, lambda: trees.verify(root, 4, 2 + (1 << 64), b"bb", path)),
            (OverflowError, lambda: trees.path(leaves, -1)),
        ):
            self.assertRaises(error, call)
        self.assertTrue(trees.multi_verify(root, 4, [0, 3], [b"", b"ccc"], proof))
        self.assertEqual(repr(trees), "paxidore.sha256")
        self.assertEqual(str(self.refusal(lambda: trees.root([]))), "no tree or log has this size")

    def test_only_bytes_themselves_are_taken(self):
        class Changing(list):
            # a list that is longer at each look
            looks = 0

            def __len__(self):
                self.looks += 1
                return super().__len__() + (self.looks << 20)

        for trees, _, _ in HASHINGS:
            leaves = [b"", b"a", b"bb", b"ccc"]
            root, path, proof = trees.root(leaves), trees.path(leaves, 2), trees.multi_path(leaves, [0, 3])
            for wrap in (Longer, bytearray, memoryview):
                for name, call in (
                    ("root", lambda: trees.verify(wrap(root), 4, 2, b"bb", path)),
                    ("leaf", lambda: trees.verify(root, 4, 2, wrap(b"bb"), path)),
                    ("path", lambda: trees.verify(root, 4, 2, b"bb", wrap(path))),
                    ("root", lambda: trees.multi_verify(wrap(root), 4, [0, 3], [b"", b"ccc"], proof)),
                    ("a leaf", lambda: trees.multi_verify(root, 4, [0, 3], [b"", wrap(b"ccc")], proof)),
                    ("proof", lambda: trees.multi_verify(root, 4, [0, 3], [b"", b"ccc"], wrap(proof))),
                    ("a leaf", lambda: trees.root([b"", wrap(b"a")])),
                    ("a leaf", lambda: trees.path([b"", wrap(b"a")], 0)),
                    ("a leaf", lambda: trees.multi_path([b"", wrap(b"a")], [0])),
                    ("data", lambda: paxidore.blake2s(wrap(b"abc"))),
                    ("data", lambda: paxidore.sha256_digest(wrap(b"abc"))),
                    ("value", lambda: paxidore.blake2s_commit(wrap(b"abc"), root)),
                    ("nonce", lambda: paxidore.blake2s_commit(b"abc", wrap(root))),
                    ("commitment", lambda: paxidore.blake2s_opens(wrap(root), b"abc", root)),
                    ("value", lambda: paxidore.blake2s_opens(root, wrap(b"abc"), root)),
                    ("nonce", lambda: paxidore.blake2s_opens(root, b"abc", wrap(root))),
                ):
                    with self.assertRaisesRegex(TypeError, "^%s is bytes, not %s$" % (name, wrap.__name__)):
                        call()
            self.assertEqual(trees.root(Changing(leaves)), root)
            self.assertEqual(trees.path(Changing(leaves), 2), path)
            self.assertEqual(trees.multi_path(Changing(leaves), Changing([3, 0])), proof)
            self.assertTrue(trees.multi_verify(root, 4, Changing([0, 3]), Changing([b"", b"ccc"]), proof))

    def test_leaves_of_one_length(self):
        leaves = [bytes([n]) * 32 for n in range(8)]
        joined = b"".join(leaves)
        for trees, _, _ in HASHINGS:
            root, path, proof = trees.root(leaves), trees.path(leaves, 5), trees.multi_path(leaves, [1, 6])
            for buffer in (joined, bytearray(joined), memoryview(joined), array.array("Q", joined)):
                self.assertEqual(trees.root(buffer, length=32), root)
                self.assertEqual(trees.path(buffer, 5, length=32), path)
                self.assertEqual(trees.multi_path(buffer, [1, 6], length=32), proof)
                steps = []
                self.assertEqual(paxidore.Tree.build(buffer, length=32, trees=trees).root, root)
                tree = paxidore.Tree.build(buffer, length=32, trees=trees, progress=steps.append)
                self.assertEqual((tree.root, steps), (root, [8]))
                tree.set_many([0, 1], leaves[1] + leaves[0], length=32)
                self.assertEqual(tree.root, trees.root([leaves[1], leaves[0]] + leaves[2:]))
            with self.assertRaises(paxidore.SizeError):
                trees.root(b"", length=32)
            for buffer, length, kind in (
                (joined, 0, ValueError),
                (joined, 48, ValueError),
                (joined, -1, OverflowError),
                (joined, 1 << 64, OverflowError),
                (joined, 32.0, TypeError),
                ("text", 2, TypeError),
                (leaves, 32, TypeError),
            ):
                with self.assertRaises(kind):
                    trees.root(buffer, length=length)
        log, other = paxidore.Log(), paxidore.Log()
        self.assertEqual(log.append(joined, length=32), other.append(leaves))
        self.assertEqual(log.root(), other.root())
        self.assertEqual(log.append(b"", length=32), 8)

    def test_lists_of_short_and_long_leaves(self):
        """Short leaves are joined in another way than long ones."""
        for lengths in [32] * 8, [0] * 4, [256] * 4, [257] * 4, [0, 1, 300, 9], [300, 0, 9, 1], [256, 257], [257, 256], [1, 1, 1, 2]:
            leaves = [bytes([n]) * length for n, length in enumerate(lengths)]
            for trees, _, _ in HASHINGS:
                root = trees.root(leaves)
                self.assertEqual(root, trees.root(tuple(leaves)))
                for index, leaf in enumerate(leaves):
                    self.assertTrue(trees.verify(root, len(leaves), index, leaf, trees.path(leaves, index)))
                for wrap in (Longer, bytearray, memoryview):
                    for place in range(len(leaves)):
                        with self.assertRaisesRegex(TypeError, "^a leaf is bytes, not %s$" % wrap.__name__):
                            trees.root(leaves[:place] + [wrap(leaves[place])] + leaves[place + 1 :])
            log, other = paxidore.Log(), paxidore.Log()
            log.append(leaves)
            for leaf in leaves:
                other.append([leaf])
            self.assertEqual(log.root(), other.root())
        with self.assertRaises(paxidore.SizeError):
            paxidore.rfc6962.root([])

    def test_only_int_is_taken(self):
        log, zeros = paxidore.Log, bytes(32)
        for trees, _, _ in HASHINGS:
            leaves = [b"", b"a", b"bb", b"ccc"]
            root, path, proof = trees.root(leaves), trees.path(leaves, 2), trees.multi_path(leaves, [0, 3])
            for wrap in NO_INTS:
                for name, call in (
                    ("size", lambda: trees.verify(root, wrap(4), 2, b"bb", path)),
                    ("index", lambda: trees.verify(root, 4, wrap(2), b"bb", path)),
                    ("size", lambda: trees.multi_verify(root, wrap(4), [0, 3], [b"", b"ccc"], proof)),
                    ("an index", lambda: trees.multi_verify(root, 4, [0, wrap(3)], [b"", b"ccc"], proof)),
                    ("index", lambda: trees.path(leaves, wrap(2))),
                    ("an index", lambda: trees.multi_path(leaves, [wrap(0), 3])),
                    ("size", lambda: log.verify_inclusion(zeros, wrap(1), 0, b"", b"")),
                    ("index", lambda: log.verify_inclusion(zeros, 1, wrap(0), b"", b"")),
                    ("size", lambda: log.verify_inclusion_digest(zeros, wrap(1), 0, zeros, b"")),
                    ("index", lambda: log.verify_inclusion_digest(zeros, 1, wrap(0), zeros, b"")),
                    ("old_size", lambda: log.verify_consistency(zeros, wrap(1), zeros, 1, b"")),
                    ("new_size", lambda: log.verify_consistency(zeros, 1, zeros, wrap(1), b"")),
                ):
                    with self.assertRaisesRegex(TypeError, "^%s is int, not %s$" % (name, type(wrap(1)).__name__)):
                        call()
            # a subclass counts as the number that it has
            self.assertTrue(trees.verify(root, Lower(4), Lower(2), b"bb", path))
            self.assertEqual(trees.path(leaves, Lower(2)), path)
            self.assertRaises(OverflowError, trees.path, leaves, Lower(2 + (1 << 64)))
            # more digits than Python prints
            self.assertRaises(OverflowError, trees.path, leaves, 10**5000)
            self.assertRaises(OverflowError, trees.multi_path, leaves, [Lower(2 + (1 << 64))])

    def test_logs(self):
        log = paxidore.Log
        for size in list(range(1, 34)) + [100, 257]:
            entries = drawn_leaves(size)
            digests = [sha(b"\0" + entry) for entry in entries]
            root = History.root(digests)
            for index in range(size) if size < 34 else DRAWS.sample(range(size), 20):
                path = History.path(index, digests)
                self.assertTrue(log.verify_inclusion(root, size, index, entries[index], path))
                self.assertFalse(log.verify_inclusion(root, size, index, entries[index] + b"a", path))
                self.assertIsInstance(
                    self.refusal(lambda: log.verify_inclusion(root, size, index, entries[index], path + b"a")),
                    paxidore.InvalidProof,
                )
                for other in flips(path, 8):
                    self.assertFalse(log.verify_inclusion(root, size, index, entries[index], other))
            self.assertIsInstance(
                self.refusal(lambda: log.verify_inclusion(root, size, size, b"", b"")), paxidore.IndexBeyondSize
            )
            for old in range(1, size + 1) if size < 34 else DRAWS.sample(range(1, size), 20):
                before, proof = History.root(digests[:old]), History.proof(old, digests)
                self.assertTrue(log.verify_consistency(before, old, root, size, proof))
                self.assertEqual(log.verify_consistency(root, old, root, size, proof), before == root)
                for other in flips(proof, 8):
                    self.assertFalse(log.verify_consistency(before, old, root, size, other))
                if proof:
                    self.assertIsInstance(
                        self.refusal(lambda: log.verify_consistency(before, old, root, size, proof[1:])),
                        paxidore.TruncatedProof,
                    )
            for old in (0, size + 1):
                self.assertIsInstance(
                    self.refusal(lambda: log.verify_consistency(root, old, root, size, b"")), paxidore.SizeError
                )
        for wrap in (Longer, bytearray, memoryview):
            for name, call in (
                ("root", lambda: log.verify_inclusion(wrap(root), 1, 0, b"", b"")),
                ("entry", lambda: log.verify_inclusion(root, 1, 0, wrap(b"abc"), b"")),
                ("path", lambda: log.verify_inclusion(root, 1, 0, b"", wrap(b"abc"))),
                ("old_root", lambda: log.verify_consistency(wrap(root), 1, root, 1, b"")),
                ("new_root", lambda: log.verify_consistency(root, 1, wrap(root), 1, b"")),
                ("proof", lambda: log.verify_consistency(root, 1, root, 1, wrap(b"abc"))),
            ):
                with self.assertRaisesRegex(TypeError, "^%s is bytes, not %s$" % (name, wrap.__name__)):
                    call()

    def refusal(self, call):
        try:
            call()
        except paxidore.Refused as refused:
            return refused

    def test_refusals_have_their_codes(self):
        codes = [kind.code for kind in _library._KINDS.values()]
        self.assertEqual(sorted(codes), [*range(-19, -10), *range(-8, 0)])
        for code in codes + [-9, -10, -99]:
            self.assertEqual(_library._refusal(code).code, code)
        for code in (-9, -10, -99):
            self.assertIs(type(_library._refusal(code)), paxidore.Refused)
        self.assertEqual(str(_library._refusal(-9)), "the buffer is too short")
        self.assertEqual(paxidore.Refused.code, 0)

    def test_a_library_that_is_not_there(self):
        for library, said in (("/nowhere/libpaxidore.so.1", "cannot be loaded"), ("libc.so.6", "has no call paxidore_")):
            ran = subprocess.run(
                [sys.executable, "-c", "import paxidore"],
                env=dict(os.environ, PAXIDORE_LIBRARY=library),
                stdout=subprocess.PIPE,
                stderr=subprocess.PIPE,
            )
            last = ran.stderr.decode().splitlines()[-1]
            self.assertRegex(last, "^ImportError: .*%s.*: build .* with tools/build-library, and set PAXIDORE_LIBRARY" % said)

    def test_what_is_there(self):
        """`python -m paxidore` says it."""
        said = subprocess.run([sys.executable, "-m", "paxidore"], capture_output=True, text=True, check=True).stdout
        self.assertIn(paxidore.version(), said)
        self.assertIn(paxidore.cpu(), said)
        self.assertIn("Map, MapVersion", said)

    def test_no_global_lock(self):
        """Where Python runs without its global lock the import is refused by a sentence."""
        script = "import sys; sys._is_gil_enabled = lambda: False; import paxidore"
        ran = subprocess.run([sys.executable, "-c", script], capture_output=True, text=True)
        self.assertIn("ImportError: paxidore was not tested without Python's global lock", ran.stderr)

    def test_a_subinterpreter(self):
        """A second interpreter of the process has a module of its own."""
        try:
            import _interpreters as interpreters
        except ImportError:
            try:
                import _xxsubinterpreters as interpreters
            except ImportError:
                self.skipTest("no subinterpreters under that name")
        script = (
            "from paxidore import Log, Map\n"
            "log, own = Log(), Map()\n"
            "log.append([b'one'])\n"
            "own[bytes(32)] = bytes(32)\n"
            "assert len(log) == len(own) == 1 and log.check() and own.check() is None\n"
        )
        # one that shares the lock of this one, and where Python has them one with its own
        kinds = [{"isolated": False}] if sys.version_info < (3, 13) else [{"config": "legacy"}, {"config": "isolated"}]
        for kind in kinds:
            with self.subTest(kind):
                other = interpreters.create(*kind.values()) if "config" in kind else interpreters.create(**kind)
                try:
                    self.assertIsNone(interpreters.run_string(other, script))
                finally:
                    interpreters.destroy(other)

    def test_names_of_arguments(self):
        """Arguments have the order of the library for C; where that would be another one, they are named."""
        log = paxidore.Log()
        log.append([b"one", b"two", b"three"])
        self.assertEqual(log.inclusion(size=2, index=1), log.inclusion(1, size=2))
        self.assertEqual(log.consistency(size=3, old_size=2), log.consistency(2, 3))
        own = paxidore.poseidon.Log()
        own.append([1, 2, 3])
        self.assertEqual(own.inclusion(size=2, index=1), own.inclusion(1, size=2))
        for call in (log.inclusion, own.inclusion):
            self.assertRaises(TypeError, call, 1, 2)
        given = dict(proof=log.consistency(2), new_root=log.root(), new_size=3, old_root=log.root(2), old_size=2)
        self.assertTrue(paxidore.Log.verify_consistency(**given))
        self.assertRaises(TypeError, paxidore.Log.verify_consistency, 2, log.root(2), 3, log.root(), given["proof"])

    def test_digests(self):
        for length in list(range(260)) + [1 << 16]:
            data = DRAWS.randbytes(length)
            self.assertEqual(paxidore.blake2s(data), hashlib.blake2s(data).digest())
            self.assertEqual(paxidore.sha256_digest(data), sha(data))

    def test_a_digest_piece_by_piece(self):
        text = DRAWS.randbytes(1000)
        for cuts in ([], [0], [1], [63, 64, 65], [128, 129], sorted(DRAWS.sample(range(1000), 20))):
            ours = paxidore.Blake2s()
            for start, end in zip([0, *cuts], [*cuts, 1000]):
                ours.update(text[start:end])
            self.assertEqual(ours.digest(), hashlib.blake2s(text).digest())
        begun = paxidore.Blake2s(b"ab")
        other = copy.copy(begun)
        other.update(b"c")
        self.assertEqual(begun.digest(), hashlib.blake2s(b"ab").digest())
        self.assertEqual(other.copy().digest(), hashlib.blake2s(b"abc").digest())
        self.assertRaises(TypeError, begun.update, bytearray(b"c"))
        self.assertRaises(TypeError, pickle.dumps, begun)

    def test_commitments(self):
        for length in list(range(200)) + [1 << 16]:
            value, nonce = DRAWS.randbytes(length), DRAWS.randbytes(32)
            commitment = paxidore.blake2s_commit(value, nonce)
            self.assertEqual(commitment, hashlib.blake2s(value + nonce).digest())
            self.assertIs(paxidore.blake2s_opens(commitment, value, nonce), True)
            self.assertIs(paxidore.blake2s_opens(commitment, value + b"\0", nonce), False)
            for other in flips(commitment, 4):
                self.assertIs(paxidore.blake2s_opens(other, value, nonce), False)
            for other in flips(nonce, 4):
                self.assertIs(paxidore.blake2s_opens(commitment, value, other), False)
            for other in flips(value, 4):
                self.assertIs(paxidore.blake2s_opens(commitment, other, nonce), False)
        for name, call in (
            ("nonce", lambda: paxidore.blake2s_commit(b"", bytes(31))),
            ("nonce", lambda: paxidore.blake2s_opens(bytes(32), b"", bytes(33))),
            ("commitment", lambda: paxidore.blake2s_opens(bytes(31), b"", bytes(32))),
        ):
            self.assertRaisesRegex(ValueError, "^%s has 32 bytes, not " % name, call)

    def test_memory_does_not_grow(self):
        leaves = drawn_leaves(16)
        root, path = paxidore.rfc6962.root(leaves), paxidore.rfc6962.path(leaves, 5)
        before = resource.getrusage(resource.RUSAGE_SELF).ru_maxrss
        for _ in range(100_000):
            paxidore.rfc6962.verify(root, 16, 5, leaves[5], path)
        self.assertLess(resource.getrusage(resource.RUSAGE_SELF).ru_maxrss - before, 2048)

    def test_version(self):
        self.assertEqual(paxidore.version(), "1.0.0")
        self.assertEqual(paxidore.__version__, "1.0.0")

    def test_the_build_that_runs(self):
        # the test of the bindings names the one that has to run
        self.assertEqual(paxidore.cpu(), os.environ.get("PAXIDORE_BUILD", paxidore.cpu()))
        self.assertRegex(paxidore.cpu(), "^[a-z0-9_-]+$")


if __name__ == "__main__":
    unittest.main()
