"""circomlib's hash against the vectors of tools/poseidon-model, and what is refused."""
import json
import os
import random
import threading
import unittest

from paxidore import CountError, IndexBeyondSize, InvalidProof, Refused, SizeError, TruncatedProof, poseidon

FOLDER = os.path.join(os.path.dirname(os.path.abspath(__file__)), "..", "..", "..", "vectors")
VECTORS, TREES = os.path.join(FOLDER, "poseidon.json"), os.path.join(FOLDER, "lean_imts.json")


def little(text):
    return int.from_bytes(bytes.fromhex(text), "little")


def lean_imt(elements):
    """The levels of a LeanIMT, by its definition: a node is the hash of its two children, or its only child."""
    levels = [list(elements)]
    while len(levels[-1]) > 1:
        pairs = [levels[-1][at : at + 2] for at in range(0, len(levels[-1]), 2)]
        levels.append([poseidon.hash(pair) if len(pair) == 2 else pair[0] for pair in pairs])
    return levels


def siblings(levels, index):
    found = []
    for row in levels[:-1]:
        found += [row[index ^ 1].to_bytes(32, "little")] if index ^ 1 < len(row) else []
        index //= 2
    return b"".join(found)


class Number(int):
    def __lt__(self, other):
        return True

    def __ge__(self, other):
        return True

    def to_bytes(self, *args, **kwargs):
        return b"short"


class Poseidon(unittest.TestCase):
    def test_vectors(self):
        with open(VECTORS, encoding="ascii") as file:
            rows = json.load(file)["poseidon"]
        self.assertEqual(len(rows), 100)
        for row in rows:
            numbers = [int(text, 16) for text in row["inputs"]]
            self.assertEqual(poseidon.hash(numbers), int(row["hash"], 16))
            inputs, digest = [bytes.fromhex(text) for text in row["inputs"]], bytes.fromhex(row["hash"])
            self.assertEqual(poseidon.hash_bytes(inputs, "big"), digest)
            self.assertEqual(poseidon.hash_bytes([each[::-1] for each in inputs], "little"), digest[::-1])

    def test_the_check_sum_of_a_table(self):
        """It is the one of docs/FORMATS.md, and a table with a word that is another is refused."""
        for count in (1, 2, 5, 16):
            table = poseidon._table_for(count)
            body, total = table[:-8], 0
            words = len(body) // 8 * 8
            digits = [int.from_bytes(body[at : at + 8], "little") for at in range(0, words, 8)]
            for digit in digits + list(body[words:]):
                total = (total * 1099511628211 + digit) % 2**64
            self.assertEqual(table[-8:], total.to_bytes(8, "little"))
        kept = poseidon._table_for(2)
        try:
            for place in list(range(0, len(kept), 97)) + [len(kept) - 1]:
                changed = bytearray(kept)
                changed[place] ^= 1 << place % 8
                poseidon._tables[2] = bytes(changed)
                self.assertRaises(Refused, poseidon.hash, [1, 2])
        finally:
            poseidon._tables[2] = kept

    def test_refusals(self):
        for numbers in ([], [0] * 17, [0] * 1000):
            with self.assertRaises(CountError):
                poseidon.hash(numbers)
        for number in (poseidon.MODULUS, -1, 2**256, 2**10000):
            with self.assertRaises(poseidon.ElementError):
                poseidon.hash([1, number])
        for order in ("big", "little"):
            with self.assertRaises(poseidon.ElementError) as raised:
                poseidon.hash_bytes([bytes(32), poseidon.MODULUS.to_bytes(32, order)], order)
            self.assertIsInstance(raised.exception, Refused)
            self.assertEqual(raised.exception.code, -3)
        poseidon.hash([poseidon.MODULUS - 1] * 2)

    def test_arguments(self):
        for given in (["1"], [1.0], [None], [b"1"], "12", b"x", 5, None):
            with self.assertRaises((TypeError, poseidon.ElementError) if given == b"x" else TypeError):
                poseidon.hash(given) if given != b"x" else poseidon.hash([given])
        for given in ([bytearray(32)], ["x" * 32], [5], 5):
            with self.assertRaises(TypeError):
                poseidon.hash_bytes(given, "big")
        with self.assertRaises(ValueError):
            poseidon.hash_bytes([bytes(31)], "big")
        for order in ("BIG", "", None, 1):
            with self.assertRaises(ValueError):
                poseidon.hash_bytes([bytes(32)], order)
        # a number of a class of its own is taken as the number that it is
        self.assertEqual(poseidon.hash([Number(1), Number(2)]), poseidon.hash([1, 2]))
        with self.assertRaises(poseidon.ElementError):
            poseidon.hash([Number(poseidon.MODULUS)])

    def test_threads(self):
        poseidon._tables.clear()
        found = []

        def run():
            found.extend(poseidon.hash([i % 7] * (1 + i % 4)) for i in range(40))

        threads = [threading.Thread(target=run) for _ in range(4)]
        for thread in threads:
            thread.start()
        for thread in threads:
            thread.join()
        self.assertEqual(len(set(found)), 28)


class Logs(unittest.TestCase):
    def test_vectors(self):
        with open(TREES, encoding="ascii") as file:
            given = json.load(file)["lean_imts"]
        elements = list(map(little, given["elements"]))
        self.assertEqual(len(given["trees"]), 64)
        log, pieces = poseidon.Log(), poseidon.Log()
        self.assertEqual(log.extend(iter(elements)), 64)
        for tree in given["trees"]:
            size, root = tree["size"], little(tree["root"])
            self.assertEqual(poseidon.root(elements[:size]), root)
            self.assertEqual(log.root(size), root)
            self.assertEqual(pieces.append(elements[size - 1 : size]), size)
            self.assertEqual((pieces.root(), len(pieces)), (root, size))
            for index, path in enumerate(map(bytes.fromhex, tree["paths"])):
                self.assertEqual(poseidon.path(elements[:size], index), path)
                self.assertEqual(log.inclusion(index, size=size), path)
                self.assertTrue(poseidon.verify(root, size, index, elements[index], path))
                self.assertFalse(poseidon.verify(root, size, index, (elements[index] + 1) % poseidon.MODULUS, path))
                self.assertFalse(poseidon.verify((root + 1) % poseidon.MODULUS, size, index, elements[index], path))

    def test_steps(self):
        elements = [number * number + 1 for number in range(100)]
        for step in (2, 3, 7, 32, 100):
            log = poseidon.Log()
            for at in range(0, 100, step):
                log.append(elements[at : at + step])
            self.assertEqual(log.root(), poseidon.root(elements))
            self.assertEqual([log.root(size) for size in (1, 33, 64)], [poseidon.root(elements[:size]) for size in (1, 33, 64)])
            self.assertEqual(log.inclusion(57, size=99), poseidon.path(elements[:99], 57))

    def test_what_an_interrupted_append_left(self):
        log = poseidon.Log()
        log.append(range(1, 12))
        log._digests += bytes(96)
        log.append(range(12, 21))
        self.assertEqual(log.root(), poseidon.root(range(1, 21)))

    def test_refusals(self):
        log = poseidon.Log()
        of_none = lambda: log.inclusion(0), lambda: log.inclusion(0, size=0), lambda: poseidon.verify(1, 0, 0, 1, b"")  # noqa: E731
        for call in (log.root, lambda: log.root(1), lambda: poseidon.root([]), lambda: poseidon.path([], 0), *of_none):
            with self.assertRaises(SizeError):
                call()
        with self.assertRaises(SizeError):
            log.inclusion(0, size=1)
        for number in (poseidon.MODULUS, -1, 2**256):
            for call in (log.append, poseidon.root, lambda given: poseidon.path(given, 0)):
                with self.assertRaises(poseidon.ElementError):
                    call([1, number])
            for given in ((number, 1, 0, 1), (1, 1, 0, number)):
                with self.assertRaises(poseidon.ElementError):
                    poseidon.verify(*given, b"")
        self.assertEqual((log.append([]), log.append([1, 2, 3]), len(log)), (0, 3, 3))
        root, path = log.root(), log.inclusion(0)
        for index in (3, 2**64 - 1):
            for call in (log.inclusion, lambda index: poseidon.path([1, 2, 3], index), lambda index: poseidon.verify(root, 3, index, 1, path)):
                with self.assertRaises(IndexBeyondSize):
                    call(index)
        for given in (path[:-1], path[:32], b""):
            with self.assertRaises(TruncatedProof):
                poseidon.verify(root, 3, 0, 1, given)
        for given in (path + b"x", path + path, poseidon.MODULUS.to_bytes(32, "little") * 2):
            with self.assertRaises(InvalidProof):
                poseidon.verify(root, 3, 0, 1, given)
        self.assertTrue(poseidon.verify(5, 1, 0, 5, b""))
        for given in (["1"], [1.0], 5, None):
            with self.assertRaises(TypeError):
                log.append(given)
        with self.assertRaises(OverflowError):
            log.root(2**64)
        with self.assertRaises(TypeError):
            log.__reduce__()
        self.assertEqual(repr(log), "<paxidore.poseidon.Log of 3 elements>")


def peaks(levels):
    """The roots of the complete trees of a list, the largest first, by its levels."""
    size = len(levels[0])
    return [levels[level][(size >> level) - 1] for level in reversed(range(size.bit_length())) if size >> level & 1]


class Insertions(unittest.TestCase):
    def test_each_count_behind_each_size(self):
        elements, log = [5 * i + 2 for i in range(40)], poseidon.Log()
        log.append(elements)
        roots = [None] + [lean_imt(elements[:size])[-1][0] for size in range(1, 41)]
        for size in range(1, 34):
            proof = log.insertion_proof(size=size)
            self.assertEqual(proof, b"".join(peak.to_bytes(32, "little") for peak in peaks(lean_imt(elements[:size]))))
            for count in (0, 1, 2, 3, 40 - size):
                if size + count <= 40:
                    more = elements[size : size + count]
                    self.assertEqual(poseidon.verify_insertion(roots[size], size, more, proof), roots[size + count])
        self.assertEqual(log.insertion_proof(), log.insertion_proof(size=40))

    def test_inserts_in_turn(self):
        drawn = random.Random(21)
        log, elements = poseidon.Log(), [drawn.randrange(poseidon.MODULUS)]
        log.append(elements)
        root, size = poseidon.root(elements), 1
        while size < 200:
            more = [drawn.choice((0, drawn.randrange(poseidon.MODULUS))) for _ in range(drawn.choice((1, 1, 2, 5, 30)))]
            root, size = poseidon.verify_insertion(root, size, more, log.insertion_proof()), size + len(more)
            elements += more
            log.append(more)
            self.assertEqual(root, lean_imt(elements)[-1][0])
            self.assertEqual(root, log.root())

    def test_other_proofs(self):
        log = poseidon.Log()
        log.append(range(1, 24))
        root, proof = log.root(), log.insertion_proof()
        self.assertEqual(len(proof), 32 * 4)
        right = poseidon.verify_insertion(root, 23, [7, 8, 9], proof)
        for at in range(0, len(proof), 31):
            other = bytearray(proof)
            other[at] ^= 1
            self.assertIsNone(poseidon.verify_insertion(root, 23, [7, 8, 9], bytes(other)))
        swapped = proof[32:64] + proof[:32] + proof[64:]
        self.assertIsNone(poseidon.verify_insertion(root, 23, [7, 8, 9], swapped))
        self.assertIsNone(poseidon.verify_insertion(root + 1, 23, [7, 8, 9], proof))
        # as many ones, and another root
        self.assertNotEqual(poseidon.verify_insertion(root, 27, [7, 8, 9], proof), right)
        for size in (22, 31, 1, 16):
            self.assertRaises((TruncatedProof, InvalidProof), poseidon.verify_insertion, root, size, [7, 8, 9], proof)
        for other in ([7, 9, 8], [7, 8], [7, 8, 9, 0], []):
            self.assertNotEqual(poseidon.verify_insertion(root, 23, other, proof), right)

    def test_refusals(self):
        log = poseidon.Log()
        self.assertRaises(SizeError, log.insertion_proof)
        log.append([1, 2, 3])
        proof = log.insertion_proof()
        for size in (0, 4, 2**63, 2**64 - 1):
            self.assertRaises(SizeError, log.insertion_proof, size=size)
        for size in (0, 2**63, 2**64 - 1):
            self.assertRaises(SizeError, poseidon.verify_insertion, log.root(), size, [1], proof)
        self.assertRaises(TruncatedProof, poseidon.verify_insertion, log.root(), 3, [1], proof[:-1])
        self.assertRaises(TruncatedProof, poseidon.verify_insertion, log.root(), 3, [1], b"")
        self.assertRaises(InvalidProof, poseidon.verify_insertion, log.root(), 3, [1], proof + b"\0")
        far = poseidon.MODULUS.to_bytes(32, "little")
        self.assertRaises(InvalidProof, poseidon.verify_insertion, log.root(), 3, [1], far + proof[32:])
        for element in (poseidon.MODULUS, -1, 2**256):
            self.assertRaises(poseidon.ElementError, poseidon.verify_insertion, log.root(), 3, [1, element], proof)
        self.assertRaises(poseidon.ElementError, poseidon.verify_insertion, poseidon.MODULUS, 3, [1], proof)
        for given in ("proof", None, 3, [1]):
            self.assertRaises(TypeError, poseidon.verify_insertion, log.root(), 3, [1], given)
        self.assertRaises(OverflowError, poseidon.verify_insertion, log.root(), -1, [1], proof)


class Changes(unittest.TestCase):
    def assert_is(self, log, elements, size, index):
        levels = lean_imt(elements[:size])
        self.assertEqual(log.root(size), levels[-1][0])
        path = log.inclusion(index, size=size)
        self.assertEqual(path, siblings(levels, index))
        self.assertTrue(poseidon.verify(levels[-1][0], size, index, elements[index], path))

    def test_each_index_of_each_size(self):
        for size in range(1, 20):
            elements, log = list(range(1, size + 1)), poseidon.Log()
            log.append(elements)
            for index in range(size):
                elements[index] = 0 if index % 3 else 1000 + index
                self.assertIsNone(log.set(index, elements[index]))
                self.assert_is(log, elements, size, index)
                other = poseidon.Log()
                other.append(elements)
                self.assertEqual(log._digests, other._digests)

    def test_appends_and_changes_in_turn(self):
        drawn = random.Random(20)
        for _ in range(6):
            elements, log = [], poseidon.Log()
            for _ in range(60):
                if not elements or drawn.random() < 0.3:
                    more = [drawn.randrange(poseidon.MODULUS) for _ in range(drawn.choice((0, 1, 1, 2, 3, 9)))]
                    elements += more
                    log.append(more)
                else:
                    index = drawn.randrange(len(elements))
                    elements[index] = drawn.choice((0, poseidon.MODULUS - 1, drawn.randrange(poseidon.MODULUS)))
                    log.set(index, elements[index])
                if elements:
                    size = drawn.randrange(1, len(elements) + 1)
                    self.assert_is(log, elements, size, drawn.randrange(size))
                    self.assertEqual(log.root(), poseidon.root(elements))

    def test_vectors(self):
        with open(TREES, encoding="ascii") as file:
            given = json.load(file)["lean_imts"]
        elements, log = list(map(little, given["elements"])), poseidon.Log()
        log.append([0] * 64)
        for index, element in random.Random(3).sample(list(enumerate(elements)), 64):
            log.set(index, element)
        for tree in given["trees"]:
            self.assertEqual(log.root(tree["size"]), little(tree["root"]))
            paths = [log.inclusion(index, size=tree["size"]).hex() for index in range(len(tree["paths"]))]
            self.assertEqual(paths, tree["paths"])

    def test_refusals(self):
        log = poseidon.Log()
        for index in (0, 1, 2**64 - 1):
            self.assertRaises(IndexBeyondSize, log.set, index, 1)
        log.append([1, 2, 3, 4, 5])
        before = bytes(log._digests)
        for index in (5, 6, 2**63, 2**64 - 1):
            self.assertRaises(IndexBeyondSize, log.set, index, 1)
        for index in (-1, 2**64, 2**1000):
            self.assertRaises(OverflowError, log.set, index, 1)
        for index in ("0", 0.0, None, b"0"):
            self.assertRaises(TypeError, log.set, index, 1)
        for element in (poseidon.MODULUS, -1, 2**256, 2**10000, Number(poseidon.MODULUS)):
            for index in (0, 4, 5):
                self.assertRaises(poseidon.ElementError, log.set, index, element)
        for element in ("1", 1.0, None, b"1", bytes(32), [1]):
            self.assertRaises(TypeError, log.set, 0, element)
        self.assertEqual((log._digests, len(log)), (before, 5))
        # a digest that is hashed is no element: nothing is written
        log._digests[32 * 5 : 32 * 6] = poseidon.MODULUS.to_bytes(32, "little")
        before = bytes(log._digests)
        self.assertRaises(InvalidProof, log.set, 0, 9)
        self.assertEqual(log._digests, before)
        log.set(2, Number(9))
        log.set(4, 0)

    def test_what_an_interrupted_append_left(self):
        log = poseidon.Log()
        log.append(range(1, 12))
        log._digests += bytes([7]) * 96
        log.set(10, 0)
        self.assertEqual(log._digests[-96:], bytes([7]) * 96)
        log.append(range(12, 21))
        self.assertEqual(log.root(), poseidon.root([*range(1, 11), 0, *range(12, 21)]))

    def test_threads(self):
        log = poseidon.Log()
        log.append([0] * 40)

        def run(first):
            for index in range(first, 40, 4):
                log.set(index, index + 1)

        threads = [threading.Thread(target=run, args=(first,)) for first in range(4)]
        for thread in threads:
            thread.start()
        for thread in threads:
            thread.join()
        self.assertEqual(log.root(), poseidon.root(range(1, 41)))


if __name__ == "__main__":
    unittest.main()
