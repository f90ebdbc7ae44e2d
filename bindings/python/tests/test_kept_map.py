"""Kept maps, against a dict and the recursion of the definition (tools/map-model)."""
import random
import threading
import unittest

from paxidore import HiddenTree, InvalidProof, KeptMap, Map, TruncatedProof
from map_drawn import MODEL, ROUNDS, near, sha


class Agrees(unittest.TestCase):
    """Changes in turn, beside a dict and the model."""

    def agree(self, rounds, keys, each):
        draws = random.Random(rounds)
        entries, own = {}, KeptMap()
        version, before = own.version(), {}
        for turn in range(rounds):
            key = near(draws.randrange(keys))
            if draws.random() < 0.4:
                if key in entries:
                    del own[key], entries[key]
                else:
                    with self.assertRaises(KeyError):
                        del own[key]
            else:
                own[key] = entries[key] = sha(b"value %d" % turn)
            if turn % each == 0:
                self.assertEqual(own.root, MODEL.root(entries))
                for asked in (key, near(draws.randrange(keys)), sha(b"key %d" % turn)):
                    proof, value = own.prove(asked), entries.get(asked)
                    self.assertEqual(proof, MODEL.proof_bytes(entries, asked))
                    self.assertEqual(own.get(asked), value)
                    self.assertTrue(Map.verify(own.root, asked, value, proof))
                    above = min((other for other in entries if other >= asked), default=None)
                    self.assertEqual(own.first_from(asked), above and (above, entries[above]))
                told = [(key, before.get(key), entries.get(key)) for key in sorted({**before, **entries})]
                try:
                    self.assertEqual(list(own.differences(version)), [row for row in told if row[1] != row[2]])
                except KeyError:
                    pass
                if draws.random() < 0.5:
                    version, before = own.version(), dict(entries)
                some = [near(draws.randrange(keys)) for _ in range(draws.randrange(6))]
                self.assertEqual(own.prove_many(some), MODEL.tree_bytes(entries, sorted(set(some)), False))
                first, last = near(draws.randrange(keys)), near(draws.randrange(keys))
                tree = own.prove_range(first, last)
                self.assertEqual(tree, MODEL.range_bytes(entries, first, last))
                there = sorted((own_key, value) for own_key, value in entries.items() if first <= own_key <= last)
                self.assertEqual(Map.verify_range(own.root, first, last, tree), there)
                self.assertIsNone(Map.verify_range(bytes(32), first, last, tree))
        self.assertEqual(dict(own.items()), entries)
        self.assertEqual(list(own), sorted(entries))
        self.assertEqual(len(own), len(entries))
        self.assertEqual(own.root, MODEL.root(entries))
        self.assertTrue(own.check())

    def test_few_keys(self):
        self.agree(ROUNDS, 24, 3)

    def test_more_keys(self):
        self.agree(ROUNDS, 600, 20)

    def test_many_at_once(self):
        entries = {sha(b"%d" % i): sha(b"value %d" % i) for i in range(ROUNDS)}
        own = KeptMap(entries)
        self.assertEqual(own.root, MODEL.root(entries))
        self.assertEqual(own, entries)
        self.assertEqual(KeptMap(), {})

    def test_the_last_key(self):
        own = KeptMap({b"\xff" * 32: bytes(32), bytes(32): bytes(32)})
        self.assertEqual(list(own), [bytes(32), b"\xff" * 32])
        self.assertEqual(own.first_from(b"\xff" * 31 + b"\xfe"), (b"\xff" * 32, bytes(32)))
        del own[b"\xff" * 32]
        self.assertIsNone(own.first_from(b"\x01" + bytes(31)))

    def test_ranges(self):
        entries = {sha(b"%d" % i): sha(b"value %d" % i) for i in range(100)}
        own, rising = KeptMap(entries), sorted(entries)
        least, most = bytes(32), b"\xff" * 32
        self.assertEqual(Map.verify_range(own.root, least, most, own.prove_range(least, most)), sorted(entries.items()))
        tree = own.prove_range(rising[30], rising[40])
        with self.assertRaises(HiddenTree):
            Map.verify_range(own.root, rising[20], rising[40], tree)
        with self.assertRaises(HiddenTree):
            Map.verify_range(own.root, rising[30], rising[50], tree)
        self.assertEqual(Map.verify_range(own.root, rising[31], rising[39], tree), sorted(entries.items())[31:40])
        self.assertEqual(Map.verify_range(own.root, rising[40], rising[30], tree), [])
        with self.assertRaises(TruncatedProof):
            Map.verify_range(own.root, least, most, tree[:-1])
        with self.assertRaises(InvalidProof):
            Map.verify_range(own.root, least, most, tree + b"\2")
        self.assertEqual(KeptMap().prove_many([least]), b"\2")
        self.assertEqual(own.prove_many([]), b"\3" + own.root)
        self.assertLess(len(own.prove_many(rising)), 65 * 100 + 2 * 300)

    def test_differences(self):
        own = KeptMap({sha(b"%d" % i): bytes(32) for i in range(500)})
        old, keys = own.version(), sorted(own)
        self.assertEqual(list(own.differences(old)), [])
        del own[keys[7]]
        own[keys[20]] = sha(b"other")
        own[b"\xff" * 32] = sha(b"new")
        rows = [(keys[7], bytes(32), None), (keys[20], bytes(32), sha(b"other")), (b"\xff" * 32, None, sha(b"new"))]
        self.assertEqual(list(own.differences(old)), rows)
        with self.assertRaises(KeyError):
            list(KeptMap().differences(old))
        for i in range(2000):
            own[keys[0]] = sha(b"%d" % i)
        with self.assertRaises(KeyError):
            list(own.differences(old))

    def test_threads(self):
        own = KeptMap()
        parts = [[sha(b"%d of %d" % (i, part)) for i in range(200)] for part in range(4)]
        threads = [threading.Thread(target=own.update, args=({key: key for key in part},)) for part in parts]
        for thread in threads:
            thread.start()
        for thread in threads:
            thread.join()
        self.assertEqual(own.root, MODEL.root({key: key for part in parts for key in part}))

    def test_no_keys(self):
        own = KeptMap()
        for key in b"short", bytearray(32), None, "x" * 32:
            for call in own.prove, own.first_from, own.__getitem__, own.__delitem__, lambda key: own.__setitem__(key, bytes(32)):
                with self.assertRaises((TypeError, ValueError)):
                    call(key)
        with self.assertRaises(ValueError):
            own[bytes(32)] = b"short"
        self.assertEqual(len(own), 0)
        with self.assertRaises(TypeError):
            own.__reduce__()


if __name__ == "__main__":
    unittest.main()
