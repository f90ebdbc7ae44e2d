"""Maps in memory, and hostile proofs, against a dict and the recursion of the definition (tools/map-model)."""
import random
import threading
import unittest
from unittest import mock

import paxidore
from paxidore import Map
from map_drawn import MODEL, ROUNDS, near, sha


class Agrees(unittest.TestCase):
    """Changes in turn, beside a dict and the model."""

    def agree(self, rounds, keys, each):
        draws = random.Random(rounds)
        entries, own = {}, Map()
        for turn in range(rounds):
            key = near(draws.randrange(keys))
            if draws.random() < 0.4:
                if key in entries:
                    del own[key], entries[key]
                else:
                    with self.assertRaises(KeyError):
                        del own[key]
            else:
                own[key] = entries[key] = sha(b"value %d" % turn)
            if turn % each == 0:
                self.assertEqual(own.root, MODEL.root(entries))
                for asked in (key, near(draws.randrange(keys)), sha(b"key %d" % turn)):
                    proof, value = own.prove(asked), entries.get(asked)
                    self.assertEqual(proof, MODEL.proof_bytes(entries, asked))
                    self.assertEqual(own.get(asked), value)
                    self.assertTrue(Map.verify(own.root, asked, value, proof))
                    self.assertFalse(Map.verify(own.root, asked, sha(b"wrong"), proof))
                    if value is not None:
                        self.assertFalse(Map.verify(own.root, asked, None, proof))
        self.assertEqual(dict(own.items()), entries)
        self.assertEqual(list(own), sorted(entries))
        self.assertEqual(len(own), len(entries))
        self.assertEqual(own.root, MODEL.root(entries))
        own.check()

    def test_few_keys(self):
        self.agree(ROUNDS, 24, 3)

    def test_more_keys(self):
        self.agree(ROUNDS, 600, 20)

    def test_batches(self):
        draws = random.Random(7)
        entries, own = {}, Map()
        for turn in range(ROUNDS // 10):
            with own.batch():
                for step in range(draws.randrange(60)):
                    key = near(draws.randrange(200))
                    if draws.random() < 0.5:
                        own.pop(key, None)
                        entries.pop(key, None)
                    else:
                        own[key] = entries[key] = sha(b"value %d %d" % (turn, step))
                    self.assertEqual(own.get(key), entries.get(key))
            self.assertEqual(own.root, MODEL.root(entries))
            self.assertEqual(len(own), len(entries))
        own.remove(list(entries)[::2])
        for key in list(entries)[::2]:
            del entries[key]
        self.assertEqual(own.root, MODEL.root(entries))
        own.clear()
        self.assertEqual((len(own), own.root), (0, sha(b"")))

    def test_witnesses(self):
        draws = random.Random(13)
        own, entries = Map(), {}
        for turn in range(ROUNDS // 5):
            changes = {near(draws.randrange(60)): None if draws.random() < 0.4 else sha(b"%d" % turn) for _ in range(draws.randrange(8))}
            root, witness = own.root, own.witness(changes)
            self.assertEqual(own.root, root)
            own.remove([key for key, value in changes.items() if value is None])
            own.update({key: value for key, value in changes.items() if value is not None})
            self.assertEqual(Map.changed_root(root, changes, witness), own.root)
            self.assertIsNone(Map.changed_root(sha(b"wrong"), changes, witness))
            if changes and root != sha(b""):
                with self.assertRaises(paxidore.HiddenTree):
                    Map.changed_root(root, changes, b"\3" + root)
                with self.assertRaises(paxidore.TruncatedProof):
                    Map.changed_root(root, changes, witness[:-1])
                with self.assertRaises(paxidore.InvalidProof):
                    Map.changed_root(root, changes, witness + b"\0")

    def test_the_witness_of_a_removal_shows_one_top(self):
        own = Map()
        own.update({near(number): sha(b"%d" % number) for number in range(60)})
        for number in range(60):
            put, removed = own.witness({near(number): sha(b"new")}), own.witness({near(number): None})
            # nothing, an entry for its digest, or a fork of two sides for its digest
            self.assertIn(len(removed) - len(put), (0, 2, 32, 34))

    def test_a_batch_is_its_threads_own(self):
        own, begun, written = Map(), threading.Event(), threading.Event()
        failures = []

        def write():
            try:
                begun.wait()
                own[near(2)] = sha(b"2")
                with own.batch():
                    own[near(3)] = sha(b"3")
            except BaseException as error:
                failures.append(error)
            written.set()

        writer = threading.Thread(target=write)
        writer.start()
        with self.assertRaises(ZeroDivisionError):
            with own.batch():
                own[near(1)] = sha(b"1")
                begun.set()
                written.wait()
                1 / 0
        writer.join()
        self.assertEqual(failures, [])
        self.assertEqual(dict(own.items()), {near(2): sha(b"2"), near(3): sha(b"3")})

    def test_a_batch_is_read_before_its_end(self):
        own = Map()
        own.update({near(i): sha(b"%d" % i) for i in range(9)})
        with own.batch():
            del own[near(3)]
            own[near(40)] = sha(b"40")
            own[near(5)] = sha(b"another")
            entries = {near(i): sha(b"%d" % i) for i in range(9) if i != 3}
            entries.update({near(40): sha(b"40"), near(5): sha(b"another")})
            self.assertEqual((dict(own.items()), list(own), len(own)), (entries, sorted(entries), len(entries)))
            own.clear()
            self.assertEqual((dict(own), len(own)), ({}, 0))
        self.assertEqual((dict(own), len(own)), ({}, 0))

    def test_the_length_of_a_batch(self):
        """It makes no proof, and reads each node of the keys' ways once, however often it is asked for."""
        own = Map()
        own.update({near(i): sha(b"%d" % i) for i in range(200)})
        read, node = [], own._store.node

        def counted(digest):
            read.append(digest)
            return node(digest)

        proves = mock.patch.object(paxidore.map, "_map_prove", side_effect=AssertionError)
        with own.batch(), proves, mock.patch.object(own._store, "node", counted):
            own.update({near(i): sha(b"other") for i in range(150, 250)})
            own.remove([near(i) for i in range(20)])
            self.assertEqual([len(own) for _ in range(50)], [230] * 50)
            self.assertEqual(len(read), len(set(read)))
            # behind a further change the way of its key alone
            before = len(read)
            own[near(300)] = sha(b"300")
            self.assertEqual(len(own), 231)
            self.assertLess(len(read) - before, 40)
        self.assertEqual(len(own), 231)

    def test_an_exception_leaves_the_map(self):
        own = Map()
        own[near(1)] = sha(b"1")
        root = own.root
        with self.assertRaises(RuntimeError):
            with own.batch():
                own[near(2)] = sha(b"2")
                raise RuntimeError("within")
        self.assertEqual((own.root, near(2) in own), (root, False))
        for wrong in (b"short", bytearray(32), "x" * 32, 7):
            with self.assertRaises((TypeError, ValueError)):
                own[wrong] = sha(b"1")
            with self.assertRaises((TypeError, ValueError)):
                own[near(3)] = wrong
        self.assertEqual(own.root, root)


class Hostile(unittest.TestCase):
    """Damaged proofs: none shows what the map has not."""

    def test_damaged_proofs(self):
        draws = random.Random(6962)
        entries = {near(i): sha(b"value %d" % i) for i in range(300)}
        own = Map()
        own.update(entries)
        root, keys = own.root, [*entries, *(sha(b"absent %d" % i) for i in range(300))]
        refused = 0
        for turn in range(10 * ROUNDS):
            key = draws.choice(keys)
            value, damaged = entries.get(key), bytearray(own.prove(key))
            kind = draws.randrange(6)
            asked, other = key, value
            if kind == 0:
                damaged[draws.randrange(len(damaged))] ^= 1 << draws.randrange(8)
            elif kind == 1:
                del damaged[draws.randrange(len(damaged)) :]
            elif kind == 2:
                damaged += bytes(draws.randrange(1, 40))
            elif kind == 3:
                at = draws.randrange(len(damaged))
                damaged[at : at + draws.randrange(1, 40)] = draws.randbytes(draws.randrange(40))
            elif kind == 4:
                asked = draws.choice(keys)
                other = entries.get(asked)
            else:
                other = None if value is not None else sha(b"drawn")
            if (bytes(damaged), asked, other) == (own.prove(asked), asked, entries.get(asked)):
                continue
            try:
                shown = Map.verify(root, asked, other, bytes(damaged))
            except paxidore.Refused as error:
                self.assertIn(error.code, (-2, -3))
                refused += 1
                continue
            # another key's proof that is the same end and way shows what is so
            self.assertTrue(not shown or other == entries.get(asked), (kind, turn))
        self.assertGreater(refused, ROUNDS)

    def test_spellings(self):
        own = Map()
        key, beside = bytes(31) + b"\0", bytes(31) + b"\1"
        own.update({key: sha(b"1"), beside: sha(b"2")})
        proof = own.prove(key)
        # 256 levels, of which one has a digest
        self.assertEqual(len(proof), 3 + 32 + 32)
        self.assertTrue(Map.verify(own.root, key, sha(b"1"), proof))
        with_nothing = proof[:3] + bytes([proof[3] | 0x80]) + proof[4:35] + sha(b"") + proof[35:]
        for wrong in (with_nothing, proof + b"\0", b"\3" + proof[1:], proof[:1] + b"\1\1" + proof[3:], b"", proof[:-1]):
            with self.assertRaises(ValueError):
                Map.verify(own.root, key, sha(b"1"), wrong)
        # bits behind the last level
        own.clear()
        own.update({near(0): sha(b"1"), near(3): sha(b"2")})
        proof = own.prove(near(0))
        self.assertTrue(Map.verify(own.root, near(0), sha(b"1"), proof))
        with self.assertRaises(paxidore.InvalidProof):
            Map.verify(own.root, near(0), sha(b"1"), proof[:3] + bytes([proof[3] | 1]) + proof[4:])


if __name__ == "__main__":
    unittest.main()
