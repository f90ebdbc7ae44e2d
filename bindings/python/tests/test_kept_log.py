"""Logs in memory, against hashlib."""
import copy
import os
import tempfile
import threading
import unittest

import paxidore
from paxidore import Log
from log_model import all_roots, drawn, DRAWS, entry_digests, largest_below, mth, proofs_are, sha, stored


class InMemory(unittest.TestCase):
    def test_how_it_is_shown(self):
        log = Log()
        log.append([b"one", b"two"])
        self.assertEqual(repr(log), "<paxidore.Log of 2 entries>")
        log.close()
        self.assertEqual(repr(log), "<paxidore.Log, closed>")
        self.assertRaises(TypeError, copy.copy, log)

    def test_each_size(self):
        entries = drawn(70)
        digests = entry_digests(entries)
        log = Log()
        self.assertEqual(log.root(), sha(b""))
        for size in range(71):
            self.assertEqual(len(log), size)
            self.assertEqual(bytes(log._kept.digests), b"".join(stored(digests[:size])))
            self.assertEqual(log.root(), mth(digests[:size]))
            if size < 70:
                self.assertEqual(log.append([entries[size]]), size + 1)
        for size in range(71):
            proofs_are(self, log, digests, size)
        self.assertTrue(log.check())

    def test_what_an_interrupted_append_left(self):
        entries = drawn(20)
        log = Log()
        log.append(entries[:11])
        log._kept.digests += bytes(96)
        log.append(entries[11:])
        self.assertEqual(log.root(), mth(entry_digests(entries)))
        self.assertEqual(bytes(log._kept.digests), b"".join(stored(entry_digests(entries))))

    def test_entries_as_they_come(self):
        entries = drawn(2500)
        digests, log, told = entry_digests(entries), Log(), []
        self.assertEqual(log.extend(iter(entries[:7])), 7)
        self.assertEqual(log.extend(iter(entries[7:]), progress=told.append), 2500)
        self.assertEqual(told, [1031, 2055, 2500])
        self.assertEqual((log.extend(()), log.root()), (2500, all_roots(digests)[2500]))

        def stops(size):
            raise InterruptedError

        self.assertRaises(InterruptedError, log.extend, entries[:1030], progress=stops)
        self.assertRaises(TypeError, log.extend, ["text"])
        self.assertEqual((len(log), log.root()), (3524, mth(digests + digests[:1024])))

    def test_known_roots(self):
        # those that implementations of RFC 6962 are tested with
        entries = [b"", b"\0", b"\x10", b"\x20\x21", b"\x30\x31", b"@ABC", b"PQRSTUVW", b"`abcdefghijklmno"]
        log = Log()
        log.append(entries)
        self.assertEqual(log.root(7).hex(), "ddb89be403809e325750d3d263cd78929c2942b7942a34b77e122c9594a74c8c")
        self.assertEqual(log.root(8).hex(), "5dc9da79a70659a9ad559cb701ded9a2ab9d823aad2f4960cfe370eff4604328")

    def test_each_split(self):
        entries = drawn(33)
        whole = b"".join(stored(entry_digests(entries)))
        for first in range(34):
            log = Log()
            log.append(entries[:first])
            log.append(entries[first:])
            self.assertEqual(bytes(log._kept.digests), whole)

    def test_drawn_sizes(self):
        for _ in range(4):
            entries = drawn(DRAWS.randrange(200, 1500), 20)
            digests = entry_digests(entries)
            log, at = Log(), 0
            while at < len(entries):
                more = DRAWS.randrange(200)
                at = log.append(entries[at : at + more])
            self.assertEqual(bytes(log._kept.digests), b"".join(stored(digests)))
            proofs_are(self, log, digests, len(entries), 12)
            proofs_are(self, log, digests, DRAWS.randrange(1, len(entries)), 12)

    def test_refusals(self):
        log = Log()
        self.assertRaises(paxidore.IndexBeyondSize, log.inclusion, 0)
        self.assertRaises(paxidore.SizeError, log.consistency, 0)
        self.assertRaises(paxidore.SizeError, log.root, 1)
        self.assertEqual(log.append([]), 0)
        log.append([b"a", b"b", b"c"])
        self.assertRaises(paxidore.IndexBeyondSize, log.inclusion, 3)
        self.assertRaises(paxidore.IndexBeyondSize, log.inclusion, 2, size=2)
        self.assertRaises(paxidore.SizeError, log.inclusion, 0, size=4)
        self.assertRaises(paxidore.SizeError, log.inclusion, 0, size=1 << 63)
        self.assertRaises(paxidore.SizeError, log.consistency, 3, 2)
        self.assertRaises(paxidore.SizeError, log.consistency, 0, 3)
        self.assertRaises(paxidore.SizeError, log.root, (1 << 64) - 1)
        self.assertRaises(OverflowError, log.root, 1 << 64)
        self.assertRaises(OverflowError, log.root, -1)
        self.assertRaises(OverflowError, log.inclusion, -1)
        self.assertRaises(TypeError, log.append, [bytearray(b"d")])
        self.assertRaises(TypeError, log.append, ["d"])
        for wrap in (float, str, lambda number: [number]):
            for name, call in (
                ("size", lambda: log.root(wrap(3))),
                ("index", lambda: log.inclusion(wrap(1))),
                ("size", lambda: log.inclusion(1, size=wrap(3))),
                ("old_size", lambda: log.consistency(wrap(1))),
                ("size", lambda: log.consistency(1, wrap(3))),
            ):
                self.assertRaisesRegex(TypeError, "^%s is int, not %s$" % (name, type(wrap(1)).__name__), call)
        self.assertEqual(len(log), 3)
        self.assertEqual(log.consistency(3), b"")
        self.assertRaises(paxidore.IndexBeyondSize, Log.verify_inclusion_digest, bytes(32), 1, 1, bytes(32), b"")
        self.assertRaises(paxidore.TruncatedProof, Log.verify_inclusion_digest, bytes(32), 2, 1, bytes(32), b"")
        self.assertRaises(paxidore.InvalidProof, Log.verify_inclusion_digest, bytes(32), 1, 0, bytes(32), b"a")
        self.assertFalse(Log.verify_inclusion_digest(bytes(32), 1, 0, b"a" * 32, b""))
        self.assertTrue(Log.verify_inclusion_digest(bytes(32), 1, 0, bytes(32), b""))
        log.close()
        log.close()
        self.assertRaises(ValueError, log.root)
        self.assertRaises(ValueError, len, log)

    def test_several_entries(self):
        entries = drawn(70)
        digests = entry_digests(entries)

        def around(indexes, first, last):
            if not indexes:
                return [mth(digests[first:last])]
            if last - first == 1:
                return []
            middle = first + largest_below(last - first)
            left = [index for index in indexes if index < middle]
            return around(left, first, middle) + around(indexes[len(left) :], middle, last)

        log = Log()
        log.append(entries)
        for size in range(1, 71):
            for count in sorted({1, 2, size // 2, size} - {0}):
                indexes = sorted(DRAWS.sample(range(size), min(count, size)))
                shown, root = log.multi_inclusion(indexes, size=size), mth(digests[:size])
                self.assertEqual(shown, b"".join(around(indexes, 0, size)))
                given = [entries[index] for index in indexes]
                self.assertTrue(Log.verify_multi_inclusion(root, size, indexes, given, shown))
                self.assertFalse(Log.verify_multi_inclusion(root, size, indexes, given[:-1] + [given[-1] + b"a"], shown))
                self.assertRaises(paxidore.CountError, Log.verify_multi_inclusion, root, size, indexes, given[1:], shown)
                self.assertRaises(paxidore.InvalidProof, Log.verify_multi_inclusion, root, size, indexes, given, shown + b"a")
        for indexes in ([], [1, 1], [2, 1], [70], range(71)):
            self.assertRaises(paxidore.IndexBeyondSize, log.multi_inclusion, indexes)
        self.assertRaises(paxidore.SizeError, log.multi_inclusion, [0], size=71)
        self.assertRaises(TypeError, log.multi_inclusion, [0.5])
        words = b"".join(b"%08d" % i for i in range(9))
        of_words = Log()
        of_words.append(words, length=8)
        shown = of_words.multi_inclusion([3, 4, 8])
        self.assertTrue(Log.verify_multi_inclusion(of_words.root(), 9, [3, 4, 8], words[24:40] + words[64:], shown, length=8))
        with tempfile.TemporaryDirectory() as folder, Log.open(folder + "/log") as kept:
            kept.append([b"a", b"b"])
            self.assertRaises(ValueError, kept.multi_inclusion, [0, 1])

    def test_joins(self):
        entries = drawn(70)
        digests = entry_digests(entries)
        for size in range(65):
            for count in range(71 - size):
                log, part = Log(), Log()
                log.append(entries[:size])
                part.append(entries[size : size + count])
                if size % (1 << max(count - 1, 0).bit_length()):
                    self.assertRaises(paxidore.SizeError, log.join, part)
                    self.assertEqual((len(log), log.root()), (size, mth(digests[:size])))
                    continue
                self.assertEqual(log.join(part), size + count)
                self.assertEqual(bytes(log._kept.digests), b"".join(stored(digests[: size + count])))
        # parts of 16, and a shorter last one; a log is a part of its own, too
        log = Log()
        for first in range(0, 70, 16):
            part = Log()
            part.append(entries[first : first + 16])
            log.join(part)
        self.assertEqual((len(log), log.root()), (70, mth(digests)))
        twice = Log()
        twice.append(entries[:32])
        self.assertEqual((twice.join(twice), twice.root()), (64, mth(digests[:32] * 2)))
        twice.close()
        self.assertRaises(ValueError, log.join, twice)
        self.assertRaises(ValueError, twice.join, log)
        with tempfile.TemporaryDirectory() as folder, Log.open(os.path.join(folder, "log")) as file:
            self.assertRaises(ValueError, file.join, Log())
            self.assertRaises(ValueError, log.join, file)
        self.assertEqual((len(log), log.root()), (70, mth(digests)))

    def test_damage_is_found(self):
        for size in range(2, 40):
            log = Log()
            log.append(drawn(size))
            whole = bytes(log._kept.digests)
            paired = size - size % 2
            for place in range(len(whole) // 32):
                log._kept.digests[32 * place + DRAWS.randrange(32)] ^= 1 << DRAWS.randrange(8)
                # the last leaf of an odd number is in no pair
                last = size % 2 and place == len(whole) // 32 - 1
                self.assertEqual(log.check(), bool(last), (size, place, paired))
                log._kept.digests[:] = whole
            self.assertTrue(log.check())

    def test_whatever_is_kept(self):
        log = Log()
        log.append(drawn(21))
        log._kept.digests[:] = DRAWS.randbytes(len(log._kept.digests))
        self.assertFalse(log.check())
        for size in range(22):
            self.assertEqual(len(log.root(size)), 32)
            for index in range(size):
                log.inclusion(index, size=size), log.consistency(index + 1, size)
        self.assertEqual(log.append(drawn(9)), 30)

    def test_threads(self):
        log = Log()
        workers = [threading.Thread(target=lambda: [log.append(drawn(3)) for _ in range(50)]) for _ in range(4)]
        for worker in workers:
            worker.start()
        for _ in range(100):
            log.root(), log.check()
        for worker in workers:
            worker.join()
        self.assertEqual(len(log), 600)
        self.assertTrue(log.check())


if __name__ == "__main__":
    unittest.main()
