"""The entries of maps as bytes, and maps of such bytes, against a dict and the recursion of the definition (tools/map-model)."""
import gc
import os
import random
import sqlite3
import tempfile
import tracemalloc
import unittest
from unittest import mock

from paxidore import DamagedMap, EntriesError, KeptMap, Map, OtherRoot
from interrupts import Subject, interrupted, places_of
from map_drawn import MODEL, ROUNDS, near, sha


def drawn(count):
    return {near(number): sha(b"value %d" % number) for number in range(count)}


def bytes_of(entries):
    return b"".join(key + entries[key] for key in sorted(entries))


class InFolder(unittest.TestCase):
    def setUp(self):
        folder = tempfile.TemporaryDirectory()
        self.addCleanup(folder.cleanup)
        self.folder, self.path = folder.name, os.path.join(folder.name, "map")

    def kinds(self):
        """The calls that take entries: each returns a map, which is closed at the end."""
        yield KeptMap.from_bytes
        yield Map.from_bytes
        yield lambda data, root: self.in_file(data, root)

    def in_file(self, data, root):
        if os.path.exists(self.path):
            os.unlink(self.path)
        own = Map.from_bytes(data, root, self.path)
        self.addCleanup(own.close)
        return own


class ThereAndBack(InFolder):
    def agree(self, own, entries):
        self.assertEqual(own.root, MODEL.root(entries))
        self.assertEqual(own.to_bytes(), bytes_of(entries))
        self.assertEqual((len(own), dict(own.items())), (len(entries), entries))
        self.assertIn(own.check(), (None, True))
        for key in near(1), sha(b"nothing"):
            self.assertTrue(Map.verify(own.root, key, entries.get(key), own.prove(key)))

    def test_all_kinds(self):
        for count in 0, 1, 2, 3, 5, 30, 200:
            entries = drawn(count)
            data, root = KeptMap(entries).to_bytes(), MODEL.root(entries)
            for make in self.kinds():
                own = make(data, root)
                self.agree(own, entries)
                # it goes on as a map does
                own[bytes(32)] = sha(b"new")
                self.assertEqual(own.root, MODEL.root({**entries, bytes(32): sha(b"new")}))
                del own[bytes(32)]
                self.agree(own, entries)

    def test_after_changes(self):
        draws, entries = random.Random(5), {}
        kept, stored = KeptMap(), Map()
        for turn in range(ROUNDS):
            key, value = near(draws.randrange(60)), sha(b"%d" % turn)
            gone = near(draws.randrange(60))
            for own in kept, stored, entries:
                own[key] = value
                own.pop(gone, None)
            self.assertEqual(kept.to_bytes(), bytes_of(entries))
            self.assertEqual(stored.to_bytes(), bytes_of(entries))

    def test_the_least_and_the_last_key(self):
        entries = {key: bytes(32) for key in (bytes(32), bytes(31) + b"\1", b"\xff" * 31 + b"\xfe", b"\xff" * 32)}
        for make in self.kinds():
            self.agree(make(bytes_of(entries), MODEL.root(entries)), entries)

    def test_buffers(self):
        entries = drawn(9)
        data, root = bytes_of(entries), MODEL.root(entries)
        for make in self.kinds():
            for buffer in bytearray(data), memoryview(data), memoryview(bytearray(b"x" + data))[1:]:
                self.assertEqual(make(buffer, root).to_bytes(), data)
            for wrong in data.hex(), list(data), None, 64:
                with self.assertRaises(TypeError):
                    make(wrong, root)
            with self.assertRaises(ValueError):
                make(data, root[:31])
            with self.assertRaises(TypeError):
                make(data, bytearray(root))

    def test_a_file(self):
        entries = drawn(50)
        data, root = bytes_of(entries), MODEL.root(entries)
        with Map.from_bytes(data, root, os.fsencode(self.path), versions=2) as own:
            self.assertEqual((own.version, own.at(0).to_bytes(), own.at(1).to_bytes()), (1, b"", data))
            own[bytes(32)] = bytes(32)
            self.assertEqual(own.at(1).to_bytes(), data)
            with own.batch():
                own[b"\1" * 32] = bytes(32)
                self.assertEqual(own.to_bytes(), bytes(64) + data)
        self.assertEqual(os.listdir(self.folder), ["map"])
        with Map.open(self.path, read_only=True) as own:
            self.assertEqual(own.to_bytes(), bytes_of({**entries, bytes(32): bytes(32), b"\1" * 32: bytes(32)}))
            with self.assertRaises(KeyError):
                own.at(1)
        with self.assertRaises(ValueError):
            own.to_bytes()


class Refused(InFolder):
    def refused(self, data, root, kind, says):
        for make in KeptMap.from_bytes, Map.from_bytes, lambda data, root: Map.from_bytes(data, root, self.path):
            with self.assertRaisesRegex(kind, says) as caught:
                make(data, root)
            self.assertIs(caught.exception.__class__, kind)
        self.assertEqual(os.listdir(self.folder), [])

    def test_each_byte(self):
        entries = drawn(7)
        data, root = bytes_of(entries), MODEL.root(entries)
        for place in range(len(data)):
            turned = bytearray(data)
            turned[place] ^= 1 << place % 8
            for make in KeptMap.from_bytes, Map.from_bytes:
                with self.assertRaises(EntriesError) as caught:
                    make(bytes(turned), root)
                self.assertTrue(isinstance(caught.exception, OtherRoot) or place % 64 < 32)
        self.refused(data[:40] + b"\0" + data[41:], root, OtherRoot, "another root")

    def test_each_length(self):
        entries = drawn(4)
        data, root = bytes_of(entries), MODEL.root(entries)
        for end in range(len(data)):
            with self.assertRaises(EntriesError) as caught:
                KeptMap.from_bytes(data[:end], root)
            self.assertEqual(isinstance(caught.exception, OtherRoot), end % 64 == 0)
        self.refused(data[:-1], root, EntriesError, "end within an entry")
        self.refused(data + b"\0", root, EntriesError, "end within an entry")
        self.refused(data[:-64], root, OtherRoot, "another root")
        self.refused(b"", root, OtherRoot, "another root")

    def test_orders(self):
        entries = drawn(5)
        data, root = bytes_of(entries), MODEL.root(entries)
        rows = [data[at : at + 64] for at in range(0, len(data), 64)]
        for at in range(1, len(rows)):
            self.refused(b"".join(rows[: at - 1] + [rows[at], rows[at - 1]] + rows[at + 1 :]), root, EntriesError, "not above")
            self.refused(b"".join(rows[: at + 1] + rows[at:]), root, EntriesError, "not above")
            self.refused(b"".join(rows[:at] + [rows[at][:32] + bytes(32)] + rows[at:]), root, EntriesError, "not above")

    def test_another_map(self):
        data = bytes_of(drawn(5))
        for other in MODEL.root(drawn(4)), MODEL.root({}), bytes(32):
            self.refused(data, other, OtherRoot, "another root")

    def test_a_file_that_is_there(self):
        entries = drawn(3)
        with Map.open(self.path) as own:
            own[bytes(32)] = bytes(32)
        with open(self.path, "rb") as file:
            before = file.read()
        with self.assertRaises(FileExistsError):
            Map.from_bytes(bytes_of(entries), MODEL.root(entries), self.path)
        with open(self.path, "rb") as file:
            self.assertEqual(file.read(), before)
        with self.assertRaises(FileNotFoundError):
            Map.from_bytes(b"", MODEL.root({}), os.path.join(self.path + "s", "map"))

    def test_a_write_that_fails(self):
        entries = drawn(3)
        for error in sqlite3.OperationalError("database or disk is full"), KeyboardInterrupt():
            with mock.patch("paxidore._nodes._Store.forget", side_effect=error):
                with self.assertRaises(type(error)):
                    Map.from_bytes(bytes_of(entries), MODEL.root(entries), self.path)
            self.assertEqual(os.listdir(self.folder), [])

    def test_an_interrupt_at_each_line(self):
        entries = drawn(2)
        data, root = bytes_of(entries), MODEL.root(entries)
        states = set()

        def make(_):
            with Map.from_bytes(data, root, self.path):
                pass
            os.unlink(self.path)

        for place in places_of(Subject("from_bytes", int, make, None, None), False, False):
            # the exception is not kept, which would hold the map that was to be closed
            interrupted(place, lambda: make(0))
            gc.collect()
            if os.path.exists(self.path):
                with Map.open(self.path) as own:
                    own.check()
                    states.add(own.to_bytes())
                    own[bytes(32)] = bytes(32)
                os.unlink(self.path)
            self.assertEqual(os.listdir(self.folder), [])
        self.assertLessEqual(states, {b"", data})

    def test_damage(self):
        entries = drawn(20)
        with Map.from_bytes(bytes_of(entries), MODEL.root(entries), self.path) as own:
            base = sqlite3.connect(self.path)
            base.execute("UPDATE node SET bytes = zeroblob(65) WHERE substr(bytes, 1, 1) = x'00'")
            base.commit()
            base.close()
            with self.assertRaises(DamagedMap):
                own.to_bytes()


class Memory(unittest.TestCase):
    def most(self, call, *given):
        """What a call returns or raises, and the most bytes that were allocated within it."""
        tracemalloc.start()
        try:
            result = call(*given)
        except EntriesError as error:
            result = error
        finally:
            most = tracemalloc.get_traced_memory()[1]
            tracemalloc.stop()
        return result, most

    def test_of_what_is_refused(self):
        # pairs of keys with 255 bits alike: a map of them has some 240 forks for each
        data = b"".join((number // 2).to_bytes(4, "big") + bytes(27) + bytes([number % 2]) + bytes(32) for number in range(400))
        for make in KeptMap.from_bytes, Map.from_bytes:
            refused, most = self.most(make, data, bytes(32))
            self.assertIsInstance(refused, OtherRoot)
            self.assertLess(most, 200_000)

    def test_of_what_is_taken(self):
        own = KeptMap({sha(b"%d" % number): bytes(32) for number in range(3000)})
        data, most = self.most(own.to_bytes)
        self.assertLess(most, 200 * len(own))
        copy, most = self.most(KeptMap.from_bytes, data, own.root)
        self.assertEqual(copy.to_bytes(), data)
        self.assertLess(most, 700 * len(own))
        copy, most = self.most(Map.from_bytes, data, own.root)
        self.assertEqual(copy.to_bytes(), data)
        self.assertLess(most, 100 * len(own))


if __name__ == "__main__":
    unittest.main()
