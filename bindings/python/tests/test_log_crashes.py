"""Logs in files that a crash, a kill or a flipped bit left."""
import os
import signal
import tempfile
import threading
import unittest

import paxidore
from paxidore import Log
from log_model import all_roots, dense, drawn, DRAWS, end_within, entry_digests, mth


class Crashes(unittest.TestCase):
    def setUp(self):
        # in memory where there is such a folder, since a thousand processes sync several times each
        shared = "/dev/shm"
        self.room = tempfile.TemporaryDirectory(dir=shared if os.access(shared, os.W_OK) else None)
        self.addCleanup(self.room.cleanup)
        self.path = os.path.join(self.room.name, "log")

    def test_each_crash(self):
        """What was written and not synced stands there in part, or not at all."""
        entries = drawn(90)
        digests = entry_digests(entries)
        with Log.open(self.path) as log:
            log.append(entries[:3])
        real_write, real_sync = os.pwrite, os.fsync
        for _ in range(60):
            with open(self.path, "rb") as file:
                disk = bytearray(file.read())
            images, pending = [], []

            def image():
                torn = bytearray(disk)
                for data, at in pending:
                    data = bytes(data)[: DRAWS.randrange(len(data) + 1)]
                    torn.extend(bytes(max(0, at + len(data) - len(torn))))
                    torn[at : at + len(data)] = data
                images.append(bytes(torn))

            def write(file, data, at):
                pending.append((bytes(data), at))
                for _ in range(4):
                    image()
                return real_write(file, data, at)

            def sync(file):
                image()
                for data, at in pending:
                    disk.extend(bytes(max(0, at + len(data) - len(disk))))
                    disk[at : at + len(data)] = data
                pending.clear()
                real_sync(file)

            with Log.open(self.path) as log:
                before = len(log)
                os.pwrite, os.fsync = write, sync
                try:
                    after = log.append(entries[before : before + DRAWS.randrange(1, 3)])
                finally:
                    os.pwrite, os.fsync = real_write, real_sync
            for torn in images:
                other = self.path + ".torn"
                with open(other, "wb") as file:
                    file.write(torn)
                with Log.open(other) as log:
                    self.assertIn(len(log), (before, after))
                    self.assertEqual(log.root(), mth(digests[: len(log)]))
                    self.assertTrue(log.check())
                    log.append(entries[len(log) : len(log) + 2])
                    self.assertEqual(log.root(), mth(digests[: len(log)]))
            if after > 80:
                break

    def test_killed_while_it_appends(self):
        """A thousand times: from outside at a drawn time, or within a write or a sync, of which a part is done."""
        entries = [b"entry %d" % i for i in range(60000)]
        roots = all_roots(entry_digests(entries))
        Log.open(self.path).close()
        before = within = 0
        for turn in range(1000):
            reading, writing = os.pipe()
            calls = DRAWS.randrange(16) if turn % 2 else None
            child = os.fork()
            if child == 0:
                try:
                    with Log.open(self.path) as log:
                        if calls is not None:
                            end_within(calls)
                        while True:
                            size = log.append(entries[len(log) : len(log) + DRAWS.randrange(1, 4)])
                            os.write(writing, size.to_bytes(8, "little"))
                finally:
                    os._exit(1)
            os.close(writing)
            said = os.read(reading, 8)
            if calls is None:
                # behind its first append
                threading.Event().wait(DRAWS.random() / 1000)
                os.kill(child, signal.SIGKILL)
            _, status = os.waitpid(child, 0)
            self.assertEqual(os.WTERMSIG(status), signal.SIGKILL)
            while True:
                more = os.read(reading, 8 * 4096)
                if not more:
                    break
                said += more
            os.close(reading)
            acknowledged = int.from_bytes(said[-8:], "little") if said else before
            DRAWS.random()
            with Log.open(self.path) as log:
                # what was acknowledged, and of the append that was under way all or nothing
                self.assertIn(len(log) - acknowledged, range(4))
                self.assertEqual(log.root(), roots[len(log)])
                within += len(log) > acknowledged
                before = len(log)
                if turn % 100 == 0:
                    self.assertTrue(log.check())
        with Log.open(self.path) as log:
            self.assertTrue(log.check())
            self.assertGreater(len(log), 1000)
        # some of them ended between the sync of a size and its acknowledgement
        self.assertGreater(within, 0)

    def test_each_bit_that_is_flipped(self):
        """In the head it is told or harmless. In a digest it is found, or the root is not the one that was published."""
        head = 96
        for first, more in ((1, 0), (1, 1), (2, 1), (3, 4), (5, 8)):
            if os.path.exists(self.path):
                os.unlink(self.path)
            entries = drawn(first + more)
            size, told = first + more, 0
            with Log.open(self.path) as log:
                for part in (entries[:0], entries[:first], entries[first:]):
                    log.append(part)
                root = log.root()
            with open(self.path, "rb") as file:
                new = file.read()
            # in a sector it is written again, but for the zeros behind the slot
            for place in (*range(64), *range(4096, 4160), 64, 4095, 4160, 8191):
                flipped = bytearray(new)
                flipped[place] ^= 1 << DRAWS.randrange(8)
                with open(self.path, "wb") as file:
                    file.write(flipped)
                with Log.open(self.path) as log:
                    self.assertEqual((len(log), log.root(), log.check()), (size, root, True))
                with open(self.path, "rb") as file:
                    self.assertEqual(file.read(), new if place % 4096 < 64 else flipped)
            # the older file
            whole = dense(new)
            for bit in range(8 * len(whole)):
                flipped = bytearray(whole)
                flipped[bit // 8] ^= 1 << bit % 8
                with open(self.path, "wb") as file:
                    file.write(flipped)
                place = bit // 8
                try:
                    log = Log.open(self.path)
                except ValueError:
                    self.assertLess(place, head)
                    told += 1
                    continue
                with log:
                    # never a log of fewer entries
                    self.assertEqual(len(log), size)
                    if place < head:
                        self.assertEqual((log.root(), log.check()), (root, True))
                    elif log.check():
                        # the leaf that is in no pair yet, which stands last
                        self.assertEqual((size % 2, place >= len(whole) - 32), (1, True))
                        self.assertRaises(paxidore.DamagedLog, log.root)
            # that of the title, at least
            self.assertGreaterEqual(told, 256)


if __name__ == "__main__":
    unittest.main()
