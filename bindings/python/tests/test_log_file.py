"""Logs in files: their openers, locks, heads and processes."""
import errno
import fcntl
import io
import os
import signal
import sys
import tempfile
import threading
import time
import unittest

import paxidore
from paxidore import Log
from log_model import apart, dense, drawn, entry_digests, mth, proofs_are, ROUNDS, sha, stored


def written(path, data):
    with open(path, "wb") as file:
        file.write(data)


def read(path):
    with open(path, "rb") as file:
        return file.read()


class InFile(unittest.TestCase):
    def setUp(self):
        # in memory where there is such a folder, since a thousand processes sync several times each
        shared = "/dev/shm"
        self.room = tempfile.TemporaryDirectory(dir=shared if os.access(shared, os.W_OK) else None)
        self.addCleanup(self.room.cleanup)
        self.path = os.path.join(self.room.name, "log")

    def test_it_is_read_again(self):
        entries = drawn(70)
        digests = entry_digests(entries)
        for size in range(71):
            with Log.open(self.path) as log:
                self.assertEqual(len(log), size)
                self.assertEqual(log.root(), mth(digests[:size]))
                log.append(entries[size : size + 1])
        with Log.open(self.path) as log:
            for size in range(0, 71, 7):
                proofs_are(self, log, digests, size)
            self.assertTrue(log.check())
        with open(self.path, "rb") as file:
            self.assertTrue(file.read().endswith(b"".join(stored(digests))))
        self.assertEqual(os.listdir(self.room.name), ["log"])

    def test_it_is_locked(self):
        with Log.open(self.path):
            self.assertRaises(BlockingIOError, Log.open, self.path)
        Log.open(self.path).close()

    def test_files_of_others(self):
        for content in (b"x", bytes(97) + b"x", bytes(8193), b"paxidore log, digests of SHA-256" + bytes(63) + b"x"):
            with open(self.path, "wb") as file:
                file.write(content)
            self.assertRaises(ValueError, Log.open, self.path)
            with open(self.path, "rb") as file:
                self.assertEqual(file.read(), content)
        self.assertRaises(FileNotFoundError, Log.open, os.path.join(self.room.name, "none", "log"))
        self.assertRaises(IsADirectoryError, Log.open, self.room.name)

    def test_a_head_that_a_crash_left(self):
        """Of a new log's head any part may be written: it has no entries, since none is appended before the head is synced."""
        Log.open(self.path).close()
        head = read(self.path)
        self.assertEqual((len(head), head), (8192, apart(dense(head))))
        ends = sorted({min(8192, at + n) for at in (0, 4096) for n in (*range(70), 1000, 4095)} | {8191, 8192})
        for whole, parts in ((head, ends), (dense(head), range(97))):
            for end in parts:
                for content in (whole[:end], bytes(end), whole[:end] + bytes(len(whole) - end), bytes(end) + whole[end:]):
                    written(self.path, content)
                    with Log.open(self.path) as log:
                        # as long as nothing in it is that of an older head alone; one with a whole slot stays
                        is_part = all(byte in (0, own) for byte, own in zip(content, head))
                        has_slot = len(content) == 96 and content[:64] == dense(head)[:64]
                        self.assertEqual(read(self.path), head if is_part else content if has_slot else dense(head))
                        self.assertEqual((len(log), log.append([b"an entry"])), (0, 1))

    def test_a_new_log_of_several_threads(self):
        """What an append returned is in the file, whoever makes it."""
        interval = sys.getswitchinterval()
        self.addCleanup(sys.setswitchinterval, interval)
        sys.setswitchinterval(1e-6)
        for turn in range(ROUNDS):
            path, done = "%s%d" % (self.path, turn), []

            def opens():
                try:
                    with Log.open(path) as log:
                        log.append([b"one", b"two"])
                        done.append(log.root())
                except BlockingIOError:
                    pass

            threads = [threading.Thread(target=opens) for _ in range(3)]
            for thread in threads:
                thread.start()
            for thread in threads:
                thread.join()
            self.assertGreater(len(done), 0)
            with Log.open(path) as log:
                self.assertEqual(len(log), 2 * len(done))
            os.unlink(path)
        self.assertEqual(os.listdir(self.room.name), [])

    def test_a_new_log_of_several_processes(self):
        """The same of forked processes; who waits for the lock appends."""
        for turn in range(ROUNDS // 6):
            path, wait = "%s%d" % (self.path, turn), turn % 2 * 60
            children = []
            for _ in range(3):
                child = os.fork()
                if child == 0:
                    done = 0
                    try:
                        with Log.open(path, wait=wait) as log:
                            done = log.append([b"one", b"two"])
                    except BlockingIOError:
                        pass
                    finally:
                        os._exit(done)
                children.append(child)
            sizes = [os.waitstatus_to_exitcode(os.waitpid(child, 0)[1]) for child in children]
            done = sorted(size for size in sizes if size)
            self.assertEqual(done, list(range(2, 2 * len(done) + 1, 2)))
            self.assertGreaterEqual(len(done), 3 if wait else 1)
            with Log.open(path) as log:
                self.assertEqual(len(log), 2 * len(done))
            os.unlink(path)

    def test_a_file_that_is_replaced(self):
        """A log that was opened under a name that another file has now is none."""
        real = fcntl.flock
        other = self.path + ".other"
        Log.open(other).close()

        def flock(file, operation):
            real(file, operation)
            if os.path.exists(other):
                os.rename(other, self.path)

        fcntl.flock = flock
        try:
            with Log.open(self.path) as log:
                log.append([b"an entry"])
        finally:
            fcntl.flock = real
        with Log.open(self.path) as log:
            self.assertEqual(len(log), 1)

    def test_a_file_that_is_replaced_while_it_is_open(self):
        """What is appended is in the log of that name, or the append is refused; who opens it again goes on."""
        other = self.path + ".other"
        for gone in (False, True):
            log = Log.open(self.path)
            before = log.append([b"an entry"])
            if gone:
                os.unlink(self.path)
            else:
                with Log.open(other) as recovered:
                    recovered.extend([b"another"] * 5)
                os.rename(other, self.path)
            with self.assertRaisesRegex(ValueError, "another file has the name of this log now, or none"):
                log.append([b"lost"])
            self.assertEqual(len(log), before)
            log.close()
            with Log.open(self.path) as log:
                self.assertEqual(len(log), 0 if gone else 5)
                log.append([b"an entry"])
        # between the append's test and its last sync
        real, count = os.fsync, [0]

        def sync(file):
            real(file)
            count[0] += 1
            if count[0] == 3:
                os.rename(self.path, other)

        with Log.open(self.path) as log:
            os.fsync = sync
            try:
                self.assertRaises(ValueError, log.append, [b"lost"])
            finally:
                os.fsync = real

    def test_a_path_is_that_of_the_folder_at_opening(self):
        before = os.getcwd()
        os.chdir(self.room.name)
        try:
            with Log.open("log") as log:
                os.chdir(before)
                self.assertEqual(log.append([b"an entry"]), 1)
        finally:
            os.chdir(before)

    def test_the_name_of_a_log_without_entries(self):
        """The folder is synced whenever a log without entries is opened."""
        real, synced = os.fsync, []

        def sync(file):
            synced.append(os.path.isdir("/proc/self/fd/%d" % file))
            real(file)

        os.fsync = sync
        try:
            for _turn in range(2):
                Log.open(self.path).close()
                self.assertIn(True, synced)
                del synced[:]
            with Log.open(self.path) as log:
                log.append([b"an entry"])
            del synced[:]
            Log.open(self.path).close()
            self.assertNotIn(True, synced)
        finally:
            os.fsync = real

    def test_a_kept_exception(self):
        """It holds neither the file nor what was lent, and the log goes on."""
        for log in (Log(), Log.open(self.path)):
            log.append([b"one", b"two"])
            kept = []
            for call in (
                lambda: log.root(99),
                lambda: log.inclusion(7),
                lambda: log.consistency(9),
                lambda: log.root("3"),
                lambda: log.inclusion("1"),
            ):
                try:
                    call()
                except (paxidore.Refused, TypeError) as error:
                    kept.append(error)
            self.assertEqual((len(kept), log.append([b"three"])), (5, 3))
            self.assertEqual(log.root(), mth(entry_digests([b"one", b"two", b"three"])))
            log.close()
        with Log.open(self.path) as log:
            self.assertEqual(len(log), 3)
        self.assertEqual(len(kept), 5)

    def test_a_size_that_is_none(self):
        """A head with a right sum and a size that no log has is damaged. Opening a log changes none of its bytes."""
        new = self.file_of(drawn(5))
        whole = dense(new)
        for size in (1 << 63, (1 << 64) - 1, 1 << 62, 1 << 59, 1 << 58, 6):
            word = size.to_bytes(8, "little")
            for data, places in ((whole, (32, 64)), (new, (32, 4128))):
                for at in places:
                    content = data[:at] + word + sha(word)[:24] + data[at + 32 :]
                    written(self.path, content)
                    self.assertRaises(ValueError, Log.open, self.path)
                    self.assertEqual(read(self.path), content)
        for content in (whole + b"the rest of an append", new + b"the rest of an append", whole[:64] + bytes(32) + whole[96:]):
            with open(self.path, "wb") as file:
                file.write(content)
            with Log.open(self.path) as log:
                log.root()
            with open(self.path, "rb") as file:
                self.assertEqual(file.read(), content)

    def test_a_file_of_an_earlier_version(self):
        """Its slots have 24 bytes of the sum of the size, and state no root. It goes on, and then states one."""
        entries = drawn(12)
        for size in range(len(entries)):
            whole = dense(self.file_of(entries[:size]))
            word = size.to_bytes(8, "little")
            for slots in (2 * (word + sha(word)[:24]), word + sha(word)[:24] + bytes(32)):
                old = whole[:32] + slots + whole[96:]
                with open(self.path, "wb") as file:
                    file.write(old)
                with Log.open(self.path) as log:
                    self.assertEqual((len(log), log.root(), log.check()), (size, mth(entry_digests(entries[:size])), True))
                    with open(self.path, "rb") as file:
                        self.assertEqual(file.read(), old)
                    for index in range(size):
                        shown = log.inclusion(index)
                        self.assertTrue(Log.verify_inclusion(log.root(), size, index, entries[index], shown))
                    self.assertEqual(log.append(entries[size:]), len(entries))
                    self.assertEqual(log.root(), mth(entry_digests(entries)))
                with open(self.path, "rb") as file:
                    head = file.read()[32:96]
                statement = sha(len(entries).to_bytes(8, "little") + mth(entry_digests(entries)))[:12]
                self.assertEqual((head[20:32], head[52:]), (statement, statement))

    def test_damage(self):
        """A digest that a root or a proof needs is told; a head without a whole slot has its own error."""
        new = self.file_of(drawn(11))
        whole = dense(new)
        with open(self.path, "wb") as file:
            file.write(whole[:-1] + bytes([whole[-1] ^ 1]))
        with Log.open(self.path) as log:
            for call in (log.root, lambda: log.inclusion(3), lambda: log.consistency(3), lambda: log.append([b"more"])):
                self.assertRaises(paxidore.DamagedLog, call)
            self.assertEqual(len(log), 11)
        with open(self.path, "wb") as file:
            file.write(whole[:96] + bytes([whole[96] ^ 1]) + whole[97:])
        with Log.open(self.path) as log:
            log.root()
            log.inclusion(8)
            self.assertRaises(paxidore.DamagedLog, log.inclusion, 1)
            self.assertRaises(paxidore.DamagedLog, log.consistency, 1)
        with open(self.path, "wb") as file:
            file.write(whole[:32] + bytes(64) + whole[96:])
        self.assertRaises(paxidore.DamagedHead, Log.open, self.path)
        # the same of a file with two sectors, of which nothing is written again then
        for content in (new[:32] + bytes(32) + new[64:4128] + bytes(32) + new[4160:], bytes(4096) + new[:4128][4096:] + bytes(32) + new[4160:]):
            written(self.path, content)
            self.assertRaises(paxidore.DamagedHead, Log.open, self.path)
            self.assertEqual(read(self.path), content)
        content = new[:32] + bytes(32) + new[64:-1] + bytes([new[-1] ^ 1])
        written(self.path, content)
        with Log.open(self.path) as log:
            self.assertRaises(paxidore.DamagedLog, log.root)
        self.assertEqual(read(self.path), content)

    def file_of(self, entries):
        # the file of a new log of these entries
        path = self.path + "-new"
        if os.path.exists(path):
            os.remove(path)
        with Log.open(path) as log:
            log.append(entries)
        return read(path)

    def test_slots_in_two_sectors(self):
        """So a new log lies. One whose slots lie in one sector answers the same, and each lies as it did."""
        entries = drawn(12)
        digests = entry_digests(entries)
        for size in (0, 1, 2, 5, 11):
            whole = self.file_of(entries[:size])
            self.assertEqual(whole, apart(dense(whole)))
            for lies in (bytes, dense):
                written(self.path, lies(whole))
                with Log.open(self.path) as log:
                    self.assertEqual(read(self.path), lies(whole))
                    self.assertEqual((len(log), log.root(), log.check()), (size, mth(digests[:size]), True))
                    proofs_are(self, log, digests, size)
                    self.assertEqual(log.append(entries[size:]), 12)
                    self.assertEqual((log.root(), log.check()), (mth(digests), True))
                self.assertEqual(read(self.path), lies(self.file_of(entries)))

    def test_a_sector_that_is_lost(self):
        """The log is read of the other one, and who opens it to append writes the lost one again."""
        entries = drawn(12)
        digests = entry_digests(entries)
        for size in (0, 1, 2, 5, 11):
            whole = self.file_of(entries[:size])
            for at in (0, 4096):
                for lost in (bytes(4096), os.urandom(4096)):
                    torn = whole[:at] + lost + whole[at + 4096 :]
                    written(self.path, torn)
                    with Log.open(self.path, read_only=True) as log:
                        self.assertEqual((len(log), log.root(), log.check()), (size, mth(digests[:size]), True))
                        proofs_are(self, log, digests, size)
                    self.assertEqual(read(self.path), torn)
                    with Log.open(self.path) as log:
                        self.assertEqual(read(self.path), whole)
                        self.assertEqual((len(log), log.root(), log.check()), (size, mth(digests[:size]), True))
                        self.assertEqual(log.append(entries[size:]), 12)
                    self.assertEqual(read(self.path), self.file_of(entries))

    def test_a_sector_that_cannot_be_read(self):
        """It is lost as long as nothing is written there. Where the other one is not there, nothing is made of the file."""
        entries = drawn(12)
        digests = entry_digests(entries)
        real_read, real_write = os.pread, os.pwrite
        for size, at in ((size, at) for size in (0, 5) for at in (0, 4096)):
            whole = self.file_of(entries[:size])
            bad = [at, at + 4096]

            def pread(file, count, place):
                if place < bad[1] and place + count > bad[0]:
                    raise OSError(errno.EIO, "a bad sector")
                return real_read(file, count, place)

            def pwrite(file, data, place):
                if place <= at and place + len(data) >= at + 4096:
                    bad[:] = [0, 0]
                return real_write(file, data, place)

            os.pread, os.pwrite = pread, pwrite
            try:
                # an older file, and one whose other sector is not there
                for other in (dense(whole), bytes(8192), whole[: 4096 - at] + bytes(32) + whole[4128 - at :]):
                    written(self.path, other)
                    if len(other) >= bad[1]:
                        self.assertRaises(OSError, Log.open, self.path)
                        self.assertRaises(OSError, Log.open, self.path, read_only=True)
                        self.assertEqual(read(self.path), other)
                written(self.path, whole[:at] + b"?" * 4096 + whole[at + 4096 :])
                with Log.open(self.path, read_only=True) as log:
                    self.assertEqual((len(log), log.root(), log.check()), (size, mth(digests[:size]), True))
                with Log.open(self.path) as log:
                    self.assertEqual((bad, read(self.path)), ([0, 0], whole))
                    self.assertEqual((log.append(entries[size:]), log.root()), (12, mth(digests)))
                # a digest
                bad[:] = [8192 + 32 * 20, 8192 + 32 * 21]
                with Log.open(self.path) as log:
                    with self.assertRaises(OSError) as raised:
                        for index in range(12):
                            log.inclusion(index)
                    self.assertEqual(raised.exception.errno, errno.EIO)
            finally:
                os.pread, os.pwrite = real_read, real_write

    def test_a_file_that_grows_within_a_call(self):
        """A reader that saw the length before an append, and the head behind it, sees the log."""
        entries = drawn(9)
        real = os.fstat
        with Log.open(self.path) as keeper, Log.open(self.path, read_only=True) as log:
            keeper.append(entries[:3])

            def fstat(file):
                seen = real(file)
                if len(keeper) < 9:
                    os.fstat = real
                    keeper.append(entries[len(keeper) :])
                return seen

            for call in (log.root, log.check, lambda: log.inclusion(2)):
                os.fstat = fstat
                try:
                    call()
                finally:
                    os.fstat = real
            self.assertEqual((len(log), log.root()), (9, mth(entry_digests(entries))))

    def test_a_slot_of_another_size(self):
        """The one of the two that the log has is written over the other one, whichever it is."""
        entries = drawn(12)
        older, whole = self.file_of(entries[:5]), self.file_of(entries)
        for at in (32, 4128):
            written(self.path, whole[:at] + older[at : at + 32] + whole[at + 32 :])
            with Log.open(self.path) as log:
                self.assertEqual((len(log), log.root()), (12, mth(entry_digests(entries))))
            self.assertEqual(read(self.path), whole)

    def test_healing_that_is_cut(self):
        """Whichever part of a sector is written again, the log is read, and the next opener goes on."""
        entries = drawn(9)
        whole, root = self.file_of(entries), mth(entry_digests(entries))
        real = os.pwrite
        for at in (0, 4096):
            torn = whole[:at] + os.urandom(4096) + whole[at + 4096 :]
            for fails_at in (1, 2):
                for part in (0, 1, 20, 31, 32, 33, 40, 52, 60, 63, 64, 65, 4095, 4096):
                    written(self.path, torn)
                    count = [0]

                    def write(file, view, at):
                        count[0] += 1
                        if count[0] == fails_at:
                            real(file, view[:part], at)
                            raise OSError("no space")
                        return real(file, view, at)

                    os.pwrite = write
                    try:
                        Log.open(self.path).close()
                    except OSError:
                        self.assertEqual(count[0], fails_at)
                    finally:
                        os.pwrite = real
                    with Log.open(self.path, read_only=True) as log:
                        self.assertEqual((len(log), log.root(), log.check()), (9, root, True))
                    Log.open(self.path).close()
                    healed = read(self.path)
                    for begin, end in ((0, 64), (4096, 4160), (8192, None)):
                        self.assertEqual(healed[begin:end], whole[begin:end])

    def test_a_sector_that_is_lost_meanwhile(self):
        """An append is refused by name, and writes nothing. Who opens the log again goes on."""
        whole = self.file_of(drawn(5))
        written(self.path, whole)
        with Log.open(self.path) as log:
            with open(self.path, "r+b") as file:
                file.write(bytes(4096))
            self.assertRaises(paxidore.DamagedHead, log.append, [b"more"])
            self.assertEqual(len(log), 5)
        self.assertEqual(read(self.path), bytes(4096) + whole[4096:])
        with Log.open(self.path) as log:
            self.assertEqual((read(self.path), log.append([b"more"])), (whole, 6))

    def test_sectors_and_a_step_that_is_cut(self):
        """Whichever steps of an append are written, the log is as it was or has the entries."""
        entries = drawn(9)
        digests = entry_digests(entries)
        new = self.file_of(entries[:5])
        real = os.pwrite
        for before, fails_at in ((before, fails_at) for before in (new, dense(new)) for fails_at in range(1, 6)):
            for part in (0, 1, 7):
                written(self.path, before)
                with Log.open(self.path) as log:
                    count = [0]

                    def write(file, view, at):
                        count[0] += 1
                        if count[0] == fails_at:
                            real(file, view[:part], at)
                            raise OSError("no space")
                        return real(file, view, at)

                    os.pwrite = write
                    try:
                        log.append(entries[5:])
                    except OSError:
                        self.assertEqual(count[0], fails_at)
                    finally:
                        os.pwrite = real
                with Log.open(self.path) as log:
                    self.assertIn(len(log), (5, 9))
                    self.assertEqual((log.root(), log.check()), (mth(digests[: len(log)]), True))

    def test_a_forked_process(self):
        """It does not have the log of its parent, nor its lock."""
        with Log.open(self.path) as log:
            log.append([b"one"])
            child = os.fork()
            if child == 0:
                refused = 0
                for call in (lambda: log.append([b"two"]), log.root, lambda: log.inclusion(0), log.check):
                    try:
                        call()
                    except ValueError:
                        refused += 1
                log.close()
                try:
                    Log.open(self.path)
                except BlockingIOError:
                    refused += 1
                os._exit(refused)
            self.assertEqual(os.waitstatus_to_exitcode(os.waitpid(child, 0)[1]), 5)
            self.assertEqual(log.append([b"two"]), 2)
            reading, writing = os.pipe()
            lives, alive = os.pipe()
            child = os.fork()
            if child == 0:
                os.write(alive, b"x")
                os.read(reading, 1)
                os._exit(0)
            os.read(lives, 1)
        # the child that lives does not hold the lock
        with Log.open(self.path) as log:
            self.assertEqual(len(log), 2)
        os.write(writing, b"x")
        os.waitpid(child, 0)
        for end in (reading, writing, lives, alive):
            os.close(end)

    def test_a_call_within_a_call(self):
        """A signal's handler that asks the log does not wait for the call that it interrupts."""
        log, seen = Log(), []

        def handler(number, frame):
            try:
                seen.append(len(log))
            except RuntimeError:
                seen.append(None)

        before = signal.signal(signal.SIGALRM, handler)
        try:
            signal.setitimer(signal.ITIMER_REAL, 0.0005, 0.0005)
            for size in range(2000):
                log.append([b"entry"])
        finally:
            signal.setitimer(signal.ITIMER_REAL, 0)
            signal.signal(signal.SIGALRM, before)
        self.assertEqual(len(log), 2000)
        self.assertGreater(len(seen), 0)

    def test_a_short_file_is_refused(self):
        with Log.open(self.path) as log:
            log.append(drawn(9))
        os.truncate(self.path, os.path.getsize(self.path) - 1)
        self.assertRaises(ValueError, Log.open, self.path)

    def test_a_failed_sync(self):
        entries = drawn(12)
        digests = entry_digests(entries)
        real = os.fsync
        for fails_at in (1, 2, 3, 4):
            if os.path.exists(self.path):
                os.unlink(self.path)
            with Log.open(self.path) as log:
                log.append(entries[:5])
                count = [0]

                def sync(file):
                    count[0] += 1
                    if count[0] == fails_at:
                        raise OSError("no space")
                    real(file)

                os.fsync = sync
                try:
                    self.assertRaises(OSError, log.append, entries[5:])
                finally:
                    os.fsync = real
                if fails_at <= 2:
                    # no size was written
                    self.assertEqual(log.root(), mth(digests[:5]))
                    # the head is written again first
                    count[0] = 4
                    os.fsync = sync
                    try:
                        self.assertEqual(log.append(entries[5:]), 12)
                    finally:
                        os.fsync = real
                    self.assertEqual(count[0], 10)
                else:
                    self.assertRaises(ValueError, log.root)
                    self.assertRaises(ValueError, log.append, entries[5:])
            with Log.open(self.path) as log:
                self.assertIn(len(log), (5, 12))
                self.assertEqual(log.root(), mth(digests[: len(log)]))

    def test_for_reading_only(self):
        """It needs no lock, sees what the keeper appends, and writes nothing."""
        self.assertRaises(FileNotFoundError, Log.open, self.path, read_only=True)
        self.assertEqual(os.listdir(self.room.name), [])
        entries = drawn(40)
        digests = entry_digests(entries)
        with Log.open(self.path) as keeper, Log.open(self.path, read_only=True) as log:
            for size in (0, 1, 7, 8, 33):
                keeper.append(entries[len(keeper) : size])
                self.assertEqual((len(log), log.root()), (size, mth(digests[:size])))
                proofs_are(self, log, digests, size)
                self.assertTrue(log.check())
            self.assertRaises(io.UnsupportedOperation, log.append, entries[:1])
            os.chmod(self.path, 0o444)
            child = os.fork()
            if child == 0:
                os._exit(log.root() == mth(digests[:33]))
            self.assertEqual(os.waitstatus_to_exitcode(os.waitpid(child, 0)[1]), 1)
        with open(self.path, "wb") as file:
            file.write(b"x")
        self.assertRaises(paxidore.NoLog, Log.open, self.path, read_only=True)

    def test_a_file_that_is_cut(self):
        """A file that gets shorter while it is open is refused, and ends no process."""
        entries = drawn(3000)
        with Log.open(self.path) as log, Log.open(self.path, read_only=True) as reader:
            log.append(entries)
            for length in (os.path.getsize(self.path) - 1, 5000, 97, 10, 0):
                os.truncate(self.path, length)
                for each in (log, reader):
                    self.assertRaises(ValueError, each.root)
                    self.assertRaises(ValueError, each.inclusion, 7, size=3000)
                    self.assertRaises(ValueError, each.consistency, 7, 3000)
                    self.assertRaises(ValueError, each.check)
                self.assertRaises(ValueError, log.append, entries[:1])
                self.assertEqual(os.path.getsize(self.path), length)

    def test_a_file_that_is_cut_within_a_call(self):
        real = os.pread
        with Log.open(self.path) as log:
            log.append(drawn(9))
            os.pread = lambda file, count, at: b"" if at else real(file, count, at)
            try:
                self.assertRaisesRegex(paxidore.ShortLog, "shorter", log.root)
                self.assertRaisesRegex(paxidore.ShortLog, "shorter", log.append, [b"x"])
                # what is read in parts is read
                os.pread = lambda file, count, at: real(file, min(count, 5), at)
                self.assertEqual(log.append([b"x"]), 10)
            finally:
                os.pread = real
            self.assertTrue(log.check())

    def test_waiting_for_the_lock(self):
        with Log.open(self.path) as log:
            begin = time.monotonic()
            self.assertRaises(BlockingIOError, Log.open, self.path, wait=0.05)
            self.assertGreaterEqual(time.monotonic() - begin, 0.05)
            opened = []
            opener = threading.Thread(target=lambda: opened.append(Log.open(self.path, wait=60)))
            opener.start()
            log.append([b"one"])
            self.assertEqual(opened, [])
        opener.join()
        self.assertEqual(opened[0].append([b"two"]), 2)
        opened[0].close()

    def test_no_descriptor_is_left(self):
        before = sorted(os.listdir("/proc/self/fd"))
        other = self.path + ".other"
        with open(other, "wb") as file:
            file.write(bytes(97) + b"x")
        with Log.open(self.path) as log:
            for _ in range(50):
                self.assertRaises(BlockingIOError, Log.open, self.path)
                self.assertRaises(paxidore.NoLog, Log.open, other)
                self.assertRaises(paxidore.NoLog, Log.open, other, read_only=True)
                Log.open(self.path, read_only=True).close()
            log.append([b"one"])
        # one that is not closed
        Log.open(self.path).append([b"two"])
        Log.open(self.path, read_only=True).root()
        self.assertRaises(NotADirectoryError, Log.open, other + "/none")
        self.assertEqual(len(Log.open(self.path)), 2)
        self.assertEqual(sorted(os.listdir("/proc/self/fd")), before)


if __name__ == "__main__":
    unittest.main()
