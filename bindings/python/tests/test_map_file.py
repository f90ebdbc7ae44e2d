"""Maps in files: versions, damage, readers, forks and kills."""
import errno
import io
import os
import pathlib
import random
import signal
import sqlite3
import subprocess
import sys
import tempfile
import threading
import time
import unittest

from paxidore import DamagedMap, Map
from map_drawn import KILLS, ROUNDS, near, sha

# A process that has a map forks, and closes it; another one keeps it and is killed; then the forked one ends, with its objects.
FORKS = """
import os, signal, sys
from paxidore import Map

def key(number):
    return bytes([number]) * 32

own = Map.open(sys.argv[1])
own[key(0)] = key(0)
reads, writes = os.pipe()
child = os.fork()
if child == 0:
    os.close(writes)
    os.read(reads, 1)
    sys.exit(0)
own.close()
keeper = os.fork()
if keeper == 0:
    other = Map.open(sys.argv[1])
    for number in range(1, 30):
        other[key(number)] = key(number)
    os.kill(os.getpid(), signal.SIGKILL)
os.waitpid(keeper, 0)
os.close(writes)
os.waitpid(child, 0)
"""


class Files(unittest.TestCase):
    def setUp(self):
        self.folder = tempfile.TemporaryDirectory()
        self.addCleanup(self.folder.cleanup)
        self.path = os.path.join(self.folder.name, "map")

    def test_opened_again(self):
        with Map.open(self.path) as own:
            own.update({near(i): sha(b"%d" % i) for i in range(50)})
            root = own.root
        with Map.open(self.path, root=root) as own:
            self.assertEqual((own.root, len(own), own[near(7)]), (root, 50, sha(b"7")))
            own.check()
            del own[near(7)]
            with Map.open(self.path, read_only=True) as reader:
                self.assertEqual(reader.root, own.root)
                with self.assertRaises(io.UnsupportedOperation):
                    reader[near(8)] = sha(b"8")
                own[near(99)] = sha(b"99")
                self.assertEqual(reader[near(99)], sha(b"99"))
        with self.assertRaises(DamagedMap):
            Map.open(self.path, root=root)
        with self.assertRaises(ValueError):
            own[near(8)]
        with self.assertRaises(FileNotFoundError):
            Map.open(self.path + ".none", read_only=True)
        self.assertFalse(os.path.exists(self.path + ".none"))

    def test_versions(self):
        states = []
        with Map.open(self.path, versions=None) as own:
            entries = {}
            draws = random.Random(3)
            for turn in range(40):
                key = near(draws.randrange(12))
                if draws.random() < 0.5:
                    own.pop(key, None)
                    entries.pop(key, None)
                else:
                    # values come back, and so do nodes
                    own[key] = entries[key] = sha(b"%d" % draws.randrange(2))
                states.append((own.version, own.root, dict(entries)))
            for version, root, then in states:
                old = own.at(version)
                self.assertEqual((old.root, dict(old.items()), len(old)), (root, then, len(then)))
                self.assertTrue(Map.verify(root, near(1), then.get(near(1)), old.prove(near(1))))
                old.check()
            own.forget(states[30][0])
            with self.assertRaises(KeyError):
                own.at(states[30][0] - 1)
            for version, root, then in states[30:]:
                self.assertEqual(dict(own.at(version).items()), then)
        with Map.open(self.path, versions=1) as own:
            own[near(50)] = sha(b"50")
            with self.assertRaises(KeyError):
                own.at(states[-1][0])
            own.check()
            nodes = own._store.base.execute("SELECT count(*) FROM node").fetchone()[0]
            _, met = own._store.tree(own.root, list(own), frozenset())
            # nothing is left of older versions
            self.assertEqual(nodes, len(met))

    def test_damaged_files(self):
        with Map.open(self.path) as own:
            own.update({near(i): sha(b"%d" % i) for i in range(12)})
        base = sqlite3.connect(self.path)
        rows = base.execute("SELECT digest, bytes FROM node").fetchall()
        # each node in turn is left out, or is another one
        for at, (digest, node) in enumerate(rows):
            for other in (None, node[:-1] + bytes([node[-1] ^ 1]), rows[at - 1][1], node[:-1], bytes([1 - node[0]]) + node[1:]):
                if other is None:
                    base.execute("DELETE FROM node WHERE digest = ?", (digest,))
                else:
                    base.execute("UPDATE node SET bytes = ? WHERE digest = ?", (other, digest))
                base.commit()
                with self.assertRaises(DamagedMap):
                    with Map.open(self.path) as own:
                        own.check()
                base.execute("INSERT OR REPLACE INTO node (digest, bytes) VALUES (?, ?)", (digest, node))
                base.commit()
        base.close()
        with Map.open(self.path) as own:
            own.check()
        with open(self.path + ".other", "wb") as file:
            file.write(b"no database" * 100)
        with self.assertRaises(DamagedMap):
            Map.open(self.path + ".other")
        sqlite3.connect(self.path + ".base").execute("CREATE TABLE t (x)")
        with self.assertRaises(DamagedMap):
            Map.open(self.path + ".base")

    def test_versions_are_remembered(self):
        with Map.open(self.path, versions=None) as own:
            own[near(1)] = sha(b"1")
            first = own.version
        with Map.open(self.path) as own:
            own[near(2)] = sha(b"2")
            self.assertEqual(dict(own.at(first).items()), {near(1): sha(b"1")})
        with Map.open(self.path, versions=1) as own:
            own[near(3)] = sha(b"3")
        with Map.open(self.path) as own, self.assertRaises(KeyError):
            own.at(first)

    def test_other_databases(self):
        """Nothing is written to a file that is another's."""
        for name, made in (("table", "CREATE TABLE t (x)"), ("id", "PRAGMA application_id = 7")):
            path = "%s.%s" % (self.path, name)
            base = sqlite3.connect(path)
            base.execute(made)
            base.commit()
            base.close()
            before = pathlib.Path(path).read_bytes()
            with self.assertRaises(DamagedMap):
                Map.open(path)
            self.assertEqual(pathlib.Path(path).read_bytes(), before)
        with Map.open(self.path) as own:
            own[near(1)] = sha(b"1")
            for stated in ("root = x'00'", "entries = 'many'", "entries = -1", "number = 9223372036854775807"):
                with self.subTest(stated):
                    own._store.base.execute("BEGIN")
                    own._store.base.execute("UPDATE version SET %s" % stated)
                    with self.assertRaises(DamagedMap):
                        own._store.head(None)
                    own._store.base.execute("ROLLBACK")

    def test_another_process_has_the_file(self):
        with Map.open(self.path, wait=0) as own:
            own[near(1)] = sha(b"1")
            other = sqlite3.connect(self.path, isolation_level=None)
            self.addCleanup(other.close)
            other.execute("BEGIN IMMEDIATE")
            for call in (
                lambda: own.__setitem__(near(2), sha(b"2")),
                lambda: own.forget(0),
                lambda: Map.open(self.path, wait=0),
            ):
                # one error under both names
                for kind in BlockingIOError, sqlite3.OperationalError:
                    with self.assertRaises(kind) as caught:
                        call()
                self.assertEqual(caught.exception.filename, self.path)
                if sys.version_info >= (3, 11):
                    self.assertEqual(caught.exception.sqlite_errorname, "SQLITE_BUSY")
            self.assertEqual((own[near(1)], list(own)), (sha(b"1"), [near(1)]))
            other.execute("ROLLBACK")
            own[near(2)] = sha(b"2")

    def test_a_disk_that_is_full(self):
        with Map.open(self.path, versions=None) as own:
            own[near(1)] = sha(b"1")
            root = own.root
            pages = own._store.number("PRAGMA page_count")
            own._store.base.execute("PRAGMA max_page_count = %d" % (pages + 2))
            with self.assertRaises(OSError) as caught:
                own.update({near(i): sha(b"%d" % i) for i in range(200)})
            self.assertEqual((caught.exception.errno, caught.exception.filename), (errno.ENOSPC, self.path))
            self.assertIsInstance(caught.exception, sqlite3.OperationalError)
            self.assertEqual((own.root, len(own), own.version), (root, 1, 1))
            own.check()
            own._store.base.execute("PRAGMA max_page_count = 1000000")
            own.update({near(i): sha(b"%d" % i) for i in range(200)})
            own.check()

    def test_makers_at_once(self):
        """Whoever makes a map's file waits for another who does."""
        refused = []

        def make(path):
            try:
                with Map.open(path, wait=20) as own:
                    own[sha(b"%d" % threading.get_ident())] = sha(b"")
            except BaseException as error:
                refused.append(error)

        for turn in range(8):
            makers = [threading.Thread(target=make, args=("%s.%d" % (self.path, turn),)) for _ in range(4)]
            for maker in makers:
                maker.start()
            for maker in makers:
                maker.join()
        self.assertEqual(refused, [])

    def test_an_iteration_that_is_left_open(self):
        """SQLite's log grows as long as it is open, and is used again from its begin once it has ended."""

        def changed(own, turns):
            for turn in range(turns):
                own.update({near(i): sha(b"%d %d" % (turn, i)) for i in range(50)})
            return os.path.getsize(self.path + "-wal")

        with Map.open(self.path) as own:
            changed(own, 40)
            bound = 5 * changed(own, 40) // 4
            self.assertLess(changed(own, 40), bound)
            entries = dict(own.items())
            keys = iter(own)
            first = next(keys)
            grown = changed(own, 80)
            self.assertGreater(grown, bound)
            # it has what there was at its begin
            self.assertEqual([first, *keys], sorted(entries))
            settled = changed(own, 40)
            self.assertLess(settled, grown + bound)
            for end in (lambda left: left.close(), lambda left: None):
                keys = iter(own)
                next(keys)
                end(keys)
                del keys
                self.assertEqual(changed(own, 40), settled)

    @unittest.skipUnless(hasattr(os, "fork"), "no fork")
    def test_forked_process_ends(self):
        """The end of a forked process takes nothing from whoever keeps the map then, also where that one is killed."""
        subprocess.run([sys.executable, "-c", FORKS, self.path], check=True)
        with Map.open(self.path) as again:
            self.assertEqual(len(again), 30)
            again.check()

    def test_interrupted_call(self):
        """A call that an interrupt left in a transaction is no hindrance to the next one."""
        with Map.open(self.path) as own, Map.open(self.path, read_only=True) as reader:
            own[near(1)] = sha(b"1")
            self.assertEqual(reader[near(1)], sha(b"1"))
            for left in (own, reader):
                left._store.base.execute("BEGIN")
                left._store.head(None)
            own[near(2)] = sha(b"2")
            self.assertEqual(reader.prove(near(2)), own.prove(near(2)))
            self.assertFalse(own._store.base.in_transaction or reader._store.base.in_transaction)

    def test_closed_and_far(self):
        own = Map.open(self.path, versions=None)
        own[near(1)] = sha(b"1")
        kept = own.at(own.version)
        for version in (2**70, -1, 2**63):
            with self.assertRaises(KeyError):
                own.at(version)
        own.close()
        for call in (lambda: kept.root, lambda: kept[near(1)], lambda: list(kept), lambda: len(kept), kept.check):
            with self.assertRaises(ValueError):
                call()

    def test_readers_meanwhile(self):
        with Map.open(self.path) as own:
            own.update({near(i): sha(b"%d" % i) for i in range(40)})
            stop, failures, seen = threading.Event(), [], [0]

            def read():
                try:
                    with Map.open(self.path, read_only=True) as reader:
                        while not stop.is_set() or not seen[0]:
                            reader.check()
                            for i in range(40):
                                value = reader.get(near(i))
                                if value is not None:
                                    seen[0] += 1
                except Exception as error:  # whatever it is
                    failures.append(error)

            readers = [threading.Thread(target=read) for _ in range(2)]
            for reader in readers:
                reader.start()
            for turn in range(ROUNDS // 3):
                own[near(turn % 40)] = sha(b"turn %d" % turn)
            stop.set()
            for reader in readers:
                reader.join()
            self.assertEqual(failures, [])

    def test_killed_while_it_changes(self):
        """A keeper is killed at any time: the map is as before its last change, or after it."""
        draws = random.Random(11)
        with Map.open(self.path) as own:
            own.update({near(i): sha(b"first %d" % i) for i in range(64)})
        # on a slow machine a keeper is given more time
        number, changed, pause = 0, 0, 1.0
        for _ in range(KILLS):
            read_end, write_end = os.pipe()
            child = os.fork()
            if child == 0:
                try:
                    os.close(read_end)
                    with Map.open(self.path) as own:
                        turn = number
                        while True:
                            # entry 0 of each change says which change it is
                            changes = {near(3 * (turn % 7) + j): sha(b"%d %d" % (turn, j)) for j in range(1, 3)}
                            with own.batch():
                                own.update(changes)
                                own[near(0)] = turn.to_bytes(32, "big")
                                own.pop(near(60 + turn % 4), None)
                            os.write(write_end, b"x")
                            turn += 1
                finally:
                    os._exit(1)
            os.close(write_end)
            time.sleep(pause * (0.02 + draws.random() * 0.03))
            os.kill(child, signal.SIGKILL)
            os.waitpid(child, 0)
            returned = 0
            while True:
                piece = os.read(read_end, 4096)
                if not piece:
                    break
                returned += len(piece)
            os.close(read_end)
            # a reader needs no keeper to open it first
            with Map.open(self.path, read_only=True) as own:
                own.check()
                last = int.from_bytes(own[near(0)], "big") if own.version > 1 else -1
                done = last - number + 1 if own.version > 1 else 0
                self.assertIn(done, (returned, returned + 1))
                if done == 0:
                    pause = min(2 * pause, 100)
                if done > 0:
                    changed += done
                    number = last + 1
                    for j in range(1, 3):
                        self.assertEqual(own[near(3 * (last % 7) + j)], sha(b"%d %d" % (last, j)))
        self.assertGreater(changed, KILLS // 4)


if __name__ == "__main__":
    unittest.main()
