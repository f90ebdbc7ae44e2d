"""Maps in files that others made or damaged: each is refused as it is opened, by a name of the module, and is left as it was."""
import os
import pathlib
import sqlite3
import subprocess
import sys
import tempfile
import unittest
from unittest import mock

from paxidore import DamagedMap, Log, Map, NoLog, _nodes
from map_drawn import near, sha

# what a file is made into, by statements of SQL
REFUSED = {
    "no version is kept": "UPDATE kept SET versions = 0",
    "fewer than none": "UPDATE kept SET versions = -5",
    "too many": "UPDATE kept SET versions = 4611686018427387904",
    "a text": "UPDATE kept SET versions = 'many'",
    "no row": "DELETE FROM kept",
    "two rows": "INSERT INTO kept VALUES (2)",
    "the last number": "UPDATE version SET number = 4611686018427387903",
    "a number beyond": "UPDATE version SET number = 9223372036854775807",
    "a number below 0": "INSERT INTO version SELECT -1, root, entries FROM version",
    "no version": "DELETE FROM version",
    "a root that is a text": "UPDATE version SET root = 'root'",
    "a count that is a text": "UPDATE version SET entries = 'many'",
    "a count below 0": "UPDATE version SET entries = -1",
    "entries, and none": "UPDATE version SET entries = 0",
    "a node that was gone before": "UPDATE node SET gone = 0",
    "a node that will be gone": "UPDATE node SET gone = 99",
    "a node that is gone by a text": "UPDATE node SET gone = 'now'",
    "a trigger": "CREATE TRIGGER t AFTER INSERT ON version BEGIN DELETE FROM node; END",
    "a view": "CREATE VIEW v AS SELECT * FROM node",
    "another table": "CREATE TABLE t (x)",
    "another index": "CREATE INDEX i ON version (root)",
    "another column": "ALTER TABLE kept ADD COLUMN x",
    "a table that is not there": "DROP TABLE kept",
    "a table of another kind": "DROP TABLE kept; CREATE TABLE kept (versions TEXT); INSERT INTO kept VALUES (1)",
    "an index that is not there": "DROP INDEX node_gone",
    "another application": "PRAGMA application_id = 7",
    "another version": "PRAGMA user_version = 2",
}


class Hostile(unittest.TestCase):
    def setUp(self):
        folder = tempfile.TemporaryDirectory()
        self.addCleanup(folder.cleanup)
        self.path = os.path.join(folder.name, "map")
        with Map.open(self.path) as own:
            own.update({near(i): sha(b"%d" % i) for i in range(12)})

    def change(self, statements):
        base = sqlite3.connect(self.path)
        base.executescript(statements)
        base.close()

    def test_what_is_refused(self):
        before = pathlib.Path(self.path).read_bytes()
        for name, statements in REFUSED.items():
            pathlib.Path(self.path).write_bytes(before)
            self.change(statements)
            made = pathlib.Path(self.path).read_bytes()
            for more in ({}, {"read_only": True}, {"versions": 3}):
                with self.subTest(name, **more), self.assertRaises(DamagedMap):
                    Map.open(self.path, **more).close()
            self.assertEqual(pathlib.Path(self.path).read_bytes(), made, name)

    def test_what_a_change_finds(self):
        """What is not found as the file is opened is found before anything is written."""
        with Map.open(self.path, versions=5) as own:
            for number in range(3):
                own[near(50 + number)] = sha(b"%d" % number)
        before = pathlib.Path(self.path).read_bytes()
        for statements in (
            "UPDATE version SET entries = 1",
            "UPDATE node SET gone = 3",
            "DELETE FROM version WHERE number < 4; UPDATE version SET number = 4611686018427387902; UPDATE node SET gone = NULL",
        ):
            pathlib.Path(self.path).write_bytes(before)
            self.change(statements)
            with self.subTest(statements), Map.open(self.path) as own:
                root, version = own.root, own.version
                with self.assertRaises(DamagedMap):
                    own.remove([near(i) for i in range(6)])
                self.assertEqual((own.root, own.version, own[near(1)]), (root, version, sha(b"1")))

    def test_a_node_under_another_digest(self):
        """A node that a change makes is written as it is, whatever a file has at its digest."""
        with Map() as other:
            other.update({near(i): sha(b"%d" % i) for i in range(13)})
            made = other._store.base.execute("SELECT digest FROM node").fetchall()
        base = sqlite3.connect(self.path)
        base.executemany("INSERT OR IGNORE INTO node (digest, bytes) VALUES (?, zeroblob(65))", made)
        base.commit()
        base.close()
        with Map.open(self.path) as own:
            own[near(12)] = sha(b"12")
            own.check()

    def test_paths(self):
        folder = os.path.dirname(self.path)
        pipe = os.path.join(folder, "pipe")
        os.mkfifo(pipe)
        for more in ({}, {"read_only": True}):
            with self.subTest(**more):
                self.assertRaises(DamagedMap, Map.open, pipe, **more)
                self.assertRaises(DamagedMap, Map.open, folder, **more)
                self.assertRaises(NoLog, Log.open, pipe, **more)
                self.assertRaises(ValueError, Map.open, self.path + "\0b", **more)
                self.assertRaises(FileNotFoundError, Map.open, os.path.join(folder, "none", "map"), **more)
        self.assertRaises(FileNotFoundError, Map.open, self.path + ".none", read_only=True)
        with Map.open(os.fsencode(self.path)) as own:
            self.assertEqual(len(own), 12)
        self.assertEqual(sorted(os.listdir(folder)), ["map", "pipe"])

    def test_numbers(self):
        with Map.open(self.path) as own:
            for version in (10**5000, -(10**5000), 2**64, -1):
                self.assertRaises(KeyError, own.at, version)
            own.forget(-(10**5000))
            own.forget(10**5000)
            own.check()
        for versions in (2**64, 2**62, 10**5000):
            self.assertRaises(OverflowError, Map.open, self.path + ".none", versions=versions)
        self.assertRaises(ValueError, Map.open, self.path + ".none", versions=0)
        self.assertFalse(os.path.exists(self.path + ".none"))

    def test_pages_that_are_damaged(self):
        whole = bytearray(pathlib.Path(self.path).read_bytes())
        for at in range(100, len(whole), 211):
            whole[at] ^= 255
            pathlib.Path(self.path).write_bytes(whole)
            try:
                with Map.open(self.path, read_only=True) as own:
                    self.assertEqual(len(list(own)), 12)
                    own.check()
            except DamagedMap:
                pass
            whole[at] ^= 255

    def test_media_where_nothing_is_written(self):
        script = (
            "mount --bind %(folder)s %(folder)s && mount -o remount,bind,ro %(folder)s && exec %(python)s -c '"
            "import errno\n"
            "from paxidore import Map\n"
            "with Map.open(\"%(path)s\", read_only=True) as own:\n"
            "    own.check()\n"
            "    assert len(own) == 12\n"
            "try:\n"
            "    Map.open(\"%(path)s\")\n"
            "except OSError as error:\n"
            "    assert error.errno == errno.EROFS\n"
            "else:\n"
            "    assert False\n"
            "print(\"read\")'"
        ) % {"folder": os.path.dirname(self.path), "path": self.path, "python": sys.executable}
        try:
            ran = subprocess.run(["unshare", "-m", "sh", "-c", script], capture_output=True, text=True)
        except OSError as error:
            self.skipTest(str(error))
        if "mount:" in ran.stderr or "unshare:" in ran.stderr:
            self.skipTest(ran.stderr.strip())
        self.assertEqual((ran.stdout, ran.stderr), ("read\n", ""))

    def test_a_log_that_cannot_be_read(self):
        """On such media changes that lie beside the file would be passed over: it is said."""
        denied = sqlite3.OperationalError("unable to open database file")
        pathlib.Path(self.path + "-wal").write_bytes(b"changes")
        with mock.patch.object(_nodes, "_is_fixed", lambda path: True), mock.patch.object(_nodes._Store, "look", side_effect=denied):
            self.assertRaises(OSError, Map.open, self.path, read_only=True)
        os.unlink(self.path + "-wal")
        with mock.patch.object(_nodes, "_is_fixed", lambda path: True):
            with mock.patch.object(_nodes._Store, "look", side_effect=[denied, None]):
                with Map.open(self.path, read_only=True) as own:
                    self.assertEqual(len(own), 12)

    def test_the_length_within_a_batch(self):
        """It looks each key up once, and makes no proof."""
        with Map.open(self.path) as own, own.batch():
            with mock.patch("paxidore.map._map_prove", side_effect=AssertionError):
                for number in range(6, 18):
                    own[near(number)] = sha(b"new")
                    self.assertEqual(len(own), max(12, number + 1))
            del own[near(0)]
            self.assertEqual(len(own), 17)


if __name__ == "__main__":
    unittest.main()
