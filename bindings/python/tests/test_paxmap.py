"""Runs the example paxmap.py as its user does: a map whose versions are the entries of a log."""
import hashlib
import os
import subprocess
import sys
import tempfile
import unittest

from paxidore import Log, Map

PAXMAP = os.path.join(os.path.dirname(os.path.dirname(os.path.abspath(__file__))), "examples", "paxmap.py")


def ask(*words, status=0):
    ran = subprocess.run([sys.executable, PAXMAP, *words], stdout=subprocess.PIPE, stderr=subprocess.PIPE, text=True, check=False)
    assert ran.returncode == status, ran.stderr
    return ran.stdout.rstrip("\n")


class Paxmap(unittest.TestCase):
    def setUp(self):
        room = tempfile.TemporaryDirectory()
        self.addCleanup(room.cleanup)
        self.folder = os.path.join(room.name, "names")

    def test_session(self):
        self.assertEqual(ask("root", self.folder), "0 " + hashlib.sha256().hexdigest())
        self.assertEqual(ask("put", self.folder, "ann", "key 1"), "1")
        self.assertEqual(ask("put", self.folder, "bob", "key 2"), "2")
        self.assertEqual(ask("put", self.folder, "ann", "key 3"), "3")
        self.assertEqual(ask("put", self.folder, "ann", "key 3"), "3", "no change is no version")
        self.assertEqual(ask("get", self.folder, "ann"), hashlib.sha256(b"key 3").hexdigest())
        self.assertEqual(ask("get", self.folder, "cat"), "-")
        count, root = ask("root", self.folder).split()
        self.assertEqual(count, "3")
        ann, cat = ask("prove", self.folder, "ann"), ask("prove", self.folder, "cat")
        self.assertEqual(ask("verify", count, root, "ann", "key 3", ann), "yes")
        self.assertEqual(ask("verify", count, root, "cat", "-", cat), "yes")
        for name, value, receipt in (("ann", "key 1", ann), ("ann", "-", ann), ("cat", "key 3", cat), ("bob", "-", ann), ("cat", "-", ann[:-2]), ("cat", "-", "zz")):
            self.assertEqual(ask("verify", count, root, name, value, receipt), "no")
        self.assertEqual(ask("remove", self.folder, "ann"), "4")
        newer, newer_root = ask("root", self.folder).split()
        self.assertEqual(ask("verify", newer, newer_root, "ann", "key 3", ann), "no", "the receipt is one of the version before")
        self.assertEqual(ask("verify", newer, newer_root, "ann", "-", ask("prove", self.folder, "ann")), "yes")

    def test_history(self):
        roots = []
        for number in range(5):
            ask("put", self.folder, "name %d" % number, "value")
            with Map.open(os.path.join(self.folder, "map"), read_only=True) as names:
                roots.append(names.root)
        self.assertEqual(ask("history", self.folder), "\n".join("%d %s" % (at + 1, root.hex()) for at, root in enumerate(roots)))
        log = Log()
        log.append(roots)
        self.assertEqual(ask("root", self.folder), "5 " + log.root().hex())

    def test_version_without_its_entry(self):
        ask("put", self.folder, "ann", "key 1")
        with Map.open(os.path.join(self.folder, "map"), versions=None) as names:
            names[hashlib.sha256(b"bob").digest()] = bytes(32)
        self.assertEqual(ask("root", self.folder).split()[0], "2")

    def test_usage(self):
        for words in ((), ("put", self.folder), ("take", self.folder, "ann")):
            self.assertEqual(ask(*words, status=1), "")
        self.assertFalse(os.path.exists(self.folder))


if __name__ == "__main__":
    unittest.main()
