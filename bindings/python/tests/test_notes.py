"""Signed checkpoints and receipts, beside tools/notes-model, a model of its own, and trees that hashlib makes."""
import base64
import hashlib
import importlib.machinery
import importlib.util
import os
import random
import sys
import unittest

import paxidore
from paxidore import notes

sys.dont_write_bytecode = True
TOP = os.path.dirname(os.path.dirname(os.path.dirname(os.path.dirname(os.path.abspath(__file__)))))
DRAWS = random.Random(61)
ORIGIN = "example.com/log"


def model_of(name):
    loader = importlib.machinery.SourceFileLoader(name.replace("-", "_"), "%s/tools/%s" % (TOP, name))
    made = importlib.util.module_from_spec(importlib.util.spec_from_loader(loader.name, loader))
    loader.exec_module(made)
    return made


model = model_of("notes-model")


def sha(data):
    return hashlib.sha256(data).digest()


def split(size):
    return 1 << (size - 1).bit_length() - 1


def root_of(digests):
    if len(digests) < 2:
        return digests[0] if digests else sha(b"")
    k = split(len(digests))
    return sha(b"\1" + root_of(digests[:k]) + root_of(digests[k:]))


def path_of(index, digests):
    if len(digests) < 2:
        return []
    k = split(len(digests))
    if index < k:
        return path_of(index, digests[:k]) + [root_of(digests[k:])]
    return path_of(index - k, digests[k:]) + [root_of(digests[:k])]


def receipt_of(index, path, note, extra=None):
    lines = ["c2sp.org/tlog-proof@v1"]
    if extra is not None:
        lines.append("extra " + base64.b64encode(extra).decode())
    lines.append("index %d" % index)
    lines += [base64.b64encode(digest).decode() for digest in path]
    return ("\n".join(lines) + "\n\n").encode() + note


def key_of(name, algorithm=1):
    return model.Key(name, algorithm, hashlib.sha256(name.encode()).digest())


LOG = key_of(ORIGIN)
WITNESSES = [key_of("witness.example/%d" % i, 4) for i in range(3)]
POLICY = "log %s\n%sgroup all 2 w0 w1 w2\nquorum all\n" % (
    LOG.verifier(), "".join("witness w%d %s\n" % (i, key.verifier()) for i, key in enumerate(WITNESSES))
)
ALONE = notes.policy_of(LOG.verifier())


def note_of(size, root, times=(), origin=ORIGIN):
    text = model.checkpoint(origin, size, root)
    lines = [LOG.line(text)] + [key.line(text, time) for key, time in zip(WITNESSES, times) if time is not None]
    return (text + "\n" + "".join(lines)).encode()


class Checkpoints(unittest.TestCase):
    def test_are_signed_as_by_the_model(self):
        for size in (0, 1, 5, 1 << 40, (1 << 64) - 1):
            root = sha(b"root %d" % size)
            made = notes.sign_checkpoint(LOG.seed, ORIGIN, root, size)
            self.assertEqual(made, note_of(size, root))
            self.assertEqual(notes.open_checkpoint(ALONE, made), notes.Checkpoint(size, root))
        other = notes.sign_checkpoint(LOG.seed, ORIGIN, root, 5, origin="another log")
        self.assertEqual(notes.open_checkpoint(ALONE, other, origin="another log").size, 5)
        with self.assertRaises(paxidore.OtherOrigin):
            notes.open_checkpoint(ALONE, other)
        self.assertEqual(notes.verifier_text(ORIGIN, LOG.public), LOG.verifier())

    def test_of_names_that_are_none(self):
        for name in ("", "a b", "a+b", "a\nb", "\udcff"):
            with self.assertRaises(paxidore.InvalidProof):
                notes.sign_checkpoint(LOG.seed, name, bytes(32), 5, origin=ORIGIN)
            with self.assertRaises(paxidore.InvalidProof):
                notes.verifier_text(name, LOG.public)
        for origin in ("", "a\nb", "a\tb", "\udcff"):
            with self.assertRaises(paxidore.InvalidProof):
                notes.sign_checkpoint(LOG.seed, ORIGIN, bytes(32), 5, origin=origin)
        with self.assertRaises(ValueError):
            notes.sign_checkpoint(bytes(31), ORIGIN, bytes(32), 5)
        with self.assertRaises(OverflowError):
            notes.sign_checkpoint(LOG.seed, ORIGIN, bytes(32), 1 << 64)

    def test_need_what_the_policy_asks(self):
        root = sha(b"root")
        for times in ((7, 8, 9), (7, 8), (7, None, 9), (None, 8, 9), (7,), (None, None, 9), ()):
            note = note_of(5, root, times)
            for since in (0, 7, 8, 9, 10):
                enough = sum(time is not None and time >= since for time in times) >= 2
                if enough:
                    self.assertEqual(notes.open_checkpoint(POLICY, note, since=since), (5, root))
                else:
                    with self.assertRaises(paxidore.NotSigned):
                        notes.open_checkpoint(POLICY, note, since=since)
            self.assertEqual(notes.open_checkpoint(ALONE, note), (5, root))
        stranger = note_of(5, root).replace(LOG.line(model.checkpoint(ORIGIN, 5, root)).encode(), WITNESSES[0].line("x", 7).encode())
        with self.assertRaises(paxidore.NotSigned):
            notes.open_checkpoint(ALONE, stranger)
        forged = note_of(5, root) + (WITNESSES[0].line("another text\n", 9) + WITNESSES[1].line(model.checkpoint(ORIGIN, 5, root), 9)).encode()
        with self.assertRaises(paxidore.BadSignature):
            notes.open_checkpoint(POLICY, forged)
        self.assertEqual(notes.open_checkpoint(ALONE, forged), (5, root))

    def test_of_policies_that_are_none(self):
        note = note_of(5, sha(b"root"))
        for policy in ("", "quorum none\n", "log x\nquorum none\n", ALONE + "more\n", "log %s\n" % LOG.verifier(), ALONE.replace("none", "w0")):
            with self.assertRaises(paxidore.NoPolicy):
                notes.open_checkpoint(policy, note)
        for origin in ("\udcff", "x\udcc3"):
            with self.assertRaises(paxidore.OtherOrigin):
                notes.open_checkpoint(ALONE, note, origin=origin)

    def test_damaged_are_refused(self):
        note = note_of(5, sha(b"root"), (7, 8, 9))
        for at in range(len(note)):
            damaged = note[:at] + bytes([note[at] ^ 1 << DRAWS.randrange(8)]) + note[at + 1 :]
            try:
                # a line that names no key counts for nothing, and a policy of two of three does without it
                self.assertEqual(notes.open_checkpoint(POLICY, damaged), (5, sha(b"root")))
                self.assertGreater(at, note.index(b"\n\n") + 1)
            except (paxidore.InvalidProof, paxidore.BadSignature, paxidore.NotSigned, paxidore.OtherOrigin):
                pass
            with self.assertRaises(paxidore.Refused):
                notes.open_checkpoint(POLICY, note[:at] if note[:at].count(b"\n") < 7 else note[: note.index(b"\n\n")])


class Receipts(unittest.TestCase):
    def test_show_their_entries(self):
        for size in (1, 2, 3, 7, 8, 21):
            entries = [b"entry %d" % i for i in range(size)]
            digests = [sha(b"\0" + entry) for entry in entries]
            root = root_of(digests)
            note = note_of(size, root, (7, 8))
            for index, entry in enumerate(entries):
                for extra in (None, b"", b"more bytes"):
                    receipt = receipt_of(index, path_of(index, digests), note, extra)
                    self.assertEqual(notes.open_receipt(POLICY, entry, receipt, since=7), notes.Shown(index, size, root))
                self.assertIsNone(notes.open_receipt(POLICY, entry + b"x", receipt))
                self.assertIsNone(notes.open_receipt(POLICY, entry, receipt_of(index + size, path_of(index, digests), note)))
                with self.assertRaises(paxidore.NotSigned):
                    notes.open_receipt(POLICY, entry, receipt, since=8)
                with self.assertRaises(paxidore.OtherOrigin):
                    notes.open_receipt(POLICY, entry, receipt, origin="another log")

    def test_that_are_none(self):
        digests = [sha(b"\0%d" % i) for i in range(5)]
        note = note_of(5, root_of(digests))
        good = receipt_of(3, path_of(3, digests), note)
        for bad in (
            b"", good[1:], good.replace(b"@v1", b"@v2"), good.replace(b"index 3", b"index 03"), good.replace(b"index 3", b"index"),
            good.replace(b"index 3", b"extra !\nindex 3"), good.replace(b"index 3", b"extra\nindex 3"), good.replace(b"index 3", b"extra AAA\nindex 3"),
            good.replace(b"index 3", b"extra AA==\nextra AA==\nindex 3"), good.replace(b"=\n", b"\n", 1), good.replace(b"\n\n", b"\n", 1),
        ):
            with self.assertRaises(paxidore.InvalidProof):
                notes.open_receipt(ALONE, b"3", bad)
        for at in range(len(good)):
            damaged = good[:at] + bytes([good[at] ^ 1 << DRAWS.randrange(8)]) + good[at + 1 :]
            try:
                self.assertIsNone(notes.open_receipt(ALONE, b"3", damaged))
            except (paxidore.InvalidProof, paxidore.BadSignature, paxidore.NotSigned, paxidore.OtherOrigin):
                pass

    def test_of_other_types(self):
        for call in (
            lambda: notes.open_receipt(ALONE.encode(), b"3", b""), lambda: notes.open_receipt(ALONE, "3", b""),
            lambda: notes.open_receipt(ALONE, b"3", bytearray(3)), lambda: notes.open_checkpoint(ALONE, "x"),
            lambda: notes.open_checkpoint(ALONE, b"x", origin=b"x"), lambda: notes.open_checkpoint(ALONE, b"x", since="7"),
        ):
            with self.assertRaises(TypeError):
                call()


if __name__ == "__main__":
    unittest.main()
