"""The vectors of the repository's top, read as another implementation would read them."""
import json
import os
import unittest

import paxidore
from paxidore import Field, Log, Transcript, rfc6962, sha256

FOLDER = os.path.join(os.path.dirname(os.path.abspath(__file__)), "..", "..", "..", "vectors")
HASHINGS = {"plain": sha256, "rfc6962": rfc6962}
REFUSALS = {
    "size": paxidore.SizeError,
    "truncated": paxidore.TruncatedProof,
    "invalid": paxidore.InvalidProof,
    "height": paxidore.HeightError,
    "count": paxidore.CountError,
    "index": paxidore.IndexBeyondSize,
}
hexed = bytes.fromhex


def read(name):
    with open(os.path.join(FOLDER, name + ".json"), encoding="ascii") as file:
        whole = json.load(file)
    assert whole["version"] == 1
    return whole[name]


class Vectors(unittest.TestCase):
    def test_trees(self):
        for tree in read("trees"):
            trees, leaves, root = HASHINGS[tree["hashing"]], list(map(hexed, tree["leaves"])), hexed(tree["root"])
            self.assertEqual(trees.root(leaves), root)
            for index, path in enumerate(map(hexed, tree["paths"])):
                self.assertEqual(trees.path(leaves, index), path)
                self.assertTrue(trees.verify(root, len(leaves), index, leaves[index], path))
            for proof in tree["multi_paths"]:
                indexes, data = proof["indexes"], hexed(proof["bytes"])
                self.assertEqual(trees.multi_path(leaves, indexes), data)
                self.assertTrue(trees.multi_verify(root, len(leaves), indexes, [leaves[i] for i in indexes], data))

    def test_logs(self):
        given = read("logs")
        entries, log = list(map(hexed, given["entries"])), Log()
        log.append(entries)
        for own in given["logs"]:
            size, root = own["size"], hexed(own["root"])
            self.assertEqual(log.root(size), root)
            for index, path in enumerate(map(hexed, own["inclusion"])):
                self.assertEqual(log.inclusion(index, size=size), path)
                self.assertTrue(Log.verify_inclusion(root, size, index, entries[index], path))
            for old, proof in enumerate(map(hexed, own["consistency"]), 1):
                self.assertEqual(log.consistency(old, size), proof)
                self.assertTrue(Log.verify_consistency(hexed(given["logs"][old]["root"]), old, root, size, proof))

    def test_hashes(self):
        given = read("hashes")
        for row in given["digests"]:
            self.assertEqual(paxidore.sha256_digest(hexed(row["input"])).hex(), row["sha256"])
            self.assertEqual(paxidore.blake2s(hexed(row["input"])).hex(), row["blake2s"])
        for row in given["commitments"]:
            value, nonce = hexed(row["value"]), hexed(row["nonce"])
            self.assertEqual(paxidore.blake2s_commit(value, nonce).hex(), row["commitment"])
            self.assertTrue(paxidore.blake2s_opens(hexed(row["commitment"]), value, nonce))

    def test_ed25519(self):
        of = read("ed25519")
        for row in of["signatures"]:
            seed, message = hexed(row["seed"]), hexed(row["message"])
            self.assertEqual(paxidore.ed25519.public_key(seed).hex(), row["key"])
            self.assertEqual(paxidore.ed25519.sign(seed, message).hex(), row["signature"])
        for row in of["checks"]:
            key, message, signature = hexed(row["key"]), hexed(row["message"]), hexed(row["signature"])
            if len(key) == 32:
                self.assertIs(paxidore.ed25519.verify(key, message, signature), row["valid"], row["what"])
        for what, call in [
            ("seed", lambda: paxidore.ed25519.public_key(bytes(31))),
            ("seed", lambda: paxidore.ed25519.sign(bytes(33), b"")),
            ("key", lambda: paxidore.ed25519.verify(bytes(31), b"", bytes(64))),
        ]:
            with self.assertRaisesRegex(ValueError, what):
                call()

    def test_transcripts(self):
        for given in read("transcripts"):
            field = Field(given["number"])
            transcript = Transcript(field, hexed(given["parameters"]))
            each = field.element_bytes
            for step in given["steps"]:
                ((call, text),) = step.items()
                data = hexed(text)
                elements = [int.from_bytes(data[i : i + each], "little") for i in range(0, len(data), each)]
                if call == "absorb":
                    transcript.absorb(elements)
                elif call == "absorb_bytes":
                    transcript.absorb_bytes(data)
                else:
                    self.assertEqual(transcript.squeeze(len(elements)), elements)

    def test_refused_bytes(self):
        given = read("refused")
        root, log_root, old_root = hexed(given["root"]), hexed(given["log_root"]), hexed(given["old_root"])
        for case in given["cases"]:
            data = hexed(case["bytes"])
            with self.subTest(case), self.assertRaises(REFUSALS[case["refusal"]]) as raised:
                if case["call"] == "verify":
                    rfc6962.verify(root, case["size"], case["index"], hexed(case["leaf"]), data)
                elif case["call"] == "multi_verify":
                    rfc6962.multi_verify(root, case["size"], case["indexes"], list(map(hexed, case["leaves"])), data)
                elif case["call"] == "verify_inclusion":
                    Log.verify_inclusion(log_root, case["size"], case["index"], hexed(case["entry"]), data)
                else:
                    Log.verify_consistency(old_root, case["old_size"], log_root, case["new_size"], data)
            self.assertIs(type(raised.exception), REFUSALS[case["refusal"]])


if __name__ == "__main__":
    unittest.main()
