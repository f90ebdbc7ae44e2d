"""Says whether a sigsum proof shows that a submitter signed a file and a log has it: sigsum.py --log KEY --submitter KEY
[--witness KEY .. --quorum COUNT] PROOF FILE. Keys are hexadecimal. Versions 1 and 2 of the proof are read. It is rewritten as a receipt of
C2SP's tlog-proof, whose signatures, quorum and path the library checks."""
import argparse
import base64
import hashlib
import sys

import paxidore
from paxidore import ed25519, notes


def digest(data: bytes) -> bytes:
    return hashlib.sha256(data).digest()


def key_id(name: str, kind: int, key: bytes) -> bytes:
    # of the key of a note's signature: 1 is a log's, 4 is a witness's
    return digest(name.encode() + bytes([10, kind]) + key)[:4]


def verifier(name: str, kind: int, key: bytes) -> str:
    return "%s+%s+%s" % (name, key_id(name, kind, key).hex(), base64.b64encode(bytes([kind]) + key).decode())


def signature_line(name: str, kind: int, key: bytes, signature: bytes) -> str:
    return "\u2014 %s %s\n" % (name, base64.b64encode(key_id(name, kind, key) + signature).decode())


def values(text: str, name: str) -> "list[list[str]]":
    """The words of each line that begins with a name."""
    return [line[len(name) + 1 :].split(" ") for line in text.split("\n") if line.startswith(name + "=")]


def one(text: str, name: str) -> "list[str]":
    (words,) = values(text, name)
    return words


def is_shown(proof: str, file: bytes, log: bytes, submitter: bytes, witnesses: "list[bytes]", quorum: int) -> bool:
    """Whether a proof shows a file. Raises ``ValueError`` for a proof that is none, and as ``notes.open_receipt``."""
    head, tree, path = (proof.split("\n\n") + [""])[:3]
    checksum = digest(digest(file))
    *short, signer, signed = one(head, "leaf")
    if one(head, "version") != ["1" if short else "2"] or bytes.fromhex("".join(short)) != checksum[: 2 * len(short)]:
        return False
    if bytes.fromhex(one(head, "log")[0]) != digest(log) or bytes.fromhex(signer) != digest(submitter):
        return False
    if not ed25519.verify(submitter, b"sigsum.org/v1/tree-leaf\0" + checksum, bytes.fromhex(signed)):
        return False
    origin = "sigsum.org/v1/tree/" + digest(log).hex()
    size, root = one(tree, "size")[0], bytes.fromhex(one(tree, "root_hash")[0])
    note = "%s\n%s\n%s\n\n" % (origin, size, base64.b64encode(root).decode())
    note += signature_line(origin, 1, log, bytes.fromhex(one(tree, "signature")[0]))
    policy = "log %s\n" % verifier(origin, 1, log)
    names = {digest(key).hex(): key for key in witnesses}
    for name, key in names.items():
        policy += "witness %s %s\n" % (name, verifier(name, 4, key))
    for name, time, cosigned in values(tree, "cosignature"):
        if name in names:
            note += signature_line(name, 4, names[name], int(time).to_bytes(8, "big") + bytes.fromhex(cosigned))
    policy += "group all %d %s\nquorum all\n" % (quorum, " ".join(names)) if quorum else "quorum none\n"
    index = one(path, "leaf_index")[0] if path else "0"
    lines = "".join(base64.b64encode(bytes.fromhex(node)).decode() + "\n" for (node,) in values(path, "node_hash"))
    receipt = "c2sp.org/tlog-proof@v1\nindex %s\n%s\n%s" % (index, lines, note)
    return notes.open_receipt(policy, checksum + bytes.fromhex(signed) + digest(submitter), receipt.encode()) is not None


def main() -> None:
    words = argparse.ArgumentParser(description=__doc__)
    words.add_argument("--log", type=bytes.fromhex, required=True)
    words.add_argument("--submitter", type=bytes.fromhex, required=True)
    words.add_argument("--witness", type=bytes.fromhex, action="append", default=[])
    words.add_argument("--quorum", type=int, default=0)
    words.add_argument("proof")
    words.add_argument("file")
    asked = words.parse_args()
    with open(asked.proof, encoding="ascii") as proof, open(asked.file, "rb") as file:
        try:
            shown = is_shown(proof.read(), file.read(), asked.log, asked.submitter, asked.witness, asked.quorum)
        except (ValueError, paxidore.Refused) as why:
            sys.exit("sigsum.py: %s" % (str(why) or type(why).__name__))
    if not shown:
        sys.exit("sigsum.py: the proof does not show the file")


if __name__ == "__main__":
    main()
