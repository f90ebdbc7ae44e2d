"""Prints the lines of go.sum for a version of a module, where they are in the tree that a checksum database signed, as Go's command looks
them up: gosum.py [--key KEY] ADDRESS STATE MODULE VERSION. STATE keeps the last tree, so that the database cannot take a line back. For
instance `gosum.py https://sum.golang.org state golang.org/x/mod v0.17.0`."""
import argparse
import re
import sys
import urllib.request

import paxidore
from paxidore import notes

words = argparse.ArgumentParser(description=__doc__)
words.add_argument("--key", default="sum.golang.org+033de0ae+Ac4zctda0e5eza+HJyk9SxEdh+s3Ux18htTTAD8OuAn8")
for name in ("address", "state", "module", "version"):
    words.add_argument(name)
asked = words.parse_args()


def fetch(name: str) -> bytes:
    with urllib.request.urlopen(asked.address.rstrip("/") + "/" + name, timeout=30) as answer:
        data: bytes = answer.read(1_000_000)
    return data


def as_of_a_log(name: str) -> bytes:
    # the checkpoint and the tiles of C2SP's logs, by the names that they have here
    return fetch("latest" if name == "checkpoint" else name.replace("tile/", "tile/8/", 1))


# a name in capitals would be another file on some disks
module = re.sub("[A-Z]", lambda letter: "!" + letter[0].lower(), asked.module)
number, record = fetch("lookup/%s@%s" % (module, asked.version)).split(b"\n", 1)
lines = record.split(b"\n\n", 1)[0] + b"\n"
head = paxidore.follow(as_of_a_log, notes.policy_of(asked.key), asked.state, origin="go.sum database tree")
path = paxidore.prove_inclusion(as_of_a_log, head, int(number))
if not paxidore.Log.verify_inclusion(head.root, head.size, int(number), lines, path):
    sys.exit("gosum.py: the database does not show its lines")
if not all(line.startswith(("%s %s" % (asked.module, asked.version)).encode()) for line in lines.splitlines()):
    sys.exit("gosum.py: the lines are of another module")
sys.stdout.write(lines.decode())
