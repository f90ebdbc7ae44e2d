"""Checks of cosignatures that paxlog puts to a folder's checkpoint. .ci/paxlog_tiles.py calls them."""
import fcntl
import hashlib
import os
import shutil

from paxlog_folders import grown, said_of
from paxlog_model import ask, check, read, write


def joins_cosignatures(room, verifier, notes):
    """Those of a policy's witnesses are joined, each once, and stay until the log has another entry."""
    log, site = grown(room, "joined", 0, 5)
    place, policy, first, second = site + "/checkpoint", room + "/joined-policy", room + "/first", room + "/second"
    note = read(place).decode()
    text = note.split("\n\n")[0] + "\n"
    one, two, three = (notes.Key("witness.example/%d" % n, 4, hashlib.sha256(b"%d" % n).digest()) for n in (1, 2, 3))
    lines = "log %s\nwitness one %s\nwitness two %s\ngroup both 2 one two\nquorum both\n" % (verifier, one.verifier(), two.verifier())
    write(policy, lines.encode())
    said, junk = (0, said_of(5), ""), "\u2014 witness.example/4 " + "A" * 20 + "\n"

    def cosign(*files):
        return ask("cosign", site, "--policy", policy, *files)

    def has(*lines):
        return read(place).decode() == note + "".join(lines)

    early, late = one.line(text, 1700000000), one.line(text, 1700000100)
    other = two.line(text, 1700000000)
    write(first, (note + early + three.line(text, 1700000000) + junk).encode())
    write(second, (text + "\n" + other).encode())
    check("a cosignature is joined, and those of strangers are not", cosign(first) == said and has(early))
    check("it is once there", cosign(first) == said and has(early))
    check("it is few", ask("verify-checkpoint", "--policy", policy, place)[:2] == (1, "no\n"))
    check("another is joined, of a note that the log did not sign", cosign(second) == said and has(early, other))
    check("they are a quorum", ask("verify-checkpoint", "--policy", policy, place) == said)
    write(first, (note + late).encode())
    check("a later one takes the place", cosign(second, first, "--wait", 1) == said and has(other, late))
    check("they stay", ask("tiles", log, site, "--key", room + "/key") == said and has(other, late))
    whole = read(place)
    for bad, why in (
        (note, "the key did not sign the note"),
        (note + three.line(text, 1700000000), "the key did not sign the note"),
        (note + one.line(text + "more\n", 1700000000), "a signature by the key does not hold"),
        (text + "more\n\n" + one.line(text + "more\n", 1700000000), "the note is of another checkpoint"),
        (text, "the note has no signature"),
        ("", "the note has no signature"),
    ):
        write(first, bad.encode())
        refused = (3, "", "paxlog: %s: %s\n" % (first, why))
        check("no cosignature: %s" % why, cosign(second, first) == refused and read(place) == whole)
    check("no FILE", ask("cosign", site, "--policy", policy)[:2] == (2, ""))
    check("no such FILE", cosign(second, room + "/none")[:2] == (6, "") and read(place) == whole)
    with open(site + "/.lock", "rb") as file:
        fcntl.flock(file, fcntl.LOCK_EX)
        check("another writes the folder", cosign(second)[:2] == (4, ""))
    write(first, (note + early).encode())
    write(room + "/lines", b"one more\n")
    ask("append-lines", log, room + "/lines")
    check("a new checkpoint has none", ask("tiles", log, site, "--key", room + "/key")[0] == 0 and read(place).count(b"\n\xe2\x80\x94") == 1)
    check("and takes none of the old one", cosign(first)[:2] == (3, ""))
    shutil.rmtree(site), os.remove(log), os.remove(policy), os.remove(first), os.remove(second)
