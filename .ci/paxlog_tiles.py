"""Checks of paxlog's folders of tiles, beside C2SP's tlog-tiles. .ci/paxlog calls them."""
import base64
import fcntl
import hashlib
import os
import shutil
import signal
import subprocess
import time

import paxlog_cosigning
import paxlog_entries
import paxlog_folders
import paxlog_needs
import paxlog_policies
import paxlog_requests
from paxlog_model import DRAWS, KILLS, LARGEST, PROGRAM, ask, check, read, root, sha, write

SIZES = [size for size in (0, 1, 2, 200, 256, 257, 600, 1024, 65536, 66000) if size <= LARGEST]


class Rows:
    """The digests of each level of the tree of a log that grows."""

    def __init__(self):
        self.rows = [[]]

    def add(self, entry):
        own = sha(b"\0" + entry)
        for level in range(64):
            if level == len(self.rows):
                self.rows.append([])
            self.rows[level].append(own)
            if len(self.rows[level]) % 2:
                return
            own = sha(b"\1" + b"".join(self.rows[level][-2:]))

    def root(self, size):
        """The root of the first entries, of the complete subtrees into which they fall."""
        top = None
        for level in range(64):
            if size >> level & 1:
                own = self.rows[level][(size >> level) - 1]
                top = own if top is None else sha(b"\1" + own + top)
        return sha(b"") if top is None else top

    def tiles(self, size):
        """The names and the bytes of the tiles of the first entries."""
        found = {}
        for level in range(8):
            count = size >> 8 * level
            for index in range((count + 255) // 256):
                width = min(256, count - 256 * index)
                digests = self.rows[8 * level][256 * index : 256 * index + width]
                found[tile_name(level, index, width)] = b"".join(digests)
        return found


def tile_name(level, index, width):
    groups = ["%03d" % (index % 1000)]
    while index >= 1000:
        index //= 1000
        groups.insert(0, "x%03d" % (index % 1000))
    return "tile/%d/%s%s" % (level, "/".join(groups), "" if width == 256 else ".p/%d" % width)


def files_below(folder):
    found = {}
    for at, _, names in os.walk(folder):
        for name in names:
            place = os.path.join(at, name)
            found[os.path.relpath(place, folder)] = read(place)
    return found


def is_audited(folder, verifier, size, top, kept=0):
    """Asks for an audit, which says how many entries are kept."""
    return ask("audit", folder, verifier) == (0, "%d %s\nkept %d\n" % (size, top.hex(), kept), "")


def keys(room, notes):
    name = "example.com/tiles"
    verifier = ask("keygen", name, room + "/key")[1].strip()
    witness = ask("keygen-witness", "example.com/witness", room + "/witness-key")[1].strip()
    check("a witness's key has its own algorithm", base64.b64decode(witness.split("+", 2)[2])[0] == 4)
    cosigner = notes.Key("example.com/witness", 4, base64.b64decode(read(room + "/witness-key").decode().split("+", 4)[4])[1:])
    check("its text", read(room + "/witness-key").decode() == cosigner.signer() + "\n" and witness == cosigner.verifier())
    return verifier, cosigner


def is_served(room, verifier, rows):
    """Grows a log, and compares its folder at each size with the model. Returns its checkpoint at each."""
    log, site, key, seen, served = room + "/log", room + "/site", room + "/key", {}, {}
    size = 0
    for new in SIZES:
        lines = [b"line %d" % number for number in range(size, new)]
        for line in lines:
            rows.add(line)
        write(room + "/lines", b"".join(line + b"\n" for line in lines))
        check("%d entries" % new, ask("append-lines", log, room + "/lines") == (0, "%d\n" % new, ""))
        said = "%d %s\n" % (new, rows.root(new).hex())
        check("tiles of %d" % new, ask("tiles", log, site, "--key", key) == (0, said, ""))
        found = files_below(site)
        note = served[new] = found.pop("checkpoint")
        check("a lock without a byte", found.pop(".lock") == b"")
        check("the checkpoint of %d" % new, note.split(b"\n")[:3] == [b"example.com/tiles", b"%d" % new, base64.b64encode(rows.root(new))])
        seen.update(rows.tiles(new))
        check("the tiles of %d, and no other file" % new, found == seen)
        check("%d is audited" % new, is_audited(site, verifier, new, rows.root(new)))
        check("%d is followed" % new, ask("follow", site, verifier, room + "/state") == (0, said, ""))
        check("the state of %d" % new, read(room + "/state") == note)
        stamps = {name: os.stat(os.path.join(site, name)).st_mtime_ns for name in found}
        check("again, of %d" % new, ask("tiles", log, site, "--key", key) == (0, said, ""))
        check("no tile of %d is written again" % new, stamps == {name: os.stat(os.path.join(site, name)).st_mtime_ns for name in found})
        for index in [DRAWS.randrange(new) for _ in range(min(new, 3))] + [0, new - 1] * (new > 0):
            check("entry %d of %d by tiles" % (index, new), ask("tile-proof", site, verifier, str(index)) == ask("prove", log, str(index)))
        check("no entry behind %d" % new, ask("tile-proof", site, verifier, str(new))[0] == 3)
        size = new
    os.remove(room + "/lines")
    return served


def without(site, name):
    """A copy of a folder that lacks a file, or has other bytes in it."""
    copy = site + ".copy"
    shutil.rmtree(copy, ignore_errors=True)
    shutil.copytree(site, copy)
    return copy, os.path.join(copy, name)


def is_damaged(room, verifier, rows):
    site, size = room + "/site", SIZES[-1]
    state = read(room + "/state")
    for name in rows.tiles(size):
        if DRAWS.randrange(40) and ".p/" not in name and not name.startswith("tile/1/"):
            continue
        copy, place = without(site, name)
        data = read(place)
        at = DRAWS.randrange(len(data))
        write(place, data[:at] + bytes([data[at] ^ 1 << DRAWS.randrange(8)]) + data[at + 1 :])
        check("%s damaged at %d" % (name, at), ask("audit", copy, verifier)[:2] == (1, "no\n"))
        index = at // 32 * 256 ** int(name.split("/")[1])
        said = ask("tile-proof", copy, verifier, str(index))
        check("no proof that does not hold", said[:2] == (5, "") or said == ask("prove", room + "/log", str(index)))
        write(place, data[:-1])
        check("%s cut" % name, ask("audit", copy, verifier) == (5, "", "paxlog: %s: the tile has another length\n" % place))
        os.remove(place)
        status, said, why = ask("audit", copy, verifier)
        check("%s missing" % name, (status, said) == (6, "") and why.startswith("paxlog: %s: " % place))
    # an old partial tile is not needed once the tile is full, and a full one stands for a partial one
    copy, place = without(site, tile_name(0, 0, 200))
    os.remove(place)
    check("an old partial tile", is_audited(copy, verifier, size, rows.root(size)))
    partial = [name for name in rows.tiles(size) if name.startswith("tile/0/") and ".p/" in name][0]
    copy, place = without(site, partial)
    write(place.split(".p/")[0], read(place).ljust(8192, b"\1"))
    os.remove(place)
    check("a full tile for a partial one", is_audited(copy, verifier, size, rows.root(size)))
    copy, place = without(site, "checkpoint")
    note = read(place)
    for bad in (b"", note[:-2], note.replace(b"tiles", b"tile", 1), note + b"\n", note.replace(b"\n", b"\r\n", 1)):
        write(place, bad)
        for words in (("audit", copy, verifier), ("follow", copy, verifier, room + "/state"), ("tile-proof", copy, verifier, "0")):
            status, said, why = ask(*words)
            check("%s: a damaged checkpoint" % words[0], (status, said) == (3, "") and why.startswith("paxlog: "))
    os.remove(place)
    check("no checkpoint", ask("audit", copy, verifier)[0] == 6)
    check("a key that is none", ask("audit", site, "key")[0] == 3)
    check("the state stays", read(room + "/state") == state)
    shutil.rmtree(copy)


def is_witnessed(room, verifier, cosigner, notes, rows):
    site, state = room + "/site", room + "/witness-state"
    check("a witness has a state that a follower made", ask("follow", site, verifier, state)[0] == 0)
    before = int(time.time())
    status, note, why = ask("witness", site, verifier, state, "--key", room + "/witness-key")
    text = note.split("\n\n")[0] + "\n"
    line = note.splitlines(keepends=True)[-1]
    stamp = int.from_bytes(base64.b64decode(line.split(" ")[2])[4:12], "big")
    check("a checkpoint is cosigned", (status, why) == (0, "") and line == cosigner.line(text, stamp))
    check("with the time", before <= stamp <= int(time.time()))
    check("and with the log's signature", note[: -len(line)].encode() == read(site + "/checkpoint"))
    check("by a witness's key alone", ask("witness", site, verifier, state, "--key", room + "/key")[:2] == (3, ""))


def keeps_entries(room, verifier, rows):
    """Entries that are kept are those of the model, and others are refused."""
    site, size = room + "/site", SIZES[-1]
    said = "%d %s\n" % (size, rows.root(size).hex())
    lines, copy = room + "/lines", room + "/kept-site"
    entries = [b"line %d" % number for number in range(size)]
    shutil.copytree(site, copy)
    none = (3, "", "paxlog: the lines are not the entries of the log\n")
    long = (3, "", "paxlog: %s: an entry has more than 65,535 bytes, and cannot be kept\n" % lines)
    for bad, said_of_it in (
        ([b"x" * 65536] + entries[1:], long),
        (entries[:-1], none),
        (entries[:300] + [b"another"] + entries[301:], none),
        (entries[:256] + [b"x" * 65536] + entries[257:], long),
    ):
        write(lines, b"\n".join(bad) + b"\n")
        check("other lines are not kept", ask("keep", copy, verifier, lines, "--from", 0) == said_of_it)
    write(lines, b"\n".join(entries) + b"\n")
    for _ in range(2):
        check("entries are kept", ask("keep", copy, verifier, lines) == (0, said, ""))
        check("and audited", is_audited(copy, verifier, size, rows.root(size), size))
    for index in range((size + 255) // 256):
        own = entries[256 * index : 256 * index + 256]
        place = copy + "/" + tile_name(0, index, len(own)).replace("tile/0", "tile/entries")
        bundle = b"".join(len(entry).to_bytes(2, "big") + entry for entry in own)
        check("bundle %d" % index, read(place) == bundle)
        if index % 50 == 7:
            at = DRAWS.randrange(len(bundle))
            for bad in (bundle[:at] + bytes([bundle[at] ^ 4]) + bundle[at + 1 :], bundle[:-1], bundle + b"\0", b""):
                write(place, bad)
                check("a damaged bundle", ask("audit", copy, verifier)[:2] == (1, "no\n"))
            os.remove(place)
            check("a missing bundle", is_audited(copy, verifier, size, rows.root(size), 256 * index))
            write(place, bundle)
    shutil.rmtree(copy), os.remove(lines)


def has_receipts(room, verifier, rows):
    """Receipts are those of the model, and show their entries alone."""
    site, log, size = room + "/site", room + "/log", SIZES[-1]
    note = read(site + "/checkpoint")
    said = "%d %s\n" % (size, rows.root(size).hex())
    entry, place = room + "/entry", room + "/receipt"
    for index in [index for index in (0, 255, 256, 65536) if index < size] + [size - 1]:
        path = bytes.fromhex(ask("prove", log, str(index))[1])
        lines = b"".join(base64.b64encode(path[at : at + 32]) + b"\n" for at in range(0, len(path), 32))
        receipt = b"c2sp.org/tlog-proof@v1\nindex %d\n%s\n%s" % (index, lines, note)
        check("the receipt of %d" % index, ask("receipt", site, verifier, str(index)) == (0, receipt.decode(), ""))
        write(entry, b"line %d" % index)
        write(place, receipt)
        check("it is accepted", ask("verify-receipt", verifier, entry, place) == (0, said, ""))
        check("of its origin alone", ask("verify-receipt", verifier, entry, place, "another")[:2] == (1, "no\n"))
        write(entry, b"line %d " % index)
        check("of no other entry", ask("verify-receipt", verifier, entry, place) == (1, "no\n", ""))
        write(entry, b"line %d" % index)
        for _ in range(40):
            at = DRAWS.randrange(len(receipt))
            write(place, receipt[:at] + bytes([receipt[at] ^ 1 << DRAWS.randrange(8)]) + receipt[at + 1 :])
            check("damaged at %d" % at, ask("verify-receipt", verifier, entry, place)[:2] == (1, "no\n"))
        none = (1, "no\n", "paxlog: the receipt is none\n")
        for bad in (b"", receipt[:60], receipt.replace(b"index ", b"index 0", 1), receipt.replace(b"\n", b"\r\n", 1), lines + receipt):
            write(place, bad)
            check("no receipt", ask("verify-receipt", verifier, entry, place) == none)
        write(place, receipt.replace(lines, lines * 9, 1))
        check("too many digests", ask("verify-receipt", verifier, entry, place)[:2] == (1, "no\n"))
    check("no receipt behind the end", ask("receipt", site, verifier, str(size))[:2] == (3, ""))
    os.remove(entry), os.remove(place)


def shows_a_fork(proof, old, new):
    """The words that are kept show that the log of the new note has another root of the old size than the old note."""
    words = proof.split(" ")
    check("five words, and a line's end", len(words) == 5 and proof.count("\n") == 1 and proof.endswith("\n"))
    size, top = (old.split(b"\n")[at].decode() for at in (1, 2))
    check("another root of the old size", words[0] == size and bytes.fromhex(words[1]) != base64.b64decode(top))
    size, top = (new.split(b"\n")[at].decode() for at in (1, 2))
    check("the new size and root", words[2] == size and bytes.fromhex(words[3]) == base64.b64decode(top))
    check("anyone can check it", ask("verify-consistency", *words[:4], words[4].strip()) == (0, "yes\n", ""))


def is_forked(room, verifier, cosigner, rows):
    """Another log by the same key: neither a follower nor a witness takes it, and both notes stay."""
    state = read(room + "/state")
    other, copy = room + "/other", room + "/other-site"
    for size in (SIZES[-1], SIZES[-1] + 1):
        write(room + "/lines", b"another\n" + b"".join(b"line %d\n" % number for number in range(1, size)))
        ask("append-lines", other, room + "/lines")
        check("another log of %d" % size, ask("tiles", other, copy, "--key", room + "/key")[0] == 0)
        note = read(copy + "/checkpoint")
        status, said, why = ask("follow", copy, verifier, room + "/state")
        check("a fork at %d" % size, (status, said, why) == (8, "", "paxlog: %s: the log does not continue the one that it was\n" % copy))
        check("both notes of %d" % size, (read(room + "/state"), read(room + "/state.fork")) == (state, note))
        if size == SIZES[-1]:
            check("of one size two notes are enough", not os.path.exists(room + "/state.fork-proof"))
        else:
            shows_a_fork(read(room + "/state.fork-proof").decode(), state, note)
        said = ask("witness", copy, verifier, room + "/witness-state", "--key", room + "/witness-key")
        check("no cosignature of it", said[:2] == (8, ""))
        check("a folder of another log", ask("tiles", room + "/log", copy, "--key", room + "/key")[0] == (8 if size == SIZES[-1] else 3))
        os.remove(other), shutil.rmtree(copy)
    write(room + "/lines", b"line 0\nline 1\n")
    ask("append-lines", other, room + "/lines"), ask("tiles", other, copy, "--key", room + "/key")
    shrunk = (3, "", "paxlog: %s: the log has fewer entries than it had\n" % copy)
    check("a log that shrank", ask("follow", copy, verifier, room + "/state") == shrunk)
    check("no cosignature of a smaller log", ask("witness", copy, verifier, room + "/witness-state", "--key", room + "/witness-key") == shrunk)
    check("a larger folder", ask("tiles", other, room + "/site", "--key", room + "/key")[0] == 3)
    check("the state stays", read(room + "/state") == state)
    with open(room + "/state.lock", "rb") as file:
        fcntl.flock(file, fcntl.LOCK_EX)
        check("two followers of one state", ask("follow", room + "/site", verifier, room + "/state")[0] == 4)


def is_killed_within(room, verifier, rows):
    """Kills the writer of a folder: what it leaves is audited as that of before or after."""
    log, site = room + "/killed", room + "/killed-site"
    sizes = {}
    for turn in range(max(KILLS // 6, 6)):
        write(room + "/lines", b"".join(b"%d of %d\n" % (number, turn) for number in range(DRAWS.randrange(1, 700))))
        ask("append-lines", log, room + "/lines")
        said = ask("root", log)[1]
        ran = subprocess.Popen([PROGRAM, "tiles", log, site, "--key", room + "/key"], stdout=subprocess.DEVNULL, stderr=subprocess.DEVNULL)
        time.sleep(DRAWS.random() * 0.03)
        ran.send_signal(signal.SIGKILL)
        ran.wait()
        if os.path.exists(site + "/checkpoint"):
            status, facts, _ = ask("audit", site, verifier)
            head = facts.removesuffix("kept 0\n")
            check("killed: the folder of before or after", status == 0 and head != facts and (head == said or head in sizes))
            check("killed: it is followed", ask("follow", site, verifier, room + "/killed-state")[:2] == (status, head))
        if DRAWS.randrange(2):
            check("it is finished", ask("tiles", log, site, "--key", room + "/key") == (0, said, ""))
        sizes[said] = True
    shutil.rmtree(site, ignore_errors=True)


def goes_in_order(room, verifier):
    """Each file is synced before it gets its name, and the checkpoint comes last."""
    if not shutil.which("strace"):
        return
    log, site, seen = room + "/ordered", room + "/ordered-site", room + "/trace"
    write(room + "/lines", b"x\n" * 300)
    ask("append-lines", log, room + "/lines")
    trace = ["strace", "-f", "-o", seen, "-e", "trace=openat,write,fsync,rename,renameat,renameat2"]
    subprocess.run([*trace, PROGRAM, "tiles", log, site, "--key", room + "/key"], stdout=subprocess.DEVNULL)
    calls = [line.split(None, 1)[1] for line in read(seen).decode().splitlines()]
    renames = [at for at, call in enumerate(calls) if call.startswith("rename")]
    check("each file is renamed", len(renames) == 4 and "checkpoint" in calls[renames[-1]])
    for before, at in zip([-1, *renames], renames):
        own = [call.split("(")[0] for call in calls[before + 1 : at] if not call.startswith("openat")]
        check("and synced before", own[-1] == "fsync" and "write" in own)
    check("the folder is synced behind", [call.split("(")[0] for call in calls[renames[-1] + 1 :]][:2] == ["openat", "fsync"])
    for fault in ("write:error=ENOSPC:when=2", "fsync:error=EIO:when=3", "rename:error=EIO:when=2"):
        shutil.rmtree(site), os.remove(seen)
        calls = ["strace", "-o", seen, "-e", "trace=" + fault.split(":")[0], "-e", "inject=" + fault]
        ran = subprocess.run([*calls, PROGRAM, "tiles", log, site, "--key", room + "/key"], stdout=subprocess.PIPE, stderr=subprocess.PIPE)
        check("no checkpoint after %s" % fault, (ran.returncode, ran.stdout) == (6, b"") and not os.path.exists(site + "/checkpoint"))
        check("and then it is made", ask("tiles", log, site, "--key", room + "/key")[0] == 0 and ask("audit", site, verifier)[0] == 0)
    os.remove(seen), shutil.rmtree(site)


def serves_tiles(room, notes):
    room = room + "/tiles"
    os.mkdir(room)
    verifier, cosigner = keys(room, notes)
    paxlog_folders.signs_sound_tiles(room, verifier)
    paxlog_folders.writes_what_lacks(room, verifier)
    paxlog_folders.follows_no_link(room, verifier)
    paxlog_folders.names_are_there(room, verifier)
    paxlog_folders.reads_regular_files(room, verifier)
    paxlog_folders.locks_folders(room, verifier)
    paxlog_folders.works_while_others_append(room, verifier)
    paxlog_folders.needs_a_state(room, verifier, notes)
    paxlog_policies.asks_by_policy(room, verifier, notes)
    paxlog_cosigning.joins_cosignatures(room, verifier, notes)
    paxlog_requests.replies(room, verifier, cosigner, notes)
    paxlog_requests.many_logs(room, cosigner, notes)
    paxlog_folders.is_on_the_disk(room, verifier)
    paxlog_folders.keys_are_secret(room)
    paxlog_entries.keeps_entries_of_any_bytes(room, verifier, notes)
    rows = Rows()
    served = is_served(room, verifier, rows)
    paxlog_needs.names_what_is_missing(room, verifier, served)
    is_damaged(room, verifier, rows)
    is_witnessed(room, verifier, cosigner, notes, rows)
    keeps_entries(room, verifier, rows)
    has_receipts(room, verifier, rows)
    is_forked(room, verifier, cosigner, rows)
    is_killed_within(room, verifier, rows)
    goes_in_order(room, verifier)
    shutil.rmtree(room)
