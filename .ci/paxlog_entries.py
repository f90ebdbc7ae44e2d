"""Entries of any bytes that a folder keeps: as they are appended, and behind it. .ci/paxlog_tiles.py calls these checks."""
import base64
import os
import re
import resource
import shutil
import subprocess

from paxlog_folders import DAMAGED
from paxlog_model import DRAWS, KILLS, PROGRAM, ask, check, read, root, sha, write

LONG = "paxlog: %s: an entry has more than 65,535 bytes, and cannot be kept\n"
BEHIND = "paxlog: %s: the folder lacks entries of the log: `paxlog keep` keeps them\n"


def framed(entries):
    """Entries as bundles have them."""
    return b"".join(len(entry).to_bytes(2, "big") + entry for entry in entries)


def bundle_name(index, width):
    return "tile/entries/%03d%s" % (index, "" if width == 256 else ".p/%d" % width)


def bundles(entries):
    """The names and the bytes of the bundles of a log of these entries."""
    found = {}
    for first in range(0, len(entries), 256):
        own = entries[first : first + 256]
        found[bundle_name(first // 256, len(own))] = framed(own)
    return found


def are_kept(site, entries):
    return all(os.path.exists(site + "/" + name) and read(site + "/" + name) == data for name, data in bundles(entries).items())


def facts(entries, kept):
    top = root([sha(b"\0" + entry) for entry in entries])
    return (0, "%d %s\nkept %d\n" % (len(entries), top.hex(), kept), "")


def drawn(count):
    """Entries as certificates are: of any bytes, some of no byte or of the most that a bundle can have."""
    some = [b"", b"\n", b"\0", b"a\nb\n", b"\r\n\r\n", b"\0\0\0", b"\xff" * 255, b"\n" * 256]
    found = [DRAWS.choice(some) if DRAWS.randrange(3) == 0 else b"\x30\x82" + DRAWS.randbytes(DRAWS.randrange(99)) for _ in range(count)]
    return found[:-1] + [DRAWS.randbytes(65535)] if count == 3 else found


def files_of(room, entries):
    """A file for each entry."""
    names = []
    for number, entry in enumerate(entries):
        names.append("%s/entry-%d" % (room, number))
        write(names[-1], entry)
    return names


def keeps_any_bytes(room, verifier):
    """Entries of any bytes are kept as they are appended, published, audited and shown."""
    log, site, key, grown = room + "/bytes", room + "/bytes-site", room + "/key", []
    for count in (1, 2, 250, 3, 300, 212, 1):
        entries = drawn(count)
        names = files_of(room, entries)
        grown += entries
        check("%d entries of any bytes" % count, ask("append", log, "--keep", site, *names) == (0, "%d\n" % len(grown), ""))
        check("they are kept before a checkpoint is written", are_kept(site, grown) and not (count == 1 and len(grown) == 1 and os.path.exists(site + "/checkpoint")))
        check("they are published", ask("tiles", log, site, "--key", key)[0] == 0)
        check("and audited", ask("audit", site, verifier) == facts(grown, len(grown)))
        index = DRAWS.randrange(len(grown))
        write(room + "/entry", grown[index])
        write(room + "/receipt", ask("receipt", site, verifier, str(index))[1].encode())
        check("entry %d is shown" % index, ask("verify-receipt", verifier, room + "/entry", room + "/receipt")[0] == 0)
    write(names[0], b"y" * 65536)
    before, found = read(log), sorted(os.walk(site))
    for words in (["append", log, "--keep", site, room + "/entry", names[0]], ["append-lines", log, "--keep", site, names[0]], ["append-lines", log, "--keep", site, "--batch", "5", names[0]]):
        check("%s: an entry of 65,536 bytes" % words[0], ask(*words) == (3, "", LONG % names[0]))
        check("nothing is written", read(log) == before and sorted(os.walk(site)) == found)
    ran = subprocess.run([PROGRAM, "append", log, "--keep", site, "-"], input=b"of\nthe input", stdout=subprocess.PIPE)
    grown.append(b"of\nthe input")
    check("standard input", ran.returncode == 0 and are_kept(site, grown))
    write(names[0], b"one\n\ntwo")
    check("lines", ask("append-lines", log, "--keep", site, names[0]) == (0, "%d\n" % (len(grown) + 3), ""))
    grown += [b"one", b"", b"two"]
    check("and batches of them", ask("append-lines", log, "--batch", 2, "--keep", site, names[0])[1] == "%d\n%d\n" % (len(grown) + 2, len(grown) + 3))
    grown += [b"one", b"", b"two"]
    check("are kept", are_kept(site, grown))
    return log, site, grown


def goes_on(room, verifier, log, site, grown):
    """What is kept goes on from where it stands; a log that is ahead of it is told, and the gap can be closed."""
    key, lines, whole = room + "/key", room + "/lines", framed(grown)
    write(lines, b"another\n" * 300)
    check("a log is ahead", ask("append-lines", log, lines)[0] == 0)
    grown = grown + [b"another"] * 300
    before = read(log)
    for words in (["append"], ["append-lines"], ["append-lines", "--batch", "2"]):
        said = ask(words[0], log, "--keep", site, *words[1:], lines)
        check("%s: it is told" % words[0], said == (3, "", BEHIND % site) and read(log) == before)
    check("it is published", ask("tiles", log, site, "--key", key)[0] == 0)
    first = len(grown) - 300
    kept = first // 256 * 256
    check("and audited", ask("audit", site, verifier) == facts(grown, kept))
    said = (0, facts(grown, 0)[1].split("\n")[0] + "\n", "")
    other, none = room + "/other-entries", "paxlog: the %s are not the entries of the log\n"
    write(other, b"another\n" * 299)
    check("too few lines", ask("keep", site, verifier, lines, "--from", first + 1) == (3, "", BEHIND % site) and ask("keep", site, verifier, other, "--from", first) == (3, "", none % "lines"))
    check("from behind the end", ask("keep", site, verifier, lines, "--from", len(grown) + 1) == (3, "", BEHIND % site))
    names = files_of(room, grown[first:])
    check("files", ask("keep-files", site, verifier, "--origin", "another", *names, "--from", first)[0] == 3)
    gone = ask("keep-files", site, verifier, names[0], room + "/gone", "--from", first)
    check("a file that is missing", gone == (6, "", "paxlog: %s/gone: No such file or directory (os error 2)\n" % room))
    check("too few files", ask("keep-files", site, verifier, *names[1:], "--from", first) == (3, "", none % "files"))
    copies = {}
    for words in (
        ["keep", site, verifier, lines, "--from", first],
        ["keep-files", site, verifier, *names, "--from", first],
        ["keep-files", site, verifier, "--origin", "example.com/tiles", *names, "--from", first],
        ["keep-bundles", site, verifier, other, "--from", first],
        ["keep-bundles", site, verifier, other],
        ["keep-bundles", site, verifier, other, "example.com/tiles", "--from", 0],
    ):
        copy = room + "/goes-on"
        shutil.copytree(site, copy)
        words[1] = copy
        write(other, framed(grown[first:] if "--from" in words and words[-1] else grown))
        check("the gap is closed: %s" % words[0], ask(*words) == said and ask("audit", copy, verifier) == facts(grown, len(grown)))
        check("and so it stays", ask(*words) == said and are_kept(copy, grown))
        shutil.rmtree(copy)
    copy = room + "/goes-on"
    shutil.copytree(site, copy)
    write(other, framed(grown)[:-1])
    check("bytes that end early", ask("keep-bundles", copy, verifier, other) == (3, "", "paxlog: %s: the bytes end within an entry\n" % other))
    write(other, framed(grown[:-1]))
    check("too few entries", ask("keep-bundles", copy, verifier, other) == (3, "", none % "entries"))
    write(other, framed(grown))
    limits = (1 << 24, 1 << 24)
    lacking = {} if "UNPROVED" in os.environ else {"preexec_fn": lambda: resource.setrlimit(resource.RLIMIT_AS, limits)}
    ran = subprocess.run([PROGRAM, "keep-bundles", copy, verifier, "-"], stdin=open(other, "rb"), stdout=subprocess.PIPE, **lacking)
    check("standard input, in 16 MiB", ran.returncode == 0 and are_kept(copy, grown))
    if shutil.which("strace"):
        seen = room + "/trace"
        ran = subprocess.run(["strace", "-o", seen, "-e", "trace=openat", PROGRAM, "keep-bundles", copy, verifier, other], stdout=subprocess.PIPE)
        opened = [line for line in read(seen).decode().splitlines() if "/tile/entries/" in line and "O_DIRECTORY" not in line]
        read_ones = {re.search(r'entries/([^"]*)"', line).group(1) for line in opened if ".p" in line or re.search(r'entries/\d+"', line)}
        check("one whole bundle is read and compared: %s" % sorted(read_ones), len([name for name in read_ones if ".p" not in name]) <= 1)
        os.remove(seen)
    # what was kept before, and is another, is written again from where it is asked to
    damaged = copy + "/" + bundle_name(0, 256)
    data = read(damaged)
    write(damaged, data[:-1] + bytes([data[-1] ^ 1]))
    check("a bundle that is another", ask("audit", copy, verifier)[:2] == (1, "no\n"))
    check("it is mended", ask("keep-bundles", copy, verifier, other, "--from", 0) == said and read(damaged) == data)
    check("and goes on", ask("append", log, "--keep", copy, other, lines)[0] == 3 and ask("append", log, "--keep", copy, lines)[0] == 0)
    check("with all of it", are_kept(copy, grown + [read(lines)]))
    shutil.rmtree(copy), shutil.rmtree(site), os.remove(log), os.remove(other)


def leads_to_the_root(room, notes):
    """Nothing is kept below a checkpoint to whose root the tiles do not lead."""
    log, site, key, lines = room + "/led", room + "/led-site", room + "/key", room + "/lines"
    write(lines, b"".join(b"%d\n" % number for number in range(600)))
    ask("append-lines", log, lines), ask("tiles", log, site, "--key", key)
    seed = base64.b64decode(read(key).decode().split("+", 4)[4])[1:]
    signer = notes.Key("example.com/tiles", 1, seed)
    for size, top in ((600, sha(b"another")), (599, sha(b"another")), (300, sha(b"another")), (1, sha(b"another"))):
        text = notes.checkpoint("example.com/tiles", size, top)
        write(site + "/checkpoint", (text + "\n" + signer.line(text)).encode())
        follows = ask("follow", site, signer.verifier(), room + "/led-state")
        for words in (["keep", site, signer.verifier(), lines], ["keep", site, signer.verifier(), lines, "--from", 0], ["keep-files", site, signer.verifier(), lines]):
            check("%s below another root, of %d" % (words[0], size), ask(*words) == follows and follows[0] in (5, 6))
        check("nothing is kept", not os.path.exists(site + "/tile/entries"))
    check("as the others say it", follows == (5, "", DAMAGED % site) or follows[0] == 6)
    shutil.rmtree(site), os.remove(log)


def is_cut_off(room, verifier):
    """Whatever call is the last that is done, or is refused: no entry of the log is not kept, and the next append goes on."""
    if not shutil.which("strace"):
        return
    log, site, key = room + "/cut-log", room + "/cut-site", room + "/key"
    left, more = [b"%d" % number for number in range(254)], [b"\0", b"one\n", b"", b"x"]
    names, behind = files_of(room, more), room + "/behind"
    write(behind, b"two\n\0"), write(room + "/lines", b"\n".join(left))
    check("a log and its entries", ask("append-lines", log, "--keep", site, room + "/lines")[0] == 0 and ask("tiles", log, site, "--key", key)[0] == 0)
    os.rename(site, site + ".whole")
    whole = read(log)
    for call in ("openat", "mkdir", "write", "fsync", "rename", "pwrite64"):
        for how in ("signal=KILL", "error=EIO"):
            for number in range(1, 40):
                shutil.rmtree(site, ignore_errors=True), shutil.copytree(site + ".whole", site), write(log, whole)
                trace = ["strace", "-o", "/dev/null", "-e", "trace=" + call, "-e", "inject=%s:%s:when=%d" % (call, how, number)]
                ran = subprocess.run([*trace, PROGRAM, "append", log, "--keep", site, *names], stdout=subprocess.PIPE, stderr=subprocess.PIPE)
                size = int(ask("root", log)[1].split(" ")[0])
                grown, what = left + more * (size > 254), "%s %d, %s" % (call, number, how)
                check(what + ": the log is that before or after, and kept", size in (254, 258) and are_kept(site, grown))
                if ran.returncode == 0:
                    break
                check(what + ": the checkpoint stays", read(site + "/checkpoint") == read(site + ".whole/checkpoint"))
                grown = grown + [b"two\n\0"]
                check(what + ": it goes on", ask("append", log, "--keep", site, behind)[:2] == (0, "%d\n" % len(grown)) and are_kept(site, grown))
                if number % 6 == 2:
                    check(what + ": it is published", ask("tiles", log, site, "--key", key)[0] == 0)
                    check(what + ": with all that is kept", ask("audit", site, verifier) == facts(grown, len(grown)))
            check("%s %s: all calls" % (call, how), number < 39)
    shutil.rmtree(site), shutil.rmtree(site + ".whole"), os.remove(log), os.remove(behind)


def goes_in_order(room):
    """An entry's bundle has its name, and that is on the disk, before the log has the entry and before its checkpoint is written."""
    if not shutil.which("strace"):
        return
    log, site, seen, lines = room + "/order-log", room + "/order-site", room + "/trace", room + "/lines"
    write(lines, b"".join(b"%d\n" % number for number in range(600)))
    words = ["append-lines", log, "--keep", site, "--batch", "200", "--publish", site, "--key", room + "/key", lines]
    trace = ["strace", "-f", "-y", "-o", seen, "-e", "trace=fsync,rename,renameat,renameat2,pwrite64"]
    check("a stream that keeps", subprocess.run([*trace, PROGRAM, *words], stdout=subprocess.PIPE).stdout == b"200\n400\n600\n")
    calls = [line.split(None, 1)[1] for line in read(seen).decode().splitlines() if "(" in line]
    known, size, durable = set(), 0, set()
    for call in calls:
        place = re.findall(r'[<"](/[^>"]*)[>"]', call)
        if call.startswith("rename"):
            name = os.path.relpath(place[-1], site)
            known.add(name)
            if name == "checkpoint":
                size += 200
                check("the bundles of %d are on the disk" % size, set(bundles([b""] * size)) <= durable)
        elif call.startswith("fsync") and place:
            durable |= {name for name in known if os.path.dirname(site + "/" + name) == place[0].rstrip("/")}
        elif call.startswith("pwrite64") and place and place[0] == log and re.search(r", (\d+)\)", call):
            at = int(re.search(r", (\d+)\)\s*=", call).group(1))
            if at >= 8192:
                check("kept before it is appended", set(bundles([b""] * (size + 200))) <= durable)
    check("three checkpoints", size == 600)
    os.remove(seen), os.remove(log), shutil.rmtree(site)


def is_killed(room, verifier):
    """A stream that keeps and publishes is killed: what the log has is kept, and what comes next goes on from there."""
    log, site, key, size = room + "/killed-log", room + "/killed-entries", room + "/key", 0
    lines = [b"%d" % number for number in range(60 * KILLS + 1000)]
    for _turn in range(max(KILLS // 6, 6)):
        words = ["append-lines", log, "--keep", site, "--batch", str(DRAWS.randrange(1, 40)), "--publish", site, "--key", key, "-"]
        ran = subprocess.Popen([PROGRAM, *words], stdin=subprocess.PIPE, stdout=subprocess.PIPE, stderr=subprocess.PIPE)
        os.write(ran.stdin.fileno(), b"".join(line + b"\n" for line in lines[size : size + 60]))
        try:
            ran.wait(DRAWS.random() / 8)
        except subprocess.TimeoutExpired:
            ran.kill()
        ran.communicate()
        size = int(ask("root", log)[1].split(" ")[0]) if os.path.exists(log) and os.path.getsize(log) else 0
        check("what the log has is kept", are_kept(site, lines[:size]))
        if os.path.exists(site + "/checkpoint"):
            stated = int(read(site + "/checkpoint").split(b"\n")[1])
            check("and what the checkpoint covers", ask("audit", site, verifier) == facts(lines[:stated], stated))
    shutil.rmtree(site, ignore_errors=True), os.remove(log)


def keeps_at_once(room, verifier):
    """Many append and keep, one publishes, and one keeps, at once."""
    log, site, key = room + "/many-log", room + "/many-site", room + "/key"
    names = files_of(room, [b"%d\n" % number for number in range(24)])
    ask("append", log, "--keep", site, names[0]), ask("tiles", log, site, "--key", key)
    write(room + "/first", framed([b"0\n"]))
    ran = []
    for name in names[1:]:
        ran.append(subprocess.Popen([PROGRAM, "append", log, "--keep", site, "--wait", "60", name], stdout=subprocess.PIPE, stderr=subprocess.PIPE))
        ran.append(subprocess.Popen([PROGRAM, "tiles", log, site, "--key", key, "--wait", "60"], stdout=subprocess.PIPE, stderr=subprocess.PIPE))
    said = [process.communicate() + (process.returncode,) for process in ran]
    check("all are appended", all(status == 0 for _, _, status in said[::2]))
    # a signature is put off for ten seconds at most while others append
    check("all are published, or told that others append", all(status in (0, 4) for _, _, status in said[1::2]))
    order = sorted((int(out), number) for number, (out, _, _) in enumerate(said[::2], 1))
    grown = [b"0\n"] + [b"%d\n" % number for _, number in order]
    check("all is kept", are_kept(site, grown) and ask("tiles", log, site, "--key", key)[0] == 0)
    check("and audited", ask("audit", site, verifier) == facts(grown, 24))
    shutil.rmtree(site), os.remove(log)


def keeps_entries_of_any_bytes(room, verifier, notes):
    room = room + "/entries"
    os.mkdir(room)
    shutil.copy(os.path.dirname(room) + "/key", room + "/key")
    goes_on(room, verifier, *keeps_any_bytes(room, verifier))
    leads_to_the_root(room, notes)
    goes_in_order(room)
    is_cut_off(room, verifier)
    is_killed(room, verifier)
    keeps_at_once(room, verifier)
    shutil.rmtree(room)
