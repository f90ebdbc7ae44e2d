"""Checks of what paxlog's folders and states are when a log is damaged, a stranger made a file, a process is at work, or the power fails.
.ci/paxlog_tiles.py calls them."""
import base64
import fcntl
import hashlib
import os
import shutil
import subprocess
import time

from paxlog_model import PROGRAM, ask, check, read, root, sha, write

DAMAGED = "paxlog: %s: a digest of the log is damaged\n"


def grown(room, name, first, end, key="key"):
    """Appends lines to a log, and writes its folder."""
    log, site = room + "/" + name, room + "/" + name + "-site"
    write(room + "/lines", b"".join(b"line %d\n" % number for number in range(first, end)))
    ask("append-lines", log, room + "/lines")
    check("a folder of %d" % end, ask("tiles", log, site, "--key", room + "/" + key)[0] == 0)
    return log, site


def top_of(count):
    return root([sha(b"\0line %d" % number) for number in range(count)])


def said_of(count):
    return "%d %s\n" % (count, top_of(count).hex())


def audited(count, kept):
    """Returns what an audit says of a folder that keeps so many entries."""
    return (0, said_of(count) + "kept %d\n" % kept, "")


def flipped(name, at):
    data = read(name)
    write(name, data[:at] + bytes([data[at] ^ 1]) + data[at + 1 :])


def stored_at(level, place):
    """Where a log's file has a digest."""
    last = (place + 1 << level) - 1
    return 8192 + 32 * (2 * last - bin(last).count("1") + level)


def signs_sound_tiles(room, verifier):
    """No checkpoint is signed above tiles that do not lead to its root."""
    log, site = grown(room, "sound", 0, 300)
    note, whole = read(site + "/checkpoint"), read(log)
    for level, place, holds in ((0, 5, False), (8, 0, False), (3, 4, True)):
        flipped(log, stored_at(level, place))
        new = room + "/sound-new"
        said = ask("tiles", log, new, "--key", room + "/key")
        right = (0, said_of(300), "") if holds else (5, "", DAMAGED % log)
        check("a log with digest %d of level %d damaged" % (place, level), said == right and os.path.exists(new + "/checkpoint") == holds)
        shutil.rmtree(new, ignore_errors=True)
        write(log, whole)
    write(room + "/lines", b"".join(b"line %d\n" % number for number in range(300, 600)))
    ask("append-lines", log, room + "/lines")
    for level, place in ((0, 400), (0, 590), (8, 1)):
        flipped(log, stored_at(level, place))
        check("what is new is damaged", ask("tiles", log, site, "--key", room + "/key") == (5, "", DAMAGED % log))
        check("the old checkpoint stays", read(site + "/checkpoint") == note and ask("audit", site, verifier) == audited(300, 0))
        flipped(log, stored_at(level, place))
    flipped(log, stored_at(0, 5))
    check("what was written is not written again", ask("tiles", log, site, "--key", room + "/key") == (0, said_of(600), ""))
    check("and sound", ask("audit", site, verifier) == audited(600, 0))
    shutil.rmtree(site), os.remove(log)


def writes_what_lacks(room, verifier):
    """A tile that is missing or cut, and a bundle that is another, are written again, and nothing else."""
    log, site = grown(room, "lacking", 0, 600)
    lines = room + "/lines"
    check("entries are kept", ask("keep", site, verifier, lines) == (0, said_of(600), ""))
    kept = {}
    for name in ("tile/0/000", "tile/0/002.p/88", "tile/1/000.p/2", "tile/entries/000", "tile/entries/002.p/88"):
        kept[name] = read(site + "/" + name)
    stamps = {name: os.stat(site + "/" + name).st_mtime_ns for name in kept}
    for name, data in kept.items():
        place = site + "/" + name
        for bad in (None, data[:-1], b"") + ((data[:-1] + b"?",) if "entries" in name else ()):
            os.remove(place)
            if bad is not None:
                write(place, bad)
            words = ("keep", site, verifier, lines, "--from", 0) if "entries" in name else ("tiles", log, site, "--key", room + "/key")
            check("%s is mended" % name, ask(*words) == (0, said_of(600), "") and read(place) == data)
        now = {other: os.stat(site + "/" + other).st_mtime_ns for other in kept}
        check("and no other", all(now[other] == stamps[other] for other in kept if other != name))
        stamps = now
    check("it is audited", ask("audit", site, verifier) == audited(600, 600))
    shutil.rmtree(site), os.remove(log)
    two, folder = room + "/empty-lines", room + "/empty-site"
    write(lines, b"\n\n")
    ask("append-lines", two, lines), ask("tiles", two, folder, "--key", room + "/key")
    for few in (b"", b"\n"):
        write(lines, few)
        none = (3, "", "paxlog: the lines are not the entries of the log\n")
        check("too few lines, of empty entries", ask("keep", folder, verifier, lines) == none)
    write(lines, b"\n\nmore\n")
    check("more lines than entries", ask("keep", folder, verifier, lines)[0] == 0 and ask("audit", folder, verifier)[1].endswith("\nkept 2\n"))
    shutil.rmtree(folder), os.remove(two)


def follows_no_link(room, verifier):
    """What has the name of a file that is not there yet, or of a state, is not written through."""
    log, site = grown(room, "linked", 0, 3)
    victim, state, key = room + "/victim", room + "/linked-state", room + "/key"
    lines = room + "/lines"
    bundle = "tile/entries/000.p/3"
    os.makedirs(os.path.dirname(site + "/" + bundle))
    write(victim, b"another's")
    os.symlink("../../../../victim", site + "/" + bundle + ".new")
    check("entries are kept", ask("keep", site, verifier, lines) == (0, said_of(3), ""))
    check("in a file of their own", read(victim) == b"another's" and not os.path.islink(site + "/" + bundle))
    for name in ("checkpoint", "tile/0/000.p/3"):
        os.remove(site + "/" + name)
        os.symlink(victim, site + "/" + name + ".new")
    check("tiles are written", ask("tiles", log, site, "--key", key) == (0, said_of(3), ""))
    check("in files of their own", read(victim) == b"another's" and ask("audit", site, verifier) == audited(3, 3))
    os.symlink(victim, state + ".new")
    check("a state is made", ask("follow", site, verifier, state) == (0, said_of(3), ""))
    check("in a file of its own", read(victim) == b"another's" and not os.path.islink(state))
    link = room + "/state-link"
    for target in (state, room + "/nowhere"):
        os.symlink(target, link)
        none = (3, "", "paxlog: %s: the state is a symbolic link\n" % link)
        check("a state that is a link", ask("follow", site, verifier, link) == none)
        check("of a witness, too", ask("witness", site, verifier, link, "--key", room + "/witness-key") == none)
        check("it stays", os.readlink(link) == target and not os.path.exists(room + "/nowhere"))
        os.remove(link)
    shutil.rmtree(site), os.remove(log), os.remove(state), os.remove(victim)


def names_are_there(room, verifier):
    """An empty name of a folder or of a state, which would be that of the root's files."""
    log, site = grown(room, "named", 0, 1)
    write(room + "/lines", b"line 0\n")
    for words in (
        ("tiles", log, "", "--key", room + "/key"),
        ("audit", "", verifier),
        ("keep", "", verifier, room + "/lines"),
        ("follow", "", verifier, room + "/none"),
        ("follow", site, verifier, ""),
        ("witness", site, verifier, "", "--key", room + "/witness-key"),
        ("witness", "", verifier, room + "/none", "--key", room + "/witness-key"),
        ("tile-proof", "", verifier, 0),
        ("receipt", "", verifier, 0),
    ):
        status, said, why = ask(*words)
        line = "paxlog: the name of a folder or of a state is empty\nusage: paxlog %s " % words[0]
        check("%s: an empty name" % words[0], (status, said) == (2, "") and why.startswith(line))
    shutil.rmtree(site), os.remove(log)


def reads_regular_files(room, verifier):
    """Files that block or have no end, and files that are too long."""
    log, site = grown(room, "strange", 0, 3)
    state = room + "/strange-state"
    ask("follow", site, verifier, state)
    ask("keep", site, verifier, room + "/lines")
    for name in ("checkpoint", "tile/0/000.p/3", "tile/entries/000.p/3", "../strange-state", "../strange-state.lock", ".lock"):
        place = site + "/" + name
        kept = read(place)
        for make in (os.mkfifo, lambda it: os.symlink("/dev/zero", it), os.mkdir):
            os.remove(place)
            make(place)
            no = (3, "", "paxlog: %s: it is no regular file\n" % place.replace("strange-site/../", ""))
            if not name.endswith("lock"):
                words = ("follow", site, verifier, state) if name in ("checkpoint", "../strange-state") else ("audit", site, verifier)
                said = ask(*words)
                link = os.path.islink(place) and "state" in name
                check("%s is none, %s" % (name, words[0]), said[:2] == (3, "") if link else said == no)
            elif "state" in name:
                check("the lock of a state is none", ask("follow", site, verifier, state) == no)
            else:
                check("the lock of a folder is none", ask("tiles", log, site, "--key", room + "/key") == no)
            if os.path.isdir(place) and not os.path.islink(place):
                os.rmdir(place)
            else:
                os.remove(place)
            write(place, kept)
    for name, words, right in (
        ("checkpoint", ("audit", site, verifier), (3, "", "paxlog: %s: the note has more than 1,000,000 bytes\n" % site)),
        ("tile/entries/000.p/3", ("audit", site, verifier), (1, "no\n", "")),
        ("tile/0/000.p/3", ("audit", site, verifier), (5, "", "paxlog: %s/tile/0/000.p/3: the tile has another length\n" % site)),
    ):
        kept = read(site + "/" + name)
        os.truncate(site + "/" + name, 1 << 40)
        check("%s has no end" % name, ask(*words) == right)
        write(site + "/" + name, kept)
    check("it is as it was", ask("audit", site, verifier) == audited(3, 3))
    shutil.rmtree(site), os.remove(log), os.remove(state)


def locks_folders(room, verifier):
    """One process at a time writes a folder, and one moves a state on."""
    log, site = grown(room, "shared", 0, 3)
    lines, key = room + "/lines", room + "/key"
    with open(site + "/.lock", "rb") as file:
        fcntl.flock(file, fcntl.LOCK_EX)
        busy = (4, "", "paxlog: %s: another process writes the folder\n" % site)
        check("two writers", ask("tiles", log, site, "--key", key) == busy)
        check("two keepers", ask("keep", site, verifier, lines) == busy)
        check("readers wait for none", ask("audit", site, verifier)[0] == 0 and ask("follow", site, verifier, room + "/shared-state")[0] == 0)
    with open(room + "/shared-state.lock", "rb") as file:
        fcntl.flock(file, fcntl.LOCK_EX)
        busy = (4, "", "paxlog: %s: another process moves the state on\n" % (room + "/shared-state"))
        check("two followers of one state", ask("follow", site, verifier, room + "/shared-state") == busy)
        check("or a witness", ask("witness", site, verifier, room + "/shared-state", "--key", room + "/witness-key") == busy)
    for _ in range(20):
        started = [subprocess.Popen([PROGRAM, "tiles", log, site, "--key", key], stdout=subprocess.DEVNULL, stderr=subprocess.DEVNULL) for _ in range(4)]
        check("writers at once", all(ran.wait() in (0, 4) for ran in started) and ask("audit", site, verifier) == audited(3, 0))
    shutil.rmtree(site), os.remove(log)


def is_soon(holds):
    """Waits until something holds, for some seconds at most."""
    for _ in range(1000):
        if holds():
            return True
        time.sleep(0.01)
    return False


def lines_between(room, first, end):
    write(room + "/lines", b"".join(b"line %d\n" % number for number in range(first, end)))
    return room + "/lines"


def works_while_others_append(room, verifier):
    """Tiles are written while another process appends, and what it appended is signed with its tiles or not at all."""
    log, longer, site, key = room + "/growing", room + "/longer", room + "/growing-site", room + "/key"
    words = [PROGRAM, "tiles", log, site, "--key", key]
    piped = {"stdout": subprocess.PIPE, "stderr": subprocess.PIPE}
    ask("append-lines", log, lines_between(room, 0, 600))
    for size, more in ((600, 900), (900, 900), (900, 3000)):
        shutil.copyfile(log, longer)
        if more > size:
            ask("append-lines", longer, lines_between(room, size, more))
        with open(log, "r+b") as file:
            # another process appends
            fcntl.flock(file, fcntl.LOCK_EX)
            note = read(site + "/checkpoint") if os.path.exists(site + "/checkpoint") else None
            os.makedirs(site, exist_ok=True)
            for name in ("tile/0/000", "tile/0/%03d.p/%d" % (size // 256, size % 256), "tile/1/000.p/%d" % (size // 256)):
                if os.path.exists(site + "/" + name):
                    os.remove(site + "/" + name)
            ran = subprocess.Popen(words, **piped)
            check("tiles are written meanwhile", is_soon(lambda: os.path.exists(site + "/tile/1/000.p/%d" % (size // 256))))
            time.sleep(0.1)
            check("and nothing is signed", ran.poll() is None and (read(site + "/checkpoint") if note else None) == note)
            whole = read(longer)
            file.seek(8192), file.write(whole[8192:]), file.flush()
            file.seek(0), file.write(whole[:8192])
        check("then what was appended is signed", (*ran.communicate(), ran.returncode) == (said_of(more).encode(), b"", 0))
        check("with all its tiles", ask("audit", site, verifier) == audited(more, 0))
    if shutil.which("strace"):
        # its first file gets its name late
        slow = ["strace", "-f", "-o", "/dev/null", "-e", "trace=rename", "-e", "inject=rename:delay_enter=1000000:when=1"]
        ask("append-lines", log, lines_between(room, 3000, 3300))
        ran = subprocess.Popen([*slow, *words], **piped)
        check("a tile is written", is_soon(lambda: os.path.exists(site + "/tile/0/011.new")))
        check("entries are appended meanwhile", ask("append-lines", log, lines_between(room, 3300, 3700)) == (0, "3700\n", ""))
        check("all are signed", (*ran.communicate(), ran.returncode) == (said_of(3700).encode(), b"", 0))
        check("with their tiles", ask("audit", site, verifier) == audited(3700, 0))
    shutil.rmtree(site), os.remove(log), os.remove(longer)


def needs_a_state(room, verifier, notes):
    """A witness signs nothing where its state is not found, and its state stays where it cannot sign."""
    log, site = grown(room, "seen", 0, 3)
    state, own = room + "/seen-state", room + "/witness-key"
    words = ("witness", site, verifier, state, "--key", own)
    none = (3, "", "paxlog: %s: no state: `paxlog follow` makes the first one\n" % state)
    check("a witness without a state", ask(*words) == none and not os.path.exists(state) and not os.path.exists(state + ".lock"))
    check("a follower makes it", ask("follow", site, verifier, state) == (0, said_of(3), ""))
    check("and then it signs", ask(*words)[0] == 0)
    grown(room, "seen", 3, 5)
    note = read(site + "/checkpoint").decode()
    text = note.split("\n\n")[0] + "\n"
    strangers = "".join(notes.Key("example.com/%d" % number, 1, hashlib.sha256(b"%d" % number).digest()).line(text) for number in range(99))
    write(site + "/checkpoint", (note + strangers).encode())
    check("it is followed", ask("follow", site, verifier, room + "/seen-too") == (0, said_of(5), ""))
    status, said, _ = ask(*words)
    check("of a note with 100 signatures it signs the log's alone", (status, said.count("\n\u2014 "), said.startswith(note)) == (0, 2, True))
    key = notes.Key("example.com/witness", 4, base64.b64decode(read(own).decode().split("+", 4)[4])[1:])
    junk = "\u2014 %s %s\n" % (key.name, base64.b64encode(notes.key_hash(key.name, 4, key.public) + bytes(72)).decode())
    write(site + "/checkpoint", (note + junk).encode())
    status, said, _ = ask(*words)
    check("a line of its own name that is none of its does not stay", (status, said.count("\n\u2014 "), junk in said) == (0, 2, False))
    write(site + "/cosigned", said.encode())
    check("and its key opens what it signed", ask("verify-checkpoint", key.verifier(), site + "/cosigned", "example.com/tiles")[0] == 0)
    shutil.rmtree(site), os.remove(log), os.remove(state)


def traced(room, words, fault=None):
    """The calls of a run that write, sync and rename, with the names of their files."""
    seen = room + "/trace"
    trace = ["strace", "-y", "-f", "-o", seen, "-e", "trace=write,fsync,rename,renameat,renameat2"]
    ran = subprocess.run([*trace, *(["-e", "inject=" + fault] if fault else []), PROGRAM, *words], stdout=subprocess.PIPE, stderr=subprocess.PIPE)
    calls = [line.split(None, 1)[1] for line in read(seen).decode().splitlines()]
    os.remove(seen)
    return ran.returncode, ran.stdout, [call for call in calls if "(" in call]


def keys_are_secret(room):
    """A key is taken of a regular file of few bytes that others neither read nor write, and one that is not written whole is removed."""
    log, key = room + "/secret-log", room + "/secret-key"
    write(room + "/secret-entry", b"ann")
    ask("append", log, room + "/secret-entry")
    check("a key is made", ask("keygen", "example.com/secret", key)[0] == 0 and os.stat(key).st_mode & 0o777 == 0o600)
    words = ("checkpoint", log, "--key", key)
    for mode, status in ((0o600, 0), (0o400, 0), (0o640, 0), (0o666, 3), (0o644, 3), (0o660, 3), (0o602, 3)):
        os.chmod(key, mode)
        said = "paxlog: %s: others may read or write the file of a key\n" % key if status else ""
        ran = ask(*words)
        check("a key of mode %o" % mode, (ran[0], ran[2]) == (status, said))
    os.remove(key)
    os.mkfifo(key, 0o600)
    check("a pipe is no key", ask(*words) == (3, "", "paxlog: %s: it is no regular file\n" % key))
    os.remove(key)
    write(key, bytes(65537))
    os.chmod(key, 0o600)
    check("nor is a file of so many bytes", ask(*words)[0] == 3)
    os.remove(key)
    if shutil.which("strace"):
        for fault in ("write:error=ENOSPC:when=1", "fsync:error=EIO:when=1", "fsync:error=EIO:when=2"):
            status, said, _ = traced(room, ("keygen", "example.com/secret", key), fault)
            check("a key that is not written whole is removed: " + fault, (status, said, os.path.exists(key)) == (6, b"", False))
    os.remove(log), os.remove(room + "/secret-entry")


def is_on_the_disk(room, verifier):
    """What is told is on the disk before: the names of folders, and a state, also where it stays."""
    if not shutil.which("strace"):
        return
    log, site = grown(room, "synced", 0, 3)
    state, own = room + "/synced-state", room + "/witness-key"
    made = room + "/made/of/folders"
    _, _, calls = traced(room, ("tiles", log, made, "--key", room + "/key"))
    last = [at for at, call in enumerate(calls) if call.startswith("rename")][-1]
    synced = [call.split("<")[1].split(">")[0] for call in calls[:last] if call.startswith("fsync(")]
    for name in ("/tile/0/000.p", "/tile/0", "/tile", "", "/..", "/../..", "/../../.."):
        folder = os.path.normpath(made + name)
        written = [at for at, call in enumerate(calls) if call.startswith("rename") and folder in call.split(",")[0]]
        check("the folder %s is synced before the checkpoint" % name, folder in synced or not written)
    shutil.rmtree(room + "/made")
    ask("follow", site, verifier, state)
    for words in (("follow", site, verifier, state), ("witness", site, verifier, state, "--key", own)):
        for _ in range(2):
            _, _, calls = traced(room, words)
            out = next(at for at, call in enumerate(calls) if call.startswith("write(1<"))
            synced = [call.split("<")[1].split(">")[0] for call in calls[:out] if call.startswith("fsync(")]
            check("%s: a state that stays is written again" % words[0], synced == [os.path.realpath(state) + ".new", os.path.realpath(room)])
        for number in (1, 2):
            status, said, _ = traced(room, words, "fsync:error=EIO:when=%d" % number)
            check("%s: what is not synced is not said" % words[0], (status, said) == (6, b""))
    shutil.rmtree(site), os.remove(log), os.remove(state)
