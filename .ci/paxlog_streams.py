"""Lines that come through a pipe: what is appended, said and published of them, and when others have their turn. .ci/paxlog calls these checks."""
import fcntl
import os
import select
import shutil
import signal
import subprocess
import time

from paxlog_model import DRAWS, KILLS, PROGRAM, ask, check, file_of, read, read_log, root, sha, write

NAME = "stream.example/log"


class Stream:
    """An `append-lines --batch` of standard input, or of a file that is named."""

    def __init__(self, log, count, *words, name="-", before=()):
        command = [*before, PROGRAM, "append-lines", log, "--batch", str(count), *map(str, words), name]
        given = subprocess.PIPE if name == "-" else None
        self.ran = subprocess.Popen(command, stdin=given, stdout=subprocess.PIPE, stderr=subprocess.PIPE)
        self.rest = b""

    def give(self, data):
        os.write(self.ran.stdin.fileno(), data)

    def said(self):
        """The next line, once it is there; nothing behind 20 seconds or the end."""
        while b"\n" not in self.rest:
            if not select.select([self.ran.stdout], [], [], 20)[0]:
                return None
            more = os.read(self.ran.stdout.fileno(), 65536)
            if not more:
                return None
            self.rest += more
        line, self.rest = self.rest.split(b"\n", 1)
        return int(line)

    def end(self):
        """Closes the input; the status, the sizes that were not read, and what stands on standard error."""
        if self.ran.stdin:
            self.ran.stdin.close()
            self.ran.stdin = None
        try:
            said, why = self.ran.communicate(timeout=60)
        except subprocess.TimeoutExpired:
            self.ran.kill()
            return -1, [], "it does not end"
        return self.ran.returncode, list(map(int, (self.rest + said).split())), why.decode()


def stated(folder):
    """The size that a folder's checkpoint states; -1 where there is none."""
    if not os.path.exists(folder + "/checkpoint"):
        return -1
    return int(read(folder + "/checkpoint").split(b"\n")[1])


def takes_turns(room, key):
    """While a stream waits for lines others append, sign and read; and what stands in the log is what came, in its order."""
    log, grown = room + "/turns", []
    stream = Stream(log, 3)
    for turn in range(3):
        lines = [b"%d of turn %d" % (number, turn) for number in range(turn + 1)]
        stream.give(b"".join(line + b"\n" for line in lines))
        grown += [sha(b"\0" + line) for line in lines]
        check("what came is appended at once", stream.said() == len(grown) and read_log(log) == file_of(grown))
        check("another appends meanwhile", ask("append", log, "/dev/null") == (0, "%d\n" % (len(grown) + 1), ""))
        grown.append(sha(b"\0"))
        status, note, _ = ask("checkpoint", log, "--key", key)
        check("and signs", status == 0 and note.split("\n")[1] == str(len(grown)))
        check("and makes sure", ask("recover", log)[0] == 0)
    with open(log, "rb") as file:
        fcntl.flock(file, fcntl.LOCK_EX)
        stream.give(b"waits\n")
        time.sleep(0.1)
        check("it waits for others", read_log(log) == file_of(grown))
    grown.append(sha(b"\0waits"))
    check("and goes on", stream.said() == len(grown) and read_log(log) == file_of(grown))
    # a line that comes in parts, more lines than a batch has, and a last one without its end
    stream.give(b"in ")
    time.sleep(0.05)
    check("a part of a line is no line", read_log(log) == file_of(grown))
    stream.give(b"parts\n1\n2\n3\nthe last")
    more = [b"in parts", b"1", b"2", b"3", b"the last"]
    check("no more than a batch has", stream.said() == len(grown) + 3 and stream.said() == len(grown) + 4)
    check("the end of the input ends a line", stream.end() == (0, [len(grown) + 5], ""))
    grown += [sha(b"\0" + line) for line in more]
    check("all of them are there", read_log(log) == file_of(grown))
    os.remove(log)
    # a pipe that has a name, and a regular file as standard input
    pipe, lines = room + "/pipe", [b"line %d" % number for number in range(7)]
    os.mkfifo(pipe)
    stream = Stream(log, 100, name=pipe)
    with open(pipe, "wb", buffering=0) as into:
        for size, line in enumerate(lines, 1):
            into.write(line + b"\n")
            check("a pipe that is named", stream.said() == size)
    check("it ends", stream.end() == (0, [], ""))
    write(pipe + "-not", b"\n".join(lines))
    with open(pipe + "-not", "rb") as given:
        ran = subprocess.run([PROGRAM, "append-lines", log, "--batch", "4", "-"], stdin=given, stdout=subprocess.PIPE)
    check("a file as standard input", (ran.returncode, ran.stdout) == (0, b"11\n13\n14\n"))
    check("and its lines", read_log(log) == file_of([sha(b"\0" + line) for line in lines * 2]))
    os.remove(log), os.remove(pipe), os.remove(pipe + "-not")


def syncs_and_says(room):
    """A batch is synced three times before its size is said, and the two slots of the head once more where another process wrote them since."""
    if not shutil.which("strace"):
        return
    log, seen = room + "/synced", room + "/trace"
    stream = Stream(log, 1, before=["strace", "-o", seen, "-e", "trace=fsync,flock,write"])
    for turn in range(3):
        stream.give(b"%d\n" % turn)
        stream.said()
    ask("append", log, "/dev/null")
    stream.give(b"behind another\n")
    stream.said()
    check("it ends", stream.end()[0] == 0)
    short = {"flock(": "L", "fsync(": "S", "write(": "W"}
    did = "".join(short[name] for line in read(seen).decode().splitlines() for name in short if line.startswith(name))
    check("the order of calls: " + did, did == "LSSL" + 3 * "LSSSLW" + "LSSSSSLW")
    os.remove(log), os.remove(seen)


def publishes(room, key, verifier):
    log, folder = room + "/published", room + "/published-tiles"
    words = ["--publish", folder, "--key", key]
    sizes = lambda size: "%d %s\nkept 0\n" % (size, root([sha(b"\0%d" % number) for number in range(size)]).hex())
    stream = Stream(log, 10, *words)
    for size in range(1, 6):
        stream.give(b"%d\n" % (size - 1))
        check("a size is said", stream.said() == size)
        check("the batch before is published", size == 1 or stated(folder) >= size - 1)
    check("the log is published at the end", stream.end() == (0, [], "") and ask("audit", folder, verifier) == (0, sizes(5), ""))
    stream = Stream(log, 2, "--origin", NAME, "--every", 3600000, *words)
    stream.give(b"5\n6\n7\n8\n9\n")
    check("its sizes", [stream.said() for _ in range(3)] == [7, 9, 10])
    stream.give(b"10\n")
    check("no more often than it is asked to", stream.said() == 11 and stated(folder) == 7)
    ask("tiles", log, folder, "--key", key)
    check("another publishes", stated(folder) == 11)
    stream.give(b"11")
    check("and at the end", stream.end() == (0, [12], "") and ask("audit", folder, verifier) == (0, sizes(12), ""))
    stream = Stream(log, 2, *words, name="/dev/null")
    check("without a line", stream.end() == (0, [12], "") and ask("audit", folder, verifier)[1] == sizes(12))
    # what fails
    for bad, status in ((["--publish", folder, "--key", room + "/none"], 6), (["--publish", folder, "--key", log], 3), (["--publish", "", "--key", key], 2)):
        before = read(log)
        check("a key or a folder that is none", ask("append-lines", log, "--batch", 1, *bad, "/dev/null")[:2] == (status, "") and read(log) == before)
    write(room + "/no-folder", b"")
    status, said, why = ask("append-lines", log, "--batch", 1, "--publish", room + "/no-folder", "--key", key, key)
    check("what is not published ends it, and what was said stays", (status, said, why.count("\n")) == (6, "13\n", 1) and ask("root", log)[1].startswith("13 "))
    for bad, named in (
        (["append-lines", log, "--publish", folder, "--key", key], "--publish needs --batch"),
        (["append-lines", log, "--batch", 1, "--publish", folder], "--publish needs --key"),
        (["append-lines", log, "--batch", 1, "--every", 5], "--key, --origin and --every need --publish"),
        (["append-lines", log, "--batch", 1, "--key", key], "--key, --origin and --every need --publish"),
        (["append-lines", log, "--origin", NAME], "--key, --origin and --every need --publish"),
        (["append", log, "--publish", folder, "--key", key], "--publish needs --batch"),
        (["append-lines", log, "--batch", 1, *words, "--every", "x"], "it is no number"),
    ):
        status, said, why = ask(*bad, "/dev/null")
        check("it is refused by name: " + named, (status, said) == (2, "") and named in why.split("\n")[0])
    shutil.rmtree(folder), os.remove(log), os.remove(room + "/no-folder")


def is_killed_while_it_publishes(room, key, verifier):
    """Wherever a stream is killed, what was acknowledged is there, and the folder is that of one of its checkpoints."""
    log, folder, size = room + "/killed-stream", room + "/killed-tiles", 0
    hashed = [sha(b"\0%d" % number) for number in range(60 * KILLS + 1000)]
    for _turn in range(KILLS // 3):
        stream = Stream(log, DRAWS.randrange(1, 30), "--publish", folder, "--key", key, "--every", DRAWS.choice((0, 5)))
        stream.give(b"".join(b"%d\n" % number for number in range(size, size + 60)))
        time.sleep(DRAWS.random() / 20)
        stream.ran.send_signal(signal.SIGKILL)
        status, said, _ = stream.end()
        acknowledged = said[-1] if said else size
        line = ask("root", log)[1] if os.path.exists(log) and os.path.getsize(log) else "0 " + sha(b"").hex()
        size = int(line.split(" ")[0])
        check("what was acknowledged is there", 0 <= size - acknowledged < 30 and line.split(" ")[1].strip() == root(hashed[:size]).hex())
        published = stated(folder)
        if published >= 0:
            facts = "%d %s\nkept 0\n" % (published, root(hashed[:published]).hex())
            check("the folder is whole", published <= size and ask("audit", folder, verifier) == (0, facts, ""))
    # the first ones may have been killed before the log was made
    check("it goes on", ask("append", log, key) == (0, "%d\n" % (size + 1), ""))
    check("the log is whole", ask("check", log) == (0, "yes\n", ""))
    shutil.rmtree(folder, ignore_errors=True), os.remove(log)


def waits(room, key, verifier):
    """Each command that locks waits for who has the lock, as long as it is asked to."""
    log, folder, state, cosigns = room + "/waited", room + "/waited-tiles", room + "/waited-state", room + "/waited-witness"
    write(room + "/lines", b"one\ntwo\n")
    ask("append-lines", log, room + "/lines")
    ask("tiles", log, folder, "--key", key)
    ask("follow", folder, verifier, state)
    ask("keygen-witness", "w.example", cosigns)
    lock, own = folder + "/.lock", state + ".lock"
    for busy, words in (
        (log, ["checkpoint", log, "--key", key]),
        (log, ["tiles", log, folder, "--key", key]),
        (lock, ["tiles", log, folder, "--key", key]),
        (log, ["recover", log]),
        (log, ["recover", log, room + "/waited-new"]),
        (lock, ["keep", folder, verifier, "-"]),
        (lock, ["keep", folder, verifier, room + "/lines"]),
        (own, ["follow", folder, verifier, state]),
        (own, ["witness", folder, verifier, state, "--key", cosigns]),
    ):
        with open(room + "/lines", "rb") as given, open(busy, "rb") as file:
            fcntl.flock(file, fcntl.LOCK_EX)
            check("%s waits for nobody" % words[0], ask(*words)[:2] == (4, "") and ask(*words, "--wait", 0)[:2] == (4, ""))
            ran = subprocess.Popen([PROGRAM, *words, "--wait", "30"], stdin=given, stdout=subprocess.PIPE, stderr=subprocess.PIPE)
            time.sleep(0.06)
            check("%s waits" % words[0], ran.poll() is None)
            fcntl.flock(file, fcntl.LOCK_UN)
            check("%s has its turn" % words[0], ran.communicate(timeout=60)[0] != b"" and ran.returncode == 0)
    check("what is no number", ask("checkpoint", log, "--key", key, "--wait", "x")[:2] == (2, ""))
    check("the entries are kept", ask("audit", folder, verifier)[1].endswith("kept 2\n"))
    check("others take no wait", ask("check", log, "--wait", 1)[0] == 2)
    shutil.rmtree(folder)
    for name in (log, state, own, cosigns, room + "/lines", room + "/waited-new"):
        os.remove(name)


def finds(room):
    log, file = room + "/searched", room + "/sought"
    lines = [b"entry %d" % (number % 300) for number in range(400)]
    write(file, b"\n".join(lines))
    ask("append-lines", log, file)
    for number in (0, 1, 2, 63, 64, 127, 128, 255, 256, 299):
        write(file, b"entry %d" % number)
        check("the first of its kind is found", ask("find", log, file) == (0, "%d\n" % number, ""))
    whole = read(log)
    for other in (b"", b"entry 300", b"entry 0\n"):
        write(file, other)
        check("no entry is found", ask("find", log, file) == (1, "no\n", ""))
    ran = subprocess.run([PROGRAM, "find", log, "-"], input=b"entry 7", stdout=subprocess.PIPE)
    check("of standard input", (ran.returncode, ran.stdout) == (0, b"7\n"))
    write(log, file_of([]))
    check("in no entries", ask("find", log, "/dev/null") == (1, "no\n", ""))
    write(log, whole[:-1])
    check("in a file that ends early", ask("find", log, file)[:2] == (5, ""))
    check("what asks for nothing", ask("find", log)[0] == 2 and ask("find", room + "/none", file)[0] == 6)
    os.remove(log), os.remove(file)


def streams(room):
    key = room + "/stream-key"
    verifier = ask("keygen", NAME, key)[1].strip()
    takes_turns(room, key)
    syncs_and_says(room)
    publishes(room, key, verifier)
    is_killed_while_it_publishes(room, key, verifier)
    waits(room, key, verifier)
    finds(room)
    os.remove(key)
