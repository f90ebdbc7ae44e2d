"""Faults of the system, of memory and of a file, many processes at once, and damage. .ci/paxlog calls these checks."""
import fcntl
import os
import re
import resource
import shutil
import signal
import subprocess
import time

from paxlog_model import DRAWS, KILLS, PROGRAM, ROUNDS, SIZE, TITLE, TOP, ask, check, file_of, old_slot, path, proof, read, read_log, root, sha, slot, split, write


def refused(library, number, words):
    """Runs the program with one of its requests for memory refused, and says whether there was such a request."""
    reader, writer = os.pipe()
    given = {"LD_PRELOAD": library, "REFUSED": str(number), "TELLS": str(writer)}
    ran = subprocess.run([PROGRAM, *words], env=given, pass_fds=[writer], stdout=subprocess.PIPE, stderr=subprocess.PIPE)
    os.close(writer)
    told = os.read(reader, 1) != b""
    os.close(reader)
    return told, ran.returncode, ran.stdout, ran.stderr


def lacks_memory(room, names, digests):
    log, library = room + "/lacking", room + "/refused_memory.so"
    subprocess.run(["cc", "-O2", "-shared", "-fPIC", "-o", library, TOP + "/.ci/refused_memory.c"], check=True)
    ask("append", log, *names[:8])
    before = read(log)
    ask("append", log, *names[8:11])
    after = read(log)
    write(room + "/lines", b"\n".join(b"entry %d" % i * i for i in range(8, 11)))
    top, shown = root(digests[:8]).hex(), path(3, digests[:8]).hex()
    for words in (
        ["append", log, *names[8:11]],
        ["append-lines", log, room + "/lines"],
        ["root", log],
        ["prove", log, "3"],
        ["consistency", log, "3"],
        ["check", log],
        ["append-lines", log, "--batch", "8", room + "/lines"],
        ["recover", log],
        ["verify", top, "8", "3", names[3], shown],
    ):
        number, told = 1, True
        while told:
            write(log, before)
            told, status, said, why = refused(library, number, words)
            left = read(log)
            if told:
                good = (said, why[:8], why.count(b"\n")) == (b"", b"paxlog: ", 1) and (status, left) in ((3, before), (7, after))
            else:
                good = number > 1 and status == 0 and left == (after if words[0].startswith("append") else before)
            check("%s, request %d for memory" % (words[0], number), good)
            number += 1
    os.remove(log), os.remove(room + "/lines"), os.remove(library)


def keeps_the_order(room, names, digests):
    if not shutil.which("strace"):
        return
    hashed = digests[:6]
    log, seen = room + "/traced", room + "/trace"
    ask("append", log, *names[:5])
    write(log + "-bare", file_of([]))
    for words, order in (
        (["append", log, names[5]], "O O L (R )+W S W S (R )+W (R )*W S W S W S "),
        (["append", log, "--after", 6, root(hashed).hex(), names[5]], "O O L (R )+W S W S (R )+W (R )*W S W S W S "),
        (["append-lines", log, "--batch", 1, names[5]], "O O L (R )+W S W S (R )+L L (R )+W (R )*W S W S W S (R )+L "),
        (["append", log + "-new", names[5]], "O O L (R )*W S O S (R )*W (R )*W S W S W S "),
        # a log of no entries, whose name may not be on the disk
        (["append", log + "-bare", names[5]], "O O L (R )*W S W S O S (R )*W (R )*W S W S W S "),
        (["root", log], "O (R )+"),
        (["recover", log, log + "-other"], "O L (R )*O L W S (R )*(R W )*S W S W S O S "),
    ):
        calls = "openat,flock,fsync,pread64,pwrite64"
        trace = ["strace", "-o", seen, "-e", "trace=" + calls, PROGRAM, *map(str, words)]
        subprocess.run(trace, stdout=subprocess.PIPE, stderr=subprocess.PIPE)
        short = {"openat": "O", "flock": "L", "fsync": "S", "pread64": "R", "pwrite64": "W"}
        lines = [line for line in read(seen).decode().splitlines() if "(" in line]
        first = next(at for at, line in enumerate(lines) if room in line)
        did = [short[line.split("(")[0]] for line in lines[first:]]
        shown = " ".join(did)
        check("the order of calls: " + shown, re.fullmatch(order, shown + " ") is not None)
    for name in (log, log + "-new", log + "-bare", log + "-other", seen):
        os.remove(name)


def is_cut_off(room, names, digests):
    """Each call of an append is the last one that is done, or it is refused: the log is that before or after."""
    if not shutil.which("strace"):
        return
    log, before, after = room + "/cut", file_of(digests[:5]), file_of(digests[:6])
    roots = {"%d %s\n" % (size, root(digests[:size]).hex()) for size in (5, 6)}
    for call, times in (("pwrite64", 6), ("fsync", 5)):
        for number in range(1, times + 1):
            for how in ("signal=KILL", "error=EIO", "error=ENOSPC"):
                write(log, before)
                trace = ["strace", "-o", "/dev/null", "-e", "trace=" + call, "-e", "inject=%s:%s:when=%d" % (call, how, number)]
                ran = subprocess.run([*trace, PROGRAM, "append", log, names[5]], stdout=subprocess.PIPE, stderr=subprocess.PIPE)
                status, said, why = ask("root", log)
                check("%s %d, %s: the log is whole" % (call, number, how), status == 0 and said in roots)
                if how != "signal=KILL":
                    begun = (call, number) in (("pwrite64", 5), ("pwrite64", 6), ("fsync", 4), ("fsync", 5))
                    check("%s %d, %s: the status" % (call, number, how), ran.returncode == (7 if begun else 6))
                check("it goes on", ask("append", log, names[6])[0] == 0)
    write(log, before)
    check("without a fault", ask("append", log, names[5])[0] == 0 and read(log) == after)
    os.remove(log)


def is_not_taken_back(room, names, digests):
    """A sync of the log's file is refused, as Linux refuses it: what was written stays readable and is not durable, whatever later syncs say.
    What is signed or acknowledged afterwards is what a power failure leaves."""
    log, image, key, library = room + "/taken-back", room + "/image", room + "/taken-back-key", room + "/lost_pages.so"
    subprocess.run(["cc", "-O2", "-shared", "-fPIC", "-o", library, TOP + "/.ci/lost_pages.c", "-ldl"], check=True)
    ask("keygen", "l.example/log", key)

    def on_the_disk(refuses, *words):
        given = {"LD_PRELOAD": library, "LOG": log, "IMAGE": image, "REFUSES": str(refuses)}
        ran = subprocess.run([PROGRAM, *words], env=given, stdout=subprocess.PIPE, stderr=subprocess.PIPE)
        return ran.returncode, ran.stdout.decode()

    folder = room + "/taken-back-tiles"
    for refuses in range(1, 6):
        size = 5 if refuses < 4 else 6
        after = [size, root(digests[:size]).hex()]
        for words, is_more in (
            (["checkpoint", log, "--key", key], False),
            (["tiles", log, folder, "--key", key], False),
            (["append", log, names[6]], True),
            (["append", log, "--after", *map(str, after), names[6]], True),
            ([], False),
        ):
            for place in (log, image):
                write(place, file_of(digests[:5]))
            status, said = on_the_disk(refuses, "append", log, names[5])
            check("sync %d is refused" % refuses, (status, said) == (6 if refuses < 4 else 7, ""))
            check("the log is that before or after", ask("root", log)[1] == "%d %s\n" % tuple(after))
            if words:
                check("%s behind sync %d" % (" ".join(words[:3]), refuses), on_the_disk(0, *words)[0] == 0)
            left = [*digests[:size], digests[6]] if is_more else digests[:size]
            # the power fails
            os.rename(image, log)
            status, said, _ = ask("root", log)
            whole = (status, said) == (0, "%d %s\n" % (len(left), root(left).hex()))
            before = (status, said) == (0, "5 %s\n" % root(digests[:5]).hex())
            check("%s behind sync %d holds" % (" ".join(words[:3]) or "nothing", refuses), whole or before and not words)
            check("and is whole", ask("check", log) == (0, "yes\n", ""))
            shutil.rmtree(folder, ignore_errors=True)
    # the sectors of a new log, and its first append
    told = (0, "0 %s\n" % root([]).hex(), "")
    for refuses in (1, 2):
        for words in (["append", log, names[5]], ["append", log, names[5], names[6]]):
            os.remove(log)
            write(image, b"")
            check("sync %d of a new log is refused" % refuses, on_the_disk(refuses, "append", log, names[0]) == (6, ""))
            check("and it is read", ask("root", log) == told)
            check("an append behind it", on_the_disk(0, *words) == (0, "%d\n" % (len(words) - 2)))
            os.rename(image, log)
            check("and holds", ask("check", log) == (0, "yes\n", "") and ask("root", log)[1] == "%d %s\n" % (
                len(words) - 2, root(digests[5 : len(words) + 3]).hex()
            ))
    # the sync of one append, and then that of another
    told = {"%d %s\n" % (size, root(digests[:size]).hex()) for size in (5, 6)}
    told.add("6 %s\n" % root([*digests[:5], digests[6]]).hex())
    told.add("7 %s\n" % root(digests[:7]).hex())
    for first in range(1, 6):
        for second in range(1, 6):
            for place in (log, image):
                write(place, file_of(digests[:5]))
            check("sync %d is refused" % first, on_the_disk(first, "append", log, names[5])[0] in (6, 7))
            check("and then sync %d" % second, on_the_disk(second, "append", log, names[6])[0] in (6, 7))
            os.rename(image, log)
            check("syncs %d and %d lose nothing" % (first, second), ask("root", log)[1] in told)
            check("and leave it whole", ask("check", log) == (0, "yes\n", ""))
    for place in (log, key, library):
        os.remove(place)


def is_cut_short(room, names, digests):
    """A write of which the system takes a part: the file may not grow beyond a limit."""
    log, before = room + "/short", file_of(digests[:5])
    line = "5 %s\n" % root(digests[:5]).hex()
    for more in range(64):
        write(log, before)
        limits = (len(before) + more, len(before) + more)

        def limited():
            signal.signal(signal.SIGXFSZ, signal.SIG_IGN)
            resource.setrlimit(resource.RLIMIT_FSIZE, limits)

        ran = subprocess.run([PROGRAM, "append", log, names[5]], preexec_fn=limited, stdout=subprocess.PIPE, stderr=subprocess.PIPE)
        check("%d bytes are taken: the status" % more, ran.returncode == 6 and ran.stdout == b"")
        check("%d bytes are taken: the log" % more, ask("root", log) == (0, line, "") and read(log)[: len(before)] == before)
        check("%d bytes are taken: it goes on" % more, ask("append", log, names[5])[0] == 0 and read_log(log) == file_of(digests[:6]))
    os.remove(log)


def is_delayed(room, names, digests):
    """While a call is delayed a reader sees the log before the append or after it."""
    if not shutil.which("strace"):
        return
    log, before = room + "/slow", file_of(digests[:5])
    roots = {"%d %s\n" % (size, root(digests[:size]).hex()) for size in (5, 6)}
    for call in ("pwrite64", "fsync"):
        for number in range(1, 5):
            write(log, before)
            slow = ["strace", "-o", "/dev/null", "-e", "trace=" + call, "-e", "inject=%s:delay_enter=40000:when=%d" % (call, number)]
            ran = subprocess.Popen([*slow, PROGRAM, "append", log, names[5]], stdout=subprocess.PIPE, stderr=subprocess.PIPE)
            while ran.poll() is None:
                check("a reader meanwhile", ask("root", log)[1] in roots)
            check("%s %d is delayed" % (call, number), ran.communicate()[0] == b"6\n" and read_log(log) == file_of(digests[:6]))
    os.remove(log)


def apart():
    """How a process of its own namespace of processes is started, in which its number is 1, as in a container; none where none can be."""
    words = ["unshare", "--pid", "--fork"]
    try:
        ran = subprocess.run([*words, "sh", "-c", "echo $$"], stdout=subprocess.PIPE, stderr=subprocess.PIPE)
    except OSError:
        return []
    return words if ran.stdout == b"1\n" else []


def opens_at_once(room, names):
    alone = apart()
    if not alone:
        print("skipped, for want of unshare: openers of one number")
    for turn in range(ROUNDS):
        log = "%s/new-%d" % (room, turn)
        for words, count in (([], 6), (alone, 4)) if alone else (([], 6),):
            waits = ["--wait", "60"] if turn % 4 == 3 else []
            started = [[*words, PROGRAM, "append", log, *waits, name] for name in names[:count]]
            ran = [subprocess.Popen(each, stdout=subprocess.PIPE, stderr=subprocess.PIPE) for each in started]
            done = [process.communicate()[0] for process in ran]
            appended = [said for said, process in zip(done, ran) if process.returncode == 0]
            check("one appends, the others are told", all(process.returncode in (0, 4) for process in ran) and len(appended) > 0)
            check("who waits appends", len(appended) == count or not waits)
            check("each has its size", sorted(map(int, appended)) == list(range(1, len(appended) + 1)))
            check("what returned is there", ask("root", log)[1].split(" ")[0] == str(len(appended)))
            check("nothing else is left", [name for name in os.listdir(room) if name.startswith("new-")] == ["new-%d" % turn])
            os.remove(log)


def opens_while_replaced(room, names, digests):
    """A log is recovered, and the new file takes its name, while openers wait: what each is told is there."""
    log, new = room + "/moved", room + "/moved-new"
    for turn in range(max(ROUNDS // 4, 5)):
        write(log, file_of(digests[:3]))
        with open(log, "rb") as held:
            fcntl.flock(held, fcntl.LOCK_SH)
            started = [[PROGRAM, "append", log, "--wait", "60", name] for name in names[3:7]]
            ran = [subprocess.Popen(each, stdout=subprocess.PIPE, stderr=subprocess.PIPE) for each in started]
            time.sleep(DRAWS.random() / 50)
            check("it is recovered", ask("recover", log, new)[0] == 0)
            os.rename(new, log)
            time.sleep(DRAWS.random() / 100)
        said = [process.communicate()[0] for process in ran]
        check("each is told its size", all(process.returncode == 0 for process in ran) and sorted(map(int, said)) == [4, 5, 6, 7])
        order = [digests[place] for _, place in sorted((int(size), place) for place, size in enumerate(said, 3))]
        check("and its entry is there", ask("root", log)[1] == "7 %s\n" % root(digests[:3] + order).hex() and read_log(log) == file_of(digests[:3] + order))
    os.remove(log)


def is_replaced(room, names, digests):
    """Another file takes the log's name, or none has it: what is acknowledged is in the log of that name."""
    log, new = room + "/replaced", room + "/replaced-new"
    piped = {"stdin": subprocess.PIPE, "stdout": subprocess.PIPE, "stderr": subprocess.PIPE}
    why = b"paxlog: %s: another file has this name now, or none: nothing more is acknowledged\n" % log.encode()
    for turn in range(4):
        # while an append waits
        write(log, file_of(digests[:5]))
        with open(log, "rb") as held:
            fcntl.flock(held, fcntl.LOCK_SH)
            ran = subprocess.Popen([PROGRAM, "append", log, "--wait", "60", names[5]], **piped)
            time.sleep(0.05 * turn)
            check("it is recovered", ask("recover", log, new)[0] == 0)
            ask("append", new, names[6])
            os.rename(new, log)
        said = ran.communicate()[0]
        check("who waited appends to the file of that name", (ran.returncode, said) == (0, b"7\n"))
        check("and it is there", ask("root", log)[1] == "7 %s\n" % root(digests[:5] + [digests[6], digests[5]]).hex())
    for gone in (False, True):
        # while lines are streamed
        write(log, file_of(digests[:5]))
        ran = subprocess.Popen([PROGRAM, "append-lines", log, "--batch", "1", "-"], **piped)
        ran.stdin.write(b"one\n")
        ran.stdin.flush()
        check("a line is appended", ran.stdout.readline() == b"6\n")
        if gone:
            os.remove(log)
        else:
            write(new, file_of(digests[:3]))
            os.rename(new, log)
        try:
            ran.stdin.write(b"two\nthree\n")
            ran.stdin.flush()
        except BrokenPipeError:
            pass
        said, told = ran.communicate()
        check("nothing more is acknowledged", (ran.returncode, said, told) == (3, b"", why))
        check("the file of that name is as it was", not os.path.exists(log) if gone else read_log(log) == file_of(digests[:3]))
    if os.path.exists(log):
        os.remove(log)


def is_killed(room):
    """What was acknowledged is there, wherever it is killed: lines of a pipe, one at a time."""
    log, size = room + "/killed", 0
    hashed = [sha(b"\0%d" % number) for number in range(40 * KILLS + 1000)]
    for _turn in range(KILLS):
        reader, writer = os.pipe()
        words = [PROGRAM, "append-lines", log, "--batch", str(DRAWS.randrange(1, 4)), "-"]
        ran = subprocess.Popen(words, stdin=reader, stdout=subprocess.PIPE, stderr=subprocess.PIPE)
        os.close(reader)
        os.write(writer, b"".join(b"%d\n" % number for number in range(size, size + 40)))
        time.sleep(DRAWS.random() / 50)
        ran.send_signal(signal.SIGKILL)
        said = ran.communicate()[0].decode().split("\n")[:-1]
        os.close(writer)
        acknowledged = int(said[-1]) if said else size
        status, line, _ = ask("root", log) if os.path.exists(log) and os.path.getsize(log) else (0, "0 " + sha(b"").hex(), "")
        size = int(line.split(" ")[0]) if status == 0 else -1
        check("what was acknowledged is there", 0 <= size - acknowledged <= 3)
        if size < 0:
            return
        if size % 8 < 2 or _turn % 50 == 0:
            check("and nothing else", line.split(" ")[1].strip() == root(hashed[:size]).hex())
    check("it is whole", ask("check", log) == (0, "yes\n", ""))
    os.remove(log)


def survives(log, names, digests):
    whole = read_log(log)
    said = ask("root", log)
    told = {
        (5, "", "paxlog: %s: a digest of the log is damaged\n" % log),
        (5, "", "paxlog: %s: the head of the log is damaged\n" % log),
    }
    for bit in range(32 * 8, 96 * 8):
        hurt = bytearray(whole)
        hurt[bit // 8] ^= 1 << bit % 8
        write(log, bytes(hurt))
        check("a bit of a slot, %d" % bit, ask("root", log) == said)
    for place in range(32):
        write(log, whole[:place] + bytes([whole[place] ^ 1]) + whole[place + 1 :])
        check("a bit of the title", ask("root", log) == (3, "", "paxlog: %s: the file is no log\n" % log))
    top = root(digests)
    older = slot(SIZE - 1, root(digests[:-1]))
    for slots in (older + slot(SIZE, top), slot(SIZE, top) + older):
        write(log, whole[:32] + slots + whole[96:])
        check("an append was cut off", ask("root", log) == said)
        check("it goes on", ask("append", log, names[3]) == (0, "%d\n" % (SIZE + 1), "") and read_log(log) == file_of(digests + [digests[3]]))
        for bit in range(64 * 8):
            hurt = bytearray(slots)
            hurt[bit // 8] ^= 1 << bit % 8
            write(log, whole[:32] + bytes(hurt) + whole[96:])
            before = "%d %s\n" % (SIZE - 1, root(digests[:-1]).hex())
            check("a bit of a slot then, %d" % bit, ask("root", log) in told | {said, (0, before, "")})
    for slots in (
        old_slot(SIZE - 1) + old_slot(SIZE),
        old_slot(SIZE) + old_slot(SIZE - 1),
        old_slot(SIZE) * 2,
        slot(SIZE, top) + bytes(32),
        bytes(32) + slot(SIZE, top),
        slot(SIZE, sha(b"")) + slot(SIZE, top),
        slot(SIZE, top) + slot(SIZE, sha(b"")),
    ):
        write(log, whole[:32] + slots + whole[96:])
        check("an older file", ask("root", log) == said)
        check("it is sound", ask("check", log) == (0, "yes\n", ""))
        check("it goes on", ask("append", log, names[3]) == (0, "%d\n" % (SIZE + 1), "") and read_log(log) == file_of(digests + [digests[3]]))
    for slots, why in ((bytes(64), "the head of the log is damaged"), (slot(SIZE, sha(b"")) * 2, "a digest of the log is damaged")):
        hurt = whole[:32] + slots + whole[96:]
        for words in (["root", log], ["prove", log, 3], ["consistency", log, 3], ["append", log, names[0]]):
            write(log, hurt)
            check("%s of a damaged head" % words[0], ask(*words) == (5, "", "paxlog: %s: %s\n" % (log, why)) and read(log) == hurt)
    write(log, whole)
    edge = set()
    for level in range(SIZE.bit_length()):
        if SIZE >> level & 1:
            last = (SIZE >> level << level) - 1
            edge.add(2 * last - bin(last).count("1") + level)
    shown = {index: ask("prove", log, index) for index in range(SIZE)}
    older = {size: (ask("root", log, size), ask("prove", log, size // 2, size), ask("consistency", log, size // 2 + 1, size)) for size in range(1, SIZE, 3)}
    for position in range(len(whole) // 32 - 3):
        for bit in range(256) if position in edge else (0, 255):
            hurt = bytearray(whole)
            hurt[96 + 32 * position + bit // 8] ^= 1 << bit % 8
            write(log, bytes(hurt))
            if position in edge:
                check("a bit of the right edge", ask("root", log) == (5, "", "paxlog: %s: a digest of the log is damaged\n" % log))
            else:
                check("a bit of another digest", ask("root", log) == said)
        check("nothing is appended to a damaged edge", position not in edge or ask("append", log, names[0])[0] == 5 and read(log) == bytes(hurt))
        for index in range(0, SIZE, 5):
            check("no proof that does not hold", ask("prove", log, index) in told | {shown[index]})
        for size in older if position % 4 == 1 else ():
            check("no older root that is another", ask("root", log, size) in told | {older[size][0]})
            check("no older proof that does not hold", ask("prove", log, size // 2, size) in told | {older[size][1]})
            check("no older consistency", ask("consistency", log, size // 2 + 1, size) in told | {older[size][2]})
    write(log, whole)
    for size in range(96):
        write(log, (TITLE + slot(0, sha(b"")) * 2)[:size])
        check("a head of %d bytes" % size, ask("append", log, names[0]) == (0, "1\n", ""))
    write(log, whole)
    write(log, whole + b"the rest of an append that did not end")
    check("what stands behind does not count", ask("root", log)[1].endswith(root(digests).hex() + "\n"))
    check("it is written over", ask("append", log, names[0])[0] == 0 and len(read(log)) == len(whole) + 64)
    check("the log is whole", ask("check", log) == (0, "yes\n", ""))
    write(log, whole[:-1])
    check("digests that are missing", ask("root", log) == (5, "", "paxlog: %s: the file of the log ends early\n" % log))
    for place in range(96, len(whole) - 32):
        if place % 7 == 0:
            write(log, whole[:place] + bytes([whole[place] ^ 1]) + whole[place + 1 :])
            check("a damage is found", ask("check", log) == (1, "no\n", ""))
    write(log, whole)
    check("the log is whole again", ask("check", log) == (0, "yes\n", ""))
