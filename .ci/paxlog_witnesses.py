"""Witnesses and followers of one state that are killed, four at once, while a log that forked is shown to them."""
import base64
import os
import shutil
import signal
import subprocess
import time

from paxlog_model import DRAWS, KILLS, PROGRAM, ask, check, read, root, sha, write

NAME = "example.com/log"
COMMON = 5


def sites_of(room, name, other, key):
    """Makes a log of the common entries and others, and a folder of tiles for each size. Returns the folders with their sizes and roots."""
    log, digests, made = "%s/%s" % (room, name), [], []
    for i in range(COMMON + 8):
        entry = b"%d" % i if i < COMMON else b"%s %d" % (other, i)
        digests.append(sha(b"\0" + entry))
        write(room + "/entry", entry)
        ask("append", log, room + "/entry")
        if i >= COMMON - 1:
            folder = "%s-%d" % (log, i)
            os.mkdir(folder)
            said = ask("tiles", log, folder, "--key", key)
            made.append((folder, len(digests), root(digests)))
            check("tiles of %d" % len(digests), said[1] == "%d %s\n" % (len(digests), root(digests).hex()))
    return made


def stated(note):
    """The size and the root of a note, if it is whole and cosigned."""
    lines = note.split(b"\n")
    if len(lines) < 7 or lines[0] != NAME.encode() or not lines[5].startswith(b"\xe2\x80\x94 w1 "):
        return None
    return int(lines[1]), base64.b64decode(lines[2])


def cosign_one_log(room):
    here = room + "/witnesses"
    os.mkdir(here)
    key, own, state = here + "/key", here + "/witness-key", here + "/state"
    verifier = ask("keygen", NAME, key)[1].strip()
    ask("keygen-witness", "w1", own)
    logs = [sites_of(here, name, other, key) for name, other in (("one", b"one"), ("two", b"two"))]
    shown = logs[0] + logs[1]
    check("the first state", ask("follow", shown[0][0], verifier, state)[0] == 0)
    log_of = {(size, digest): which for which, sites in enumerate(logs) for _, size, digest in sites if size > COMMON}
    cosigned, last = set(), 0
    for turn in range(max(KILLS // 4, 8)):
        chosen = [DRAWS.choice(shown)[0] for _ in range(4)]
        running = []
        for folder in chosen:
            command, more = ("witness", ["--key", own]) if DRAWS.randrange(4) else ("follow", [])
            words = [PROGRAM, command, folder, verifier, state, *more, "--wait", "5"]
            running.append(subprocess.Popen(words, stdout=subprocess.PIPE, stderr=subprocess.DEVNULL))
        time.sleep(DRAWS.random() * 0.02)
        for each in DRAWS.sample(running, DRAWS.randrange(5)):
            each.send_signal(signal.SIGKILL)
        for each in running:
            found = stated(each.communicate()[0])
            if found is not None and found[0] > COMMON:
                cosigned.add(log_of.get(found, -1))
        size = int(read(state).split(b"\n")[1])
        is_one = len(cosigned) < 2 and -1 not in cosigned
        check("turn %d: what is cosigned is of one log, and the state goes on" % turn, is_one and size >= last)
        last = size
    # whatever was cosigned, the state is at it or behind it, and of that log
    if cosigned:
        head = read(state).split(b"\n")
        check("the state is of the log that was cosigned", log_of[int(head[1]), base64.b64decode(head[2])] in cosigned)
    left = {name for name in os.listdir(here) if name.startswith("state")}
    # a process that was killed in the last turn may leave the file that it wrote, which the next one that writes removes
    check("no other file is left", left <= {"state", "state.new", "state.lock", "state.fork", "state.fork-proof"})
    shutil.rmtree(here)
