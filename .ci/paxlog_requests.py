"""Checks of paxlog's replies to requests of logs, beside C2SP's tlog-witness. paxlog_tiles calls them."""
import base64
import fcntl
import hashlib
import os
import shutil
import subprocess
import time

from paxlog_folders import grown
from paxlog_model import PROGRAM, ask, check, proof, read, root, sha, write


def replies(room, verifier, cosigner, notes):
    """A witness signs what continues the checkpoint that it signed last, and says of anything else why not."""
    log, site = grown(room, "added", 0, 5)
    state, key, wrong = room + "/added-state", room + "/witness-key", notes.Key("example.com/tiles", 1, bytes(32))
    words = [PROGRAM, "witness-request", verifier, state, "--key", key]

    def asked(request, *more):
        ran = subprocess.run([*words, *more], input=request, stdout=subprocess.PIPE, stderr=subprocess.PIPE)
        return ran.returncode, ran.stdout.decode(), ran.stderr.decode()

    def proof(old, new):
        digests = bytes.fromhex(ask("consistency", log, str(old), str(new))[1]) if 0 < old < new else b""
        return "".join(base64.b64encode(digests[at : at + 32]).decode() + "\n" for at in range(0, len(digests), 32))

    def request(old, note, lines=None):
        size = int(note.split("\n")[1])
        return ("old %d\n%s\n%s" % (old, proof(old, size) if lines is None else lines, note)).encode()

    def denied(status, body="", kind="text/plain"):
        return (0, "Status: %s\nContent-Type: %s\n\n%s" % (status, kind, body), "")

    def conflict(size):
        return denied("409 Conflict", "%d\n" % size, "text/x.tlog.size")

    malformed, untrusted, unproved = denied("400 Bad Request"), denied("403 Forbidden"), denied("422 Unprocessable Entity")
    five = read(site + "/checkpoint").decode()
    check("a witness without a state", asked(request(0, five))[:2] == (3, "") and not os.path.exists(state))
    check("a follower makes it", ask("follow", site, verifier, state)[0] == 0)
    grown(room, "added", 5, 9)
    nine = read(site + "/checkpoint").decode()
    before = read(state)
    signed_by = lambda signer, text: text + "\n" + signer.line(text)
    text = nine.split("\n\n")[0] + "\n"
    other = notes.Key("example.com/tiles", 1, base64.b64decode(read(room + "/key").decode().split("+", 4)[4])[1:])
    forked = lambda size, origin="example.com/tiles": signed_by(other, notes.checkpoint(origin, size, hashlib.sha256(b"x").digest()))
    for what, sent, wanted in (
        ("nothing", b"", malformed),
        ("no note", b"old 5\n\n", malformed),
        ("no empty line", b"old 5\n" + nine.encode(), malformed),
        ("a size with a zero", request(5, nine).replace(b"old 5", b"old 05"), malformed),
        ("a line that is no digest", request(5, nine, "AAAA\n"), malformed),
        ("65 lines", request(5, nine, proof(5, 9).splitlines(True)[0] * 65), malformed),
        ("a larger old size", request(10, nine, ""), malformed),
        ("too long", request(5, nine) + b"x" * 1_100_000, malformed),
        ("a stranger's key", request(5, signed_by(wrong, text)), untrusted),
        ("a signature of another text", request(5, nine.replace("\n9\n", "\n8\n")), untrusted),
        ("another origin", request(5, forked(9, "example.com/other"), ""), denied("404 Not Found")),
        ("another origin that a stranger signed", request(5, signed_by(wrong, notes.checkpoint("x", 9, bytes(32))), ""), denied("404 Not Found")),
        ("a smaller old size", request(4, nine), conflict(5)),
        ("the first one", request(0, nine), conflict(5)),
        ("a larger old size than its own", request(7, nine), conflict(5)),
        ("a smaller checkpoint", request(4, forked(4), ""), conflict(5)),
        ("no proof", request(5, nine, ""), unproved),
        ("another proof", request(5, nine, proof(4, 9)), unproved),
        ("another root", request(5, forked(9), proof(5, 9)), unproved),
        ("a proof of the same size", request(5, five, proof(4, 9)), unproved),
    ):
        check("denied: %s" % what, asked(sent) == wanted and read(state) == before)
    fork = forked(5)
    check("another root of the same size", asked(request(5, fork)) == conflict(5) and read(state) == before)
    check("which is kept", read(state + ".fork").decode() == fork)
    os.remove(state + ".fork")
    for old, note in ((5, five), (5, nine), (9, nine)):
        start = int(time.time())
        status, said, why = asked(request(old, note))
        head, line = said.split("\n\n")
        stamp = int.from_bytes(base64.b64decode(line.split(" ")[2])[4:12], "big")
        whole = (status, head, why) == (0, "Status: 200 OK\nContent-Type: text/plain", "") and start <= stamp <= int(time.time())
        check("%d behind %d is signed" % (int(note.split("\n")[1]), old), whole and line == cosigner.line(note.split("\n\n")[0] + "\n", stamp))
        check("and is the state", read(state).decode() == note)
    check("no road back", asked(request(5, five)) == conflict(9) and read(state).decode() == nine)
    check("of the origin that is named alone", asked(request(9, nine), "--origin", "example.com/other") == denied("404 Not Found"))
    policy = room + "/added-policy"
    write(policy, ("log %s\nwitness one %s\nquorum one\n" % (verifier, cosigner.verifier())).encode())
    words[2:3] = ["--policy", policy]
    check("too few witnesses", asked(request(9, nine)) == untrusted)
    os.remove(state)
    write(state, (nine + line).encode())
    check("and enough", asked(request(9, nine + line))[1].startswith("Status: 200 OK\n"))
    check("no state that is a link", os.remove(state) or os.symlink(room + "/elsewhere", state) or asked(request(9, nine + line))[0] == 3)
    os.remove(state), os.remove(state + ".lock"), os.remove(policy), os.remove(log), shutil.rmtree(site)


def many_logs(room, cosigner, notes):
    """A witness of the logs of a list replies by the one whose origin a request states, and opens the state of no other."""
    logs, key = room + "/logs", room + "/witness-key"
    words = [PROGRAM, "witness-request", "--logs", logs, "--key", key]
    digests = [sha(b"\0%d" % number) for number in range(2)]
    signers = {name: notes.Key("example.com/" + name, 1, sha(name.encode())) for name in ("one", "two", "three")}
    origins = {"one": "example.com/one", "two": "example.com/two", "three": "a-name"}
    states = {name: "%s/state-of-%s" % (room, name) for name in signers}

    def note(name, size, origin=None):
        text = notes.checkpoint(origin or origins[name], size, root(digests[:size]))
        return text + "\n" + signers[name].line(text)

    def request(name, origin=None):
        return ("old 1\n%s\n\n%s" % (base64.b64encode(proof(1, digests)).decode(), note(name, 2, origin))).encode()

    def asked(sent):
        ran = subprocess.run(words, input=sent, stdout=subprocess.PIPE, stderr=subprocess.PIPE)
        return ran.returncode, ran.stdout.decode(), ran.stderr.decode()

    def is_signed(name, said):
        head, _, line = said.partition("\n\n")
        if head != "Status: 200 OK\nContent-Type: text/plain":
            return False
        stamp = int.from_bytes(base64.b64decode(line.split(" ")[-1])[4:12], "big")
        return line == cosigner.line(note(name, 2).split("\n\n")[0] + "\n", stamp)

    def sizes():
        return [read(state).decode().split("\n")[1] for state in states.values()]

    lines = {name: "log %s %s" % (signers[name].verifier(), states[name]) for name in signers}
    whole = "# logs\n\n%s\n%s # the second\n  %s  a-name" % tuple(lines.values())
    for name, state in states.items():
        write(state, note(name, 1).encode())
    for said, why, text in (
        (7, "no log is named", "#\n" * 6 + " "),
        (0, "no log is named", ""),
        (2, "a line begins with `log`", lines["one"] + "\nlogs"),
        (1, "the line has too few words, or too many", lines["one"].rsplit(" ", 1)[0]),
        (1, "the line has too few words, or too many", lines["one"] + " a b"),
        (3, "the key has another hash", "%s\n\n%s" % (lines["one"], lines["two"].replace("two+", "too+"))),
        (1, "the name of the state is no text", lines["one"] + "\t"),
        (1, "the origin is no line of text", lines["one"] + " a\r"),
        (2, "a log of this origin is named already", "%s\n%s example.com/one" % (lines["one"], lines["two"])),
    ):
        write(logs, text.encode())
        check("a list: line %d: %s" % (said, why), asked(request("one")) == (3, "", "paxlog: %s: line %d: %s\n" % (logs, said, why)))
    write(logs, whole.encode())
    for what, status, sent in (
        ("another origin", "404 Not Found", request("three", "example.com/three")),
        ("no request", "400 Bad Request", b"old 1\n"),
        ("no checkpoint", "400 Bad Request", b"old 1\n\nexample.com/one\n"),
        ("the key of another log", "403 Forbidden", request("one", "example.com/two")),
    ):
        check("of many logs: %s" % what, asked(sent) == (0, "Status: %s\nContent-Type: text/plain\n\n" % status, ""))
    check("no state moved", sizes() == ["1"] * 3)
    with open(states["one"] + ".lock", "wb") as file:
        fcntl.flock(file, fcntl.LOCK_EX)
        waits = subprocess.Popen(words, stdin=subprocess.PIPE, stdout=subprocess.PIPE)
        waits.stdin.write(request("one")), waits.stdin.close()
        for name, moved in (("three", ["1", "1", "2"]), ("two", ["1", "2", "2"])):
            status, said, why = asked(request(name))
            check("%s does not wait for another log" % name, (status, why) == (0, "") and is_signed(name, said) and sizes() == moved)
        check("but for its own", waits.poll() is None)
    check("the first one goes on", is_signed("one", waits.stdout.read().decode()) and waits.wait() == 0 and sizes() == ["2"] * 3)
    os.remove(states["two"])
    missing = "paxlog: %s: no state: `paxlog follow` makes the first one\n" % states["two"]
    check("a state that is missing", asked(request("two")) == (3, "", missing) and not os.path.exists(states["two"]))
    check("of one log alone", is_signed("one", asked(request("one").replace(b"old 1\n", b"old 2\n").replace(base64.b64encode(proof(1, digests)) + b"\n", b""))[1]))
    os.chmod(key, 0o644)
    check("a key that others read", asked(b"")[2] == "paxlog: %s: others may read or write the file of a key\n" % key)
    os.chmod(key, 0o600), os.remove(logs)
    check("no list", asked(b"")[0] == 6)
    os.mkfifo(logs)
    check("a pipe", asked(b"") == (3, "", "paxlog: %s: it is no regular file\n" % logs))
    os.remove(logs)
    for state in states.values():
        for left in (state, state + ".lock"):
            if os.path.exists(left):
                os.remove(left)
