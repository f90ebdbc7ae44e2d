"""Checks of what paxlog does by policy files: who has to sign a checkpoint. paxlog_tiles calls them."""
import hashlib
import os
import shutil
import time

from paxlog_folders import audited, grown, said_of
from paxlog_model import ask, check, read, write

# A policy that is none behind the lines of `whole` before it: the text, and what is said of its last line.
NO_POLICIES = (
    ("logs {log}", "a line begins with `log`, `witness`, `group` or `quorum`"),
    ("witness one", "the line has too few words, or too many"),
    ("witness one {one} https://one.example more", "the line has too few words, or too many"),
    ("quorum", "the line has too few words, or too many"),
    ("quorum one two", "the line has too few words, or too many"),
    ("group all", "the line has too few words, or too many"),
    ("witness three {one}x", "the Base64 is damaged"),
    ("witness three {one}".replace("{one}", "three"), "the key is none"),
    ("log {log}", "a second log is named"),
    ("witness one {two}", "the name stands for something already"),
    ("witness none {two}", "the name stands for something already"),
    ("group both 1 one", "the name stands for something already"),
    ("group more 1 one three", "a name stands for nothing yet"),
    ("group more 1 one both", "a member of the group is a group"),
    ("group more 0 one", "the count is not `any`, `all` or a number from 1 to that of the members"),
    ("group more 2 one", "the count is not `any`, `all` or a number from 1 to that of the members"),
    ("group more any", "the count is not `any`, `all` or a number from 1 to that of the members"),
    ("group more 01 one", "the count is not `any`, `all` or a number from 1 to that of the members"),
    ("quorum three", "a name stands for nothing yet"),
    ("quorum one\nquorum one", "a second quorum is named"),
    ("", "no quorum is named"),
)


def asks_by_policy(room, verifier, notes):
    """A checkpoint counts where its log and the quorum of a policy signed it, in each command that takes one."""
    log, site = grown(room, "asked", 0, 5)
    checkpoint, policy, state = site + "/checkpoint", room + "/policy", room + "/asked-state"
    note = read(checkpoint).decode()
    text = note.split("\n\n")[0] + "\n"
    one, two, three = (notes.Key("witness.example/%d" % n, 4, hashlib.sha256(b"%d" % n).digest()) for n in (1, 2, 3))
    named = {"log": verifier, "one": one.verifier(), "two": two.verifier(), "three": three.verifier()}
    whole = "# who signs\nlog {log} https://log.example\n\nwitness one {one} https://one.example # first\n  witness  two {two}\ngroup both 2 one two\ngroup either any one two\n"
    receipt, entry = room + "/asked-receipt", room + "/asked-entry"
    write(entry, b"line 3")

    def by(lines):
        write(policy, (whole + lines).format(**named).encode())
        return ("--policy", policy)

    def cosigned(*keys):
        write(checkpoint, (note + "".join(key.line(text, 1700000000) for key in keys)).encode())

    def opened(lines):
        return ask("verify-checkpoint", *by(lines), checkpoint)

    said, few = (0, said_of(5), ""), (1, "no\n", "paxlog: too few witnesses signed the checkpoint\n")
    for keys, lines, wanted in (
        ((), "quorum none", said),
        ((), "quorum one", few),
        ((one,), "quorum one", said),
        ((two,), "quorum one", few),
        ((two,), "quorum either\n", said),
        ((three,), "quorum either", few),
        ((one,), "quorum both", few),
        ((one, one, one), "quorum both", few),
        ((two, three, one), "quorum both", said),
        ((one, three), "witness three {three}\ngroup more 2 one two three\nquorum more", said),
        ((one, three), "witness three {three}\ngroup more all one two three\nquorum more", few),
        ((one,), "witness again {one}\ngroup same 2 one again\nquorum same", few),
    ):
        cosigned(*keys)
        check("%d signed, asked: %s" % (len(keys), lines), opened(lines) == wanted)
    cosigned(one, two)
    check("a policy of another log", ask("verify-checkpoint", "--policy", policy, checkpoint, "other")[:2] == (1, "no\n"))
    own = by("quorum both")
    check("it is audited", ask("audit", site, *own) == audited(5, 0))
    check("it is followed", ask("follow", site, *own, state) == said)
    check("and again, of the origin that is named", ask("follow", site, *own, state, "example.com/tiles", "--wait", 1) == said)
    check("its proof", ask("tile-proof", site, *own, 3) == ask("prove", log, 3))
    status, lines, _ = ask("receipt", site, *own, 3)
    write(receipt, lines.encode())
    check("its receipt", status == 0 and ask("verify-receipt", *own, entry, receipt) == said)
    check("it is witnessed", ask("witness", site, *own, state, "--key", room + "/witness-key")[0] == 0)
    cosigned(one)
    refused = (3, "", "paxlog: %s: too few witnesses signed the checkpoint\n")
    for words, place in (
        (("audit", site, *own), site),
        (("follow", site, *own, state), site),
        (("follow", site, *own, room + "/asked-other"), site),
        (("tile-proof", site, *own, 3), site),
        (("witness", site, *own, state, "--key", room + "/witness-key"), site),
    ):
        check("too few: %s" % words[0], ask(*words) == (refused[0], refused[1], refused[2] % place))
    write(receipt, lines.replace(two.line(text, 1700000000), "").encode())
    check("too few for a receipt", ask("verify-receipt", *own, entry, receipt) == few)
    now, own = int(time.time()), by("quorum both")
    for ages, seconds, wanted in (((5, 5), 100, said), ((5, 500), 100, few), ((500, 5), 100, few), ((500, 500), 1000, said), ((5, -500), 100, said)):
        write(checkpoint, (note + "".join(key.line(text, now - age) for key, age in zip((one, two), ages))).encode())
        lately = (*own, "--not-older-than", seconds)
        check("of %s seconds, asked: %d" % (ages, seconds), ask("verify-checkpoint", *lately, checkpoint) == wanted)
        stale = (refused[0], refused[1], refused[2] % site)
        for words, done in (("audit", audited(5, 0)), ("tile-proof", ask("prove", log, 3)), ("follow", said), ("needs", (0, "", ""))):
            more = {"tile-proof": (3,), "follow": (state,), "needs": (state,)}.get(words, ())
            check("%s: lately" % words, ask(words, site, *lately, *more) == (done if wanted == said else stale))
        status, lines, _ = ask("receipt", site, *own, 3)
        write(receipt, lines.encode())
        check("its receipt", status == 0 and ask("verify-receipt", *lately, entry, receipt) == wanted)
    check("no SECONDS", ask("audit", site, *own, "--not-older-than")[:2] == (2, ""))
    check("SECONDS that are no number", ask("audit", site, *own, "--not-older-than", "1x")[:2] == (2, ""))
    alike = [ask("witness-request", *who, state, "--key", room + "/witness-key") for who in (own, lately)]
    check("a witness that replies takes one", alike[0] == alike[1] and alike[0][0] != 2)
    for lines, why in NO_POLICIES:
        own = by(lines)
        count = (whole + lines).count("\n") + (lines != "")
        check("no policy: %s" % lines, ask("audit", site, *own) == (3, "", "paxlog: %s: line %d: %s\n" % (policy, count, why)))
    write(policy, b"quorum none\n")
    check("a policy without a log", ask("audit", site, *own)[2].endswith("line 1: no log is named\n"))
    os.remove(policy)
    check("no file", ask("audit", site, *own)[0] == 6)
    check("no FILE", ask("audit", site, "--policy")[:2] == (2, ""))
    shutil.rmtree(site), os.remove(log), os.remove(state), os.remove(receipt), os.remove(entry)
