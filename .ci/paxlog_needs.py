"""Checks of the tiles that paxlog names as missing, which a client fetches. .ci/paxlog_tiles.py calls them."""
import os
import shutil

from paxlog_model import DRAWS, ask, check, read, write


def fetch(site, copy, names):
    for name in names:
        os.makedirs(os.path.dirname(os.path.join(copy, name)), exist_ok=True)
        shutil.copy(os.path.join(site, name), os.path.join(copy, name))


def each_is_read(copy, names, needs, asks):
    """Without one of them there is no answer, and it alone is named."""
    for name in names:
        place = os.path.join(copy, name)
        data = read(place)
        os.remove(place)
        status, said, why = asks()
        check("%s is read" % name, (status, said) == (6, "") and why.startswith("paxlog: %s: " % place))
        check("and is named", needs() == (0, name + "\n", ""))
        write(place, data[:-1])
        check("as one that is cut", needs() == (0, name + "\n", ""))
        write(place, data)


def names_what_is_missing(room, verifier, served):
    """A client that begins with the checkpoint alone fetches what is named, and then follows, or has a proof."""
    site, copy, state = room + "/site", room + "/needed", room + "/needed-state"
    last = max(served)
    said = "%s\n" % ask("root", room + "/log")[1].strip()
    for old, note in sorted(served.items()):
        os.makedirs(copy)
        fetch(site, copy, ["checkpoint"])
        write(state, note)
        needs, follows = (lambda: ask("needs", copy, verifier, state)), (lambda: ask("follow", copy, verifier, state))
        status, text, why = needs()
        names = text.splitlines()
        check("what follows from %d needs: %s" % (old, why), (status, why) == (0, "") and 0 < len(names) <= 9)
        fetch(site, copy, names)
        check("nothing more is named from %d" % old, needs() == (0, "", ""))
        if old < last:
            each_is_read(copy, names, needs, follows)
        check("and it is followed from %d" % old, follows() == (0, said, "") and read(state) == read(site + "/checkpoint"))
        shutil.rmtree(copy)
    for index in [0, 255, 256, last - 1, DRAWS.randrange(last)]:
        os.makedirs(copy)
        fetch(site, copy, ["checkpoint"])
        needs, proves = (lambda: ask("needs-entry", copy, verifier, index)), (lambda: ask("tile-proof", copy, verifier, index))
        status, text, why = needs()
        names = text.splitlines()
        check("what entry %d needs: %s" % (index, why), (status, why) == (0, "") and 0 < len(names) <= 9)
        fetch(site, copy, names)
        check("nothing more is named for %d" % index, needs() == (0, "", ""))
        each_is_read(copy, names, needs, proves)
        check("and %d is proved" % index, proves() == ask("prove", room + "/log", index))
        shutil.rmtree(copy)
    os.makedirs(copy)
    check("no checkpoint, no names", ask("needs", copy, verifier, state)[:2] == (6, ""))
    fetch(site, copy, ["checkpoint"])
    check("no entry behind the end", ask("needs-entry", copy, verifier, last)[:2] == (3, ""))
    check("an index that is none", ask("needs-entry", copy, verifier, "x")[:2] == (2, ""))
    write(state, b"x")
    check("a state that is none", ask("needs", copy, verifier, state)[:2] == (3, ""))
    os.remove(state)
    check("no state is that of nothing", ask("needs", copy, verifier, state)[0] == 0 and not os.path.exists(state))
    shutil.rmtree(copy)
