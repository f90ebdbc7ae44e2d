"""The calls that tests of interrupts make, class by class."""
import hashlib
import os
import tempfile

from paxidore import Blake2s, Field, Log, Map, Transcript, Tree, poseidon, ready_parameters
from interrupts import Subject


def sha(data):
    return hashlib.sha256(data).digest()


KEYS = [sha(b"key %d" % number) for number in range(12)]


def of_hashes():
    def make():
        return Blake2s(b"begin")

    def after(made):
        made.update(b"more")

    calls = {
        "update": lambda made: made.update(b"some"),
        "digest": lambda made: made.digest(),
        "copy": lambda made: made.copy().update(b"other"),
    }
    return [Subject("Blake2s." + name, make, call, Blake2s.digest, after) for name, call in calls.items()]


def of_transcripts():
    parameters = ready_parameters(Field.BLS12_381_FR, rate=2)

    def make():
        made = Transcript(Field.BLS12_381_FR, parameters)
        made.absorb([1, 2, 3])
        return made

    calls = {
        "absorb": lambda made: made.absorb([5]),
        "absorb_bytes": lambda made: made.absorb_bytes(b"five"),
        "squeeze": lambda made: made.squeeze(2),
        "squeeze_bytes": lambda made: made.squeeze_bytes(40),
        "copy": lambda made: made.copy().absorb([4]),
    }
    return [
        Subject("Transcript." + name, make, call, lambda made: made.copy().squeeze_bytes(32), lambda made: made.absorb([9]))
        for name, call in calls.items()
    ]


def of_trees(folder):
    leaves = [b"%d" % number for number in range(8)]
    path = os.path.join(folder, "tree")

    def in_memory():
        return Tree.build(leaves)

    def in_file():
        if os.path.exists(path):
            os.unlink(path)
        return Tree.build(leaves, path)

    def after(made):
        made.set(7, b"seven")
        assert made.check()

    calls = {
        "set": lambda made: made.set(1, b"one"),
        "root": lambda made: made.root,
        "path": lambda made: made.path(3),
        "multi_path": lambda made: made.multi_path([1, 2]),
        "check": lambda made: made.check(),
        "rebuild": lambda made: made.rebuild(),
        "flush": lambda made: made.flush(),
        "set_many": lambda made: made.set_many([1, 2], [b"one", b"two"]),
    }
    see = lambda made: (made.root, made.path(3))  # noqa: E731
    subjects = [Subject("Tree.%s in memory" % name, in_memory, call, see, after) for name, call in calls.items()]
    return subjects + [Subject("Tree.%s in a file" % name, in_file, calls[name], see, after) for name in ("set", "flush")]


def of_logs(folder):
    path = os.path.join(folder, "log")

    def in_memory():
        made = Log()
        made.append([b"one", b"two", b"three"])
        return made

    def in_file():
        if os.path.exists(path):
            os.unlink(path)
        made = Log.open(path)
        made.append([b"one", b"two", b"three"])
        return made

    def again(made):
        made.close()
        return Log.open(path)

    def after(made):
        made.append([b"last"])
        assert made.check()

    calls = {
        "append": lambda made: made.append([b"four", b"five"]),
        "len": len,
        "root": lambda made: made.root(),
        "inclusion": lambda made: made.inclusion(1),
        "consistency": lambda made: made.consistency(2),
        "check": lambda made: made.check(),
        "extend": lambda made: made.extend([b"four", b"five"]),
    }
    see = lambda made: (len(made), made.root())  # noqa: E731
    subjects = [Subject("Log.%s in memory" % name, in_memory, call, see, after) for name, call in calls.items()]
    return subjects + [Subject("Log.%s in a file" % name, in_file, call, see, after, again) for name, call in calls.items()]


def of_poseidon():
    def make():
        made = poseidon.Log()
        made.append([1, 2, 3])
        return made

    calls = {
        "append": lambda made: made.append([4, 5]),
        "len": len,
        "root": lambda made: made.root(),
        "inclusion": lambda made: made.inclusion(1),
        "set": lambda made: made.set(1, 7),
    }
    see = lambda made: (len(made), made.root())  # noqa: E731
    return [
        Subject("poseidon.Log." + name, make, call, see, lambda made: made.append([9])) for name, call in calls.items()
    ]


def of_maps(folder, is_in_file):

    def make():
        if is_in_file:
            made = Map.open(os.path.join(tempfile.mkdtemp(dir=folder), "map"), versions=3)
        else:
            made = Map()
        made.update({key: sha(key) for key in KEYS[:6]})
        return made

    def see(made):
        return made.version, made.root, len(made), tuple(made.items())

    def after(made):
        number = made.version
        made[KEYS[11]] = sha(b"last")
        assert made.version == number + 1
        made.check()
        if is_in_file:
            # nothing of what is kept holds a lock
            with Map.open(made._store.path, wait=0) as other:
                other.forget(0)
                assert other.root == made.root

    def in_a_batch(made):
        with made.batch():
            made[KEYS[0]] = sha(b"other")
            made[KEYS[7]] = sha(b"seven")
            del made[KEYS[1]]

    calls = {
        "a batch": in_a_batch,
        "a change": lambda made: made.__setitem__(KEYS[8], sha(b"eight")),
        "a removal": lambda made: made.__delitem__(KEYS[2]),
        "update": lambda made: made.update({KEYS[8]: sha(b"8"), KEYS[9]: sha(b"9")}),
        "remove": lambda made: made.remove(KEYS[:2]),
        "a look-up": lambda made: made[KEYS[3]],
        "in": lambda made: KEYS[10] in made,
        "prove": lambda made: made.prove(KEYS[3]),
        "root": lambda made: (made.root, made.version, len(made)),
        "keys": lambda made: list(made)[:1],
        "check": lambda made: made.check(),
        "to_bytes": lambda made: made.to_bytes(),
        "at": lambda made: made.at(made.version)[KEYS[3]],
        "forget": lambda made: made.forget(made.version),
        "witness": lambda made: made.witness({KEYS[3]: None}),
    }
    where = "in a file" if is_in_file else "in memory"
    return [Subject("Map, %s, %s" % (name, where), make, call, see, after) for name, call in calls.items()]
