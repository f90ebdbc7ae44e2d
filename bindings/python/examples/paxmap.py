"""A map of names whose versions are the entries of a log.

    paxmap.py put FOLDER NAME VALUE          puts a value, and prints the version
    paxmap.py remove FOLDER NAME             removes a name, and prints the version
    paxmap.py get FOLDER NAME                prints the SHA-256 of the name's value, or '-'
    paxmap.py root FOLDER                    prints the count of versions and the root of the log
    paxmap.py history FOLDER                 prints the root of the map in each version
    paxmap.py prove FOLDER NAME              prints a receipt: what the newest version has at the name, or that it has nothing
    paxmap.py verify COUNT ROOT NAME VALUE RECEIPT       prints yes or no; the VALUE - is nothing

FOLDER/map has the map, FOLDER/log the log, in the format of paxlog: `paxlog checkpoint FOLDER/log` signs it, `paxlog tiles` hands it out.
"""
import contextlib
import hashlib
import os
import sys
from typing import Iterator, List, Tuple

from paxidore import Log, Map


def digest(text: str) -> bytes:
    return hashlib.sha256(text.encode()).digest()


def note_versions(names: Map, log: Log) -> None:
    """Appends the roots of the versions that the log has not: the newest one, and what a process left that stopped before it did."""
    log.append([names.at(version).root for version in range(len(log) + 1, names.version + 1)])


@contextlib.contextmanager
def opened(folder: str) -> Iterator[Tuple[Map, Log]]:
    """The map and the log of its versions. The log's lock keeps other processes away from both."""
    os.makedirs(folder, exist_ok=True)
    with Log.open(os.path.join(folder, "log"), wait=10) as log:
        with Map.open(os.path.join(folder, "map"), versions=None) as names:
            note_versions(names, log)
            yield names, log
            note_versions(names, log)


def changed(folder: str, name: str, value: str) -> str:
    with opened(folder) as (names, _):
        if value == "-":
            names.remove([digest(name)])
        else:
            names[digest(name)] = digest(value)
        return str(names.version)


def receipt(names: Map, log: Log, name: str) -> str:
    """The root of the newest version, its path in the log, and the map's proof."""
    return ".".join(part.hex() for part in (names.root, log.inclusion(len(log) - 1), names.prove(digest(name))))


def is_shown(count: int, root: bytes, name: str, value: str, parts: List[bytes]) -> bool:
    """Whether the newest version of the log with this root and count has the value at the name, or nothing."""
    map_root, path, proof = parts
    has = None if value == "-" else digest(value)
    return Log.verify_inclusion(root, count, count - 1, map_root, path) and Map.verify(map_root, digest(name), has, proof)


def answer(word: str, *words: str) -> str:
    if word == "put":
        return changed(*words)
    if word == "remove":
        path, name = words
        return changed(path, name, "-")
    if word == "verify":
        count, root, name, value, parts = words
        try:
            held = is_shown(int(count), bytes.fromhex(root), name, value, [bytes.fromhex(part) for part in parts.split(".")])
        except ValueError:
            held = False
        return "yes" if held else "no"
    with opened(words[0]) as (names, log):
        if word == "get":
            return names[digest(words[1])].hex() if digest(words[1]) in names else "-"
        if word == "root":
            return "%d %s" % (len(log), log.root().hex())
        if word == "history":
            return "\n".join("%d %s" % (version, names.at(version).root.hex()) for version in range(1, names.version + 1))
        return receipt(names, log, words[1])


WORDS = {"put": 3, "remove": 2, "get": 2, "root": 1, "history": 1, "prove": 2, "verify": 5}
if len(sys.argv) < 2 or WORDS.get(sys.argv[1]) != len(sys.argv) - 2:
    sys.exit(__doc__)
print(answer(*sys.argv[1:]))
