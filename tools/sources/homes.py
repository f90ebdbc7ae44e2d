"""Finds the words of specs/ that are defined in two crates, and compares them with the list in docs/VOCABULARY.md."""
import collections
import re

from sources.scopes import TOP, entries, files, read

DEFINED = re.compile(r"^(?:abbrev pub|unfoldable pub|pub record|pub data|pub) (?!use\b|mod\b)([A-Za-z][\w'-]*)\s*[:({]", re.M)
PAGE = "docs/VOCABULARY.md"
HEADING = "## Words with two homes"


def homes():
    """Returns the crates that define each word. Laws and fields are none, nor is what is exported again."""
    found = collections.defaultdict(set)
    for crate in (line.split(":")[0].split()[0] for line in entries("crates.txt")):
        for path in files(crate, "specs", ".antt"):
            if "/Laws" not in path:
                for word in DEFINED.findall(read(path)):
                    found[word].add(crate)
    return found


def wrong_homes():
    """Returns a line for each word with two homes that the page does not list with them, and for each that it lists and that has one."""
    twice = {word: crates for word, crates in homes().items() if len(crates) > 1}
    section = read(f"{TOP}/{PAGE}").partition(HEADING)[2].partition("\n## ")[0]
    listed = {word: set(re.findall(r"`(\w+)`", crates)) for word, crates in re.findall(r"^\| `([^`]+)` \| ([^|]*) \|", section, re.M)}
    wrong = [f"{word} is defined in {', '.join(sorted(crates))}: {PAGE} does not list it so" for word, crates in sorted(twice.items()) if listed.get(word) != crates]
    return wrong + [f"{PAGE} lists {word}, which has no two homes" for word in sorted(set(listed) - set(twice))]
