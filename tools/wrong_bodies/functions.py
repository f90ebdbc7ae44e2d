"""Finds the function that holds a place of a file, and its path as a check prints it."""
import collections
import contextlib
import json
import re

HEADER = re.compile(r'^( *)(?:pub(?:\([^)]*\))? )?(?:(?:const|final|unsafe|extern "C") )*fn (\w+)', re.M)
OWNER = re.compile(r"^(?:pub(?:\([^)]*\))? )?(?:unsafe )?(impl|trait)\b([^{]*)", re.M)
# What a function's text says of its path: its name, the type of its impl (or its trait), and the trait of its impl.
Header = collections.namedtuple("Header", "name owner trait")


def without_arguments(text):
    """Returns the text without what stands between angle brackets."""
    depth, kept = 0, ""
    for it in text.replace("->", ""):
        depth += it == "<"
        kept += it if not depth else ""
        depth -= it == ">"
    return kept


def last_word(text):
    return (re.findall(r"\w+", text) or [""])[-1]


def header_at(text, at):
    """Returns the header of the function that holds this place of a text; None for a place outside of functions. It is the last header
    above whose block is still open, by the layout of `rt fmt`."""
    end = text.find("\n", at)
    found = None
    for found in HEADER.finditer(text, 0, end if end >= 0 else len(text)):
        pass
    closed = found and re.compile(rf"^{found[1]}\}}", re.M).search(text, found.end())
    if not found or closed and closed.start() < at:
        return None
    owner = None
    for owner in OWNER.finditer(text, 0, found.start()) if found[1] else ():
        pass
    if not owner:
        return Header(found[2], None, None)
    head = without_arguments(re.sub(r"\bwhere\b.*", "", owner[2], flags=re.S))
    trait, is_of_trait, of = head.rpartition(" for ") if owner[1] == "impl" else ("", "", head.partition(":")[0])
    return Header(found[2], last_word(of), last_word(trait) if is_of_trait else None)


def module_of(file):
    return "::".join(it for it in file[len("src/") : -len(".rt")].split("/") if it not in ("lib", "main", "mod"))


class Sources:
    """A crate's texts, and the paths of its functions below the crate's name. A built library names them."""

    def __init__(self, crate):
        self.crate, self.known = crate, []
        with contextlib.suppress(OSError, ValueError):
            with open(f"{crate.rlib}/toolchain/mir.json", encoding="utf-8") as it:
                keys = [function[0] for function in json.load(it)]
            self.known = [it[len(crate.name) + 2 :] for it in keys if it.startswith(f"{crate.name}::")]

    def text(self, file):
        with open(f"{self.crate.folder}/{file}", encoding="utf-8") as it:
            return it.read()

    def paths(self, file, header):
        """Returns the paths that the function can have. A method's is that of its type, wherever its impl stands. Where no library names
        the functions, as in a static library, it is the end of the path, by which a check finds it too."""
        module = module_of(file)
        if not header.owner:
            return {f"{module}::{header.name}" if module else header.name}

        def fits(path):
            owner = f"::{path}".split("::")[-2]
            is_named = owner.startswith(header.owner + header.trait) if header.trait else owner == header.owner
            return is_named and path.endswith(f"::{header.name}")

        found = [it for it in self.known if fits(it)]
        near = [it for it in found if module and it.startswith(f"{module}::")]
        return set(near or found) or {f"{header.owner}{header.trait or ''}::{header.name}"}

    def paths_at_line(self, file, line, text):
        """Returns the paths that the function of a line of the text can have. An attribute is of the function below it."""
        at = sum(len(it) + 1 for it in text.split("\n")[: line - 1])
        below = HEADER.search(text, at)
        header = header_at(text, at) or below and header_at(text, below.end())
        return self.paths(file, header) if header else set()
