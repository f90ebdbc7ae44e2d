"""Finds the public calls that lack a clause, and compares them with the list in docs/LIMITS.md."""
import functools
import os
import re

from sources.errors import decides_codes, decides_errors, has_several, result_of, says_which, speaks_of_errors
from sources.functions import closing, functions, masked
from sources.scopes import SCOPES, TOP, files, leads, offered, read

# What the crates of tests and the programs call nobody else calls; `secret_calls` is what one test of the gate reads in machine code.
OWN = ("examples", "test_support", "acp", "paxlog", "secret_calls")
# Calls of which no clause says anything, and why.
EXCEPTED = {
    "acp_run::words": "it returns what the operating system handed to the program",
    "ark_trees::Arrays::new": "the value has no parts: there is one of the type",
    "paxidore_calls::Asking::new": "what a run over it asks for is no promise: the clauses of `ask` hold of whatever it asks for",
    "paxlog_run::Progress::show": "it only shows how far a call is; nothing that a contract sees changes",
}
LIMITS = "docs/LIMITS.md"
HEADING = "## Calls whose errors no clause names"


@functools.lru_cache(None)
def asked(crate):
    """Returns the functions that a crate shows, each with its file, its module and its name."""
    return tuple(shown(crate))


def shown(crate):
    root = SCOPES.get((crate, ()))
    items = set(offered(root)) if root else set()
    for path in files(crate, "src", ".rt"):
        outer = next((it for it in SCOPES.values() if it.crate == crate and it.path == path), None)
        for it in functions(read(path)) if outer else ():
            block = it.block
            scope = SCOPES.get((crate, (*outer.module, *(block.modules if block else ()))), outer)
            if not block:
                is_asked = it.pub == "pub" and scope.items.get(it.name) in items or 'extern "C"' in it.words
            else:
                named = re.match(r"[\w:]+", block.type)
                home = leads(scope, tuple(named[0].split("::"))) if named and not block.trait else None
                is_asked = home in items and (block.kind == "trait" or it.pub == "pub")
            if is_asked:
                yield path, scope, f"{re.sub('<.*', '', block.type)}::{it.name}" if block else it.name, it


def lacks(scope, it):
    """Returns what a function's clauses do not say, or None."""
    clauses = [text for kind, _, text in it.clauses if kind == "ensures"]
    if it.returns in ("", "()", "!"):
        # what takes nothing that it could change states a theorem
        says = any(re.search(r"\.new\b", text) or "&mut" not in it.parameters for text in clauses)
        return None if says else "no clause of what it leaves"
    if not any(re.search(r"\bresult\b", text) for text in clauses):
        return "no clause of its result"
    if it.returns == "i32" and 'extern "C"' in it.words:
        return None if decides_codes(clauses) else "no clause says which codes come"
    error = result_of(it.returns)
    if error is None or not has_several(scope, error) or decides_errors(clauses):
        return None
    return "no clause says which errors come" if any(map(speaks_of_errors, clauses)) else "no clause of an error"


def premises(clause):
    """Returns what stands before the arrows of a clause, outside of brackets and functions."""
    text, depth, start, found = " ".join(clause.split()), 0, 0, []
    for at, letter in enumerate(text):
        depth += (letter in "([{⟦") - (letter in ")]}⟧")
        if letter == "λ" and not depth:
            break
        if letter == "→" and not depth:
            found.append(text[start:at].strip())
            start = at + 1
    return found


def conditional():
    """Yields a line for each call whose errors or codes are decided under conditions alone, with those of the first such clause. That a
    disk or tiles obey is no condition on the arguments."""
    for crate in sorted({crate for crate, _ in SCOPES} - set(OWN)):
        for path, scope, name, it in asked(crate):
            clauses = [text for kind, _, text in it.clauses if kind == "ensures"]
            is_code = it.returns == "i32" and 'extern "C"' in it.words
            error = result_of(it.returns)
            if not is_code and (error is None or not has_several(scope, error)):
                continue
            deciding = [premises(re.sub(r"^\s*let .*? in\b", "", text, flags=re.S)) for text in clauses if (decides_codes([text]) if is_code else says_which(text))]
            deciding = [[it for it in part if not re.search(r"\bObeys\b|^(\([^()]*:[^()]*\) ?)+$", it)] for part in deciding]
            if deciding and all(deciding):
                yield f"{os.path.relpath(path, TOP)}:{it.line}: {name}: {' → '.join(deciding[0])}"


def open_meanings(crate):
    """Yields the ghost members `.._gives` of a crate's impls that leave open which error comes: such a member is the trait's clause."""
    for path in files(crate, "src", ".rt"):
        text = read(path)
        code = masked(text)
        for found in re.finditer(r"\bghost (\w+_gives) = \{", code):
            said = text[found.end() : closing(code, found.end() - 1) - 1]
            names, _, said = said.partition(".")
            error = names.split()[-1]
            if not (re.search(rf"\b{error} ≡", said) if found[1] == "from_gives" else says_which(said)):
                line = text.count("\n", 0, found.start()) + 1
                yield path, line, f"{os.path.basename(path)[: -len('.rt')]}::{found[1]}", "it leaves open which error comes"


def lacking():
    """Returns, by name, the line of each call that lacks a clause, and how many calls were asked for. The crates have to be loaded."""
    said, count = {}, 0
    for crate in sorted({crate for crate, _ in SCOPES} - set(OWN)):
        for path, scope, name, it in asked(crate):
            count += 1
            # without any clause each call lacks one, else this check is blind
            assert lacks(scope, it._replace(clauses=[])), f"{path}:{it.line}: {name}"
            if lack := lacks(scope, it):
                said[f"{crate}::{name}"] = f"{os.path.relpath(path, TOP)}:{it.line}: {name}: {lack}"
        for path, line, name, lack in open_meanings(crate):
            said.setdefault(f"{crate}::{name}", f"{os.path.relpath(path, TOP)}:{line}: {name}: {lack}")
    return said, count


def wrong_lists():
    """Returns a line for each call that lacks a clause and that neither EXCEPTED nor docs/LIMITS.md names, and for each that they name and
    that lacks none; and what to say where there is none."""
    found, count = lacking()
    section = read(f"{TOP}/{LIMITS}").partition(HEADING)[2].partition("\n## ")[0]
    listed = set(re.findall(r"`([^`]+::[^`]+)`", section))
    wrong = [f"{line} ({LIMITS} does not list `{name}`)" for name, line in found.items() if name not in EXCEPTED and name not in listed]
    wrong += [f"{LIMITS}: `{name}` lacks no clause" for name in sorted(listed - set(found))]
    wrong += [f"tools/sources/coverage.py: {name} lacks no clause" for name in EXCEPTED if name not in found]
    return wrong, f"{count} public calls have their clauses but for {len(found)}: {LIMITS} lists {len(listed)}, {len(EXCEPTED)} are excepted"
