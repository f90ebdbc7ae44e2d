"""Wrong bodies: what each changes, what the README says of it, and which of them can stand in one copy of the crate."""
import os
import re

from wrong_bodies.functions import header_at, module_of
from wrong_bodies.kit import rt

TABLES = {"Tried by the gate": "gate", "Tried before a release": "release"}


class Edit:
    """One wrong body: its pairs of texts, and the paths of the functions that they change. `why` says why it cannot be applied."""

    def __init__(self, sources, path):
        self.name = os.path.basename(path)[: -len(".edit")]
        self.label = f"{sources.crate.name}/{self.name}"
        texts, self.why = rt.read_edit(path, sources.crate.folder)
        self.pairs = [] if self.why else list(pairs_of(path))
        # The items outside of functions that it changes, each by its module, or None for the whole crate.
        self.functions, self.items = set(), set()
        now = {file: sources.text(file) for file, _, _ in self.pairs}
        for file, old, new in self.pairs:
            at = now[file].find(old) + len(old) - len(old.lstrip())
            header = header_at(now[file], at) if file.startswith("src/") else None
            if header:
                self.functions |= sources.paths(file, header)
            else:
                # What is private is seen by its module alone. An item begins at the last line above that is not set in.
                heads = re.findall(r"^[^\s})\]].*", now[file][: now[file].find("\n", at)], re.M)
                is_shown = not file.startswith("src/") or bool(heads) and heads[-1].startswith("pub")
                self.items.add(None if is_shown else module_of(file) or None)
            now[file] = now[file].replace(old, new)
        # What the check is asked for by --only; with None it is asked for the whole crate.
        self.only = self.functions | self.items

    def take_modules(self):
        """Has the edit checked by its modules, as one of items outside of functions."""
        self.functions = set()
        self.only = self.items = {module_of(file) or None for file, _, _ in self.pairs}

    def is_of(self, path):
        """Returns whether the function with this path is one that the edit changes, or stands in one. An edit of an item outside of
        functions is checked alone, so that it changes each function that fails."""
        # A path that begins with a type is the end of one, where no library names the functions.
        return bool(self.items) or any(
            f"{path}::".startswith(f"{it}::") or it[0].isupper() and f"::{it}::" in f"::{path}::" for it in self.functions
        )


def pairs_of(path):
    """Yields the file, the old text and the new text of each pair of an edit that `rt` has read."""
    with open(path, encoding="utf-8", errors="replace") as it:
        for line in it.read().split("\n"):
            if line.startswith("file: "):
                file = line[len("file: ") :].strip()
            elif line.startswith("old: "):
                old = line[len("old: ") :]
            elif line.startswith("new:"):
                yield file, old, re.sub(r"\A ", "", line[len("new:") :])


def applied(texts, edit, sources):
    """Returns the texts with the edit's pairs in them, or None where an old text does not stand there once."""
    made = dict(texts)
    for file, old, new in edit.pairs:
        text = made.get(file) or sources.text(file)
        if text.count(old) != 1:
            return None
        made[file] = text.replace(old, new)
    return made


def groups_of(edits, sources):
    """Puts edits together so that no two of a group change one function. A function and its callee can both be changed. An edit of an
    item outside of functions stands alone."""
    groups = []
    for edit in edits:
        for group in groups if not edit.items else ():
            texts = applied(group["texts"], edit, sources)
            if texts and not group["functions"] & edit.functions and not group["edits"][0].items:
                group.update(texts=texts, functions=group["functions"] | edit.functions, edits=[*group["edits"], edit])
                break
        else:
            groups.append({"texts": applied({}, edit, sources), "functions": edit.functions, "edits": [edit]})
    return [group["edits"] for group in groups]


class Rows:
    """The rows of the README beside the edits: for each edit its table, and the names in backquotes of the row's last column."""

    def __init__(self, folder):
        self.of, self.faults = {}, {}
        table = None
        for line in (rt.rtlib.text_of(f"{folder}/README.md") or "").split("\n"):
            if line.startswith("#"):
                table = TABLES.get(line.lstrip("# ").strip())
            row = re.match(r"\| `([^`]+)` \|(.*)\|\s*$", line)
            if row and not table:
                self.faults[row[1]] = f"its row stands under neither of the headings {', '.join(TABLES)}"
            elif row and row[1] in self.of:
                is_same = self.of[row[1]][0] == table
                self.faults[row[1]] = "it has two rows" if is_same else "it stands in both tables of the README"
            elif row:
                self.of[row[1]] = table, re.findall(r"`([^`]+)`", row[2].rpartition("|")[2])

    def tell(self, edit, goals):
        """Returns whether a name of the edit's row is a refused goal, or a part of its name, as its clause. The name of the function
        that the edit changes says nothing, unless it is a goal's."""
        own = {it.rpartition("::")[2] for it in edit.functions}
        names = [it for it in self.of[edit.name][1] if it not in own or it in goals]
        return any(f"-{name}-" in f"-{goal}-" for goal in goals for name in names)
