"""Reads what the crates declare: the modules with their items, and where a name leads. `load_all` reads them."""
import collections
import os
import re

TOP = os.path.dirname(os.path.dirname(os.path.dirname(os.path.abspath(__file__))))


def read(path):
    with open(path, encoding="utf-8") as file:
        return file.read()


def entries(path):
    """Returns the lines of a list but its comments."""
    return [line for line in read(f"{TOP}/{path}").splitlines() if line.strip() and not line.startswith("#")]


def files(crate, part, ending):
    for folder, _, names in sorted(os.walk(f"{TOP}/crates/{crate}/{part}")):
        for name in sorted(names):
            if name.endswith(ending):
                yield f"{folder}/{name}"


def comment_above(lines, number, mark):
    """Returns the comment above a line, its lines in one, with attributes and fixities passed over."""
    said = []
    while number and re.match(rf"\s*({mark}|#\[|infix)", lines[number - 1]):
        number -= 1
        if re.match(rf"\s*{mark}( |$)", lines[number]) and not lines[number].startswith("-- ----"):
            said.insert(0, lines[number].strip()[len(mark) :].strip())
    return " ".join(" ".join(said).split())


def first_comment(text, mark):
    return " ".join(" ".join(line[len(mark) :] for line in re.match(rf"(?:{mark}.*\n)*", text)[0].splitlines()).split())


DECLARED = re.compile(
    r"(pub(?:\([^)]*\))? )?(?:unsafe |final |const (?=fn)|extern \"C\" )*"
    r"(struct|enum|trait|type|const|static|fn|mod|macro_rules!) ?(\w+)"
)
USED = re.compile(r"(pub )?(?:pub\([^)]*\) )?use ([^;]+);")
TYPES = ("struct", "enum", "trait", "type", "const", "static")
Item = collections.namedtuple("Item", "crate path number kind name")
# Of each module, by its crate and path: its file, what it is about, its items, its uses, and which names of it are public, in turn.
Scope = collections.namedtuple("Scope", "crate module path about items uses public")
SCOPES, CRATES = {}, []


def leaves(tree, before=()):
    """Yields each name of a use with the path that it stands for."""
    path, braced, inner = tree.partition("{")
    names = (*before, *(name for name in path.strip().split("::") if name))
    if not braced:
        path, _, alias = tree.partition(" as ")
        names = (*before, *path.strip().split("::"))
        yield alias.strip() or (names[-2] if names[-1] == "self" else names[-1]), names[:-1] if names[-1] == "self" else names
        return
    depth, part = 0, ""
    for letter in inner.rstrip()[:-1] + ",":
        depth += (letter == "{") - (letter == "}")
        if letter == "," and not depth:
            if part.strip():
                yield from leaves(part.strip(), names)
            part = ""
        else:
            part += letter


def load(crate, module, path):
    """Reads the modules of a file, and those that it names."""
    lines = read(path).splitlines()
    stack = [Scope(crate, module, path, first_comment(read(path), "//!"), {}, {}, [])]
    SCOPES[crate, module] = stack[0]
    folder = os.path.dirname(path) if path.endswith(("/lib.rt", "/main.rt")) else path[: -len(".rt")]
    for number, line in enumerate(lines):
        depth, scope = "    " * (len(stack) - 1), stack[-1]
        if len(stack) > 1 and line == depth[4:] + "}":
            stack.pop()
            continue
        found = DECLARED.match(line[len(depth) :]) if line.startswith(depth) else None
        used = re.match(r"(pub(\([^)]*\))? )?use ", line[len(depth) :]) if line.startswith(depth) else None
        if found and found[2] == "mod":
            below = (*scope.module, found[3])
            if line.endswith("{"):
                said = comment_above(lines, number, "///")
                stack.append(Scope(crate, below, path, said, {}, {}, []))
                SCOPES[crate, below] = stack[-1]
            elif os.path.exists(f"{folder}/{found[3]}.rt") and found[3] != "tests":
                load(crate, below, f"{folder}/{found[3]}.rt")
            if found[1] == "pub ":
                scope.public.append(found[3])
        elif found:
            scope.items[found[3]] = Item(crate, path, number, found[2], found[3])
            if found[1] == "pub " or found[2] == "macro_rules!":
                scope.public.append(found[3])
        elif used:
            whole = USED.match(" ".join("\n".join(lines[number : number + 40])[len(depth) :].split()))
            for name, names in leaves(whole[2]):
                scope.uses[name] = names
                if whole[1]:
                    scope.public.append(name)


def inside_of(scope, name):
    """Returns the item or the module that a name stands for in a module, or None."""
    if name in scope.items:
        return scope.items[name]
    if (scope.crate, (*scope.module, name)) in SCOPES:
        return SCOPES[scope.crate, (*scope.module, name)]
    if name in scope.uses:
        names = scope.uses[name]
        if names == (name,):
            return SCOPES.get((name, ()))
        return leads(scope, names)
    return None


def leads(scope, names):
    """Returns the item or the module to which a path leads; what is of no crate here is an item of the kind `use`."""
    start, rest = names[0], names[1:]
    if start == "crate":
        at = SCOPES[scope.crate, ()]
    elif start == "self":
        at = scope
    elif start == "super":
        at = SCOPES[scope.crate, scope.module[:-1]]
    else:
        at = inside_of(scope, start) if scope.uses.get(start) != names else None
        at = at or SCOPES.get((start, ()))
        if not at and start not in CRATES and rest:
            return Item(start, "", 0, "use", names[-1])
    for name in rest:
        if name == "super" and isinstance(at, Scope):
            at = SCOPES[at.crate, at.module[:-1]]
        else:
            at = inside_of(at, name) if isinstance(at, Scope) else None
    if isinstance(at, Scope) and rest and names[-1] in at.items:
        return at.items[names[-1]]
    macro = SCOPES.get((start, ("macros",))) or SCOPES.get((start, ("serialize", "whole")))
    return at or (macro and macro.items.get(names[-1]))


def offered(scope):
    """Yields the items that a module shows, those of its modules and what it exports again."""
    for name in scope.public:
        at = inside_of(scope, name)
        if isinstance(at, Scope) and at.crate == scope.crate:
            yield from offered(at)
        elif isinstance(at, Item):
            yield at


def load_all(crates):
    """Reads the modules of all crates."""
    CRATES.extend(crates)
    for crate in crates:
        for name in ("lib.rt", "main.rt"):
            if os.path.exists(f"{TOP}/crates/{crate}/src/{name}"):
                load(crate, (), f"{TOP}/crates/{crate}/src/{name}")


def scope_of(item):
    """Returns the module that declares an item."""
    return next(it for it in SCOPES.values() if it.crate == item.crate and it.path == item.path and it.items.get(item.name) == item)
