"""Finds the public calls that allocate nothing, by what they are handed.

In Rattle nothing is allocated without an allocator that was handed in. So a call allocates nothing if each of its parameters is plain: if
it is made of numbers, texts and the like alone, part by part, with all fields of each struct and enum. What cannot be decided is not
plain: a value of a type parameter, a function, a type of another crate than those here."""
import functools
import re

from sources.coverage import OWN, asked
from sources.functions import closing, masked, split_at
from sources.scopes import SCOPES, leads, read, scope_of

PLAIN = {"u8", "u16", "u32", "u64", "u128", "usize", "i8", "i16", "i32", "i64", "i128", "isize", "bool", "char", "str"}
# Types of the standard library that have the values of their parameters alone, by how many these are, and one that has none.
OF_PARTS, OF_NONE = {"Option": 1, "Result": 2}, {"PhantomData"}
NAME = re.compile(r"([A-Za-z_]\w*(?:::\w+)*)(<.*>)?")


def parameters_of(generics):
    """Returns the names of type parameters in turn, each with whether it is a constant's."""
    parts = [part.strip() for part in split_at(generics[1:-1], ",")]
    named = [re.match(r"(const )?(\w+)", part) for part in parts if part and not part.startswith("'")]
    return [(found[2], bool(found[1])) for found in named]


def generics_at(text, at):
    """Returns the type parameters that begin at a place of a text, and the place behind them."""
    if text[at : at + 1] != "<":
        return "", at
    end = closing(text, at)
    return text[at:end], end


def without_marks(part):
    """Returns a field without attributes and what makes it public."""
    part = part.strip()
    while part.startswith("#["):
        part = part[closing(part, 1) :].strip()
    return re.sub(r"^pub(\([^)]*\))? ", "", part)


def without_ghosts(body):
    """Returns fields without those that are ghost, which are no part of a value."""
    while found := re.search(r"\bghost \w+: ?\{", body):
        body = body[: found.start()] + body[closing(body, found.end() - 1) :]
    return body


def fields(body, is_tuple):
    """Yields the types of the fields between brackets."""
    for part in map(without_marks, split_at(without_ghosts(body), ",")):
        if part.strip(";"):
            yield part if is_tuple else part.partition(":")[2].strip()


@functools.lru_cache(None)
def parts_of(item):
    """Returns the type parameters of a struct, an enum or a type's name, and the types of its parts."""
    code = masked(read(item.path))
    start = sum(len(line) + 1 for line in code.split("\n")[: item.number])
    at = re.compile(rf"\b{item.kind} {item.name}").search(code, start).end()
    generics, at = generics_at(code, at)
    if item.kind == "type":
        return generics, [split_at(code[at : at + 1000], ";")[0].partition("=")[2].strip()]
    opens = re.compile(r"[{(;]").search(code, at)
    if opens[0] == ";":
        return generics, []
    body = code[opens.start() + 1 : closing(code, opens.start()) - 1]
    if item.kind == "struct":
        return generics, list(fields(body, opens[0] == "("))
    found = []
    for variant in map(without_marks, split_at(body, ",")):
        own = re.match(r"\w+ ?([({])", variant)
        if own:
            found += fields(variant[own.end() : closing(variant, own.end() - 1) - 1], own[1] == "(")
    return generics, found


def is_plain(said, scope, given, seen=()):
    """Returns whether a value of a type has no allocator. `given` says it of the type parameters and of `Self`."""
    said = said.strip()
    if said.startswith("&"):
        return is_plain(re.sub(r"^&('\w+ )?(mut )?", "", said), scope, given, seen)
    if said.startswith("(") and closing(said, 0) == len(said):
        return all(is_plain(part, scope, given, seen) for part in split_at(said[1:-1], ",") if part.strip())
    if said.startswith("[") and closing(said, 0) == len(said):
        return is_plain(split_at(said[1:-1], ";")[0], scope, given, seen)
    found = NAME.fullmatch(said)
    if not found:
        return False
    names = tuple(found[1].split("::"))
    arguments = [part.strip() for part in split_at(found[2][1:-1], ",")] if found[2] else []
    arguments = [part for part in arguments if part and not part.startswith("'")]
    if names[0] in given:
        return len(names) == 1 and given[names[0]]
    at = leads(scope, names)
    if getattr(at, "kind", "use") == "use":
        if names[-1] in OF_NONE or len(names) == 1 and names[0] in PLAIN:
            return True
        known = len(names) == 1 and OF_PARTS.get(names[0]) == len(arguments)
        return known and all(is_plain(part, scope, given, seen) for part in arguments)
    if at.kind not in ("struct", "enum", "type"):
        return False
    # a type in itself has no more than its other parts
    if (at, said) in seen:
        return True
    generics, parts = parts_of(at)
    own = parameters_of(generics)
    if len(own) != len(arguments):
        return False
    inner = {name: is_const or is_plain(it, scope, given, seen) for (name, is_const), it in zip(own, arguments)}
    return all(is_plain(part, scope_of(at), inner, (*seen, (at, said))) for part in parts)


def allocates_nothing(scope, it):
    """Returns whether a function is handed no allocator."""
    block = it.block
    if block and block.kind == "trait":
        return False
    own = [*parameters_of(block.generics if block else ""), *parameters_of(it.generics)]
    given = dict(own)
    if block:
        given["Self"] = is_plain(block.type, scope, given)
    for part in filter(str.strip, split_at(it.parameters, ",")):
        name, _, said = part.partition(":")
        is_self = re.fullmatch(r"(&('\w+ )?)?(mut )?self", name.strip())
        if not is_plain("Self" if is_self and not said else said, scope, given):
            return False
    return True


def free_of_memory():
    """Yields each library crate with the names of its public calls that allocate nothing. The crates have to be loaded."""
    for crate in sorted({crate for crate, _ in SCOPES} - set(OWN)):
        if not crate.endswith("_tests"):
            every = [(name, allocates_nothing(scope, it)) for _, scope, name, it in asked(crate)]
            # of two calls with one name both have to
            yield crate, sorted({name for name, _ in every} - {name for name, is_free in every if not is_free}, key=str.lower)
