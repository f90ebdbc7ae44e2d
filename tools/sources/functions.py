"""Reads the functions of a source: their heads, conditions and clauses, and the impl or trait that each stands in."""
import collections
import re

HEAD = re.compile(r'((?:pub(?:\([^)]*\))? )?)((?:(?:const|final|unsafe|extern "C") )*)fn (\w+)')
BLOCK = re.compile(r"^[ ]*((?:pub(?:\([^)]*\))? )?)(?:unsafe )?(impl|trait|mod)\b([^{;]*)\{", re.M)
# A clause; or a ghost value of the function's, which stands before its clauses.
CLAUSE = re.compile(r"\s*(?:(requires|ensures)(?: (\w+))?|ghost \w+:) ?\{")
# What stands in a text that is no code. A prime at the end of a name begins no letter.
NO_CODE = re.compile(r'//[^\n]*|"(?:[^"\\]|\\.)*"|(?<![\w\'])\'(?:[^\'\\\n]|\\[^\n]{1,10})\'|b\'(?:[^\'\\]|\\.)\'', re.S)
# A function: its line from 1 on, whether it is public, its name, its head's parts, its clauses by (kind, name, text), and its block.
Function = collections.namedtuple("Function", "line pub words name generics parameters returns bounds clauses block attributes")
# The block that a function stands in: its kind (impl or trait), whether it is public, its head as it stands, its generics, its trait and
# its type, and the modules inside of the file that it stands in.
Block = collections.namedtuple("Block", "kind pub head generics trait type bounds modules span")


def masked(text):
    """Returns the text with blanks for comments and for what stands in quotes, so that places stay."""
    return NO_CODE.sub(lambda it: it[0] if it[0] == '"C"' else re.sub(r"[^\n]", " ", it[0]), text)


def closing(text, at):
    """Returns the place behind the bracket that closes the one at a place. An arrow closes nothing."""
    pairs = {"{": "}", "(": ")", "[": "]", "<": ">"}
    opens, closes, depth = text[at], pairs[text[at]], 0
    while at < len(text):
        if text[at] == opens:
            depth += 1
        elif text[at] == closes and not (closes == ">" and text[at - 1] in "-="):
            depth -= 1
            if not depth:
                return at + 1
        at += 1
    raise ValueError("a bracket stays open")


def in_one(text):
    """Returns a text with single blanks, and none inside of brackets."""
    text = " ".join(text.split())
    return re.sub(r",? ?([)>\]])(?<!-> )", lambda it: it[0].lstrip(", ") if not it[0].startswith(" >") else it[0], re.sub(r"([(<\[]) ", r"\1", text))


def split_at(text, letter):
    """Splits a text at a letter that stands in no bracket."""
    parts, depth, part = [], 0, ""
    for at, it in enumerate(text):
        depth += it in "([{<"
        depth -= it in ")]}" or it == ">" and text[at - 1] not in "-="
        if it == letter and not depth:
            parts.append(part)
            part = ""
        else:
            part += it
    return [*parts, part]


def block_of(found, text, modules):
    head = " ".join(found[3].split())
    generics, rest = "", head
    if found[2] == "impl" and rest.startswith("<"):
        end = closing(rest, 0)
        generics, rest = rest[:end], rest[end:].strip()
    rest, _, bounds = re.sub(r"(^|\s)where(\s|$)", "\0", rest, count=1).partition("\0")
    trait, of, kind = "", rest.strip(), found[2]
    if kind == "impl":
        parts = re.split(r"\bfor\b(?!<)", rest)
        trait, of = ("", parts[0].strip()) if len(parts) == 1 else (parts[0].strip(), parts[1].strip())
    else:
        name = re.match(r"\s*(\w+)", rest)
        generics = rest[name.end() :].partition(":")[0].strip() if rest[name.end() :].startswith("<") else ""
        of = name[1]
    return Block(kind, found[1].strip(), head, generics, trait, of, bounds.strip(), modules, (found.start(), closing(text, found.end() - 1)))


def blocks(code):
    """Yields the blocks of impls and traits of a masked text, each with the modules of the file that it stands in."""
    inside = []
    for found in BLOCK.finditer(code):
        while inside and inside[-1][1] < found.start():
            inside.pop()
        if found[2] == "mod":
            inside.append((found[3].strip(), closing(code, found.end() - 1)))
        else:
            yield block_of(found, code, tuple(name for name, _ in inside))


def functions(text):
    """Yields the functions of a source."""
    code = masked(text)
    around = list(blocks(code))
    at = 0
    while found := HEAD.search(code, at):
        at = found.end()
        generics = ""
        if code[at] == "<":
            end = closing(code, at)
            generics, at = code[at:end], end
        if code[at] != "(":
            continue
        end = closing(code, at)
        parameters, at = code[at + 1 : end - 1], end
        end = at
        while code[end] not in "{;" and not CLAUSE.match(code, end):
            end = closing(code, end) if code[end] in "([<" else end + 1
        tail, at = code[at:end], end
        returns, _, bounds = re.sub(r"(^|\s)where(\s|$)", "\0", tail, count=1).partition("\0")
        said = []
        while clause := CLAUSE.match(code, at):
            end = closing(code, clause.end() - 1)
            if clause[1]:
                said.append((clause[1], clause[2] or "", text[clause.end() : end - 1]))
            at = end
            at += len(re.match(r"\s*;?", code[at:])[0]) if re.match(r"\s*;\s*(requires|ensures)", code[at:]) else 0
        block = next((it for it in reversed(around) if it.span[0] <= found.start() < it.span[1]), None)
        line = text.count("\n", 0, found.start()) + 1
        above = text[: text.rfind("\n", 0, found.start()) + 1].splitlines()
        attributes = []
        while above and re.match(r"\s*(///|//|#\[)", above[-1]):
            attributes.append(above.pop().strip())
        yield Function(
            line, found[1].strip(), found[2].strip(), found[3], in_one(generics), in_one(parameters),
            in_one(returns.strip().removeprefix("->")), in_one(bounds), said, block, attributes,
        )
