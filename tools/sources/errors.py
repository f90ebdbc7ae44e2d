"""Says of a call's type whether its error has several values, and of its clauses whether one says which error comes."""
import re

from sources.functions import closing, masked, split_at
from sources.scopes import Item, leads, read, scope_of

# The words of specs/ that say of a result, which is one of their arguments, also which errors it may be, and why.
WORDS = {
    "AnswersBy": "the error is the outcome's or OutOfMemory (ark_base, Outcome)",
    "Answers": "AnswersBy, the value as it is (ark_base, Outcome)",
    "LacksMemoryOnly": "the only error is OutOfMemory (ark_base, Outcome)",
    "Reads": "AnswersBy of a reading, which has its fault (ark_base, Reading)",
    "GivesBy": "the error stands for the outcome's or for a lack of memory (merkle_log, Given)",
    "FileGivesBy": "the error is the outcome's or a lack of memory (log_file, Faults)",
    "NoteGivesBy": "the error is the outcome's or a lack of memory (signed_notes, Faults)",
    "SaysBy": "the error, with its line, is the outcome's or a lack of memory (signed_notes, PolicyFiles)",
    "ListsBy": "the error, with its line, is the outcome's or a lack of memory (signed_notes, LogLists)",
    "PolicyGivesBy": "the error is the outcome's or a lack of memory (signed_notes, PolicyFiles)",
    "CallGivesBy": "the error is the outcome's or a lack of memory (paxidore_calls, Answer)",
    "RaisesNeeded": "the error stands for a refusal of the hash or for a lack of memory (merkle_log, Edge)",
    "IsRefusedFor": "a fault is the outcome's, Memory, or Damaged of a damaged file; the rest is the disk's (log_store, Refused)",
    "IsRefusedAfter": "IsRefusedFor, or Other of a file that is not that log's (log_store, Refused)",
    "IsUnrecovered": "the only fault is NoLog, of a file of which nothing can be recovered; the rest is the disk's (log_store, Refused)",
    "IsOfDisk": "there is no fault, only the disk's (log_store, Refused)",
    "IsUntiled": "the only fault is Index; the rest is the disk's (log_tiles, Tiles)",
    "IsOnlyMemory": "the only fault is Memory; the rest is the disk's (log_store, Refused)",
    "AppendsBytes": "the only error is OutOfMemory (ark_absorb, Appending)",
    "AppendsElements": "the error is that of the elements or OutOfMemory (ark_absorb, Appending)",
    "HashesAhead": "the only error is OutOfMemory (ark_crh, Ahead)",
    "AnswersOver": "Answers of the items that were taken (ark_paths, Leaves)",
    "IsNextKnown": "the only error is that the tree hides a part, where it does (merkle_map, Order)",
    "Stores": "the only error is OutOfMemory (merkle_map, Whole)",
    "IsOkUnless": "the only error is the one that it names (the kit's Prelude)",
}
# Views of a result that keep its error: an equation of such a view says which one it is.
VIEWS = ("seen_by", "found_seen", "next_seen", "outcome_with", "string_outcome", "result_map_both")
# The words that say which code a call for C returns.
CODES = {
    "GivesCode": "this code, or that of a lack of memory (paxidore_calls, Answer)",
    "GivesNext": "the code of the first entry's outcome, or of a lack of memory (paxidore_c, Maps)",
    "Hands": "the code of the outcome, of too little room, or of a lack of memory (paxidore_calls, Answer)",
    "Replaces": "the code of the outcome, or of a lack of memory (paxidore_calls, Transcript)",
    "TellsVerdict": "0 or 1 as the outcome has it, else that of its error (paxidore_page, Code)",
}


def result_of(returns):
    """Returns the error's type of a `Result`, "" where an alias leaves it out; None of another type."""
    found = re.fullmatch(r"(?:[\w:]+::)?Result<(.*)>", returns, re.S)
    parts = [it.strip() for it in split_at(found[1], ",") if it.strip()] if found else []
    return None if not found else parts[1] if len(parts) > 1 else ""


def inside_of_type(item):
    """Returns what stands between the brackets of a struct or an enum."""
    text = masked(read(item.path))
    at = sum(len(line) + 1 for line in text.split("\n")[: item.number])
    end = re.compile(rf"\b{item.kind} {item.name}\b").search(text, at).end()
    while text[end] not in "{(;":
        end = closing(text, end) if text[end] == "<" else end + 1
    return "" if text[end] == ";" else text[end + 1 : closing(text, end) - 1]


def has_several(scope, error, seen=()):
    """Returns whether an error's type has more than one value, as far as the crates tell: of a type of the kit they do not. A type that is
    a parameter, or a trait's, may have several."""
    path = re.match(r"[\w:]*", error.strip())[0].strip(":")
    if error.strip() in ("", "()"):
        return False
    item = leads(scope, tuple(path.split("::"))) if path else None
    if not isinstance(item, Item) or item in seen:
        return True
    if item.kind == "use":
        return False
    if item.kind == "type":
        target = re.search(rf"\btype {item.name}\b[^=]*=\s*([^;]+);", masked(read(item.path)))[1]
        return has_several(scope_of(item), target, (*seen, item))
    parts = [it.strip() for it in split_at(re.sub(r"#\[[^\]]*\]", "", inside_of_type(item)), ",") if it.strip()]
    return len(parts) > 1 or bool(parts and (item.kind == "struct" or re.search(r"[({]", parts[0])))


def arguments(text, at):
    """Yields the arguments that follow a word of a clause: names, or texts in brackets."""
    while True:
        at += len(re.match(r"\s*", text[at:])[0])
        end = at
        # `⟦<T as Trait>⟧.member` and `(f x).member` are one argument
        while end < len(text) and re.match(r"[({⟦\w.'\[\]]", text[end]):
            end = text.index("⟧", end) + 1 if text[end] == "⟦" else closing(text, end) if text[end] in "({" else end + 1
        if end == at:
            return
        yield text[at:end]
        at = end


def names_its_case(function):
    """Returns whether a text `(λ e. ..)` says what e is, or that there is none. That it is not some error leaves it open."""
    found = re.match(r"\(λ\s*(\w+)\s*\.(.*)\)$", function, re.S)
    return not found or found[2].strip() == "⊥" or found[1] != "_" and bool(re.search(rf"\b{found[1]}\b(?!\s*≢)", found[2]))


def says_which(clause):
    """Returns whether a clause says of an error which one it is, so that another one in its place would break it."""
    if re.search(r"\bresult\b", clause) is None:
        return False
    for found in re.finditer(rf"(?<![\w.])(?:{'|'.join(WORDS)}|\w+_gives|gives)\b", clause):
        if any(it == "result" or it.endswith(" result)") and it[1:].split()[0] in VIEWS for it in arguments(clause, found.end())):
            return True
    for word, place in (("IfErr", 1), ("MatchResult", 2), ("ForErr", 1)):
        for found in re.finditer(rf"\b{word}\b", clause):
            given = list(arguments(clause, found.end()))
            if len(given) > place and given[0] == "result" and names_its_case(given[place]):
                return True
    never = re.search(r"\b(IsOk|IsOkAnd) result\b", clause)
    return "all" in equations(clause) or bool(never) and "→" not in clause[: never.start()]


def equations(clause):
    """Yields for each equation of the result that no arrow follows what it says: Ok, Err, or all where it is decided by it."""
    for found in re.finditer(r"\bresult\s*≡\s*(.*)|≡([^≡→]*)\bresult\b(.*)", clause, re.S):
        side = found[1] if found[1] is not None else found[3]
        before = clause[: found.start()] if found[1] is not None else found[2]
        # what follows inside of a function is no condition
        if re.search(r"→", re.sub(r"\(λ.*", "", side, flags=re.S)):
            continue
        if re.search(r"[\w)⟧]\s*$", before) and not re.search(r"\b(in|gives)\s*$", before):
            if any(re.search(rf"\b{word}\b", before) for word in VIEWS):
                yield "all"
            continue
        made = re.match(r"\(?\s*(Ok|Err)\b", side) if found[1] is not None else None
        yield "all" if not made or "→" not in clause[: found.start()] else made[1]


def decides_errors(clauses):
    """Returns whether the clauses of a call say which error comes: one of them does, or they say where it is Ok and where it is Err."""
    return any(map(says_which, clauses)) or {"Ok", "Err"} <= {it for text in clauses for it in equations(text)}


def decides_codes(clauses):
    """The same of a call for C, whose code stands for an error."""
    words = "|".join(CODES)
    return any(re.search(rf"(?<![\w.])({words})\b", text) and re.search(r"\bresult\b", text) or "all" in equations(text) for text in clauses)


def speaks_of_errors(clause):
    """Returns whether a clause says anything of an error."""
    return bool(re.search(r"\bresult\b", clause)) and bool(re.search(r"\b(Err|IfErr|OnErr|ForErr)\b", clause))
