"""Checks a crate with edits in it, and judges each edit by the goals of its own function."""
import collections
import os
import re
import shutil
import signal
import subprocess
import tempfile

from wrong_bodies.edits import applied
from wrong_bodies.kit import rt

REFUSED, MISSED, BAD, BY_A_NAME, ABOVE, UNSURE = "REFUSED", "MISSED", "BAD EDIT", "BY A NAME", "above", "could not tell"
# A check's status, its lines, the verdict that it prints of each function, the texts that the edits made, and its CPU seconds.
Ran = collections.namedtuple("Ran", "status lines functions texts seconds")
PLACE = re.compile(r"(note: )?(?:\./)?((?:src|proofs|specs)/\S+?):(\d+):\d+: (?:(error(?:\[[\w-]+\])?): )?(.*)")
# What a proof file cites is gone: such a line alone says little of the contract. The words are those of `rt`.
LOST_NAME = re.compile(r"has no field|is not in scope|has no `|was not admitted")


def checked(crate, room, group, sources):
    """Checks the copy of the crate in the folder `room` with a group's edits in it, over what the checks of earlier groups left there."""
    texts = {}
    for edit in group:
        texts = applied(texts, edit, sources)
    for file, text in texts.items():
        with open(f"{room}/{file}", "w", encoding="utf-8") as it:
            it.write(text)
    only = set().union(*(edit.only for edit in group))
    flags = ["--jobs", "1"]
    for it in sorted(only) if None not in only else ():
        flags += ["--only", it]
    words = [*rt.rtlib.guarded(), rt.rtlib.RATTLE, "check", *crate.words(flags, keeps=False), "--incremental", f"{room}/kept"]
    status, lines, seconds = run(words, room)
    if status == -signal.SIGKILL:
        # Most likely for memory.
        status, lines, more = run(words, room)
        seconds += more
    for file in texts:
        shutil.copyfile(f"{crate.folder}/{file}", f"{room}/{file}")
    functions = dict(re.findall(rf"^fn {crate.name}::(\S+?): (.*)$", "\n".join(lines), re.M))
    return Ran(status, lines, functions, texts, seconds)


def run(words, folder):
    """Returns the command's status, its lines and its CPU seconds."""
    with tempfile.TemporaryFile("w+", errors="replace") as said:
        started = subprocess.Popen(words, cwd=folder, stdin=subprocess.DEVNULL, stdout=said, stderr=subprocess.STDOUT)
        _, ended, used = os.wait4(started.pid, 0)
        started.returncode = os.waitstatus_to_exitcode(ended)
        said.seek(0)
        return started.returncode, said.read().rstrip("\n").split("\n"), used.ru_utime + used.ru_stime


def goals_of(edit, ran, sources):
    """Returns the goals that the check refused in the proofs of the edit's own functions, each with the line that says so. The goals of a
    function are tried also where a callee is not proved, and the callee's contract stands as it was."""
    found = {}

    def add(goal, line):
        if goal not in found or LOST_NAME.search(found[goal]):
            found[goal] = line

    folders = set()
    for path, verdict in ran.functions.items():
        if edit.is_of(path) and not verdict.startswith("proved"):
            parts = path.split("::")
            # A function that calls itself has the folder of its cycle of calls.
            folders |= {"/".join(["proofs", *parts]), "/".join(["proofs", *parts[:-1], f"+{parts[-1]}"])}
            for part in verdict.split("; "):
                if re.match(r"`search` did not prove|the answers? to", part):
                    for goal in set(re.findall(r"`([^`]+)`", part)) - {"search"}:
                        add(goal, part)
    for line in ran.lines:
        at = PLACE.match(line)
        if not at:
            continue
        if at[4] == "error" and any(at[2].startswith(f"{it}/") for it in folders):
            goal = re.match(r"`([^`]+)`: ", at[5])
            add(goal[1] if goal else "?", line)
        elif at[1] and at[2].startswith("src/") and "it is not proved" in line:
            text = ran.texts.get(at[2]) or sources.text(at[2])
            if any(edit.is_of(it) for it in sources.paths_at_line(at[2], int(at[3]), text)):
                goal = re.search(r"\(`([^`]+)`\)", line)
                add(goal[1] if goal else "?", line)
    return found


def unread(edit, ran, sources, is_alone):
    """Returns the line by which the edit's text does not compile, or cannot be read; None if there is none."""
    for line in ran.lines:
        at = PLACE.match(line)
        if not at or not at[4] or not at[2].startswith(("src/", "specs/")):
            continue
        if at[4] == "error" and not rt.unread(line, ran.texts):
            continue
        text = ran.texts.get(at[2]) or sources.text(at[2])
        paths = sources.paths_at_line(at[2], int(at[3]), text) if at[2].startswith("src/") else ()
        if is_alone or any(edit.is_of(it) for it in paths):
            return line
    return None


def judged(edit, ran, sources, is_alone):
    """Returns what a check says of an edit, and what shows it: the refused goals, or a line."""
    bad = unread(edit, ran, sources, is_alone)
    if bad and ran.status == 1:
        return BAD, bad
    if ran.status not in (0, 1, 3) or not ran.functions:
        return UNSURE, next((it for it in ran.lines if "error" in it), f"the check ended with status {ran.status}")
    own = {path: verdict for path, verdict in ran.functions.items() if edit.is_of(path)}
    failed = {path: verdict for path, verdict in own.items() if not verdict.startswith("proved")}
    goals = goals_of(edit, ran, sources)
    refused = sorted(goal for goal, line in goals.items() if not LOST_NAME.search(line))
    if refused:
        return REFUSED, refused
    if goals:
        return BY_A_NAME, next(iter(goals.values()))
    if not own:
        return UNSURE, "the check printed no line of its function"
    if not failed:
        return MISSED, f"{', '.join(sorted(own)[:4])}: proved"
    path, verdict = next(iter(failed.items()))
    is_above = re.search(r"it calls |(is|are) not proved|wait for a callee", verdict)
    return ABOVE if is_above and not is_alone else UNSURE, f"{path}: {verdict}"
