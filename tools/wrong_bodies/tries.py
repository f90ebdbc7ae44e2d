"""Tries the wrong bodies of crates, and counts them."""
import contextlib
import glob
import os
import shutil
import tempfile
import threading

from wrong_bodies.checks import ABOVE, BAD, BY_A_NAME, REFUSED, UNSURE, checked, judged
from wrong_bodies.edits import Edit, Rows, groups_of
from wrong_bodies.functions import Sources
from wrong_bodies.kit import rt

printing = threading.Lock()


def say(text):
    with printing:
        print(text, flush=True)


class Tries:
    """The tries of one crate's edits: those of the gate, or all. A fault of the README counts as a failure, whichever are tried."""

    def __init__(self, crate, only_gate=False):
        self.crate, self.sources, self.rows = crate, Sources(crate), Rows(f"{crate.folder}/wrong-bodies")
        self.seconds, self.checks, self.passed, self.failed = 0.0, 0, 0, 0
        files = sorted(glob.glob(glob.escape(f"{crate.folder}/wrong-bodies") + "/*.edit"))
        edits = [Edit(self.sources, it) for it in files]
        self.faults = dict(self.rows.faults)
        for it in edits:
            if it.name not in self.rows.of:
                self.faults.setdefault(it.name, "it has no row in the README")
        for name in self.rows.of.keys() - {it.name for it in edits}:
            self.faults.setdefault(name, "the README has its row, and there is no such edit")
        sound = [it for it in edits if it.name not in self.faults]
        self.edits = [it for it in sound if not only_gate or self.rows.of[it.name][0] == "gate"]

    def fail(self, name, why):
        self.failed += 1
        say(f"FAILED {self.crate.name}/{name}: {why[:400]}")

    def settle(self, edit, verdict, shown):
        """Counts an edit, and prints what it came to."""
        if verdict != REFUSED:
            self.fail(edit.name, f"{verdict}: {shown}")
        elif not self.rows.tell(edit, shown):
            self.fail(edit.name, f"its row names no goal that refuses it: {', '.join(shown)}")
        else:
            self.passed += 1
            say(f"REFUSED {edit.label}: {', '.join(shown)}")

    def try_all(self, is_begun=False):
        """Tries the edits; `is_begun` says that the checks may begin with what `rt check` kept of the crate."""
        for name, why in sorted(self.faults.items()):
            self.fail(name, why)
        for edit in self.edits:
            if edit.why:
                self.settle(edit, BAD, edit.why)
        ready = [it for it in self.edits if not it.why]
        if not ready:
            return
        with tempfile.TemporaryDirectory(prefix="wrong-bodies-") as room:
            for part in rt.rtlib.PARTS:
                if os.path.isdir(f"{self.crate.folder}/{part}"):
                    shutil.copytree(f"{self.crate.folder}/{part}", f"{room}/{part}")
            if is_begun:
                with contextlib.suppress(OSError, shutil.Error):
                    shutil.copytree(f"{self.crate.folder}/out/incremental", f"{room}/kept")
            os.makedirs(f"{room}/kept", exist_ok=True)
            for group in groups_of(ready, self.sources):
                self.try_group(room, group)
        say(f"{self.crate.name}: {len(self.edits)} edits in {self.checks} checks, CPU {self.seconds:.0f} s")

    def check(self, room, group):
        ran = checked(self.crate, room, group, self.sources)
        self.seconds, self.checks = self.seconds + ran.seconds, self.checks + 1
        return ran

    def try_group(self, room, group):
        """Tries a group, and once more those of its edits that it says nothing of."""
        ran, is_alone = self.check(room, group), len(group) == 1
        named = "\n".join(ran.lines) if ran.status == 2 else ""
        lost = [it for it in group if not it.items and any(f"`{path}`" in named for path in it.only)]
        if lost:
            # No function has the path, or several, which ends the check of the whole group: such an edit is judged by its modules.
            for edit in lost:
                edit.take_modules()
            for more in [*([it] for it in lost), [it for it in group if it not in lost]]:
                self.try_group(room, more) if more else None
            return
        verdicts = {edit.name: judged(edit, ran, self.sources, is_alone) for edit in group}
        bad = [it for it in group if verdicts[it.name][0] == BAD]
        again = [it for it in group if it not in bad] if bad and not ran.functions else []
        for edit in group:
            verdict, shown = verdicts[edit.name]
            if edit in again:
                continue
            if verdict == UNSURE or verdict in (ABOVE, BY_A_NAME) and not is_alone:
                say(f"{edit.label}: once more, alone: {shown[:200]}")
                verdict, shown = judged(edit, self.check(room, [edit]), self.sources, is_alone=True)
            self.settle(edit, verdict, shown)
        if again:
            # The front end stopped at the bad edits alone.
            self.try_group(room, again)


def stale_library(crate, start):
    """Returns a library that the run before has not proved and built, of the crate itself or below it; None if there is none. Without the
    time of a start, the kit's own stamps say so."""
    for it in [*crate.below(), *([crate] if crate.makes_rlib() else [])]:
        is_built = os.path.isdir(it.rlib) and os.path.getmtime(it.rlib) > start if start is not None else it.is_built()
        if not is_built:
            return it.name
    return None


def try_crates(tries, start):
    """Tries the edits of crates side by side, those with most work first; prints the counts, and returns the status."""
    if os.environ.get("JOBS"):
        os.environ["RT_JOBS"] = os.environ["JOBS"]
    # Its first call sets a signal's handler, which only the main thread may.
    rt.rtlib.guarded()
    tasks = {}
    for it in tries:
        stale = stale_library(it.crate, start) if it.edits else None
        if stale:
            # `rt ci` puts back what stood in out/ before it.
            how = "run `rt all check` first" if start is None else "remove crates/*/out, and begin with `rt ci` again"
            it.fail("*", f"the library {stale} is not there as the last run has proved it: {how}")
            continue
        weight, memory = it.crate.count(rb"\n") * (1 + len(it.edits)), rt.need(it.crate)
        tasks[it.crate.name, "edits"] = [], weight, memory, lambda given, jobs, it=it: it.try_all(is_begun=start is None)
    rt.in_lanes(tasks)
    passed, failed = (sum(getattr(it, word) for it in tries) for word in ("passed", "failed"))
    print(f"CPU {sum(it.seconds for it in tries):.0f} s in {sum(it.checks for it in tries)} checks")
    print(f"{passed} passed, {failed} failed")
    return int(failed > 0)
