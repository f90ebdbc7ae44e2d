"""Controls of the tool: edits of a small crate, of each of which it is known what the tool has to say."""
import contextlib
import io
import os
import tempfile

from wrong_bodies.edits import TABLES
from wrong_bodies.kit import rt
from wrong_bodies.tries import Tries

SOURCE = """//! Numbers that are made of numbers.
#![tactic(auto)]

ghost use Rattle.std.specs.Prelude.{◌≡◌, ◌+◌, ◌≤◌};

/// Returns twice the number.
pub fn doubled(n: u32) -> u64
    ensures { result ≡ n + n }
{
    u64::from(n) + u64::from(n)
}

/// Returns three times the number.
pub fn tripled(n: u32) -> u64
    ensures { result ≡ n + n + n }
{
    doubled(n) + u64::from(n)
}

/// Returns the number that is no less.
pub fn larger(a: u32, b: u32) -> u32
    ensures left { a ≤ result }
    ensures right { b ≤ result }
{
    if a < b { b } else { a }
}

/// Returns the number that is no more.
pub fn smaller(a: u32, b: u32) -> u32
    ensures left { result ≤ a }
    ensures right { result ≤ b }
{
    if a < b { a } else { b }
}

/// Returns the number that is no more, with a proof of its own.
pub fn least(a: u32, b: u32) -> u32
    ensures left { result ≤ a }
    ensures right { result ≤ b }
{
    if a <= b { a } else { b }
}

/// Returns the sum.
pub fn sum(a: u32, b: u32) -> u64
    ensures { result ≡ a + b }
{
    u64::from(a) + u64::from(b)
}
"""
PROOF = """use Rattle.std.proofs.Common.{rules}
use Rattle.control.proofs.least.Goals as goal

pub returns-then-a-b-clause-right : goal.returns-then-a-b-clause-right
returns-then-a-b-clause-right c = search rules
"""
GATE, RELEASE = TABLES
# For each control its old and its new text, what its row names in each table, and how the line begins that the tool prints of it.
CONTROLS = {
    "false": ("u64::from(n) + u64::from(n)", "u64::from(n)", {GATE: "`returns`"}, "REFUSED control/false: returns"),
    # An edit that means the same as before, whatever a check says of it, must not be told as refused.
    "same": ("if a < b { b } else { a }", "if b < a { a } else { b }", {GATE: "`left`"}, "FAILED control/same: MISSED"),
    "same_above": ("doubled(n) + u64::from(n)", "u64::from(n) + doubled(n)", {GATE: "`returns`"}, "FAILED control/same_above: MISSED"),
    "of_no_goal": ("if a < b { a } else { b }", "a", {GATE: "`middle`"}, "FAILED control/of_no_goal: its row"),
    "same_renamed": ("if a <= b { a }", "if b >= a { a }", {GATE: "`returns`"}, "FAILED control/same_renamed: BY A NAME"),
    "unreadable": ("u64::from(a) + u64::from(b)", "u64::from(c)", {GATE: "`returns`"}, "FAILED control/unreadable: BAD EDIT"),
    "nowhere": ("u64::from(m)", "0", {GATE: "`returns`"}, "FAILED control/nowhere: BAD EDIT"),
    "no_row": ("u64::from(b)", "0", {}, "FAILED control/no_row: it has no row"),
    "two_tables": ("u64::from(b)", "0", {GATE: "`returns`", RELEASE: "`returns`"}, "FAILED control/two_tables: it stands in both tables"),
    "no_edit": (None, None, {RELEASE: "`returns`"}, "FAILED control/no_edit: the README has its row"),
}
# An edit above another edited function, with no refused goal of its own, has to be tried apart.
TOLD_APART = "control/same_above: once more, alone: tripled: no proof: it calls"


def write_crate(top):
    folder = f"{top}/crates/control"
    for part in ("src", "proofs/least", "wrong-bodies"):
        os.makedirs(f"{folder}/{part}")
    readme = ""
    for table in TABLES:
        rows = [f"| `{name}` | the edit {name} | {rows[table]} |\n" for name, (_, _, rows, _) in CONTROLS.items() if table in rows]
        readme += f"## {table}\n\n{''.join(rows)}"
    texts = {f"{top}/crates.txt": "control:\n", f"{folder}/src/lib.rt": SOURCE, f"{folder}/wrong-bodies/README.md": readme}
    texts[f"{folder}/proofs/least/Answers.antt"] = PROOF
    for name, (old, new, _, _) in CONTROLS.items():
        if old:
            texts[f"{folder}/wrong-bodies/{name}.edit"] = f"file: src/lib.rt\nold: {old}\nnew: {new}\n"
    for file, text in texts.items():
        with open(file, "w", encoding="utf-8") as it:
            it.write(text)


def controls():
    """Tries the controls, and returns 0 if the tool says of each what is known of it."""
    with tempfile.TemporaryDirectory(prefix="wrong-bodies-") as top:
        write_crate(top)
        with contextlib.redirect_stdout(io.StringIO()) as said:
            tries = Tries(rt.rtlib.crates_below(top)[0])
            tries.try_all()
    lines = said.getvalue().split("\n")
    wanted = [*(control[-1] for control in CONTROLS.values()), TOLD_APART]
    lacking = [it for it in wanted if not any(line.startswith(it) for line in lines)]
    for it in lacking:
        print(f"FAILED: no line begins with '{it}'")
    if lacking:
        print("\n".join(lines))
    print(f"CPU {tries.seconds:.0f} s in {tries.checks} checks")
    print(f"{len(wanted) - len(lacking)} passed, {len(lacking)} failed")
    return int(len(lacking) > 0)
