"""What checks/edits.py says of edits that show nothing: each is told by name, and the status is 1.

The edits below take the place of those of giop_octets, in a copy of it in which the contract of one reader is weaker, and two
functions have answers that the check finds by itself.
"""

from __future__ import annotations

import shutil
import subprocess
import sys
import tempfile
from pathlib import Path

CRATE = "giop_octets"
TOP = Path(__file__).resolve().parent.parent

# A contract, and what it is weakened to.
CONTRACT = (
    "src/reading.rt",
    "drop offset octets.now ≡ n ∷ rest → result ≡ n }",
    "drop offset octets.now ≡ n ∷ rest → result ≡ result }",
)

# Answers that are put into the copy: the function's folder, and for each goal what the answer is.
ANSWERS = {
    "reading/optional_at": {"four_at-requires c": "omega (arith, c.requires.room)"},
    "writing/put_held": {
        "returns-clause-len g c": "omega (arith, c.push.ensures.len, c.put_octets.ensures.len, c.put_zeros.ensures.len)"
    },
}

# Name, file, `old:`, `new:`, the function that the edit names (none where it stands in one), and what is told of it.
# fmt: off
EDITS = [
    ("is_refused", "src/writing.rt", "for _ in 0..count", "for _ in 1..count", None,
     "refused in writing::put_zeros"),
    ("changes_no_meaning", "src/writing.rt", "put_octets(out, &u32::to_be_bytes(n));", "put_octets(out, &n.to_be_bytes());", None,
     "not refused in writing::put_four"),
    ("has_a_weaker_contract", "src/reading.rt", "    octets[offset]", "    octets[0]", None,
     "not refused in reading::octet_at"),
    ("changes_nothing", "src/writing.rt", "for _ in 0..count", "for _ in 0..count", None,
     "it changes nothing"),
    ("is_of_no_function", "src/writing.rt", "&u64::to_be_bytes(n)", "&[0; 8]", "writing::put_nine",
     "there is no function writing::put_nine"),
    ("stands_in_no_function", "src/writing.rt", "use arrayvec::ArrayVec;", "use arrayvec::ArrayVec as Vec;", None,
     "it stands in no function"),
    ("stands_there_twice", "src/writing.rt", "out.push(", "out.insert(0, ", None,
     "and not once"),
    ("text_is_gone", "src/writing.rt", "out.pop()", "out.clear()", None,
     "stands in src/writing.rt 0 times"),
    ("is_second_of_a_function", "src/writing.rt", "in 0..count {", "in 2..count {", None,
     "refused in writing::put_zeros"),
    ("is_third_of_a_function", "src/writing.rt", "in 0..count {", "in 3..count {", None,
     "writing::put_zeros or a line of it has two edits before it"),
    ("takes_an_invariant_away", "src/writing.rt", "for octet in octets {", "for one in octets { let octet = one;", None,
     "takes a name away in writing::put_octets, and no goal refuses it"),
    ("takes_a_goal_away", "src/reading.rt", "Some(four_at(octets, offset + 1))", "let n = four_at(octets, offset + 1); Some(n)", None,
     "takes a name away in reading::optional_at, and no goal refuses it"),
    ("is_refused_by_another_goal", "src/writing.rt", "put_octets(out, octets);", "put_zeros(out, octets.len());", None,
     "refused in writing::put_held by `returns-clause-put`"),
]
# fmt: on


def copied(room: Path) -> None:
    """The crate with its weaker contract and the edits, as a repository of its own."""
    (room / "crates.txt").write_text(f"{CRATE}: arrayvec\n", encoding="utf-8")
    crate = room / "crates" / CRATE
    shutil.copytree(TOP / "crates" / CRATE, crate, ignore=shutil.ignore_patterns("out", "wrong"))
    file, strong, weak = CONTRACT
    text = (crate / file).read_text(encoding="utf-8")
    assert text.count(strong) == 1, f"{strong!r} stands in {file} {text.count(strong)} times"
    (crate / file).write_text(text.replace(strong, weak), encoding="utf-8")
    for folder, answers in ANSWERS.items():
        goals = f"Rattle.{CRATE}.proofs.{folder.replace('/', '.')}.Goals as goal"
        lines = ["use Rattle.std.proofs.Common.{arith}", f"use {goals}"]
        for goal, answer in answers.items():
            name = goal.split()[0]
            lines += [f"pub {name} : goal.{name}", f"{goal} = {answer}"]
        (crate / "proofs" / folder).mkdir(parents=True, exist_ok=True)
        (crate / "proofs" / folder / "Answers.antt").write_text("\n".join(lines) + "\n", encoding="utf-8")
    (crate / "wrong").mkdir()
    for name, path, old, new, function, _ in EDITS:
        named = f"in: {function}\n" if function else ""
        (crate / "wrong" / f"{name}.edit").write_text(
            f"file: {path}\n{named}old: {old}\nnew: {new}\n", encoding="utf-8"
        )


def main() -> int:
    with tempfile.TemporaryDirectory(prefix="edits-faults-") as made:
        copied(Path(made))
        ran = subprocess.run(
            [sys.executable, str(TOP / "checks" / "edits.py"), "--strict"],
            cwd=made,
            check=False,
            stdin=subprocess.DEVNULL,
            stdout=subprocess.PIPE,
            stderr=subprocess.STDOUT,
            encoding="utf-8",
        )
    lines = ran.stdout.splitlines()
    missing = [
        f"{name}: {told}"
        for name, *_, told in EDITS
        if not any(line.startswith(f"{CRATE}/{name}: ") and told in line for line in lines)
    ]
    faults = sum(not told.startswith("refused") for *_, told in EDITS)
    if ran.returncode != 1 or missing or len(lines) != len(EDITS) + 1 or f"{faults} faults" not in lines[-1]:
        print(ran.stdout, f"status {ran.returncode}", *(f"not told: {it}" for it in missing), sep="\n")
        return 1
    print(f"edits: {len(EDITS)} tried, {faults} of which show nothing and are told")
    return 0


if __name__ == "__main__":
    sys.exit(main())
