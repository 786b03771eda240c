#!/usr/bin/env python3
"""Tries wrong bodies: those of a crate in one check of it or two, each refused by a goal of the function that it changes.

    edits.py [--plan] [--strict] [--anew] [--lanes N] [CRATE ..]

It works on the repository in the current folder; with no crate, on each that has a folder wrong/. An edit is a file
crates/CRATE/wrong/NAME.edit: a line `file: src/FILE.rt`, and then pairs of lines `old: TEXT` and `new: TEXT`, each TEXT a
part of one line; `old:` stands in the file once, as the pairs before it have left that. It changes a value and keeps the
names that proofs cite. An edit of a constant has a line `in: MODULE::FUNCTION` that names the function that refuses it.

A function is proved from the contracts of what it calls and not from their bodies, so wrong bodies of different functions
don't touch each other. The edits of different functions of a crate are made in one copy, and one check of these functions
tells of each which goals of its own fail; to call a function that isn't proved is no goal of its own. A second edit of a
function is made in a twin of it: the same function under another name, beside it, with its contract and a copy of its proof.
A second one of a trait's method, or of a line in no function, waits for a second round: another copy. There is no third edit
of a function. The status is 0 where each edited function has a failed goal of its own. Else it is 1, and each fault is told
by name: an edit that isn't refused, one whose text is missing or stands there twice, one in no function, a third of one
function, and a function that is checked with them, has no edit and fails. An edit after which a proof names what is gone, and
no goal fails by what it says, shows nothing: it is told, and with --strict it is a fault.

The libraries below a crate are used as `rt ci` leaves them in out/; `rt check` would prove them once more, since it takes
only what checks have kept. At its end `rt ci` puts back what stood in out/rlib before, so an old library there is used, and
where an `rt ci` was broken off there is none. Nothing but a temporary copy is changed.

What a check said is kept in the user's cache folder, by a checksum of all that it read: the kit, the copy with its edits, and
the libraries. A later run tries only the crates of which any of this has changed; with --anew it tries all.
"""

import argparse
import contextlib
import hashlib
import os
import re
import shutil
import subprocess
import sys
import tempfile
from concurrent.futures import ThreadPoolExecutor, as_completed
from dataclasses import dataclass
from pathlib import Path

# What one check takes of memory, with room to spare.
LANE_BYTES = 3 << 30

# What is added to the name of a function in that of its twin.
AGAIN = "_again"

# Of how many checks of a crate it is kept what they said.
MOST_KEPT = 8


@dataclass(frozen=True)
class Edit:
    """A wrong body: what it makes of the lines of files, the function that has to refuse it, and where that is a twin, the
    place of the function whose twin it is: the file, the first line and the last."""

    name: str
    lines: dict[tuple[str, int], str]
    function: str
    twin: tuple[str, int, int] | None = None


class Fault(Exception):
    """An edit that can't be tried."""


def functions_of(text: str) -> list[tuple[int, int, str]]:
    """The functions of a file that rt fmt has laid out: first and last line, and the name, in its type where it has one."""
    found, around, end = [], "", ""
    lines = text.split("\n")
    for at, line in enumerate(lines):
        if head := re.match(r"impl\b(?:<[^{]*?>)?\s+(?:(\w+)(?:<[^{]*?>)? for )?(\w+)", line):
            around = head[2] + (head[1] or "") + "::"
        elif head := re.match(r"(?:pub )?trait (\w+)", line):
            around = head[1] + "::"
        elif line == "}":
            around = ""
        if head := re.match(r"(\s*)(?:pub(?:\([a-z]+\))? )?(?:const )?(?:unsafe )?fn (\w+)", line):
            end = head[1] + "}"
            last = next((it for it in range(at, len(lines)) if lines[it] in (end, head[1] + "{}")), at)
            found.append((at, last, around + head[2]))
    return found


def module_of(path: str) -> str:
    """The module of a source file, as the check prints it in front of a function's name."""
    return path.removeprefix("src/").removesuffix(".rt").removesuffix("/mod").replace("/", "::")


def function_at(path: str, text: str, line: int) -> str | None:
    """The function around a line, as a check prints it: by its type, or by its module where it has none."""
    around = [name for first, last, name in functions_of(text) if first <= line <= last]
    if not around:
        return None
    return around[-1] if "::" in around[-1] else f"{module_of(path)}::{around[-1]}"


def changed(file: Path, crate: Path) -> tuple[dict[tuple[str, int], str], str | None]:
    """The lines that an edit changes, those apart that it only lays out anew, and the function that it names."""
    before: dict[str, str] = {}
    after: dict[str, str] = {}
    path, old, named = "", None, None
    for line in file.read_text(encoding="utf-8").split("\n"):
        if line.startswith("file: "):
            path = line.removeprefix("file: ").strip()
            if path not in before:
                before[path] = after[path] = (crate / path).read_text(encoding="utf-8")
        elif line.startswith("in: "):
            named = line.removeprefix("in: ").strip()
        elif line.startswith("old: "):
            old = line.removeprefix("old: ")
        elif line.startswith("new:") and old is not None:
            count = after[path].count(old)
            if count != 1:
                raise Fault(f"its text {old.strip()!r} stands in {path} {count} times, and not once")
            after[path] = after[path].replace(old, line.removeprefix("new:").removeprefix(" "))
            old = None
    lines = {}
    for path, text in before.items():
        for at, (was, now) in enumerate(zip(text.split("\n"), after[path].split("\n"))):
            if was.strip() != now.strip():
                lines[path, at] = now
    return lines, named


def read(file: Path, crate: Path) -> Edit:
    """An edit, with the one function in which it stands."""
    lines, named = changed(file, crate)
    if not lines:
        raise Fault("it changes nothing")
    texts = {path: (crate / path).read_text(encoding="utf-8") for path, _ in lines}
    if named:
        stands = {
            name if "::" in name else f"{module_of(path.name)}::{name}"
            for path in (crate / "src").rglob("*.rt")
            for _, _, name in functions_of(path.read_text(encoding="utf-8"))
        }
        if named not in stands:
            raise Fault(f"there is no function {named}")
        return Edit(file.stem, lines, named)
    functions = {function_at(path, texts[path], at) for path, at in lines}
    if None in functions:
        raise Fault("it stands in no function: name the function that refuses it by a line 'in: MODULE::FUNCTION'")
    if len(functions) != 1:
        raise Fault(f"it stands in more than one function: {', '.join(sorted(map(str, functions)))}")
    return Edit(file.stem, lines, str(functions.pop()))


def touches(edit: Edit, others: list[Edit]) -> bool:
    """Whether an edit is of a function or of a line of which one of the others is. A twin has lines of its own."""
    return any(
        it.function == edit.function or not edit.twin and not it.twin and it.lines.keys() & edit.lines.keys()
        for it in others
    )


def as_twin(edit: Edit, crate: Path) -> Edit:
    """The edit of a twin of its function, or the same edit where that is a method of a trait or has lines elsewhere."""
    for path in {path for path, _ in edit.lines}:
        lines = (crate / path).read_text(encoding="utf-8").split("\n")
        for first, last, _ in functions_of("\n".join(lines)):
            if not all(it == path and first <= at <= last for it, at in edit.lines):
                continue
            heads = [it for it in lines[:first] if re.match(r"(?:pub )?(?:impl|trait)\b|\}", it)]
            if lines[first].startswith(" ") and not re.match(r"impl\b(?!.* for )", heads[-1]):
                continue
            while re.match(r" *(?:#\[|//)", lines[first - 1]):
                first -= 1
            return Edit(edit.name, edit.lines, edit.function + AGAIN, (path, first, last))
    return edit


def rounds_of(crate: Path) -> tuple[list[list[Edit]], list[str]]:
    """The edits of a crate, by the rounds in which they are tried together, and what is wrong with those that can't be."""
    first: list[Edit] = []
    second: list[Edit] = []
    faults = []
    for file in sorted((crate / "wrong").iterdir()):
        try:
            if file.suffix != ".edit":
                raise Fault("it is no edit: its name doesn't end in .edit")
            edit, room = read(file, crate), first
            if touches(edit, first):
                edit = as_twin(edit, crate)
                room = first if edit.twin else second
            if touches(edit, room):
                raise Fault(f"{edit.function.removesuffix(AGAIN)} or a line of it has two edits before it")
            room.append(edit)
        except (Fault, OSError) as why:
            faults.append(f"{crate.name}/{file.stem}: {why}")
    return [it for it in (first, second) if it], faults


def twin_of(edit: Edit, lines: list[str], crate: Path) -> list[str]:
    """The lines of the twin that an edit is made in, whose proof it copies in the copy of the crate."""
    path, first, last = edit.twin or ("", 0, -1)
    own, name = edit.function.removesuffix(AGAIN), edit.function.removesuffix(AGAIN).rpartition("::")[2]
    place = f"{module_of(path)}::{own.removeprefix(module_of(path) + '::')}".replace("::", "/")
    proof = crate / "proofs" / place
    if proof.is_dir():
        dotted = re.escape(place.replace("/", "."))
        for file in shutil.copytree(proof, proof.with_name(name + AGAIN)).rglob("*.antt"):
            text = file.read_text(encoding="utf-8")
            text = re.sub(rf"(Rattle\.{crate.name}\.(?:proofs|specs\.contracts)\.{dotted})\b", rf"\1{AGAIN}", text)
            file.write_text(text, encoding="utf-8")
    made = [edit.lines.get((path, at), lines[at]) for at in range(first, last + 1)]
    return [re.sub(rf"\bfn {name}\b", f"fn {name}{AGAIN}", line) for line in made]


def apply(edits: list[Edit], crate: Path) -> None:
    """Makes all edits in a copy of their crate."""
    lines = {place: line for edit in edits if not edit.twin for place, line in edit.lines.items()}
    twins = [edit for edit in edits if edit.twin]
    for path in {path for edit in edits for path, _ in edit.lines}:
        file = crate / path
        text = file.read_text(encoding="utf-8").split("\n")
        made = [[lines.get((path, at), line)] for at, line in enumerate(text)]
        for edit in twins:
            if edit.twin and edit.twin[0] == path:
                made[edit.twin[2]] += ["", *twin_of(edit, text, crate)]
        file.write_text("\n".join(line for part in made for line in part), encoding="utf-8")


# How a check says that what a proof names isn't there any more: a goal, a fact of a place, or a lemma that names one.
GONE = re.compile(r"(?:record|module) `[^`]*`(?: \(nearest: [^)]*\))? has no |is not in scope|was not admitted")


def part_of(goal: str) -> tuple[str, str]:
    """What a goal is of, without the branches in which it is asked: `returns-in-Some-clause-most` is of the clause `most`."""
    return re.split(r"-(?:in|in_\w+|then|else|after|clause)(?:-|$)", goal)[0], goal.partition("-clause-")[2]


def failed(said: str, crate: str) -> tuple[dict[str, str], dict[str, str]]:
    """The functions with a failed goal of their own, by the names that a check prints, and which goal it is; and those that
    fail since their proof names what isn't there any more, with what the check says of that.

    Where the name of a goal that a proof answers is gone, one of the same clause in another branch has lost its answer: its
    failure shows nothing, unless the check knows values at which it is false. Nothing does where an invariant is gone.
    """
    found, gone = {}, {}
    asked: list[tuple[str, str]] = []
    # A long message goes on in lines that begin with two blanks.
    said = said.replace("\n  ", " ")
    for line in said.split("\n"):
        if note := re.match(r"note: src/\S+: .*\(`([^`]*)`\)(.*)", line):
            asked.append((note[1], note[2]))
        if head := re.match(rf"fn {crate}::(\S+): (?:not proved|no proof)", line):
            folder = re.escape("proofs/" + head[1].replace("::", "/") + "/")
            errors = re.findall(rf"(?m)^(?:\./)?{folder}(\w+)\.antt:\S+ error: (?:`([^`]*)`: )?(.*)$", said)
            missing = [why for file, _, why in errors if file == "Invariants" or GONE.search(why)]
            lost = {
                part_of(goal) for why in missing for goal in re.findall(r"`goal\.([^`]*)`: module .* has no `", why)
            }
            goals = [goal for goal, why in asked if part_of(goal) not in lost or "this goal is false" in why]
            goals += [goal or why for _, goal, why in errors if why not in missing]
            if goals and not any(file == "Invariants" for file, _, _ in errors):
                found[head[1]] = f"`{goals[0]}`"
            elif missing:
                gone[head[1]] = missing[0][:200]
        if line.startswith("fn "):
            asked = []
    return found, gone


def uses_of(top: Path) -> dict[str, list[str]]:
    """What each crate stands on, by the lines of crates.txt."""
    uses = {}
    for line in (top / "crates.txt").read_text(encoding="utf-8").split("\n"):
        head, _, tail = line.partition("#")[0].partition(":")
        if head.strip():
            uses[head.split()[0]] = tail.split()
    return uses


def kit_of() -> Path:
    """The folder of the Rattle kit."""
    said = subprocess.run(["rt", "doc"], check=True, stdin=subprocess.DEVNULL, stdout=subprocess.PIPE, encoding="utf-8")
    return Path(said.stdout.strip()).parent


def library(name: str, top: Path) -> Path:
    """The folder in which a crate's library stands."""
    return top / "crates" / name / "out" / "rlib"


def below(name: str, top: Path) -> list[str]:
    """The crates of the repository on which a crate stands. Each has a library."""
    uses = uses_of(top)
    found: list[str] = []
    left = list(uses[name])
    while left:
        it = left.pop()
        if it in uses and it not in found:
            found.append(it)
            left += uses[it]
    for it in found:
        if not (library(it, top) / f"{it}.rlib").is_dir():
            raise Fault(f"{it} has no library in out/: remove crates/*/out and run `rt ci` first")
    return found


def words_of(name: str, only: list[str], top: Path) -> list[str]:
    """The words by which `rt check` has some functions of a crate checked, over the libraries that stand in the repository."""
    kit = kit_of()
    uses = uses_of(top)
    ours = [it for it in uses[name] if it in uses]
    kits = ["std"] + [it for it in uses[name] if it not in uses]
    words = [str(kit / "bin" / "rattle"), "check", "--crate-name", name, "src/lib.rt"]
    words += [word for it in kits for word in ("--extern", f"{it}={kit}/rlibs/{it}.rlib")]
    words += ["-L", f"dependency={kit}/rlibs"]
    words += [word for it in ours for word in ("--extern", f"{it}={library(it, top)}/{it}.rlib")]
    words += [word for it in below(name, top) for word in ("-L", f"dependency={library(it, top)}")]
    words += ["--antt-project", f"{kit}/rattle/logic/antt-project.json", "--logic-built", f"{kit}/logic_built"]
    words += ["--links", f"{name}=", "--jobs", "1", "--incremental", "out/incremental"]
    return words + [word for it in only for word in ("--only", it)]


def checksum(name: str, only: list[str], crate: Path, top: Path) -> str:
    """The sum of all that the check of a copy of a crate reads, and of this script's own text."""
    kit = kit_of()
    # A library's `format` has the sums of its other files.
    files = [kit / "KIT-ID", Path(__file__)]
    files += [library(it, top) / f"{it}.rlib" / "format" for it in sorted(below(name, top))]
    found = hashlib.sha256(repr((name, only, uses_of(top)[name])).encode())
    for file in files:
        found.update(repr((file.name, file.read_bytes())).encode())
    for file in sorted(it for it in crate.rglob("*") if it.is_file()):
        found.update(repr((str(file.relative_to(crate)), file.read_bytes())).encode())
    return found.hexdigest()


def cache() -> Path:
    """The folder of what checks said, outside of each checkout."""
    return Path(os.environ.get("XDG_CACHE_HOME") or Path.home() / ".cache") / "giopdump" / "edits"


def is_ended(said: str) -> bool:
    """Whether a check came to its end."""
    return re.search(r"(?m)^(?:logic=(?:not-)?proved|only=\d)", said) is not None


def checked(name: str, edits: list[Edit], top: Path, anew: bool) -> str:
    """What a check of the edited functions says of a copy of the crate, now or when it was made of the same."""
    only = [edit.function for edit in edits]
    with tempfile.TemporaryDirectory(prefix=f"edits-{name}-") as made:
        crate = Path(made) / name
        shutil.copytree(top / "crates" / name, crate, ignore=shutil.ignore_patterns("out", "wrong", "must-fail"))
        apply(edits, crate)
        kept = cache() / f"{name}-{checksum(name, only, crate, top)}"
        if kept.is_file() and not anew:
            return kept.read_text(encoding="utf-8")
        (crate / "out").mkdir()
        ran = subprocess.run(
            words_of(name, only, top),
            cwd=crate,
            check=False,
            stdin=subprocess.DEVNULL,
            stdout=subprocess.PIPE,
            stderr=subprocess.STDOUT,
            encoding="utf-8",
            errors="replace",
        )
        if is_ended(ran.stdout):
            keep(kept, ran.stdout)
        return ran.stdout


def keep(file: Path, text: str) -> None:
    """Keeps what the check of a crate said beside the newest others of that crate, or nothing if there is no room for it."""
    with contextlib.suppress(OSError):
        file.parent.mkdir(parents=True, exist_ok=True)
        part = file.with_suffix(f".{os.getpid()}")
        part.write_text(text, encoding="utf-8")
        part.replace(file)
        of_crate = file.parent.glob(file.name.partition("-")[0] + "-*")
        for old in sorted(of_crate, key=lambda it: it.stat().st_mtime)[:-MOST_KEPT]:
            old.unlink()


def tried(name: str, edits: list[Edit], top: Path, anew: bool) -> tuple[list[str], list[str], list[str]]:
    """What refuses each edit of a round, a line each; those that only take a name away; and what is wrong."""
    try:
        said = checked(name, edits, top, anew)
    except Fault as why:
        return [], [], [f"{name}: {why}"]
    if not is_ended(said):
        return [], [], [f"{name}: the check did not come to its end:\n{said[-1500:]}"]
    left, gone = failed(said, name)
    told, nameless, faults = [], [], []
    for edit in edits:
        hits = [it for it in [*left, *gone] if it == edit.function or it.endswith("::" + edit.function)]
        if not hits:
            faults.append(f"{name}/{edit.name}: not refused in {edit.function}")
        elif goal := left.pop(hits[0], ""):
            told.append(f"{name}/{edit.name}: refused in {hits[0].removesuffix(AGAIN)} by {goal}")
        else:
            nameless.append(
                f"{name}/{edit.name}: takes a name away in {hits[0]}, and no goal refuses it: {gone.pop(hits[0])}"
            )
    faults += [f"{name}: {it} has no edit, and fails by {goal}" for it, goal in (left | gone).items()]
    return told, nameless, faults


def size_of(crate: Path) -> int:
    """How much there is to prove, about: the octets of sources and proofs."""
    return sum(it.stat().st_size for part in ("src", "proofs") for it in (crate / part).rglob("*") if it.is_file())


def lanes_of() -> int:
    """As many checks side by side as there are processors, and memory."""
    found = re.search(r"(?m)^MemAvailable: *(\d+) kB$", Path("/proc/meminfo").read_text(encoding="utf-8"))
    memory = int(found[1]) << 10 if found else LANE_BYTES
    return max(1, min(len(os.sched_getaffinity(0)), memory // LANE_BYTES))


def main() -> int:
    words = argparse.ArgumentParser(description=__doc__, formatter_class=argparse.RawDescriptionHelpFormatter)
    words.add_argument("--plan", action="store_true", help="read the edits and try none")
    words.add_argument("--strict", action="store_true", help="an edit that only takes a name away is a fault")
    words.add_argument("--anew", action="store_true", help="try also what an earlier run of the same files has tried")
    words.add_argument("--lanes", type=int, default=lanes_of(), help="how many checks run side by side")
    words.add_argument("crates", nargs="*")
    asked = words.parse_args()
    top = Path.cwd()
    names = asked.crates or [it.parent.name for it in top.glob("crates/*/wrong")]
    names.sort(key=lambda it: -size_of(top / "crates" / it))
    plans, nameless, faults = {}, [], []
    for name in names:
        plans[name], wrong = rounds_of(top / "crates" / name)
        faults += wrong
    if asked.plan:
        for name, rounds in sorted(plans.items()):
            print(f"{name}: {' and '.join(str(len(it)) for it in rounds)} edits")
    else:
        with ThreadPoolExecutor(asked.lanes) as lanes:
            runs = [
                lanes.submit(tried, name, edits, top, asked.anew) for name, rounds in plans.items() for edits in rounds
            ]
            for run in as_completed(runs):
                told, without, wrong = run.result()
                print("\n".join(told), flush=True)
                nameless += without
                faults += wrong
    if asked.strict:
        faults, nameless = faults + nameless, []
    for line in nameless + faults:
        print(line)
    counts = f"{len(nameless)} of which take a name away alone, {len(faults)} faults"
    tries = sum(len(edits) for rounds in plans.values() for edits in rounds)
    print(f"edits: {tries} tried of {len(plans)} crates, {counts}")
    return 1 if faults else 0


if __name__ == "__main__":
    sys.exit(main())
