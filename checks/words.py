"""The definitions of the code: nothing stands there unused, and no line of definitions, clauses and proofs goes beyond 100
columns, those apart that import names.

Comments and strings are left out. Used is what another function, definition, clause or lemma names: a function of src/, a
definition of specs/ and a lemma of proofs/. Laws, which are functions without a body or call others without arguments, tests,
the functions of a trait and answers of goals need no use, and no rows of computation.
"""

from __future__ import annotations

import re
import sys
from collections import defaultdict
from pathlib import Path

TOP = Path(__file__).resolve().parent.parent

# How many columns a line may have: of code, which rt fmt sees to, a clause, a definition or a proof.
WIDEST = 100

# What makes up a program by itself, or is what a worked row says.
ROOTS = {"main"}
LAW = re.compile(r"(?m)^\s*\{(?:\n(?: +\w+\(\);\n)+)?\}\Z")
ROWS = re.compile(r"(^|/)(Worked|Rows|\w*Rows|OpenMessages|Computing)(\.antt|/)")


def code(file: Path) -> str:
    """The text of a file without comments and strings, line by line."""
    text = file.read_text(encoding="utf-8")
    if file.suffix == ".antt":
        return re.sub(r'"[^"\n]*"|(?m:(?:^|(?<=[\s(]))--(?=[ -]|$).*$)', "", text)
    return re.sub(r'r#".*?"#|"(?:[^"\\]|\\.)*"|\'(?:[^\'\\]|\\.)\'|//[^\n]*', "", text, flags=re.S)


def functions(text: str) -> list[tuple[str, int, int]]:
    """The functions of a source that need a use: name, and the offsets of its text."""
    found = []
    for head in re.finditer(r"(?m)^([ \t]*)(?:pub(?:\([a-z]+\))? )?(?:const )?(?:unsafe )?fn (\w+)", text):
        end = re.compile(rf"(?m)^{head[1]}(?:\}}|\{{\}})$").search(text, head.end())
        stop = end.end() if end else len(text)
        is_law = end is not None and LAW.search(text[head.start() : stop]) is not None
        before = text[: head.start()].rstrip().rsplit("\n", 1)[-1].strip()
        around = re.findall(r"(?m)^(impl\b[^{]*|trait\b[^{]*|pub trait\b[^{]*)\{|^\}", text[: head.start()])
        of_trait = bool(head[1]) and bool(around) and (" for " in around[-1] or "trait " in around[-1])
        if not (is_law or of_trait or before == "#[test]" or head[2] in ROOTS):
            found.append((head[2], head.start(), stop))
    return found


def definitions(text: str) -> list[tuple[str, int, int]]:
    """The top-level definitions and lemmas of a file of antt: name, and the offsets of its text."""
    heads = list(re.finditer(r"(?m)^(?:  )?(?:(?:abbrev|unfoldable|opaque|pub|data|record) )*([A-Za-z_][\w-]*)", text))
    found: list[tuple[str, int, int]] = []
    within = ""
    for at, head in enumerate(heads):
        if not head[0].startswith("  "):
            within = head[0]
        elif "record" in within or "data" in within:
            continue  # a field or a constructor
        stop = heads[at + 1].start() if at + 1 < len(heads) else len(text)
        if found and found[-1][0] == head[1]:
            found[-1] = head[1], found[-1][1], stop
        else:
            found.append((head[1], head.start(), stop))
    declared = re.compile(r"(?:(?:abbrev|unfoldable|opaque|pub) )*[\w-]+ :")
    return [it for it in found if declared.match(text[it[1] : it[2]].lstrip())]


def unused(files: dict[Path, str]) -> list[str]:
    """What stands in the sources, definitions and proofs, and is named nowhere else."""
    uses: dict[str, list[tuple[Path, int]]] = defaultdict(list)
    for file, text in files.items():
        for word in re.finditer(r"[A-Za-z_][\w-]*", text):
            uses[word[0]].append((file, word.start()))
    found = []
    for file, text in files.items():
        if file.name in ("Answers.antt", "Invariants.antt", "Proof.antt", "Lib.antt") or ROWS.search(str(file)):
            continue
        parts = functions(text) if file.suffix == ".rt" else definitions(text)
        for name, start, stop in parts:
            imports = re.compile(r"\buse\b[^\n]*$")
            used = any(
                where != file or not start <= at < stop
                for where, at in uses[name]
                if not imports.search(files[where][files[where].rfind("\n", 0, at) + 1 : at])
            )
            if not used:
                found.append(f"{file.relative_to(TOP)}: nothing uses {name}")
    return found


def wide(files: dict[Path, str]) -> list[str]:
    """The lines that are too long to be read, without the texts that they quote: not those that import names."""
    found = []
    for file, text in files.items():
        for at, line in enumerate(text.split("\n"), 1):
            if len(line) > WIDEST and not re.match(r"\s*(?:(?:pub |ghost )*use |#\[)", line):
                found.append(f"{file.relative_to(TOP)}:{at}: {len(line)} columns")
    return found


def main() -> int:
    files = {
        file: code(file)
        for part in ("src", "specs", "proofs")
        for file in sorted(TOP.glob(f"crates/*/{part}/**/*"))
        if file.suffix in (".rt", ".antt")
    }
    faults: list[str] = []
    faults += unused(files) + wide(files)
    for fault in faults:
        print(fault)
    print(f"words: {len(files)} files, {len(faults)} faults")
    return 1 if faults else 0


if __name__ == "__main__":
    sys.exit(main())
