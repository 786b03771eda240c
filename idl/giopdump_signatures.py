"""Back end of omniORB's IDL compiler that writes a signature file for giopdump.

    omniidl -bgiopdump_signatures orders.idl > orders.sig

The file has the operations and exceptions of orders.idl and of what it includes, and the types that they need. Of several
IDL files it writes one signature file, as if the first included the others.
A request or a reply has types up to its first value that the signature language has no form for: the others are
shown as rest, never as wrong values. What has no type at all is left out. Comments say why, and the end of standard
error what is whole, what is by half and what is left out.

-Wbonly=Module::Interface takes one interface and what it inherits; it may be given more than once.
-Wbversion=1 and -Wbversion=2 write a file of that version of the language, which has no form for an any, wide text or a type
within itself, and structs around arrays in arrays.

The work is done in three steps, in the modules of `giopdump_idl`: `Translator` turns omniidl's declarations into the
types of `model` or refuses them, `Selection` decides which operations and exceptions are written, and `Sheet` names the
types and prints. docs/SIGNATURES.md has a table from each form of IDL to what is written for it.
"""

from __future__ import annotations

import getopt
import shlex
import sys
from collections import Counter
from dataclasses import dataclass
from typing import List, Sequence, Tuple

from giopdump_idl import VERSION
from giopdump_idl.model import MOST_OCTETS
from giopdump_idl.selection import Selection
from giopdump_idl.sheet import Sheet
from giopdump_idl.shown import shown
from omniidl import idlast

PROGRAM = "giopdump_signatures"

VERSIONS = ("1", "2", "3")  # of the signature language

WORDS = """\
  -Wbonly=<Module::Interface>  Write one interface and what it inherits (may be given more than once)
  -Wbversion=<1, 2 or 3>       Write this version of the language (3 if it isn't given; any, TypeCode and wide text want it)"""
usage_string = f"{PROGRAM} {VERSION}\n\n{WORDS}"  # what omniidl -u prints


def counted(counts: Counter[str], kinds: Sequence[str]) -> str:
    """How many there are of each kind, in words."""
    return ", ".join(f"{counts[kind]} {kind}{'' if counts[kind] == 1 else 's'}" for kind in kinds)


def counts(selection: Selection) -> List[str]:
    """What is whole, by half and left out, a text for each."""
    return [
        f"whole: {counted(selection.whole, ['operation', 'exception', 'type'])}",
        f"by half: {counted(selection.by_half, ['operation'])}",
        f"left out: {counted(selection.left_out, ['operation', 'exception'])}",
    ]


def summary(selection: Selection) -> str:
    """The counts with what they are for, for standard error."""
    lines, none = [], Counter[str]()
    for text, causes in zip(counts(selection), (none, selection.why_half, selection.why_left_out)):
        told = ", ".join(f"{number} for {cause}" for cause, number in sorted(causes.items()))
        lines.append(f"{PROGRAM}: {text}" + (f" ({told})\n" if told else "\n"))
    if selection.interfaces:
        number = counted(selection.by_interface, ["operation"])
        lines.append(f"{PROGRAM}: by interface: {number}, if the file has keys of objects (giop-keys)\n")
    return "".join(lines)


@dataclass
class Wanted:
    """What the arguments ask for: interfaces, all if there are none, and a version of the language."""

    interfaces: List[str]
    version: int = 3


def wanted(arguments: Sequence[str]) -> Wanted:
    """What -Wbonly and -Wbversion name."""
    asked = Wanted([])
    for argument in arguments:
        word, _, name = argument.partition("=")
        if word == "only" and name:
            asked.interfaces.append(name)
        elif word == "version" and name in VERSIONS:
            asked.version = int(name)
        else:
            sys.exit(f"{PROGRAM}: unknown argument {shown(argument)}; there is\n{WORDS}")
    return asked


def command_of(words: Sequence[str]) -> Tuple[List[str], bool]:
    """The IDL files that omniidl's command names, and whether it runs the preprocessor."""
    try:
        options, files = getopt.getopt(list(words), "D:I:U:EY:NW:b:n:kKC:dVuhvqp:iTP")
    except getopt.GetoptError:
        return [], True  # omniidl says so itself
    return files, ("-N", "") not in options


FILES, _HAS_PREPROCESSOR = command_of(sys.argv[1:])

# omniidl hands these to its preprocessor: the other files are included before the first, whose tree then has all.
cpp_args = [f"-include {shlex.quote(file)}" for file in FILES[1:]]


def run(tree: idlast.AST, arguments: Sequence[str]) -> None:
    """omniidl's entry for an IDL file: prints the signature file. If there are several it ends omniidl after the first."""
    if len(FILES) > 1 and not _HAS_PREPROCESSOR:
        sys.exit(f"{PROGRAM}: several IDL files need the preprocessor: leave out -N")
    sys.setrecursionlimit(max(sys.getrecursionlimit(), 100000))
    asked = wanted(arguments)
    selection = Selection(tree, asked.interfaces, asked.version)
    sheet = Sheet(selection.sections, asked.version)
    text = sheet.text(FILES or [tree.file()], asked.interfaces, "; ".join(counts(selection)))
    if len(text) > MOST_OCTETS:
        sys.exit(f"{PROGRAM}: {len(text)} octets, {MOST_OCTETS} at most: choose interfaces with -Wbonly")
    sys.stdout.write(text)
    sys.stderr.write(summary(selection))
    if len(FILES) > 1:
        sys.exit(0)
