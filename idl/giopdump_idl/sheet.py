"""Prints a selection as a signature file."""

from __future__ import annotations

import os
from collections import Counter
from textwrap import wrap
from typing import Sequence, Tuple

from .model import (
    Announced,
    Array,
    Declared,
    Described,
    Enum,
    Item,
    Operation,
    Raised,
    Reference,
    Scalar,
    Series,
    Struct,
    Text,
    Type,
    Union,
)
from .names import names_for
from .selection import Entry
from .shown import shown


class Sheet:
    """Prints sections: gives each declaration a name, and writes it out."""

    WIDTH = 110

    def __init__(self, sections: Sequence[Tuple[str, Sequence[Entry]]], version: int) -> None:
        self._sections = sections
        self._version = version
        declared = [each for _, entries in sections for each in entries if isinstance(each, Declared)]
        self._names = names_for(declared)
        self._ids = Counter(each.repository_id for each in declared if not isinstance(each, Raised))

    def text(self, sources: Sequence[str], only: Sequence[str], counts: str) -> str:
        """The whole signature file; its head says how much of the sources is in it."""
        names = ", ".join(map(os.path.basename, sources))
        wanted = f", of it {' and '.join(only)}" if only else ""
        origin = f"Written by giopdump_signatures from {names}{wanted}."
        lines = [f"signatures {self._version};", "", comment(origin), comment(f"{counts}.")]
        for title, entries in self._sections:
            lines += ["", comment(title)] + [self._entry(entry) for entry in entries]
        return "\n".join(lines) + "\n"

    def _entry(self, entry: Entry) -> str:
        """One entry, on a line or, where that is long, on several."""
        if isinstance(entry, str):
            return comment(entry)
        if isinstance(entry, Operation):
            result = "void" if entry.result is None else self._type(entry.result)
            parameters = [f"{each.direction} {self._item(each.item)}" for each in entry.parameters]
            end = ")" if entry.interfaces else ");"
            line = self._laid_out(f"operation {result} {entry.name}(", parameters, ", ", end, "")
            return line + self._of(entry, len(line.splitlines()[-1]))
        if isinstance(entry, Announced):
            return f"{entry.word} {self._names[entry.made]};"
        name = self._names[entry] + self._identity(entry)
        if isinstance(entry, Enum):
            return self._laid_out(f"enum {name} {{", entry.names, ", ", "};", " ")
        if isinstance(entry, Union):
            cases = [" ".join(case.labels) + f" {self._item(case.item)};" for case in entry.cases]
            return self._laid_out(f"union {name} switch ({self._type(entry.switch)}) {{", cases, " ", "};", " ")
        assert isinstance(entry, (Struct, Raised))
        members = [f"{self._item(member)};" for member in entry.members]
        kind = "exception" if isinstance(entry, Raised) else "struct"
        return self._laid_out(f"{kind} {name} {{", members, " ", "};", " ")

    def _of(self, entry: Operation, width: int) -> str:
        """The interfaces of an operation, if it has any, after a line so wide, or on lines of their own."""
        if not entry.interfaces:
            return ""
        ids = ", ".join(f'"{each}"' for each in entry.interfaces)
        if width + len(f" of {ids};") <= self.WIDTH:
            return f" of {ids};"
        lines = wrap(f"of {ids};", self.WIDTH - 2, break_long_words=False, break_on_hyphens=False)
        return "".join(f"\n  {line}" for line in lines)

    def _identity(self, entry: Declared) -> str:
        """The repository id of an exception, and in version 3 of a type, unless another type has it too."""
        is_written = self._version == 3 and self._ids[entry.repository_id] == 1 and entry.repository_id
        return f' "{entry.repository_id}"' if is_written or isinstance(entry, Raised) else ""

    def _laid_out(self, head: str, parts: Sequence[str], between: str, tail: str, space: str) -> str:
        """Head, parts and tail on one line, or a part a line."""
        line = head + space + between.join(parts) + (space if parts else "") + tail
        if len(line) <= self.WIDTH:
            return line
        return head + "\n  " + (between.rstrip() + "\n  ").join(parts) + "\n" + tail

    def _item(self, item: Item) -> str:
        """A type and a name; an array has its lengths after the name, the outermost first."""
        if isinstance(item.type, Array):
            made, lengths = item.type.spread
            return f"{self._type(made)} {item.name}" + "".join(f"[{length}]" for length in lengths)
        return f"{self._type(item.type)} {item.name}"

    def _type(self, made: Type) -> str:
        """A type as it stands in a declaration."""
        if isinstance(made, (Scalar, Described)):
            return made.word
        if isinstance(made, Text):
            return f"{made.word}<{made.bound}>" if made.bound else made.word
        if isinstance(made, Reference):
            return "Object"
        if isinstance(made, Series):
            return f"sequence<{self._type(made.element)}" + (f", {made.bound}>" if made.bound else ">")
        if isinstance(made, Announced):
            return self._names[made.made]
        assert isinstance(made, Declared)
        return self._names[made]


def comment(text: str) -> str:
    """A comment of one line."""
    return f"// {shown(text)}"
