"""Names that a signature file may have."""

from __future__ import annotations

from collections import Counter
from typing import Dict, Iterable, List, Sequence, Set

from .model import MOST_NAME, Declared

RESERVED = frozenset(
    "signatures enum struct union switch case default true false exception operation void in out inout string "
    "Object sequence octet char boolean short ushort long ulong longlong ulonglong float double return "
    "encapsulation any TypeCode wchar wstring fixed longdouble".split()
)


def fresh_name(wish: str, taken: Set[str]) -> str:
    """The wished name where it may stand; else one made of it, with an underscore or a number. It is then taken."""
    base = wish + "_" if wish in RESERVED else wish
    name, number = base, 1
    while len(name) > MOST_NAME or name in taken:
        tail = f"_{number}"
        name = base[: MOST_NAME - len(tail)] + tail
        number += 1
    taken.add(name)
    return name


def fresh_names(wishes: Iterable[str]) -> List[str]:
    """A name for each wish, all different."""
    taken: Set[str] = set()
    return [fresh_name(wish, taken) for wish in wishes]


def names_for(declarations: Sequence[Declared]) -> Dict[Declared, str]:
    """A name for each declaration: its own where no other has it, else with those of its scopes before it."""
    count = Counter(each.scoped[-1] for each in declarations)
    wishes = {each: each.scoped[-1] if count[each.scoped[-1]] == 1 else "_".join(each.scoped) for each in declarations}
    return dict(zip(wishes, fresh_names(wishes.values())))
