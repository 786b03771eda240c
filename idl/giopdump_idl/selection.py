"""Decides which operations and exceptions are written, and why others aren't."""

from __future__ import annotations

import sys
from collections import Counter
from dataclasses import dataclass, field, replace
from typing import Dict, Iterable, Iterator, List, Optional, Sequence, Set, Tuple, TypeVar, Union as Either

from omniidl import idlast

from .model import (
    MOST_DECLARATIONS, MOST_INTERFACES, RETURNED, Announced, Array, Cut, Declared, Half, Item, Operation, Place, Raised, Scalar, Series,
    Slot, Text, Type, Unsayable, at_most, place_in, spelled,
)  # fmt: skip
from .shown import shown
from .translator import Translator, written_id

UNEQUAL = "equal names, unequal parameters"
UNEQUAL_IDS = "equal repository ids, unequal members"
MOST_NAMED = 8  # interfaces that one comment names
MOST_REFUSED = 64  # types that have a comment of their own


@dataclass
class Call:
    """An operation that an interface declares, with what becomes of it: a refusal where it can't be written, and the
    call that is written for it where another of its name is. `interfaces` are the repository ids of those that have it;
    `shared` is what is written above it for all others: what all operations of its name have in common."""

    owner: str
    name: str
    place: Optional[Place]
    operation: Operation
    interfaces: Sequence[str] = ()
    outcome: Either[Operation, Unsayable] = field(init=False)
    written_by: Optional[Call] = field(default=None, init=False)
    shared: Optional[Call] = field(default=None, init=False)

    @property
    def title(self) -> str:
        """Its scoped name, and where it stands."""
        return f"{self.owner}::{self.name}" + (f" ({self.place})" if self.place else "")


@dataclass
class Section:
    """An interface with its calls, and the exceptions that it declares or raises, each with its outcome."""

    title: str
    calls: List[Call]
    exceptions: List[idlast.Exception]


Needed = Either[Declared, Announced]
Entry = Either[Needed, Operation, str]  # a str is a comment
Written = TypeVar("Written", Operation, Raised)

YES_OR_NO = Slot("out", RETURNED, Item("return", Scalar("boolean")))
EVERY_OBJECT = Section(
    "Every object",
    [
        Call(
            "Object",
            "_is_a",
            None,
            Operation.of(
                "_is_a", [YES_OR_NO, Slot("in", "parameter logical_type_id", Item("logical_type_id", Text(0)))]
            ),
        ),
        Call("Object", "_non_existent", None, Operation.of("_non_existent", [YES_OR_NO])),
    ],
    [],
)


def members_of(decl: idlast.Decl) -> Sequence[idlast.Decl]:
    """The declarations within a declaration."""
    if isinstance(decl, idlast.Module):
        return list(decl.definitions())
    if isinstance(decl, (idlast.Interface, idlast.Value, idlast.ValueAbs)):
        return list(decl.contents())
    return ()


def walk(declarations: Iterable[idlast.Decl]) -> Iterator[idlast.Decl]:
    """Each declaration, above those within it."""
    for decl in declarations:
        yield decl
        yield from walk(members_of(decl))


def with_bases(interface: idlast.Interface, seen: List[idlast.Interface]) -> List[idlast.Interface]:
    """The interfaces that it inherits, then itself, without those that were seen."""
    for base in interface.inherits():
        if isinstance(base.fullDecl(), idlast.Interface):
            with_bases(base.fullDecl(), seen)
    if interface not in seen:
        seen.append(interface)
    return seen


def heirs_of(interfaces: Sequence[idlast.Interface]) -> Dict[str, List[str]]:
    """The repository ids of those that have what an interface declares, by its name: its own, and those of its heirs."""
    heirs: Dict[str, List[str]] = {}
    for interface in interfaces:
        for base in with_bases(interface, []) if written_id(interface) and not interface.local() else []:
            heirs.setdefault(spelled(base.scopedName()), []).append(written_id(interface))
    return heirs


def calls_of(interface: idlast.Interface, heirs: Dict[str, List[str]], translator: Translator) -> Iterator[Call]:
    """The operations and attributes that an interface declares itself, as they travel."""
    owner = spelled(interface.scopedName())
    having = heirs.get(owner, [])
    for decl in interface.callables():
        place = Place.of(decl)
        if isinstance(decl, idlast.Operation):
            yield Call(owner, decl.identifier(), place, translator.operation(decl), having)
            continue
        for name in decl.identifiers():
            yield Call(owner, f"_get_{name}", place, translator.getter(name, decl.attrType()), having)
            if not decl.readonly():
                yield Call(owner, f"_set_{name}", place, translator.setter(name, decl.attrType()), having)


def settle(calls: Sequence[Call], has_interfaces: bool) -> None:
    """Of calls of one name, which a message without an interface can't tell apart: lets the first be written as far as all
    travel alike. Where they don't, and operations may have interfaces, each form is written too."""
    first, forms = calls[0], forms_of(calls)
    is_split = has_interfaces and len(forms) > 1
    others = unequal_to([call for call in calls if not same(call.operation, first.operation)])
    shared = Operation(
        first.name,
        common("request", [call.operation.request for call in calls], others),
        common("reply", [call.operation.reply for call in calls], others),
    )
    teller = Call(first.owner, first.name, first.place, shared) if is_split else first
    for call in calls:
        if shared.says_nothing:
            call.outcome = refusal_of(call, others if call is first else unequal_to([first]))
        elif call is not teller:
            call.written_by = teller
    if is_split:
        teller.outcome = Unsayable(UNEQUAL, others) if shared.says_nothing else shared
        first.shared = teller
        for form, interfaces in zip(forms, interfaces_of(forms)):
            settle_form(form, interfaces)
    elif not shared.says_nothing:
        first.outcome = shared


def refusal_of(call: Call, others: str) -> Unsayable:
    """Why a call of a name isn't written if the calls have no type in common."""
    if call.operation.says_nothing:
        cut = call.operation.cuts[0]
        return Unsayable(cut.cause, cut.told)
    return Unsayable(UNEQUAL, others)


def forms_of(calls: Sequence[Call]) -> List[List[Call]]:
    """Calls of one name, those together that travel alike."""
    forms: List[List[Call]] = []
    for call in calls:
        alike = [form for form in forms if same(form[0].operation, call.operation)]
        if alike:
            alike[0].append(call)
        else:
            forms.append([call])
    return forms


def interfaces_of(forms: Sequence[Sequence[Call]]) -> List[List[str]]:
    """The interfaces of each form, but for a repository id that stands for two of different forms."""
    ids = [list(dict.fromkeys(each for call in form for each in call.interfaces)) for form in forms]
    count = Counter(each for its in ids for each in its)
    return [[each for each in its if count[each] == 1] for its in ids]


def settle_form(form: Sequence[Call], interfaces: Sequence[str]) -> None:
    """Lets the first of the calls that travel alike be written as one of these interfaces, as far as it has types."""
    first = form[0]
    if not interfaces or first.operation.says_nothing:
        return
    first.outcome, first.written_by = replace(first.operation, interfaces=tuple(interfaces)), None
    for call in form[1:]:
        call.written_by = first


def common(kind: str, halves: Sequence[Half], others: str) -> Half:
    """The requests, or the replies, of calls of one name as far as all have the same types, and what cuts that."""
    first, count = halves[0], 0
    while all(each.types[: count + 1] == first.types[: count + 1] != first.types[:count] for each in halves):
        count += 1
    if all(each.cut is None and len(each.members) == count for each in halves):
        return first
    if len(first.members) == count and first.cut:
        return first
    here = place_in(kind, first.members[count].title) if count < len(first.members) else f"what follows in the {kind}"
    return Half(first.members[:count], Cut(here, UNEQUAL, others, others))


def same(one: Operation, other: Operation) -> bool:
    """Whether requests and replies of both are the same octets as far as they have types, and end or are cut there."""
    pairs = [(one.request, other.request), (one.reply, other.reply)]
    return all(a.types == b.types and (a.cut is None) == (b.cut is None) for a, b in pairs)


def unequal_to(calls: Sequence[Call]) -> str:
    """Words that name the calls of one name that have other types than one, or some of them where they are many."""
    more = f" and {len(calls) - MOST_NAMED} more" if len(calls) > MOST_NAMED else ""
    return f"unequal parameters: {', '.join(call.title for call in calls[:MOST_NAMED])}{more}"


class Selection:
    """Decides what is written, in order: sections of entries, and the counts: what is whole, what is by half, which is
    written as far as it has types, and what is left out. An operation counts wherever it is declared."""

    def __init__(self, tree: idlast.AST, only: Sequence[str], version: int) -> None:
        self.translator = Translator(version)
        self.sections: List[Tuple[str, List[Entry]]] = []
        self.whole: Counter[str] = Counter()
        self.by_half: Counter[str] = Counter()
        self.left_out: Counter[str] = Counter()
        self.why_half: Counter[str] = Counter()
        self.why_left_out: Counter[str] = Counter()
        self.by_interface: Counter[str] = Counter()
        self.interfaces: Dict[str, None] = {}  # of which operations are said to be, in the order of the file
        self._version = version
        self._lines: Counter[str] = Counter()
        self._placed: Set[Needed] = set()
        self._exceptions: Dict[str, Either[Raised, Unsayable]] = {}
        self._named: List[idlast.Exception] = []
        parts = self._parts(tree, only)
        self._settle(parts)
        for part in parts:
            self._place(part)
        if version == 3:
            self._identify(tree)
        refused = self._refusals()
        if refused:
            self.sections.append(("Types that can't be said, or that need one", refused))
        if self.interfaces:
            keys: List[Entry] = [f'key "" of "{interface}";' for interface in self.interfaces]
            self.sections.append(("Keys of objects, as giop-keys finds them in a dump", keys))

    def _parts(self, tree: idlast.AST, only: Sequence[str]) -> List[Section]:
        """The sections as the IDL has them: every object's, the interfaces', and other exceptions'."""
        every = list(walk(tree.declarations()))
        interfaces = [each for each in every if isinstance(each, idlast.Interface)]
        heirs = heirs_of(interfaces)
        parts = [Section(EVERY_OBJECT.title, [replace(call) for call in EVERY_OBJECT.calls], [])]
        for interface in chosen(interfaces, only):
            calls = list(calls_of(interface, heirs, self.translator))
            title = f"{spelled(interface.scopedName())} ({Place.of(interface)})"
            parts.append(Section(title, calls, exceptions_of(interface)))
        if not only:
            others = [each for each in every if isinstance(each, idlast.Exception)]
            parts.append(Section("Exceptions that no interface above declares or raises", [], others))
        return parts

    def _settle(self, parts: Sequence[Section]) -> None:
        """Settles calls of one name, and exceptions of one repository id."""
        by_name: Dict[str, List[Call]] = {}
        for part in parts:
            for call in part.calls:
                by_name.setdefault(call.name, []).append(call)
        for calls in by_name.values():
            settle(calls, self._version == 3)
        by_id: Dict[str, List[idlast.Exception]] = {}
        for part in parts:
            for decl in part.exceptions:
                alike = by_id.setdefault(decl.repoId(), [])
                if decl not in alike:
                    alike.append(decl)
        for repository_id, alike in by_id.items():
            self._exceptions[repository_id] = self._outcome(alike)

    def _outcome(self, alike: Sequence[idlast.Exception]) -> Either[Raised, Unsayable]:
        """The one exception that declarations of one repository id make, or why there is none."""
        try:
            made = [self.translator.raised(decl) for decl in alike]
        except Unsayable as refusal:
            return refusal
        if any(other.parts != made[0].parts for other in made):
            others = ", ".join(f"{spelled(other.scoped)} ({other.place})" for other in made[1:])
            return Unsayable(UNEQUAL_IDS, f"unequal members under one repository id: {others}")
        return made[0]

    def _place(self, part: Section) -> None:
        """Adds a section's entries: exceptions and operations, each after the types that it needs."""
        entries: List[Entry] = []
        for decl in part.exceptions:
            title = f"exception {spelled(decl.scopedName())} ({Place.of(decl)})"
            if decl.repoId() in self._exceptions:
                self._add(entries, "exception", title, self._exceptions.pop(decl.repoId()))
            elif decl not in self._named:
                entries.append(f"{title} has the repository id of one above")
            self._named.append(decl)
        for call in part.calls:
            self._call(entries, call)
        if entries:
            self.sections.append((part.title, entries))

    def _call(self, entries: List[Entry], call: Call) -> None:
        """Adds an operation, or a comment where the line of another call is its line too."""
        if call.shared:
            self._share(entries, call.shared)
        by = call.written_by
        if not by:
            call.outcome = self._add(entries, "operation", call.title, call.outcome)
        elif isinstance(by.outcome, Unsayable):
            self._add(entries, "operation", call.title, by.outcome)
        else:
            how_far = " as far as that has types" if by.outcome.cuts else ""
            entries.append(f"{call.name} ({call.place}) travels like {by.title}{how_far}")
            self._count("operation", by.outcome.cuts)
        told = (by or call).outcome
        self.by_interface["operation"] += isinstance(told, Operation) and bool(told.interfaces)

    def _share(self, entries: List[Entry], shared: Call) -> None:
        """Adds what the operations of a name have in common, for objects of no known interface; it isn't counted."""
        shared.outcome = self._written(entries, "operation", shared.outcome)
        if isinstance(shared.outcome, Unsayable):
            entries.append(f"{shared.name} without an interface: rest ({shared.outcome.text})")

    def _add(
        self, entries: List[Entry], kind: str, title: str, outcome: Either[Written, Unsayable]
    ) -> Either[Written, Unsayable]:
        """Adds an operation or an exception, or a comment on why it is left out; gives which."""
        outcome = self._written(entries, kind, outcome)
        if isinstance(outcome, Unsayable):
            entries.append(f"left out: {title}: {outcome.text}")
            self.left_out[kind] += 1
            self.why_left_out[outcome.cause] += 1
        else:
            self._count(kind, outcome.cuts if isinstance(outcome, Operation) else [])
        return outcome

    def _written(
        self, entries: List[Entry], kind: str, outcome: Either[Written, Unsayable]
    ) -> Either[Written, Unsayable]:
        """Adds an operation or an exception after the types that it needs, if there is room; gives what becomes of it."""
        if not isinstance(outcome, Unsayable):
            outcome = self._within_limits(kind, outcome)
        if isinstance(outcome, Unsayable):
            return outcome
        self._place_types(entries, self._new_types(outcome))
        if isinstance(outcome, Operation):
            entries.extend(f"{cut.where}: rest ({cut.why})" for cut in outcome.cuts)
            self.interfaces.update(dict.fromkeys(outcome.interfaces))
        entries.append(outcome)
        self._lines[kind] += 1
        return outcome

    def _count(self, kind: str, cuts: Sequence[Cut]) -> None:
        """Counts what is written: by half where something cuts it."""
        if cuts:
            self.by_half[kind] += 1
            self.why_half[cuts[0].cause] += 1
        else:
            self.whole[kind] += 1

    def _within_limits(self, kind: str, made: Written) -> Either[Written, Unsayable]:
        """What is to be added, where there is room for it and the types that it needs."""
        try:
            at_most(self._lines[kind] + 1, MOST_DECLARATIONS, f"{kind}s")
            self._have_room(self._new_types(made))
            if isinstance(made, Operation):
                at_most(len({*self.interfaces, *made.interfaces}), MOST_INTERFACES, "interfaces")
        except Unsayable as refusal:
            return refusal
        return made

    def _identify(self, tree: idlast.AST) -> None:
        """Adds the other types that have a repository id, by which the value of an any is known."""
        entries: List[Entry] = []
        for decl in walk(tree.declarations()):
            if not isinstance(decl, (idlast.Enum, idlast.Struct, idlast.Union)):
                continue
            try:
                found = self._new([self.translator.declared(decl, decl.scopedName())])
                self._have_room(found)
            except Unsayable:
                continue  # it is told with the others
            self._place_types(entries, found)
        if entries:
            self.sections.append(("Types that only an any may have", entries))

    def _refusals(self) -> List[Entry]:
        """Comments on the types that were refused, on the first of them if they are many."""
        refused = [
            f"left out: {spelled(scoped)} ({place}): {why.text}"
            for scoped, (place, why) in self.translator.refused.items()
        ]
        more = [f"left out: {len(refused) - MOST_REFUSED} more types"] if len(refused) > MOST_REFUSED else []
        return [*refused[:MOST_REFUSED], *more]

    def _have_room(self, types: Sequence[Needed]) -> None:
        """Refuses types for which there is no room."""
        count = sum(isinstance(each, Declared) for each in types)
        at_most(self.whole["type"] + count, MOST_DECLARATIONS, "types")

    def _place_types(self, entries: List[Entry], types: Sequence[Needed]) -> None:
        """Adds types."""
        self._placed.update(types)
        self.whole["type"] += sum(isinstance(each, Declared) for each in types)
        entries.extend(types)

    def _new_types(self, made: Either[Operation, Raised]) -> List[Needed]:
        """The declarations that something needs and that aren't there yet, each after those that it needs."""
        return self._new(made.parts if isinstance(made, Raised) else made.types)

    def _new(self, types: Iterable[Type]) -> List[Needed]:
        """The declarations in these types that aren't there yet, each after those that it needs, which are announced if they
        need it."""
        found: Dict[Needed, None] = {}

        def visit(each: Type) -> None:
            if isinstance(each, (Series, Array)):
                visit(each.element)
            elif isinstance(each, (Declared, Announced)) and each not in self._placed and each not in found:
                if isinstance(each, Declared):
                    for part in each.parts:
                        visit(part)
                found[each] = None

        left = list(types)
        for part in left:
            known = len(found)
            visit(part)
            left.extend(each.made for each in list(found)[known:] if isinstance(each, Announced))
        return list(found)


def chosen(interfaces: Sequence[idlast.Interface], only: Sequence[str]) -> List[idlast.Interface]:
    """The interfaces whose operations travel: those that are named and what they inherit, or all; none is local."""
    picked: List[idlast.Interface] = []
    by_name = {spelled(each.scopedName()): each for each in interfaces}
    for name in only:
        if name.lstrip(":") not in by_name:
            sys.exit(f"giopdump_signatures: there is no interface {shown(name)}")
        with_bases(by_name[name.lstrip(":")], picked)
    return [each for each in (picked if only else interfaces) if not each.local()]


def exceptions_of(interface: idlast.Interface) -> List[idlast.Exception]:
    """The exceptions that an interface declares, then those that its operations raise."""
    found = [each for each in interface.declarations() if isinstance(each, idlast.Exception)]
    for decl in interface.callables():
        if isinstance(decl, idlast.Operation):
            found.extend(each for each in decl.raises() if each not in found)
    return found
