"""Turns omniidl's types and declarations into those of a signature file, or refuses them."""

from __future__ import annotations

from typing import Any, Callable, Dict, Iterable, List, Optional, Sequence, Set, Tuple

from omniidl import idlast, idltype

from .model import (
    MOST_ENUMERATORS, MOST_LABELS, MOST_MEMBERS, MOST_NESTING, MOST_OPERATION_NAME, MOST_PARAMETERS, RETURNED, Announced,
    Array, Case, Described, Enum, Item, Named, Operation, Place, Raised, Reference, Scalar, Series, Slot, Struct, Text, TooDeep, Type, Union,
    Unsayable, at_most, checked_depth, spelled,
)  # fmt: skip
from .names import fresh_names

SCALARS: Dict[int, str] = {
    idltype.tk_octet: "octet",
    idltype.tk_char: "char",
    idltype.tk_boolean: "boolean",
    idltype.tk_short: "short",
    idltype.tk_ushort: "ushort",
    idltype.tk_long: "long",
    idltype.tk_ulong: "ulong",
    idltype.tk_longlong: "longlong",
    idltype.tk_ulonglong: "ulonglong",
    idltype.tk_float: "float",
    idltype.tk_double: "double",
}

# What has a form in version 3 alone: types whose values say of which type they are, or describe one, and wide text.
DESCRIBED: Dict[int, str] = {idltype.tk_any: "any", idltype.tk_TypeCode: "TypeCode"}
WIDE: Dict[int, str] = {idltype.tk_wchar: "wchar", idltype.tk_wstring: "wstring"}

# What the signature language has no form for, in IDL's words.
FORMLESS: Dict[int, str] = {
    idltype.tk_Principal: "Principal",
    idltype.tk_longdouble: "long double",
    idltype.tk_fixed: "fixed",
    idltype.tk_value: "value type",
    idltype.tk_value_box: "value type",
    idltype.tk_native: "native",
    idltype.tk_abstract_interface: "abstract interface",
    idltype.tk_local_interface: "local interface",
}

STRUCTURES: Dict[int, str] = {
    idltype.tk_struct: "struct", idltype.ot_structforward: "struct", idltype.tk_union: "union", idltype.ot_unionforward: "union",
}  # fmt: skip

DISCRIMINATORS = frozenset("char boolean short ushort long ulong longlong ulonglong".split())

DIRECTIONS = ("in", "out", "inout")  # by omniidl's numbers


class Translator:
    """Turns omniidl's types and declarations into ours of a version of the language, each declaration once."""

    def __init__(self, version: int) -> None:
        self._formless = FORMLESS if version == 3 else {**FORMLESS, **DESCRIBED, **WIDE}
        self._is_third = version == 3
        self.refused: Dict[Tuple[str, ...], Tuple[Place, Unsayable]] = {}
        self._made: Dict[Tuple[str, ...], Type] = {}
        self._begun: Set[Tuple[str, ...]] = set()
        self._announced: Dict[Tuple[str, ...], Announced] = {}
        self._later: Dict[Tuple[str, ...], idltype.Type] = {}  # those that are made after what is begun
        self._around: Dict[Array, Struct] = {}
        self._aliases: Dict[Tuple[str, ...], Type] = {}
        self._nesting = 0

    def type_of(self, idl: idltype.Type) -> Type:
        """The type that an IDL type is, after all its typedefs."""
        if self._nesting == MOST_NESTING:
            raise TooDeep()
        self._nesting += 1
        try:
            return self.behind(idl) if idl.kind() == idltype.tk_alias else self.plain(idl)
        finally:
            self._nesting -= 1

    def behind(self, idl: idltype.Type) -> Type:
        """The type after a typedef and those that it is made of: a loop, since they may be many."""
        chain: List[idlast.Declarator] = []
        while idl.kind() == idltype.tk_alias and tuple(idl.scopedName()) not in self._aliases:
            chain.append(idl.decl())
            idl = chain[-1].alias().aliasType()
        made = self._aliases[tuple(idl.scopedName())] if idl.kind() == idltype.tk_alias else self.plain(idl)
        for declarator in reversed(chain):
            made = self.array_of(made, declarator.sizes())
            if not is_announced(made):
                self._aliases[tuple(declarator.scopedName())] = made
        return made

    def plain(self, idl: idltype.Type) -> Type:
        """The type that an IDL type is which no typedef made."""
        kind = idl.kind()
        if kind in SCALARS:
            return Scalar(SCALARS[kind])
        if kind in self._formless:
            raise Unsayable(self._formless[kind])
        if kind in DESCRIBED:
            return Described(DESCRIBED[kind])
        if kind == idltype.tk_wchar:
            return Scalar(WIDE[kind])
        if kind in (idltype.tk_string, idltype.tk_wstring):
            return Text(unsigned(idl.bound()), WIDE.get(kind, "string"))
        if kind == idltype.tk_objref:
            return Reference()
        if kind == idltype.tk_sequence:
            element = self.announced(idl.seqType()) or self.element_of(self.type_of(idl.seqType()))
            return Series(element, unsigned(idl.bound()))
        return self.declared(idl.decl(), idl.scopedName())

    def announced(self, idl: idltype.Type) -> Optional[Announced]:
        """The type of a sequence's elements, if that is a struct or a union which can't be made before what the sequence
        stands in."""
        while idl.kind() == idltype.tk_alias and not idl.decl().sizes():
            idl = idl.decl().alias().aliasType()
        if not self._is_third or idl.kind() not in STRUCTURES or not self._holds_begun(idl):
            return None
        scoped = tuple(idl.scopedName())
        if scoped not in self._begun:
            self._later[scoped] = idl
        return self._announced.setdefault(scoped, Announced(STRUCTURES[idl.kind()], scoped))

    def _holds_begun(self, idl: idltype.Type) -> bool:
        """Whether a type is one that is begun, or has a part that is, the elements of sequences aside."""
        left, seen = [idl], set(self._begun)
        while left and seen:
            each = left.pop()
            while each.kind() == idltype.tk_alias:
                each = each.decl().alias().aliasType()
            scoped = tuple(each.scopedName()) if each.kind() in STRUCTURES else ()
            if scoped in self._begun:
                return True
            if not scoped or scoped in seen or scoped in self._made or scoped in self.refused:
                continue
            seen.add(scoped)
            decl = each.decl().fullDecl()
            if isinstance(decl, idlast.Struct):
                left += [member.memberType() for member in decl.members()]
            elif isinstance(decl, idlast.Union):
                left += [case.caseType() for case in decl.cases()]
        return False

    def array_of(self, element: Type, sizes: Sequence[int]) -> Type:
        """The type of a declarator with these sizes, the outermost first."""
        made = element
        for length in reversed(sizes or []):
            made = Array(made if self._is_third else self.element_of(made), unsigned(length))
            if made.depth > MOST_NESTING:
                raise TooDeep()
        return made

    def element_of(self, made: Type) -> Type:
        """The same octets in a form that may stand anywhere: an array gets a struct of one member around it."""
        if not isinstance(made, Array):
            return made
        if made not in self._around:
            self._around[made] = Struct((word_of(made),), Place("", 0), "", (Item("v", made),))
        return self._around[made]

    def declared(self, decl: idlast.Decl, scoped_name: Sequence[str]) -> Type:
        """The type that a declaration makes; a refusal is kept, and told as what is needed."""
        scoped = tuple(scoped_name)
        if scoped in self._made:
            return self._made[scoped]
        if scoped in self._begun:
            raise Unsayable("type within itself", f"{spelled(scoped)} within itself")
        if scoped not in self.refused:
            self._begun.add(scoped)
            before = [len(each) for each in (self._made, self._aliases, self._later)]
            try:
                return self._finished(scoped, self.made(decl.fullDecl()))
            except Unsayable as refusal:
                self._forget(scoped, before)
                if isinstance(refusal, TooDeep):
                    raise
                self.refused[scoped] = (Place.of(decl.fullDecl() or decl), refusal)
        raise Unsayable(self.refused[scoped][1].cause, f"needs {spelled(scoped)}")

    def _finished(self, scoped: Tuple[str, ...], made: Named) -> Named:
        """A type that is made, after which those are made that can't be before it."""
        self._made[scoped] = made
        if scoped in self._announced:
            self._announced[scoped].made = made
        self._begun.discard(scoped)
        while self._later and not self._begun:
            later = next(iter(self._later))
            self.declared(self._later.pop(later).decl(), later)
        return made

    def _forget(self, scoped: Tuple[str, ...], before: Sequence[int]) -> None:
        """Forgets a type that has no form, and all that was made and announced since it began, which may need it."""
        self._begun.discard(scoped)
        self._announced.pop(scoped, None)
        kept: Sequence[Dict[Tuple[str, ...], Any]] = (self._made, self._aliases, self._later)
        for known, count in zip(kept, before):
            for name in list(known)[count:]:
                del known[name]

    def made(self, decl: Optional[idlast.Decl]) -> Named:
        """The type of an enum, a struct or a union."""
        makers: Dict[type, Callable[..., Named]] = {
            idlast.Enum: self.enum,
            idlast.Struct: self.struct,
            idlast.Union: self.union,
        }
        if type(decl) not in makers:
            raise Unsayable("type without a declaration")
        made = makers[type(decl)](decl)
        checked_depth(made.depth)
        return made

    def enum(self, decl: idlast.Enum) -> Enum:
        """An enum."""
        wishes = [each.identifier() for each in sorted(decl.enumerators(), key=lambda each: int(each.value()))]
        at_most(len(wishes), MOST_ENUMERATORS, "enumerators")
        return Enum(tuple(decl.scopedName()), Place.of(decl), written_id(decl), tuple(fresh_names(wishes)))

    def struct(self, decl: idlast.Struct) -> Struct:
        """A struct."""
        members = self.items(decl.members())
        if not members:
            raise Unsayable("struct without members")
        return Struct(tuple(decl.scopedName()), Place.of(decl), written_id(decl), members)

    def items(self, members: Iterable[idlast.Member]) -> Tuple[Item, ...]:
        """The members of a struct or an exception; a declarator is one of them."""
        pairs = [(member.memberType(), each) for member in members for each in member.declarators()]
        at_most(len(pairs), MOST_MEMBERS, "members")
        names = fresh_names(each.identifier() for _, each in pairs)
        return tuple(
            self.item(name, f"member {each.identifier()}", idl, each.sizes()) for name, (idl, each) in zip(names, pairs)
        )

    def item(self, name: str, what: str, idl: idltype.Type, sizes: Sequence[int] = ()) -> Item:
        """One member or parameter; a refusal names it."""
        try:
            return Item(name, self.array_of(self.type_of(idl), sizes))
        except Unsayable as refusal:
            raise refusal.within(what) from None

    def union(self, decl: idlast.Union) -> Union:
        """A union."""
        try:
            switch = self.type_of(decl.switchType())
        except Unsayable as refusal:
            raise refusal.within("discriminator") from None
        if not isinstance(switch, Enum) and not (isinstance(switch, Scalar) and switch.word in DISCRIMINATORS):
            raise Unsayable("discriminator of another type")
        at_most(len(decl.cases()), MOST_MEMBERS, "cases")
        at_most(sum(len(case.labels()) for case in decl.cases()), MOST_LABELS, "labels")
        names = fresh_names(case.declarator().identifier() for case in decl.cases())
        cases = tuple(self.case(name, switch, case) for name, case in zip(names, decl.cases()))
        return Union(tuple(decl.scopedName()), Place.of(decl), written_id(decl), switch, cases)

    def case(self, name: str, switch: Type, case: idlast.UnionCase) -> Case:
        """One case of a union."""
        declarator = case.declarator()
        what = f"member {declarator.identifier()}"
        labels = tuple(label_text(switch, label) for label in case.labels())
        return Case(labels, self.item(name, what, case.caseType(), declarator.sizes()))

    def raised(self, decl: idlast.Exception) -> Raised:
        """An exception."""
        repository_id = written_id(decl)
        if not repository_id:
            raise Unsayable("repository id", f"its repository id {decl.repoId()!r} can't be written")
        made = Raised(tuple(decl.scopedName()), Place.of(decl), repository_id, self.items(decl.members()))
        checked_depth(made.depth)
        return made

    def operation(self, decl: idlast.Operation) -> Operation:
        """An operation. Its context, where it has one, travels after its parameters as pairs of strings."""
        wishes = [each.identifier() for each in decl.parameters()] + (["context"] if decl.contexts() else [])
        names = fresh_names(wishes)
        slots = self.returned(decl.returnType())
        for name, each in zip(names, decl.parameters()):
            title = f"parameter {each.identifier()}"
            slots.append(self.slot(DIRECTIONS[each.direction()], title, name, each.paramType()))
        if decl.contexts():
            slots.append(Slot("in", "the context", Item(names[-1], Series(Text(0), 0))))
        return self.limited(decl.identifier(), len(names), slots)

    def slot(self, direction: str, title: str, name: str, idl: idltype.Type) -> Slot:
        """A parameter, or what is returned. A request or a reply is a level more."""
        try:
            made = self.type_of(idl)
            made = self.element_of(made) if title == RETURNED else made
            checked_depth(1 + made.depth)
            return Slot(direction, title, Item(name, made))
        except Unsayable as refusal:
            return Slot(direction, title, refusal)

    def returned(self, idl: idltype.Type) -> List[Slot]:
        """What an operation returns; nothing where that is void."""
        return [] if idl.kind() == idltype.tk_void else [self.slot("out", RETURNED, "return", idl)]

    def getter(self, name: str, idl: idltype.Type) -> Operation:
        """The operation that reads an attribute."""
        return self.limited(f"_get_{name}", 0, self.returned(idl))

    def setter(self, name: str, idl: idltype.Type) -> Operation:
        """The operation that writes an attribute."""
        return self.limited(f"_set_{name}", 1, [self.slot("in", "value", "value", idl)])

    @staticmethod
    def limited(name: str, parameters: int, slots: Sequence[Slot]) -> Operation:
        """The operation of these slots, without any form where it goes beyond the limits of a signature file."""
        try:
            at_most(len(name), MOST_OPERATION_NAME, "octets in an operation's name")
            at_most(parameters, MOST_PARAMETERS, "parameters")
        except Unsayable as refusal:
            return Operation.refused(name, refusal)
        return Operation.of(name, slots)


def written_id(decl: idlast.Decl) -> str:
    """The repository id of a declaration; empty where it can't be written."""
    repository_id: str = decl.repoId()
    octets_fit = all("!" <= each <= "~" and each != '"' for each in repository_id)
    return repository_id if 1 <= len(repository_id) <= MOST_OPERATION_NAME and octets_fit else ""


def is_announced(made: Type) -> bool:
    """Whether a sequence or an array is of a type that is declared later."""
    while isinstance(made, (Series, Array)):
        made = made.element
    return isinstance(made, Announced)


def word_of(made: Type) -> str:
    """A word for a type, which the name of a struct of ours begins with."""
    if isinstance(made, (Scalar, Described, Text)):
        return made.word
    if isinstance(made, Reference):
        return "Object"
    if isinstance(made, Series):
        return f"{word_of(made.element)}_sequence"
    if isinstance(made, Array):
        element, lengths = made.spread
        return "_x".join([word_of(element), *map(str, lengths)])
    return made.scoped[-1]


def label_text(switch: Type, label: idlast.CaseLabel) -> str:
    """A label of a union as the signature language writes it: a char as its number."""
    if label.default():
        return "default:"
    value = label.value()
    if isinstance(switch, Enum):
        return f"case {switch.names[value.value()]}:"
    if switch == Scalar("boolean"):
        return f"case {'true' if value else 'false'}:"
    if switch == Scalar("char"):
        return f"case {ord(value) & 255}:"
    return f"case {value}:"


def unsigned(number: int) -> int:
    """A bound or a length, which omniidl gives as a signed number of 32 bits."""
    return number & 0xFFFFFFFF
