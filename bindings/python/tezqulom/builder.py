"""Tables from nested descriptions, or from pyasn1's classes.

    >>> from tezqulom.builder import *
    >>> Part = Sequence(name=PrintableString(), copies=Default(Implicit(0, Integer()), 1))
    >>> Licence = Sequence(event=UTF8String(), seats=Default(Integer(), 1), parts=SequenceOf(Part))
    >>> len(build(Licence))
    206

In a name that is a keyword argument `_` stands for a hyphen; names can be given in a dict as well. A member's name has 1 to 48 characters, a named
bit's 1 to 24. Tags and presence stand on members: `Explicit(0, ..)`, `Implicit(0, ..)`, `Optional(..)`, `Default(.., value)`, in any order. A BIT
STRING whose bits have names is written with their numbers, as in ASN.1:

    >>> Rights = BitString(print=0, perform=1, record=2)
    >>> len(build(Rights))
    80

A distinguished name is `RDNSequence()`, one RDN `RelativeDistinguishedName()`.

A type that has no row is an error that names the member:

    >>> build(Sequence(event=UTF8String(), seats=Integer))
    Traceback (most recent call last):
    tezqulom.builder.TableError: seats: Integer is no description; write Integer()
    >>> build(Sequence(event=UTF8String(), n0=SequenceOf(Default(Integer(), 1))))
    Traceback (most recent call last):
    tezqulom.builder.TableError: n0.*: tags and presence stand on members only

No schema text is read.
"""

import re
from typing import Any, Callable, Dict, Iterator, List, NamedTuple, Optional as Maybe, Tuple, Union

from . import clauses
from .engine import check_table
from .rows import CONTEXT, DEFAULT, EXPLICIT, IMPLICIT, MANDATORY, MOST_ROWS, NONE, OPTIONAL, Row, member_row
from .values import NAMES, NAME_FIELDS, Kind, integer_contents

__all__ = ["BitString", "Boolean", "Choice", "Default", "Enumerated", "Explicit", "GeneralizedTime", "IA5String", "Implicit", "Integer", "Null",
           "ObjectIdentifier", "OctetString", "Optional", "PrintableString", "RDNSequence", "RelativeDistinguishedName", "Sequence", "SequenceOf", "Set",
           "SetOf", "TableError", "UTCTime", "UTF8String", "build"]

MOST_CHAINED = clauses.MOST_CHAINED


class TableError(ValueError):
    """A description that has no table: the member, and what is wrong."""


class Type(NamedTuple):
    """A description: a kind, what is in it, by name (a list's element has the name `*`), and the numbers of bits that have names."""

    kind: Kind
    below: Tuple[Tuple[str, Any], ...] = ()
    bits: Tuple[Tuple[str, int], ...] = ()


class Marked(NamedTuple):
    """A member's description with its tag and presence."""

    type: Any
    mode: int = NONE
    number: int = 0
    presence: int = MANDATORY
    default: Union[bool, int, None] = None


def _basic(kind: Kind) -> Callable[[], Type]:
    """The function that describes a basic type."""
    def described() -> Type:
        return Type(kind)
    described.__name__ = described.__qualname__ = kind.asn1.title().replace(" ", "") if kind.asn1.isupper() else kind.asn1
    described.__doc__ = kind.asn1 + "."
    return described


Boolean, Integer, Enumerated, Null, ObjectIdentifier, OctetString = map(_basic, list(Kind)[:6])
UTF8String, PrintableString, IA5String, GeneralizedTime = map(_basic, list(Kind)[7:11])
RDNSequence, RelativeDistinguishedName = map(_basic, NAMES)


class Rowless(NamedTuple):
    """A type that has no row."""

    name: str


def UTCTime() -> Rowless:
    """UTCTime, which has no row."""
    return Rowless("UTCTime")


def Set(members: Maybe[Dict[str, Any]] = None, /, **named: Any) -> Rowless:
    """SET, which has no row."""
    return Rowless("Set")


def _named(given: Maybe[Dict[str, Any]], named: Dict[str, Any]) -> Tuple[Tuple[str, Any], ...]:
    """What is given by names."""
    return tuple((given or {}).items()) + tuple((name.replace("_", "-"), one) for name, one in named.items())


def Sequence(members: Maybe[Dict[str, Any]] = None, /, **named: Any) -> Type:
    """SEQUENCE of named members, in this order."""
    return Type(Kind.SEQUENCE, _named(members, named))


def Choice(alternatives: Maybe[Dict[str, Any]] = None, /, **named: Any) -> Type:
    """CHOICE of named alternatives."""
    return Type(Kind.CHOICE, _named(alternatives, named))


def BitString(names: Maybe[Dict[str, int]] = None, /, **named: int) -> Type:
    """BIT STRING; with names and their bits' numbers a named one, in which trailing zero bits don't count."""
    return Type(Kind.BIT_STRING) if names is None and not named else Type(Kind.NAMED_BIT_STRING, bits=_named(names, named))


def SequenceOf(element: Any) -> Type:
    """SEQUENCE OF."""
    return Type(Kind.SEQUENCE_OF, (("*", element),))


def SetOf(element: Any) -> Type:
    """SET OF."""
    return Type(Kind.SET_OF, (("*", element),))


def _marked(given: Any, field: str, **marks: Any) -> Marked:
    """A member's description with further marks; it has this field only once."""
    marked = given if isinstance(given, Marked) else Marked(given)
    if getattr(marked, field):
        raise TableError("a member has one tag and one presence at most")
    return marked._replace(**marks)


def Explicit(number: int, member: Any) -> Marked:
    """A member under an explicit context tag."""
    return _marked(member, "mode", mode=EXPLICIT, number=number)


def Implicit(number: int, member: Any) -> Marked:
    """A member under an implicit context tag."""
    return _marked(member, "mode", mode=IMPLICIT, number=number)


def Optional(member: Any) -> Marked:
    """A member that may be absent."""
    return _marked(member, "presence", presence=OPTIONAL)


def Default(member: Any, value: Union[bool, int]) -> Marked:
    """A member that has a default."""
    return _marked(member, "presence", presence=DEFAULT, default=value)


class _Builder:
    """Lays out the rows of a description; `paths` says what stands in each row."""

    def __init__(self, shared: bool) -> None:
        self.rows: List[Row] = []
        self.paths: List[str] = []
        self.shared = shared

    def lay(self, described: Type, path: str) -> None:
        """The rows of a type: its own, its members', then those of what is in it."""
        for one, where in self._order(described, path):
            self._own_rows(one, where)
        for at, row in enumerate(self.rows):
            if isinstance(row.to, tuple):
                self.rows[at] = row._replace(to=self.first[row.to])

    def _order(self, described: Type, path: str) -> List[Tuple[Tuple[str, Type], str]]:
        """Types in an order in which each stands before what is in it. Shared: equal types once, last seen last."""
        self.first: Dict[Any, int] = {}
        walked = [((where, one) if not self.shared else ("", one), where) for where, one in _walk(described, path)]
        if not self.shared:
            return walked
        depth: Dict[Any, int] = {}
        where_of: Dict[Any, str] = {}
        for key, where in walked:
            where_of.setdefault(key, where)
            depth[key] = max(depth.get(key, 0), _height(key[1]))
        return [(key, where_of[key]) for key in sorted(depth, key=lambda one: -depth[one])]

    def _own_rows(self, keyed: Tuple[str, Type], path: str) -> None:
        """A type's own row and its members'."""
        self.first[keyed] = len(self.rows)
        described = keyed[1]
        holder = described.kind in (Kind.SEQUENCE, Kind.CHOICE)
        below = [(name, one, self._key(path, name, one.type)) for name, one in described.below]
        count = len(below) if holder else len(described.bits)
        self._add(Row(described.kind, count=count, to=below[0][2] if below and not holder else None), path)
        for name, number in described.bits:
            self._add(Row(Kind.NAMED_BIT, name=name.encode(), number=number), path)
        for name, one, key in below if holder else ():
            default = b"" if one.default is None else integer_contents(one.default) if one.type.kind is not Kind.BOOLEAN else b"\xff" if one.default else b"\0"
            self._add(member_row(name, to=key, mode=one.mode, number=one.number, presence=one.presence, size=len(default),
                                 filled=default.ljust(8, b"\0")), _path(path, name))

    def _key(self, path: str, name: str, described: Type) -> Any:
        return ("", described) if self.shared else (_path(path, name), described)

    def _add(self, row: Row, path: str) -> None:
        self.rows.append(row)
        self.paths.append(path)


def _path(path: str, name: str) -> str:
    return "%s.%s" % (path, name) if path else name


def _walk(described: Type, path: str) -> Iterator[Tuple[str, Type]]:
    """A type and the types in it, each before what is in it."""
    yield path, described
    for name, one in described.below:
        yield from _walk(one.type, _path(path, name))


def _height(described: Type) -> int:
    return 1 + max((_height(one.type) for _, one in described.below), default=0)


def _fail(path: str, sentence: str) -> TableError:
    return TableError("%s: %s" % (path, sentence) if path else sentence)


def _settled(given: Any, path: str, depth: int = 1) -> Type:
    """A description with its parts checked, pyasn1's classes turned into descriptions."""
    if isinstance(given, Marked):
        raise _fail(path, "tags and presence stand on members only")
    if isinstance(given, Rowless):
        raise _fail(path, "no row for %s" % given.name)
    if depth > MOST_CHAINED:
        raise _fail(path, "more than %d types in one another" % MOST_CHAINED)
    described = given if isinstance(given, Type) else _of_pyasn1(given, path)
    _check_bits(described, path)
    holder = described.kind in (Kind.SEQUENCE, Kind.CHOICE)
    below = []
    for name, one in described.below:
        where = _path(path, name)
        marked = one if isinstance(one, Marked) and holder else _pyasn1_marks(one, where, holder)
        if marked.presence == DEFAULT or holder:
            _check_member(marked, name, where)
        below.append((name, marked._replace(type=_settled(marked.type, where, depth + 1))))
        if marked.presence == DEFAULT:
            _check_default(below[-1][1], where)
    return described._replace(below=tuple(below))


def _check_name(name: str, where: str, kind: Kind) -> None:
    """What a row of a kind can't hold of a name."""
    if len(name.encode("utf-8", "replace")) > NAME_FIELDS[kind]:
        raise _fail(where, "a %s's name has at most %d characters" % (kind.asn1, NAME_FIELDS[kind]))


def _check_bits(described: Type, path: str) -> None:
    """What rows can't hold of named bits."""
    for name, number in described.bits:
        if not isinstance(name, str):
            raise _fail(path, "named bit %r: its name is no text" % (name,))
        _check_name(name, _path(path, name), Kind.NAMED_BIT)
        if isinstance(number, bool) or not isinstance(number, int) or not 0 <= number <= clauses.MOST_BIT:
            raise _fail(path, "named bit %s: bit number %r, not 0 to %d" % (name, number, clauses.MOST_BIT))


def _check_member(marked: Marked, name: str, where: str) -> None:
    """What a row can't hold of a member."""
    _check_name(name, where, Kind.LONG_MEMBER)
    if not isinstance(marked.number, int) or not 0 <= marked.number <= clauses.MOST_TAG:
        raise _fail(where, "tag number %s, not 0 to %d" % (marked.number, clauses.MOST_TAG))


def _check_default(marked: Marked, where: str) -> None:
    """What a row can't hold of a default."""
    boolean = marked.type.kind is Kind.BOOLEAN
    if marked.type.kind not in (Kind.BOOLEAN, Kind.INTEGER, Kind.ENUMERATED):
        raise _fail(where, "a default on %s; only BOOLEAN, INTEGER and ENUMERATED have one" % marked.type.kind.asn1)
    if not isinstance(marked.default, int) or isinstance(marked.default, bool) != boolean:
        raise _fail(where, "the default of %s is not %r" % (marked.type.kind.asn1, marked.default))
    if not boolean and not -2 ** 63 <= marked.default < 2 ** 63:
        raise _fail(where, "the default %d has more than 8 octets" % marked.default)


def build(description: Any) -> bytes:
    """The table of a description, which the engine has admitted. A TableError names the member that has none."""
    if _pyasn1_marks(description, "", False).mode != NONE:
        raise TableError("tags and presence stand on members only")
    described = _settled(description, "")
    builder = _Builder(shared=False)
    builder.lay(described, "")
    if len(builder.rows) > MOST_ROWS:
        builder = _Builder(shared=True)
        builder.lay(described, "")
    return _checked(builder)


def _checked(builder: _Builder) -> bytes:
    """The octets of rows that the engine admits."""
    if len(builder.rows) > MOST_ROWS:
        raise TableError("%d rows, more than %d" % (len(builder.rows), MOST_ROWS))
    large = next((at for at, row in enumerate(builder.rows) if row.count > 255), None)
    if large is not None:
        raise _fail(builder.paths[large], "%d members, more than %d" % (builder.rows[large].count, clauses.MOST_MEMBERS))
    octets = b"".join(row.octets() for row in builder.rows)
    cause = clauses.why_table(octets)
    if cause is not None:
        raise _fail("" if cause.row is None else builder.paths[cause.row], re.sub("^member [^ ]+: ", "", cause.sentence))
    check_table(octets)
    return octets


# pyasn1: its own classes by their names. A class of the user's is one of these by descent.
_PYASN1 = {"Boolean": Kind.BOOLEAN, "Integer": Kind.INTEGER, "Enumerated": Kind.ENUMERATED, "Null": Kind.NULL,
           "ObjectIdentifier": Kind.OBJECT_IDENTIFIER, "OctetString": Kind.OCTET_STRING, "BitString": Kind.BIT_STRING,
           "UTF8String": Kind.UTF8_STRING, "PrintableString": Kind.PRINTABLE_STRING, "IA5String": Kind.IA5_STRING,
           "GeneralizedTime": Kind.GENERALIZED_TIME, "Sequence": Kind.SEQUENCE, "Choice": Kind.CHOICE, "SequenceOf": Kind.SEQUENCE_OF,
           "SetOf": Kind.SET_OF}


def _pyasn1_own(given: Any) -> str:
    """The name of the pyasn1 class that a class or object is of; empty where it is of none."""
    classes = (given if isinstance(given, type) else type(given)).__mro__
    return next((one.__name__ for one in classes if one.__module__.startswith("pyasn1.type.")), "")


def _pyasn1_kind(given: Any, path: str) -> Kind:
    """The kind of a pyasn1 class or object."""
    own = _pyasn1_own(given)
    if not own:
        name = getattr(given, "__name__", None) or repr(given)
        raise _fail(path, "%s is no description%s" % (name, "; write %s()" % name if getattr(given, "__module__", "") == __name__ else ""))
    if own not in _PYASN1:
        raise _fail(path, "no row for %s" % own)
    return _PYASN1[own]


def _is_rdn(given: Any) -> bool:
    """Whether a pyasn1 class or object is X.501's RelativeDistinguishedName: SET OF SEQUENCE of an OBJECT IDENTIFIER and ANY, which has no row alone."""
    if _pyasn1_own(given) != "SetOf" or _untagged(given.componentType) != ("Sequence", 1):
        return False
    return [_untagged(one.asn1Object) for one in given.componentType.componentType.namedTypes] == [("ObjectIdentifier", 1), ("Any", 0)]


def _untagged(given: Any) -> Tuple[str, int]:
    """The name of a pyasn1 class or object that has no tags but its universal ones, and their number."""
    tags = given.tagSet.superTags
    return ("" if any(tag.tagClass for tag in tags) else _pyasn1_own(given)), len(tags)


def _of_pyasn1(given: Any, path: str) -> Type:
    """A pyasn1 class or object as a description of one level."""
    kind = _pyasn1_kind(given, path)
    if _is_rdn(given):
        return RelativeDistinguishedName()
    if kind is Kind.SEQUENCE_OF and _is_rdn(given.componentType) and _untagged(given.componentType)[0]:
        return RDNSequence()
    if kind in (Kind.SEQUENCE_OF, Kind.SET_OF):
        return Type(kind, (("*", given.componentType),))
    if kind in (Kind.SEQUENCE, Kind.CHOICE):
        return Type(kind, tuple((one.name, _pyasn1_member(one, _path(path, one.name))) for one in given.componentType.namedTypes))
    if kind is Kind.BIT_STRING and given.namedValues:
        return BitString(dict(given.namedValues.items()))
    return Type(kind)


def _pyasn1_member(one: Any, path: str) -> Marked:
    """A pyasn1 member with its tag and presence."""
    marked = _pyasn1_marks(one.asn1Object, path, True)
    if one.isDefaulted:
        if marked.type is None or _pyasn1_kind(one.asn1Object, path) not in (Kind.BOOLEAN, Kind.INTEGER, Kind.ENUMERATED):
            return marked._replace(presence=DEFAULT, default=0)
        value = int(one.asn1Object)
        return marked._replace(presence=DEFAULT, default=bool(value) if _pyasn1_kind(one.asn1Object, path) is Kind.BOOLEAN else value)
    return marked._replace(presence=OPTIONAL) if one.isOptional else marked


def _pyasn1_marks(given: Any, path: str, member: bool) -> Marked:
    """The tag that a pyasn1 class or object bears."""
    if isinstance(given, (Type, Marked)) or not hasattr(given, "tagSet"):
        return Marked(given) if not isinstance(given, Marked) else Marked(_settled(given, path))
    kind, tags = _pyasn1_kind(given, path), list(given.tagSet.superTags)
    own = [] if kind.tag is None else [kind.tag & 0x1F]
    mode = {len(own): IMPLICIT if own else NONE, len(own) + 1: EXPLICIT}.get(len(tags))
    if [tag.tagId for tag in tags if not tag.tagClass] == own and len(tags) == len(own):
        return Marked(given)
    if mode is None or tags[-1].tagClass != CONTEXT or mode == EXPLICIT and [tag.tagId for tag in tags[:-1] if not tag.tagClass] != own:
        raise _fail(path, "no row for the tags of %s" % type(given).__name__)
    if not member:
        raise _fail(path, "tags and presence stand on members only")
    return Marked(given, mode, tags[-1].tagId)
