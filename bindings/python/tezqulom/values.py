"""Kinds of types, and the values of stored octets."""

import datetime
import enum
import re
from typing import Iterable, Mapping, NamedTuple, Optional, Tuple, Union

from . import distinguished
from .der import contents_of, dotted, encoded
from .engine import LONGEST_VALUE, Octets, Refused, check_value

__all__ = ["Bits", "Kind", "MEMBERS", "NAMES", "NAME_FIELDS", "Names", "Plain", "Time", "bit_string_contents", "contents_of", "dotted", "encoded", "gser",
           "integer_contents", "named_bits", "names_of", "plain", "printable", "time_of", "value_of"]


class Kind(enum.IntEnum):
    """The kinds of rows, with the table's numbers; `asn1` is the type's name."""

    BOOLEAN = 1
    INTEGER = 2
    ENUMERATED = 3
    NULL = 4
    OBJECT_IDENTIFIER = 5
    OCTET_STRING = 6
    BIT_STRING = 7
    UTF8_STRING = 8
    PRINTABLE_STRING = 9
    IA5_STRING = 10
    GENERALIZED_TIME = 11
    SEQUENCE = 12
    CHOICE = 13
    SEQUENCE_OF = 14
    SET_OF = 15
    MEMBER = 16
    NAMED_BIT_STRING = 17
    NAMED_BIT = 18
    RDN_SEQUENCE = 19
    RDN = 20
    LONG_MEMBER = 21

    @property
    def asn1(self) -> str:
        """The type's name in ASN.1."""
        return _NAMES[self]

    @property
    def basic(self) -> bool:
        """Whether a value of the kind has no components that a reference names."""
        return self <= Kind.GENERALIZED_TIME or self in (Kind.NAMED_BIT_STRING, *NAMES)

    @property
    def is_type(self) -> bool:
        """Whether a row of the kind is a type; a member and a named bit only follow one."""
        return self not in (*MEMBERS, Kind.NAMED_BIT)

    @property
    def tag(self) -> Optional[int]:
        """The universal tag octet; a CHOICE, a member and a named bit have none."""
        return _TAGS.get(self)


_NAMES = dict(zip(Kind, ("BOOLEAN", "INTEGER", "ENUMERATED", "NULL", "OBJECT IDENTIFIER", "OCTET STRING", "BIT STRING", "UTF8String",
                         "PrintableString", "IA5String", "GeneralizedTime", "SEQUENCE", "CHOICE", "SEQUENCE OF", "SET OF", "member", "BIT STRING",
                         "named bit", "RDNSequence", "RelativeDistinguishedName", "member")))
_TAGS = dict(zip(Kind, (0x01, 0x02, 0x0A, 0x05, 0x06, 0x04, 0x03, 0x0C, 0x13, 0x16, 0x18, 0x30)))
_TAGS.update({Kind.SEQUENCE_OF: 0x30, Kind.SET_OF: 0x31, Kind.NAMED_BIT_STRING: 0x03, Kind.RDN_SEQUENCE: 0x30, Kind.RDN: 0x31})
_BIT_STRINGS = (Kind.BIT_STRING, Kind.NAMED_BIT_STRING)
NAMES = (Kind.RDN_SEQUENCE, Kind.RDN)
"""The kinds of distinguished names."""
MEMBERS = (Kind.MEMBER, Kind.LONG_MEMBER)
"""The kinds of members and alternatives. They differ in their names' lengths alone."""
NAME_FIELDS = {Kind.MEMBER: 24, Kind.NAMED_BIT: 24, Kind.LONG_MEMBER: 48}
"""The octets of the name in a row of each kind that has one."""
_STRINGS = (Kind.UTF8_STRING, Kind.PRINTABLE_STRING, Kind.IA5_STRING)


class Time(NamedTuple):
    """A GeneralizedTime. Second 60 and nanoseconds have no place in a datetime, so this is no datetime."""

    year: int
    month: int
    day: int
    hour: int
    minute: int
    second: int
    nanosecond: int = 0

    def datetime(self) -> datetime.datetime:
        """The moment in UTC, its fraction cut to microseconds; a ValueError for year 0 and for second 60."""
        return datetime.datetime(*self[:6], self.nanosecond // 1000, datetime.timezone.utc)

    def __str__(self) -> str:
        fraction = (".%09d" % self.nanosecond).rstrip("0") if self.nanosecond else ""
        return "%04d-%02d-%02dT%02d:%02d:%02d%sZ" % (*self[:6], fraction)


Plain = Union[bool, int, None, str, bytes, Time]
Names = Tuple[Union[str, int], ...]
"""The bits that are 1 of a named BIT STRING: their names, and the numbers of those that have none."""
Bits = Union[str, Iterable[Union[str, int]]]
"""Bits given for a named BIT STRING: a text of 0 and 1, or names and numbers."""


def integer_contents(number: int) -> bytes:
    """The contents of an INTEGER, shortest.

    >>> integer_contents(128).hex(), integer_contents(-128).hex()
    ('0080', '80')
    """
    return number.to_bytes((number if number >= 0 else ~number).bit_length() // 8 + 1, "big", signed=True)


def bit_string_contents(bits: str) -> bytes:
    """The contents of a BIT STRING, of a text of 0 and 1.

    >>> bit_string_contents("110").hex(), bit_string_contents("").hex()
    ('05c0', '00')
    """
    unused = -len(bits) % 8
    return bytes([unused]) + int("0" + bits + "0" * unused, 2).to_bytes((len(bits) + unused) // 8, "big")


def named_bits(numbers: Mapping[str, int], given: Bits) -> str:
    """The bits of a named BIT STRING as a text of 0 and 1, without a trailing zero bit. A ValueError for a name that no bit has.

    >>> named_bits({"print": 0, "perform": 1}, {"perform"}), named_bits({"print": 0}, ["print", 3]), named_bits({"print": 0}, "100")
    ('01', '1001', '1')
    """
    if isinstance(given, Mapping):
        raise TypeError("bits: names are needed, not a mapping")
    if isinstance(given, str):
        if not re.fullmatch("[01]*", given):
            raise ValueError("bits: %r is no text of 0 and 1; names stand in a list" % given)
        return given.rstrip("0")
    ones = {_bit_number(numbers, one) for one in given}
    return "".join("1" if at in ones else "0" for at in range(max(ones, default=-1) + 1))


def _bit_number(numbers: Mapping[str, int], one: Union[str, int]) -> int:
    """The number of a bit that is given by its name or its number."""
    if isinstance(one, str):
        if one not in numbers:
            raise ValueError("bits: no bit has the name %r" % one)
        return numbers[one]
    if isinstance(one, bool) or not isinstance(one, int):
        raise TypeError("bits: names and numbers are needed, not %s" % type(one).__name__)
    if not 0 <= one < 8 * LONGEST_VALUE:
        raise ValueError("bits: no value has a bit %d" % one)
    return one


def names_of(numbers: Mapping[str, int], bits: str) -> Names:
    """The bits of a text of 0 and 1 that are 1, by their names, and by their numbers where they have none.

    >>> names_of({"print": 0, "perform": 1}, "1101")
    ('print', 'perform', 3)
    """
    names = {number: name for name, number in numbers.items()}
    return tuple(names.get(at, at) for at, bit in enumerate(bits) if bit == "1")


def value_of(kind: int, octets: Octets) -> Plain:
    """The value of the octets of a listed value of a kind; a ValueError where they are none.

    The tag may be the kind's own or one that stands in its place (implicit). A BOOLEAN is a bool, an INTEGER and an ENUMERATED an int, NULL is
    None, an OBJECT IDENTIFIER dotted text, an OCTET STRING bytes, a BIT STRING, named or not, a text of 0 and 1, a string kind a str, a
    GeneralizedTime a Time, a distinguished name its RFC 4514 text; of any other kind the octets themselves.

    >>> value_of(Kind.INTEGER, b"\\x80\\x01\\x03")
    3
    >>> str(value_of(Kind.GENERALIZED_TIME, b"\\x18\\x0f20240229120000Z"))
    '2024-02-29T12:00:00Z'
    """
    kind, octets = Kind(kind), bytes(octets)
    if not kind.basic:
        return octets
    try:
        check_value(_alone(kind), bytes([kind.tag or 0]) + octets[1:])
    except Refused:
        raise ValueError("no %s: %s" % (kind.asn1, octets.hex().upper() or "no octets")) from None
    return plain(kind, contents_of(octets))


def _alone(kind: Kind) -> bytes:
    """A table of a basic kind alone; a named BIT STRING needs a name, and any does for its values."""
    named = bytes([1, Kind.NAMED_BIT]) + b"a".ljust(NAME_FIELDS[Kind.NAMED_BIT], b"\0") + b"\0"
    return bytes([kind]) + (named if kind is Kind.NAMED_BIT_STRING else b"")


def plain(kind: Kind, contents: bytes) -> Plain:
    """The value of a basic kind's good contents."""
    if kind is Kind.BOOLEAN:
        return contents != b"\0"
    if kind in (Kind.INTEGER, Kind.ENUMERATED):
        return int.from_bytes(contents, "big", signed=True)
    if kind is Kind.NULL:
        return None
    if kind is Kind.OBJECT_IDENTIFIER:
        return dotted(contents)
    if kind in _BIT_STRINGS:
        return "".join("%08d" % int(bin(octet)[2:]) for octet in contents[1:])[:8 * (len(contents) - 1) - contents[0]]
    if kind in _STRINGS:
        return contents.decode("utf-8")
    if kind in NAMES:
        return distinguished.text_of_name(contents) if kind is Kind.RDN_SEQUENCE else distinguished.text_of_rdn(contents)
    return time_of(contents.decode("ascii")) if kind is Kind.GENERALIZED_TIME else contents


def time_of(text: str) -> Time:
    """The time of a GeneralizedTime's text."""
    date = [int(text[:4])] + [int(text[at:at + 2]) for at in range(4, 14, 2)]
    return Time(*date, nanosecond=int(text[15:-1].ljust(9, "0")) if text[14] == "." else 0)


def gser(kind: Kind, value: Plain, names: Optional[Names] = None) -> str:
    """A value as text for people: strings in double quotes, with characters that don't print escaped.

    The bits of a named BIT STRING are a GSER list of `names`; such a list has names alone, so where one has none they are a text of 0 and 1. A
    distinguished name is the string that a filter takes.

    >>> gser(Kind.NAMED_BIT_STRING, "11", ("print", "perform")), gser(Kind.NAMED_BIT_STRING, "1001", ("print", 3))
    ('{print, perform}', "'1001'B")
    >>> print(gser(Kind.RDN, '2.5.4.3=a\\\\"b'))
    "2.5.4.3=a\\""b"
    """
    if names is not None and all(isinstance(name, str) for name in names):
        return "{%s}" % ", ".join(map(str, names))
    if isinstance(value, bool):
        return str(value).upper()
    if isinstance(value, bytes):
        return "'%s'H" % value.hex().upper()
    if kind in _BIT_STRINGS:
        return "'%s'B" % value
    if isinstance(value, str) and kind in NAMES:
        return distinguished.shown(value)
    if isinstance(value, str) and kind is not Kind.OBJECT_IDENTIFIER:
        return '"%s"' % printable(value)
    return "NULL" if value is None else str(value)


def printable(text: str, marks: str = "\\") -> str:
    """A text that can be shown on a terminal: other characters, and those of `marks`, are escaped.

    >>> printable("a\\x1b[b")
    'a\\\\x1b[b'
    """
    shown = [one if one.isprintable() and one not in marks else one.encode("unicode_escape", "surrogatepass").decode("ascii") for one in text]
    return "".join(shown)


for _name in (Kind, Time):
    _name.__module__ = "tezqulom"
