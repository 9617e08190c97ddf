"""The rows of a table, the table of the rows from one on, and the row that a reference reaches."""

from typing import Any, Dict, Iterator, List, NamedTuple, Optional, Tuple

from .engine import Octets, check_table
from .values import MEMBERS, NAME_FIELDS, Kind, Names, Plain, encoded, names_of, plain

NONE, EXPLICIT, IMPLICIT = 0, 1, 2
MANDATORY, OPTIONAL, DEFAULT = 0, 1, 2
CONTEXT, CONSTRUCTED = 0x80, 0x20
MOST_ROWS = 128
_AFTER_NAME = 14  # octets of a member's row: the row of its type, tag mode, tag number, presence, length of the default, default
_COUNTED = (Kind.SEQUENCE, Kind.CHOICE, Kind.NAMED_BIT_STRING)
_BODIES = {**dict.fromkeys(Kind, 0), **dict.fromkeys(_COUNTED, 1), Kind.SEQUENCE_OF: 2, Kind.SET_OF: 2,
           **{kind: field + (_AFTER_NAME if kind in MEMBERS else 1) for kind, field in NAME_FIELDS.items()}}


class Unreadable(ValueError):
    """Octets that are no rows: the number of the row, its first octet's place, what is wrong."""

    def __init__(self, row: int, place: int, sentence: str) -> None:
        super().__init__(row, place, sentence)
        self.row, self.place, self.sentence = row, place, sentence


class Row(NamedTuple):
    """A row: its kind and the fields of its body."""

    kind: Kind
    count: int = 0
    """The members of a SEQUENCE, the alternatives of a CHOICE, the names of a named BIT STRING."""
    to: Optional[int] = None
    """The row that an element or a member is of."""
    name: bytes = b""
    """The octets of a member's name, or a named bit's, without the zeros that fill their field."""
    mode: int = NONE
    number: int = 0
    """A member's tag number, or a named bit's number."""
    presence: int = MANDATORY
    size: int = 0
    """The length of a default."""
    filled: bytes = bytes(8)
    """A default's contents, filled with zeros."""

    @property
    def identifier(self) -> str:
        """A member's name, or a named bit's."""
        return self.name.decode("ascii", "backslashreplace")

    @property
    def default(self) -> bytes:
        """A default's contents."""
        return self.filled[:self.size]

    def octets(self, less: int = 0) -> bytes:
        """The row's octets, with the row number in it less by so much."""
        head = bytes([self.kind])
        if self.kind in _COUNTED:
            return head + bytes([self.count])
        name = self.name.ljust(NAME_FIELDS.get(self.kind, 0), b"\0")
        if self.kind is Kind.NAMED_BIT:
            return head + name + bytes([self.number])
        pointer = b"" if self.to is None else (self.to - less).to_bytes(2, "big")
        if self.kind not in MEMBERS:
            return head + pointer
        return head + name + pointer + bytes([self.mode, self.number, self.presence, self.size]) + self.filled


def member_kind(name: bytes) -> Kind:
    """The kind of a member's row, by the length of the member's name.

    >>> member_kind(b"event").value, member_kind(b"educationalConcessionCategory").value
    (16, 21)
    """
    return Kind.MEMBER if len(name) <= NAME_FIELDS[Kind.MEMBER] else Kind.LONG_MEMBER


def member_row(identifier: str, **fields: Any) -> Row:
    """The row of a member of this name, which has at most 48 octets."""
    name = identifier.encode()
    return Row(member_kind(name), name=name, **fields)


def _row(kind: Kind, body: bytes) -> Row:
    """The row of a kind and its body."""
    if kind in _COUNTED:
        return Row(kind, count=body[0])
    field = NAME_FIELDS.get(kind, 0)
    name, rest = body[:field].rstrip(b"\0"), body[field:]
    if kind is Kind.NAMED_BIT:
        return Row(kind, name=name, number=rest[0])
    if kind in MEMBERS:
        return Row(kind, to=int.from_bytes(rest[:2], "big"), name=name, mode=rest[2], number=rest[3], presence=rest[4], size=rest[5], filled=rest[6:])
    return Row(kind, to=int.from_bytes(body, "big")) if body else Row(kind)


def read(table: Octets) -> List[Row]:
    """The rows of a table's octets, admitted or not. Unreadable where a row is cut off or of no kind."""
    octets, rows, place = bytes(table), [], 0
    while place < len(octets):
        number = octets[place]
        if number not in _BODIES:
            raise Unreadable(len(rows), place, "there is no kind %d" % number)
        kind = Kind(number)
        end = place + 1 + _BODIES[kind]
        if end > len(octets):
            raise Unreadable(len(rows), place, "%s is cut off after %d of %d octets" % (kind.asn1, len(octets) - place, end - place))
        rows.append(_row(kind, octets[place + 1:end]))
        place = end
    return rows


class Member(NamedTuple):
    """A member or an alternative: the number of its row, and the row."""

    row: int
    body: Row


class Table:
    """An admitted table's rows."""

    def __init__(self, octets: Octets) -> None:
        check_table(octets)
        self.octets = bytes(octets)
        self.rows = read(self.octets)
        self._after: Dict[int, bytes] = {}

    def kind(self, row: int) -> Kind:
        """The kind of a row."""
        return self.rows[row].kind

    def members(self, row: int) -> List[Member]:
        """The members of a SEQUENCE, the alternatives of a CHOICE."""
        return [Member(at, self.rows[at]) for at in range(row + 1, row + 1 + self.rows[row].count)]

    def bits(self, row: int) -> Dict[str, int]:
        """The numbers of a named BIT STRING's bits, by their names."""
        named = self.rows[row + 1:row + 1 + self.rows[row].count] if self.kind(row) is Kind.NAMED_BIT_STRING else []
        return {bit.identifier: bit.number for bit in named}

    def names(self, row: int, contents: bytes) -> Optional[Names]:
        """The bits that are 1 in the good contents of a named BIT STRING; None for another kind."""
        kind = self.kind(row)
        return names_of(self.bits(row), str(plain(kind, contents))) if kind is Kind.NAMED_BIT_STRING else None

    def to(self, row: int) -> int:
        """The row that a list's elements or a member are of."""
        found = self.rows[row].to
        assert found is not None, "a row that names no row"
        return found

    def after(self, row: int) -> bytes:
        """The table whose row 0 is this type row: rows point only to later ones, so those from it on, renumbered, are a table."""
        if row not in self._after:
            self._after[row] = from_row(self.rows, row)
        return self._after[row]

    def tags(self, row: int) -> List[int]:
        """The class and number of each tag that a value of a type row can start with."""
        tag = self.kind(row).tag
        if tag is not None:
            return [tag & ~CONSTRUCTED]
        return [tag for member in self.members(row) for tag in self.member_tags(member)]

    def member_tags(self, member: Member) -> List[int]:
        """The class and number of each tag that a member can start with."""
        return self.tags(self.to(member.row)) if member.body.mode == NONE else [CONTEXT | member.body.number]

    def first_octet(self, member: Member) -> Optional[int]:
        """The tag octet that a member starts with; None for an untagged CHOICE."""
        tag = self.kind(self.to(member.row)).tag
        if member.body.mode == NONE:
            return tag
        inner = CONSTRUCTED if member.body.mode == EXPLICIT else (tag or 0) & CONSTRUCTED
        return CONTEXT | inner | member.body.number

    def default(self, member: Member) -> Plain:
        """A member's default."""
        return plain(self.kind(self.to(member.row)), member.body.default)

    def default_octets(self, member: Member) -> bytes:
        """A member's default as a value of its type, encoded."""
        return encoded(self.kind(self.to(member.row)).tag or 0, member.body.default)

    def reached(self, reference: Optional[str]) -> Optional[int]:
        """The row of what an allowed reference names; None for a count."""
        row = 0
        for identifier in reference.split(".") if reference else ():
            if self.kind(row) in (Kind.SEQUENCE_OF, Kind.SET_OF):
                if identifier == "0":
                    return None
                row = self.to(row)
            else:
                row = next(self.to(member.row) for member in self.members(row) if member.body.identifier == identifier)
        return row

    def text(self) -> str:
        """The table as indented text, a line for each type and member. A SEQUENCE, CHOICE or list that several rows name is written once.
        The names of bits stand behind their BIT STRING, as in ASN.1: `BIT STRING {print(0), perform(1)}`.

        >>> print(Table(b"\\x0E\\x00\\x01\\x02").text())
        SEQUENCE OF
          * INTEGER
        """
        return "\n".join(self._lines(0, "", "", 0, {}))

    def _lines(self, row: int, before: str, behind: str, depth: int, seen: dict) -> Iterator[str]:
        kind = self.kind(row)
        names = ", ".join("%s(%d)" % bit for bit in self.bits(row).items())
        head = "  " * depth + before + kind.asn1 + (" {%s}" % names if names else "") + behind
        if not kind.basic and row in seen:
            yield head + ", as in line %d" % seen[row]
            seen["lines"] += 1
            return
        seen["lines"] = seen.get("lines", 0) + 1
        seen[row] = seen["lines"]
        yield head
        for name, below, mark in self._below(row):
            yield from self._lines(below, name, mark, depth + 1, seen)

    def _below(self, row: int) -> Iterator[Tuple[str, int, str]]:
        """What stands in a type: words before, row, words behind."""
        if self.kind(row) in (Kind.SEQUENCE_OF, Kind.SET_OF):
            yield "* ", self.to(row), ""
        for member in self.members(row) if self.kind(row) in (Kind.SEQUENCE, Kind.CHOICE) else ():
            tag = ("", "[%d] EXPLICIT ", "[%d] IMPLICIT ")[member.body.mode]
            presence = ("", " OPTIONAL", " DEFAULT")[member.body.presence]
            if member.body.presence == DEFAULT:
                value = self.default(member)
                presence += " " + (str(value).upper() if isinstance(value, bool) else str(value))
            yield "%s %s" % (member.body.identifier, tag % member.body.number if tag else ""), self.to(member.row), presence


def from_row(rows: List[Row], row: int) -> bytes:
    """The octets of the rows from one on, renumbered. A ValueError where one of them names an earlier row."""
    try:
        return b"".join(one.octets(row) for one in rows[row:])
    except OverflowError:
        raise ValueError("a row from %d on names an earlier one" % row) from None
