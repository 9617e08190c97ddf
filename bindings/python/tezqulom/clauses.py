"""Why a table is not admitted: the row, and the clause of "Admitted".

The verdict is the engine's. It is asked about the rows from each type row on, from the last one back; the first that it refuses is where the cause
stands. The clauses are then looked for in that row and its members.
"""

import re
from typing import Dict, Iterator, List, NamedTuple, Optional, Tuple

from .engine import Octets, Refusal, Refused, check_table, counted
from .rows import CONSTRUCTED, CONTEXT, DEFAULT, IMPLICIT, MANDATORY, MOST_ROWS, NONE, OPTIONAL, EXPLICIT, Row, Unreadable, from_row, member_kind, read
from .values import MEMBERS, NAME_FIELDS, Kind, printable

MOST_MEMBERS = 16
MOST_NAMES = 16
MOST_CHAINED = 16
MOST_TAG = 30
MOST_BIT = 63
_NAME = re.compile(rb"[a-z](-?[A-Za-z0-9])*")
_LISTS = (Kind.SEQUENCE_OF, Kind.SET_OF)
_HOLDERS = (Kind.SEQUENCE, Kind.CHOICE)
_DEFAULTED = (Kind.BOOLEAN, Kind.INTEGER, Kind.ENUMERATED)
_FOLLOWERS: Dict[Kind, Tuple[Kind, ...]] = {Kind.SEQUENCE: MEMBERS, Kind.CHOICE: MEMBERS, Kind.NAMED_BIT_STRING: (Kind.NAMED_BIT,)}
_OWNERS = {**dict.fromkeys(MEMBERS, "SEQUENCE or CHOICE"), Kind.NAMED_BIT: "BIT STRING"}
_BAD_NAME = "its name is not a lowercase letter, then letters, digits and single hyphens, no hyphen last"


class Cause(NamedTuple):
    """A row's number (None where no row is the cause) and what is wrong."""

    row: Optional[int]
    sentence: str

    def __str__(self) -> str:
        return self.sentence if self.row is None else "row %d: %s" % (self.row, self.sentence)


def admitted(octets: bytes) -> bool:
    """Whether the engine admits a table."""
    try:
        check_table(octets)
    except Refused:
        return False
    return True


def why_table(table: Octets) -> Optional[Cause]:
    """Why the engine refuses a table; None where it admits it."""
    octets = bytes(table)
    try:
        check_table(octets)
        return None
    except Refused as refused:
        if refused.refusal is Refusal.SIZE:
            return Cause(None, refused.sentence)
    try:
        rows = read(octets)
    except Unreadable as bad:
        return Cause(bad.row, "at octet %d: %s" % (bad.place, bad.sentence))
    return cause_in(rows)


def cause_in(rows: List[Row]) -> Cause:
    """The cause in rows that the engine refuses."""
    for row, sentence in _placing(rows):
        return Cause(row, sentence)
    refused = next((row for row in _types_from_last(rows) if not _admits_from(rows, row)), None)
    for row, sentence in _clauses(rows, 0 if refused is None else refused):
        return Cause(row, sentence)
    if refused is None:
        return Cause(None, "the engine refuses the table; the cause was not found")
    return Cause(refused, "the engine refuses %s; the clause was not found" % rows[refused].kind.asn1)


def _types_from_last(rows: List[Row]) -> Iterator[int]:
    return (row for row in reversed(range(len(rows))) if rows[row].kind.is_type)


def _admits_from(rows: List[Row], row: int) -> bool:
    """Whether the engine admits the rows from one on, renumbered."""
    try:
        return admitted(from_row(rows, row))
    except ValueError:
        return False


def _placing(rows: List[Row]) -> Iterator[tuple]:
    """Clauses on where rows stand: they hold for the whole table."""
    if len(rows) > MOST_ROWS:
        yield None, "the table has %d rows, not 1 to %d" % (len(rows), MOST_ROWS)
    if not rows[0].kind.is_type:
        yield 0, "row 0 is a %s, not a type" % rows[0].kind.asn1
    followers: Tuple[Kind, ...] = ()
    owed = 0
    for at, row in enumerate(rows):
        if owed and row.kind not in followers:
            yield at, "%s stands where a %s is counted: %d more" % (row.kind.asn1, followers[0].asn1, owed)
        if row.kind.is_type:
            followers, owed = _FOLLOWERS.get(row.kind, ()), row.count
            continue
        if not owed:
            yield at, "%s stands after no %s that counts it" % (_called(row), _OWNERS[row.kind])
        owed = max(0, owed - 1)
    if owed:
        yield len(rows) - 1, "the table ends where a %s is counted: %d more" % (followers[0].asn1, owed)


def _shown(row: Row) -> str:
    return printable(row.identifier) or "without a name"


def _called(row: Row) -> str:
    return "%s %s" % (row.kind.asn1, _shown(row))


def _good_name(row: Row) -> bool:
    """Whether the octets of a name are one."""
    return _NAME.fullmatch(row.name) is not None


def _clauses(rows: List[Row], row: int) -> Iterator[tuple]:
    """Clauses on one type row and the rows that follow it as its own."""
    kind, count = rows[row].kind, rows[row].count
    if kind is Kind.NAMED_BIT_STRING:
        yield from _named_bits(rows, row, range(row + 1, row + 1 + count))
        return
    if kind in _HOLDERS and not (kind is Kind.CHOICE) <= count <= MOST_MEMBERS:
        yield row, "%s of %d members, not %d to %d" % (kind.asn1, count, kind is Kind.CHOICE, MOST_MEMBERS)
    members = range(row + 1, row + 1 + count)
    for at in members if kind in _HOLDERS else [row] if kind in _LISTS else ():
        sentence = _pointer(rows, at)
        if sentence is not None:
            yield at, sentence
    for at in members:
        yield from ((at, "%s: %s" % (_called(rows[at]), sentence)) for sentence in _member(rows, at, kind))
    yield from _names(rows, members)
    chain = _chain(rows, row)
    if len(chain) > MOST_CHAINED:
        yield row, "a chain of %d type rows, more than %d: %s" % (len(chain), MOST_CHAINED, ", ".join(map(str, chain)))
    yield from _same_tags(rows, members, kind)


def _named_bits(rows: List[Row], row: int, bits: range) -> Iterator[tuple]:
    """Clauses on a named BIT STRING and its named bits."""
    if not 1 <= len(bits) <= MOST_NAMES:
        yield row, "BIT STRING of %d names, not 1 to %d" % (len(bits), MOST_NAMES)
    for at in bits:
        if not _good_name(rows[at]):
            yield at, "%s: %s" % (_called(rows[at]), _BAD_NAME)
        if rows[at].number > MOST_BIT:
            yield at, "%s: bit number %d, not 0 to %d" % (_called(rows[at]), rows[at].number, MOST_BIT)
    yield from _names(rows, bits)
    for at in bits:
        for other in range(bits.start, at):
            if rows[other].number == rows[at].number:
                yield at, "named bits %s and %s have the same number" % (_shown(rows[other]), _shown(rows[at]))


def _pointer(rows: List[Row], at: int) -> Optional[str]:
    """What is wrong with the row that a row names."""
    to = rows[at].to or 0
    whose = "%s: " % _called(rows[at]) if rows[at].kind in MEMBERS else ""
    if to <= at:
        return whose + "names row %d, not a later one" % to
    if to >= len(rows):
        return whose + "names row %d, the last one is %d" % (to, len(rows) - 1)
    return None if rows[to].kind.is_type else whose + "names row %d, a %s" % (to, rows[to].kind.asn1)


def _member(rows: List[Row], at: int, owner: Kind) -> Iterator[str]:
    """What is wrong with a member's own fields."""
    row = rows[at]
    kind = rows[row.to or 0].kind
    if not _good_name(row):
        yield _BAD_NAME
    if row.kind is not member_kind(row.name):
        least, most = NAME_FIELDS[Kind.MEMBER] + 1, NAME_FIELDS[row.kind]
        yield "a name of %s in a row of kind %d, not %d to %d" % (counted(len(row.name), "character"), row.kind, least, most)
    if row.mode > IMPLICIT:
        yield "tag mode %d, not 0 to 2" % row.mode
    if row.number > (0 if row.mode == NONE else MOST_TAG):
        yield "tag number %d%s" % (row.number, " without a tag" if row.mode == NONE else ", not 0 to %d" % MOST_TAG)
    if row.presence > DEFAULT:
        yield "presence %d, not 0 to 2" % row.presence
    if owner is Kind.CHOICE and row.presence != MANDATORY:
        yield "an alternative is mandatory"
    if row.mode == IMPLICIT and kind is Kind.CHOICE:
        yield "an implicit tag on a CHOICE"
    yield from _default(row, kind)


def _default(row: Row, kind: Kind) -> Iterator[str]:
    """What is wrong with a member's default."""
    if row.presence != DEFAULT:
        if row.size or any(row.filled):
            yield "a default that presence %d doesn't have" % row.presence
        return
    if kind not in _DEFAULTED:
        yield "a default on %s; only BOOLEAN, INTEGER and ENUMERATED have one" % kind.asn1
    elif not 1 <= row.size <= 8:
        yield "a default of %d octets, not 1 to 8" % row.size
    elif any(row.filled[row.size:]):
        yield "octets after the default that are not zero"
    elif not _good_default(row, kind):
        yield "a default with contents %s, no %s" % (row.default.hex().upper(), kind.asn1)


def _good_default(row: Row, kind: Kind) -> bool:
    """Whether the engine takes a default's contents in a table of this member alone."""
    alone = row._replace(kind=Kind.MEMBER, to=2, mode=NONE, number=0, name=b"a")
    return admitted(b"".join(one.octets() for one in (Row(Kind.SEQUENCE, count=1), alone, Row(kind))))


def _names(rows: List[Row], members: range) -> Iterator[tuple]:
    """Members, or named bits, that bear an earlier one's name."""
    for at in members:
        for other in range(members.start, at):
            if rows[other].name == rows[at].name:
                yield at, "%s has the name of row %d" % (_called(rows[at]), other)


def _chain(rows: List[Row], row: int) -> List[int]:
    """The longest chain of type rows from one on. Rows from it on point to later type rows, or the chain ends there."""
    longest: dict = {}
    for at in reversed(range(row, len(rows))):
        below = [rows[one].to for one in range(at + 1, at + 1 + rows[at].count) if one < len(rows)] if rows[at].kind in _HOLDERS else [rows[at].to]
        chains = [longest[one] for one in below if one in longest and one > at]
        longest[at] = [at] + max(chains, key=len, default=[])
    return longest[row]


def _start_tags(rows: List[Row], member: int) -> List[int]:
    """The class and number of each tag that a member can start with."""
    if rows[member].mode in (EXPLICIT, IMPLICIT):
        return [CONTEXT | rows[member].number]
    to = rows[member].to or 0
    tag = rows[to].kind.tag
    if tag is not None:
        return [tag & ~CONSTRUCTED]
    return [one for at in range(to + 1, to + 1 + rows[to].count) for one in _start_tags(rows, at)]


def _same_tags(rows: List[Row], members: range, owner: Kind) -> Iterator[tuple]:
    """Members that can't be told apart by their tags."""
    for at in members:
        for other in reversed(range(members.start, at)):
            if owner is Kind.SEQUENCE and rows[other].presence not in (OPTIONAL, DEFAULT):
                break
            if set(_start_tags(rows, other)) & set(_start_tags(rows, at)):
                both = "members" if owner is Kind.SEQUENCE else "alternatives"
                yield at, "%s %s and %s start with the same tag" % (both, _shown(rows[other]), _shown(rows[at]))
