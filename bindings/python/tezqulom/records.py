"""A record by its components: the tree of a good one, the first cause in a refused one, and questions about its parts."""

import re
from typing import Any, Callable, Iterator, List, NamedTuple, Optional, Tuple, Union

from . import distinguished
from .engine import Answer, Component, Count, Default, Octets, Refusal, Refused, Text, asker, check_value, counted, listing, part
from .rows import CONSTRUCTED, DEFAULT, EXPLICIT, MANDATORY, Member, Row, Table, member_row
from .values import NAMES, Bits, Kind, Names, Plain, bit_string_contents, contents_of, encoded, gser, integer_contents, named_bits, plain

_MOST_SHOWN = 32
_NO_VALUE = b"\0\0"
# What an RDN and a name are but for their limits, in rows of other kinds: by these the cause in a refused one is found.
_PAIR = (("type", Kind.OBJECT_IDENTIFIER), ("value", Kind.CHOICE))
_VALUES = (("utf8String", Kind.UTF8_STRING), ("printableString", Kind.PRINTABLE_STRING), ("ia5String", Kind.IA5_STRING))


class Node(NamedTuple):
    """A component in the tree of a record."""

    depth: int
    name: str
    reference: str
    kind: Kind
    source: str
    """stored, default or absent."""
    place: int
    """Its tag octet's place; of a default and an absent member that of the SEQUENCE that lacks it."""
    length: int
    value: Plain = None
    """The value of a basic kind."""
    elements: Optional[int] = None
    """The number of elements of a list."""
    names: Optional[Names] = None
    """The bits that are 1 of a stored named BIT STRING: their names, and the numbers of those that have none."""


def _joined(reference: str, identifier: object) -> str:
    return "%s.%s" % (reference, identifier) if reference else str(identifier)


class _Tree:
    """The tree of a good record."""

    def __init__(self, table: Table, octets: bytes) -> None:
        self.table, self.octets = table, octets

    def end(self, place: int) -> Tuple[int, int]:
        """Where the contents of the encoding at a place start and end."""
        length = self.octets[place + 1]
        start = place + 2 + max(0, length - 0x80)
        return start, start + (length if length < 0x80 else int.from_bytes(self.octets[place + 2:start], "big"))

    def nodes(self, row: int, place: int, depth: int, name: str, reference: str) -> Iterator[Node]:
        """The value of a row at a place, and what is in it."""
        kind = self.table.kind(row)
        start, end = self.end(place)
        node = Node(depth, name, reference, kind, "stored", place, end - place)
        if kind.basic:
            contents = self.octets[start:end]
            yield node._replace(value=plain(kind, contents), names=self.table.names(row, contents))
        elif kind in (Kind.SEQUENCE_OF, Kind.SET_OF):
            places = list(self.places(start, end))
            yield node._replace(elements=len(places))
            for position, at in enumerate(places, 1):
                yield from self.nodes(self.table.to(row), at, depth + 1, str(position), _joined(reference, position))
        elif kind is Kind.CHOICE:
            yield node
            member = next(one for one in self.table.members(row) if self.octets[place] & ~CONSTRUCTED in self.table.member_tags(one))
            yield from self.member(member, place, depth + 1, reference)
        else:
            yield node
            yield from self.members(row, place, depth, reference)

    def places(self, start: int, end: int) -> Iterator[int]:
        """The places of the encodings in contents."""
        while start < end:
            yield start
            start = self.end(start)[1]

    def members(self, row: int, place: int, depth: int, reference: str) -> Iterator[Node]:
        """The members of a SEQUENCE, those that are absent too."""
        start, end = self.end(place)
        for member in self.table.members(row):
            if start < end and self.octets[start] & ~CONSTRUCTED in self.table.member_tags(member):
                yield from self.member(member, start, depth + 1, reference)
                start = self.end(start)[1]
            else:
                yield self.absent(member, place, depth + 1, reference)

    def member(self, member: Member, place: int, depth: int, reference: str) -> Iterator[Node]:
        """A stored member or alternative."""
        name = member.body.identifier
        inside = self.end(place)[0] if member.body.mode == EXPLICIT else place
        return self.nodes(self.table.to(member.row), inside, depth, name, _joined(reference, name))

    def absent(self, member: Member, place: int, depth: int, reference: str) -> Node:
        """A member that isn't stored."""
        name, kind = member.body.identifier, self.table.kind(self.table.to(member.row))
        node = Node(depth, name, _joined(reference, name), kind, "absent", place, 0)
        return node._replace(source="default", value=self.table.default(member)) if member.body.presence == DEFAULT else node


class _Named:
    """What a reference names in a record, each with the reference of it alone."""

    def __init__(self, table: Octets, value: Octets, reference: Optional[str], defaults: bool = True) -> None:
        given = None if reference is None else reference.encode("utf-8", "surrogateescape")
        self.components = listing(table, value, given, defaults)
        self.table, self.octets, self.reference = Table(table), bytes(value), reference
        self.found, self.row = _Tree(self.table, self.octets), self.table.reached(reference)
        self.nodes = list(self.found.nodes(0, 0, 0, "", ""))
        self.references = {(node.source, node.place, node.depth, node.name if node.source == "default" else ""): node.reference for node in self.nodes}
        self.depth = 0 if reference is None else reference.count(".") + 1

    def exact(self, one: Component) -> str:
        """The reference that names this component alone: `*` and positions from the end are positions in it."""
        if isinstance(one, Count):
            return _joined(self.references["stored", one.place, self.depth - 1, ""], "0")
        if isinstance(one, Default):
            return self.references["default", one.place, self.depth, self.table.rows[one.row].identifier]
        return self.references["stored", one.place, self.depth, ""]


def tree(table: Octets, value: Octets, reference: Optional[str] = None) -> List[Node]:
    """The components of a record, or of what a reference names in it. Refused as a listing is."""
    named = _Named(table, value, reference)
    if reference is None:
        return named.nodes
    return [node for one in named.components for node in _named_nodes(named, one)]


def _named_nodes(named: _Named, one: Component) -> Iterator[Node]:
    """The nodes of one listed component."""
    exact = named.exact(one)
    if isinstance(one, Count):
        yield Node(0, exact, exact, Kind.INTEGER, "count", one.place, 0, one.elements)
    elif isinstance(one, Default):
        node = named.found.absent(Member(one.row, named.table.rows[one.row]), one.place, 0, "")
        yield node._replace(name=exact, reference=exact)
    else:
        assert named.row is not None
        yield from named.found.nodes(named.row, one.place, 0, exact, exact)


class Part(NamedTuple):
    """A listed component as a value of its own: the table of its type, and its octets with the type's own tag."""

    component: Component
    reference: str
    """The reference that names it alone; empty for the whole value."""
    kind: Kind
    table: bytes
    octets: bytes
    stored: bytes = b""
    """The octets as they are stored; none of a default and a count."""
    names: Optional[Names] = None
    """The bits that are 1 of a named BIT STRING, as a Node has them."""

    @property
    def value(self) -> Plain:
        """The value of a basic kind; else the octets as they are stored."""
        return plain(self.kind, contents_of(self.octets)) if self.kind.basic else self.stored


def parts(table: Octets, value: Octets, reference: Optional[str] = None, defaults: bool = True) -> List[Part]:
    """What a reference names, each as a value of its own. Refused as a listing is."""
    named = _Named(table, value, reference, defaults)
    return [_part(named, one) for one in named.components]


def _part(named: _Named, one: Component) -> Part:
    exact, rows, row = named.exact(one), named.table, named.row
    if isinstance(one, Count):
        return Part(one, exact, Kind.INTEGER, bytes([Kind.INTEGER]), encoded(Kind.INTEGER.tag or 0, integer_contents(one.elements)))
    if isinstance(one, Default):
        row = rows.to(one.row)
        return Part(one, exact, rows.kind(row), rows.after(row), rows.default_octets(Member(one.row, rows.rows[one.row])))
    assert row is not None
    octets, tag = part(named.octets, one.place, one.length), rows.kind(row).tag
    own = octets if tag is None else bytes([tag]) + octets[1:]
    return Part(one, exact, rows.kind(row), rows.after(row), own, octets, rows.names(row, contents_of(octets)))


def each(table: Octets, value: Octets, reference: Optional[str], filter_text: Text) -> List[Tuple[Part, Answer]]:
    """A filter about each component that a reference names: its references start at that component. Refused as `listing` and `ask` are."""
    found = parts(table, value, reference)
    return [(one, asker(one.table, filter_text)(one.octets)) for one in found]


def encoded_bits(table: Octets, reference: Optional[str], bits: Bits) -> bytes:
    """Bits as a value of the named BIT STRING that a reference reaches, with its own tag and without a trailing zero bit.

    They are names, with numbers for bits that have none, or a text of 0 and 1. A ValueError for a name that no bit has, and where the reference
    reaches another type. Refused: SIZE, TABLE, FORM, as a listing is.
    """
    found, row = _reached(table, reference)
    if row is None or found.kind(row) is not Kind.NAMED_BIT_STRING:
        raise ValueError("%s is no BIT STRING whose bits have names" % (reference or "the whole value"))
    return encoded(Kind.NAMED_BIT_STRING.tag or 0, bit_string_contents(named_bits(found.bits(row), bits)))


def encoded_name(table: Octets, reference: Optional[str], name: Union[distinguished.Name, distinguished.Rdn]) -> bytes:
    """A distinguished name, or one RDN, as a value of the type that a reference reaches, with its own tag.

    It is an RFC 4514 text with dotted types, or, in stored order, the RDNs of a name, the pairs of an RDN. A NotName, which is a ValueError, beyond
    the limits, and a ValueError where the reference reaches another type. Refused: SIZE, TABLE, FORM, as a listing is.
    """
    found, row = _reached(table, reference)
    if row is None or found.kind(row) not in NAMES:
        raise ValueError("%s is no distinguished name" % (reference or "the whole value"))
    make: Callable[[Any], bytes] = distinguished.encoded_name if found.kind(row) is Kind.RDN_SEQUENCE else distinguished.encoded_rdn
    return make(name)


def _reached(table: Octets, reference: Optional[str]) -> Tuple[Table, Optional[int]]:
    """The table, and the row that a reference reaches. Refused as a listing is, but for VALUE."""
    try:
        listing(table, _NO_VALUE, reference)
    except Refused as refused:
        if refused.refusal is not Refusal.VALUE:
            raise
    found = Table(table)
    return found, found.reached(reference)


class Fault(NamedTuple):
    """The first cause of refusal 4: a place, the reference of what starts there, and what is wrong."""

    place: int
    reference: str
    sentence: str

    def __str__(self) -> str:
        where = "at octet %d" % self.place
        return "%s, %s: %s" % (where, self.reference, self.sentence) if self.reference else "%s: %s" % (where, self.sentence)


class _Found(Exception):
    """Ends the search."""

    def __init__(self, place: int, reference: str, sentence: str) -> None:
        super().__init__(sentence)
        self.fault = Fault(place, reference, sentence)


def why_value(table: Octets, value: Octets) -> Optional[Fault]:
    """Why the engine refuses a value; None where it is good. Refused: SIZE, TABLE, as check_value is."""
    octets = bytes(value)
    try:
        check_value(table, octets)
        return None
    except Refused as refused:
        if refused.refusal is not Refusal.VALUE:
            raise
    try:
        return _Search(Table(table), octets).whole()
    except _Found as found:
        return found.fault


def _name_rows(kind: Kind) -> bytes:
    """The rows of what a kind of distinguished name is but for its limits: perhaps a SEQUENCE OF, a SET OF, a SEQUENCE, a CHOICE of strings."""
    head = [Row(Kind.SEQUENCE_OF, to=1)] if kind is Kind.RDN_SEQUENCE else []
    at = len(head) + 1
    rows = [*head, Row(Kind.SET_OF, to=at), Row(Kind.SEQUENCE, count=len(_PAIR)), *_members(_PAIR, at + 3), Row(Kind.OBJECT_IDENTIFIER),
            Row(Kind.CHOICE, count=len(_VALUES)), *_members(_VALUES, at + 8), *(Row(one) for _, one in _VALUES)]
    return b"".join(row.octets() for row in rows)


def _members(named: Tuple[Tuple[str, Kind], ...], first: int) -> List[Row]:
    """Mandatory members whose types are the rows from one on."""
    return [member_row(name, to=first + at) for at, (name, _) in enumerate(named)]


class _Search:
    """The search for the first cause in a refused value. Each part is judged by the engine."""

    def __init__(self, table: Table, octets: bytes) -> None:
        self.table, self.octets = table, octets

    def whole(self) -> Fault:
        end = self.value(0, self.table.kind(0).tag, 0, len(self.octets), "")
        if end < len(self.octets):
            return Fault(end, "", "the value ends here, and %s more follow" % counted(len(self.octets) - end, "octet"))
        return Fault(0, "", "the engine refuses the value; the cause was not found")

    def shown(self, start: int, end: int) -> str:
        """Octets in hexadecimal digits, the first of many."""
        digits = self.octets[start:min(end, start + _MOST_SHOWN)].hex().upper()
        return digits + ".. (%d octets)" % (end - start) if end - start > _MOST_SHOWN else digits or "none"

    def header(self, place: int, limit: int, reference: str) -> Tuple[int, int]:
        """Where the contents of the encoding at a place start and end, within a limit."""
        octets = self.octets[place:limit]
        if not octets:
            raise _Found(place, reference, "the octets end where a tag octet is needed")
        if octets[0] & 0x1F == 0x1F:
            raise _Found(place, reference, "tag octet %02X: tag number 31 is not used" % octets[0])
        size = self.length(octets[1:4], place, reference)
        start = place + 2 + max(0, octets[1] - 0x80)
        if start + size > limit:
            raise _Found(place, reference, "length %d passes the enclosing end by %s" % (size, counted(start + size - limit, "octet")))
        return start, start + size

    @staticmethod
    def length(octets: bytes, place: int, reference: str) -> int:
        """The length that length octets give."""
        if not octets:
            raise _Found(place, reference, "the octets end where a length octet is needed")
        if octets[0] < 0x80:
            return octets[0]
        if octets[0] not in (0x81, 0x82):
            kind = "is not definite" if octets[0] == 0x80 else "is not used: lengths have at most two octets"
            raise _Found(place, reference, "length octet %02X %s" % (octets[0], kind))
        more = octets[1:octets[0] - 0x7F]
        if len(more) < octets[0] - 0x80:
            raise _Found(place, reference, "the octets end within the length")
        if int.from_bytes(more, "big") < (0x80 if octets[0] == 0x81 else 0x100):
            raise _Found(place, reference, "length octets %s are not the shortest" % octets[:octets[0] - 0x7F].hex().upper())
        return int.from_bytes(more, "big")

    def value(self, row: int, tag: Optional[int], place: int, limit: int, reference: str) -> int:
        """The end of a row's value at a place, whose tag octet is to be this one; ends the search where a cause is in it."""
        kind = self.table.kind(row)
        start, end = self.header(place, limit, reference)
        if kind is Kind.CHOICE:
            return self.alternative(row, place, limit, reference)
        if self.octets[place] != tag:
            raise _Found(place, reference, "tag octet %02X where %02X is needed (%s)" % (self.octets[place], tag or 0, kind.asn1))
        if self.good(row, place, end):
            return end
        if kind in NAMES:
            self.name(kind, place, start, end, reference)
        elif kind.basic:
            raise _Found(place, reference, "%s with contents %s%s" % (kind.asn1, self.shown(start, end), self.trailing(kind, place, end)))
        if kind is Kind.SEQUENCE:
            self.members(row, start, end, reference)
        else:
            self.elements(row, start, end, reference)
        raise _Found(place, reference, "the engine refuses this %s; the cause was not found" % kind.asn1)

    def good(self, row: int, place: int, end: int) -> bool:
        """Whether the engine finds the part good, as a value of the table of its row."""
        try:
            check_value(self.table.after(row), bytes([self.table.kind(row).tag or 0]) + self.octets[place + 1:end])
        except Refused:
            return False
        return True

    def trailing(self, kind: Kind, place: int, end: int) -> str:
        """The cause in a named BIT STRING that is good but for its names."""
        if kind is not Kind.NAMED_BIT_STRING:
            return ""
        try:
            check_value(bytes([Kind.BIT_STRING]), bytes([Kind.BIT_STRING.tag or 0]) + self.octets[place + 1:end])
        except Refused:
            return ""
        return ": a trailing zero bit, which named bits don't have"

    def name(self, kind: Kind, place: int, start: int, end: int, reference: str) -> None:
        """The cause in a distinguished name, or in an RDN: the first in its parts, else a limit."""
        inner = _Search(Table(_name_rows(kind)), self.octets)
        try:
            inner.elements(0, start, end, "")
        except _Found as found:
            words = [word % one for word, one in zip(("RDN %s", "pair %s", "%s")[kind is Kind.RDN:], found.fault.reference.split("."))]
            sentence = re.sub("^a mandatory member is missing: (tag octet ..) stands here", r"\1 is of none of the three string kinds", found.fault.sentence)
            cause = sentence if words[-1] == "value" else found.fault.sentence
            raise _Found(found.fault.place, reference, "%s: %s" % (", ".join(words), cause)) from None
        tree = _Tree(self.table, self.octets)
        rdns = list(tree.places(start, end)) if kind is Kind.RDN_SEQUENCE else []
        if len(rdns) > distinguished.MOST_RDNS:
            raise _Found(rdns[distinguished.MOST_RDNS], reference, "%d RDNs, more than %d" % (len(rdns), distinguished.MOST_RDNS))
        for position, at in enumerate(rdns, 1):
            self.pairs(*tree.end(at), at, reference, "RDN %d: " % position)
        if kind is Kind.RDN:
            self.pairs(start, end, place, reference, "")

    def pairs(self, start: int, end: int, place: int, reference: str, which: str) -> None:
        """The number of pairs in an RDN's contents."""
        count = len(list(_Tree(self.table, self.octets).places(start, end)))
        if not 1 <= count <= distinguished.MOST_PAIRS:
            raise _Found(place, reference, "%s%s, not 1 to %d" % (which, counted(count, "pair"), distinguished.MOST_PAIRS))

    def starts(self, member: Member, place: int) -> bool:
        """Whether the tag octet at a place can be a member's first."""
        return self.octets[place] & ~CONSTRUCTED in self.table.member_tags(member)

    def alternative(self, row: int, place: int, limit: int, reference: str) -> int:
        """The end of a CHOICE at a place."""
        for member in self.table.members(row):
            if self.starts(member, place):
                return self.member(member, place, limit, reference)
        names = ", ".join(member.body.identifier for member in self.table.members(row))
        raise _Found(place, reference, "tag octet %02X starts no alternative of the CHOICE (%s)" % (self.octets[place], names))

    def members(self, row: int, at: int, end: int, reference: str) -> None:
        """The members in a SEQUENCE's contents."""
        for member in self.table.members(row):
            name = _joined(reference, member.body.identifier)
            if at < end and self.starts(member, at):
                at = self.member(member, at, end, reference)
            elif member.body.presence == MANDATORY:
                here = "tag octet %02X stands here" % self.octets[at] if at < end else "the SEQUENCE ends here"
                raise _Found(at, name, "a mandatory member is missing: %s" % here)
        if at < end:
            raise _Found(at, reference, "tag octet %02X is of no member that can stand here" % self.octets[at])

    def member(self, member: Member, place: int, limit: int, reference: str) -> int:
        """The end of a member at a place."""
        name, to, tag = _joined(reference, member.body.identifier), self.table.to(member.row), self.table.first_octet(member)
        start, end = self.header(place, limit, name)
        if member.body.mode == EXPLICIT:
            if self.octets[place] != tag:
                raise _Found(place, name, "tag octet %02X where %02X is needed (explicit tag)" % (self.octets[place], tag or 0))
            inner = self.value(to, self.table.kind(to).tag, start, end, name)
            if inner < end:
                raise _Found(inner, name, "%s too many within the explicit tag" % counted(end - inner, "octet"))
            start = self.header(start, end, name)[0]
        else:
            self.value(to, tag, place, limit, name)
        if member.body.presence == DEFAULT and self.octets[start:end] == member.body.default:
            raise _Found(place, name, "%s, the default, is stored; a default never is" % gser(self.table.kind(to), self.table.default(member)))
        return end

    def elements(self, row: int, at: int, end: int, reference: str) -> None:
        """The elements in a list's contents."""
        to, before, position = self.table.to(row), b"", 0
        while at < end:
            position += 1
            name = _joined(reference, position)
            after = self.value(to, self.table.kind(to).tag, at, end, name)
            if self.table.kind(row) is Kind.SET_OF and self.octets[at:after] < before:
                raise _Found(at, name, "it is less than the element before it, and elements of a SET OF do not fall")
            before, at = self.octets[at:after], after
