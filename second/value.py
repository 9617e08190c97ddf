"""The value check: the stored octets decoded into a tree that knows its places."""

from dataclasses import dataclass, field

import der
import table as types


@dataclass
class Node:
    """One decoded value: its type row, its own first octet, its whole length and what it holds.

    `held` is the decoded contents of a kind 1..11, 17, 19 or 20, a dict from member row to Node for a
    SEQUENCE, (alternative's row, Node) for a CHOICE, a list of Nodes for SEQUENCE OF, SET OF.
    """

    row: int
    place: int
    length: int
    held: object = field(repr=False)


class Decoder:
    """Reads one value of an admitted table; raises der.Bad where it is not as document 01 says."""

    def __init__(self, table, octets):
        self.table, self.octets = table, octets

    def whole(self):
        """DER, whole buffer, type of row 0."""
        node = self.typed(0, 0, len(self.octets), None)
        if node.length != len(self.octets):
            raise der.Bad("octets after the value")
        return node

    def typed(self, row, place, end, number):
        """A nested value is checked as its row says; `number` is an implicit tag or None."""
        kind = self.table.rows[row].kind
        if kind == der.CHOICE:
            return self.choice(row, place, end)
        tag, start, stop = der.read_header(self.octets, place, end)
        expected = der.tag_octet(der.UNIVERSAL if number is None else der.CONTEXT,
                                 kind in der.CONSTRUCTED_KINDS,
                                 der.UNIVERSAL_NUMBER[kind] if number is None else number)
        if tag != expected:
            raise der.Bad("tag")
        if kind == der.SEQUENCE:
            held = self.sequence(row, start, stop)
        elif kind in der.LIST_KINDS:
            held = self.elements(row, start, stop)
        else:
            held = der.read_contents(kind, self.octets[start:stop])
        return Node(row, place, stop - place, held)

    def member(self, member, place, end):
        """The Node of a member that starts at `place`, and the place after it."""
        row = self.table.rows[member]
        if row.mode == types.EXPLICIT:
            tag, start, stop = der.read_header(self.octets, place, end)
            if tag != der.tag_octet(der.CONTEXT, True, row.number):
                raise der.Bad("explicit tag")
            node = self.typed(row.points, start, stop, None)
            if node.place + node.length != stop:
                raise der.Bad("octets after the tagged value")
            return node, stop
        node = self.typed(row.points, place, end,
                          row.number if row.mode == types.IMPLICIT else None)
        return node, node.place + node.length

    def starts(self, member, place, end):
        """Whether what stands at `place` bears a tag of this member."""
        if place >= end:
            return False
        cls, _, number = der.split_tag(self.octets[place])
        return (cls, number) in self.table.tags(member)

    def choice(self, row, place, end):
        """The one alternative whose tag stands there; the CHOICE starts at its first octet."""
        for member in self.table.members(row):
            if self.starts(member, place, end):
                node, after = self.member(member, place, end)
                return Node(row, place, after - place, (member, node))
        raise der.Bad("no alternative")

    def sequence(self, row, place, end):
        """The members in their order; a default is never stored explicitly."""
        held = {}
        for member in self.table.members(row):
            described = self.table.rows[member]
            if not self.starts(member, place, end):
                if described.presence == types.MANDATORY:
                    raise der.Bad("mandatory member missing")
                continue
            node, place = self.member(member, place, end)
            if described.presence == types.DEFAULT and node.held == der.read_contents(
                    self.table.rows[described.points].kind, described.default):
                raise der.Bad("default stored")
            held[member] = node
        if place != end:
            raise der.Bad("octets after the last member")
        return held

    def elements(self, row, place, end):
        """The elements; those of a SET OF in X.690 order, where equals may repeat."""
        held = []
        while place < end:
            node = self.typed(self.table.rows[row].points, place, end, None)
            place += node.length
            held.append(node)
        if self.table.rows[row].kind == der.SET_OF:
            if not der.in_set_order([self.octets[node.place:node.place + node.length] for node in held]):
                raise der.Bad("SET OF order")
        return held


def decode(table, octets):
    """The tree of a value that is as document 01 says, or None."""
    try:
        return Decoder(table, octets).whole()
    except der.Bad:
        return None
