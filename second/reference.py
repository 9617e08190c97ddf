"""Component references: their grammar, what they name in a tree, and the walk on the octets."""

import re
from dataclasses import dataclass

import der
import table as types

IDENTIFIER = re.compile(r"[a-z][A-Za-z0-9]*(?:-[A-Za-z0-9]+)*")
POSITION = re.compile(r"-?[1-9][0-9]*")

COUNT_TYPE = "count"
STORED, BY_DEFAULT, COUNTED = 0, 1, 2


class Misfit(Exception):
    """The walk reaches a header that does not fit its row or its enclosing length."""


@dataclass(frozen=True)
class Named:
    """A named value: the three numbers of the listing, and what a rule is applied to.

    `row` is the type row (COUNT_TYPE for a count). `held` is the decoded contents for kinds
    1..11, 17, 19 and 20 and for a CHOICE of them, the number for a count, and None otherwise.
    """

    source: int
    place: int
    number: int
    row: object
    held: object = None


def parse(text):
    """The component identifiers of a reference, or None if it is malformed.

    Each is a name (a text that starts with a letter), a position (an int other than 0), "0"
    for the count or "*" for all.
    """
    steps = []
    for part in text.split("."):
        if IDENTIFIER.fullmatch(part) or part in ("0", "*"):
            steps.append(part)
        elif POSITION.fullmatch(part):
            steps.append(int(part))
        else:
            return None
    return steps


def target(table, steps):
    """The type row that a reference ends at, COUNT_TYPE, or None where the type forbids it."""
    row = 0
    for step in steps:
        if row == COUNT_TYPE:
            return None
        kind = table.rows[row].kind
        if kind in (der.SEQUENCE, der.CHOICE) and isinstance(step, str):
            member = table.member_named(row, step)
            if member is None:
                return None
            row = table.rows[member].points
        elif kind in der.LIST_KINDS and step == "0":
            row = COUNT_TYPE
        elif kind in der.LIST_KINDS and (isinstance(step, int) or step == "*"):
            row = table.rows[row].points
        else:
            return None
    return row


def pick(elements, step):
    """The elements that a position from 1, a position from the end, or `*` names."""
    if step == "*":
        return elements
    index = step - 1 if step > 0 else len(elements) + step
    return [elements[index]] if 0 <= index < len(elements) else []


def named_in_tree(table, tree, steps, defaults):
    """What the reference names, on the decoded value.

    At first the whole value is held; each component identifier then replaces each held value
    by those it names there, none, one or more.
    """
    held = [tree]
    for step in steps:
        held = [new for old in held for new in _replace(table, old, step, defaults)]
    return [new if isinstance(new, Named)
            else Named(STORED, new.place, new.length, new.row, _content(table, new))
            for new in held]


def _replace(table, node, step, defaults):
    """The values that one component identifier names in one held value."""
    row = table.rows[node.row]
    if row.kind in der.LIST_KINDS:
        if step == "0":
            return [Named(COUNTED, node.place, len(node.held), COUNT_TYPE, len(node.held))]
        return pick(node.held, step)
    member = table.member_named(node.row, step)
    if row.kind == der.CHOICE:
        return [node.held[1]] if node.held[0] == member else []
    if member in node.held:
        return [node.held[member]]
    described = table.rows[member]
    if described.presence == types.DEFAULT and defaults:
        kind = table.rows[described.points].kind
        return [Named(BY_DEFAULT, node.place, member, described.points,
                      der.read_contents(kind, described.default))]
    return []


def _content(table, node):
    """What a rule other than presentMatch looks at."""
    kind = table.rows[node.row].kind
    if kind == der.CHOICE:
        return _content(table, node.held[1])
    return None if kind in der.NESTED_KINDS else node.held


class Walk:
    """The walk on the octets, value by value, in the order of their places."""

    def __init__(self, table, octets, defaults):
        self.table, self.octets, self.defaults = table, octets, defaults

    def named(self, steps):
        """Each named value in turn; Misfit as soon as a header does not fit."""
        return self._along(0, 0, len(self.octets), None, steps)

    def _header(self, row, place, end, number):
        """Start and end of the contents at `place` if the header fits the row, else Misfit."""
        kind = self.table.rows[row].kind
        cls = der.UNIVERSAL if number is None else der.CONTEXT
        own = der.UNIVERSAL_NUMBER[kind] if number is None else number
        return self._expect(place, end, der.tag_octet(cls, kind in der.CONSTRUCTED_KINDS, own))

    def _expect(self, place, end, octet):
        try:
            tag, start, stop = der.read_header(self.octets, place, end)
        except der.Bad:
            raise Misfit from None
        if tag != octet:
            raise Misfit
        return start, stop

    def _extent(self, row, place, end, number):
        """The place after the value of this row that starts at `place`."""
        if self.table.rows[row].kind == der.CHOICE:
            return self._entered(self._chosen(row, place, end), place, end)[3]
        return self._header(row, place, end, number)[1]

    def _entered(self, member, place, end):
        """Own place, its enclosing end, implicit tag and the place after a member at `place`."""
        row = self.table.rows[member]
        if row.mode == types.EXPLICIT:
            start, stop = self._expect(place, end, der.tag_octet(der.CONTEXT, True, row.number))
            if self._extent(row.points, start, stop, None) != stop:
                raise Misfit
            return start, stop, None, stop
        number = row.number if row.mode == types.IMPLICIT else None
        return place, end, number, self._extent(row.points, place, end, number)

    def _starts(self, member, place, end):
        if place >= end:
            return False
        cls, _, number = der.split_tag(self.octets[place])
        return (cls, number) in self.table.tags(member)

    def _chosen(self, row, place, end):
        """The alternative whose tag stands at `place`."""
        for member in self.table.members(row):
            if self._starts(member, place, end):
                return member
        raise Misfit

    def _along(self, row, place, end, number, steps):
        """What the remaining identifiers name in the value of this row at `place`."""
        kind = self.table.rows[row].kind
        after = self._extent(row, place, end, number)
        if not steps:
            yield Named(STORED, place, after - place, row, self._content(row, place, end, number))
        elif kind == der.SEQUENCE:
            yield from self._in_sequence(row, place, end, number, steps)
        elif kind == der.CHOICE:
            member = self._chosen(row, place, end)
            if self.table.rows[member].name == steps[0]:
                own, limit, inner, _ = self._entered(member, place, end)
                yield from self._along(self.table.rows[member].points, own, limit, inner, steps[1:])
        else:
            yield from self._in_list(row, place, end, number, steps)

    def _in_sequence(self, row, place, end, number, steps):
        """The member of that name, stored or by default."""
        at, stop = self._header(row, place, end, number)
        for member in self.table.members(row):
            described = self.table.rows[member]
            wanted = described.name == steps[0]
            if self._starts(member, at, stop):
                own, limit, inner, after = self._entered(member, at, stop)
                if wanted:
                    yield from self._along(described.points, own, limit, inner, steps[1:])
                at = after
            elif described.presence == types.MANDATORY:
                raise Misfit
            elif wanted and described.presence == types.DEFAULT and self.defaults:
                kind = self.table.rows[described.points].kind
                yield Named(BY_DEFAULT, place, member, described.points,
                            der.read_contents(kind, described.default))
            if wanted:
                return

    def _in_list(self, row, place, end, number, steps):
        """The elements that a position or `*` names, or their count."""
        element = self.table.rows[row].points
        at, stop = self._header(row, place, end, number)
        spans = []
        while at < stop:
            after = self._extent(element, at, stop, None)
            spans.append((at, after))
            if steps[0] == "*" or steps[0] == len(spans):
                yield from self._along(element, at, after, None, steps[1:])
                if steps[0] != "*":
                    return
            at = after
        if steps[0] == "0":
            yield Named(COUNTED, place, len(spans), COUNT_TYPE, len(spans))
        elif steps[0] != "*" and steps[0] < 0:
            for first, last in pick(spans, steps[0]):
                yield from self._along(element, first, last, None, steps[1:])

    def _content(self, row, place, end, number):
        """The decoded contents of a kind 1..11, 17, 19 or 20, or of the alternative of a CHOICE."""
        kind = self.table.rows[row].kind
        if kind == der.CHOICE:
            member = self._chosen(row, place, end)
            own, limit, inner, _ = self._entered(member, place, end)
            return self._content(self.table.rows[member].points, own, limit, inner)
        start, stop = self._header(row, place, end, number)
        if kind in der.NESTED_KINDS:
            return None
        try:
            return der.read_contents(kind, self.octets[start:stop])
        except der.Bad:
            raise Misfit from None
