"""The type table: its rows and the conditions under which it is admitted."""

import re
from dataclasses import dataclass

import der

MOST_ROWS = 128
MOST_MEMBERS = 16
MOST_NAMES = 16
LARGEST_BIT = 63
LONGEST_CHAIN = 16

NONE, EXPLICIT, IMPLICIT = 0, 1, 2
MANDATORY, OPTIONAL, DEFAULT = 0, 1, 2

# A name is a lowercase letter, then letters, digits and single hyphens, no hyphen last.
NAME = re.compile(rb"([a-z][A-Za-z0-9]*(?:-[A-Za-z0-9]+)*)\x00*")

BODY = {**{kind: 0 for kind in range(1, 12)},
        der.SEQUENCE: 1, der.CHOICE: 1, der.SEQUENCE_OF: 2, der.SET_OF: 2, der.MEMBER: 38,
        der.NAMED_BIT_STRING: 1, der.BIT_NAME: 25, der.RDN_SEQUENCE: 0, der.RELATIVE_NAME: 0, der.LONG_MEMBER: 62}
# How many characters a name has, by the kind of its row: the most of them fill its field. One that fits in 24 octets has no other form.
NAME_SIZES = {der.MEMBER: range(1, 24 + 1), der.BIT_NAME: range(1, 24 + 1), der.LONG_MEMBER: range(25, 48 + 1)}
FOLLOWING = frozenset(kind for kinds in der.FOLLOWERS.values() for kind in kinds)


class NotAdmitted(Exception):
    """A condition of the section "Type table", of Q-2 on rows 17 and 18 or of Q-4 on rows 21, does not hold. Q-3 puts none on its rows 19 and 20."""


def need(condition, what):
    """Refuse the table unless the condition holds."""
    if not condition:
        raise NotAdmitted(what)


@dataclass(frozen=True)
class Row:
    """One row: `points` holds the row number that it names, if any.

    `count` is the number of rows that follow it. `number` is a member's tag number or the bit number of a row 18.
    """

    kind: int
    count: int = 0
    points: int = 0
    name: str = ""
    mode: int = NONE
    number: int = 0
    presence: int = MANDATORY
    default: bytes = b""


def read_name(kind, body):
    """The name of a member or of a bit from its field, which stands first and is filled with zeros, and what stands after it."""
    sizes = NAME_SIZES[kind]
    field = sizes[-1]
    name = NAME.fullmatch(body[:field])
    need(name, "name")
    need(len(name.group(1)) in sizes, "length of the name")
    return name.group(1).decode("ascii"), body[field:]


def read_row(kind, body):
    """One row from its kind and its body."""
    if kind in (der.SEQUENCE, der.CHOICE):
        need(body[0] <= MOST_MEMBERS, "members")
        need(kind == der.SEQUENCE or body[0] >= 1, "alternatives")
        return Row(kind, count=body[0])
    if kind in der.LIST_KINDS:
        return Row(kind, points=int.from_bytes(body, "big"))
    if kind == der.NAMED_BIT_STRING:
        need(1 <= body[0] <= MOST_NAMES, "names of bits")
        return Row(kind, count=body[0])
    if kind == der.BIT_NAME:
        name, after = read_name(kind, body)
        need(after[0] <= LARGEST_BIT, "bit number")
        return Row(kind, name=name, number=after[0])
    if kind not in der.MEMBER_KINDS:
        return Row(kind)
    name, after = read_name(kind, body)
    mode, number, presence, size = after[2:6]
    need(mode in (NONE, EXPLICIT, IMPLICIT), "tag mode")
    need(number <= 30 and (mode != NONE or number == 0), "tag number")
    need(presence in (MANDATORY, OPTIONAL, DEFAULT), "presence")
    need(1 <= size <= 8 if presence == DEFAULT else size == 0, "default length")
    need(not any(after[6 + size:]), "fill of the default")
    return Row(kind, points=int.from_bytes(after[:2], "big"), name=name,
               mode=mode, number=number, presence=presence, default=after[6:6 + size])


def read_rows(octets):
    """Rows stand one after another; the kind fixes the length of the body."""
    rows, place = [], 0
    while place < len(octets):
        kind = octets[place]
        need(kind in BODY, "kind")
        body = octets[place + 1:place + 1 + BODY[kind]]
        need(len(body) == BODY[kind], "row cut off")
        rows.append(read_row(kind, body))
        place += 1 + BODY[kind]
    need(1 <= len(rows) <= MOST_ROWS, "number of rows")
    return rows


class Table:
    """An admitted table. Making one raises NotAdmitted where a condition fails."""

    def __init__(self, octets):
        self.rows = read_rows(octets)
        need(self.rows[0].kind not in FOLLOWING, "row 0 is a type")
        self._check_followers_stand_right()
        self._check_pointers()
        self._check_chains()
        self._tags = [frozenset()] * len(self.rows)
        for number in reversed(range(len(self.rows))):
            self._tags[number] = self._find_tags(number)
        for number, row in enumerate(self.rows):
            if row.kind in (der.SEQUENCE, der.CHOICE):
                self._check_one_type(number, row)
            if row.kind == der.NAMED_BIT_STRING:
                self._check_bits(number)

    def members(self, number):
        """The row numbers of what follows a SEQUENCE, CHOICE or named BIT STRING: members, alternatives, names of bits."""
        return range(number + 1, number + 1 + self.rows[number].count)

    def member_named(self, number, name):
        """The row of the member of that name in a SEQUENCE or CHOICE, or None."""
        for member in self.members(number):
            if self.rows[member].name == name:
                return member
        return None

    def bits_by_name(self, number):
        """The bit number of each name of a named BIT STRING."""
        return {self.rows[row].name: self.rows[row].number for row in self.members(number)}

    def tags(self, number):
        """The tags (class, number) with which a value of this row, type or member, can start."""
        return self._tags[number]

    def _check_followers_stand_right(self):
        """Member rows of either kind stand directly after their SEQUENCE or CHOICE, names of bits after their row 17, and nowhere else."""
        owned = {follower: der.FOLLOWERS[row.kind] for number, row in enumerate(self.rows) if row.kind in der.FOLLOWERS
                 for follower in self.members(number)}
        held = {number: row.kind for number, row in enumerate(self.rows) if row.kind in FOLLOWING}
        need(owned.keys() == held.keys(), "rows that follow another")
        need(all(kind in owned[number] for number, kind in held.items()), "kind of a row that follows another")

    def _check_pointers(self):
        """Row numbers point to later rows of types."""
        for number, row in enumerate(self.rows):
            if row.kind in der.LIST_KINDS + der.MEMBER_KINDS:
                need(number < row.points < len(self.rows), "row number")
                need(self.rows[row.points].kind not in FOLLOWING, "row number of a row that follows another")

    def _check_chains(self):
        """A chain has at most 16 type rows (member rows not counted); a row 17 is one, a row 18 none."""
        longest = [0] * len(self.rows)
        for number in reversed(range(len(self.rows))):
            row = self.rows[number]
            if row.kind in der.MEMBER_KINDS:
                longest[number] = longest[row.points]
            elif row.kind == der.BIT_NAME:
                longest[number] = 0
            elif row.kind in der.LIST_KINDS:
                longest[number] = 1 + longest[row.points]
            else:
                longest[number] = 1 + max([longest[member] for member in self.members(number)],
                                          default=0)
        need(max(longest) <= LONGEST_CHAIN, "chain")

    def _find_tags(self, number):
        """An untagged CHOICE can start with any tag its alternatives can."""
        row = self.rows[number]
        if row.kind in der.MEMBER_KINDS:
            if row.mode == NONE:
                return self._tags[row.points]
            return frozenset({(der.CONTEXT, row.number)})
        if row.kind == der.CHOICE:
            return frozenset().union(*(self._tags[member] for member in self.members(number)))
        if row.kind == der.BIT_NAME:
            return frozenset()
        return frozenset({(der.UNIVERSAL, der.UNIVERSAL_NUMBER[row.kind])})

    def _check_bits(self, number):
        """Names and numbers in one list differ."""
        rows = [self.rows[row] for row in self.members(number)]
        need(len({row.name for row in rows}) == len(rows), "names of bits differ")
        need(len({row.number for row in rows}) == len(rows), "bit numbers differ")

    def _check_one_type(self, number, row):
        """The conditions on the members of one SEQUENCE or CHOICE."""
        members = self.members(number)
        names = [self.rows[member].name for member in members]
        need(len(set(names)) == len(names), "names differ")
        for member in members:
            self._check_member(row.kind, self.rows[member])
        if row.kind == der.CHOICE:
            self._check_tags_differ(members)
            return
        run = []
        for member in members:
            run.append(member)
            if self.rows[member].presence == MANDATORY:
                self._check_tags_differ(run)
                run = []
        self._check_tags_differ(run)

    def _check_member(self, owner, member):
        """Alternatives are mandatory; no implicit tag on a CHOICE; the legal defaults."""
        kind = self.rows[member.points].kind
        need(owner == der.SEQUENCE or member.presence == MANDATORY, "alternative mandatory")
        need(member.mode != IMPLICIT or kind != der.CHOICE, "implicit tag on a CHOICE")
        if member.presence == DEFAULT:
            need(kind in (der.BOOLEAN, der.INTEGER, der.ENUMERATED), "type of a default")
            try:
                der.read_contents(kind, member.default)
            except der.Bad:
                raise NotAdmitted("default contents") from None

    def _check_tags_differ(self, members):
        """No tag can start two of these members."""
        seen = set()
        for member in members:
            need(not seen & self._tags[member], "tags differ")
            seen |= self._tags[member]
