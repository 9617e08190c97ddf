"""Drawn types and their tables, with single conditions broken on request."""

from dataclasses import dataclass, field

import der
from rows import either_member, long_member

NAMES = ["a", "b", "c", "d", "n1", "xY", "x-y", "a-b-c", "content", "value", "item", "z9-9",
         "abcdefghijklmnopqrstuvwx", "b-0", "seats"]
INTEGERS = [0, 1, -1, 2, 3, 5, 127, 128, -128, -129, 255, 256, 32767, 32768, -32768,
            2 ** 31, 2 ** 32, 2 ** 63 - 1, -2 ** 63]
# The kinds without inner types, as often as they are drawn, and as often with named BIT STRINGs and with names among them.
LEAVES = [1, 1, 2, 2, 2, 3, 4, 5, 6, 6, 7, 8, 9, 10, 11, 11]
LEAVES_WITH_BITS = LEAVES + [der.NAMED_BIT_STRING] * 10 + [der.BIT_STRING] * 2
LEAVES_WITH_NAMES = LEAVES_WITH_BITS + [der.RDN_SEQUENCE] * 10 + [der.RELATIVE_NAME] * 10
# Names of members of kind 21, some of which begin alike, up to 24, 25, 40 or 47 characters, or begin with a name of kind 16.
NAMES_WITH_LONG = NAMES[:6] + NAMES[-3:-2] + [
    "educationalConcessionCategory", "educationalConcessionCategoryCode", "abcdefghijklmnopqrstuvwxy", "abcdefghijklmnopqrstuvwxz",
    "abcdefghijklmnopqrstuvwxyZ", "abcdefghijklmnopqrstuvwxyzABCDEFGHIJKLMNOPQRSTUV", "abcdefghijklmnopqrstuvwxyzABCDEFGHIJKLMNOPQRSTUW",
    "abcdefghijklmnopqrstuvwxyzABCDEFGHIJKLMNOPQRSTU",
    "abcdefghijklmnopqrstuvwxyzABCDEFGHIJKLMN-9", "x-1-2-3-4-5-6-7-8-9-a-b-c-d-e-f", "content-of-the-licence-record-9"]
BIT_NAMES = ["print", "perform", "record", "a", "ab", "aB", "a-b", "printing", "prin", "x9", "content",
             "abcdefghijklmnopqrstuvwx", "abcdefghijklmnopqrstuvwy"]
BIT_NUMBERS = [0, 0, 1, 1, 2, 3, 6, 7, 8, 9, 15, 16, 31, 32, 62, 63]
BAD_NAMES = [b"", b"A", b"a-", b"a--b", b"-a", b"1a", b"a\0b", b"a_b", b"a-b", b"abcdefghijklmnopqrstuvw-"]


@dataclass(eq=False)
class Type:
    """A drawn type; one object may be used in several places."""

    kind: int
    members: list = field(default_factory=list)
    element: object = None
    names: list = field(default_factory=list)


@dataclass(eq=False)
class Member:
    """A drawn member or alternative."""

    name: str
    type: Type
    mode: int = 0
    number: int = 0
    presence: int = 0
    default: bytes = b""


def starts(thing):
    """The tags with which a Type or Member can start."""
    if isinstance(thing, Member):
        return {(2, thing.number)} if thing.mode else starts(thing.type)
    if thing.kind == der.CHOICE:
        return set().union(*(starts(member) for member in thing.members))
    return {(0, der.UNIVERSAL_NUMBER[thing.kind])}


def integer_octets(number):
    """The shortest two's complement octets."""
    size = 1
    while not -(1 << (8 * size - 1)) <= number < 1 << (8 * size - 1):
        size += 1
    return number.to_bytes(size, "big", signed=True)


class TypeDrawer:
    """Draws types within a number of octets for their table, from these leaves and names of members."""

    def __init__(self, dice, room, deepest, leaves=tuple(LEAVES), member_names=tuple(NAMES)):
        self.dice, self.room, self.deepest, self.made = dice, room, deepest, []
        self.leaves, self.member_names = leaves, member_names

    def type(self, depth=0):
        """One type; a finished one may be used again."""
        dice = self.dice
        if self.made and depth and dice.random() < 0.15:
            return dice.choice(self.made)
        wide = depth < self.deepest and self.room > 60
        kind = dice.choice([12, 12, 12, 12, 12, 13, 13, 14, 14, 14, 15, 15, 0] if wide and not depth
                           else [12, 12, 12, 13, 14, 14, 15, 0, 0, 0, 0, 0] if wide else [0])
        kind = kind or dice.choice(self.leaves)
        drawn = Type(kind)
        self.room -= 3
        if kind in der.LIST_KINDS:
            drawn.element = self.type(depth + 1)
        elif kind in (der.SEQUENCE, der.CHOICE):
            self.members(drawn, depth)
        elif kind == der.NAMED_BIT_STRING:
            self.names(drawn)
        self.made.append(drawn)
        return drawn

    def names(self, drawn):
        """Names of bits, with names and numbers that differ."""
        dice = self.dice
        count = dice.choice([1, 2, 3, 3, 16] if self.room > 600 else [1, 1, 2, 2, 3])
        names = dice.sample(BIT_NAMES + ["n%d" % number for number in range(8)], count)
        numbers = []
        while len(numbers) < count:
            number = dice.choice(BIT_NUMBERS) if count < 4 else dice.randrange(64)
            if number not in numbers:
                numbers.append(number)
        drawn.names = [*zip(names, numbers)]
        self.room -= 26 * count

    def members(self, owner, depth):
        """Members with names that differ and tags as the table's conditions ask."""
        dice = self.dice
        least = 1 if owner.kind == der.CHOICE or dice.random() < 0.97 else 0
        names = dice.sample(self.member_names, min(len(self.member_names), max(least, dice.randint(1, 4))) if least else 0)
        strings = owner.kind == der.CHOICE and dice.random() < 0.4
        taken = set()
        for name in names:
            size = len(either_member(name, 0))
            if self.room < size + 6 and owner.members:
                break
            self.room -= size
            inner = Type(dice.choice(der.STRING_KINDS)) if strings else self.type(depth + 1)
            member = Member(name, inner)
            if dice.random() < (0.1 if strings else 0.45):
                member.mode, member.number = dice.choice([1, 2]), dice.choice([0, 0, 1, 2, 3, 30])
            if owner.kind == der.SEQUENCE:
                self.presence(member)
            while (member.mode == 2 and inner.kind == der.CHOICE) or starts(member) & taken:
                member.mode, member.number = dice.choice([1, 2]), dice.randint(0, 8 if len(taken) < 8 else 30)
            taken |= starts(member)
            if owner.kind == der.SEQUENCE and member.presence == 0:
                taken = set()
            owner.members.append(member)

    def presence(self, member):
        """Mandatory, optional, or a default where the type allows one."""
        dice = self.dice
        member.presence = dice.choice([0, 0, 0, 1, 2, 2])
        if member.presence == 2 and member.type.kind not in (1, 2, 3):
            if dice.random() < 0.5:
                member.type = Type(dice.choice([1, 2, 3]))
            else:
                member.presence = 1
        if member.presence == 2:
            member.default = (dice.choice([b"\0", b"\xff"]) if member.type.kind == 1
                              else integer_octets(dice.choice(INTEGERS)))


def lay_out(dice, root, loose=False):
    """The rows of a type as [kind, body], each type after all that name it; row 0 is the root."""
    def named(drawn):
        return [member.type for member in drawn.members] + ([drawn.element] if drawn.element else [])

    waiting, unread, seen = {}, [root], {root}
    while unread:
        for inner in named(unread.pop()):
            waiting[inner] = waiting.get(inner, 0) + 1
            if inner not in seen:
                seen.add(inner)
                unread.append(inner)
    ready, order = [root], []
    while ready:
        drawn = ready.pop(0 if dice.random() < 0.5 else dice.randrange(len(ready)))
        order.append(drawn)
        for inner in named(drawn):
            waiting[inner] -= 1
            if not waiting[inner]:
                ready.append(inner)
    place, rows = {}, 0
    for drawn in order:
        place[drawn] = rows
        rows += 1 + len(drawn.members) + len(drawn.names)
    out = []
    for drawn in order:
        if drawn.kind in der.LIST_KINDS:
            out.append([drawn.kind, bytearray(place[drawn.element].to_bytes(2, "big"))])
            continue
        count = len(drawn.members) + len(drawn.names)
        out.append([drawn.kind, bytearray([count] if drawn.kind in der.FOLLOWERS else [])])
        for name, number in drawn.names:
            out.append([der.BIT_NAME, bytearray(name.encode().ljust(24, b"\0") + bytes([number]))])
        for member in drawn.members:
            row = either_member(member.name, place[member.type], member.mode, member.number, member.presence, member.default)
            out.append([row[0], bytearray(row[1:])])
    if loose:
        out.append([dice.randint(1, 11), bytearray()])
    return out


# The kinds of rows that name another row.
POINTING = der.LIST_KINDS + der.MEMBER_KINDS


def point(body, row):
    """Let the body of a row that names another name this one."""
    place = 0 if len(body) == 2 else len(body) - 14
    body[place:place + 2] = row.to_bytes(2, "big")


def table_octets(rows):
    """The rows one after another."""
    return b"".join(bytes([kind]) + bytes(body) for kind, body in rows)


def break_rows(dice, rows):
    """Break one condition of the table in place; the name of the break."""
    if any(kind == der.LONG_MEMBER for kind, _ in rows) and dice.random() < 0.7:
        return break_long_names(dice, rows)
    if any(kind in der.NAME_KINDS for kind, _ in rows) and dice.random() < 0.6:
        return break_names(dice, rows)
    if any(kind == der.BIT_NAME for kind, _ in rows) and dice.random() < 0.7:
        return break_bits(dice, rows)
    members = [body for kind, body in rows if kind == 16]
    owners = [body for kind, body in rows if kind in (12, 13)]
    lists = [body for kind, body in rows if kind in (14, 15)]
    choices = ["kind", "member at the end", "chain"]
    choices += ["count"] if owners else []
    choices += ["element"] if lists else []
    choices += ["name", "repeat", "points", "mode", "number", "presence", "default", "fill",
                "tags"] * 2 if members else []
    what = dice.choice(choices)
    body = dice.choice(members) if members else None
    if what == "kind":
        dice.choice(rows)[0] = dice.choice([0, 17, 255, 16])
    elif what == "member at the end":
        rows.append([16, bytearray(b"q".ljust(24, b"\0") + bytes(14))])
    elif what == "chain":
        del rows[:]
        size = dice.choice([15, 16, 16, 17])
        rows.extend([dice.choice([14, 15]), bytearray((row + 1).to_bytes(2, "big"))]
                    for row in range(size))
        rows.append([dice.randint(1, 11), bytearray()])
    elif what == "count":
        dice.choice(owners)[0] = dice.choice([0, 1, 2, 3, 17])
    elif what == "element":
        dice.choice(lists)[:] = dice.choice([0, 1, 2, 3, len(rows), 256]).to_bytes(2, "big")
    elif what == "name":
        body[:24] = dice.choice(BAD_NAMES).ljust(24, b"\0")
    elif what == "repeat":
        body[:24] = dice.choice(members)[:24]
    elif what == "points":
        body[24:26] = dice.randint(0, len(rows)).to_bytes(2, "big")
    elif what == "mode":
        body[26] = dice.choice([0, 1, 2, 3])
    elif what == "number":
        body[27] = dice.choice([0, 1, 30, 31, 255])
    elif what == "presence":
        body[28] = dice.choice([0, 1, 2, 3])
    elif what == "default":
        contents = bytes.fromhex(dice.choice(["01", "00", "FF", "007F", "0080", "FF80", "FF7F", "",
                                              "0102030405060708"]))
        body[28], body[29] = dice.choice([2, 2, 1]), dice.choice([len(contents), 9, 0])
        body[30:38] = contents.ljust(8, b"\0")
    elif what == "fill":
        body[dice.choice([23, 30, 37])] = dice.choice([0, 1, 97])
    elif what == "tags":
        other = dice.choice(members)
        body[26:28] = other[26:28]
        body[24:26] = dice.choice([body[24:26], max(body[24:26], other[24:26])])
    return what


def break_bits(dice, rows):
    """Break one condition on rows of kinds 17 and 18 in place, or come close to it; the name of the break."""
    lists = [at for at, (kind, _) in enumerate(rows) if kind == der.NAMED_BIT_STRING]
    names = [at for at, (kind, _) in enumerate(rows) if kind == der.BIT_NAME]
    pointers = [body for kind, body in rows if kind in POINTING]
    what = dice.choice(["count", "count", "name", "fill", "repeat", "repeat", "number", "number", "less", "more", "move", "between", "kind"]
                       + ["points"] * 2 * bool(pointers))
    at, other = dice.choice(names), dice.choice(names)
    body = rows[at][1]
    if what == "count":
        stated = rows[dice.choice(lists)][1]
        stated[0] = dice.choice([0, 1, 2, 3, stated[0] + 1, stated[0] - 1, 16, 17])
    elif what == "name":
        body[:24] = dice.choice(BAD_NAMES).ljust(24, b"\0")
    elif what == "fill":
        body[dice.choice([1, 22, 23])] = dice.choice([0, 1, 97, 45])
    elif what == "repeat":
        size = dice.choice([24, 24, 25])
        body[:size] = rows[other][1][:size]
    elif what == "number":
        body[24] = dice.choice([rows[other][1][24], rows[other][1][24], 63, 64, 65, 128, 255])
    elif what == "less":
        del rows[at]
    elif what == "more":
        rows.insert(at, [der.BIT_NAME, bytearray(dice.choice([b"y", b"print"]).ljust(24, b"\0") + bytes([dice.choice([5, 60])]))])
    elif what == "move":
        rows.insert(dice.randrange(len(rows)), rows.pop(at))
    elif what == "between":
        rows.insert(at, [dice.randint(1, 11), bytearray()])
    elif what == "kind":
        rows[dice.choice([at, dice.choice(lists)])][0] = dice.choice([0, 7, 12, 13, 16, 17, 18, 19])
    else:
        point(dice.choice(pointers), dice.choice([at, dice.choice(lists)]))
    return what


def break_names(dice, rows):
    """Break one condition around rows of kinds 19 and 20 in place, or come close to it; the name of the break."""
    names = [at for at, (kind, _) in enumerate(rows) if kind in der.NAME_KINDS]
    members = [at for at, (kind, _) in enumerate(rows) if kind == der.MEMBER]
    pointers = [body for kind, body in rows if kind in POINTING]
    what = dice.choice(["kind", "kind", "body", "more", "chain"] + ["default", "between", "tags", "tags", "optional"] * bool(members)
                       + ["points", "leaf"] * bool(pointers))
    at = dice.choice(names)
    body = rows[dice.choice(members)][1] if members else None
    if what == "kind":
        rows[at][0] = dice.choice([0, 12, 13, 14, 15, 16, 17, 18, 19, 20, 21])
    elif what == "body":
        rows[at][1].extend(dice.choice([b"\0", b"\1", b"\2", b"\x13", b"\x14", b"\0\1"]))
    elif what == "more":
        rows.insert(dice.randint(0, len(rows)), [dice.choice(der.NAME_KINDS), bytearray()])
    elif what == "chain":
        size, first = dice.choice([15, 16, 16, 17]), dice.choice([0, 1])
        rows[:] = [[dice.choice([14, 15]), bytearray((first + row + 1).to_bytes(2, "big"))] for row in range(size)]
        rows[:0] = [[2, bytearray()]] * first
        rows.append([dice.choice(der.NAME_KINDS), bytearray()])
    elif what == "default":
        body[24:26], body[28:30], body[30] = at.to_bytes(2, "big"), bytes([2, 1]), dice.choice([0, 1, 255])
    elif what == "between":
        rows.insert(dice.choice(members), [dice.choice(der.NAME_KINDS), bytearray()])
    elif what == "tags":
        body[24:28] = at.to_bytes(2, "big") + dice.choice([b"\0\0", b"\0\0", b"\2\0", b"\1\0"])
    elif what == "optional":
        body[24:26], body[28] = at.to_bytes(2, "big"), 1
    elif what == "points":
        point(dice.choice(pointers), dice.choice([at, at, at + 1, len(rows)]))
    else:
        rows[dice.choice([place for place, (kind, _) in enumerate(rows) if kind not in (12, 13, 14, 15, 16, 17, 18, 21)])][0] = dice.choice(der.NAME_KINDS)
    return what


def break_long_names(dice, rows):
    """Break one condition on rows of kind 21 in place, or come close to it; the name of the break."""
    long = [at for at, (kind, _) in enumerate(rows) if kind == der.LONG_MEMBER]
    members = [at for at, (kind, _) in enumerate(rows) if kind in der.MEMBER_KINDS]
    owners = [body for kind, body in rows if kind in (12, 13)]
    what = dice.choice(["name", "name", "short", "short", "form", "cut", "fill", "fill", "repeat", "repeat", "alike", "field", "kind", "kind", "count",
                        "points", "element", "mode", "number", "presence", "default", "default", "tags", "tags", "less", "more", "move", "between"])
    at, other = dice.choice(long), dice.choice(members)
    body, size = rows[at][1], len(rows[at][1].split(b"\0")[0])
    if what == "name":
        body[:48] = dice.choice([bytes(body[:size]) + dice.choice([b"-", b"--", b"-x"]), b"A" + bytes(body[1:size]), b"9" + bytes(body[1:size]),
                                 bytes(body[:24]) + dice.choice([b"_", b".", b" ", b"\xe9", b"--"]) + bytes(body[25:size])])[:48].ljust(48, b"\0")
    elif what == "short":
        body[:48] = bytes(body[:dice.choice([0, 1, 12, 23, 24, 24, 24, 25])]).ljust(48, b"\0")
    elif what == "form":
        # A name that has a row of kind 16 in one of kind 21.
        kept = bytes(rows[other][1])
        rows[other] = [der.LONG_MEMBER, bytearray(kept[:-14].split(b"\0")[0].ljust(48, b"\0") + kept[-14:])]
    elif what == "cut":
        # The name's first 24 characters in a row of kind 16.
        rows[at] = [der.MEMBER, bytearray(bytes(body[:24]).rstrip(b"-").ljust(24, b"\0") + bytes(body[48:]))]
    elif what == "fill":
        body[dice.choice([0, 1, 23, 24, 25, 46, 47, size % 48])] = dice.choice([0, 1, 45, 97])
    elif what == "repeat":
        body[:48] = bytes(rows[dice.choice(long)][1][:48])
    elif what == "alike":
        shared = dice.choice([23, 24, 25, 40, 47])
        body[:48] = bytes(rows[dice.choice(long)][1][:shared]).replace(b"\0", b"z") + bytes(body[shared:48])
    elif what == "field":
        body[:48] = dice.choice([bytes(body[:47]), bytes(body[:48]) + b"\0", bytes(body[:24]), bytes(body[:48]) + b"a"])
    elif what == "kind":
        rows[dice.choice([at, other])][0] = dice.choice([0, 12, 14, 16, 16, 17, 18, 20, 21, 22])
    elif what == "count":
        stated = dice.choice(owners)
        stated[0] = dice.choice([0, stated[0] + 1, max(0, stated[0] - 1), 16, 17])
    elif what == "points":
        point(body, dice.choice([at, at - 1, at + 1, other, 0, len(rows) - 1, len(rows), 256]))
    elif what == "element":
        rows.insert(0, [dice.choice(der.LIST_KINDS), bytearray((at + 1).to_bytes(2, "big"))])
    elif what == "mode":
        body[50] = dice.choice([0, 1, 2, 3])
    elif what == "number":
        body[51] = dice.choice([0, 1, 30, 31, 255])
    elif what == "presence":
        body[52] = dice.choice([0, 1, 2, 3])
    elif what == "default":
        contents = bytes.fromhex(dice.choice(["01", "00", "FF", "007F", "0080", "FF80", "FF7F", "", "0102030405060708"]))
        body[52], body[53] = dice.choice([2, 2, 1]), dice.choice([len(contents), len(contents), 9, 0])
        body[54:62] = contents.ljust(8, b"\0")
    elif what == "tags":
        fields = bytes(rows[other][1][-14:])
        body[50:52] = fields[2:4]
        body[48:50] = dice.choice([bytes(body[48:50]), max(bytes(body[48:50]), fields[:2])])
    elif what == "less":
        del rows[at]
    elif what == "more":
        row = long_member(dice.choice(["educationalConcessionCategory", "q" * 25]), len(rows))
        rows.insert(dice.choice([at, at + 1, len(rows)]), [row[0], bytearray(row[1:])])
    elif what == "move":
        rows.insert(dice.randrange(len(rows)), rows.pop(at))
    else:
        rows.insert(at, [dice.randint(1, 11), bytearray()])
    return what
