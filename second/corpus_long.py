"""Tables and values for crates/cases about members of kind 21 (Q-4 of document 02): most of them near misses."""

import itertools
import random

import draw
import draw_long
import engine
import long_cases
import written
from corpus_bits import CHARACTERS, add
from corpus_names import few
from rows import after_name, either_member, long_member
from samples import CATEGORY, LONGEST_NAME, bit_name, choice, layered, leaf, member, named_bits, of, sequence, tlv

LETTERS = LONGEST_NAME.encode()
# A name of 48 characters with digits and single hyphens.
MIXED = b"a1-B2c-D3e4-F5-g6H-7i-J8-k9-L0m-N1o2-P3-q4R-5s-T"
OTHERS = b"bcdefghijklmnopq"
EDGES, DRAWN, LARGE = 110, 110, 8
VALUE_EDGES, GOOD_VALUES, BROKEN_VALUES, LARGE_VALUES = 90, 70, 160, 8


def one(name, *others, owner=sequence):
    """A SEQUENCE or CHOICE of one member of kind 21 and an INTEGER."""
    return owner(long_member(name, 2, *others)) + b"\2"


def changed(octets, at, octet):
    """The octets with another at this place."""
    return octets[:at] + bytes([octet]) + octets[at + 1:]


def name_forms():
    """Name fields of all lengths, with each kind of character, hyphen or zero at each of the 48 places."""
    for size in range(49):
        for letters in (LETTERS, MIXED):
            yield one(letters[:size])
        yield one(LETTERS[:size], owner=choice)
        yield one(LETTERS[:size - 1] + b"-") if size else one(b"-")
        yield one(LETTERS[:size] + b"\0" * (47 - size) + b"a") if size < 48 else one(LETTERS[:47] + b"\0")
        yield sequence(member(LETTERS[:min(size, 24)], 3), long_member(LETTERS[:size], 3)) + b"\2"
    for at in range(48):
        for octet in b"-\x009Z_":
            yield one(changed(LETTERS, at, octet))
        yield from (one(LETTERS[:at] + b"--" + LETTERS[at + 2:]), one(LETTERS[:at] + b"-" + LETTERS[at + 1:25]), one(MIXED[:at] + b"-" + MIXED[at + 1:]))
        yield one(b"a" + b"\0" * at + b"\1"[:at < 47])
    for octet in CHARACTERS:
        for at in (0, 1, 23, 24, 25, 46, 47):
            yield one(changed(LETTERS, at, octet))
        yield from (one(LETTERS[:24] + bytes([octet])), one(LETTERS[:25] + bytes([octet])))


def too_long():
    """Names of 49 characters in rows of kind 21 and of 25 in rows of kind 16: the last is read as a row number's first octet."""
    for last in b"WA0-\0\1":
        yield from (one(LETTERS + bytes([last])), sequence(bytes([21]) + LETTERS + bytes([last]) + after_name(2)[1:]) + b"\2",
                    sequence(bytes([16]) + LETTERS[:24] + bytes([last]) + after_name(2)[1:]) + b"\2")
    for size in range(23, 49):
        yield sequence(bytes([16]) + LETTERS[:size].ljust(24, b"\0") + after_name(2)) + b"\2"
        yield sequence(bytes([16]) + LETTERS[:size].ljust(48, b"\0") + after_name(2)) + b"\2"
        yield sequence(bytes([21]) + LETTERS[:size].ljust(24, b"\0") + after_name(2)) + b"\2"
        yield named_bits((LETTERS[:size], 0))
        yield b"\x11\1" + bytes([18]) + LETTERS[:size].ljust(48, b"\0") + b"\0"


def sixteen(place):
    """Names of 48 characters for 16 members that differ at this place only."""
    return [changed(LETTERS, place, octet) for octet in OTHERS]


def of_names(names, owner=sequence):
    """A SEQUENCE or CHOICE of members of these names, and an INTEGER."""
    return owner(*[either_member(name, 1 + len(names), 2, at) for at, name in enumerate(names)]) + b"\2"


def equal_names():
    """16 names that differ at one of 48 places, and two of them that are equal, at any two of 16 rows."""
    dice = random.Random(40)
    for place in range(48):
        names = sixteen(place)
        yield of_names(dice.sample(names, 16), dice.choice([sequence, choice]))
        for first, second in dice.sample([*itertools.combinations(range(16), 2)], 2):
            again = [*names]
            again[second] = again[first]
            yield of_names(again, dice.choice([sequence, choice]))
    for first, second in itertools.combinations(range(16), 2):
        several = [sixteen(dice.choice([0, 23, 24, 25, 39, 40, 46, 47]))]
        if dice.random() < 0.3:
            # Shorter names, some of them in rows of kind 16, which begin the others.
            several.append([LETTERS[:size] for size in dice.sample(range(16, 48), 16)])
        for names in several:
            names[second] = names[first]
            yield of_names(names)


def alike():
    """Two names that are equal or differ by little: in one octet at each place, in length, in the kind of their rows."""
    for place in range(48):
        for octet in (LETTERS[place] ^ 0x20 if place else 98, 57 if place else 99, LETTERS[place]):
            two = changed(LETTERS, place, octet)
            yield of_names([LETTERS, two], choice if octet == 57 else sequence)
        yield of_names([LETTERS[:25], changed(LETTERS[:25], place, 57)]) if 0 < place < 25 else of_names([LETTERS[:40], changed(LETTERS, place, 122)])
    for size, other in itertools.product((1, 23, 24, 25, 26, 40, 47, 48), repeat=2):
        yield of_names([LETTERS[:size], LETTERS[:other]])
        yield of_names([LETTERS[:size], b"z", LETTERS[:other]], choice)
    for size in range(25, 49):
        yield of_names([LETTERS[:size], LETTERS[:24], LETTERS[:size]])
        yield of_names([LETTERS[:size], LETTERS[:24], LETTERS[:24]])
        yield sequence(long_member(LETTERS[:size], 4)) + sequence(long_member(LETTERS[:size], 4)) + b"\2"
    yield from (of_names([LETTERS[:size] for size in range(first, first + 16)]) for first in (9, 17, 24, 25, 33))


def mixes():
    """Members of kinds 16 and 21 in all orders, with the right number stated or another, one of them in the other kind of row, or of no kind."""
    dice = random.Random(39)
    for size in range(1, 6):
        for kinds in itertools.product((16, 21), repeat=size):
            rows = [(long_member if kind == 21 else member)("m%d-of-the-five-members-of-it"[:29 if kind == 21 else 12] % at, 1 + size, 1, at)
                    for at, kind in enumerate(kinds)]
            yield sequence(*rows) + b"\2"
            yield choice(*rows) + b"\2"
            yield bytes([dice.choice([12, 13]), dice.choice([size + 1, size - 1])]) + b"".join(rows) + b"\2"
            at = dice.randrange(size)
            wrong = dice.choice([bytes([37 - kinds[at]]) + rows[at][1:], long_member("m%d" % at, 1 + size, 1, at), rows[at][:-1], rows[at] + b"\0",
                                 bytes([dice.choice([18, 20, 22])]) + rows[at][1:], rows[at] + rows[at], b"\2"])
            yield dice.choice([sequence, choice])(*rows[:at], wrong, *rows[at + 1:]) + b"\2"


BROKEN = (sequence(long_member(CATEGORY, 3, 1, 2, 2, b"\5"), long_member(LONGEST_NAME, 4, 1, 1, 1)) + b"\2"
          + choice(member("a", 7), long_member(MIXED[:26], 8)) + b"\2\1")


def cut():
    """A table cut off at each place, or with one octet missing, doubled or changed there."""
    dice = random.Random(38)
    for at in range(len(BROKEN)):
        yield from (BROKEN[:at], BROKEN[:at] + BROKEN[at + 1:], BROKEN[:at] + BROKEN[at:at + 1] + BROKEN[at:])
        octet = BROKEN[at]
        others = [octet ^ 1, octet ^ 0x20, octet ^ 0x80, octet ^ 5, 0, 1, 2, 16, 21, 45, 97, 255]
        yield from (changed(BROKEN, at, other) for other in dice.sample(others, 3))
    largest = long_cases.largest()
    for at in (1, 2, 3, 65, 1010, 4991, 4992, 4993, 7500, 7512, 7513, 7514):
        yield from (largest[:at], largest[:at] + largest[at + 1:])


def misplaced():
    """Rows of kind 21 where they may not stand, rows between them, and rows of kinds 18 and 16 beside them."""
    row, more = long_member(CATEGORY, 6, 1, 1), [long_member(LONGEST_NAME[:size], 6, 2, size - 23) for size in (25, 40, 48)]
    plain = [bytes([kind]) for kind in (*range(1, 12), 19, 20)] + [b"\x0c\0"]
    for other in plain:
        yield from (other + row + b"\2" * 5, row + other * 6, of(14, 1) + other + row + b"\2" * 5, sequence(row, *more[:1]) + other + more[1] + b"\2" * 4)
    between = plain + [of(14, 6), of(15, 6), sequence(member("a", 6)), choice(member("a", 6)), member("a", 6), bit_name("a", 0), named_bits(("a", 0)), b"\0",
                       b"\x16"]
    for other, at in itertools.product(between, range(4)):
        yield bytes([12 + at % 2, 3]) + b"".join(more[:at]) + other + b"".join(more[at:]) + b"\2" * 5
        yield bytes([13 - at % 2, 4]) + b"".join(more[:at]) + other + b"".join(more[at:]) + b"\2" * 5
    for stated in range(4):
        yield from (bytes([17, stated]) + b"".join(rows) + b"\2" * 6 for rows in (
            [row], [bit_name("a", 0), row], [row, bit_name("a", 0)], [bit_name("a", 0), row, bit_name("b", 1)], more,
            [bit_name("a", 0), bit_name("b", 1), row]))
        yield from (bytes([kind, stated]) + b"".join(rows) + b"\2" * 6 for kind in (12, 13) for rows in (
            [row, bit_name("a", 0)], [bit_name("a", 0), row], [row, named_bits(("a", 0))], [member("a", 6), bit_name("a", 0), row]))
        yield bytes([stated % 2 + 19, stated]) + row + b"\2" * 6
    yield from (row * count + b"\2" * 6 for count in (1, 2, 16, 127))


def kinds():
    """Octets as the kind of a member row with a body of 62 octets or of 38, and as the only row."""
    for kind in [*range(34), 37, 53, 85, 117, 127, 128, 149, 149 + 64, 245, 255]:
        yield sequence(bytes([kind]) + long_member(CATEGORY, 2)[1:]) + b"\2"
        yield from (sequence(bytes([kind]) + member("a", 2)[1:]) + b"\2", bytes([kind]) + long_member(CATEGORY, 2)[1:] + b"\2\2")
        yield sequence(long_member(CATEGORY, 3), bytes([kind]) + long_member(LONGEST_NAME, 3)[1:]) + b"\2"
        if kind > 20:
            yield from (bytes([kind]), bytes([kind]) + b"\0", b"\2" + bytes([kind]), sequence(long_member(CATEGORY, 2)) + bytes([kind]))


def counts():
    """Each number of members against each number of rows of kind 21 that follow."""
    for rows, stated in itertools.product((0, 1, 2, 3, 15, 16, 17), (0, 1, 2, 3, 14, 15, 16, 17, 18, 255)):
        several = b"".join(long_member("m%02d-of-the-members-of-this-type" % at, rows + 1, 2, at) for at in range(rows))
        if rows < 4 or stated > 3:
            yield bytes([12, stated]) + several + b"\2"
        if abs(rows - stated) < 2:
            yield from (bytes([13, stated]) + several + b"\2", bytes([12, stated]) + several, bytes([12, stated]) + several + b"\2" + several)


def pointers():
    """Row numbers in rows of kind 21 that point to each row, and row numbers that point to rows of kind 21."""
    def after(first):
        return sequence(long_member(CATEGORY, first + 3, 2, 1), member("a", first + 4, 1, 2)) + b"\2" + choice(long_member(CATEGORY, first + 6)) + b"\1"

    for place in [*range(11), 21, 127, 128, 255, 256, 257, 258, 0x0200, 0x0300, 0x1500, 0xFFFF]:
        yield from (of(14, place) + after(1), of(15, place) + after(1), of(14, 1) + of(15, place) + after(2))
        for owner, tag in itertools.product((sequence, choice), ((0, 0), (1, 0), (2, 30))):
            yield owner(long_member(CATEGORY, place, *tag)) + after(2)
            yield owner(member("b", 3, 1, 9), long_member(CATEGORY, place, *tag)) + after(3)
        yield from (sequence(member("b", place)) + after(2), sequence(long_member(CATEGORY, place, presence=1)) + after(2), b"\2" + after(1) + of(14, place))


def fields():
    """The tag mode, tag number, presence and default length of a row of kind 21, on each side of what is allowed."""
    for mode, number in itertools.product((0, 1, 2, 3, 4, 128, 255), (0, 1, 29, 30, 31, 32, 255)):
        yield from (one(CATEGORY, mode, number), one(CATEGORY, mode, number, owner=choice))
    for presence, size in itertools.product((0, 1, 2, 3, 4, 255), (0, 1, 2, 7, 8, 9, 255)):
        row = long_member(CATEGORY, 2, 0, 0, presence)[:54] + bytes([size])
        yield from (owner(row + contents) + b"\2" for owner in (sequence, choice) for contents in (bytes(8), b"\1" + bytes(7)))
    for mode, kind in itertools.product((0, 1, 2), (12, 13, 14, 17, 19)):
        inner = {12: b"\x0c\0", 13: choice(long_member(CATEGORY, 4)) + b"\2", 14: of(14, 3) + b"\2", 17: named_bits(("a", 0)), 19: b"\x13"}[kind]
        yield from (owner(long_member(CATEGORY, 2, mode, mode)) + inner for owner in (sequence, choice))


def defaults():
    """Defaults, legal and not, in the eight octets after the name, on each kind, and octets after them."""
    several = ["", "00", "01", "FF", "FE", "7F", "80", "0080", "007F", "FF80", "FF7F", "0000", "FFFF", "7FFFFFFFFFFFFFFF", "8000000000000000",
               "00FFFFFFFFFFFFFF", "007FFFFFFFFFFFFF", "FF80000000000000", "0102030405060708", "05" * 7]
    for kind, contents in itertools.product((1, 2, 3), several):
        default = bytes.fromhex(contents)
        for mode in (0, 1, 2):
            if mode == 0 or len(default) < 2:
                yield sequence(long_member(CATEGORY, 2, mode, mode, 2, default)) + bytes([kind])
        if kind == 2 and 0 < len(default) < 8:
            yield from (sequence(long_member(CATEGORY, 2, 0, 0, 2, default, fill)) + b"\2" for fill in (b"\1", b"\0" * (7 - len(default)) + b"\1"))
    for kind in (*range(4, 12), 19, 20):
        yield from (sequence(long_member(LONGEST_NAME, 2, 0, 0, 2, default)) + bytes([kind]) for default in (b"\0", b"\1", b"\xff", b"a"))
    for at in range(8):
        for presence, size in ((0, 0), (1, 0), (2, 1)):
            contents = bytes([5] * size) + bytes(8 - size)
            yield sequence(long_member(CATEGORY, 2)[:53] + bytes([presence, size]) + changed(contents, at, 1)) + b"\2"


def tags():
    """Members of both kinds whose tags clash or don't, in runs of a SEQUENCE and in a CHOICE, also through untagged CHOICEs of long names."""
    names = [LONGEST_NAME, LONGEST_NAME[:24], CATEGORY]
    ways = [(0, 0), (1, 5), (2, 5), (2, 6)]
    for one_way, two_way, presence in itertools.product(ways, ways, ((1, 1, 0), (1, 0, 1), (0, 1, 1), (2, 1, 0))):
        rows = [either_member(names[0], 4, *one_way, presence[0], b"\1" if presence[0] == 2 else b""), either_member(names[1], 5, 1, 9, presence[1]),
                either_member(names[2], 4, *two_way, presence[2])]
        yield sequence(*rows) + b"\2\1"
    for kinds, order in itertools.product(itertools.product((0, 1), repeat=3), itertools.permutations(range(3))):
        rows = [either_member(("member-of-a-kind-of-its-own-%d" if kinds[at] else "m%d") % at, (4, 5, 4)[at], 0, 0, (1, 1, 0)[at]) for at in order]
        yield sequence(*rows) + b"\2\1"
    for one_way, two_way in itertools.product(ways, repeat=2):
        inner = choice(long_member(CATEGORY, 7, *two_way), member("c", 6, 1, 7))
        for owner, presence in ((choice, 0), (sequence, 1)):
            yield owner(long_member(LONGEST_NAME, 7, *one_way, presence), long_member(CATEGORY, 3)) + inner + b"\1\2"
            yield owner(long_member(LONGEST_NAME, 3, *one_way, presence), member("b", 3, *two_way)) + b"\2"


def chains():
    """Chains of 14 to 18 type rows through long members, from row 0 or not, alone or with lists between."""
    for size, first, owner in itertools.product(range(14, 19), (0, 1), (sequence, choice)):
        names = [CATEGORY if at % 3 else "a" for at in range(size)]
        yield b"\4" * first + b"".join(owner(either_member(name, first + 2 * at + 2)) for at, name in enumerate(names[1:])) + b"\2"
        lists = b"".join(of(14 + at % 2, first + at + 1) for at in range(size - 2))
        yield b"\4" * first + lists + owner(long_member(CATEGORY, first + size)) + b"\2"
        yield b"\4" * first + lists + owner(long_member(CATEGORY, first + size + 2), long_member(LONGEST_NAME, first + size + 1, 1, 0)) + b"\2\2"
        yield b"\4" * first + owner(long_member(CATEGORY, first + 2)) + b"".join(of(14, first + at + 3) for at in range(size - 2)) + b"\2"
        yield b"\4" * first + owner(member("a", first + size + 2), long_member(CATEGORY, first + 3, 1, 0)) + b"".join(
            of(14, first + at + 4) for at in range(size - 2)) + b"\2\2"


def fitting(size):
    """An admitted table of so many octets with as many long members as it may have, or None."""
    for owners, short, leaves in itertools.product(range(1, 9), range(40), range(1, 64)):
        long, over = divmod(size - 2 * owners - 39 * short - leaves, 63)
        if over == 0 and 1 <= long and long + short <= 16 * owners and owners + long + short + leaves <= 128:
            rows, table, last = [False] * short + [True] * long, b"", owners + short + long
            for at in range(owners):
                part = rows[at * 16:at * 16 + 16]
                table += sequence(*[(long_member if one else member)(("m%02d" + "x" * 45 * one) % number, last) for number, one in enumerate(part)])
            return table + b"\2" * leaves
    return None


def sizes():
    """Tables around 4,992, 7,515 and 8,064 octets, admitted and not."""
    for size in (4990, 4991, 4992, 4993, 4994, 5000, 6000, 7000, 7400, 7500, 7510, 7511, 7512, 7513, 7514):
        table = fitting(size)
        if table:
            yield from (table, table[:-1])
    for size in (4993, 4994, 7514, 7515, 7516, 8000, 8063, 8064, 8065):
        yield b"\2" * size
        if size not in (4994, 7514, 8000):
            yield from ((long_member(CATEGORY, 0) * 129)[:size], (long_cases.largest() + b"\2" * 600)[:size],
                        (sequence(*[long_member("m%02d" % at + "x" * 45, 136) for at in range(16)]) * 8)[:size])


def many_rows():
    """127 to 130 rows, those of kind 21 among them, and tables that a check by plain recursion would take long for."""
    sixteen_rows = [long_member("m%02d-of-the-members-of-this-type" % at, 17, 2, at) for at in range(16)]
    for rows in (127, 128, 129, 130):
        yield from (sequence(*sixteen_rows) + b"\2" * (rows - 17), b"\2" * (rows - 3) + sequence(long_member(CATEGORY, rows - 1)) + b"\2",
                    sequence(long_member(CATEGORY, rows - 1)) + b"\2" * (rows - 2), sequence(*sixteen_rows[:1]) + b"\2" * (rows - 2),
                    b"".join(sequence(long_member(CATEGORY, rows - 1)) for _ in range(rows // 2 - 1)) + b"\2" * (2 + rows % 2),
                    b"".join(choice(long_member(LONGEST_NAME, rows - 1, 2, 0)) for _ in range((rows - 1) // 2)) + b"\2" * (1 + (rows - 1) % 2))
    yield from (long_cases.largest(), long_cases.largest(b"\2"), long_cases.largest(b"\2", b"\2"), long_cases.largest(b"\x0c\1", long_member(CATEGORY, 128)),
                long_cases.largest(b"\x0d\0"), long_cases.largest(of(14, 127)))

    def named(at):
        return "m%d-of-the-members-of-this-type-and-of-the-others" % at

    for depth, width in ((15, 7), (16, 6), (17, 2)):
        yield layered(depth, width, sequence, lambda level, at: (1, at), named)
        yield layered(depth, width, choice, lambda level, at: (1, at), named)
    yield layered(15, 2, choice, lambda level, at: (0, 0) if at else (1, level), named)
    yield layered(15, 7, choice, lambda level, at: (0, 0), named)
    for last in (True, False):
        rows = [long_member("a" * 47 + (chr(97 + at) if last else "a"), 7 * 17, 2, at) for at in range(16)]
        yield sequence(*rows) * 7 + b"\2"
        yield (sequence(*rows) * 6 + sequence(*rows[:15], rows[0])) + b"\2"


def tables():
    """All of this module's tables, each once."""
    found, dice = {}, random.Random(37)
    for family, most in ((name_forms, 900), (too_long, 60), (equal_names, 500), (alike, 220), (mixes, 190), (cut, 270), (misplaced, 170), (kinds, 60),
                         (counts, 60), (pointers, 150), (fields, 80), (defaults, 110), (tags, 90), (chains, 60), (sizes, 500), (many_rows, 500)):
        found.update(few(dice, family, most))
    found.update(dict.fromkeys(case.inputs[0] for case in written.cases(10000, ("LongNames",)) if case.entry == "table"))
    edges = draw_long.LongDrawer(random.Random(36))

    def drawn(drawer, where):
        table = drawer.table(drawer.dice.choice(where))[0]
        return table if b"\x15" in table else None

    small, large = draw.CaseDrawer(35, longer=True), draw.CaseDrawer(34, draw.LARGER, longer=True)
    topics = ["long_fields"] * 4 + ["long_alike", "long_places", "long_places", "long_clashes", "long_clashes"]
    add(found, EDGES, lambda: getattr(edges, edges.deal("tables", topics))()[1][0])
    add(found, DRAWN, lambda: drawn(small, ["table", "table", "none"]))
    add(found, LARGE, lambda: drawn(large, ["table", "none"]))
    return [table for table in found if len(table) <= engine.TABLE_SIZES.stop]


# The stored members of the record, in their order.
PARTS = [leaf(2, b"\7"), tlv(0x80, b"\2"), tlv(0xA1, leaf(2, b"\3")), tlv(0x30, leaf(6, b"ab"), leaf(6, b"")), tlv(0xA2, leaf(8, b"x")), tlv(0x83, b"\0"),
         tlv(0xA4, leaf(8, b"hi"))]


def record():
    """A table of members of both kinds with all tag modes and presences, a CHOICE and a list, and a value of it."""
    names = [CATEGORY, LONGEST_NAME, LONGEST_NAME[:24], "list-of-the-parts-of-the-record", "choice-of-the-record-of-a-licence", LONGEST_NAME[:25], "z"]
    ends = [(8,), (8, 2, 0, 1), (8, 1, 1, 2, b"\1"), (9, 0, 0, 1), (10,), (14, 2, 3, 2, b"\xff"), (15, 1, 4, 1)]
    table = (sequence(*[either_member(name, *end) for name, end in zip(names, ends)]) + b"\2" + of(14, 13)
             + choice(long_member(CATEGORY, 14), member("n", 15, 1, 2)) + b"\6\1\x08")
    return table, tlv(0x30, *PARTS)


def broken_values():
    """That value cut off at each octet, or with one octet missing, doubled or changed there, the outermost length being right or not."""
    dice, (table, value) = random.Random(33), record()
    yield table, value
    for at in range(len(value)):
        yield from ((table, value[:at]), (table, value[:at] + value[at + 1:]), (table, value[:at] + value[at:at + 1] + value[at:]))
        yield from ((table, changed(value, at, octet)) for octet in dice.sample([value[at] ^ 1, value[at] ^ 0x20, value[at] ^ 0x80, value[at] ^ 2, 0, 255], 3))
        if at >= 2:
            yield from ((table, value[:1] + bytes([at - 2]) + value[2:at]), (table, value[:1] + bytes([value[1] - 1]) + value[2:at] + value[at + 1:]),
                        (table, value[:1] + bytes([value[1] + 1]) + value[2:at] + value[at:at + 1] + value[at:]))


def present():
    """Each set of the record's members, in their order; two of them exchanged; one of them twice, or with the tag or the contents of another."""
    dice, table = random.Random(32), record()[0]
    for size in range(8):
        yield from ((table, tlv(0x30, *parts)) for parts in itertools.combinations(PARTS, size))
    for first, second in itertools.combinations(range(7), 2):
        parts = [*PARTS]
        parts[first], parts[second] = parts[second], parts[first]
        yield table, tlv(0x30, *parts)
        yield table, tlv(0x30, *PARTS[:second], PARTS[first], *PARTS[second:])
        yield table, tlv(0x30, *PARTS[:first], PARTS[second], *PARTS[first + 1:])
    for at in range(7):
        for other in (b"\5\0", leaf(2, b"\1"), tlv(0x83, b"\xff"), tlv(0xA1, leaf(2, b"\1")), tlv(0x80, b""), tlv(0xA2, leaf(1, b"\0")), leaf(1, b"\xff"), b"",
                      bytes([PARTS[at][0] ^ 0x20]) + PARTS[at][1:], bytes([PARTS[at][0] ^ 1]) + PARTS[at][1:]):
            yield table, tlv(0x30, *PARTS[:at], other, *PARTS[at + 1:])
    mandatory = [PARTS[0], PARTS[4]]
    yield from ((table, tlv(0x30, *dice.sample(PARTS, size))) for size in (2, 3, 4, 5) for _ in range(8))
    yield from ((table, tlv(0x30, *mandatory, *more)) for more in ([], [b"\0\0"], mandatory, [tlv(0x30)]))


def stored_defaults():
    """Defaults of long members, stored or not, in all tag modes."""
    for (kind, default, others), mode in itertools.product(
            ((1, b"\xff", (b"\0", b"\1", b"")), (2, b"\5", (b"\6", b"\0\5", b"\4", b"")), (3, b"\0\x80", (b"\0\x81", b"\x80", b"\x7f")),
             (2, b"\x80" + bytes(7), (b"\x7f" + b"\xff" * 7, b"\0" * 8))), (0, 1, 2)):
        for owned in (CATEGORY, LONGEST_NAME, "a"):
            table = sequence(either_member(owned, 3, mode, mode, 2, default), long_member(LONGEST_NAME[:47], 4, 1, 9, 1)) + bytes([kind, 4])
            for contents in (default, *others):
                inner = tlv(0x82, contents) if mode == 2 else tlv(0xA1, leaf(kind, contents)) if mode == 1 else leaf(kind, contents)
                yield table, tlv(0x30, inner)
                if owned == CATEGORY:
                    yield table, tlv(0x30, inner, tlv(0xA9, b"\5\0"))
            yield table, tlv(0x30)


def alternatives():
    """CHOICEs of 16 alternatives of both kinds, each chosen, tagged or not, and tags that are none of theirs; also in a list."""
    kinds_of = [1, 2, 3, 4, 5, 6, 7, 8]
    names = ["alternative-number-%02d-of-them" % at if at % 3 else "m%d" % at for at in range(16)]

    def chosen(first):
        return choice(*[either_member(name, first + at % 8, *((0, 0) if at < 8 else (1 + at % 2, at))) for at, name in enumerate(names)]) + bytes(kinds_of)

    table, listed = chosen(17), of(14, 1) + chosen(18)
    contents = [b"\0", b"\1", b"\1", b"", b"\x55", b"a", b"\0", b"a"]
    for at in range(16):
        inner = leaf(kinds_of[at % 8], contents[at % 8])
        inner = inner if at < 8 else tlv(0xA0 + at, inner) if at % 2 == 0 else tlv(0x80 + at, contents[at % 8])
        yield from ((table, inner), (listed, tlv(0x30, inner, inner)), (table, inner + b"\0"), (table, bytes([inner[0] ^ 0x20]) + inner[1:]),
                    (table, bytes([inner[0] ^ 0x10]) + inner[1:]), (listed, tlv(0x30, leaf(2, b"\1"), bytes([inner[0] ^ 0x40]) + inner[1:])))


def sixteen_members():
    """SEQUENCEs of 16 members of both kinds: one missing, doubled, exchanged with the next, or wrong, at each place."""
    for pattern in (1, 2, 3):
        rows = [either_member("member-number-%02d-of-the-sixteen" % at if at % pattern == 0 else "m%d" % at, 17) for at in range(16)]
        table, parts = sequence(*rows) + b"\2", [leaf(2, bytes([at])) for at in range(16)]
        yield from ((table, tlv(0x30, *parts)), (table, tlv(0x30)))
        for at in range(16):
            yield table, tlv(0x30, *parts[:at], *parts[at + 1:])
            if pattern == 2:
                yield table, tlv(0x30, *parts[:at], leaf(3, b"\1"), *parts[at + 1:])
        yield from ((table, tlv(0x30, *parts, parts[0])), (table, tlv(0x30, *parts[:15], b"\2\0")))
    tagged = sequence(*[either_member("member-number-%02d-of-the-sixteen" % at if at % 2 else "m%d" % at, 17, 2, at, 1) for at in range(16)]) + b"\2"
    for at in range(16):
        yield from ((tagged, tlv(0x30, tlv(0x80 + at, b"\1"))), (tagged, tlv(0x30, tlv(0x80 + at, b"\1"), tlv(0x80 + (at + 5) % 16, b"\1"))),
                    (tagged, tlv(0x30, *[tlv(0x80 + other, b"\1") for other in range(16) if other != at])))


def refused_tables():
    """Values good and not with tables that are refused, by their size or otherwise."""
    good, large = tlv(0x30, leaf(2, b"\1")), long_cases.largest()
    for table in (one(LETTERS[:24]), one(LETTERS[:25]), one(LETTERS[:48]), one(LETTERS[:30] + b"\0a"), one(LETTERS[:47] + b"-"), one(CATEGORY)[:-2] + b"\2",
                  one(CATEGORY) + long_member(CATEGORY, 2), sequence(long_member(CATEGORY, 3), long_member(CATEGORY, 3)) + b"\2"):
        yield from ((table, value) for value in (good, good[:-1], b"\x30\0", b"\x30"))
    nested = tlv(0x30, *[b"\x30\0"] * 16)
    for table in (large, large + b"\2", large[:-1], b"\2" * 8064, b"\2" * 8065, fitting(4993)):
        yield from ((table, value) for value in (nested, b"\2\1\1"))
    fifteen = [b"\x30\0"] * 15
    yield from ((large, value) for value in (nested[:-1], tlv(0x30, *fifteen), tlv(0x30, nested[2:], b"\x30\0"), tlv(0x30, *fifteen, b"\5\0"), b"\x30",
                                             tlv(0x30, *fifteen, b"\x30\2\5\0")))


def values():
    """All of this module's tables with values, each pair once."""
    found, dice = {}, random.Random(31)
    for family, most in ((broken_values, 230), (present, 200), (stored_defaults, 120), (alternatives, 70), (sixteen_members, 90), (refused_tables, 90)):
        found.update(few(dice, family, most))
    found.update(dict.fromkeys(case.inputs for case in written.cases(10000, ("LongNames",)) if case.entry == "value"))
    edges = draw_long.LongDrawer(random.Random(30))

    def drawn(drawer, where):
        table, value = drawer.value(drawer.dice.choice(where))
        return (table, value) if b"\x15" in table else None

    small, large = draw.CaseDrawer(29, longer=True), draw.CaseDrawer(28, draw.LARGER, longer=True)
    add(found, VALUE_EDGES, lambda: edges.long_values()[1])
    add(found, GOOD_VALUES, lambda: drawn(small, ["none"]))
    add(found, BROKEN_VALUES, lambda: drawn(small, ["value"] * 9 + ["table"]))
    add(found, LARGE_VALUES, lambda: drawn(large, ["value", "none"]))
    return [(table, value) for table, value in found if len(table) <= engine.TABLE_SIZES.stop and len(value) <= engine.VALUE_SIZES.stop]
