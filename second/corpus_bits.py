"""Tables and values for crates/cases about named BIT STRINGs (Q-2 of document 02): most of them near misses."""

import random

import draw
import draw_bits
import engine
import written
from samples import RIGHTS, bit_name, choice, leaf, member, named_bits, of, sequence, tlv

NAMED = named_bits(*RIGHTS)
SIXTEEN = [("n%d" % number, number) for number in range(16)]
# Characters on both sides of the letters, digits and the hyphen.
CHARACTERS = b"azAZ09-\0`{@[/:,. _\x7f\x80\xff\xe9\x01"
EDGES, DRAWN, LARGE = 80, 120, 12
VALUE_EDGES, GOOD_VALUES, BROKEN_VALUES, LARGE_VALUES = 50, 80, 200, 12


def numbered(count):
    """So many names that differ, with numbers that differ."""
    return [("n%d" % number, number) for number in range(count)]


def counts():
    """Each number of names against each number of rows that follow, with something after them or nothing."""
    for rows in (0, 1, 2, 3, 14, 15, 16, 17, 18):
        for stated in (0, 1, 2, 3, 15, 16, 17, 18, 255):
            named = named_bits(*numbered(rows), count=stated)
            yield named
            if abs(rows - stated) < 2:
                yield from (named + b"\2", named + NAMED, of(14, 1) + named, b"\2" + named)


def numbers():
    """Each bit number and those above, and two that are equal at any two of 16 places."""
    for number in [*range(70), 127, 128, 191, 192, 254, 255]:
        yield named_bits(("a", number))
        if number % 9 == 0 or number in (1, 62, 64):
            yield named_bits(("a", 1), ("b", number), ("c", 62))
    for second in range(16):
        for first in range(second):
            pairs = [*SIXTEEN]
            pairs[second] = pairs[second][0], pairs[first][1]
            yield named_bits(*pairs)
    yield from (named_bits(*[(name, 63 - number) for name, number in SIXTEEN]), named_bits(*[(name, 4 * number) for name, number in SIXTEEN]),
                named_bits(*[(name, 0) for name, _ in SIXTEEN]))


def equal_names():
    """Two names that are equal, or differ by little, at any two of 16 places."""
    for second in range(16):
        for first in range(second):
            pairs = [*SIXTEEN]
            pairs[second] = pairs[first][0], pairs[second][1]
            yield named_bits(*pairs)
    long = "abcdefghijklmnopqrstuvw"
    for one, two in [("print", "prinT"), ("print", "prin"), ("print", "printx"), ("print", "print"), ("a", "aa"), ("a", "b"), (long + "x", long + "y"),
                     (long + "x", long), (long + "x", long + "X"), (long + "x", long + "x"), ("b" + long, "a" + long), ("a-b", "a-B"), ("a1", "a2")]:
        yield from (named_bits((one, 0), (two, 1)), named_bits((one, 0), ("q", 5), (two, 1)), named_bits(("q", 5), (two, 0), (one, 1)))
    yield named_bits(*[(long + chr(97 + at), at) for at in range(16)])


def name_forms():
    """Name fields of all lengths, with each kind of character, hyphen or zero at each place."""
    letters = b"abcdefghijklmnopqrstuvwx"
    for size in range(25):
        yield named_bits((letters[:size], 0))
        yield named_bits((letters[:size - 1] + b"-", 0)) if size else named_bits(("-", 0))
        yield named_bits(("x", 1), (letters[:size] + b"\0" * (23 - size) + b"a", 0)) if size < 24 else named_bits((letters[:23] + b"\0", 0))
    for at in range(24):
        yield from (named_bits((letters[:at] + b"-" + letters[at + 1:], 0)), named_bits((letters[:at] + b"--" + letters[at + 2:], 0)),
                    named_bits((letters[:at] + b"\0" + letters[at + 1:], 0)), named_bits((b"a" + b"\0" * at + b"\1"[:at < 23], 0)))
    for character in CHARACTERS:
        one = bytes([character])
        for name in (one, one + b"a", b"a" + one, b"a" + one + b"a", letters[:22] + one + b"a", letters[:23] + one):
            yield named_bits((name, 0))
    # 25 characters: the last is read as the bit number, and what stands after it as a row.
    for last in b"yY-09":
        yield from (named_bits((letters + bytes([last]), row)) for row in (0, 2, 17, 18))


def cut():
    """Tables cut off at each place, or with one octet missing, doubled or changed there."""
    table = of(14, 1) + named_bits(*RIGHTS[:2])
    for at in range(len(table)):
        yield from (table[:at], table[:at] + table[at + 1:], table[:at] + table[at:at + 1] + table[at:])
    for at in (0, 3, 4, 5, 6, 29, 30, 31, 32, 55, 56):
        for octet in (0, 1, 3, 16, 17, 18, 19):
            yield table[:at] + bytes([octet]) + table[at + 1:]


def misplaced():
    """Rows of kind 18 where they may not stand, rows between them, and rows of kind 16 in their place."""
    row, names = bit_name("x", 9), [bit_name(*pair) for pair in RIGHTS]
    plain = [bytes([kind]) for kind in range(1, 12)] + [b"\x0c\0"]
    others = plain + [of(14, 6), of(15, 6), sequence(member("a", 6)), choice(member("a", 6)), member("a", 6), NAMED, b"\x11\1", b"\0", b"\x13"]
    for other in plain:
        yield from (other + row, row + other, other + row + NAMED, other + NAMED + row, NAMED + other + row, NAMED + other)
    for other in others:
        for at in range(4):
            yield b"\x11\3" + b"".join(names[:at]) + other + b"".join(names[at:]) + b"\2\2\2"
            yield b"\x11\2" + b"".join(names[:at]) + other + b"".join(names[at:]) + b"\2\2\2"
    for kind in (12, 13):
        for stated in range(5):
            for rows in ([member("a", 5), row], [row, member("a", 5)], [member("a", 5), row, member("b", 5, 1, 1)], [row], [row, row],
                         [member("a", 5), member("b", 5, 1, 1), row], [member("a", 5), member("b", 5, 1, 1)]):
                yield bytes([kind, stated]) + b"".join(rows) + b"\2\2\2"
        yield from (bytes([kind, 4]) + NAMED, bytes([kind, 3]) + NAMED[2:], bytes([kind, 3]) + NAMED[2:] + b"\2", bytes([kind, 1]) + member("a", 2) + NAMED,
                    bytes([kind, 2]) + member("a", 3) + NAMED, bytes([kind, 2]) + member("a", 3) + NAMED[2:28] + NAMED,
                    bytes([kind, 1]) + NAMED + member("a", 5) + b"\2", bytes([kind, 0]) + NAMED, bytes([kind, 1]) + member("a", 2) + NAMED[2:] + b"\2")
    yield from (row, row * 2, row * 128, row * 129, row * 192, row + NAMED, NAMED + row, NAMED * 2, NAMED + b"\2" + NAMED, b"\x11\1\x11\1" + names[0] * 2,
                b"\x11\2\x11\1" + names[0] + names[1], b"\x11\1" + names[0] + b"\x11\1" + names[0], NAMED + named_bits(*reversed(RIGHTS)),
                b"\x11\1" + names[0] + names[1], b"\x11\1" + member("a", 2) + b"\2", b"\x11\2" + names[0] + member("a", 3) + b"\2", b"\x11\3" + names[0] * 3)


def pointers():
    """Row numbers that point to each row around a named BIT STRING."""
    for point in [*range(10), 255, 256, 257, 258]:
        after = NAMED + b"\2" + NAMED
        yield from (of(14, point) + after, of(15, point) + after, of(14, 1) + of(15, point) + after)
        for owner in (sequence, choice):
            for tag in ((0, 0), (1, 0), (2, 30)):
                yield owner(member("a", point, *tag)) + after
        yield from (sequence(member("a", 3), member("b", point, 1, 1)) + after, sequence(member("a", point, presence=1)) + after,
                    NAMED + of(14, point) + NAMED)


def tags():
    """A named BIT STRING beside a row of each kind, untagged and tagged, in a CHOICE and in runs of a SEQUENCE, and with defaults."""
    for kind in [*range(1, 12), 12, 14, 17]:
        after = NAMED + {12: b"\x0c\0", 14: of(14, 8) + b"\2", 17: NAMED}.get(kind, bytes([kind]))
        for one, two in ((3, 7), (7, 3)):
            yield choice(member("a", one), member("b", two)) + after
            yield sequence(member("a", one, presence=1), member("b", two)) + after
            yield sequence(member("a", one), member("b", two, presence=1)) + after
    for one in ((0, 0), (1, 0), (2, 0), (1, 3), (2, 3)):
        for two in ((0, 0), (1, 3), (2, 3)):
            for kind in (b"\7", NAMED):
                yield choice(member("a", 3, *one), member("b", 7, *two)) + NAMED + kind
                yield sequence(member("a", 3, *one, 1), member("b", 7, *two, 1), member("c", 3)) + NAMED + kind
    inner = choice(member("c", 5), member("d", 9)) + NAMED + b"\2"
    yield from (choice(member("a", 6)) + b"\7" * 4 + choice(member("b", 8)) + NAMED, sequence(member("a", 2, 2, 0)) + inner,
                sequence(member("a", 2, 1, 0)) + inner,
                choice(member("a", 3), member("b", 5)) + choice(member("c", 6)) + b"\7" + NAMED,
                choice(member("a", 3), member("b", 6, 1, 0)) + choice(member("c", 6)) + b"\7" + NAMED)
    for default in ("00", "0780", "06C0", "FF", "01", "03", "0301", "030100", "0303020102", "07808080808080"):
        for tag in ((0, 0), (2, 1)):
            yield sequence(member("a", 2, *tag, 2, bytes.fromhex(default))) + NAMED
    yield from (sequence(member("a", 2, 0, 0, 2)) + NAMED, sequence(member("a", 2, 0, 0, 0, b"\0")) + NAMED, sequence(member("a", 2, 0, 0, 3)) + NAMED,
                sequence(member("a", 3, presence=2, default=b"\1"), member("b", 4)) + b"\2" + NAMED,
                sequence(member("a", 3, presence=2, default=b"\1"), member("b", 4)) + NAMED + b"\2")


def chains():
    """Chains of 14 to 18 type rows that end at a named BIT STRING, from row 0 or not."""
    for before in (b"", b"\2", NAMED):
        first = {b"": 0, b"\2": 1, NAMED: 4}[before]
        for size in range(13, 18):
            lists = b"".join(of(14 + row % 2, first + row + 1) for row in range(size))
            yield before + lists + NAMED
            yield before + lists + b"\7" + NAMED
            yield before + lists[:-3] + sequence(member("a", first + size + 1)) + NAMED
            yield before + lists[:-3] + choice(member("a", first + size + 1)) + NAMED
            yield before + lists[:-3] + sequence(member("a", first + size + 2), member("b", first + size + 6)) + NAMED + b"\2"


def many_rows():
    """127 to 130 rows, those of kind 18 among them."""
    full, one = named_bits(*SIXTEEN), named_bits(("a", 0))
    for rows in (127, 128, 129, 130):
        for named in (full, NAMED, one):
            own = 1 + named[1]
            whole = named * (rows // own)
            yield from (whole + b"\2" * (rows % own), b"\2" * (rows % own) + whole, b"\2" * (rows - own) + named,
                        of(14, rows - own) + b"\2" * (rows - own - 1) + named)
        yield sequence(*[member("m%d" % at, 17, 1, at) for at in range(16)]) + full + b"\2" * (rows - 34)
    yield from (full * 7 + named_bits(*SIXTEEN[:8]), full * 7 + named_bits(*SIXTEEN[:9]), full * 8, full * 11)


def tables():
    """All of this module's tables, each once."""
    found = {}
    for family in (counts, numbers, equal_names, name_forms, cut, misplaced, pointers, tags, chains, many_rows):
        found.update(dict.fromkeys(family()))
    found.update(dict.fromkeys(case.inputs[0] for case in written.cases(10000, ("Bits",)) if case.entry == "table"))
    edges = draw_bits.BitDrawer(random.Random(45))

    def drawn(drawer, where):
        table = drawer.table(drawer.dice.choice(where))[0]
        return table if b"\x11" in table or b"\x12" in table else None

    small, large = draw.CaseDrawer(46, bits=True), draw.CaseDrawer(47, draw.LARGE, bits=True)
    add(found, EDGES, lambda: getattr(edges, edges.deal("tables", ["bit_fields"] * 3 + ["bit_places"] + ["bit_clashes"] * 2))()[1][0])
    add(found, DRAWN, lambda: drawn(small, ["table", "table", "none"]))
    add(found, LARGE, lambda: drawn(large, ["table", "none"]))
    return [table for table in found if len(table) <= engine.TABLE_SIZES.stop]


def add(found, count, one):
    """Draw until so many more are found; None is passed over."""
    most = len(found) + count
    while len(found) < most:
        drawn = one()
        if drawn is not None:
            found.setdefault(drawn)


def all_contents():
    """Contents of every unused count with every last used bit, and of other forms."""
    for unused in range(10):
        lasts = {0, 255, 0xAA, 0x55} | {1 << bit for bit in range(8)} | {255 << bit & 255 for bit in range(8)}
        for last in sorted(lasts):
            yield bytes([unused, last])
        for last in (0, 1, 0x80, 255, 1 << unused & 255, 255 << unused & 255):
            yield from (bytes([unused, first, last]) for first in (0, 255))
            yield bytes([unused, 0xC0, 0, last])
    yield from (b"", b"\0", b"\x10\1", b"\x80", b"\xff\xff", b"\0\0\0", b"\0\1\0", b"\7\x80\0", *(bytes([unused]) for unused in range(1, 9)))


def own_values():
    """Each of these contents in a named BIT STRING, some of them in a BIT STRING, other tags, lengths and octets after the value."""
    for contents in dict.fromkeys(all_contents()):
        yield NAMED, leaf(17, contents)
        if len(contents) < 3:
            yield b"\7", leaf(7, contents)
    for tag in (0x00, 0x01, 0x02, 0x04, 0x0A, 0x13, 0x1F, 0x23, 0x30, 0x43, 0x63, 0x80, 0x83, 0xA3, 0xC3, 0xE3):
        yield from ((NAMED, tlv(tag, contents)) for contents in (b"\6\xc0", b"\0", tlv(3, b"\6\xc0")))
    for octets in ("0300", "030100", "030101", "03020780", "0302078000", "03810107", "0381020780", "038200020780", "03830000020780", "038007800000",
                   "03030780", "030207", "0302", "03810780", "230403020780", "2300", "2380030207800000", "0303000780", "0301FF", "0302000100"):
        yield NAMED, bytes.fromhex(octets)
        yield b"\7", bytes.fromhex(octets)


def long_values():
    """Values of several hundred bits up to the largest size, whose last bit is one or not."""
    for size in (8, 9, 16, 63, 126, 127, 128, 254, 255, 256, 1000, 4090, 4091, 4092):
        for last in ("0001", "0000", "0780", "0740", "0700", "04F0", "03F0"):
            unused, octet = bytes.fromhex(last)
            yield NAMED, leaf(17, bytes([unused]) + b"\xff" * (size - 2) + bytes([octet]))
    yield from ((NAMED, leaf(17, b"\0" + b"\0" * 900 + octet)) for octet in (b"\1", b"\x80", b"\0"))
    yield from ((kind, leaf(17, b"\0" + b"\xff" * (size - 5))) for kind in (NAMED, b"\7") for size in (4095, 4096, 4097))


def placed_values():
    """Contents in members of all tag modes, in alternatives, in lists, and SET OFs in all orders."""
    several = [b"\0", b"\7\x80", b"\6\xc0", b"\6\x80", b"\0\xfe", b"\5\x60", b"\7\0", b"\0\1", b"\x08\xff", b""]
    for contents in several:
        for mode, number in ((0, 0), (1, 3), (2, 3), (1, 30), (2, 30)):
            inner = tlv(0x80 + number if mode == 2 else 3, contents)
            inner = tlv(0xA0 + number, inner) if mode == 1 else inner
            yield sequence(member("a", 2, mode, number)) + NAMED, tlv(0x30, inner)
            yield choice(member("a", 2, mode, number)) + NAMED, inner
            yield sequence(member("a", 3, mode, number, 1), member("b", 7)) + NAMED + b"\2", tlv(0x30, inner, b"\2\1\1")
        for place in range(3):
            listed = [leaf(17, b"\7\x80")] * 3
            listed[place] = leaf(17, contents)
            yield of(14, 1) + NAMED, tlv(0x30, *listed)
        yield of(14, 1) + choice(member("a", 3), member("b", 7)) + NAMED + b"\2", tlv(0x30, b"\2\1\1", leaf(17, contents))
    for one in several[:5]:
        for two in several[:5]:
            yield of(15, 1) + NAMED, tlv(0x31, leaf(17, one), leaf(17, two))
    both = sequence(member("a", 3, presence=1), member("b", 7, 2, 0, 1)) + NAMED + b"\7"
    for a in (b"", leaf(17, b"\7\x80"), leaf(17, b"\6\x80"), tlv(0x83, b"\7\x80")):
        for b in (b"", tlv(0x80, b"\6\x80"), tlv(0x80, b"\6\x81"), tlv(0xA0, leaf(7, b"\6\x80")), leaf(7, b"\7\x80")):
            yield both, tlv(0x30, a, b)
            yield both, tlv(0x30, b, a)
    for table in (named_bits(*RIGHTS, count=2), NAMED[:-1], NAMED + bit_name("x", 9), named_bits(("a", 64)), bit_name("a", 0) + NAMED):
        yield from ((table, leaf(17, contents)) for contents in (b"\0", b"\7\x80", b"\7\0"))


def values():
    """All of this module's tables with values, each pair once."""
    found = {}
    for family in (own_values, long_values, placed_values):
        found.update(dict.fromkeys(family()))
    found.update(dict.fromkeys(case.inputs for case in written.cases(5000, ("Bits",)) if case.entry == "value"))
    edges = draw_bits.BitDrawer(random.Random(54))

    def edge():
        entry, inputs = edges.bit_contents()
        return inputs if entry == "value" else None

    def drawn(drawer, where):
        table, value = drawer.value(drawer.dice.choice(where))
        return (table, value) if b"\x12" in table and len(value) <= 4097 else None

    small, large = draw.CaseDrawer(55, bits=True), draw.CaseDrawer(56, draw.LARGE, bits=True)
    add(found, VALUE_EDGES, edge)
    add(found, GOOD_VALUES, lambda: drawn(small, ["none"]))
    add(found, BROKEN_VALUES, lambda: drawn(small, ["value"] * 9 + ["table"]))
    add(found, LARGE_VALUES, lambda: drawn(large, ["value", "none"]))
    return list(found)
