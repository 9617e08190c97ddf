"""Tables and values for crates/cases about distinguished names (Q-3 of document 02): most of them near misses."""

import itertools
import random

import draw
import draw_names
import engine
import written
from corpus_bits import add
from draw_edges import CONTENTS
from samples import CN, C, NAME, O, RDN, bit_name, choice, leaf, member, name, named_bits, of, oid_contents, pair, rdn, sequence, tlv

BITS = named_bits(("a", 0))
EDGES, DRAWN, LARGE = 40, 70, 8
VALUE_EDGES, GOOD_VALUES, BROKEN_VALUES, LARGE_VALUES = 80, 50, 120, 8


def row_of(kind, at):
    """A row of any kind of type at row `at`, with what it needs after it."""
    if kind in (12, 13):
        return bytes([kind, 1]) + member("z", at + 2) + b"\2"
    if kind in (14, 15):
        return of(kind, at + 1) + b"\2"
    return BITS if kind == 17 else bytes([kind])


def kinds():
    """Octets as the kind of a row, alone, before and after a row of kind 19 or 20, which have empty bodies."""
    for kind in [*range(32), 0x30, 0x31, 0x33, 0x34, 0x53, 0x54, 0x73, 0x7F, 0x80, 0x93, 0x94, 0xB0, 0xD3, 0xF3, 0xFF]:
        yield bytes([kind])
        for row in (NAME, RDN):
            yield from (row + bytes([kind]), bytes([kind]) + row)
            if kind < 24:
                yield from (row + bytes([kind, 0]), row + bytes([kind, 1]) + row, row + bytes([kind, 0, 2]) + row, bytes([kind, 0, 1]) + row)
    for count in range(6):
        yield from ((NAME + RDN) * count, NAME * count, RDN * count)


def roles():
    """Rows of kinds 19 and 20 as members, alternatives and elements, with all tag modes, numbers and presences."""
    for row in (NAME, RDN):
        for mode, number in itertools.product(range(4), (0, 30, 31)):
            for presence in range(4):
                yield sequence(member("a", 2, mode, number, presence)) + row
            yield choice(member("a", 2, mode, number)) + row
            yield choice(member("a", 3, mode, number), member("b", 4, 1, 1)) + row + b"\2"
        for kind in (14, 15):
            yield from (of(kind, 1) + row, of(kind, 2) + b"\2" + row, b"\2" + of(kind, 2) + row, row + of(kind, 2) + row, of(kind, 1) + row + of(kind, 3) + row)
        yield from (sequence(member("a", 3), member("b", 3)) + row, sequence(*[member("m%d" % at, 17) for at in range(16)]) + row,
                    sequence(*[member("m%d" % at, 17, 2, at, 1) for at in range(16)]) + row, choice(*[member("m%d" % at, 17, 2, at) for at in range(16)]) + row,
                    sequence() + row, b"\x0d\0" + row, sequence(member("rdnSequence", 2)) + row)


def clashes():
    """Kinds 19 and 20 beside a row of each kind, untagged and tagged, in a CHOICE and in a SEQUENCE."""
    for own, kind in itertools.product((19, 20), [*range(1, 16), 17, 19, 20]):
        after = bytes([own]) + row_of(kind, 4)
        for one, two in ((3, 4), (4, 3)):
            yield choice(member("a", one), member("b", two)) + after
            yield sequence(member("a", one, presence=1), member("b", two)) + after
        yield sequence(member("a", 3), member("b", 4, presence=1)) + after
        yield choice(member("a", 3), member("b", 4, 2 if kind != 13 else 1, 0)) + after


def tagged_clashes():
    """Kinds 19 and 20 under tags, in runs of a SEQUENCE and in an untagged CHOICE, beside rows that have their tags or not."""
    for own, other in itertools.product((NAME, RDN), (NAME, RDN, b"\x0c\0", of(14, 5) + b"\2", of(15, 5) + b"\2")):
        for one in ((0, 0), (1, 16), (2, 16), (1, 17), (2, 17)):
            for two in ((0, 0), (1, 16), (2, 16), (2, 17)):
                yield choice(member("a", 3, *one), member("b", 4, *two)) + own + other
                yield sequence(member("a", 3, *one, 1), member("b", 4, *two)) + own + other
        inner = choice(member("c", 6), member("d", 7, 1, 5))
        yield choice(member("a", 3), member("b", 5)) + choice(member("c", 5)) + own
        yield sequence(member("a", 3, presence=1), member("b", 5)) + choice(member("c", 5)) + own
        for owner in (choice, sequence):
            presence = 1 if owner is sequence else 0
            yield owner(member("a", 3, presence=presence), member("b", 7)) + inner + own + NAME
            yield owner(member("a", 3, presence=presence), member("b", 7)) + inner + own + RDN
            yield owner(member("a", 3, 1, 5, presence), member("b", 7, 2, 5)) + inner + own + NAME
        runs = [member("a", 4, presence=1), member("b", 6, presence=2, default=b"\1"), member("c", 5)]
        for several in itertools.permutations(runs) if len(other) == 1 else ():
            yield sequence(*several) + own + other + b"\2"


def defaults():
    """A default on a row of kind 19 or 20, which takes none, whatever its contents, and on rows beside it."""
    for row, mode in itertools.product((NAME, RDN), ((0, 0), (1, 0), (2, 0))):
        for contents in ("00", "01", "FF", "3000", "3100", "0500", "30023100", "3000300030003000"):
            yield sequence(member("a", 2, *mode, 2, bytes.fromhex(contents))) + row
        yield sequence(member("a", 2, *mode, 2)) + row
        yield sequence(member("a", 2, *mode, 1, b"\0")) + row
        yield sequence(member("a", 2, *mode, 0, b"", b"\1")) + row
        yield sequence(member("a", 3, *mode), member("b", 4, presence=2, default=b"\1")) + row + b"\2"
        yield sequence(member("a", 3, presence=2, default=b"\1"), member("b", 4, *mode)) + b"\2" + row
        yield sequence(member("a", 4, presence=2, default=b"\1"), member("b", 3, *mode)) + b"\2" + row


def pointers():
    """Row numbers that point to each row around rows of kinds 19 and 20, and past them."""
    for row, point in itertools.product((NAME, RDN), [*range(5), 19, 256, 257, 0x1400]):
        yield from (of(14, point) + row + b"\2", of(15, point) + row, row + of(14, point) + row, of(14, 1) + of(15, point) + row + b"\2")
        for owner in (sequence, choice):
            yield from (owner(member("a", point)) + row + b"\2", owner(member("a", 3), member("b", point, 1, 1)) + row + row)


def chains():
    """Chains of 14 to 18 type rows that end at a row of kind 19 or 20, from row 0 or not, or that such rows stand beside."""
    for row, before in ((NAME, b""), (RDN, b""), (NAME, b"\x14"), (RDN, b"\2")):
        first = len(before)
        for size in range(13, 18):
            lists = b"".join(of(14 + at % 2, first + at + 1) for at in range(size))
            yield from (before + lists + row, before + lists + row + b"\2", before + lists + b"\2" + row)
            yield before + lists[:-3] + sequence(member("a", first + size + 1)) + row
            yield before + lists[:-3] + choice(member("a", first + size + 1, 2, 0)) + row
            yield before + lists[:-3] + sequence(member("a", first + size + 3), member("b", first + size + 2)) + row + of(14, first + size + 4) + row
    yield b"".join(sequence(member("a", 2 * at + 2)) for at in range(15)) + NAME
    yield b"".join(sequence(member("a", 2 * at + 2)) for at in range(16)) + RDN


def misplaced():
    """Rows of kinds 19 and 20 among rows that only follow another, and such rows after them."""
    for row in (NAME, RDN):
        for stated in range(5):
            for rows in ([member("a", 6), row], [row, member("a", 6)], [member("a", 6), row, member("b", 6, 1, 1)], [row], [row, row]):
                yield from (bytes([kind, stated]) + b"".join(rows) + b"\2\2\2\2" for kind in (12, 13))
            yield from (bytes([17, stated]) + b"".join(rows) + b"\2" for rows in (
                [row], [bit_name("a", 0), row], [row, bit_name("a", 0)], [bit_name("a", 0), row, bit_name("b", 1)]))
        yield from (row + member("a", 2) + b"\2", row + bit_name("a", 0), row + BITS, BITS + row, row + BITS[2:], bytes([19, 1]) + member("a", 2) + b"\2",
                    bytes([20, 1]) + bit_name("a", 0), row + b"\x0c", row + b"\x0e", row + b"\x0e\0", row + member("a", 2)[:-1], of(14, 1)[:2] + row)


def many_rows():
    """127 to 130 rows, and octets up to the largest size."""
    for row, rows in itertools.product((NAME, RDN), (127, 128, 129, 130)):
        yield from (row * rows, b"\2" * (rows - 1) + row, row + b"\2" * (rows - 1), of(14, rows - 1) + b"\2" * (rows - 2) + row,
                    sequence(member("a", rows - 1)) + b"\2" * (rows - 3) + row, sequence(member("a", 2)) + row * (rows - 2))
    yield from (NAME * 4992, RDN * 4993, (NAME + RDN) * 64)


def cut():
    """A table cut off at each place, or with one octet missing, doubled or changed into 19, 20 or another there."""
    table = sequence(member("a", 3), member("b", 4, 2, 1, 1)) + NAME + of(14, 5) + RDN
    for at in range(len(table)):
        yield from (table[:at], table[:at] + table[at + 1:], table[:at] + table[at:at + 1] + table[at:])
        yield from (table[:at] + bytes([octet]) + table[at + 1:] for octet in (19, 20) + ((0, 12, 14, 15, 17, 18, 21, 255) if table[at] else ()))


def few(dice, family, most):
    """So many of a family, or all that there are, each once."""
    several = [*dict.fromkeys(family())]
    return dict.fromkeys(dice.sample(several, min(most, len(several))))


def tables():
    """All of this module's tables, each once."""
    found, dice = {}, random.Random(47)
    for family, most in ((kinds, 80), (roles, 500), (clashes, 500), (tagged_clashes, 90), (defaults, 500), (pointers, 500), (chains, 500), (misplaced, 80),
                         (many_rows, 500), (cut, 90)):
        found.update(few(dice, family, most))
    found.update(dict.fromkeys(case.inputs[0] for case in written.cases(10000, ("Names",)) if case.entry == "table"))
    edges = draw_names.NameDrawer(random.Random(48))

    def drawn(drawer, where):
        table = drawer.table(drawer.dice.choice(where))[0]
        return table if NAME in table or RDN in table else None

    small, large = draw.CaseDrawer(49, names=True), draw.CaseDrawer(50, draw.LARGE, names=True)
    add(found, EDGES, lambda: edges.name_rows()[1][0])
    add(found, DRAWN, lambda: drawn(small, ["table", "table", "none"]))
    add(found, LARGE, lambda: drawn(large, ["table", "none"]))
    return [table for table in found if len(table) <= engine.TABLE_SIZES.stop]


# A name as a tree: a tag octet, and contents or further values. Two RDNs, the first of two pairs.
TREE = (0x30, [(0x31, [(0x30, [(6, b"\x55\4\3"), (0x0C, b"a")]), (0x30, [(6, b"\x55\4\x0a"), (0x13, b"Bc")])]),
               (0x31, [(0x30, [(6, b"\x55\4\6"), (0x16, b"AU")])])])


def encoded(tree, place=(), changed=None, change=None):
    """The octets of a tree; at one place `change` makes them, from the tag and the contents, and all lengths around it are right."""
    tag, held = tree
    contents = held if isinstance(held, bytes) else b"".join(encoded(inner, place + (at,), changed, change) for at, inner in enumerate(held))
    return change(tag, contents) if place == changed else tlv(tag, contents)


def places(tree, place=()):
    """The places of a tree and of all that is in it."""
    yield place
    if not isinstance(tree[1], bytes):
        for at, inner in enumerate(tree[1]):
            yield from places(inner, place + (at,))


def changes(changer):
    """TREE with one place changed by each of the changes, and its first RDN likewise."""
    for change in changer:
        for place in places(TREE):
            yield NAME, encoded(TREE, (), place, change)
        for place in places(TREE[1][0]):
            yield RDN, encoded(TREE[1][0], (), place, change)


def other_tags():
    """Each value inside a name with another tag."""
    tags = [0x02, 0x04, 0x05, 0x06, 0x0C, 0x10, 0x11, 0x13, 0x16, 0x26, 0x2C, 0x30, 0x31, 0x33, 0x36, 0x3F, 0x70, 0x80, 0xA0, 0xA1, 0xB0, 0xF1]
    yield from changes([lambda _, contents, other=other: tlv(other, contents) for other in tags])
    yield from changes([lambda tag, contents, bit=bit: tlv(tag ^ bit, contents) for bit in (1, 2, 4, 8, 16, 32, 64, 128)])


def other_lengths():
    """Each value inside a name with length octets that are not the shortest, too large, too small, indefinite or missing."""
    def after(octets, more):
        return lambda tag, contents: bytes([tag]) + octets + bytes([max(0, len(contents) + more)]) + contents

    yield from changes([after(octets, 0) for octets in (b"\x81", b"\x82\0", b"\x82\1", b"\x83\0\0", b"\x84\0\0\0")])
    yield from changes([after(b"", more) for more in (-2, -1, 1, 2)])
    yield from changes([lambda tag, contents, octets=octets: bytes([tag]) + octets + contents for octets in (b"", b"\0", b"\x80", b"\x81", b"\x85", b"\xff")])
    yield from changes([lambda tag, contents: bytes([tag, 0x80]) + contents + b"\0\0"])


def more_and_less():
    """Each value inside a name with something after its contents or after itself, doubled, missing, or cut short."""
    for more in (b"\0", b"\0\0", b"\5\0", b"\x0c\0", b"\x0c\1z", b"\x31\0", b"\x30\0", pair(O, "z"), rdn(pair(O, "z")), b"\x30"):
        yield from changes([lambda tag, contents, more=more: tlv(tag, contents + more), lambda tag, contents, more=more: tlv(tag, more + contents),
                            lambda tag, contents, more=more: tlv(tag, contents) + more, lambda tag, contents, more=more: more + tlv(tag, contents)])
    yield from changes([lambda tag, contents: b"", lambda tag, contents: tlv(tag, contents) * 2, lambda tag, contents: tlv(tag), lambda tag, contents: contents,
                        lambda tag, contents: tlv(tag, tlv(tag, contents)), lambda tag, contents: bytes([tag])])
    yield from changes([lambda tag, contents, size=size: tlv(tag, contents[:size]) for size in (1, 2, 3, 4, 5, 7, 10)])


def broken_octets():
    """Names cut off at each octet, with the outermost length right or not, and with each octet missing, doubled or changed."""
    for table, value in ((NAME, encoded(TREE)), (RDN, encoded(TREE[1][0]))):
        for at in range(len(value)):
            yield table, value[:at]
            for octet in (value[at] ^ 1, value[at] ^ 0x20, value[at] ^ 0x80)[:3 if table == NAME else 1]:
                yield table, value[:at] + bytes([octet]) + value[at + 1:]
            if at >= 2:
                yield table, value[:1] + bytes([at - 2]) + value[2:at]
            if at >= 2 and table == NAME:
                yield table, value[:1] + bytes([value[1] - 1]) + value[2:at] + value[at + 1:]
                yield table, value[:1] + bytes([value[1] + 1]) + value[2:at] + value[at:at + 1] + value[at:]


def counted(count, pairs):
    """A name of so many RDNs, each of so many pairs."""
    return name(*[rdn(*(pair("2.5", chr(97 + at)) for at in range(pairs)))] * count)


def limits():
    """0 to 18 RDNs and 0 to 6 pairs, and many of both."""
    for count in [0, 1, 2, 3, 14, 15, 16, 17, 18, 32, 100]:
        for pairs in (0, 1, 4, 5):
            yield NAME, counted(count, pairs)
    for count in (4, 5, 6, 7, 8, 9, 10, 11, 12, 13, 31, 33, 255):
        yield NAME, counted(count, 1)
    for pairs in [*range(8), 16, 17]:
        several = [pair("2.5", chr(97 + at)) for at in range(min(pairs, 20))] + [pair("2.6", "a")] * max(0, pairs - 20)
        yield RDN, rdn(*several)
        yield RDN, rdn(*[pair("2.5", "a")] * pairs)
        for before, after in ((0, 0), (1, 0), (0, 1), (15, 0), (0, 15)) if pairs < 7 else ():
            yield NAME, name(*[rdn(pair("2.5", "x"))] * before, rdn(*several), *[rdn(pair("2.5", "x"))] * after)
    yield of(14, 1) + RDN, counted(17, 1)
    yield of(14, 1) + RDN, counted(100, 4)
    yield of(14, 1) + RDN, counted(3, 5)
    yield of(14, 1) + NAME, tlv(0x30, *[counted(16, 1)] * 9, *[counted(1, 4)] * 9)
    yield of(14, 1) + NAME, tlv(0x30, counted(16, 1), counted(17, 1), counted(16, 1))


def orders():
    """Pairs in all orders: they differ in length, type, kind of string or characters, or not at all; some pairs equal. Names in SET OFs of all orders."""
    several = [pair(CN, "a"), pair(CN, "b"), pair(CN, "a", 9), pair(CN, ""), pair(CN, "aa"), pair(C, "a"), pair("2.5.4", "aa"), pair("2.5.4.3.0", ""),
               pair(CN, "\u00e9"), pair("2.999", "a"), pair(CN, "a" * 115), pair(CN, "a" * 128)]
    for one, two in itertools.product(several, repeat=2):
        yield RDN, tlv(0x31, one, two)
    for three in itertools.product([pair(CN, "a"), pair(CN, "b"), pair(O, "a")], repeat=3):
        yield RDN, tlv(0x31, *three)
    for four in itertools.permutations([pair(CN, "a"), pair(CN, "b"), pair(O, "a", 9), pair(O, "b", 10)]):
        yield RDN, tlv(0x31, *four)
        yield NAME, name(rdn(pair(CN, "z")), tlv(0x31, *four))
    for four in itertools.product([pair(CN, "x"), pair(CN, "y")], repeat=4):
        yield NAME, name(tlv(0x31, *four))
    # RDNs of a name stand in any order; names and RDNs in a SET OF do not.
    rdns = [rdn(pair(CN, "a")), rdn(pair(CN, "b")), rdn(pair(CN, "a"), pair(O, "a"))]
    for three in itertools.permutations(rdns):
        yield from ((NAME, name(*three)), (of(15, 1) + RDN, tlv(0x31, *three)), (of(14, 1) + RDN, tlv(0x30, *three)))
    for one, two in itertools.product([name(), name(rdns[0]), name(rdns[1]), name(*rdns[:2]), name(rdns[2])], repeat=2):
        yield of(15, 1) + NAME, tlv(0x31, one, two)


def one_pair(oid, string):
    """An RDN of one pair, of encodings or anything else."""
    return tlv(0x31, tlv(0x30, oid, string))


def types_inside():
    """Attribute types of all forms, those legal in document 01 and others, and other strings in the place of the three kinds."""
    oid, string = tlv(6, oid_contents(CN)), leaf(8, b"a")
    for contents in CONTENTS[5] + ["55" * 32, "55" * 33, "8FFFFFFF7F" * 32, "8FFFFFFF7F" * 33, "81808080" + "00", "8480808000", "FFFFFFFF7F", "550484",
                                   "7F" * 31 + "8100"]:
        yield RDN, one_pair(tlv(6, bytes.fromhex(contents)), string)
        yield NAME, name(one_pair(oid, string), rdn(pair("2.5", ""), tlv(0x30, tlv(6, bytes.fromhex(contents)), leaf(10, b"b"))))
    # OCTET STRING, NumericString, TeletexString, VideotexString, GraphicString, VisibleString, GeneralString, UniversalString, BMPString; constructed strings.
    for tag, contents in itertools.product((0x04, 0x12, 0x14, 0x15, 0x19, 0x1A, 0x1B, 0x1C, 0x1E, 0x2C, 0x33, 0x36), (b"", b"1", b"\0a", b"\0\0\0a")):
        yield RDN, one_pair(oid, tlv(tag, contents))
        yield NAME, name(one_pair(oid, string), tlv(0x31, pair("2.5", ""), tlv(0x30, oid, tlv(tag, contents))))
    # What one of the three kinds allows and another doesn't.
    for kind, contents in itertools.product((8, 9, 10), (b"@", b"*", b"\x7f", b"\0", b"\x80", b"\xc3\xa9", b"\xe9", b"\xed\xa0\x80", b"\xf4\x90\x80\x80")):
        yield RDN, one_pair(oid, leaf(kind, contents))


def inside():
    """Strings of all forms inside a pair, those legal in document 01 and others, and what stands in the places of types and strings."""
    oid, string = tlv(6, oid_contents(CN)), leaf(8, b"a")
    for kind in (8, 9, 10):
        for contents in CONTENTS[kind] + ["61" * 60, "61" * 127, "61" * 128, "61" * 300]:
            yield RDN, one_pair(oid, leaf(kind, bytes.fromhex(contents)))
            yield NAME, name(one_pair(oid, string), one_pair(oid, leaf(kind, b"a" + bytes.fromhex(contents))))
    for octet in range(128):
        yield RDN, one_pair(oid, leaf(9, bytes([octet])))
    yield from ((RDN, one_pair(oid, leaf(10, bytes([octet])))) for octet in (0, 1, 0x1F, 0x20, 0x22, 0x40, 0x7E, 0x7F, 0x80, 0x81, 0xC2, 0xE9, 0xFF))
    for tag in range(256):
        if tag % 32 in (12, 19, 22) or tag % 37 == 0:
            yield RDN, one_pair(oid, tlv(tag, b"a"))
        if tag % 32 in (12, 19, 22):
            yield RDN, one_pair(oid, tlv(tag, tlv(tag % 32, b"a")))
    for tag in (0x01, 0x02, 0x04, 0x05, 0x07, 0x0C, 0x0D, 0x26, 0x46, 0x66, 0x80, 0x86, 0xA6, 0xC6):
        yield RDN, one_pair(tlv(tag, oid_contents(CN)), string)
    yield from ((RDN, value) for value in (one_pair(b"", b""), one_pair(oid, b""), one_pair(b"", string), one_pair(string, oid), one_pair(oid, oid),
                                           one_pair(string, string), one_pair(oid, string + string), one_pair(oid + oid, string), one_pair(oid, b"\x1e\2\0a"),
                                           one_pair(oid, tlv(0x31, string)), one_pair(oid, tlv(0x30, string)), one_pair(tlv(0x30, oid, string), b"")))


def placed():
    """Names and RDNs under explicit and implicit tags, as alternatives, in lists, and absent."""
    names, rdns = [name(), name(rdn(pair(CN, "a"))), name(rdn(pair(CN, "a")), rdn(pair(O, "b"))), b"\x31\0", name(b"\x31\0"), rdn(pair(CN, "a"))], [
        rdn(pair(CN, "a")), rdn(pair(CN, "a"), pair(O, "b")), b"\x31\0", b"\x30\0", name(rdn(pair(CN, "a"))), tlv(0x31, pair(O, "b"), pair(CN, "a"))]
    for row, several in ((NAME, names), (RDN, rdns)):
        for value, (mode, number) in itertools.product(several, ((0, 0), (1, 3), (2, 3), (1, 16), (2, 16), (2, 17), (1, 30), (2, 30))):
            for tag in (0xA0 + number, 0x80 + number, value[0], 0xA0 + (number ^ 1)) if mode else value[:1]:
                inner = bytes([tag]) + value[1:] if mode == 2 else tlv(tag, value) if mode == 1 else value
                yield sequence(member("a", 2, mode, number)) + row, tlv(0x30, inner)
                yield choice(member("a", 2, mode, number)) + row, inner
            yield sequence(member("a", 3, mode, number, 1), member("b", 4)) + row + b"\2", tlv(0x30, b"\2\1\1")
            yield sequence(member("a", 3, mode, number, 1), member("b", 4)) + row + b"\2", tlv(0x30, value, b"\2\1\1")
        for one, two in itertools.product(several, repeat=2):
            yield of(14, 1) + row, tlv(0x30, one, two)
        yield from ((of(kind, 1) + row, value) for kind in (14, 15) for value in several)
        for table in (row + b"\0", b"\x0c\1" + row, row + b"\x15", row + member("a", 1), sequence(member("a", 2, 0, 0, 2, b"\1")) + row):
            yield table, several[0]
    both = choice(member("n", 3), member("r", 4)) + NAME + RDN
    yield from ((both, value) for value in (*names, *rdns))
    yield from ((of(14, 1) + choice(member("n", 4), member("r", 5)) + NAME + RDN, tlv(0x30, one, two)) for one in names[:3] for two in rdns[:3])


def large():
    """Lengths of 126 to 129 and 254 to 257 at each level, and values up to the largest size."""
    for size in (114, 115, 116, 117, 118, 119, 120, 121, 126, 127, 128, 129, 240, 241, 242, 243, 244, 245, 246, 247, 248, 254, 255, 256, 257):
        yield NAME, name(rdn(pair(CN, "x" * size)))
        yield RDN, rdn(pair("2.5" + ".4294967295" * 20, "x" * (size % 100), 9 + size % 2))
    for size in (4070, 4071, 4072, 4073, 4074, 4075):
        yield NAME, name(rdn(pair(CN, "x" * size)))
    fifty, thousand = pair(CN, "x" * 50), pair(CN, "x" * 1000)
    full = name(*[rdn(*[fifty] * 4)] * 16)
    yield from ((NAME, full), (NAME, full[:-1]), (NAME, full[:-1] + b"\x80"), (NAME, name(*[rdn(*[fifty] * 4)] * 15, rdn(*[fifty] * 5))),
                (NAME, name(*[rdn(*[pair(CN, "")] * 4)] * 17)), (RDN, rdn(*[thousand] * 4)), (RDN, rdn(*[pair(CN, "x" * 800)] * 5)),
                (RDN, tlv(0x31, *[thousand] * 3, pair(CN, "x" * 999 + "w"))), (RDN, tlv(0x31, *[thousand] * 3, pair(CN, "x" * 999 + "y"))),
                (of(14, 1) + NAME, tlv(0x30, *[b"\x30\0"] * 2046)), (of(14, 1) + NAME, tlv(0x30, *[b"\x30\0"] * 2045, b"\x31\0")),
                (of(14, 1) + RDN, tlv(0x30, *[rdn(pair("2.5", ""))] * 400)))


def values():
    """All of this module's tables with values, each pair once."""
    found, dice = {}, random.Random(56)
    for family, most in ((other_tags, 150), (other_lengths, 150), (more_and_less, 180), (broken_octets, 500), (limits, 500), (orders, 500),
                         (types_inside, 500), (inside, 170), (placed, 200), (large, 500)):
        found.update(few(dice, family, most))
    found.update(dict.fromkeys(case.inputs for case in written.cases(10000, ("Names",)) if case.entry == "value"))
    edges = draw_names.NameDrawer(random.Random(57))

    def edge():
        entry, inputs = edges.name_values()
        return inputs if entry == "value" else None

    def drawn(drawer, where):
        table, value = drawer.value(drawer.dice.choice(where))
        return (table, value) if NAME in table or RDN in table else None

    small, great = draw.CaseDrawer(58, names=True), draw.CaseDrawer(59, draw.LARGE, names=True)
    add(found, VALUE_EDGES, edge)
    add(found, GOOD_VALUES, lambda: drawn(small, ["none"]))
    add(found, BROKEN_VALUES, lambda: drawn(small, ["value"] * 9 + ["table"]))
    add(found, LARGE_VALUES, lambda: drawn(great, ["value", "none"]))
    return [(table, value) for table, value in found if len(value) <= 4097]
