"""Cases of longer member names (Q-4 of document 02) and of the readings of it, imported by test_second."""

import unittest

import engine
from rows import long_member
from samples import (CATEGORY, LICENCE, LONGEST_NAME, RECORD, asked, bit_name, choice, item, leaf, listed, member, named_bits, of, sequence, tlv)

# Names of 24, 25 and 47 characters with which LONGEST_NAME, of 48, begins.
SHORT, LEAST, LESS = LONGEST_NAME[:24], LONGEST_NAME[:25], LONGEST_NAME[:47]
# The licence record of document 01, its members' names made long.
LONG_LICENCE = (sequence(long_member("event-of-the-licence-record", 4), long_member("seats-of-the-licence-record", 5, presence=2, default=b"\1"),
                         long_member("parts-of-the-licence-record", 6))
                + bytes([8, 2]) + of(14, 7)
                + sequence(long_member("name-of-the-part-of-the-licence", 10), long_member("copies-of-the-part-of-the-licence", 11, 2, 0, 2, b"\1"))
                + bytes([9, 2]))
COPIES = "parts-of-the-licence-record.*.copies-of-the-part-of-the-licence"
SEATS = "seats-of-the-licence-record"


def largest(last=b"\x0c\0", more=b""):
    """The largest table that can be admitted: 8 SEQUENCEs, 119 long members, and one more row, which is a type without followers."""
    groups = [sequence(*[long_member("m%02d" % at + "x" * 45, 127) for at in range(size)]) for size in [16] * 7 + [7]]
    return b"".join(groups) + last + more


class LongNames(unittest.TestCase):
    """Rows of kind 21, values under them, and references by their names."""

    def good(self, *tables):
        for table in tables:
            self.assertEqual(engine.check_table(table)[0], "admitted", table.hex())

    def bad(self, *tables):
        for table in tables:
            self.assertEqual(engine.check_table(table), ("refused", 2), table.hex())

    def values(self, table, good=(), bad=()):
        for several, answer in ((good, ("good",)), (bad, ("refused", 4))):
            for value in several:
                self.assertEqual(engine.check_value(table, value), answer, value.hex())

    def not_allowed(self, table, value, *references):
        """A listing by each of these is refused 3, and an assertion with it is Undefined."""
        for text in references:
            self.assertEqual(listed(table, value, text), 3, text)
            self.assertEqual(asked(table, value, item(text, "presentMatch", "NULL")), "UNDEFINED 0", text)

    def test_request(self):
        """The request's own name, of 29 letters, in a row of 63 octets."""
        table = sequence(long_member(CATEGORY, 2)) + b"\x0c\0"
        self.assertEqual((len(CATEGORY), len(long_member(CATEGORY, 2)), len(table)), (29, 63, 67))
        self.assertEqual(engine.check_table(table), ("admitted", 3))
        table = sequence(member("event", 3), long_member(CATEGORY, 4)) + b"\x08\2"
        value = tlv(0x30, leaf(8, b"e1"), leaf(2, b"\5"))
        self.values(table, [value], [tlv(0x30, leaf(8, b"e1")), tlv(0x30, leaf(2, b"\5"), leaf(8, b"e1")), tlv(0x30, leaf(8, b"e1"), leaf(2, b"\5"), b"\5\0")])
        self.assertEqual(listed(table, value, CATEGORY), [(0, 6, 3)])
        self.assertEqual(asked(table, value, item(CATEGORY, "integerMatch", "5")), "TRUE 1")
        self.assertEqual(asked(table, value, item(CATEGORY, "integerMatch", "6")), "FALSE 1")
        self.assertEqual(asked(table, value, item(CATEGORY, "integerOrderingMatch", "6"), 0), "REFUSED 5")
        self.assertEqual(asked(table, value, item("event", "caseIgnoreMatch", '"E1"')), "TRUE 1")

    def test_body(self):
        """The body has 62 octets: the name field of 48, then what document 01's member has after its name."""
        row = bytes([21]) + CATEGORY.encode() + bytes(19) + bytes([0, 2, 1, 30, 2, 1, 5]) + bytes(7)
        self.assertEqual(row, long_member(CATEGORY, 2, 1, 30, 2, b"\5"))
        self.assertEqual(engine.check_table(b"\x0c\1" + row + b"\2"), ("admitted", 3))
        self.assertEqual(listed(b"\x0c\1" + row + b"\2", b"\x30\0", CATEGORY), [(1, 0, 1)])
        for size in range(1, 63):
            self.bad(b"\x0c\1" + row[:size], b"\x0c\1" + row[:size] + b"\2")
        self.bad(b"\x0c\1" + row, b"\x0c\1" + row[:48] + row[49:] + b"\2", b"\x0c\1" + row[:49] + b"\0" + row[49:] + b"\2", b"\x0c\1" + row + b"\0\2")
        # The two kinds of rows with each other's bodies.
        self.bad(b"\x0c\1\x10" + row[1:] + b"\2", b"\x0c\1\x15" + member("a", 2)[1:] + b"\2", b"\x0c\1\x10" + row[1:25] + row[49:] + b"\2\x15")
        self.good(b"\x0c\1\x10" + row[1:25] + row[49:] + b"\2")

    def test_4_1_one_form(self):
        """Names of 25 to 48 characters only."""
        for size in range(49):
            table = sequence(long_member(LONGEST_NAME[:size], 2)) + b"\2"
            (self.good if size >= 25 else self.bad)(table)
            if 1 <= size <= 24:
                self.good(sequence(member(LONGEST_NAME[:size], 2)) + b"\2")
        self.bad(choice(long_member("a", 2)) + b"\2", choice(long_member(SHORT, 2)) + b"\2", sequence(long_member("", 2)) + b"\2")
        self.good(choice(long_member(LEAST, 2)) + b"\2", choice(long_member(LONGEST_NAME, 2)) + b"\2")
        # 49 characters: the last is the first octet of the row number.
        self.bad(sequence(long_member(LONGEST_NAME + "W", 2)) + b"\2", sequence(bytes([21]) + LONGEST_NAME.encode() + b"W" + long_member("a", 2)[50:]) + b"\2")

    def test_4_2_sizes(self):
        """Sizes 4,993 to 8,064 pass refusal 1."""
        for size, number in ((4992, 2), (4993, 2), (5000, 2), (7515, 2), (7516, 2), (8063, 2), (8064, 2), (8065, 1), (8066, 1), (9000, 1), (0, 1)):
            for octet in (b"\2", b"\0", b"\x15"):
                self.assertEqual(engine.check_table(octet * size), ("refused", number), size)
        for size, number in ((8064, 2), (8065, 1)):
            table = b"\2" * size
            self.assertEqual(engine.check_value(table, b"\2\1\1"), ("refused", number))
            self.assertEqual(engine.check_value(table, b"\2"), ("refused", 1))
            self.assertEqual(asked(table, b"\2\1\1", "and:{}"), "REFUSED %d" % number)
            self.assertEqual(asked(table, b"\2\1\1", "x"), "REFUSED %d" % number)
            self.assertEqual(asked(table, b"\2\1\1", "and:{}", 65536), "REFUSED 1")
            self.assertEqual(listed(table, b"\2\1\1", None), number)
            self.assertEqual(listed(table, b"\2\1\1", ""), number)
        self.bad(long_member(CATEGORY, 0) * 128, (sequence(*[long_member("m%02d" % at + "x" * 45, 136) for at in range(16)]) * 8)[:8064])

    def test_4_3_largest(self):
        self.assertEqual(len(largest()), 7515)
        self.assertEqual(engine.check_table(largest()), ("admitted", 128))
        self.assertEqual(engine.check_table(largest(b"\2")), ("admitted", 128))
        self.bad(largest()[:-1], largest(b"\2", b"\2"), largest(more=b"\2"), largest(b"\x0c\1", long_member(CATEGORY, 128)))
        value = tlv(0x30, *[b"\x30\0"] * 16)
        self.values(largest(), [value], [tlv(0x30, *[b"\x30\0"] * 15), tlv(0x30, *[b"\x30\0"] * 17), b"\x30\0"])
        self.assertEqual(listed(largest(), value, "m15" + "x" * 45), [(0, 32, 2)])
        self.assertEqual(asked(largest(), value, item("m00" + "x" * 45, "presentMatch", "NULL")), "TRUE 1")
        self.not_allowed(largest(), value, "m16" + "x" * 45, "m15" + "x" * 44, "m15" + "x" * 46)

    def test_rows(self):
        """The 128 rows stay, those of kind 21 among them."""
        three = sequence(long_member(CATEGORY, 2)) + b"\2"
        self.good(three + b"\2" * 125, sequence(long_member(CATEGORY, 127)) + b"\2" * 126)
        self.bad(three + b"\2" * 126, sequence(long_member(CATEGORY, 128)) + b"\2" * 126, sequence(long_member(CATEGORY, 128)) + b"\2" * 127)
        full = [long_member("m%02d-of-the-sixteen-long-ones" % at, 17) for at in range(17)]
        self.good(sequence(*full[:16]) + b"\2")
        self.bad(sequence(*[row[:49] + b"\0\x12" + row[51:] for row in full]) + b"\2", sequence(*full[:16]) + full[16] + b"\2\2",
                 bytes([12, 15]) + b"".join(full[:16]) + b"\2", bytes([12, 16]) + b"".join(full[:15]) + b"\2\2")

    def test_4_4_bits(self):
        """Names of bits stay at 24, and nothing else gets a long form."""
        self.good(named_bits((SHORT, 0)))
        self.bad(named_bits((LEAST, 0)), b"\x11\1" + bytes([18]) + LONGEST_NAME.encode() + b"\0", b"\x11\1" + long_member(CATEGORY, 2) + b"\2",
                 b"\x11\2" + bit_name("a", 0) + long_member(CATEGORY, 3) + b"\2", b"\x11\2" + long_member(CATEGORY, 3) + bit_name("a", 0) + b"\2",
                 named_bits(("a", 0)) + long_member(CATEGORY, 3) + b"\2", sequence(long_member(CATEGORY, 3), bit_name("a", 0)) + b"\2")
        # 25 characters: the last is read as the bit number, 64 or more.
        self.assertEqual(engine.check_table(bytes([17, 1, 18]) + SHORT.encode() + b"9"), ("admitted", 2))
        # Kind 22 is no row yet, and kind 21 no type.
        self.bad(b"\x16", sequence(bytes([22]) + long_member(CATEGORY, 2)[1:]) + b"\2")

    def test_4_5_not_cut(self):
        table = sequence(long_member(LONGEST_NAME, 2)) + b"\2"
        value = tlv(0x30, leaf(2, b"\7"))
        self.assertEqual(listed(table, value, LONGEST_NAME), [(0, 2, 3)])
        for size in range(48):
            self.not_allowed(table, value, LONGEST_NAME[:size])
        self.not_allowed(table, value, LONGEST_NAME + "W", LONGEST_NAME + "-", LONGEST_NAME + "0", LESS + "v", LESS + "W", LONGEST_NAME.swapcase(),
                         "A" + LONGEST_NAME[1:], LONGEST_NAME[:24] + "Y" + LONGEST_NAME[25:], LONGEST_NAME + ".0", LONGEST_NAME + ".1", LONGEST_NAME + ".*",
                         LONGEST_NAME + "." + LONGEST_NAME, LONGEST_NAME + ".", "." + LONGEST_NAME, LONGEST_NAME + " ", LONGEST_NAME + "\0",
                         LONGEST_NAME * 2, "x" + LONGEST_NAME)
        self.assertEqual(asked(table, value, "not:" + item(SHORT, "integerMatch", "7")), "UNDEFINED 0")

    def test_alike(self):
        """Names that begin alike name members of their own: the values and the tests tell which."""
        names = [LONGEST_NAME, SHORT, LEAST, LESS, LONGEST_NAME[:40], LESS + "W", SHORT + "Y", LONGEST_NAME[:23]]
        rows = [(member if len(name) < 25 else long_member)(name, 9, 2, at) for at, name in enumerate(names)]
        table = sequence(*rows) + b"\2"
        value = tlv(0x30, *(tlv(0x80 + at, bytes([10 + at])) for at in range(8)))
        for at, name in enumerate(names):
            self.assertEqual(listed(table, value, name), [(0, 2 + 3 * at, 3)], name)
            self.assertEqual(asked(table, value, item(name, "integerMatch", str(10 + at))), "TRUE 1", name)
            self.assertEqual(asked(table, value, item(name, "integerMatch", str(11 + at))), "FALSE 1", name)
        self.not_allowed(table, value, LONGEST_NAME[:26], LONGEST_NAME[:22], LONGEST_NAME[:39], LONGEST_NAME[:46])

    def test_names_differ(self):
        """Names in one type differ, over both kinds; in two types they may be equal."""
        self.bad(sequence(long_member(CATEGORY, 3), long_member(CATEGORY, 3)) + b"\2", choice(long_member(CATEGORY, 3), long_member(CATEGORY, 3, 1, 0)) + b"\2",
                 sequence(long_member(CATEGORY, 4), member("a", 4), long_member(CATEGORY, 4)) + b"\2",
                 sequence(member("a", 4), long_member(CATEGORY, 4), member("a", 4)) + b"\2")
        for one, two in ((CATEGORY, CATEGORY[:28]), (CATEGORY, CATEGORY + "s"), (LONGEST_NAME, LESS + "v"), (LONGEST_NAME, LESS + "W"), (LEAST, SHORT + "Y"),
                         (LONGEST_NAME, LEAST), (LONGEST_NAME, "aB" + LONGEST_NAME[2:])):
            self.good(sequence(long_member(one, 3), long_member(two, 3)) + b"\2", choice(long_member(two, 3), long_member(one, 3, 2, 0)) + b"\2")
        for size in (1, 23, 24):
            self.good(sequence(member(LONGEST_NAME[:size], 3), long_member(LONGEST_NAME, 3)) + b"\2",
                      sequence(long_member(LONGEST_NAME, 3), member(LONGEST_NAME[:size], 3)) + b"\2")
        self.good(sequence(long_member(CATEGORY, 2)) + sequence(long_member(CATEGORY, 4)) + b"\2")

    def test_4_6_names(self):
        """Zeros inside the 48 octets, and names that are none."""
        name = LONGEST_NAME.encode()
        for at in range(47):
            self.bad(sequence(long_member(name[:at] + b"\0" + name[at + 1:], 2)) + b"\2", sequence(long_member(name[:at] + b"\0x", 2)) + b"\2")
        self.good(sequence(long_member(name[:47] + b"\0", 2)) + b"\2")
        self.bad(sequence(long_member(b"\0" + CATEGORY.encode(), 2)) + b"\2", sequence(long_member(CATEGORY.encode().ljust(47, b"\0") + b"a", 2)) + b"\2",
                 sequence(long_member(CATEGORY.encode() + b"\0\1", 2)) + b"\2")
        for name in (CATEGORY.capitalize(), "9" + CATEGORY, "-" + CATEGORY, CATEGORY + "-", LESS + "-", "education--ConcessionCategory",
                     LONGEST_NAME[:23] + "--y", SHORT + "--y", SHORT + "-", CATEGORY + "_", CATEGORY + " x", CATEGORY + ".x", CATEGORY + "\u00e9",
                     CATEGORY + "/", CATEGORY + ":", CATEGORY + "@", CATEGORY + "[", CATEGORY + "`", CATEGORY + "{", " " + CATEGORY):
            self.bad(sequence(long_member(name, 2)) + b"\2", choice(long_member(name, 2)) + b"\2")
        for name in (CATEGORY + "-x", "x" + "-1" * 12, "x" + "-1" * 23, "x" + "-1" * 23 + "Z", "a" * 48, "z" * 25, "aA09-zZ" * 3 + "a9Z-0", SHORT + "-y",
                     "content" * 4):
            self.good(sequence(long_member(name, 2)) + b"\2")

    def test_4_6_roles(self):
        """A member of kind 21 may be an alternative, be tagged, optional and default; what document 01 asks of these holds for it."""
        for mode, number in ((0, 0), (1, 0), (2, 0), (1, 30), (2, 30)):
            for presence, default in ((0, b""), (1, b""), (2, b"\1"), (2, b"\x7f\xff\xff\xff\xff\xff\xff\xff")):
                self.good(sequence(long_member(CATEGORY, 2, mode, number, presence, default)) + b"\2")
            self.good(choice(long_member(CATEGORY, 2, mode, number)) + b"\2")
        for mode, number in ((0, 1), (3, 0), (255, 0), (1, 31), (2, 31), (1, 255)):
            self.bad(sequence(long_member(CATEGORY, 2, mode, number)) + b"\2", choice(long_member(CATEGORY, 2, mode, number)) + b"\2")
        self.bad(choice(long_member(CATEGORY, 2, presence=1)) + b"\2", choice(long_member(CATEGORY, 2, presence=2, default=b"\1")) + b"\2",
                 sequence(long_member(CATEGORY, 2, presence=3)) + b"\2", sequence(long_member(CATEGORY, 2, 2, 0)) + choice(member("a", 4)) + b"\2",
                 sequence(member("a", 2, 2, 0)) + choice(long_member(CATEGORY, 4)) + b"\2")
        self.good(sequence(long_member(CATEGORY, 2, 1, 0)) + choice(long_member(CATEGORY, 4)) + b"\2")

    def test_defaults(self):
        def table(kind, presence, default, fill=b""):
            return sequence(long_member(CATEGORY, 2, 0, 0, presence, default, fill)) + bytes([kind])
        self.good(table(1, 2, b"\xff"), table(1, 2, b"\0"), table(2, 2, b"\0\x80"), table(3, 2, b"\x05"))
        self.bad(table(1, 2, b"\1"), table(1, 2, b"\xff\xff"), table(2, 2, b"\0\x7f"), table(2, 2, b""), table(3, 2, b"\xff\x80"), table(4, 2, b"\0"),
                 table(6, 2, b"\1"), table(8, 2, b"a"), table(2, 1, b"\1"), table(2, 0, b"\1"), table(2, 2, b"\1", b"\1"), table(2, 0, b"", b"\1"),
                 table(2, 1, b"", b"\0\0\0\0\0\0\0\1"), table(2, 2, b"\1" * 9)[:-2] + b"\2")
        row = bytearray(long_member(CATEGORY, 2, 0, 0, 2, b"\1"))
        for size in (0, 1, 2, 8, 9, 255):
            row[54] = size
            # The octets after the first are zero, so up to eight of them are an INTEGER.
            (self.good if 1 <= size <= 8 else self.bad)(sequence(bytes(row)) + b"\2")
        one = sequence(long_member(CATEGORY, 2, 0, 0, 2, b"\5")) + b"\2"
        self.values(one, [b"\x30\0", tlv(0x30, leaf(2, b"\6"))],
                    [tlv(0x30, leaf(2, b"\5")), tlv(0x30, leaf(1, b"\0")), tlv(0x30, leaf(2, b"\6"), leaf(2, b"\6"))])
        self.assertEqual(listed(one, b"\x30\0", CATEGORY), [(1, 0, 1)])
        self.assertEqual(listed(one, b"\x30\0", CATEGORY, False), [])
        for text, flag, answer in (("5", None, "TRUE 1"), ("6", None, "FALSE 1"), ("5", "TRUE", "TRUE 1"), ("5", "FALSE", "FALSE 0")):
            self.assertEqual(asked(one, b"\x30\0", item(CATEGORY, "integerMatch", text, flag)), answer)
        self.assertEqual(asked(one, b"\x30\0", item(CATEGORY[:24], "integerMatch", "5")), "UNDEFINED 0")

    def test_tags(self):
        """Tags of a run and of alternatives differ, whatever the kinds of the rows."""
        for one, two in ((long_member, member), (member, long_member), (long_member, long_member)):
            a, b = (CATEGORY if one is long_member else "a"), (LONGEST_NAME if two is long_member else "b")
            self.bad(choice(one(a, 3), two(b, 3)) + b"\2", sequence(one(a, 3, presence=1), two(b, 3)) + b"\2",
                     sequence(one(a, 3, 1, 5, 1), two(b, 3, 2, 5, 1)) + b"\2", sequence(one(a, 3, presence=2, default=b"\1"), two(b, 3, presence=1)) + b"\2",
                     choice(one(a, 3), two(b, 5)) + choice(long_member(CATEGORY, 5)) + b"\2")
            self.good(sequence(one(a, 3), two(b, 3)) + b"\2", sequence(one(a, 3), two(b, 3, presence=1)) + b"\2", choice(one(a, 3), two(b, 3, 2, 0)) + b"\2",
                      sequence(one(a, 3, presence=1), two(b, 3, 1, 0)) + b"\2", choice(one(a, 5), two(b, 3, 1, 0)) + choice(long_member(CATEGORY, 5)) + b"\2")

    def test_places(self):
        """Rows of kind 21 follow a SEQUENCE or CHOICE, mixed with those of kind 16 in any order, and stand nowhere else."""
        long, short = long_member(CATEGORY, 4), member("a", 4, 1, 0)
        other = long_member(LONGEST_NAME, 4, 1, 1)
        self.good(sequence(long, short, other) + b"\2", sequence(short, long, other) + b"\2", sequence(long, other, short) + b"\2",
                  choice(other, short, long) + b"\2", sequence(long, short) + b"\2\2")
        self.bad(long, long + b"\2\2\2\2", b"\2" + long + b"\2\2\2", b"\x0c\0" + long + b"\2\2\2", b"\x13" + long + b"\2\2\2", of(14, 2) + long + b"\2\2\2",
                 bytes([12, 1]) + long + other + b"\2\2", bytes([12, 2]) + long + b"\2\2\2", bytes([12, 2]) + long + b"\2" + other + b"\2",
                 sequence(member("a", 3)) + long + b"\2\2", bytes([13, 0]) + long + b"\2\2\2", sequence(long) + b"\2\2\2" + other)
        for point in range(7):
            for owner in (sequence, choice):
                table = owner(long_member(CATEGORY, point), member("a", 4, 1, 0)) + b"\2" + sequence(long_member(CATEGORY, 6)) + b"\2"
                (self.good if point in (3, 4, 6) else self.bad)(table)
            for kind in (14, 15):
                table = of(kind, point) + sequence(long_member(CATEGORY, 4), member("a", 4, 1, 0)) + b"\2"
                (self.good if point in (1, 4) else self.bad)(table)
        self.bad(sequence(long_member(CATEGORY, 256 + 2)) + b"\2", sequence(long_member(CATEGORY, 0x0200)) + b"\2")

    def test_chains(self):
        """A chain has at most 16 type rows; rows of kind 21 aren't counted."""
        def chained(size, owner, first=0):
            rows = b"".join(owner((long_member if at % 2 else member)(CATEGORY if at % 2 else "a", first + 2 * at + 2)) for at in range(size - 1))
            return b"\4" * first + rows + b"\2"
        for owner in (sequence, choice):
            self.good(chained(15, owner), chained(16, owner), chained(16, owner, 1))
            self.bad(chained(17, owner), chained(18, owner), chained(17, owner, 1))

    def test_licence(self):
        """A record with long names answers as the licence record does; a row's number counts rows, not octets."""
        self.assertEqual((len(LONG_LICENCE), engine.check_table(LONG_LICENCE)), (206 + 5 * 24, ("admitted", 12)))
        self.assertEqual(engine.check_value(LONG_LICENCE, RECORD), ("good",))
        for text, answer in [
                (item(COPIES, "integerMatch", "3"), "TRUE 2"), (item(COPIES, "integerMatch", "7"), "FALSE 2"),
                (item(COPIES, "integerMatch", "1", "FALSE"), "FALSE 1"), (item(COPIES, "integerOrderingMatch", "2"), "TRUE 1"),
                (item("event-of-the-licence-record", "integerMatch", "3"), "UNDEFINED 0"), (item(SEATS, "integerMatch", "9223372036854775808"), "FALSE 1"),
                (item("parts-of-the-licence-record.3", "presentMatch", "NULL"), "FALSE 0"), (item("parts.*.copies", "integerMatch", "3"), "UNDEFINED 0"),
                (item(COPIES[:-1], "integerMatch", "3"), "UNDEFINED 0")]:
            self.assertEqual(asked(LONG_LICENCE, RECORD, text), answer, text)
        self.assertEqual(listed(LONG_LICENCE, RECORD, COPIES), [(1, 8, 9), (0, 20, 3)])
        self.assertEqual(listed(LONG_LICENCE, RECORD, "parts-of-the-licence-record.0"), [(2, 6, 2)])
        self.assertEqual(listed(LONG_LICENCE, RECORD, SEATS), [(1, 0, 2)])
        self.assertEqual(listed(LONG_LICENCE, RECORD, COPIES, room=5), 6)

    def test_earlier_tables(self):
        """A table admitted before reads as it did."""
        self.assertEqual(engine.check_table(LICENCE), ("admitted", 12))
        self.assertEqual(listed(LICENCE, RECORD, "parts.*.copies"), [(1, 8, 9), (0, 20, 3)])
        self.assertEqual(engine.check_table(b"\2" * 128), ("admitted", 128))
        self.bad(b"\2" * 129, member("a", 0) * 128, sequence(member(SHORT + "y", 2)) + b"\2")

    def test_alternatives(self):
        """Alternatives with long names: chosen or not, tagged or not, in a list, and strings."""
        table = of(14, 1) + choice(long_member(CATEGORY, 5), member(CATEGORY[:24], 6), long_member(CATEGORY + "2", 6, 1, 3)) + b"\2\1"
        value = tlv(0x30, leaf(1, b"\xff"), leaf(2, b"\7"), tlv(0xA3, leaf(1, b"\0")), leaf(2, b"\x08"))
        self.values(table, [value, tlv(0x30)], [tlv(0x30, leaf(3, b"\1")), tlv(0x30, tlv(0x83, b"\0")), tlv(0x30, tlv(0xA2, leaf(1, b"\0")))])
        self.assertEqual(listed(table, value, "*." + CATEGORY), [(0, 5, 3), (0, 13, 3)])
        self.assertEqual(listed(table, value, "*." + CATEGORY[:24]), [(0, 2, 3)])
        self.assertEqual(listed(table, value, "*." + CATEGORY + "2"), [(0, 10, 3)])
        self.assertEqual(listed(table, value, "3"), [(0, 8, 5)])
        self.assertEqual(asked(table, value, item("*." + CATEGORY, "integerMatch", "8")), "TRUE 2")
        self.assertEqual(asked(table, value, item("*." + CATEGORY[:24], "integerMatch", "8")), "UNDEFINED 0")
        self.assertEqual(asked(table, value, item("*." + CATEGORY[:24], "booleanMatch", "FALSE")), "FALSE 1")
        self.assertEqual(asked(table, value, item("1." + CATEGORY, "integerMatch", "8")), "FALSE 0")
        self.not_allowed(table, value, "*." + CATEGORY[:25], "*." + CATEGORY + "1", CATEGORY, "*." + CATEGORY + ".*")
        strings = choice(long_member(CATEGORY, 3), member("a", 4)) + b"\x08\x09"
        self.assertEqual(asked(strings, leaf(8, b"Vl"), item(None, "caseIgnoreMatch", '"vL"')), "TRUE 1")
        self.assertEqual(asked(strings, leaf(9, b"Vl"), item(CATEGORY, "caseIgnoreMatch", '"vL"')), "FALSE 0")
        tagged = choice(long_member(CATEGORY, 3, 2, 0), member("a", 4)) + b"\x08\x09"
        self.assertEqual(asked(tagged, leaf(9, b"Vl"), item(None, "caseIgnoreMatch", '"vL"')), "UNDEFINED 0")

    def test_optional(self):
        table = sequence(long_member(CATEGORY, 4, 2, 0, 1), long_member(LONGEST_NAME, 4, 1, 1, 2, b"\1"), member("a", 4)) + b"\2"
        value, full = tlv(0x30, leaf(2, b"\3")), tlv(0x30, tlv(0x80, b"\1"), tlv(0xA1, leaf(2, b"\2")), leaf(2, b"\3"))
        self.values(table, [value, full],
                    [tlv(0x30), tlv(0x30, tlv(0x80, b"\1"), tlv(0xA1, leaf(2, b"\1")), leaf(2, b"\3")), tlv(0x30, tlv(0xA0, leaf(2, b"\1")))])
        self.assertEqual([listed(table, value, text) for text in (CATEGORY, LONGEST_NAME, "a")], [[], [(1, 0, 2)], [(0, 2, 3)]])
        self.assertEqual([listed(table, full, text) for text in (CATEGORY, LONGEST_NAME, "a")], [[(0, 2, 3)], [(0, 7, 3)], [(0, 10, 3)]])
        self.assertEqual(asked(table, value, item(CATEGORY, "presentMatch", "NULL")), "FALSE 0")
        self.assertEqual(asked(table, value, item(LONGEST_NAME, "presentMatch", "NULL")), "TRUE 1")
        self.assertEqual(asked(table, value, item(LONGEST_NAME, "presentMatch", "NULL", "FALSE")), "FALSE 0")
