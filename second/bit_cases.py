"""Cases of named BIT STRINGs (Q-2 of document 02) and of the readings of it, imported by test_second."""

import unittest

import engine
from samples import (RIGHTS, asked, bit_contents, bit_name, choice, item, leaf, listed, member, named_bits, of, sequence, tlv)

NAMED = named_bits(*RIGHTS)
RULE = "bitStringMatch"


def stored(bits):
    """A value of one BIT STRING, named or not."""
    return leaf(17, bit_contents(bits))


class Bits(unittest.TestCase):
    """Rows of kinds 17 and 18, their values, and bitStringMatch on them."""

    def good(self, *tables):
        for table in tables:
            self.assertEqual(engine.check_table(table)[0], "admitted", table.hex())

    def bad(self, *tables):
        for table in tables:
            self.assertEqual(engine.check_table(table), ("refused", 2), table.hex())

    def answers(self, bits, accepted=(), not_accepted=(), not_conforming=(), table=NAMED):
        for texts, answer in ((accepted, "TRUE 1"), (not_accepted, "FALSE 1"), (not_conforming, "UNDEFINED 0")):
            for text in texts:
                self.assertEqual(asked(table, stored(bits), item(None, RULE, text)), answer, (bits, text))

    def test_request(self):
        """The request's own example, on kind 17 and on kind 7."""
        self.answers("11", ["'110'B", "'11'B", "{print,perform}"], ["'111'B", "{print}"])
        self.answers("11", ["'11'B"], ["'110'B"], ["{print,perform}"], b"\7")
        self.assertEqual(engine.check_table(NAMED), ("admitted", 4))

    def test_2_1_empty_list(self):
        self.answers("", ["{}", "{ }", "{   }", "''B", "''H", "'0'B", "'000'H"], ["{print}", "'1'B"])
        self.answers("1", ["{print}"], ["{}", "{ }", "{   }"])

    def test_2_2_spaces(self):
        self.answers("11", ["{  print,   perform  }", "{print,perform}", "{ print,perform}", "{print, perform}", "{print,perform }"], [],
                     ["{print ,perform}", "{print , perform}", "{print  ,perform}", "{print perform}", "{\tprint,perform}", "{print,\tperform}",
                      "{print,perform\t}", "{print,\nperform}", "{\u00a0print,perform}", "{print,\u00a0perform}", "{print,perform\u3000}"])
        self.assertEqual(asked(NAMED, stored("11"), "item:{rule bitStringMatch,value   {print,perform}   }"), "TRUE 1")

    def test_list_form(self):
        self.answers("11", [], [], ["{,}", "{print,}", "{,print}", "{print,,perform}", "{print,perform,}", "{ , }", "{print;perform}", "{{print,perform}}",
                                    "{print,{perform}}", '{"print","perform"}', "{'print'}", "print,perform", "(print,perform)", "[print]", "{print}{perform}",
                                    "{print},{perform}", "{}{}", "{}x", "x{}", "{print=1}", "{print(0)}", "{0,1}", "{'11'B}", "'11'B,'11'B",
                                    "{print,perform}B"])
        self.assertEqual(asked(NAMED, stored("11"), item(None, RULE, '{print,"}",perform}')), "UNDEFINED 0")

    def test_2_3_trailing_zeros(self):
        self.answers("11", ["'C00'H", "'C'H", "'C0'H", "'11'B", "'110'B", "'" + "11".ljust(900, "0") + "'B", "'C" + "0" * 901 + "'H"],
                     ["'1'B", "'111'B", "'C01'H", "'C08'H", "'011'B", "'60'H"], ["'c'H", "'C 0'H", "'12'B", "'11'", "11", "'11'b", "'C'h", "''", "'1'H0"])
        self.answers("11000000" + "01", ["'C04'H", "'C0400'H", "'1100000001'B"], ["'C02'H", "'C0'H", "'C008'H"])

    def test_2_4_above_the_names(self):
        self.answers("1100000000000001", ["'C001'H"], ["{print,perform}", "'C0'H", "'C003'H"])
        for size in (63, 64, 65, 128, 700):
            bits = "1" * size
            self.answers(bits, ["'%s'B" % bits, "'%s0'B" % bits], ["'%s'B" % bits[1:], "'%s1'B" % bits, "{print,perform,record}"])
        self.answers("0" * 64 + "1", ["'00000000000000008'H"], ["'1'B", "{print}", "{}"])

    def test_2_5_values(self):
        for text in ("00", "0780", "06C0", "05E0", "00FF", "0001", "01FE", "074080", "00" * 101 + "01"):
            self.assertEqual(engine.check_value(NAMED, leaf(17, bytes.fromhex(text))), ("good",), text)
        for text in ("05C0", "00FE", "0000", "0700", "0100", "0680", "00C000", "0400E0", "000000", "", "01", "07", "08FF", "01FF", "06FF", "0780FF"):
            self.assertEqual(engine.check_value(NAMED, leaf(17, bytes.fromhex(text))), ("refused", 4), text)
        for unused in range(8):
            self.assertEqual(engine.check_value(NAMED, leaf(17, bytes([unused, 1 << unused]))), ("good",))
            self.assertEqual(engine.check_value(NAMED, leaf(17, bytes([unused, 2 << unused & 255]))), ("refused", 4))
            self.assertEqual(engine.check_value(b"\7", leaf(7, bytes([unused, 2 << unused & 255]))), ("good",))
        for octets in ("2304030206C0", "0402C0C0", "830206C0", "030206C000", "03810206C0", "0300", "03"):
            self.assertIn(engine.check_value(NAMED, bytes.fromhex(octets)), [("refused", 4), ("refused", 1)], octets)

    def test_2_6_kind_7(self):
        self.answers("", ["''B", "''H"], ["'0'B"], ["{}", "{ }", "{print}"], b"\7")
        self.answers("10", ["'10'B"], ["'1'B", "'100'B"], ["{}"], b"\7")

    def test_2_7_tags_and_defaults(self):
        self.bad(choice(member("a", 3), member("b", 4)) + b"\7" + NAMED, choice(member("a", 3), member("b", 7)) + NAMED + NAMED,
                 sequence(member("a", 3, presence=1), member("b", 4)) + b"\7" + NAMED, sequence(member("a", 4, presence=1), member("b", 3)) + b"\7" + NAMED,
                 sequence(member("a", 2, presence=2, default=b"\0")) + NAMED, sequence(member("a", 2, presence=2, default=b"\7\x80")) + NAMED,
                 choice(member("a", 3), member("b", 5)) + choice(member("c", 5)) + b"\7" + NAMED)
        self.good(choice(member("a", 3), member("b", 4, 2, 0)) + b"\7" + NAMED, sequence(member("a", 3), member("b", 4)) + b"\7" + NAMED,
                  sequence(member("a", 3, presence=1), member("b", 4)) + b"\6" + NAMED, sequence(member("a", 2, presence=1)) + NAMED)
        table = sequence(member("a", 3, 2, 5), member("b", 3, 1, 6)) + NAMED
        for value, answer in ((tlv(0x30, tlv(0x85, b"\6\xc0"), tlv(0xA6, leaf(17, b"\7\x80"))), ("good",)),
                              (tlv(0x30, tlv(0xA5, b"\6\xc0"), tlv(0xA6, leaf(17, b"\7\x80"))), ("refused", 4)),
                              (tlv(0x30, tlv(0x85, b"\5\xc0"), tlv(0xA6, leaf(17, b"\7\x80"))), ("refused", 4)),
                              (tlv(0x30, tlv(0x85, b"\6\xc0"), tlv(0xA6, leaf(17, b"\6\x80"))), ("refused", 4))):
            self.assertEqual(engine.check_value(table, value), answer)

    def test_2_8_case_counts(self):
        self.answers("11", [], [], ["{print,PERFORM}", "{print,Perform}", "{Print,perform}", "{print,performx}", "{print,perfor}", "{print,other}"])
        table = named_bits(("aB", 0), ("ab", 1), ("abc", 2), ("a", 3))
        self.answers("1", ["{aB}"], ["{ab}", "{abc}", "{a}"], ["{AB}", "{Ab}", "{abC}"], table)
        self.answers("0001", ["{a}"], ["{ab}"], ["{A}"], table)

    def test_2_9_chains_and_rows(self):
        def lists(size):
            return b"".join(of(14, row + 1) for row in range(size))
        self.good(lists(15) + NAMED, lists(14) + sequence(member("a", 16)) + NAMED)
        self.bad(lists(16) + NAMED, lists(15) + sequence(member("a", 17)) + NAMED, b"\2" + b"".join(of(14, row + 2) for row in range(16)) + NAMED)
        for point in range(8):
            for table in (of(14, point) + NAMED + b"\2", of(15, point) + NAMED + b"\2"):
                (self.good if point in (1, 5) else self.bad)(table)
            for table in (sequence(member("a", point)) + NAMED + b"\2", choice(member("a", point, 1, 0)) + NAMED + b"\2"):
                (self.good if point in (2, 6) else self.bad)(table)
        self.good(b"\2" * 124 + NAMED, NAMED * 32)
        self.bad(b"\2" * 125 + NAMED, NAMED * 32 + b"\2")

    def test_2_10_unclosed(self):
        for text in ("item:{rule bitStringMatch,value {print}", "item:{rule bitStringMatch,value {print,{perform}}", "item:{rule bitStringMatch,value print}}",
                     "item:{rule bitStringMatch,value {}}}", 'item:{rule bitStringMatch,value {"print}}'):
            self.assertEqual(asked(NAMED, stored("1"), text), "REFUSED 3", text)
        for text in ("item:{rule bitStringMatch,value {{print}}}", "item:{rule bitStringMatch,value print}", 'item:{rule bitStringMatch,value {"print"}}'):
            self.assertEqual(asked(NAMED, stored("1"), text), "UNDEFINED 0", text)

    def test_2_11_repeated(self):
        self.answers("11", ["{ print, print, perform, print }", "{print,perform,print,perform}", "{perform,print,print}"], ["{print,print}"])
        self.answers("1", ["{print,print}", "{%s}" % ",".join(["print"] * 300)], ["{print,print,perform}"])

    def test_2_12_numbers(self):
        table = named_bits(("last", 63), ("first", 0), ("ninth", 8), ("eighth", 7))
        self.answers("1", ["{first}"], ["{last}", "{ninth}", "{eighth}"], [], table)
        self.answers("0" * 63 + "1", ["{last}"], ["{first}", "{}"], [], table)
        self.answers("1000000" + "11", ["{ninth,eighth,first}", "{first,ninth,eighth}", "'8180'H"], ["{ninth,first}"], [], table)
        self.answers("1" + "0" * 62 + "1", ["{last,first}", "'8000000000000001'H"], ["{last}"], [], table)

    def test_rows(self):
        several = [("n%d" % number, number) for number in range(17)]
        self.good(named_bits(*several[:1]), named_bits(*several[:16]), NAMED + NAMED, NAMED + named_bits(*reversed(RIGHTS)) + b"\2")
        self.bad(named_bits(), named_bits(*several), named_bits(*several[:2], count=1), named_bits(*several[:2], count=3), named_bits(*several[:16], count=17),
                 named_bits(*several[:2], count=0), NAMED[:-1], NAMED[:2], NAMED[:1], bit_name("a", 0), bit_name("a", 0) + NAMED, NAMED + bit_name("a", 9),
                 b"\2" + bit_name("a", 0), NAMED[:2] + b"\2" + NAMED[2:], NAMED[:28] + b"\2" + NAMED[28:], NAMED[:2] + member("a", 5) + NAMED[28:] + b"\2",
                 sequence(member("a", 3), bit_name("b", 0)) + b"\2", b"\x0c\2" + member("a", 3) + NAMED, sequence(member("a", 3)) + bit_name("b", 0) + b"\2")
        self.bad(named_bits(("a", 0), ("a", 1)), named_bits(("a", 0), ("b", 0)), named_bits(("a", 64)), named_bits(("a", 255)), named_bits(("a", 0), ("a", 0)))
        self.good(named_bits(("a", 0), ("aA", 1)), named_bits(("aA", 0), ("aa", 1)), named_bits(("a", 63), ("b", 0)),
                  named_bits(("a" * 23 + "b", 0), ("a" * 24, 1)))
        for name in ("", "A", "9", "-a", "a-", "a--b", "a_b", "a b", "a\0b", "a.b", "\u00e9", "abcdefghijklmnopqrstuvw-"):
            self.bad(named_bits((name, 0)), named_bits(("x", 1), (name, 0)))
        for name in ("a", "aB9", "a-b", "a-B-9", "abcdefghijklmnopqrstuvwx", "content", "z"):
            self.good(named_bits((name, 0)))

    def test_other_rules(self):
        for rule, text in [("presentMatch", "NULL"), ("2.5.13.16", "{print}"), ("BITSTRINGMATCH", "'1'B")]:
            self.assertEqual(asked(NAMED, stored("1"), item(None, rule, text)), "TRUE 1")
        for rule, text in [("presentMatch", "{print}"), ("octetStringMatch", "'80'H"), ("integerMatch", "1"), ("booleanMatch", "TRUE"),
                           ("objectIdentifierMatch", "2.5"), ("caseIgnoreMatch", '"print"'), ("generalizedTimeMatch", '"20240301000000Z"'),
                           ("2.5.13.18", "'80'H"), ("bitStringMatch", "NULL"), ("bitString", "{print}")]:
            self.assertEqual(asked(NAMED, stored("1"), item(None, rule, text)), "UNDEFINED 0", rule)
        table, value = of(14, 1) + NAMED, tlv(0x30, stored("1"), stored("11"), stored(""))
        for component, text, answer in [("*", "{print,perform}", "TRUE 2"), ("*", "{}", "TRUE 3"), ("*", "{record}", "FALSE 3"),
                                        ("2", "{perform,print}", "TRUE 1"),
                                        ("0", "{}", "UNDEFINED 0"), (None, "{}", "UNDEFINED 0"), ("4", "{}", "FALSE 0"), ("1.print", "{}", "UNDEFINED 0"),
                                        ("*", "{print,x}", "UNDEFINED 0")]:
            self.assertEqual(asked(table, value, item(component, RULE, text)), answer, (component, text))
        self.assertEqual(asked(table, value, item("*", RULE, "{}"), 2), "REFUSED 5")
        self.assertEqual(asked(choice(member("a", 2)) + NAMED, stored("1"), item(None, RULE, "{print}")), "UNDEFINED 0")
        self.assertEqual(asked(choice(member("a", 2)) + NAMED, stored("1"), item("a", RULE, "{print}")), "TRUE 1")

    def test_listing(self):
        table = sequence(member("rights", 3), member("more", 7, presence=1)) + NAMED + of(15, 3)
        self.assertEqual(engine.check_table(table), ("refused", 2))
        table = sequence(member("rights", 4), member("more", 3, presence=1)) + of(15, 4) + NAMED
        value = tlv(0x30, stored("11"), tlv(0x31, stored(""), stored("1"), stored("011")))
        self.assertEqual(engine.check_value(table, value), ("refused", 4))
        value = tlv(0x30, stored("11"), tlv(0x31, stored(""), stored("011"), stored("1")))
        self.assertEqual(listed(table, value, "rights"), [(0, 2, 4)])
        self.assertEqual(listed(table, value, "more.*"), [(0, 8, 3), (0, 11, 4), (0, 15, 4)])
        self.assertEqual(listed(table, value, "more.0"), [(2, 6, 3)])
        for text in ("rights.print", "rights.0", "rights.*", "rights.1", "rights.content", "more.1.perform", "more.print", "print"):
            self.assertEqual(listed(table, value, text), 3, text)
            self.assertEqual(asked(table, value, item(text, "presentMatch", "NULL")), "UNDEFINED 0", text)
