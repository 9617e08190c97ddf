"""Boundary cases of the sentences of document 01, imported by test_second."""

import unittest

import engine
from samples import (LICENCE, RECORD, asked, choice, item, leaf, member, of, sequence, tlv)

GOOD, BAD = ("good",), ("refused", 4)


class Contents(unittest.TestCase):
    """The section "Stored value"."""

    def kinds(self, kind, good, bad):
        for text in good:
            self.assertEqual(engine.check_value(bytes([kind]), leaf(kind, bytes.fromhex(text))), GOOD, text)
        for text in bad:
            self.assertEqual(engine.check_value(bytes([kind]), leaf(kind, bytes.fromhex(text))), BAD, text)

    def test_small_kinds(self):
        self.kinds(1, ["00", "FF"], ["", "01", "FE", "0000"])
        self.kinds(4, [""], ["00"])
        for kind in (2, 3):
            self.kinds(kind, ["00", "7F", "80", "0080", "FF7F", "7FFFFFFFFFFFFFFF", "8000000000000000",
                              "00FFFFFFFFFFFFFF"],
                       ["", "007F", "FF80", "0000", "FFFF", "008000000000000000"])

    def test_identifiers(self):
        self.kinds(5, ["00", "2A", "7F", "8100", "55061F", "8FFFFFFF7F", "01" * 32],
                   ["", "80", "8000", "8001", "2A80", "2A8001", "9080808000", "01" * 33, "8FFFFFFFFF7F"])

    def test_bits(self):
        self.kinds(7, ["00", "00FF", "0780", "01FE", "07FF80"],
                   ["", "01", "07", "08FF", "0800", "01FF", "077F", "07FFC0"])

    def test_strings(self):
        self.kinds(8, ["", "00", "7F", "C280", "DFBF", "E0A080", "ED9FBF", "EE8080", "EFBFBF", "EFBBBF",
                       "F0908080", "F48FBFBF"],
                   ["80", "C080", "C1BF", "C2", "E09FBF", "EDA080", "EDBFBF", "F08FBFBF", "F4908080",
                    "F5808080", "FF", "C2C2", "E28282C0"])
        self.kinds(9, ["", b"AZaz09 '()+,-./:=?".hex()], ["40", "2A", "26", "22", "5F", "00", "80"])
        self.kinds(10, ["", "00", "7F", "2240"], ["80", "C3A9"])

    def test_times(self):
        def hexed(texts):
            return [text.encode().hex() for text in texts]
        self.kinds(11, hexed(["20240229000000Z", "20000229000000Z", "00000229000000Z", "20231231235960Z",
                              "20230101006060Z"[:10] + "5960Z", "20230101000060.5Z", "99991231235959Z",
                              "20230430000000.123456789Z", "20230101000000.01Z"]),
                   hexed(["19000229000000Z", "20230229000000Z", "20230101000061Z", "20230101006000Z",
                          "20230101240000Z", "20230431000000Z", "20231301000000Z", "20230001000000Z",
                          "20230100000000Z", "20230101000000", "20230101000000.Z", "20230101000000.0Z",
                          "20230101000000.10Z", "20230101000000.1234567891Z", "20230101000000,5Z",
                          "202301010000Z", "20230101000000+0000", "20230101000000z", " 0230101000000Z",
                          "20230101000000Z\n", "2023010100000\u0660Z"]))

    def test_lengths(self):
        octets = bytes([6])
        for size in (0, 1, 127, 128, 255, 256, 257):
            value = tlv(4, bytes(size))
            self.assertEqual(engine.check_value(octets, value), GOOD)
            for head in ("81%02X" % (size % 256), "82%04X" % size, "83%06X" % size, "80",
                         "%02X" % ((size + 1) % 128), "84%08X" % size):
                other = b"\4" + bytes.fromhex(head) + bytes(size)
                self.assertEqual(engine.check_value(octets, other), GOOD if other == value else BAD)
        for text in ("0481", "048200", "0482", "04820100", "0405", "1F00", "2400", "4400", "1F8100", "0A00"):
            self.assertEqual(engine.check_value(octets, bytes.fromhex(text)), BAD, text)
        self.assertEqual(engine.check_value(octets, tlv(4, bytes(4092))), GOOD)
        self.assertEqual(engine.check_value(octets, tlv(4, bytes(4093))), ("refused", 1))
        self.assertEqual(engine.check_value(b"\4", b"\5\0\0"), BAD)

    def test_members(self):
        table = sequence(member("a", 4, 1, 0, 1), member("b", 5, 2, 1, 2, b"\5"), member("c", 5)) + b"\1\2"
        for text, good in [("3003020107", 1), ("3008A003010100020107", 1), ("300B A003010100 810106 020107", 1),
                           ("3006 810105 020107", 0), ("3006 810106 020107", 1), ("3003810106", 0),
                           ("3006 A10106 020107", 0), ("3008 A003010100 8101", 0), ("3000", 0),
                           ("300B 810106 A003010100 020107", 0), ("3006 020107 020107", 0),
                           ("300A A005010100 0500 020107", 0), ("3008 8003010100 020107", 0),
                           ("3007 A002 0101 020107", 0)]:
            self.assertEqual(engine.check_value(table, bytes.fromhex(text)), GOOD if good else BAD, text)

    def test_set_of(self):
        table = of(15, 1) + b"\6"
        for texts, good in [(("0400", "0401FF", "04020000"), 1), (("040101", "040101"), 1), ((), 1),
                            (("040102", "040101"), 0), (("04020000", "0401FF"), 0)]:
            value = tlv(0x31, *(bytes.fromhex(text) for text in texts))
            self.assertEqual(engine.check_value(table, value), GOOD if good else BAD)
        for text, good in [("3006040102040101", 1), ("30020401", 0), ("3003040201", 0), ("3003040000", 0),
                           ("300304020100", 0), ("3004040004", 0), ("300404000400", 1), ("30010400", 0)]:
            value = bytes.fromhex(text)
            self.assertEqual(engine.check_value(of(14, 1) + b"\6", value), GOOD if good else BAD, text)


class Tables(unittest.TestCase):
    """The section "Type table"."""

    def good(self, table, rows=None):
        answer = engine.check_table(table)
        self.assertEqual(answer[0], "admitted")
        if rows:
            self.assertEqual(answer[1], rows)

    def bad(self, *tables):
        for table in tables:
            self.assertEqual(engine.check_table(table), ("refused", 2), table.hex())

    def test_rows(self):
        self.assertEqual(engine.check_table(b""), ("refused", 1))
        self.assertEqual(engine.check_table(bytes(4993)), ("refused", 2))
        self.good(b"\1" * 128, 128)
        self.bad(b"\1" * 129, bytes(4992), b"\0", b"\x11", b"\x0c", b"\x0e\0", sequence(member("a", 2))[:-1],
                 member("a", 1) + b"\1", b"\x0c\0" + member("a", 2) + b"\1", b"\x0c\x11" + b"\1", b"\x0d\0")
        self.good(sequence() + b"\1", 2)
        several = [member("m%d" % n, 17, 1, n) for n in range(17)]
        self.good(sequence(*several[:16]) + b"\1", 18)
        self.bad(sequence(*several) + b"\1", sequence(member("a", 2)) + b"\1" + member("b", 3) + b"\1")

    def test_row_numbers(self):
        self.bad(of(14, 0) + b"\1", of(14, 2) + b"\1", of(15, 256 + 1) + b"\1", sequence(member("a", 1)),
                 sequence(member("a", 0)) + b"\1", sequence(member("a", 2), member("b", 3)) + b"\1",
                 b"\1" + of(14, 0), of(14, 2) + sequence(member("a", 3)) + b"\1")
        self.good(b"\1" + of(14, 2) + b"\1", 3)

    def test_names(self):
        for name in ("a", "aB9", "a-b", "a-B-9", "abcdefghijklmnopqrstuvwx", "content"):
            self.good(sequence(member(name, 2)) + b"\1")
        for name in ("", "A", "9", "-a", "a-", "a--b", "a_b", "a b", "a\0b", "a.b", "\u00e9",
                     "abcdefghijklmnopqrstuvw-"):
            self.bad(sequence(member(name, 2)) + b"\1")
        self.bad(sequence(member("a", 3), member("a", 3)) + b"\1")
        self.good(sequence(member("aB", 3), member("ab", 3)) + b"\1")

    def test_member_fields(self):
        self.good(sequence(member("a", 2, 1, 30)) + b"\1")
        self.bad(sequence(member("a", 2, 1, 31)) + b"\1", sequence(member("a", 2, 3)) + b"\1",
                 sequence(member("a", 2, 0, 1)) + b"\1", sequence(member("a", 2, 0, 0, 3)) + b"\1",
                 sequence(member("a", 2, 0, 0, 0, b"\xff")) + b"\1",
                 sequence(member("a", 2, 0, 0, 1, b"", b"\1")) + b"\1",
                 sequence(member("a", 2, 0, 0, 2, b"\xff", b"\1")) + b"\1",
                 sequence(member("a", 2, 0, 0, 2, b"")) + b"\1")

    def test_defaults(self):
        for kind, good, bad in [(1, ["00", "FF"], ["01", "0000"]),
                                (2, ["00", "0080", "7FFFFFFFFFFFFFFF"], ["007F", "FFFF"]),
                                (3, ["05"], ["0000"]), (4, [], ["00"]), (6, [], ["00"]), (8, [], ["61"])]:
            for text in good:
                self.good(sequence(member("a", 2, 0, 0, 2, bytes.fromhex(text))) + bytes([kind]))
            for text in bad:
                self.bad(sequence(member("a", 2, 0, 0, 2, bytes.fromhex(text))) + bytes([kind]))

    def test_choices(self):
        self.bad(choice(member("a", 2, 0, 0, 1)) + b"\1", choice(member("a", 3), member("b", 3)) + b"\1",
                 choice(member("a", 3, 1, 0), member("b", 4, 2, 0)) + b"\1\2",
                 choice(member("a", 3), member("b", 4)) + sequence() + of(14, 5) + b"\1",
                 sequence(member("a", 2, 2, 0)) + choice(member("b", 4)) + b"\1",
                 choice(member("a", 5), member("b", 3)) + choice(member("c", 5)) + b"\1")
        self.good(sequence(member("a", 2, 1, 0)) + choice(member("b", 4)) + b"\1")
        self.good(choice(member("a", 5), member("b", 3)) + choice(member("c", 6)) + b"\1\2")

    def test_runs(self):
        self.good(sequence(member("a", 3), member("b", 3)) + b"\1")
        self.bad(sequence(member("a", 3, presence=1), member("b", 3)) + b"\1",
                 sequence(member("a", 4, presence=1), member("b", 5, presence=1), member("c", 4)) + b"\1\2")
        self.good(sequence(member("a", 4, presence=1), member("b", 5), member("c", 4, presence=1)) + b"\1\2")
        self.good(sequence(member("a", 3), member("b", 3, presence=1)) + b"\1")
        self.bad(sequence(member("a", 3, presence=1), member("b", 4)) + sequence() + of(14, 5) + b"\1")

    def test_chains(self):
        def chain(size):
            return b"".join(of(14, row + 1) for row in range(size - 1)) + b"\1"
        self.good(chain(16))
        self.bad(chain(17), b"\1" + b"".join(of(14, row + 2) for row in range(16)) + b"\1")
        self.good(chain(15)[:-1] + sequence(member("a", 16)) + b"\1")
        self.bad(chain(16)[:-1] + sequence(member("a", 17)) + b"\1")


class Filters(unittest.TestCase):
    """The section "Filter text"."""

    def refused(self, *texts):
        for text in texts:
            self.assertEqual(asked(LICENCE, RECORD, text), "REFUSED 3", text)

    def formed(self, *texts):
        for text in texts:
            self.assertNotIn("REFUSED", asked(LICENCE, RECORD, text), text)

    def test_spacing(self):
        plain = 'item:{component "seats",useDefaultValues TRUE,rule integerMatch,value 1}'
        self.assertEqual(asked(LICENCE, RECORD, plain), "TRUE 1")
        spaced = 'item:{  component   "seats",  useDefaultValues  TRUE,  rule  integerMatch,  value   1  }'
        self.assertEqual(asked(LICENCE, RECORD, spaced), "TRUE 1")
        self.formed("and:{}", "and:{ }", "or:{   }", "and:{or:{},   or:{ }  }", "not:not:and:{}")
        self.refused(" " + plain, plain + " ", plain.replace(",", " ,", 1), "item: {rule 2.5,value 1}",
                     "and: {}", "and :{}", "not: and:{}", "and:{or:{} ,or:{}}", "and:{,}", "and:{or:{},}",
                     'item:{component"a",rule 2.5,value 1}', "item:{rule 2.5,value\t1}",
                     "item:{rule\n2.5,value 1}", "item:{rule 2.5,value1}", 'item:{rule 2.5,value"1"}',
                     "item:{rule 2.5 ,value 1}", "item:{rule 2.5,value 1},", "and:{or:{}or:{}}",
                     "and:{\t}", "and:{or:{},\tor:{}}", "and:{or:{}\t}",
                     "item:{\trule 2.5,value 1}", "item:{rule 2.5,\tvalue 1}", "Item:{rule 2.5,value 1}", "AND:{}",
                     "xor:{}", "and:", "not:")

    def test_order_and_labels(self):
        self.refused("item:{value 1,rule 2.5}", 'item:{rule 2.5,component "a",value 1}',
                     'item:{useDefaultValues TRUE,component "a",rule 2.5,value 1}', "item:{rule 2.5}",
                     "item:{value 1}", "item:{}", 'item:{component "a",component "a",rule 2.5,value 1}',
                     "item:{useDefaultValues true,rule 2.5,value 1}", "item:{Rule 2.5,value 1}",
                     "item:{component a,rule 2.5,value 1}", 'item:{component "a,rule 2.5,value 1}')

    def test_value_text(self):
        self.formed("item:{rule 2.5,value 3, x}", 'item:{rule 2.5,value "}"}', "item:{rule 2.5,value {}}",
                    'item:{rule 2.5,value {"{"}}', "item:{rule 2.5,value ' }", 'item:{rule 2.5,value """"}',
                    "item:{rule 2.5,value \u00e9}", "item:{rule 2.5,value \t}", 'item:{rule 2.5,value {a{}b{}} }')
        self.refused("item:{rule 2.5,value }", "item:{rule 2.5,value   }", "item:{rule 2.5,value {}",
                     'item:{rule 2.5,value "}', 'item:{rule 2.5,value "a}', "item:{rule 2.5,value }}",
                     'item:{rule 2.5,value \'"\'}', b"item:{rule 2.5,value \xff}", b"and:{}\xc2",
                     b"item:{rule 2.5,value \xed\xa0\x80}")

    def test_rules_named(self):
        self.refused(*(item(None, rule, "1") for rule in (
            "3.1", "1.40", "0.40", "2", "2.05", "02.5", "2.5.", ".2.5", "2..5", "-a", "1a", "a.b", "a_b", "")))
        for rule in ("2.40", "1.39", "0.0", "2.999.18446744073709551616", "a", "a-", "a--b", "A9-"):
            self.assertEqual(asked(LICENCE, RECORD, item(None, rule, "1")), "UNDEFINED 0")
        for rule in ("integerMatch", "INTEGERMATCH", "iNTEGERmATCH", "2.5.13.14"):
            self.assertEqual(asked(LICENCE, RECORD, item("seats", rule, "1")), "TRUE 1")

    def test_depth_and_items(self):
        one = item("seats", "2.5.13.14", "2")
        self.assertEqual(asked(LICENCE, RECORD, "not:" * 15 + "and:{}"), "FALSE 0")
        self.assertEqual(asked(LICENCE, RECORD, "not:" * 15 + one), "TRUE 1")
        self.assertEqual(asked(LICENCE, RECORD, "and:{" * 16 + "}" * 16), "TRUE 0")
        self.refused("not:" * 16 + "and:{}", "not:" * 16 + one, "and:{" * 17 + "}" * 17, "not:" * 500 + "x",
                     "and:{" * 400, "and:{" * 15 + "not:and:{}" + "}" * 15)
        short = "item:{rule 2.5,value 1}"
        self.assertEqual(asked(LICENCE, RECORD, "or:{" + ",".join([short] * 64) + "}"), "UNDEFINED 0")
        self.refused("or:{" + ",".join([short] * 65) + "}")

    def test_component_text(self):
        for text in ("", '"', "\u00e9", " seats", "seats ", "a{b}", "parts.(1)", "parts.content", "."):
            self.assertEqual(asked(LICENCE, RECORD, item(text, "presentMatch", "NULL")), "UNDEFINED 0", text)
