"""Cases of each rule and of the published examples, imported by test_second."""

import unittest

import engine
from samples import (CLASSES, EXAMPLE, EXAMPLE_VALUE, asked, choice, item, leaf, listed, member,
                     object_class, of, sequence, tlv)


class Rules(unittest.TestCase):
    """The section "Rules", each rule on a table of one row."""

    def check(self, kind, contents, rule, accepted, not_accepted, not_conforming):
        value = leaf(kind, contents if isinstance(contents, bytes) else contents.encode("utf-8"))
        for texts, answer in ((accepted, "TRUE 1"), (not_accepted, "FALSE 1"), (not_conforming, "UNDEFINED 0")):
            for text in texts:
                self.assertEqual(asked(bytes([kind]), value, item(None, rule, text)), answer, (rule, text))

    def test_present(self):
        for kind, contents in [(1, b"\0"), (2, b"\0"), (3, b"\0"), (4, b""), (6, b"")]:
            self.check(kind, contents, "presentMatch", ["NULL"], [], ["null", "TRUE", '"NULL"', "NULL,"])
        for rule in ("integerMatch", "integerOrderingMatch", "2.5.13.13"):
            self.check(3, b"\1", rule, [], [], ["1", "TRUE"])

    def test_numbers(self):
        self.check(1, b"\xff", "booleanMatch", ["TRUE"], ["FALSE"], ["true", "1", "NULL"])
        self.check(2, b"\x80", "integerMatch", ["-128"], ["128", "0", "-1", "-340282366920938463463374607431768211584"],
                   ["-0", "00", "-0128", "+1", "1.0", "0x80", "- 128", "1 2", "\u0661", "--1", '"1"'])
        self.check(2, b"\x80", "integerOrderingMatch", ["-127", "0", "9" * 1900],
                   ["-128", "-129", "-" + "9" * 1900], ["-"])
        self.check(5, b"\x55\x06\x12", "objectIdentifierMatch", ["2.5.6.18"],
                   ["2.5.6", "2.5.6.18.0", "2.5.6.99999999999"],
                   ["2.5.6.018", "cn", "2", "3.5", "1.40", "2.5.", "2.5.6.18 1", "{2 5}"])
        self.check(5, b"\x27", "2.5.13.0", ["0.39"], ["1.0", "2.0"], ["0.40"])
        self.check(5, b"\x28", "2.5.13.0", ["1.0"], ["0.39", "1.39"], [])
        self.check(5, b"\x8f\xff\xff\xff\x7f", "2.5.13.0", ["2.4294967215"], ["2.4294967216"], [])

    def test_octets_and_bits(self):
        self.check(6, b"\1\xfe", "octetStringMatch", ["'01FE'H"], ["''H", "'01'H", "'01FE00'H"],
                   ["'01fe'H", "'1FE'H", "'01FE'B", "01FE", "'01FE'h", "'01 FE'H", "'00000001'B"])
        self.check(6, b"\1\xfe", "octetStringOrderingMatch", ["'01FE00'H", "'01FF'H", "'02'H"],
                   ["'01FE'H", "'01'H", "''H", "'00FFFF'H"], ["'0'H"])
        self.check(6, b"", "octetStringOrderingMatch", ["'00'H"], ["''H"], [])
        self.check(7, b"\4\xa0", "bitStringMatch", ["'1010'B", "'A'H"], ["'101'B", "'10100'B", "'A0'H", "''B", "''H"],
                   ["'a'H", "'12'B", "'A'B", "1010", "'1010'"])
        self.check(7, b"\0", "bitStringMatch", ["''B", "''H"], ["'0'B"], [])

    def test_strings(self):
        for kind in (8, 9, 10):
            self.check(kind, " a  B ", "caseExactMatch", ['"a B"', '"  a    B"'],
                       ['"a b"', '"aB"', '"A B"'], ['""', "a B", "'a B'"])
            self.check(kind, " a  B ", "caseIgnoreMatch", ['"A b"', '"a B "'], ['"ab"'], ["'a B'", '"a" "B"'])
            self.check(kind, "", "caseIgnoreMatch", ['" "', '"   "'], ['"a"'], ['""'])
            self.check(kind, "  ", "caseExactMatch", ['" "'], ['"."'], [])
        self.check(10, 'a"b', "caseExactMatch", ['"a""b"'], ['"a""""b"', '"ab"'], [])
        self.check(8, "\u00c9\u0130", "caseIgnoreMatch", ['"\u00c9\u0130"', '"\u00e9\u0130"'], ['"\u00c9i"'], [])
        self.check(8, "a\u00a0\t", "caseIgnoreMatch", ['"A\u00a0\t"', '"a"', '"a "'], [], [])
        self.check(8, "\u212a", "caseIgnoreMatch", [], ['"k"', '"K"'], [])
        self.check(8, "{}", "caseExactMatch", ['"{}"'], ['"}"'], ["{}"])

    def test_times(self):
        self.check(11, "20240229235960.5Z", "generalizedTimeMatch", ['"20240229235960.5Z"'],
                   ['"20240229235960Z"', '"20240301000000.5Z"', '"20240229235960.05Z"'],
                   ["20240229235960.5Z", '"20240229235960.50Z"', '"20230229000000Z"', '"202402292359Z"',
                    '"20240229235960.5"'])
        self.check(11, "20240229235960.5Z", "generalizedTimeOrderingMatch",
                   ['"20240229235960.51Z"', '"20240301000000Z"', '"99991231000000Z"'],
                   ['"20240229235960.5Z"', '"20240229235960.499999999Z"', '"20240229235960Z"',
                    '"00000101000000Z"'], ['""'])

    def test_choice_of_strings(self):
        strings = choice(member("a", 3), member("b", 4)) + bytes([8, 9])
        self.assertEqual(asked(strings, tlv(0x13, b"Ab"), item(None, "caseIgnoreMatch", '"aB"')), "TRUE 1")
        self.assertEqual(asked(strings, tlv(0x13, b"Ab"), item("a", "caseIgnoreMatch", '"aB"')), "FALSE 0")
        tagged = choice(member("a", 3, 1, 0), member("b", 4)) + bytes([8, 9])
        self.assertEqual(asked(tagged, tlv(0x13, b"Ab"), item(None, "caseIgnoreMatch", '"aB"')), "UNDEFINED 0")
        self.assertEqual(asked(tagged, tlv(0x13, b"Ab"), item("b", "caseIgnoreMatch", '"aB"')), "TRUE 1")
        mixed = choice(member("a", 3), member("b", 4)) + bytes([8, 6])
        self.assertEqual(asked(mixed, tlv(0x0C, b"A"), item(None, "2.5.13.5", '"A"')), "UNDEFINED 0")
        nested = choice(member("a", 2)) + choice(member("b", 4)) + b"\x08"
        self.assertEqual(asked(nested, tlv(0x0C, b"A"), item(None, "2.5.13.5", '"A"')), "UNDEFINED 0")
        self.assertEqual(asked(nested, tlv(0x0C, b"A"), item("a", "2.5.13.5", '"A"')), "TRUE 1")
        several = of(14, 1) + choice(member("a", 4), member("b", 5)) + bytes([8, 9])
        value = tlv(0x30, tlv(0x0C, b"x"), tlv(0x13, b"Ab"))
        self.assertEqual(asked(several, value, item("*", "caseExactMatch", '"Ab"')), "TRUE 2")
        self.assertEqual(asked(several, value, item("*.b", "caseExactMatch", '"Ab"')), "TRUE 1")

    def test_places(self):
        table = choice(member("a", 2, 1, 5)) + choice(member("b", 4, 1, 6)) + b"\4"
        value = bytes.fromhex("A504A6020500")
        for text, triple in [(None, (0, 0, 6)), ("a", (0, 2, 4)), ("a.b", (0, 4, 2))]:
            self.assertEqual(listed(table, value, text), [triple])
        table = sequence(member("a", 2, 1, 0)) + sequence(member("b", 4, 2, 1, 2, b"\7")) + b"\2"
        self.assertEqual(listed(table, bytes.fromhex("3004A0023000"), "a.b"), [(1, 4, 3)])
        self.assertEqual(listed(table, bytes.fromhex("3007A0053003810109"), "a.b"), [(0, 6, 3)])


class Published(unittest.TestCase):
    """The examples of RFC 3687 that the base can express."""

    def test_section_3_1_5(self):
        self.assertEqual(engine.check_value(EXAMPLE, EXAMPLE_VALUE), ("good",))
        for text, rule, value, answer in [
                ("part1", "integerMatch", "42", "TRUE 1"), ("part2", "presentMatch", "NULL", "TRUE 1"),
                ("part2.option", "caseIgnoreMatch", '"YES"', "TRUE 1"), ("part3", "presentMatch", "NULL", "TRUE 1"),
                ("part2.setting", "booleanMatch", "TRUE", "TRUE 1"),
                ("part3.2", "objectIdentifierMatch", "2.5.6.19", "TRUE 1"), ("part3.0", "integerMatch", "2", "TRUE 1"),
                ("part3.*", "objectIdentifierMatch", "2.5.6.19", "TRUE 2"), ("part4", "presentMatch", "NULL", "TRUE 1"),
                ("part4.miney-mo", "octetStringMatch", "'CAFE'H", "TRUE 1"),
                ("part4.eeny-meeny", "bitStringMatch", "'1'B", "FALSE 0"),
                ("part3.0", "presentMatch", "NULL", "TRUE 1"), ("part3.0", "booleanMatch", "TRUE", "UNDEFINED 0")]:
            self.assertEqual(asked(EXAMPLE, EXAMPLE_VALUE, item(text, rule, value)), answer, text)

    def test_section_7(self):
        bare, empty = object_class(), object_class(names=[])
        full = object_class([b"fooBar", b"other"], b"bogus", b"\xff", [b"\x55\x04\x03"])
        absent = 'or:{ not:item:{ component "name", rule presentMatch, value NULL }, ' \
                 'item:{ component "name.0", rule integerOrderingMatch, value 3 } }'
        mandatory = 'item:{ component "information.mandatories.*", rule objectIdentifierMatch, value %s }'
        for text, answers in [
                ('item:{ component "identifier", rule objectIdentifierMatch, value 2.5.6.18 }', "TRUE 1,TRUE 1,TRUE 1"),
                ('item:{ component "name.*", rule caseIgnoreMatch, value "foobar" }', "FALSE 0,FALSE 0,TRUE 2"),
                ('item:{ component "name.0", rule integerMatch, value 1 }', "FALSE 0,FALSE 1,FALSE 1"),
                ('item:{ component "description", rule presentMatch, value NULL }', "FALSE 0,FALSE 0,TRUE 1"),
                ('not:item:{ component "description", rule presentMatch, value NULL }', "TRUE 0,TRUE 0,FALSE 1"),
                ('item:{ component "description", rule caseIgnoreSubstringsMatch, value { any:"bogus" } }',
                 "UNDEFINED 0,UNDEFINED 0,UNDEFINED 0"),
                ('item:{ component "obsolete", rule booleanMatch, value TRUE }', "FALSE 1,FALSE 1,TRUE 1"),
                ('item:{ component "obsolete", rule booleanMatch, value FALSE }', "TRUE 1,TRUE 1,FALSE 1"),
                ('item:{ component "obsolete", useDefaultValues FALSE, rule booleanMatch, value FALSE }',
                 "FALSE 0,FALSE 0,FALSE 1"),
                ('item:{ component "information.kind", rule allComponentsMatch, value auxiliary }',
                 "UNDEFINED 0,UNDEFINED 0,UNDEFINED 0"),
                (mandatory % "cn", "UNDEFINED 0,UNDEFINED 0,UNDEFINED 0"),
                (mandatory % "2.5.4.3", "FALSE 0,FALSE 0,TRUE 1"),
                ('item:{ component "name.0", rule integerOrderingMatch, value 3 }', "FALSE 0,TRUE 1,TRUE 1"),
                (absent, "TRUE 0,TRUE 2,TRUE 2")]:
            found = [asked(CLASSES, value, text) for value in (bare, empty, full)]
            self.assertEqual(",".join(found), answers, text)

    def test_product_codes(self):
        text = "and:{ not:item:{ rule integerOrderingMatch, value 3 }, item:{ rule integerOrderingMatch, value 8 } }"
        for number, answer in [(1, "FALSE 1"), (3, "TRUE 2"), (7, "TRUE 2"), (10, "FALSE 2")]:
            self.assertEqual(asked(b"\2", leaf(2, bytes([number])), text), answer)
