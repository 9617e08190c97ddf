"""Cases of distinguished names (Q-3 of document 02) and of the readings of it, imported by test_second."""

import itertools
import unittest

import engine
from samples import (C, CN, NAME, O, RDN, asked, choice, item, leaf, listed, member, name, named_bits, of, oid_contents, pair, quoted, rdn, sequence, tlv)

WHOLE, ONE = "distinguishedNameMatch", "rdnMatch"
# The DN of RFC 3687 section 3.2.2.1, stored and as an RFC 4514 string.
LEGG = name(rdn(pair(C, "AU", 9)), rdn(pair(O, "Adacel")), rdn(pair(CN, "Steven Legg")))
LEGG_TEXT = "2.5.4.3=Steven Legg,2.5.4.10=Adacel,2.5.4.6=AU"
# A pair whose encoding stands first, and one whose encoding stands last.
LOW, HIGH = pair(CN, "a"), pair(O, "b")


def cn(string, kind=8):
    """An RDN of one commonName."""
    return rdn(pair(CN, string, kind))


class Names(unittest.TestCase):
    """Rows of kinds 19 and 20, their values, distinguishedNameMatch and rdnMatch."""

    def good(self, *tables):
        for table in tables:
            self.assertEqual(engine.check_table(table)[0], "admitted", table.hex())

    def bad(self, *tables):
        for table in tables:
            self.assertEqual(engine.check_table(table), ("refused", 2), table.hex())

    def values(self, table, good=(), bad=()):
        for several, answer in ((good, ("good",)), (bad, ("refused", 4))):
            for value in several:
                self.assertEqual(engine.check_value(table, value), answer, value.hex())

    def answers(self, value, accepted=(), not_accepted=(), not_conforming=(), table=NAME):
        """RFC 4514 strings against a name, or against an RDN where the table says so."""
        rule = ONE if table == RDN else WHOLE
        for texts, answer in ((accepted, "TRUE 1"), (not_accepted, "FALSE 1"), (not_conforming, "UNDEFINED 0")):
            for text in texts:
                self.assertEqual(asked(table, value, item(None, rule, quoted(text))), answer, (value.hex(), text))

    def both(self, string, accepted=(), not_accepted=(), not_conforming=(), kind=8):
        """Texts of attribute values against a commonName, in a name and in an RDN."""
        texts = [["2.5.4.3=" + text for text in several] for several in (accepted, not_accepted, not_conforming)]
        self.answers(name(cn(string, kind)), *texts)
        self.answers(cn(string, kind), *texts, RDN)

    def test_request(self):
        self.good(NAME, RDN, NAME + RDN)
        self.answers(LEGG, [LEGG_TEXT, LEGG_TEXT.upper(), LEGG_TEXT.lower()], ["", "2.5.4.3=Steven Legg"])
        self.answers(cn("Steven Legg"), ["2.5.4.3=steven legg", "2.5.4.3=STEVEN  LEGG"], ["2.5.4.3=Adacel"], ["", LEGG_TEXT], RDN)
        for rule in (WHOLE, "2.5.13.1", "DISTINGUISHEDNAMEMATCH", "distinguishednamematch"):
            self.assertEqual(asked(NAME, LEGG, item(None, rule, quoted(LEGG_TEXT))), "TRUE 1")
        for rule in (ONE, "1.2.36.79672281.1.13.3", "RDNMATCH", "rdnmatch"):
            self.assertEqual(asked(RDN, cn("a"), item(None, rule, '"2.5.4.3=A"')), "TRUE 1")

    def test_published(self):
        """RFC 3687 sections 3.2.2.1 and 7 with dotted types: NameAndOptionalUID, and seeAlso as a SEQUENCE OF RelativeDistinguishedName."""
        table = sequence(member("dn", 3), member("uid", 4, presence=1)) + NAME + b"\7"
        for value in (tlv(0x30, LEGG), tlv(0x30, LEGG, leaf(7, b"\0\1"))):
            text = 'item:{ component "dn",\n rule distinguishedNameMatch,\n value "%s" }'.replace("\n", "") % LEGG_TEXT
            self.assertEqual(asked(table, value, text), "TRUE 1")
        rdns = of(14, 1) + RDN
        for text, answer in [
                ('item:{ component "*", rule rdnMatch, value "2.5.4.10=Adacel" }', "TRUE 2"),
                ('item:{ component "-1", rule rdnMatch, value "2.5.4.3=Steven Legg" }', "TRUE 1"),
                ('item:{ component "3", rule rdnMatch, value "2.5.4.3=Steven Legg" }', "TRUE 1"),
                ('and:{ item:{ component "1", rule rdnMatch, value "2.5.4.6=AU" }, item:{ component "2", rule rdnMatch, value "2.5.4.10=Adacel" } }', "TRUE 2"),
                ('item:{ component "1", rule rdnMatch, value "2.5.4.3=Steven Legg" }', "FALSE 1")]:
            self.assertEqual(asked(rdns, LEGG, text), answer, text)

    def test_rfc_4514(self):
        """The examples of RFC 4514 section 4, with dotted types."""
        dc, uid, ou, sn = "0.9.2342.19200300.100.1.25", "0.9.2342.19200300.100.1.1", "2.5.4.11", "2.5.4.4"
        net = [rdn(pair(dc, "net", 10)), rdn(pair(dc, "example", 10))]
        tail = ",%s=example,%s=net" % (dc, dc)
        self.answers(name(*net, rdn(pair(uid, "jsmith"))), [uid + "=jsmith" + tail])
        self.answers(name(*net, rdn(pair(ou, "Sales"), pair(CN, "J.  Smith"))),
                     [ou + "=Sales+2.5.4.3=J.  Smith" + tail, "2.5.4.3=J. Smith+%s=sales" % ou + tail], [ou + "=Sales,2.5.4.3=J.  Smith" + tail])
        self.answers(name(*net, cn('James "Jim" Smith, III')), ['2.5.4.3=James \\"Jim\\" Smith\\, III' + tail], [],
                     ['2.5.4.3=James "Jim" Smith\\, III' + tail, '2.5.4.3=James \\"Jim\\" Smith, III' + tail])
        self.answers(name(*net, cn("Before\rAfter")), ["2.5.4.3=Before\\0dAfter" + tail, "2.5.4.3=Before\\0DAfter" + tail, "2.5.4.3=Before After" + tail])
        self.answers(name(rdn(pair("1.3.6.1.4.1.1466.0", "Hi"))), ["1.3.6.1.4.1.1466.0=Hi"], [], ["1.3.6.1.4.1.1466.0=#04024869"])
        self.answers(cn("Lu\u010di\u0107"), ["2.5.4.3=Lu\\C4\\8Di\\C4\\87", "2.5.4.3=LU\u010cI\\c4\\86"], ["%s=Lu\\C4\\8Di\\C4\\87" % sn], (), RDN)

    def test_3_1_last_rdn_first(self):
        turned = ",".join(reversed(LEGG_TEXT.split(",")))
        self.answers(LEGG, [LEGG_TEXT], [turned, "2.5.4.10=Adacel,2.5.4.6=AU", "2.5.4.3=Steven Legg,2.5.4.10=Adacel", LEGG_TEXT + ",2.5.4.6=AU",
                                         "2.5.4.3=Steven Legg,2.5.4.6=AU,2.5.4.10=Adacel", "2.5.4.3=Steven Legg+2.5.4.10=Adacel,2.5.4.6=AU"])
        sixteen = name(*(cn(str(number)) for number in range(16)))
        text = ",".join("2.5.4.3=%d" % number for number in reversed(range(16)))
        self.answers(sixteen, [text], [",".join("2.5.4.3=%d" % number for number in range(16)), text.replace("=0", "=1"), text.replace("=15", "=14")])

    def test_3_2_stored_order(self):
        self.values(RDN, [tlv(0x31, LOW, HIGH), tlv(0x31, LOW, LOW)], [tlv(0x31, HIGH, LOW), tlv(0x31, LOW, HIGH, LOW)])
        self.values(NAME, [name(tlv(0x31, LOW, HIGH)), name(rdn(HIGH), rdn(LOW))], [name(tlv(0x31, HIGH, LOW)), name(rdn(LOW), tlv(0x31, HIGH, LOW))])
        # Whole encodings are compared, so that lengths, types and kinds of strings come before characters.
        several = [pair(CN, "b"), pair(O, "a"), pair(CN, "a", 9), pair(CN, "a", 10), pair("2.5.4.3.1", "a"), pair(CN, "aa"), pair(CN, "A")]
        for one, two in itertools.permutations(several, 2):
            self.values(RDN, *([[tlv(0x31, one, two)], []] if one < two else [[], [tlv(0x31, one, two)]]))
        self.answers(tlv(0x31, LOW, HIGH), ["2.5.4.3=a+2.5.4.10=b", "2.5.4.10=b+2.5.4.3=a"], (), (), RDN)

    def test_3_3_a_type_twice(self):
        self.answers(rdn(pair(CN, "a"), pair(CN, "b")), ["2.5.4.3=b+2.5.4.3=a", "2.5.4.3=a+2.5.4.3=b"], ["2.5.4.3=a", "2.5.4.3=a+2.5.4.3=a"], (), RDN)

    def test_3_4_one_to_one(self):
        twice = rdn(pair(CN, "a"), pair(CN, "a"))
        self.values(RDN, [twice])
        self.answers(twice, ["2.5.4.3=a+2.5.4.3=A"], ["2.5.4.3=a", "2.5.4.3=a+2.5.4.3=b", "2.5.4.3=a+2.5.4.3=a+2.5.4.3=a"], (), RDN)
        self.answers(rdn(pair(CN, "a"), pair(CN, "b")), (), ["2.5.4.3=a+2.5.4.3=a", "2.5.4.3=b+2.5.4.3=B"], (), RDN)
        four = [(CN, "a"), (CN, "b"), (O, "a"), (O, "b")]
        for texts in itertools.permutations(four):
            self.answers(rdn(*(pair(*one) for one in four)), ["+".join("%s=%s" % one for one in texts)], (), (), RDN)
        self.answers(rdn(*(pair(*one) for one in four)), (), ["2.5.4.3=a+2.5.4.3=b+2.5.4.10=a+2.5.4.10=a", "2.5.4.3=a+2.5.4.3=b+2.5.4.10=a"], (), RDN)
        self.answers(rdn(*[pair(CN, "a")] * 3, pair(CN, "b")), ["2.5.4.3=A+2.5.4.3=b+2.5.4.3=a+2.5.4.3=a"],
                     ["2.5.4.3=a+2.5.4.3=a+2.5.4.3=b+2.5.4.3=b"], (), RDN)

    def test_3_5_empty_values(self):
        for string in ("", " ", "   ", "\u00ad", "\0"):
            self.both(string, ["", "\\ ", "\\20\\ ", "\\00", "\\C2\\AD"], ["a", "\\#"])
        self.answers(name(cn(""), rdn(pair(O, "a"))), ["2.5.4.10=a,2.5.4.3="], ["2.5.4.10=,2.5.4.3=a"])
        self.answers(rdn(pair(CN, ""), pair(O, "")), ["2.5.4.3=+2.5.4.10=", "2.5.4.10=+2.5.4.3="], ["2.5.4.3="], ["2.5.4.3", "2.5.4.3+2.5.4.10"], RDN)

    def test_3_6_spaces_and_separators(self):
        self.answers(name(cn("b"), cn("a")), ["2.5.4.3=a,2.5.4.3=b"], (),
                     ["2.5.4.3=a, 2.5.4.3=b", "2.5.4.3=a ,2.5.4.3=b", "2.5.4.3 =a,2.5.4.3=b", "2.5.4.3= a,2.5.4.3=b", " 2.5.4.3=a,2.5.4.3=b",
                      "2.5.4.3=a,2.5.4.3=b ", "2.5.4.3=a;2.5.4.3=b", "2.5.4.3=a,2.5.4.3=b,", ",2.5.4.3=a,2.5.4.3=b", "2.5.4.3=a,,2.5.4.3=b",
                      "2.5.4.3=a,+2.5.4.3=b", "2.5.4.3=a\n,2.5.4.3 =b", "/2.5.4.3=a/2.5.4.3=b"])
        self.answers(rdn(pair(CN, "a"), pair(O, "b")), ["2.5.4.3=a+2.5.4.10=b"], (),
                     ["2.5.4.3=a +2.5.4.10=b", "2.5.4.3=a+ 2.5.4.10=b", "2.5.4.3=a+", "+2.5.4.3=a", "2.5.4.3=a++2.5.4.10=b", "2.5.4.3=a+2.5.4.10=b+"], RDN)

    def test_3_7_spaces_at_the_ends(self):
        self.both("a", ["a", "\\20a\\ ", "\\ a", "\\ \\ a\\20", "\\  a", "a \\ "], ["a\\ b"], [" a", "a ", " a ", " ", "#", "  ", "a\\  ", " \\ a"])
        self.both("a b", ["a b", "a  b", "a\\ b", "A   B"], ["ab"])

    def test_3_8_hex_pairs(self):
        self.both("\u00e9", ["\\c3\\A9", "\\C3\\a9", "\\C3\\89", "\u00e9", "\u00c9"], ["e", "\\65"],
                  ["\\C3a", "\\C3", "\\C3\u00a9", "\\A9", "\\C3\\C3", "\\E9", "\\C1\\A9", "\\C3\\ ", "\\C3 \\A9", "\\C", "\\C3\\A", "\\G0", "\\0G", "\\0x41"])
        self.both("\u20ac", ["\\E2\\82\\AC", "\u20ac"], ["\\E2\\82\\AD"], ["\\E2\\82", "\\E2\\82a\\AC", "\\ED\\A0\\80", "\\F4\\90\\80\\80", "\\FF", "\\80"])
        self.both("aCel", ["\\61\\43el", "\\61cel"], [], ["\\Adacel"])
        self.both("\u00adacel", ["\\C2\\Adacel", "acel"])
        self.both("\u4f60x", ["\\e4\\bd\\a0x", "\u4f60X"], ["\\e4\\bd\\a1x"])

    def test_3_9_two_layers_of_quoting(self):
        for text, answer in [('"2.5.4.3=x\\"""', "TRUE 1"), ('"2.5.4.3=x"""', "UNDEFINED 0"), ('"2.5.4.3=x\\22"', "TRUE 1"), ('"2.5.4.3=x\\""', "REFUSED 3"),
                             ('"2.5.4.3=x\\"""" "', "UNDEFINED 0"), ('"2.5.4.3=""x"""', "UNDEFINED 0"), ('"2.5.4.3=x\\""""', "REFUSED 3"),
                             ('"2.5.4.3=x\\"""""', "UNDEFINED 0"), ('"2.5.4.3=x\\"', "UNDEFINED 0"), ('"""2.5.4.3=x\\"""""', "UNDEFINED 0")]:
            self.assertEqual(asked(RDN, cn('x"'), item(None, ONE, text)), answer, text)
        self.assertEqual(asked(RDN, cn('""'), item(None, ONE, '"2.5.4.3=\\""\\"""')), "TRUE 1")
        self.assertEqual(asked(RDN, cn("}x{"), item(None, ONE, '"2.5.4.3=}x{"')), "TRUE 1")

    def test_3_10_escaped_characters(self):
        for character in '\\"+,;<> #=':
            self.both("a%sb" % character, ["a\\%sb" % character, "a\\%02xb" % ord(character), "a\\%02Xb" % ord(character)],
                      ["ab"] if character != " " else ["a\\=b"], [] if character in " #=" else ["a%sb" % character])
        for character in "-n!$%&'()*./:?@[]^_`{|}~gGxtru\0\t\u00e9\u20ac":
            self.answers(cn("a"), (), (), ["2.5.4.3=a\\" + character, "2.5.4.3=\\" + character + "b"], RDN)
        self.both("a", [], [], ["a\\-", "\\n", "a\\'b"])
        self.both("=a=b=", ["=a=b=", "\\=a\\3Db="], ["a=b"])
        self.both("ab", [], [], ["ab\\", "\\", "a\\\\\\", "ab\\\\\\"])
        self.both("\\", ["\\\\", "\\5C", "\\5c"], ["\\\\\\\\"])

    def test_3_11_number_sign(self):
        self.both("#a", ["\\#a", "\\23a"], ["a"], ["#a", "#61", "#0C0161", "#"])
        self.both("a#", ["a#", "a\\#"], ["a"])
        self.both("a##b", ["a##b"])
        self.both("#", ["\\#", "\\23"], ["", "\\##"], ["#"])
        self.both(" #", ["\\ #", "\\ \\#"], [], [" #"])

    def test_3_12_attribute_types(self):
        self.answers(name(cn("a")), ["2.5.4.3=a"],
                     ["2.5.4.4294967299=a", "2.5.4.18446744073709551619=a", "2.5.4=a", "2.5.4.3.0=a", "2.5=a", "2.4294967301.4.3=a", "2.5.4.30=a", "1.2=a",
                      "2.5.4.3" + ".1" * 37 + "=a", "2." + "9" * 900 + "=a", "0.0=a", "1.39=a", "0.39.5=a"],
                     ["1.40=a", "0.40=a", "OID.2.5.4.3=a", "oid.2.5.4.3=a", "cn=a", "CN=a", "commonName=a", "2.5.4.03=a", "02.5.4.3=a", "2.05.4.3=a",
                      "2.5.4.3.=a", ".2.5.4.3=a", "2..5.4.3=a", "2=a", "3.5=a", "=a", "2.5.4.3", "a", "2.5.4.+3=a", "2.5.4.-3=a", "2.5.4.3 =a",
                      "2.5.4.\u0663=a", "4294967298.5.4.3=a", "2.5.4.3\\=a", "\\2.5.4.3=a", "2.5.4.3:a", "2.5.4.3==a,2.5", "{2 5 4 3}=a", "2.5.4.00=a"])
        for text in ("2.4294967215", "2.999.4294967295", "1.39.0", "0.0", "2.40", "2.47", "2.48", "2.5" + ".4" * 31):
            self.answers(rdn(pair(text, "a")), [text + "=a"], [text + ".0=a", "2.1.1=a"], (), RDN)
        self.answers(rdn(pair("2.40", "a")), (), ["0.0=a", "2.4=a", "1.39.1=a"], (), RDN)
        self.answers(rdn(pair("1.2", "a")), (), ["2.2=a", "1.2.0=a", "0.2=a"], ["1.42=a", "0.42=a"], RDN)

    def test_3_13_empty_name(self):
        self.values(NAME, [b"\x30\0"])
        self.answers(b"\x30\0", [""], ["2.5.4.3=", "2.5.4.3=a"], [" ", ",", "+", "=", '"', "2.5.4.3"])
        self.answers(name(cn("")), ["2.5.4.3="], [""])
        self.answers(cn(""), ["2.5.4.3="], [], ["", " ", ","], RDN)
        for rule, table, value in ((WHOLE, NAME, b"\x30\0"), (ONE, RDN, cn(""))):
            for text in ('"', "''", "NULL", "{}", '" "', '"" ""', "'2.5.4.3='", "2.5.4.3=", '{""}'):
                self.assertIn(asked(table, value, item(None, rule, text)), ["UNDEFINED 0", "REFUSED 3"], text)

    def test_3_14_rules_by_kind(self):
        for table, value, good, other in ((NAME, name(cn("a")), WHOLE, ONE), (RDN, cn("a"), ONE, WHOLE)):
            self.assertEqual(asked(table, value, item(None, good, '"2.5.4.3=a"')), "TRUE 1")
            self.assertEqual(asked(table, value, item(None, other, '"2.5.4.3=a"')), "UNDEFINED 0")
            self.assertEqual(asked(table, value, item(None, "presentMatch", "NULL")), "TRUE 1")
            self.assertEqual(asked(table, value, "not:" + item(None, "presentMatch", '"2.5.4.3=a"')), "UNDEFINED 0")
            for rule, text in [("caseIgnoreMatch", '"2.5.4.3=a"'), ("caseExactMatch", '"a"'), ("objectIdentifierMatch", "2.5.4.3"), ("integerMatch", "1"),
                               ("octetStringMatch", "''H"), ("bitStringMatch", "''B"), ("booleanMatch", "TRUE"), ("2.5.13.27", '"20240301000000Z"'),
                               ("distinguishedName", '"2.5.4.3=a"'), ("2.5.13.10", '"2.5.4.3=a"'), ("1.2.36.79672281.1.13.30", '"2.5.4.3=a"')]:
                self.assertEqual(asked(table, value, item(None, rule, text)), "UNDEFINED 0", rule)
        rdns, names = of(14, 1) + RDN, of(14, 1) + NAME
        self.assertEqual(asked(rdns, name(cn("a")), item(None, WHOLE, '"2.5.4.3=a"')), "UNDEFINED 0")
        self.assertEqual(asked(rdns, name(cn("a")), item("0", WHOLE, '""')), "UNDEFINED 0")
        self.assertEqual(asked(names, tlv(0x30, LEGG, b"\x30\0"), item("*", WHOLE, '""')), "TRUE 2")
        self.assertEqual(asked(names, tlv(0x30, LEGG, b"\x30\0"), item("*", WHOLE, '""'), 1), "REFUSED 5")
        inside = of(15, 1) + sequence(member("type", 4), member("value", 5)) + b"\5\x08"
        self.assertEqual(asked(inside, cn("a"), item(None, ONE, '"2.5.4.3=a"')), "UNDEFINED 0")
        self.assertEqual(asked(inside, cn("a"), item("*.value", "caseIgnoreMatch", '"A"')), "TRUE 1")
        one = choice(member("a", 2)) + NAME
        self.assertEqual(asked(one, name(cn("a")), item(None, WHOLE, '"2.5.4.3=a"')), "UNDEFINED 0")
        self.assertEqual(asked(one, name(cn("a")), item("a", WHOLE, '"2.5.4.3=a"')), "TRUE 1")
        for kind, contents in ((2, b"\1"), (5, b"\x55\4\3"), (8, b"2.5.4.3=a"), (9, b"a"), (10, b"a"), (4, b"")):
            for rule in (WHOLE, ONE):
                self.assertEqual(asked(bytes([kind]), leaf(kind, contents), item(None, rule, '"2.5.4.3=a"')), "UNDEFINED 0")

    def test_3_15_no_reference_inside(self):
        for table, value in ((NAME, LEGG), (RDN, cn("a")), (NAME, b"\x30\0")):
            for text in ("-1", "1", "0", "*", "*.*", "1.1", "*.*.type", "1.1.value", "type", "content", "rdnSequence", "(2.5.4.3)", "", "*.*.value.(2.5.4.11)"):
                self.assertEqual(listed(table, value, text), 3, text)
                self.assertEqual(asked(table, value, item(text, "presentMatch", "NULL")), "UNDEFINED 0", text)
                self.assertEqual(asked(table, value, item(text, ONE, '"2.5.4.3=Steven Legg"')), "UNDEFINED 0", text)
        table = of(14, 1) + NAME
        for text in ("1.1", "*.*", "*.0", "1.-1"):
            self.assertEqual(listed(table, name(LEGG), text), 3, text)

    def test_3_16_string_kinds(self):
        for kind in (8, 9, 10):
            self.both("Adacel Inc", ["adacel inc", "ADACEL  INC"], ["adacel"], (), kind)
        for kinds in itertools.product((8, 9, 10), repeat=2):
            stored = tlv(0x31, *sorted([pair(CN, "a", kinds[0]), pair(CN, "b", kinds[1])]))
            self.answers(stored, ["2.5.4.3=B+2.5.4.3=A"], ["2.5.4.3=a"], (), RDN)
        self.answers(rdn(pair(CN, "a", 8), pair(CN, "A", 9), pair(CN, "a", 10)), ["2.5.4.3=a+2.5.4.3=a+2.5.4.3=a"], ["2.5.4.3=a+2.5.4.3=a"], (), RDN)

    def test_3_17_controls(self):
        for code in [*range(1, 0x20), 0x7F]:
            space = 9 <= code <= 13
            texts = ["2.5.4.3=a%cb" % code, "2.5.4.3=a\\%02xb" % code, "2.5.4.3=a b" if space else "2.5.4.3=ab"]
            self.answers(cn("a%cb" % code, 10), texts, ["2.5.4.3=ab" if space else "2.5.4.3=a b"], (), RDN)
            self.answers(name(cn("%c" % code)), ["2.5.4.3=%c" % code, "2.5.4.3="], ["2.5.4.3=a"])
        self.both("a\0b", ["ab", "a\\00b"], ["a b"], ["a\0b", "\0", "ab\0", "\0ab"])
        self.assertEqual(asked(NAME, name(cn("a")), item(None, WHOLE, '"2.5.4.3=a\0"')), "UNDEFINED 0")

    def test_3_18_tags_and_chains(self):
        self.bad(choice(member("a", 3), member("b", 4)) + NAME + b"\x0c\0", choice(member("a", 3), member("b", 4)) + NAME + of(14, 5) + b"\2",
                 choice(member("a", 3), member("b", 4)) + RDN + of(15, 5) + b"\2", choice(member("a", 3), member("b", 3)) + NAME,
                 choice(member("a", 3), member("b", 3)) + RDN, sequence(member("a", 3, presence=1), member("b", 4)) + NAME + b"\x0c\0",
                 sequence(member("a", 3, presence=1), member("b", 4, presence=1)) + of(15, 5) + RDN + b"\2",
                 choice(member("a", 3), member("b", 5)) + choice(member("c", 5)) + NAME)
        self.good(choice(member("a", 3), member("b", 4)) + NAME + RDN, choice(member("a", 3), member("b", 4)) + RDN + of(14, 5) + b"\2",
                  choice(member("a", 3), member("b", 4)) + NAME + of(15, 5) + b"\2", choice(member("a", 3), member("b", 3, 2, 0)) + NAME,
                  sequence(member("a", 3), member("b", 3)) + NAME, sequence(member("a", 2, presence=1)) + RDN, sequence(member("a", 2, 2, 30)) + NAME)
        self.bad(sequence(member("a", 2, presence=2, default=b"\0")) + NAME, sequence(member("a", 2, presence=2, default=b"\x30\0")) + NAME,
                 sequence(member("a", 2, presence=2, default=b"\1")) + RDN, sequence(member("a", 2, 2, 0, 2, b"\1")) + NAME)
        lists = b"".join(of(14 + row % 2, row + 1) for row in range(16))
        for last in (NAME, RDN):
            self.good(lists[:45] + last, lists[:42] + sequence(member("a", 16)) + last)
            self.bad(lists + last, b"\2" + b"".join(of(14, row + 2) for row in range(16)) + last)
        both = sequence(member("a", 4, 2, 1), member("b", 5, 2, 2), member("c", 5, 1, 3, 1)) + NAME + RDN
        inner = cn("x")[2:]
        self.values(both, [tlv(0x30, tlv(0xA1, cn("x")), tlv(0xA2, inner)), tlv(0x30, tlv(0xA1), tlv(0xA2, inner), tlv(0xA3, cn("y")))],
                    [tlv(0x30, tlv(0x81, cn("x")), tlv(0xA2, inner)), tlv(0x30, tlv(0xA1, cn("x")), tlv(0x82, inner)),
                     tlv(0x30, tlv(0xA1, name(cn("x"))), tlv(0xA2, inner)), tlv(0x30, tlv(0xA1, cn("x")), tlv(0xA2, cn("x"))),
                     tlv(0x30, tlv(0xA1), tlv(0xA2)), tlv(0x30, tlv(0xA1), tlv(0xA2, inner), tlv(0xA3, inner))])
        value = tlv(0x30, tlv(0xA1, cn("x")), tlv(0xA2, inner), tlv(0xA3, cn("y")))
        self.assertEqual(asked(both, value, item("a", WHOLE, '"2.5.4.3=X"')), "TRUE 1")
        self.assertEqual(asked(both, value, item("b", ONE, '"2.5.4.3=X"')), "TRUE 1")
        self.assertEqual(asked(both, value, item("c", ONE, '"2.5.4.3=Y"')), "TRUE 1")
        self.assertEqual(listed(both, value, "a"), [(0, 2, 14)])
        self.assertEqual(listed(both, value, "c"), [(0, 30, 12)])
        self.values(NAME, [], [b"\x31\0", b"\x10\0", b"\xA0\0", cn("a"), b"\x70\0"])
        self.values(RDN, [], [b"\x31\0", b"\x30\0", name(cn("a")), tlv(0x11, LOW), tlv(0xA0, LOW)])

    def test_3_19_gser(self):
        for text in ('rdnSequence:"2.5.4.3=a"', 'rdnSequence : "2.5.4.3=a"', '{"2.5.4.3=a"}', "2.5.4.3=a", "'2.5.4.3=a'", '{ { { type 2.5.4.3, value "a" } } }',
                     '"2.5.4.3=a" "2.5.4.3=a"', '"2.5.4.3=a",', '"2.5.4.3=a"x', 'x"2.5.4.3=a"', '"2.5.4.3=a"""""', "2.5.4.3=\"a\""):
            self.assertEqual(asked(NAME, name(cn("a")), item(None, WHOLE, text)), "UNDEFINED 0", text)
            self.assertEqual(asked(RDN, cn("a"), item(None, ONE, text)), "UNDEFINED 0", text)
        self.assertEqual(asked(RDN, cn("a"), 'item:{rule rdnMatch,value   "2.5.4.3=a"   }'), "TRUE 1")

    def test_3_20_stored_form(self):
        oid = tlv(6, oid_contents(CN))

        def of_one(contents):
            return tlv(0x31, tlv(0x30, contents))

        self.values(RDN, [of_one(oid + leaf(8, b"")), of_one(oid + leaf(9, b"a'(?")), of_one(oid + leaf(10, b"\x00\x7f@")),
                          of_one(tlv(6, b"\1" * 32) + leaf(8, b"")),
                          of_one(tlv(6, b"\x8f\xff\xff\xff\x7f") + leaf(8, "\u00e9\U0010ffff".encode())), of_one(tlv(6, b"\0") + leaf(8, b""))])
        for tag in (0x14, 0x1E, 0x1C, 0x1A, 0x12, 0x1B, 0x04, 0x02, 0x05, 0x06, 0x2C, 0x33, 0x36, 0x80, 0x8C, 0xAC, 0x4C, 0xCC, 0x30, 0x31, 0x1F):
            self.values(RDN, [], [of_one(oid + tlv(tag, b"a"))])
        self.values(RDN, [], [
            of_one(oid + leaf(9, b"a@b")), of_one(oid + leaf(10, b"\x80")), of_one(oid + leaf(8, b"\xc3")), of_one(oid + leaf(8, b"\xed\xa0\x80")),
            of_one(tlv(6) + leaf(8, b"a")), of_one(tlv(6, b"\1" * 33) + leaf(8, b"a")), of_one(tlv(6, b"\x80\1") + leaf(8, b"a")),
            of_one(tlv(6, b"\x55\x84") + leaf(8, b"a")), of_one(tlv(6, b"\x90\x80\x80\x80\0") + leaf(8, b"a")), of_one(tlv(0x26, b"\x55") + leaf(8, b"a")),
            of_one(tlv(0x0D, b"\x55") + leaf(8, b"a")), of_one(oid), of_one(b""), of_one(leaf(8, b"a")), of_one(leaf(8, b"a") + oid), of_one(oid + oid),
            of_one(oid + leaf(8, b"a") + leaf(8, b"a")), of_one(oid + leaf(8, b"a") + b"\5\0"), of_one(oid + leaf(8, b"a") + b"\0"),
            tlv(0x31, oid + leaf(8, b"a")), tlv(0x31, tlv(0x31, oid, leaf(8, b"a"))), tlv(0x31, tlv(0x10, oid, leaf(8, b"a"))),
            tlv(0x31, tlv(0xA0, oid, leaf(8, b"a")))])
        good = name(rdn(LOW, HIGH), cn("c"))
        ends = (2, 2 + len(rdn(LOW, HIGH)))
        for at in range(2, len(good)):
            self.values(NAME, [], [good[:at]])
            cut = good[:1] + bytes([at - 2]) + good[2:at]
            self.values(NAME, *([[cut], []] if at in ends else [[], [cut]]))
        for more in (b"\0", b"\5\0", LOW, leaf(8, b"a")):
            self.values(NAME, [], [good + more, name(rdn(LOW, HIGH), cn("c"), more), name(tlv(0x31, LOW, HIGH, more), cn("c"))])
        self.values(NAME, [], [b"\x30\x81" + good[1:], b"\x30\x82\0" + good[1:], b"\x30\x80" + good[2:] + b"\0\0", name(b"\x31\x81" + cn("a")[1:]),
                               name(tlv(0x31, b"\x30\x81" + LOW[1:])), name(tlv(0x31, tlv(0x30, b"\6\x81\3\x55\4\3", leaf(8, b"a")))),
                               name(tlv(0x31, tlv(0x30, oid, b"\x0c\x81\1a")))])
        for size in (100, 127, 128, 200, 255, 256, 1000, 4060):
            self.values(NAME, [name(cn("x" * size))])

    def test_3_21_limits(self):
        def rdns(count, pairs=1):
            return name(*(rdn(*(pair(CN, str(number)) for number in range(pairs))) for _ in range(count)))

        def text(count, pairs=1):
            return ",".join("+".join("2.5.4.3=%d" % number for number in range(pairs)) for _ in range(count))

        for count in (1, 2, 15, 16):
            self.values(NAME, [rdns(count), rdns(count, 4)], [rdns(count, 5)])
            self.answers(rdns(count), [text(count)], [text(count - 1)], [text(count, 5)])
            self.answers(rdns(count, 4), [text(count, 4)], [text(count, 3)], [text(17), text(17, 4), text(count, 4) + "+2.5.4.3=4"])
        for count in (17, 18, 32, 100):
            self.values(NAME, [], [rdns(count)])
            self.answers(rdns(16), (), (), [text(count)])
        for pairs in (1, 2, 3, 4):
            self.values(RDN, [rdns(1, pairs)[2:]])
            self.answers(rdns(1, pairs)[2:], [text(1, pairs)], [text(1, pairs % 4 + 1)], [text(1, 5), text(1, 6), text(2, pairs)], RDN)
        self.values(RDN, [], [rdns(1, 5)[2:], b"\x31\0"])
        self.values(NAME, [], [name(b"\x31\0"), name(cn("a"), b"\x31\0"), name(b"\x31\0", cn("a")), name(b"\x30\0")])

    def test_prepared(self):
        """Values are compared as caseIgnoreMatch prepares both, the whole of Q-1 included."""
        self.both("\u00c9lan", ["\u00e9lan", "\u00c9LAN", "\\C3\\A9lan"], ["elan"])
        self.both("a\u00a0b\u00ad", ["a b", "A\tB", "a\\C2\\85b"], ["ab"])
        self.both("\u00df\u0130\u0149", ["SSi\u0307\u02bcN"], ["s"])
        self.both("\u0131", ["\u0131"], ["I", "i"])
        self.both("a\u00b4", ["a\u00b4", "a \u0301", "A  \u0301"], ["a\u0301", "a \u00b4"])
        self.both(" \u00b4", ["\u00b4", "\u00b4\\ "], ["\u0301", "\\ \u0301"])
        self.both("e\u0301", ["E\u0301"], ["\u00e9"])

    def test_rows(self):
        for kind in (19, 20):
            row = bytes([kind])
            self.good(row * 128, sequence(member("a", 2)) + row, choice(member("a", 2)) + row, of(14, 1) + row, of(15, 1) + row, row + b"\2", b"\2" + row,
                      named_bits(("a", 0)) + row)
            self.bad(row * 129, row + b"\0", row + b"\x15", row + b"\x10", row + member("a", 2) + b"\2", of(14, 0) + row, of(14, 2) + row,
                     row + b"\x12" + bytes(25), b"\x0c\1" + row + b"\2", b"\x0c\1" + row + member("a", 3) + b"\2", b"\x11\1" + row + b"\2")

    def test_listing(self):
        table = sequence(member("holder", 5), member("rdn", 6, 1, 0), member("more", 4, 1, 1, 1)) + of(15, 5) + NAME + RDN
        value = tlv(0x30, LEGG, tlv(0xA0, cn("a")), tlv(0xA1, tlv(0x31, b"\x30\0", name(cn("b")))))
        self.assertEqual(engine.check_value(table, value), ("good",))
        size = len(LEGG)
        self.assertEqual(listed(table, value, "holder"), [(0, 2, size)])
        self.assertEqual(listed(table, value, "rdn"), [(0, 4 + size, 12)])
        self.assertEqual(listed(table, value, "more.*"), [(0, 20 + size, 2), (0, 22 + size, 14)])
        self.assertEqual(listed(table, value, "more.0"), [(2, 18 + size, 2)])
        self.assertEqual(listed(NAME, LEGG, None), [(0, 0, size)])
        self.assertEqual(listed(NAME, LEGG, None, room=2), 6)
        for text in ("holder.1", "holder.*", "holder.0", "rdn.1", "rdn.type", "more.1.1", "more.*.0", "holder.holder", "rdn.0"):
            self.assertEqual(listed(table, value, text), 3, text)
