"""Tests of the Python module, compared with the second program: python3 -m unittest discover -s bindings/python"""

import array
import concurrent.futures
import ctypes
import doctest
import multiprocessing
import os
import pathlib
import pickle
import random
import re
import subprocess
import sys
import unittest
from collections import Counter

import tezqulom
import tezqulom.der
import tezqulom.distinguished
import tezqulom.engine
import tezqulom.filters
import tezqulom.values
from tezqulom import (Answer, Count, Default, Kind, NotName, Refusal, Refused, Stored, Time, Truth, bit_list, escaped, name_text, quoted, quoted_name,
                      rdns_of, value_of)
from tezqulom.distinguished import encoded_name, encoded_rdn
from tezqulom.library import WRITERS, library

ROOT = pathlib.Path(__file__).resolve().parents[2]
sys.path.insert(0, str(ROOT / "second"))

import draw  # noqa: E402
import names as second_names  # noqa: E402
from name_text import ODD_NAMES  # noqa: E402
from rows import long_member, member  # noqa: E402
from samples import CATEGORY, LICENCE, LONGEST_NAME, RECORD, choice, item, sequence  # noqa: E402

COPIES = "parts.*.copies"
P1 = item(COPIES, "integerMatch", "3")
UNWRITTEN = 9999
SMALL_CASES, LARGE_CASES, NAME_CASES = 9000, 300, 3000
SOURCES = {Stored: 0, Default: 1, Count: 2}

# The answers of each entry that have to come; refusal 7 never does.
ANSWERS = {"table": ["admitted", "refused 1", "refused 2"],
           "value": ["good", "refused 1", "refused 2", "refused 4"],
           "part": ["part", "refused 1", "refused 4"],
           "list": ["listed", "refused 1", "refused 2", "refused 3", "refused 4", "refused 6"],
           "ask": ["TRUE", "FALSE", "UNDEFINED", "refused 1", "refused 2", "refused 3", "refused 4", "refused 5"]}


def load_tests(_loader, tests, _pattern):
    """The examples in the module's docstrings are tests too."""
    for module in (tezqulom, tezqulom.der, tezqulom.distinguished, tezqulom.engine, tezqulom.values):
        tests.addTests(doctest.DocTestSuite(module))
    return tests


def listed(table, value, given, reference, defaults, room):
    """The listing as the second program answers it, after the checks on the room."""
    numbers = array.array("Q", [UNWRITTEN] * room)
    before = numbers[:]
    try:
        named = tezqulom.list_into(table, value, reference if given else None, defaults, numbers)
    except Refused:
        assert numbers == before, "a refused listing wrote"
        raise
    triples = [(SOURCES[type(one)], *one) for one in named]
    flat = [number for triple in triples for number in triple]
    assert list(numbers) == flat + [UNWRITTEN] * (room - len(flat)), "the room is not what was listed"
    assert tezqulom.listing(table, value, reference if given else None, defaults) == named
    return ("listed", triples)


def asked(*inputs):
    """The answer to a filter as the second program gives it."""
    answer = tezqulom.ask(*inputs)
    return ("answer", answer.truth.name, answer.tests)


ENTRIES = {"table": lambda *inputs: ("admitted", tezqulom.check_table(*inputs)),
           "value": lambda *inputs: ("good",) if tezqulom.check_value(*inputs) is None else None,
           "part": lambda *inputs: ("part", tezqulom.part(*inputs)), "list": listed, "ask": asked}


def answered(case):
    """The engine's answer to a case, in the second program's form."""
    try:
        return ENTRIES[case.entry](*case.inputs)
    except Refused as refused:
        number = ("refused", int(refused.refusal))
        return number + (b"",) if case.entry == "part" else number


class Document(unittest.TestCase):
    """Document 01's licence record."""

    def refused(self, refusal, entry, *inputs):
        with self.assertRaises(Refused) as caught:
            entry(*inputs)
        self.assertIs(caught.exception.refusal, refusal)

    def test_licence(self):
        self.assertEqual(tezqulom.check_table(LICENCE), 12)
        self.assertIsNone(tezqulom.check_value(LICENCE, RECORD))

    def test_p1_to_p10(self):
        p5 = item("event", "integerMatch", "3")
        for text, truth, tests in [
                (P1, Truth.TRUE, 2), (item(COPIES, "integerMatch", "7"), Truth.FALSE, 2),
                (item(COPIES, "integerMatch", "1", "FALSE"), Truth.FALSE, 1),
                (item(COPIES, "integerOrderingMatch", "2"), Truth.TRUE, 1), (p5, Truth.UNDEFINED, 0),
                ("not:" + p5, Truth.UNDEFINED, 0), ("and:{ }", Truth.TRUE, 0), ("or:{ }", Truth.FALSE, 0),
                (item("seats", "integerMatch", "9223372036854775808"), Truth.FALSE, 1),
                (item("parts.3", "presentMatch", "NULL"), Truth.FALSE, 0)]:
            self.assertEqual(tezqulom.ask(LICENCE, RECORD, text), Answer(truth, tests), text)

    def test_p11_and_p12(self):
        self.assertEqual(tezqulom.listing(LICENCE, RECORD, COPIES), [Default(8, 9), Stored(20, 3)])
        self.assertEqual(tezqulom.part(RECORD, 20, 3), b"\x80\1\3")
        self.assertEqual(tezqulom.listing(LICENCE, RECORD, "parts.0"), [Count(6, 2)])

    def test_run_only(self):
        self.refused(Refusal.TESTS, tezqulom.ask, LICENCE, RECORD, P1, 1)
        room = array.array("Q", [UNWRITTEN] * 5)
        self.refused(Refusal.ROOM, tezqulom.list_into, LICENCE, RECORD, COPIES, True, room)
        self.assertEqual(list(room), [UNWRITTEN] * 5)
        room.append(UNWRITTEN)
        self.assertEqual(len(tezqulom.list_into(LICENCE, RECORD, COPIES, True, room)), 2)
        self.assertEqual(list(room), [1, 8, 9, 0, 20, 3])
        stored = bytes.fromhex("3018") + RECORD[2:6] + b"\2\1\1" + RECORD[6:]
        self.refused(Refusal.VALUE, tezqulom.check_value, LICENCE, stored)
        self.assertIsNone(tezqulom.check_value(LICENCE, stored.replace(b"\2\1\1", b"\2\1\2")))

    def test_any_numbers(self):
        for large in [2 ** bit + 2 for bit in range(16, 80)] + [2 ** 64 - 1, 2 ** 64, 10 ** 30]:
            self.refused(Refusal.SIZE, tezqulom.ask, LICENCE, RECORD, P1, large)
            self.refused(Refusal.VALUE, tezqulom.part, RECORD, large, 1)
            self.refused(Refusal.VALUE, tezqulom.part, RECORD, 0, large)
        self.assertRaises(ValueError, tezqulom.ask, LICENCE, RECORD, P1, -1)
        self.assertRaises(ValueError, tezqulom.part, RECORD, -1, 1)
        self.assertRaises(ValueError, tezqulom.part, RECORD, 0, -1)

    def test_any_octets(self):
        table, value = bytearray(LICENCE), memoryview(RECORD)
        self.assertEqual(tezqulom.ask(table, value, bytearray(P1.encode())), Answer(Truth.TRUE, 2))
        self.assertEqual(tezqulom.part(value, 20, 3), b"\x80\1\3")
        self.assertRaises(TypeError, tezqulom.check_table, 5)
        self.assertRaises(TypeError, tezqulom.check_table, "text")
        self.assertRaises(TypeError, tezqulom.list_into, LICENCE, RECORD, COPIES, True, array.array("I", [0] * 6))
        self.assertRaises(TypeError, tezqulom.list_into, LICENCE, RECORD, COPIES, True, bytes(48))
        self.refused(Refusal.SIZE, tezqulom.check_table, b"")
        self.refused(Refusal.FORM, tezqulom.listing, LICENCE, RECORD, "")
        self.refused(Refusal.ROOM, tezqulom.list_into, LICENCE, RECORD, None, True, array.array("Q"))

    def test_no_bool(self):
        for truth in Truth:
            self.assertRaises(TypeError, bool, truth)
            self.assertRaises(TypeError, bool, Answer(truth, 1))
        with self.assertRaisesRegex(TypeError, "compare"):
            if tezqulom.ask(LICENCE, RECORD, P1):
                self.fail("an answer has a truth of its own")

    def test_wrong_types(self):
        for name, entry, inputs in [
                ("table", tezqulom.check_table, [5]), ("table", tezqulom.check_table, ["text"]),
                ("value", tezqulom.check_value, [LICENCE, None]), ("value", tezqulom.ask, [LICENCE, "30", P1]),
                ("filter_text", tezqulom.ask, [LICENCE, RECORD, 7]), ("budget", tezqulom.ask, [LICENCE, RECORD, P1, "1"]),
                ("budget", tezqulom.ask, [LICENCE, RECORD, P1, 1.0]), ("place", tezqulom.part, [RECORD, "0", 1]),
                ("length", tezqulom.part, [RECORD, 0, None]), ("reference", tezqulom.listing, [LICENCE, RECORD, 1]),
                ("room", tezqulom.list_into, [LICENCE, RECORD, None, True, 5]), ("text", quoted, [5]), ("value", escaped, [5]), ("text", rdns_of, [b""]),
                ("name", name_text, ["2.5.4.3=a"]), ("name", name_text, [[("2.5.4.3", "a")]]), ("name", name_text, [[["2.5.4.3=a"]]]),
                ("name", name_text, [[{"2.5.4.3": "a"}]]), ("name", name_text, [[[("2.5.4.3", b"a")]]]), ("name", name_text, [5]), ("name", name_text, [{()}]),
                ("name", encoded_rdn, [[[("2.5.4.3", "a")]]])]:
            with self.assertRaisesRegex(TypeError, "^%s: " % name):
                entry(*inputs)
        with self.assertRaisesRegex(ValueError, "^filter_text: "):
            tezqulom.ask(LICENCE, RECORD, "\ud800")

    def test_sentences(self):
        for sentence, entry, inputs in [
                ("refused 1: the table has 0 octets, not 1 to 8064", tezqulom.check_table, [b""]),
                ("refused 1: the value has 1 octet, not 2 to 4096", tezqulom.check_value, [LICENCE, b"0"]),
                ("refused 1: the filter has 0 octets, not 1 to 2048", tezqulom.ask, [LICENCE, RECORD, ""]),
                ("refused 1: the budget is 65536, above 65535", tezqulom.ask, [LICENCE, RECORD, P1, 65536]),
                ("refused 1: the reference has 2049 octets, not 0 to 2048", tezqulom.listing, [LICENCE, RECORD, "a" * 2049]),
                ("refused 2: the table is not admitted", tezqulom.check_table, [b"\0"]),
                ("refused 3: the filter is not of the form, or too deep, or has too many items", tezqulom.ask, [LICENCE, RECORD, "x"]),
                ("refused 3: the reference is malformed, or the table's type doesn't allow it", tezqulom.listing, [LICENCE, RECORD, "x"]),
                ("refused 4: the value is not one of the table's type", tezqulom.check_value, [LICENCE, b"\x30\0"]),
                ("refused 4: the value is not one of the table's type", tezqulom.listing, [LICENCE, b"\x30\0"]),
                ("refused 4: the part passes the value's end", tezqulom.part, [RECORD, 22, 2]),
                ("refused 5: the tests needed exceed the budget", tezqulom.ask, [LICENCE, RECORD, P1, 1])]:
            with self.assertRaises(Refused) as caught:
                entry(*inputs)
            self.assertEqual(str(caught.exception), sentence)


class NamedBits(unittest.TestCase):
    """A BIT STRING whose bits have names, alone and as a licence's rights; document 02's Q-2."""

    ROWS = b"".join(b"\x12" + name.ljust(24, b"\0") + bytes([number]) for number, name in enumerate((b"print", b"perform", b"record")))
    RIGHTS = b"\x11\3" + ROWS

    def truth(self, stored, asserted, table=RIGHTS):
        answer = tezqulom.ask(table, bytes.fromhex(stored), tezqulom.item(None, "bitStringMatch", asserted))
        self.assertEqual(answer.tests, answer.truth is not Truth.UNDEFINED)
        return answer.truth.name

    def test_answers(self):
        """Stored print and perform; no bits; bits above the last name."""
        both, none, more = "030206C0", "030100", "030300C001"
        for stored, asserted, truth in [
                (both, "{print,perform}", "TRUE"), (both, "{perform,print}", "TRUE"), (both, "{  print,   perform  }", "TRUE"),
                (both, "{ print, print, perform, print }", "TRUE"), (both, "{print}", "FALSE"), (both, "{print,perform,record}", "FALSE"),
                (both, "{}", "FALSE"),
                (both, "'11'B", "TRUE"), (both, "'110'B", "TRUE"), (both, "'C'H", "TRUE"), (both, "'C00'H", "TRUE"), (both, "'C'B", "UNDEFINED"),
                (both, "'111'B", "FALSE"), (both, "''B", "FALSE"),
                (none, "{}", "TRUE"), (none, "{ }", "TRUE"), (none, "{   }", "TRUE"), (none, "''B", "TRUE"), (none, "''H", "TRUE"), (none, "'0000'B", "TRUE"),
                (none, "{record}", "FALSE"), (more, "'C001'H", "TRUE"), (more, "'C0010'H", "TRUE"), (more, "{print,perform}", "FALSE"),
                (both, "{print,play}", "UNDEFINED"), (both, "{print,PERFORM}", "UNDEFINED"), (both, "{print ,perform}", "UNDEFINED"),
                (both, "{print,}", "UNDEFINED"), (both, "{,print}", "UNDEFINED"), (both, "{print perform}", "UNDEFINED"), (both, "print", "UNDEFINED"),
                (both, "{print}x", "UNDEFINED"), (both, "{print\u00a0}", "UNDEFINED"), (both, "{{print}}", "UNDEFINED"), (both, '{"print"}', "UNDEFINED")]:
            self.assertEqual(self.truth(stored, asserted), truth, (stored, asserted))

    def test_numbers(self):
        """The number is the bit, not the place in the list."""
        table = b"\x11\2" + self.ROWS[:25] + b"\x3f" + self.ROWS[26:51] + b"\0"
        self.assertEqual(self.truth("03020780", "{perform}", table), "TRUE")
        self.assertEqual(self.truth("0309000000000000000001", "{print}", table), "TRUE")

    def test_unnamed(self):
        """A BIT STRING without names counts trailing zero bits and takes no list."""
        for stored, asserted, truth in [("030206C0", "'11'B", "TRUE"), ("030206C0", "'110'B", "FALSE"), ("030205C0", "'110'B", "TRUE"),
                                        ("030206C0", "{print}", "UNDEFINED"), ("030100", "{}", "UNDEFINED")]:
            self.assertEqual(self.truth(stored, asserted, b"\7"), truth, (stored, asserted))

    def test_values(self):
        for contents, good in [("00", True), ("06C0", True), ("00FF", True), ("00C001", True), ("0480", False), ("05C0", False), ("00FE", False),
                               ("0700", False), ("000000", False), ("00C000", False), ("06C1", False), ("0880", False), ("01", False), ("", False)]:
            value = b"\3" + bytes([len(contents) // 2]) + bytes.fromhex(contents)
            if good:
                self.assertIsNone(tezqulom.check_value(self.RIGHTS, value))
            else:
                with self.assertRaises(Refused) as caught:
                    tezqulom.check_value(self.RIGHTS, value)
                self.assertIs(caught.exception.refusal, Refusal.VALUE, contents)

    def test_unclosed(self):
        with self.assertRaises(Refused) as caught:
            tezqulom.ask(self.RIGHTS, b"\3\1\0", "item:{rule bitStringMatch,value {print}")
        self.assertIs(caught.exception.refusal, Refusal.FORM)

    def test_other_rules(self):
        for rule, text, truth in [("presentMatch", "NULL", Truth.TRUE), ("2.5.13.16", "{print}", Truth.FALSE), ("octetStringMatch", "'00'H", Truth.UNDEFINED)]:
            self.assertIs(tezqulom.ask(self.RIGHTS, b"\3\1\0", tezqulom.item(None, rule, text)).truth, truth)

    def test_value_of(self):
        for octets, bits in [("030206C0", "11"), ("030100", ""), ("800206C0", "11"), ("030300C001", "1100000000000001")]:
            self.assertEqual(value_of(Kind.NAMED_BIT_STRING, bytes.fromhex(octets)), bits)
        for octets in ("030205C0", "0300", "03020701"):
            self.assertRaises(ValueError, value_of, Kind.NAMED_BIT_STRING, bytes.fromhex(octets))


COUNTRY, ORGANISATION, COMMON, SERIAL = "2.5.4.6", "2.5.4.10", "2.5.4.3", "2.5.4.5"
HOLDER = [[(COUNTRY, "AU")], [(ORGANISATION, "Adacel")], [(COMMON, "Steven Legg")]]
HOLDER_TEXT = "2.5.4.3=Steven Legg,2.5.4.10=Adacel,2.5.4.6=AU"
DRAWN = 'aB "#+,;<>\\=\0\n\x7fé\u00a0\U0001f600'


class DistinguishedNames(unittest.TestCase):
    """Kinds 19 and 20 with distinguishedNameMatch and rdnMatch; document 02's Q-3."""

    def truth(self, stored, asserted, table=b"\x13", rule="distinguishedNameMatch"):
        answer = tezqulom.ask(table, stored, tezqulom.item(None, rule, '"%s"' % asserted.replace('"', '""')))
        self.assertEqual(answer.tests, answer.truth is not Truth.UNDEFINED)
        return answer.truth.name

    def test_order(self):
        """The text has the last RDN first; RDNs are compared by position."""
        stored = encoded_name(HOLDER)
        for asserted, truth in [
                (HOLDER_TEXT, "TRUE"), ("2.5.4.6=AU,2.5.4.10=Adacel,2.5.4.3=Steven Legg", "FALSE"), ("2.5.4.10=Adacel,2.5.4.6=AU", "FALSE"),
                (HOLDER_TEXT + ",2.5.4.6=AU", "FALSE"), ("2.5.4.3=Steven Legg,2.5.4.10=Adacel+2.5.4.6=AU", "FALSE"), ("", "FALSE"),
                ("2.5.4.3=STEVEN  legg,2.5.4.10=\\41\\64acel,2.5.4.6=\\ au\\20", "TRUE"), ("2.5.4.3=Steven Leg,2.5.4.10=Adacel,2.5.4.6=AU", "FALSE"),
                ("2.5.4.4=Steven Legg,2.5.4.10=Adacel,2.5.4.6=AU", "FALSE"), ("2.5.4.4294967299=Steven Legg,2.5.4.10=Adacel,2.5.4.6=AU", "FALSE"),
                ("cn=Steven Legg,o=Adacel,c=AU", "UNDEFINED"), ("2.5.4.3=Steven Legg, 2.5.4.10=Adacel,2.5.4.6=AU", "UNDEFINED"),
                ("2.5.4.3=Steven Legg;2.5.4.10=Adacel;2.5.4.6=AU", "UNDEFINED"), ("2.5.4.3=Steven Legg,2.5.4.10=\\Adacel,2.5.4.6=AU", "UNDEFINED")]:
            self.assertEqual(self.truth(stored, asserted), truth, asserted)
        self.assertEqual([self.truth(b"\x30\0", text) for text in ("", "2.5.4.3=")], ["TRUE", "FALSE"])

    def test_pairs(self):
        """Pairs in an RDN match one to one, in any order; equal ones may repeat."""
        for pairs, asserted, truth in [
                ([(COMMON, "a"), (SERIAL, "7")], "2.5.4.3=A+2.5.4.5=7", "TRUE"), ([(COMMON, "a"), (SERIAL, "7")], "2.5.4.5=7+2.5.4.3=A", "TRUE"),
                ([(COMMON, "a"), (SERIAL, "7")], "2.5.4.5=a+2.5.4.3=7", "FALSE"), ([(COMMON, "a"), (SERIAL, "7")], "2.5.4.3=a", "FALSE"),
                ([(COMMON, "a"), (COMMON, "b")], "2.5.4.3=b+2.5.4.3=a", "TRUE"), ([(COMMON, "a"), (COMMON, "a")], "2.5.4.3=a+2.5.4.3=A", "TRUE"),
                ([(COMMON, "a"), (COMMON, "a")], "2.5.4.3=a+2.5.4.3=b", "FALSE"), ([(COMMON, "a"), (COMMON, "b")], "2.5.4.3=a+2.5.4.3=a", "FALSE"),
                ([(COMMON, "a"), (COMMON, "a")], "2.5.4.3=a", "FALSE"), ([(COMMON, " ")], "2.5.4.3=", "TRUE"), ([(COMMON, "")], "2.5.4.3=\\20", "TRUE"),
                ([(COMMON, "Élan")], "2.5.4.3=\\c3\\A9LAN", "TRUE"), ([(COMMON, "é")], "2.5.4.3=e\u0301", "FALSE"), ([(COMMON, "é")], "2.5.4.3=e", "FALSE"),
                ([(COMMON, "a")], "2.5.4.3=a,2.5.4.3=a", "UNDEFINED"), ([(COMMON, "a")], "", "UNDEFINED")]:
            self.assertEqual(self.truth(encoded_rdn(pairs), asserted, b"\x14", "rdnMatch"), truth, (pairs, asserted))

    def test_kinds_of_strings(self):
        """A stored value's kind doesn't matter, and other kinds are not stored."""
        for tag, good in ((0x0C, True), (0x13, True), (0x16, True), (0x14, False), (0x1E, False), (0x04, False), (0x2C, False), (0x80, False)):
            rdn = bytes.fromhex("310A30080603550403%02X0141" % tag)
            if good:
                self.assertEqual(self.truth(rdn, "2.5.4.3=a", b"\x14", "rdnMatch"), "TRUE")
                self.assertEqual(value_of(Kind.RDN, rdn), "2.5.4.3=A")
            else:
                self.refused(b"\x14", rdn)

    def refused(self, table, value):
        with self.assertRaises(Refused) as caught:
            tezqulom.check_value(table, value)
        self.assertIs(caught.exception.refusal, Refusal.VALUE, value.hex())

    def test_limits(self):
        """16 RDNs and 4 pairs are stored and asserted; with one more the value is refused and the item Undefined."""
        one, four = (COMMON, "a"), [(COMMON, text) for text in "abcd"]
        most = encoded_name([four] * 16)
        self.assertIsNone(tezqulom.check_value(b"\x13", most))
        self.assertEqual(self.truth(most, name_text([four] * 16)), "TRUE")
        for text, pairs in (("2.5.4.3=a," * 16 + "2.5.4.3=a", 1), ("2.5.4.3=a" + "+2.5.4.3=a" * 4, 5)):
            self.assertEqual(self.truth(most, text), "UNDEFINED")
            self.assertRaises(NotName, rdns_of, text)
            rdns = [[one] * pairs] * (17 if pairs == 1 else 1)
            for entry in (name_text, quoted_name, encoded_name):
                self.assertRaises(NotName, entry, rdns)
        pair = bytes.fromhex("30080603550403130161")
        self.refused(b"\x14", b"\x31\x32" + pair * 5)
        self.refused(b"\x14", b"\x31\0")
        self.refused(b"\x13", b"\x30\2\x31\0")
        self.refused(b"\x13", b"\x30\x81\xcc" + (b"\x31\x0a" + pair) * 17)
        self.refused(b"\x14", b"\x31\x14" + pair[:-1] + b"b" + pair)
        for empty in ([[]], [[one], []]):
            self.assertRaises(NotName, name_text, empty)

    def test_rules(self):
        """Each rule is for its own kind; presentMatch is for both; names and OIDs of the rules."""
        name, rdn = encoded_name(HOLDER[:1]), encoded_rdn(HOLDER[0])
        for table, value, rule, truth in [
                (b"\x13", name, "distinguishedNameMatch", "TRUE"), (b"\x13", name, "2.5.13.1", "TRUE"), (b"\x13", name, "DISTINGUISHEDNAMEMATCH", "TRUE"),
                (b"\x14", rdn, "rdnMatch", "TRUE"), (b"\x14", rdn, "1.2.36.79672281.1.13.3", "TRUE"), (b"\x13", name, "rdnMatch", "UNDEFINED"),
                (b"\x14", rdn, "distinguishedNameMatch", "UNDEFINED"), (b"\x0e\0\1\x14", name, "distinguishedNameMatch", "UNDEFINED"),
                (b"\x13", name, "caseIgnoreMatch", "UNDEFINED"), (b"\x08", b"\x0c\1a", "distinguishedNameMatch", "UNDEFINED")]:
            self.assertEqual(self.truth(value, "2.5.4.6=au", table, rule), truth, (table, rule))
        for table, value in ((b"\x13", name), (b"\x14", rdn)):
            self.assertIs(tezqulom.ask(table, value, tezqulom.item(None, "presentMatch", "NULL")).truth, Truth.TRUE)
            self.assertIs(tezqulom.ask(table, value, tezqulom.item("1", "presentMatch", "NULL")).truth, Truth.UNDEFINED)
            with self.assertRaises(Refused) as caught:
                tezqulom.listing(table, value, "-1")
            self.assertIs(caught.exception.refusal, Refusal.FORM)
        for text in ("2.5.4.6=AU", 'rdnSequence:"2.5.4.6=AU"', "{}", "'00'H"):
            self.assertIs(tezqulom.ask(b"\x13", name, tezqulom.item(None, "distinguishedNameMatch", text)).truth, Truth.UNDEFINED)

    def test_odd_texts(self):
        """What is no text of a name is read by nothing, and near ones are."""
        stored = encoded_name([[(COMMON, "a")]])
        for text in ODD_NAMES:
            self.assertEqual(self.truth(stored, text), "UNDEFINED", text)
            self.assertRaises(NotName, rdns_of, text)
            self.assertRaises(NotName, encoded_name, text)
        for text, rdns in [("", []), ("2.5.4.3=", [[(COMMON, "")]]), ("2.5.4.3=a=b", [[(COMMON, "a=b")]]), ("2.5.4.3=a #b", [[(COMMON, "a #b")]]),
                           ("2.5.4.3=\\ \\ ", [[(COMMON, "  ")]]), ("2.5.4.3=a\\00\\20", [[(COMMON, "a\0 ")]]), ("2.5.4.3=\\#\\=\\\\", [[(COMMON, "#=\\")]]),
                           ("2.5.4.3=\\5c20", [[(COMMON, "\\20")]]), ("2.5.4.3=\x01\n\x7f", [[(COMMON, "\x01\n\x7f")]]),
                           ("0.39.0=a+2.999999999999=b,1.2=c", [[("1.2", "c")], [("0.39.0", "a"), ("2.999999999999", "b")]])]:
            self.assertEqual(rdns_of(text), rdns)
            self.assertIn(self.truth(stored, text), ("TRUE", "FALSE"))

    def test_sentences(self):
        for sentence, text in [
                ("at character 1 of the name: a dotted type and = are needed", "cn=a"),
                ("at character 11 of the name: a dotted type and = are", "2.5.4.3=a, 2.5=b"),
                ("at character 10 of the name: ; is not escaped", "2.5.4.3=a;2.5.4.3=b"), ('at character 9 of the name: " is not escaped', '2.5.4.3="a"'),
                ("at character 10 of the name: NUL is not escaped", "2.5.4.3=a\0"),
                ("at character 9 of the name: # is not escaped at the start", "2.5.4.3=#0C0161"),
                ("at character 9 of the name: a space is not escaped at the start", "2.5.4.3= a"),
                ("at character 10 of the name: a space is not escaped at the end", "2.5.4.3=a "), ("at character 11 of the name: a space is", "2.5.4.3=\\  "),
                ("at character 9 of the name: a backslash stands before neither", "2.5.4.3=\\n"),
                ("at character 9 of the name: the value is not UTF", "2.5.4.3=\\C3a"),
                ("the name has 17 RDNs, more than 16", ",".join(["2.5.4.3="] * 17)), ("an RDN has 5 pairs, not 1 to 4", "+".join(["2.5.4.3="] * 5))]:
            with self.assertRaises(NotName) as caught:
                rdns_of(text)
            self.assertTrue(str(caught.exception).startswith(sentence), (str(caught.exception), sentence))
        for sentence, entry, name in [
                ("'cn' is no dotted type", name_text, [[("cn", "a")]]), ("'1.40' is no dotted type", encoded_name, [[("1.40", "a")]]),
                ("'2.5.4.3\\n' is no dotted type", name_text, [[("2.5.4.3\n", "a")]]), ("an RDN has 0 pairs, not 1 to 4", encoded_rdn, []),
                ("2 RDNs, not one", encoded_rdn, "2.5=a,2.5=b"), ("0 RDNs, not one", encoded_rdn, ""),
                ("the type 2.5.4294967296 has more than 32 subid", encoded_rdn, "2.5.4294967296=a"),
                ("the type 2.4294967216 has", encoded_rdn, "2.4294967216=a"), ("the type 2.5.9999", encoded_rdn, "2.5.%s=a" % ("9" * 5000)),
                ("the type 2.5" + ".1" * 32 + " has more", encoded_rdn, "2.5" + ".1" * 32 + "=a"),
                ("it has 4097 octets, and a value", encoded_rdn, [("2.5", "x" * 4097)]),
                ("it has 6045 octets, and a value at", encoded_name, [[("2.5", "x" * 2000)]] * 3),
                ("a value with a lone surrogate", encoded_rdn, [("2.5", "\ud800")])]:
            with self.assertRaises(NotName) as caught:
                entry(name)
            self.assertTrue(str(caught.exception).startswith(sentence), (str(caught.exception), sentence))
        self.assertEqual(len(encoded_rdn("2.5" + ".1" * 31 + "=a")), 41)
        self.assertEqual(encoded_rdn("2.4294967215=").hex(), "310b300906058fffffff7f1300")

    def test_round_trips(self):
        """Names of drawn values: text and octets, and back; the engine takes them and finds them the same; the second program reads the same text."""
        dice = random.Random(74)
        for _ in range(300):
            rdns = [[(dice.choice([COMMON, COUNTRY, "1.2", "2.999.4294967295"]), "".join(dice.choices(DRAWN, k=dice.randrange(6))))
                     for _ in range(dice.randint(1, 4))] for _ in range(dice.randint(0, 4))]
            text, octets = name_text(rdns), encoded_name(rdns)
            self.assertEqual(rdns_of(text), rdns)
            self.assertEqual(encoded_name(text), octets)
            self.assertEqual([[(".".join(map(str, arcs)), value) for arcs, value in rdn] for rdn in second_names.name_of(text)], rdns)
            self.assertIsNone(tezqulom.check_value(b"\x13", octets))
            stored = value_of(Kind.RDN_SEQUENCE, octets)
            self.assertEqual([sorted(rdn) for rdn in rdns_of(stored)], [sorted(rdn) for rdn in rdns])
            self.assertEqual(encoded_name(stored), octets)
            for asserted in (quoted_name(rdns), quoted_name(text), tezqulom.distinguished.shown(stored)):
                self.assertEqual(tezqulom.ask(b"\x13", octets, tezqulom.item(None, "distinguishedNameMatch", asserted)), Answer(Truth.TRUE, 1), asserted)
            for rdn in rdns:
                self.assertIsNone(tezqulom.check_value(b"\x14", encoded_rdn(rdn)))
                self.assertEqual(encoded_rdn(value_of(Kind.RDN, encoded_rdn(rdn))), encoded_rdn(rdn))

    def test_drawn_texts(self):
        """Drawn texts, most of them no names: those that the second program reads are read, to the same RDNs, and no others."""
        dice, read = random.Random(75), 0
        pieces = ["2.5=", "1.39.0=", "1.40=", "2.05=", "2.5", "cn=", ",", ",", "+", ";", " ", "#", "\\", "\\20",
                  "\\C3", "\\a9", "\\,", "\\ ", "\\n", "a", "=", '"', "\0", "é"]
        for _ in range(20000):
            text = "2.5=" * dice.randrange(2) + "".join(dice.choices(pieces, k=dice.randrange(7)))
            wanted = second_names.name_of(text)
            try:
                found = rdns_of(text)
            except NotName:
                found = None
            self.assertEqual(found, wanted if wanted is None else [[(".".join(map(str, arcs)), value) for arcs, value in rdn] for rdn in wanted], text)
            read += found is not None
        self.assertGreaterEqual(read, 3000)

    def test_value_of(self):
        self.assertEqual(value_of(Kind.RDN_SEQUENCE, encoded_name(HOLDER)), HOLDER_TEXT)
        self.assertEqual(value_of(Kind.RDN_SEQUENCE, b"\xa0" + encoded_name(HOLDER)[1:]), HOLDER_TEXT)
        self.assertEqual(value_of(Kind.RDN_SEQUENCE, b"\x30\0"), "")
        for kind, octets in [(Kind.RDN_SEQUENCE, "3002"), (Kind.RDN_SEQUENCE, "30023100"), (Kind.RDN, "3100"), (Kind.RDN, "310A3008060355040314" "0161")]:
            self.assertRaises(ValueError, value_of, kind, bytes.fromhex(octets))

    def test_octets(self):
        """PrintableString where its characters allow it, else UTF8String; pairs by their encodings."""
        self.assertEqual(encoded_name(HOLDER).hex(), "3034" "310b3009060355040613024155" "310f300d060355040a130641646163656c"
                         "311430120603550403130b53746576656e204c656767")
        for value, tag in [("", 0x13), ("aZ09 '()+,-./:=?", 0x13), ("a@", 0x0C), ("é", 0x0C), ("a\n", 0x0C), ("*", 0x0C), ('"', 0x0C)]:
            self.assertEqual(encoded_rdn([(COMMON, value)])[9], tag, value)
        self.assertEqual(encoded_rdn("2.5.4.5=aa+2.5.4.6=b+2.5.4.3=b").hex(), "311f" "30080603550403130162" "30080603550406130162" "3009060355040513026161")


class LongNames(unittest.TestCase):
    """Members of kind 21, whose names have 25 to 48 characters; document 02's Q-4."""

    TABLE = sequence(member("event", 4), long_member(CATEGORY, 5, presence=2, default=b"\1"), long_member(LONGEST_NAME, 6, 1, 0, 1)) + b"\x08\2" + choice(
        long_member("b" * 25, 9), member("c", 10)) + b"\4\1"
    STORED, ABSENT = bytes.fromhex("300C0C026531020103A0030101FF"), bytes.fromhex("30040C026531")

    def refused(self, refusal, entry, *inputs):
        with self.assertRaises(Refused) as caught:
            entry(*inputs)
        self.assertIs(caught.exception.refusal, refusal)

    def test_listing(self):
        self.assertEqual(tezqulom.check_table(self.TABLE), 11)
        alternative = LONGEST_NAME + ".c"
        for value, reference, named in [
                (self.STORED, CATEGORY, [Stored(6, 3)]), (self.STORED, LONGEST_NAME, [Stored(11, 3)]), (self.STORED, alternative, [Stored(11, 3)]),
                (self.STORED, LONGEST_NAME + "." + "b" * 25, []), (self.ABSENT, CATEGORY, [Default(0, 2)]), (self.ABSENT, LONGEST_NAME, [])]:
            self.assertEqual(tezqulom.listing(self.TABLE, value, reference), named, reference)

    def test_answers(self):
        for component, rule, text, truths in [
                (CATEGORY, "integerMatch", "3", "TRUE FALSE"), (CATEGORY, "integerMatch", "1", "FALSE TRUE"),
                (LONGEST_NAME + ".c", "booleanMatch", "TRUE", "TRUE FALSE"), (LONGEST_NAME, "presentMatch", "NULL", "TRUE FALSE"),
                (CATEGORY, "booleanMatch", "TRUE", "UNDEFINED UNDEFINED")]:
            asked = [tezqulom.ask(self.TABLE, value, item(component, rule, text)).truth.name for value in (self.STORED, self.ABSENT)]
            self.assertEqual(asked, truths.split(), (component, rule, text))

    def test_not_cut(self):
        """A part of a name is not the member, its first 24 letters neither."""
        for name in (CATEGORY[:24], CATEGORY[:25], CATEGORY[:-1], CATEGORY + "s", CATEGORY.lower(), LONGEST_NAME[:24], LONGEST_NAME + "W"):
            self.refused(Refusal.FORM, tezqulom.listing, self.TABLE, self.STORED, name)
            self.assertEqual(tezqulom.ask(self.TABLE, self.STORED, item(name, "presentMatch", "NULL")), Answer(Truth.UNDEFINED, 0))

    def test_both(self):
        """A member whose name is the first 24 letters of another's is another member."""
        table = sequence(member(CATEGORY[:24], 3), long_member(CATEGORY, 4)) + b"\2\1"
        value = bytes.fromhex("3006020105" "0101FF")
        self.assertEqual([tezqulom.listing(table, value, name) for name in (CATEGORY[:24], CATEGORY)], [[Stored(2, 3)], [Stored(5, 3)]])

    def test_one_form(self):
        """Names of up to 24 characters are for kind 16 alone, and zeros stand after a name alone."""
        for letters in range(49):
            name = LONGEST_NAME[:letters]
            if letters > 24:
                self.assertEqual(tezqulom.check_table(sequence(long_member(name, 2)) + b"\2"), 3)
            else:
                self.refused(Refusal.TABLE, tezqulom.check_table, sequence(long_member(name, 2)) + b"\2")
        for name in (CATEGORY + "-", CATEGORY.capitalize(), CATEGORY + "\0s", "\0" + CATEGORY, CATEGORY[:24] + "\0" + CATEGORY[24:]):
            self.refused(Refusal.TABLE, tezqulom.check_table, sequence(long_member(name, 2)) + b"\2")

    def test_sizes(self):
        """Up to 8,064 octets are not refused by their size; the largest table that is admitted has 7,515."""
        for octets in (4992, 4993, 7515, 8063, 8064):
            self.refused(Refusal.TABLE, tezqulom.check_table, b"\2" * octets)
        self.refused(Refusal.SIZE, tezqulom.check_table, b"\2" * 8065)
        most = long_member(LONGEST_NAME, 127)
        self.refused(Refusal.TABLE, tezqulom.check_table, most * 128)
        groups = [sequence(*(long_member("%s%02d" % ("a" * 46, at), 127) for at in range(count))) for count in [16] * 7 + [7]]
        largest = b"".join(groups) + b"\x0c\0"
        self.assertEqual((len(largest), tezqulom.check_table(largest)), (7515, 128))
        self.assertEqual(tezqulom.engine.LONGEST_TABLE, len(most) * 128)


def carried(record):
    """Whether a record has a part with three copies: a worker's question."""
    return tezqulom.ask(LICENCE, record, P1)


class Processes(unittest.TestCase):
    """Answers and refusals between processes."""

    def test_pickling(self):
        for kept in (Answer(Truth.TRUE, 2), Stored(1, 2), Default(1, 2), Count(1, 2), Truth.FALSE, Refusal.ROOM, Time(2024, 2, 29, 12, 0, 0)):
            self.assertEqual(pickle.loads(pickle.dumps(kept)), kept)
        for refusal in Refusal:
            refused = pickle.loads(pickle.dumps(Refused(refusal, "a sentence")))
            self.assertEqual((refused.refusal, str(refused)), (refusal, "refused %d: a sentence" % refusal))

    def test_pool(self):
        with multiprocessing.get_context("spawn").Pool(2) as pool:
            self.assertEqual(pool.map(carried, [RECORD] * 3), [Answer(Truth.TRUE, 2)] * 3)
            with self.assertRaises(Refused) as caught:
                pool.map_async(carried, [RECORD, b"\x30\0", RECORD]).get(60)
        self.assertIs(caught.exception.refusal, Refusal.VALUE)


class Quoting(unittest.TestCase):
    """Texts that are put into filters."""

    HOSTILE = ['x"},item:{rule presentMatch,value NULL},item:{rule presentMatch,value "', '"', '""', "}", "{", '"}', "\\", "'",
               "e1", " ", "é", "\0", "a" * 300, '"' * 300, "\U0001f600"]

    def test_texts(self):
        print("\n  quoted is %s" % ("the library's" if tezqulom.quoted_by_library() else "Python's: the library has no tezqulom_quote"))
        for text in self.HOSTILE:
            self.assertEqual(quoted(text), '"%s"' % text.replace('"', '""'))
            self.assertEqual(tezqulom.engine._quoted_here(text.encode()).decode(), quoted(text))

    def test_nothing_ends_its_item(self):
        for text in self.HOSTILE:
            record = bytes([12, 130, 1, 44]) + text.encode() if len(text) == 300 else bytes([12, len(text.encode())]) + text.encode()
            found = "or:{%s,or:{}}" % tezqulom.item(None, "caseExactMatch", quoted(text))
            self.assertEqual(tezqulom.ask(b"\x08", record, found), Answer(Truth.TRUE, 1), text)
            self.assertEqual(tezqulom.ask(b"\x08", b"\x0c\2zz", found), Answer(Truth.FALSE, 1), text)
            self.assertIn(tezqulom.ask(LICENCE, RECORD, tezqulom.item(text, "presentMatch", "NULL")).truth, (Truth.UNDEFINED, Truth.TRUE))

    def test_library(self):
        if not tezqulom.quoted_by_library():
            self.skipTest("the library has no tezqulom_quote")
        for text, size, answer in [(b'a"b', 7, (0, 6, b'"a""b"\7')), (b'a"b', 6, (0, 6, b'"a""b"')), (b'a"b', 5, (34, 0, b"\7" * 5)),
                                   (b"", 9, (32, 0, b"\7" * 9)), (b"\xc3", 0, (33, 0, b"")), (b"a", 1, (34, 0, b"\7"))]:
            room = (ctypes.c_uint8 * size)(*[7] * size)
            given = library.tezqulom_quote(text, len(text), room, size)
            self.assertEqual((given.number, given.count, bytes(room)), answer)

    def test_bit_list(self):
        for names, text in [(["print", "perform"], "{print,perform}"), ([], "{}"), ({"b", "a-b", "c9"}, "{a-b,b,c9}"), (("a", "a"), "{a,a}")]:
            self.assertEqual(bit_list(names), text)
        for name in self.HOSTILE[:8] + ["", "Print", "a--b", "a-", "a,b", "a b", "a}", "é", "a\n", "9"]:
            self.assertRaises(ValueError, bit_list, ["print", name])
        for names in ("print", b"print", {"print": 0}, [b"print"], [5], 5):
            self.assertRaises(TypeError, bit_list, names)

    ESCAPES = [("", ""), ("Adacel", "Adacel"), ('"', '\\"'), ("+", "\\+"), (",", "\\,"), (";", "\\;"), ("<", "\\<"), (">", "\\>"),
               ("\\", "\\\\"), ("\0", "\\00"),
               (" ", "\\ "), ("  ", "\\ \\ "), (" a b ", "\\ a b\\ "), ("#", "\\#"), ("##", "\\##"), (" #", "\\ #"), ("a#", "a#"), ("a=b", "a=b"), ("=", "="),
               ("a\n", "a\n"), (" \n", "\\ \n"), ("\u00a0", "\u00a0"), ("é\U0001f600", "é\U0001f600"), ("\0" * 300, "\\00" * 300),
               ("\\,", "\\\\\\,"), ("'{}", "'{}")]

    def test_escaped(self):
        print("\n  escaped is %s" % ("the library's" if tezqulom.escaped_by_library() else "Python's: the library has no tezqulom_escape"))
        for value, text in self.ESCAPES:
            self.assertEqual(escaped(value), text)
            self.assertEqual(tezqulom.engine._escaped_here(value.encode()).decode(), text)
            self.assertEqual(rdns_of("2.5.4.3=%s" % text), [[(COMMON, value)]])
        for value in (b"\xff", b"a\xc3", b"\xed\xa0\x80"):
            self.assertRaises(tezqulom.NotQuoted, escaped, value)
            self.assertRaises(tezqulom.NotQuoted, tezqulom.engine._escaped_here, value)
        self.assertRaises(ValueError, escaped, "\ud800")

    def test_escape_of_library(self):
        if not tezqulom.escaped_by_library():
            self.skipTest("the library has no tezqulom_escape")
        for text, size, answer in [(b'a"b', 5, (0, 4, b'a\\"b\7')), (b'a"b', 4, (0, 4, b'a\\"b')), (b'a"b', 3, (34, 0, b"\7" * 3)), (b"", 0, (0, 0, b"")),
                                   (b"", 2, (0, 0, b"\7\7")), (b"\xc3", 0, (33, 0, b"")), (b"a\xc3,", 9, (33, 0, b"\7" * 9)), (b"\0", 3, (0, 3, b"\\00")),
                                   (b"\0", 2, (34, 0, b"\7\7")), (b" ", 2, (0, 2, b"\\ ")), (b" ", 1, (34, 0, b"\7"))]:
            room = (ctypes.c_uint8 * size)(*[7] * size)
            given = library.tezqulom_escape(text, len(text), room, size)
            self.assertEqual((given.number, given.count, bytes(room)), answer)

    def test_names(self):
        self.assertEqual(name_text(HOLDER), HOLDER_TEXT)
        self.assertEqual(name_text(iter(HOLDER)), HOLDER_TEXT)
        self.assertEqual((name_text([]), quoted_name([]), quoted_name("")), ("", '""', '""'))
        self.assertEqual(quoted_name([[(COMMON, 'x"')]]), '"2.5.4.3=x\\"""')
        self.assertEqual(name_text([[(COMMON, "a,b"), (SERIAL, "#")]]), "2.5.4.3=a\\,b+2.5.4.5=\\#")
        for text in self.HOSTILE:
            asserted = quoted_name([[(COUNTRY, "AU")], [(COMMON, text)]])
            self.assertEqual(tezqulom.filters.read("or:{%s}" % tezqulom.item(None, "distinguishedNameMatch", asserted)).filters[0].value, asserted)
            self.assertEqual(rdns_of(asserted[1:-1].replace('""', '"')), [[(COUNTRY, "AU")], [(COMMON, text)]])
            self.assertEqual(quoted_name(asserted[1:-1].replace('""', '"')), asserted)
        self.assertRaises(NotName, quoted_name, 'x"},item:{rule presentMatch,value NULL},item:{rule presentMatch,value "')

    def test_no_pair_or_item_is_ended(self):
        for text in self.HOSTILE:
            record = encoded_name([[(COUNTRY, "AU")], [(COMMON, text)]])
            found = "or:{%s,or:{}}" % tezqulom.item(None, "distinguishedNameMatch", quoted_name([[(COUNTRY, "AU")], [(COMMON, text)]]))
            self.assertEqual(tezqulom.ask(b"\x13", record, found), Answer(Truth.TRUE, 1), text)
            self.assertEqual(tezqulom.ask(b"\x13", encoded_name(HOLDER), found), Answer(Truth.FALSE, 1), text)

    def test_no_quoted_form(self):
        for text in ("", b"\xff", b"\xed\xa0\x80"):
            self.assertRaises(tezqulom.NotQuoted, quoted, text)
        self.assertRaises(ValueError, quoted, "\ud800")


class Values(unittest.TestCase):
    """What stored octets mean."""

    def test_kinds(self):
        for kind, octets, value in [
                (Kind.BOOLEAN, "0101FF", True), (Kind.BOOLEAN, "010100", False), (Kind.INTEGER, "020105", 5), (Kind.INTEGER, "0201FF", -1),
                (Kind.INTEGER, "02087FFFFFFFFFFFFFFF", 2 ** 63 - 1), (Kind.ENUMERATED, "0A0102", 2), (Kind.NULL, "0500", None),
                (Kind.OBJECT_IDENTIFIER, "0603550403", "2.5.4.3"), (Kind.OBJECT_IDENTIFIER, "06058837030405", "2.999.3.4.5"),
                (Kind.OBJECT_IDENTIFIER, "060100", "0.0"), (Kind.OBJECT_IDENTIFIER, "06012A", "1.2"),
                (Kind.OCTET_STRING, "04020AFF", b"\x0a\xff"), (Kind.BIT_STRING, "030204A0", "1010"), (Kind.BIT_STRING, "030100", ""),
                (Kind.BIT_STRING, "03020001", "00000001"),
                (Kind.UTF8_STRING, "0C02C3A9", "é"), (Kind.PRINTABLE_STRING, "130141", "A"), (Kind.IA5_STRING, "160140", "@"),
                (Kind.GENERALIZED_TIME, "180F" + b"20240229120060Z".hex(), Time(2024, 2, 29, 12, 0, 60)),
                (Kind.GENERALIZED_TIME, "1811" + b"20240229120000.5Z".hex(), Time(2024, 2, 29, 12, 0, 0, 500000000)),
                (Kind.SEQUENCE, "3000", b"\x30\0")]:
            self.assertEqual(value_of(kind, bytes.fromhex(octets)), value)
            self.assertEqual(value_of(kind, bytes.fromhex(octets)).__class__, value.__class__)
        self.assertEqual(value_of(Kind.UTF8_STRING, b"\x0c\x81\x80" + b"a" * 128), "a" * 128)
        self.assertEqual(value_of(Kind.OCTET_STRING, b"\x80\x82\1\0" + b"a" * 256), b"a" * 256)
        for octets in ("", "02", "0200", "02020001", "0201", "02010505"):
            self.assertRaises(ValueError, value_of, Kind.INTEGER, bytes.fromhex(octets))
        self.assertEqual(Time(2024, 2, 29, 12, 0, 0, 500000000).datetime().isoformat(), "2024-02-29T12:00:00.500000+00:00")
        self.assertRaises(ValueError, Time(2024, 2, 29, 12, 0, 60).datetime)


class Library(unittest.TestCase):
    """Which shared object is loaded."""

    def load(self, name):
        """Import the module with the environment variable set to this file."""
        environment = {**os.environ, "TEZQULOM_LIBRARY": str(name)}
        program = "import tezqulom; print(tezqulom.check_table(b'\\2'))"
        return subprocess.run([sys.executable, "-B", "-c", program], check=False, capture_output=True,
                              cwd=pathlib.Path(__file__).parent, env=environment, text=True)

    def test_named(self):
        self.assertEqual(self.load(library.file).stdout, "1\n")

    def test_missing(self):
        missing = self.load("/nowhere/lib.so")
        self.assertNotEqual(missing.returncode, 0)
        self.assertIn("there is no /nowhere/lib.so", missing.stderr)


class Header(unittest.TestCase):
    """The module's declarations are those of the C header."""

    TEXT = re.sub(r"/\*.*?\*/", "", (ROOT / "include" / "tezqulom.h").read_text(), flags=re.DOTALL)
    TYPES = {"const uint8_t *": ctypes.c_char_p, "uint64_t ": ctypes.c_uint64,
             "uint64_t *": ctypes.POINTER(ctypes.c_uint64), "uint8_t *": ctypes.POINTER(ctypes.c_uint8)}

    def test_numbers(self):
        numbers = {name: int(number) for name, number in re.findall(r"TEZQULOM_(\w+) = (\d+)", self.TEXT)}
        ours = {"DONE": 0, **{truth.name: truth.value for truth in Truth}}
        ours.update(("REFUSED_" + refusal.name, refusal.value) for refusal in Refusal)
        ours.update(QUOTE_EMPTY=32, QUOTE_UTF8=33, QUOTE_ROOM=34)
        self.assertEqual(numbers, ours)

    def test_functions(self):
        functions = dict(re.findall(r"tezqulom_answer (tezqulom_\w+)\(([^)]*)\)", self.TEXT))
        for entry in ("check_table", "check_value", "part", "list", "ask"):
            self.assertIn("tezqulom_" + entry, functions)
        for name, arguments in functions.items():
            if name in WRITERS and not hasattr(library, name):
                continue
            types = [self.TYPES[re.fullmatch(r"\s*(.*?)\w+", one).group(1)] for one in arguments.split(",")]
            self.assertEqual(getattr(library, name).argtypes, types, name)


class Drawn(unittest.TestCase):
    """Cases that the second program draws and answers."""

    def compare(self, cases, least):
        """Compare the answers, on four threads; each answer comes at least so often, and no other."""
        with concurrent.futures.ThreadPoolExecutor(4) as threads:
            for case, answer in zip(cases, threads.map(answered, cases), strict=True):
                self.assertEqual(answer, case.answer, case)
        seen = Counter((case.entry, case.kind_of_answer()) for case in cases)
        lines = ["%s %s: %d" % (*key, seen[key]) for key in sorted(seen)] + ["total: %d" % len(cases)]
        print("", *lines, sep="\n  ")
        for entry, answers in ANSWERS.items():
            for answer in answers:
                self.assertGreaterEqual(seen[entry, answer], least, (entry, answer))
        self.assertEqual(len(seen), sum(map(len, ANSWERS.values())))

    def test_small(self):
        cases = draw.corpus(71, SMALL_CASES)
        self.assertEqual(len(cases), SMALL_CASES)
        self.compare(cases, 10)

    def test_names(self):
        drawer = draw.CaseDrawer(73, names=True)
        self.compare([drawer.case() for _ in range(NAME_CASES)], 1)

    def test_large(self):
        drawer = draw.CaseDrawer(72, draw.LARGE)
        cases = [drawer.of(entry) for entry in ANSWERS for _ in range(LARGE_CASES)]
        self.assertEqual(len(cases), 5 * LARGE_CASES)
        long = sum(any(isinstance(one, bytes) and len(one) > 1000 for one in case.inputs) for case in cases)
        self.assertGreaterEqual(long, 150)
        self.compare(cases, 1)


if __name__ == "__main__":
    unittest.main()
