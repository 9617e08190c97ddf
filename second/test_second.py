"""Tests of the second program: python3 -m unittest discover -s second"""

import random
import unittest

import compare
import draw
import engine
import filters
import reference
import table as types
import value as values
from bit_cases import Bits
from edge_cases import Contents, Filters, Tables
from long_cases import LongNames
from name_cases import Names
from preparation_cases import Preparation
from rule_cases import Published, Rules
from samples import LICENCE, RECORD, asked, item, listed, of, tlv

__all__ = ["Bits", "Contents", "Filters", "LongNames", "Names", "Tables", "Preparation", "Published", "Rules"]

COPIES = "parts.*.copies"


class Licence(unittest.TestCase):
    """The section "One licence record"."""

    def test_sizes(self):
        self.assertEqual((len(LICENCE), len(RECORD)), (206, 23))
        self.assertEqual(engine.check_table(LICENCE), ("admitted", 12))
        self.assertEqual(engine.check_value(LICENCE, RECORD), ("good",))

    def test_asked(self):
        p5 = item("event", "integerMatch", "3")
        for text, answer in [
                (item(COPIES, "integerMatch", "3"), "TRUE 2"), (item(COPIES, "integerMatch", "7"), "FALSE 2"),
                (item(COPIES, "integerMatch", "1", "FALSE"), "FALSE 1"),
                (item(COPIES, "integerOrderingMatch", "2"), "TRUE 1"), (p5, "UNDEFINED 0"),
                ("not:" + p5, "UNDEFINED 0"), ("and:{ }", "TRUE 0"), ("or:{ }", "FALSE 0"),
                (item("seats", "integerMatch", "9223372036854775808"), "FALSE 1"),
                (item("parts.3", "presentMatch", "NULL"), "FALSE 0")]:
            self.assertEqual(asked(LICENCE, RECORD, text), answer, text)

    def test_listed(self):
        self.assertEqual(listed(LICENCE, RECORD, COPIES), [(1, 8, 9), (0, 20, 3)])
        self.assertEqual(listed(LICENCE, RECORD, "parts.0"), [(2, 6, 2)])
        self.assertEqual(listed(LICENCE, RECORD, COPIES, False), [(0, 20, 3)])
        self.assertEqual(listed(LICENCE, RECORD, None), [(0, 0, 23)])
        self.assertEqual(listed(LICENCE, RECORD, "seats"), [(1, 0, 2)])
        self.assertEqual(listed(LICENCE, RECORD, "parts"), [(0, 6, 17)])
        self.assertEqual(listed(LICENCE, RECORD, "parts.-1.name"), [(0, 16, 4)])
        self.assertEqual(listed(LICENCE, RECORD, "parts.-3"), [])

    def test_run_only(self):
        p1 = 'item:{component "parts.*.copies",rule integerMatch,value 3}'
        self.assertEqual(asked(LICENCE, RECORD, p1), "TRUE 2")
        self.assertEqual(asked(LICENCE, RECORD, p1, 1), "REFUSED 5")
        self.assertEqual(asked(LICENCE, RECORD, p1, 2), "TRUE 2")
        self.assertEqual(listed(LICENCE, RECORD, COPIES, room=5), 6)
        self.assertEqual(len(listed(LICENCE, RECORD, COPIES, room=6)), 2)
        stored = bytes.fromhex("3018 0C026531 020101 300F30041302566C300713025661800103")
        self.assertEqual(engine.check_value(LICENCE, stored), ("refused", 4))
        stored = stored.replace(b"\2\1\1", b"\2\1\2")
        self.assertEqual(engine.check_value(LICENCE, stored), ("good",))
        self.assertEqual(asked(LICENCE, b"", ""), "REFUSED 1")

    def test_mistakes(self):
        self.assertEqual(asked(LICENCE, RECORD, "not:" + item("parts.3", "presentMatch", "NULL")), "TRUE 0")
        self.assertEqual(asked(LICENCE, RECORD, "not:" + item("nothing", "presentMatch", "NULL")), "UNDEFINED 0")
        two = bytes.fromhex("3012 0C026531 300C 3004130256 6C 30041302566C")
        self.assertEqual(listed(LICENCE, two, COPIES), [(1, 8, 9), (1, 14, 9)])
        for text in ("18446744073709551617", "4294967297", "-18446744073709551615"):
            self.assertEqual(asked(LICENCE, RECORD, item("seats", "integerMatch", text)), "FALSE 1")
            self.assertEqual(asked(LICENCE, RECORD, item("seats", "integerOrderingMatch", text)),
                             "FALSE 1" if text[0] == "-" else "TRUE 1")


class Lists(unittest.TestCase):
    """RFC 3687 section 4 and the left-to-right reading."""

    def test_truths(self):
        yes, no = item("seats", "integerMatch", "1"), item("seats", "integerMatch", "2")
        what = item("seats", "booleanMatch", "TRUE")
        for word, parts, answer in [
                ("and", [yes, yes], "TRUE 2"), ("and", [no, yes], "FALSE 1"), ("and", [what, no, yes], "FALSE 1"),
                ("and", [yes, what], "UNDEFINED 1"), ("and", [what, yes, yes], "UNDEFINED 2"),
                ("or", [no, no], "FALSE 2"), ("or", [yes, no], "TRUE 1"), ("or", [what, yes, no], "TRUE 1"),
                ("or", [no, what, no], "UNDEFINED 2"), ("or", ["and:{%s,%s}" % (no, yes), yes], "TRUE 2")]:
            text = "%s:{%s}" % (word, ",".join(parts))
            self.assertEqual(asked(LICENCE, RECORD, text), answer, text)
            need = int(answer.split()[1])
            self.assertEqual(asked(LICENCE, RECORD, text, need), answer)
            self.assertEqual(asked(LICENCE, RECORD, text, need - 1), "REFUSED 5")

    def test_references(self):
        for text in ("parts.0.x", "parts.01", "parts.-0", "parts.+1", "parts.00", "parts.", ".parts", "parts..1",
                     "parts.*.0", "event.1", "event.x", "1", "*", "0", "content", "parts.content", "parts.(1)",
                     "Seats", "seatS", "parts.1.copies.x", "parts name", "", "parts.--1", "parts.1-", "parts.-"):
            self.assertEqual(listed(LICENCE, RECORD, text), 3, text)
            self.assertEqual(asked(LICENCE, RECORD, item(text, "presentMatch", "NULL")), "UNDEFINED 0", text)
        for text in ("parts." + "9" * 2000, "parts.-" + "9" * 1900, "parts.3", "parts.3.copies"):
            self.assertEqual(listed(LICENCE, RECORD, text), [])


class Entries(unittest.TestCase):
    """The section "Refusal numbers" and the laws."""

    def test_order(self):
        bad = b"\0"
        self.assertEqual(engine.ask(bad, RECORD, b"x", 65536), ("refused", 1))
        self.assertEqual(engine.ask(bad, b"xx", b"x", 65535), ("refused", 2))
        self.assertEqual(engine.ask(LICENCE, b"xx", b"x", 0), ("refused", 3))
        self.assertEqual(engine.ask(LICENCE, b"xx", b"and:{}", 0), ("refused", 4))
        self.assertEqual(engine.ask(LICENCE, RECORD, b"and:{" + b" " * 2042 + b"}", 0), ("answer", "TRUE", 0))
        self.assertEqual(engine.ask(LICENCE, RECORD, b"and:{" + b" " * 2043 + b"}", 0), ("refused", 1))
        self.assertEqual(engine.check_value(bad, b"x"), ("refused", 1))
        self.assertEqual(engine.check_value(b"", b"xx"), ("refused", 1))
        self.assertEqual(engine.check_value(bad, b"xx"), ("refused", 2))

    def test_listing(self):
        self.assertEqual(engine.listing(LICENCE, RECORD, True, b"a" * 2049, True, 0), ("refused", 1))
        self.assertEqual(engine.listing(LICENCE, RECORD, True, b"a" * 2048, True, 0), ("refused", 3))
        self.assertEqual(engine.listing(LICENCE, RECORD, False, b"a" * 2049, True, 3), ("listed", [(0, 0, 23)]))
        self.assertEqual(engine.listing(LICENCE, RECORD, False, b"", True, 2), ("refused", 6))
        self.assertEqual(engine.listing(LICENCE, RECORD, True, b"", True, 9), ("refused", 3))
        self.assertEqual(engine.listing(LICENCE, RECORD, True, b"\xff", True, 9), ("refused", 3))
        self.assertEqual(engine.listing(LICENCE, b"xx", True, b"parts", True, 0), ("refused", 4))
        self.assertEqual(engine.listing(LICENCE, RECORD, True, b"parts.7", True, 0), ("listed", []))

    def test_part(self):
        self.assertEqual(engine.part(RECORD, 20, 3), ("part", b"\x80\1\3"))
        self.assertEqual(engine.part(RECORD, 23, 0), ("part", b""))
        self.assertEqual(engine.part(RECORD, 23, 1), ("refused", 4, b""))
        self.assertEqual(engine.part(RECORD, 24, 0), ("refused", 4, b""))
        self.assertEqual(engine.part(RECORD, 2 ** 64 - 1, 1), ("refused", 4, b""))
        for size, answer in ((1, 1), (2, None), (4096, None), (4097, 1)):
            found = engine.part(bytes(size), 0, 1)
            self.assertEqual(found, ("refused", 1, b"") if answer else ("part", b"\0"))

    def test_the_bound_is_no_cap(self):
        table, value = of(14, 1) + b"\6", tlv(0x30, *[b"\4\0"] * 2046)
        text = "or:{" + ",".join([item("*", "2.5.13.17", "'00'H")] * 41) + "}"
        self.assertEqual(asked(table, value, text), "REFUSED 5")
        text = "or:{" + ",".join([item("*", "2.5.13.17", "'00'H")] * 32) + "}"
        self.assertEqual(asked(table, value, text), "FALSE %d" % (32 * 2046))
        self.assertEqual(asked(table, value, text, 32 * 2046), "FALSE %d" % (32 * 2046))
        self.assertEqual(asked(table, value, text, 32 * 2046 - 1), "REFUSED 5")

    def test_misfit(self):
        rows = types.Table(LICENCE)
        for broken in (RECORD[:1] + b"\x14" + RECORD[2:], RECORD[:9] + b"\x05" + RECORD[10:]):
            with self.assertRaises(reference.Misfit):
                [*reference.Walk(rows, broken, True).named(["parts", "*", "copies"])]


class Drawn(unittest.TestCase):
    """The generator, and laws on what it draws."""

    def laws(self, cases):
        for case in cases:
            if case.entry == "ask" and case.answer[0] == "answer":
                items = filters.items(filters.parse(case.inputs[2]))
                self.assertLessEqual(case.answer[2], items * (len(case.inputs[1]) // 2))
            if case.entry == "list" and case.answer[0] == "listed":
                places = [place for _, place, _ in case.answer[1]]
                self.assertTrue(all(one < other for one, other in zip(places, places[1:])))
                self.same_as_tree(case)

    def same_as_tree(self, case):
        table, octets, given, text, defaults, _ = case.inputs
        rows = types.Table(table)
        steps = reference.parse(text.decode()) if given else []
        named = reference.named_in_tree(rows, values.decode(rows, octets), steps, defaults)
        self.assertEqual(case.answer[1], [(one.source, one.place, one.number) for one in named])
        self.assertEqual(named, [*reference.Walk(rows, octets, defaults).named(steps)])

    def test_small(self):
        cases = draw.corpus(2024, 4000)
        self.laws(cases)
        self.assertEqual(draw.coverage(cases)[1], [])
        for case in cases:
            if case.entry != "part":
                self.assertLessEqual(len(case.inputs[0]), draw.SMALL.table + 60)
        self.assertEqual(cases[:50], draw.corpus(2024, 50))

    def test_large(self):
        self.laws(draw.corpus(7, 250, draw.LARGER))

    def test_any_octets(self):
        dice = random.Random(5)
        for _ in range(4000):
            octets = [bytes(dice.choice([0, 1, 2, 12, 13, 14, 16, 48, 97, 123, 255])
                            for _ in range(dice.randint(0, 12))) for _ in range(3)]
            engine.check_table(octets[0])
            engine.ask(*octets, 5)
            engine.ask(LICENCE, *octets[1:], 5)
            engine.ask(LICENCE, RECORD, octets[2], 5)
            engine.listing(LICENCE, RECORD, True, octets[2], False, 5)
            engine.check_value(LICENCE, octets[0])

    def test_text_of_a_case(self):
        case = draw.Case("part", (b"\5\0", 0, 2), engine.part(b"\5\0", 0, 2))
        self.assertEqual(compare.case_lines("case1", case, ["x", "y"])[:3], [
            'case1 : shown_part (hex "0500") 0 2 ≡ 0 ∷ 5 ∷ 0 ∷ []', "unfolding x y", "case1 = refl"])
        self.assertEqual(compare.shown_answer(("listed", [(1, 8, 9)])), [0, 1, 1, 8, 9])


if __name__ == "__main__":
    unittest.main()
