"""Tests of the table builder, of the causes of refusals and of the tree of a record, on cases that the second program draws."""

import doctest
import pathlib
import re
import subprocess
import sys
import tempfile
import unittest

import tezqulom
import tezqulom.builder as build
import tezqulom.inputs
import tezqulom.rows
from tezqulom import Count, Default, Kind, Refusal, Refused, Stored, Truth, clauses, filters, records
from tezqulom.der import encoded
from tezqulom.rows import Table

ROOT = pathlib.Path(__file__).resolve().parents[2]
sys.path.insert(0, str(ROOT / "second"))

import corpus_names  # noqa: E402
import draw  # noqa: E402
from rows import long_member, member  # noqa: E402
from samples import CATEGORY, CLASSES, EXAMPLE, LICENCE, LONGEST_NAME, RECORD  # noqa: E402

try:
    from pyasn1.codec.der import encoder
    from pyasn1.type import char, namedtype, namedval, tag, univ, useful
except ImportError:
    encoder = None
    print("  pyasn1's classes and records SKIPPED, it is not installed")

DRAWN = 1500
NOT_FOUND = "not found"
RIGHTS = {"print": 0, "perform": 1, "record": 2}


def load_tests(_loader, tests, _pattern):
    """The examples in the modules' docstrings are tests too."""
    for module in (build, tezqulom.inputs, tezqulom.rows):
        tests.addTests(doctest.DocTestSuite(module))
    return tests


def licence():
    part = build.Sequence(name=build.PrintableString(), copies=build.Default(build.Implicit(0, build.Integer()), 1))
    return build.Sequence(event=build.UTF8String(), seats=build.Default(build.Integer(), 1), parts=build.SequenceOf(part))


def bit_row(name, number):
    return b"\x12" + name.encode().ljust(24, b"\0") + bytes([number])


RIGHTS_TABLE = b"\x11\3" + b"".join(bit_row(*bit) for bit in RIGHTS.items())


class Descriptions(unittest.TestCase):
    """Tables from descriptions."""

    def test_tables(self):
        self.assertEqual(build.build(licence()), LICENCE)
        example = build.Sequence(
            part1=build.Explicit(0, build.Integer()),
            part2=build.Explicit(1, build.Sequence(option=build.PrintableString(), setting=build.Boolean())),
            part3=build.Explicit(2, build.SetOf(build.ObjectIdentifier())),
            part4=build.Explicit(3, build.Choice(eeny_meeny=build.BitString(), miney_mo=build.OctetString())))
        self.assertEqual(Table(build.build(example)).text(), Table(EXAMPLE).text())
        self.assertEqual(tezqulom.check_table(build.build(build.Sequence())), 1)

    def test_named_bits(self):
        self.assertEqual(build.build(build.BitString(print=0, perform=1, record=2)), RIGHTS_TABLE)
        self.assertEqual(build.build(build.BitString(RIGHTS)), RIGHTS_TABLE)
        self.assertEqual(build.build(build.BitString({"a": 63}, b_c=5)), b"\x11\2" + bit_row("a", 63) + bit_row("b-c", 5))
        self.assertEqual(build.build(build.BitString()), b"\x07")
        most = build.BitString({"n%d" % at: 4 * at for at in range(16)})
        self.assertEqual(tezqulom.check_table(build.build(build.Sequence(a=build.Optional(most), b=build.Implicit(0, most), c=build.SetOf(most)))), 56)
        table = Table(build.build(build.Sequence({"m%d" % at: most for at in range(8)})))
        self.assertEqual((len(table.rows), table.bits(9)["n3"], table.bits(0)), (26, 12, {}))

    def test_named_bits_text(self):
        table = Table(build.build(build.Sequence(rights=build.Optional(build.Implicit(0, build.BitString(RIGHTS))), plain=build.BitString())))
        self.assertEqual(table.text().splitlines(), [
            "SEQUENCE", "  rights [0] IMPLICIT BIT STRING {print(0), perform(1), record(2)} OPTIONAL", "  plain BIT STRING"])

    def test_names(self):
        self.assertEqual((build.build(build.RDNSequence()), build.build(build.RelativeDistinguishedName())), (b"\x13", b"\x14"))
        table = Table(build.build(build.Sequence(holder=build.RDNSequence(), agent=build.Optional(build.Implicit(0, build.RelativeDistinguishedName())),
                                                 others=build.SetOf(build.RDNSequence()))))
        self.assertEqual(table.text().splitlines(), ["SEQUENCE", "  holder RDNSequence", "  agent [0] IMPLICIT RelativeDistinguishedName OPTIONAL",
                                                     "  others SET OF", "    * RDNSequence"])
        self.assertEqual(tezqulom.check_table(table.octets), 8)
        lists = build.RDNSequence()
        for _ in range(15):
            lists = build.SequenceOf(lists)
        self.assertEqual(tezqulom.check_table(build.build(lists)), 16)
        with self.assertRaisesRegex(build.TableError, "more than 16 types in one another"):
            build.build(build.SequenceOf(lists))

    def test_names_errors(self):
        for sentence, given in [
                ("^b: members a and b start with the same tag", build.Sequence(a=build.Optional(build.RDNSequence()), b=build.Sequence())),
                ("^b: members a and b start", build.Sequence(a=build.Optional(build.SequenceOf(build.Integer())), b=build.RDNSequence())),
                ("^b: alternatives a and b start", build.Choice(a=build.RelativeDistinguishedName(), b=build.SetOf(build.Null()))),
                ("^b: alternatives a and b start", build.Choice(a=build.RDNSequence(), b=build.RDNSequence())),
                ("^a: a default on RDNSequence; only", build.Sequence(a=build.Default(build.RDNSequence(), 1))),
                ("^a: RDNSequence is no description; write RDNSequence()", build.Sequence(a=build.RDNSequence))]:
            with self.assertRaisesRegex(build.TableError, sentence):
                build.build(given)
        self.assertEqual(tezqulom.check_table(build.build(build.Choice(a=build.RDNSequence(), b=build.RelativeDistinguishedName()))), 5)

    def test_long_names(self):
        """The kind of a member's row goes by the length of its name."""
        table = build.build(build.Sequence({"event": build.UTF8String(), CATEGORY: build.Optional(build.Implicit(0, build.Integer()))}))
        self.assertEqual(table, b"\x0c\2" + member("event", 3) + long_member(CATEGORY, 4, 2, 0, 1) + b"\x08\2")
        self.assertEqual(Table(table).text().splitlines(), ["SEQUENCE", "  event UTF8String", "  %s [0] IMPLICIT INTEGER OPTIONAL" % CATEGORY])
        for letters in range(1, len(LONGEST_NAME) + 1):
            name = LONGEST_NAME[:letters]
            row = Table(build.build(build.Choice({name: build.Integer()}))).rows[1]
            self.assertEqual((row.kind, row.identifier), (Kind.MEMBER if letters <= 24 else Kind.LONG_MEMBER, name))
        default = Table(build.build(build.Sequence(educational_concession_category=build.Default(build.Boolean(), True)))).rows[1]
        self.assertEqual((default.kind, default.identifier, default.default), (Kind.LONG_MEMBER, "educational-concession-category", b"\xff"))

    def test_long_names_errors(self):
        for sentence, given in [
                ("^a{49}: a member's name has at most 48 characters", build.Sequence({"a" * 49: build.Integer()})),
                ("^c.a{49}: a member's name has at most 48", build.Sequence(c=build.Choice({"a" * 49: build.Integer()}))),
                ("^r.a{25}: a named bit's name has at most 24 characters", build.Sequence(r=build.BitString({"a" * 25: 0}))),
                ("^Educ[^ ]*: its name is not a lowercase letter", build.Sequence({CATEGORY.capitalize(): build.Integer()})),
                ("^a{24}é: its name is not a lowercase letter", build.Sequence({"a" * 24 + "é": build.Integer()})),
                ("^a{24}-b: member a{24}-b has the name of row 1", build.Sequence({"a" * 24 + "-b": build.Integer()}, **{"a" * 24 + "_b": build.Null()})),
                ("^%s: members a and %s start with the same tag" % (CATEGORY, CATEGORY),
                 build.Sequence({"a": build.Optional(build.Integer()), CATEGORY: build.Integer()}))]:
            with self.assertRaisesRegex(build.TableError, sentence):
                build.build(given)

    def test_defaults(self):
        for kind, default, contents in [(build.Boolean(), True, b"\xff"), (build.Boolean(), False, b"\0"), (build.Integer(), -129, b"\xff\x7f"),
                                        (build.Integer(), 2 ** 63 - 1, b"\x7f" + b"\xff" * 7), (build.Enumerated(), 128, b"\0\x80")]:
            self.assertEqual(Table(build.build(build.Sequence(a=build.Default(kind, default)))).rows[1].default, contents)

    def test_shared(self):
        """A description of more than 128 rows is laid out with equal types once."""
        one = build.Sequence({"n%d" % at: build.Sequence(x=build.Integer()) for at in range(3)})
        table = build.build(build.Sequence({"m%d" % at: one for at in range(16)}))
        self.assertEqual(tezqulom.check_table(table), 24)
        self.assertIn("m1 SEQUENCE, as in line 2", Table(table).text())

    def test_errors(self):
        deep = build.Integer()
        for _ in range(16):
            deep = build.SequenceOf(deep)
        many = {"m%d" % at: build.Integer() for at in range(17)}
        for sentence, given in [
                ("5 is no description", 5), ("a: 5 is no description", build.Sequence(a=5)),
                ("a.b: None is no description", build.Sequence(a=build.Sequence(b=None))),
                ("a: the default of INTEGER is not 'x'", build.Sequence(a=build.Default(build.Integer(), "x"))),
                ("a: the default of INTEGER is not True", build.Sequence(a=build.Default(build.Integer(), True))),
                ("a: the default 9223372036854775808 has", build.Sequence(a=build.Default(build.Integer(), 2 ** 63))),
                ("a: a default on UTF8String", build.Sequence(a=build.Default(build.UTF8String(), 1))),
                ("A: its name is not", build.Sequence(A=build.Integer())), ("a-: its name is not", build.Sequence(a_=build.Integer())),
                ("b: members a and b start with the same tag", build.Sequence(a=build.Optional(build.Integer()), b=build.Integer())),
                ("CHOICE of 0 members", build.Choice()), ("SEQUENCE of 17 members", build.Sequence(many)),
                ("q.c: an implicit tag on a CHOICE", build.Sequence(q=build.Sequence(c=build.Implicit(0, build.Choice(a=build.Null()))))),
                ("tags and presence stand on members only", build.Optional(build.Integer())),
                (r"\*: tags and presence stand on members only", build.SequenceOf(build.Explicit(1, build.Integer()))),
                ("when: no row for UTCTime", build.Sequence(when=build.Optional(build.UTCTime()))), ("s: no row for Set", build.Sequence(s=build.Set(a=1))),
                ("a: tag number 31, not 0 to 30", build.Sequence(a=build.Implicit(31, build.Integer()))),
                ("more than 16 types in one another", deep), ("a: BitString is no description; write", build.Sequence(a=build.BitString)),
                ("r: named bit print: bit number 64, not 0 to 63", build.Sequence(r=build.BitString(print=64))),
                ("^named bit print: bit number True, not", build.BitString(print=True)), ("^named bit print: bit number '0'", build.BitString(print="0")),
                ("^named bit 0: its name is no text", build.BitString({0: 1})),
                ("a: a default on BIT STRING", build.Sequence(a=build.Default(build.BitString(RIGHTS), 1))),
                ("290 rows, more than 128", build.Sequence(
                    {"m%d" % at: build.Sequence({"n%d-%d" % (at, of): build.Integer() for of in range(16)}) for at in range(16)}))]:
            with self.assertRaisesRegex(build.TableError, sentence):
                build.build(given)
        self.assertRaises(build.TableError, build.Optional, build.Optional(build.Integer()))

    def test_named_bits_errors(self):
        for sentence, given in [
                ("^BIT STRING of 0 names, not 1 to 16", build.BitString({})),
                ("^BIT STRING of 17 names, not 1 to 16", build.BitString({"n%d" % at: at for at in range(17)})),
                ("r: named bits a and b have the same number", build.Sequence(r=build.BitString(a=1, b=1))),
                ("named bit a-b has the name of row 1", build.BitString({"a-b": 0}, a_b=1)),
                ("r: named bit Print: its name is not a lowercase", build.Sequence(r=build.BitString(Print=0))),
                ("b: members a and b start with the same tag", build.Sequence(a=build.Optional(build.BitString(RIGHTS)), b=build.BitString()))]:
            with self.assertRaisesRegex(build.TableError, sentence):
                build.build(given)

    def test_text(self):
        self.assertEqual(Table(LICENCE).text().splitlines()[1:4], ["  event UTF8String", "  seats INTEGER DEFAULT 1", "  parts SEQUENCE OF"])
        self.assertIn("mandatories [3] EXPLICIT SET OF OPTIONAL", Table(CLASSES).text())


@unittest.skipIf(encoder is None, "pyasn1 is not installed")
class Pyasn1(unittest.TestCase):
    """Tables from pyasn1's classes, and records that pyasn1 encodes."""

    @staticmethod
    def sequence(*members):
        return type("S", (univ.Sequence,), {"componentType": namedtype.NamedTypes(*members)})

    def licence(self):
        copies = univ.Integer(1).subtype(implicitTag=tag.Tag(tag.tagClassContext, tag.tagFormatSimple, 0))
        part = self.sequence(namedtype.NamedType("name", char.PrintableString()), namedtype.DefaultedNamedType("copies", copies))
        parts = type("P", (univ.SequenceOf,), {"componentType": part()})
        return self.sequence(namedtype.NamedType("event", char.UTF8String()), namedtype.DefaultedNamedType("seats", univ.Integer(1)),
                             namedtype.NamedType("parts", parts()))

    def test_licence(self):
        described = self.licence()
        self.assertEqual(build.build(described), LICENCE)
        self.assertEqual(build.build(described()), LICENCE)
        record = described()
        record["event"] = "e1"
        for at, (name, copies) in enumerate((("Vl", None), ("Va", 3))):
            record["parts"][at]["name"] = name
            if copies is not None:
                record["parts"][at]["copies"] = copies
        self.assertEqual(encoder.encode(record), RECORD)

    def test_marks(self):
        def context(number):
            return tag.Tag(tag.tagClassContext, tag.tagFormatConstructed, number)
        choice = type("C", (univ.Choice,), {"componentType": namedtype.NamedTypes(
            namedtype.NamedType("a", univ.Integer()), namedtype.NamedType("b", univ.Null().subtype(explicitTag=context(2))))})
        described = self.sequence(namedtype.NamedType("c", choice()), namedtype.OptionalNamedType("d", choice().subtype(explicitTag=context(1))),
                                  namedtype.DefaultedNamedType("e", univ.Boolean(True)), namedtype.OptionalNamedType("f", useful.GeneralizedTime()),
                                  namedtype.OptionalNamedType("g", univ.Sequence().subtype(implicitTag=context(4))))
        self.assertEqual(Table(build.build(described)).text().splitlines(), [
            "SEQUENCE", "  c CHOICE", "    a INTEGER", "    b [2] EXPLICIT NULL", "  d [1] EXPLICIT CHOICE OPTIONAL", "    a INTEGER",
            "    b [2] EXPLICIT NULL", "  e BOOLEAN DEFAULT TRUE", "  f GeneralizedTime OPTIONAL", "  g [4] IMPLICIT SEQUENCE OPTIONAL"])

    def test_named_bits(self):
        rights = type("R", (univ.BitString,), {"namedValues": namedval.NamedValues(*RIGHTS.items())})
        self.assertEqual(build.build(rights), RIGHTS_TABLE)
        tagged = rights().subtype(implicitTag=tag.Tag(tag.tagClassContext, tag.tagFormatSimple, 0))
        table = build.build(self.sequence(namedtype.NamedType("a", tagged), namedtype.NamedType("b", univ.BitString())))
        self.assertEqual(Table(table).text().splitlines()[1:], ["  a [0] IMPLICIT BIT STRING {print(0), perform(1), record(2)}", "  b BIT STRING"])
        for names in (["print"], ["perform", "record"], ["print", "record"]):
            self.assertEqual(encoder.encode(rights(",".join(names))), records.encoded_bits(RIGHTS_TABLE, None, names))

    def test_long_names(self):
        described = self.sequence(namedtype.NamedType("event", char.UTF8String()), namedtype.OptionalNamedType(CATEGORY, univ.Integer()))
        self.assertEqual(build.build(described), b"\x0c\2" + member("event", 3) + long_member(CATEGORY, 4, presence=1) + b"\x08\2")
        with self.assertRaisesRegex(build.TableError, "a{49}: a member's name has at most 48 characters"):
            build.build(self.sequence(namedtype.NamedType("a" * 49, univ.Integer())))

    def rdns(self, value=None, pair_tag=None):
        """X.501's RDNSequence and RelativeDistinguishedName, as pyasn1's classes."""
        pair = self.sequence(namedtype.NamedType("type", univ.ObjectIdentifier()), namedtype.NamedType("value", univ.Any() if value is None else value))
        rdn = type("RDN", (univ.SetOf,), {"componentType": pair() if pair_tag is None else pair().subtype(implicitTag=pair_tag)})
        return type("RDNs", (univ.SequenceOf,), {"componentType": rdn()}), rdn

    def test_names(self):
        rdns, rdn = self.rdns()
        self.assertEqual((build.build(rdns), build.build(rdn), build.build(rdns())), (b"\x13", b"\x14", b"\x13"))
        context = tag.Tag(tag.tagClassContext, tag.tagFormatConstructed, 0)
        name = type("Name", (univ.Choice,), {"componentType": namedtype.NamedTypes(namedtype.NamedType("rdnSequence", rdns()))})
        table = build.build(self.sequence(namedtype.NamedType("a", rdns().subtype(implicitTag=context)), namedtype.OptionalNamedType("b", name())))
        self.assertEqual(Table(table).text().splitlines()[1:], ["  a [0] IMPLICIT RDNSequence", "  b CHOICE OPTIONAL", "    rdnSequence RDNSequence"])
        record = rdns()
        for at, (kind, value) in enumerate((("2.5.4.6", "AU"), ("2.5.4.3", "Steven Legg"))):
            record[at][0]["type"] = kind
            record[at][0]["value"] = encoder.encode(char.PrintableString(value))
        self.assertEqual(encoder.encode(record), records.encoded_name(b"\x13", None, "2.5.4.3=Steven Legg,2.5.4.6=AU"))
        self.assertEqual(Table(build.build(self.rdns(char.UTF8String())[0])).text().splitlines()[:2], ["SEQUENCE OF", "  * SET OF"])
        for other in (self.rdns(univ.Any().subtype(explicitTag=context)), self.rdns(None, context)):
            for given in other:
                self.assertRaises(build.TableError, build.build, given)

    def test_no_row(self):
        application = tag.Tag(tag.tagClassApplication, tag.tagFormatSimple, 1)
        for sentence, given in [("when: no row for UTCTime", useful.UTCTime()), ("when: no row for Any", univ.Any()), ("when: no row for Set", univ.Set()),
                                ("when: no row for Real", univ.Real()), ("when: no row for NumericString", char.NumericString()),
                                ("when: no row for the tags of Integer", univ.Integer().subtype(implicitTag=application))]:
            with self.assertRaisesRegex(build.TableError, sentence):
                build.build(self.sequence(namedtype.NamedType("when", given)))
        with self.assertRaisesRegex(build.TableError, "stand on members only"):
            build.build(univ.Integer().subtype(implicitTag=tag.Tag(tag.tagClassContext, tag.tagFormatSimple, 1)))
        with self.assertRaisesRegex(build.TableError, "x: a default on UTF8String"):
            build.build(self.sequence(namedtype.DefaultedNamedType("x", char.UTF8String("a"))))


class Causes(unittest.TestCase):
    """Why tables, values and filters are refused: a cause exactly where the engine refuses, and it is found."""

    def drawn(self, entry, seed):
        drawer = draw.CaseDrawer(seed, draw.SMALL)
        cases = [drawer.of(entry) for _ in range(DRAWN)]
        large = draw.CaseDrawer(seed + 1, draw.LARGE)
        return cases + [large.of(entry) for _ in range(DRAWN // 20)]

    def test_tables(self):
        for case in self.drawn("table", 81):
            cause = clauses.why_table(case.inputs[0])
            self.assertEqual(cause is None, case.answer[0] == "admitted", case)
            if cause is not None:
                self.assertNotIn(NOT_FOUND, cause.sentence, case)
                continue
            table = Table(case.inputs[0])
            for row in range(len(table.rows)):
                if table.kind(row).is_type:
                    self.assertEqual(tezqulom.check_table(table.after(row)), len(table.rows) - row)
                    self.assertEqual(list(clauses._clauses(table.rows, row)), [])

    def test_values(self):
        for case in self.drawn("value", 83):
            if case.answer[-1] in (1, 2):
                self.assertRaises(Refused, records.why_value, *case.inputs)
                continue
            fault = records.why_value(*case.inputs)
            self.assertEqual(fault is None, case.answer[0] == "good", case)
            if fault is not None:
                self.assertNotIn(NOT_FOUND, fault.sentence, case)
            else:
                self.compare_tree(*case.inputs)

    def compare_tree(self, table, value):
        """The tree's places are those of the engine's listing, and each part is a good value of its own."""
        for node in records.tree(table, value):
            named = tezqulom.listing(table, value, node.reference or None)
            expected = {"stored": [Stored(node.place, node.length)], "default": [Default(node.place, named[0][1] if named else 0)], "absent": []}
            self.assertEqual(named, expected[node.source], node)
            for part in records.parts(table, value, node.reference or None):
                tezqulom.check_value(part.table, part.octets)
                self.assertEqual((part.kind, part.value if node.kind.basic else None, part.reference), (node.kind, node.value, node.reference))
            if node.elements is not None:
                self.assertEqual(tezqulom.listing(table, value, (node.reference + ".0").lstrip(".")), [Count(node.place, node.elements)])

    def test_filters(self):
        causes = set()
        for case in self.drawn("ask", 85):
            table, value, text, _ = case.inputs
            if case.answer[:2] in (("refused", 1), ("refused", 2)):
                continue
            cause = filters.why_filter(table, text)
            self.assertEqual(cause is not None, case.answer[:2] == ("refused", 3), case)
            self.assertNotIn(NOT_FOUND, cause or "")
            if case.answer[0] != "refused":
                lines = filters.explain(table, value, text)
                self.assertEqual(lines[0].truth.name, case.answer[1])
                causes.update(line.cause.split('"')[0].split(" ")[1] + line.cause[-8:] for line in lines if line.cause)
        self.assertGreaterEqual(len(causes), 4)

    def test_sentences(self):
        bad = bytes.fromhex("0202FF80")
        table = build.build(build.Sequence(lines=build.SequenceOf(build.Sequence(cents=build.Integer()))))
        lines = bytes.fromhex("3003020105") * 4 + b"\x30\x04" + bad
        record = b"\x30" + bytes([len(lines) + 2]) + b"\x30" + bytes([len(lines)]) + lines
        self.assertEqual(str(records.why_value(table, record)), "at octet 26, lines.5.cents: INTEGER with contents FF80")
        stored = bytes.fromhex("3018") + RECORD[2:6] + b"\2\1\1" + RECORD[6:]
        self.assertEqual(str(records.why_value(LICENCE, stored)), "at octet 6, seats: 1, the default, is stored; a default never is")
        self.assertEqual(str(records.why_value(LICENCE, b"\x30\0")), "at octet 2, event: a mandatory member is missing: the SEQUENCE ends here")
        self.assertEqual(str(clauses.why_table(LICENCE.replace(b"seats", b"Seats"))).split(",")[0], "row 2: member Seats: its name is not a lowercase letter")
        self.assertIsNone(clauses.why_table(LICENCE))
        self.assertIsNone(records.why_value(LICENCE, RECORD))

    def test_named_tables(self):
        """Tables near one with named bits: a cause exactly where the engine refuses."""
        table = build.build(build.Sequence(a=build.BitString(RIGHTS), b=build.SetOf(build.BitString(x=63))))
        changed = [table[:at] + bytes([octet]) + table[at + 1:] for at in range(len(table)) for octet in (0, 1, 2, 7, 16, 17, 18, 63, 64, 97, table[at] ^ 1)]
        cut = [table[:at] for at in range(1, len(table))] + [table[at:] for at in range(1, len(table))]
        moved = [table[:at] + row + table[at:] for at in range(len(table)) for row in (bit_row("y", 9), b"\x11\1", b"\x11\1" + bit_row("y", 9), b"\2")]
        answers = set()
        for octets in changed + cut + moved:
            cause = clauses.why_table(octets)
            self.assertEqual(cause is None, clauses.admitted(octets), octets.hex())
            self.assertNotIn(NOT_FOUND, str(cause), octets.hex())
            answers.add(re.sub("[0-9]+|[a-z]+(?=:| stands| has)", "", str(cause)))
        self.assertGreaterEqual(len(answers), 20)

    def test_named_sentences(self):
        one, owner = bit_row("a", 0), b"\x11\1"
        lists = [b"\x0e\0" + bytes([at + 1]) for at in range(16)]
        for sentence, octets in [
                ("row 0: row 0 is a named bit, not a type", one), ("row 0: BIT STRING of 0 names, not 1 to 16", b"\x11\0"),
                ("row 0: BIT STRING of 17 names, not", b"\x11\x11" + b"".join(bit_row("a%d" % at, at) for at in range(17))),
                ("row 0: at octet 0: BIT STRING is cut off after 1 of 2 octets", b"\x11"),
                ("row 1: at octet 2: named bit is cut off after 25 of 26 octets", owner + one[:-1]),
                ("row 0: the table ends where a named bit is counted: 1 more", owner), ("row 1: INTEGER stands where a named bit is counted", owner + b"\2"),
                ("row 2: named bit a stands after no BIT STRING that counts it", owner + one + one),
                ("row 1: named bit a stands after no BIT STRING", b"\x07" + one),
                ("row 1: named bit stands where a member is counted: 1 more", b"\x0c\1" + one + b"\2"),
                ("row 1: member stands where a named bit is counted: 1 more", owner + LICENCE[2:41] + one),
                ("row 1: named bit a: bit number 64, not 0 to 63", owner + bit_row("a", 64)),
                ("row 1: named bit A: its name is not a lowercase letter", owner + bit_row("A", 0)),
                ("row 1: named bit without a name: its name is not", owner + bit_row("", 0)),
                ("row 2: named bit a has the name of row 1", b"\x11\2" + one + bit_row("a", 1)),
                ("row 2: named bits a and b have the same number", b"\x11\2" + one + bit_row("b", 0)),
                ("row 0: names row 2, a named bit", b"\x0e\0\2" + owner + one),
                ("row 0: a chain of 17 type rows, more than 16", b"".join(lists) + owner + one)]:
            self.assertTrue(str(clauses.why_table(octets)).startswith(sentence), (clauses.why_table(octets), sentence))
        self.assertEqual(tezqulom.check_table(b"".join(lists[:15]) + owner + one), 17)

    def test_named_values(self):
        """Contents of up to two octets: a cause exactly where the engine refuses, and a trailing zero bit is said to be one."""
        trailing = 0
        for contents in [bytes([unused, last]) for unused in range(10) for last in range(256)] + [b"", b"\0", b"\1", b"\0\0\1", b"\0\1\0", b"\4\0\x10"]:
            value = b"\3" + bytes([len(contents)]) + contents
            fault = records.why_value(RIGHTS_TABLE, value)
            zero = records.why_value(b"\7", value) is None and fault is not None
            self.assertEqual(": a trailing zero bit" in str(fault), zero, contents)
            trailing += zero
            if fault is None:
                node, = records.tree(RIGHTS_TABLE, value)
                self.assertEqual((node.value, records.encoded_bits(RIGHTS_TABLE, None, node.names)), (node.value.rstrip("0"), value))
                self.compare_tree(RIGHTS_TABLE, value)
        self.assertEqual(trailing, 256)
        table = build.build(build.Sequence(n=build.Integer(), r=build.Explicit(1, build.BitString(RIGHTS))))
        self.assertEqual(str(records.why_value(table, bytes.fromhex("3009020105A1040302" "05C0"))),
                         "at octet 7, r: BIT STRING with contents 05C0: a trailing zero bit, which named bits don't have")

    def test_encoded_bits(self):
        table = build.build(build.Sequence(n=build.Integer(), r=build.Implicit(0, build.BitString(RIGHTS)), rs=build.SequenceOf(build.BitString(x=63))))
        for bits, octets in [(["print", "perform"], "030206c0"), ({"record"}, "03020520"), ([], "030100"), ("", "030100"), ("000", "030100"),
                             ("110", "030206c0"), (["print", 3], "03020490"), ((8,), "0303070080"), (["print", "print"], "03020780")]:
            self.assertEqual(records.encoded_bits(table, "r", bits).hex(), octets)
        self.assertEqual(records.encoded_bits(table, "rs.*", ["x"]).hex(), "0309000000000000000001")
        for error, reference, bits in [(ValueError, "r", ["play"]), (ValueError, "r", "print"), (ValueError, "r", [-1]), (ValueError, "r", [32768]),
                                       (TypeError, "r", {"print": False}), (TypeError, "r", [True]), (TypeError, "r", [None]), (ValueError, "n", ["print"]),
                                       (ValueError, None, []), (ValueError, "rs.0", []), (Refused, "x", [])]:
            self.assertRaises(error, records.encoded_bits, table, reference, bits)

    def test_named_parts(self):
        table = build.build(build.SequenceOf(build.BitString(RIGHTS)))
        value = bytes.fromhex("300C" "030206C0" "030100" "030300C001")
        self.assertEqual([(part.value, part.names) for part in records.parts(table, value, "*")], [
            ("11", ("print", "perform")), ("", ()), ("1100000000000001", ("print", "perform", 15))])
        both = tezqulom.item(None, "bitStringMatch", tezqulom.bit_list(["perform", "print"]))
        self.assertEqual([answer.truth.name for _, answer in records.each(table, value, "*", both)], ["TRUE", "FALSE", "FALSE"])
        self.compare_tree(table, value)

    def test_named_undefined(self):
        value = bytes.fromhex("030206C0")
        for cause, table, text in [
                ("the value {print,play} doesn't conform for the rule bitStringMatch: no bit has the name play", RIGHTS_TABLE, "{print,play}"),
                ("the value {PRINT} doesn't conform for the rule bitStringMatch", RIGHTS_TABLE, "{PRINT}"),
                ("the value {print ,perform} doesn't conform for the rule bitStringMatch", RIGHTS_TABLE, "{print ,perform}"),
                ("the value {print} doesn't conform for the rule bitStringMatch: the bits there have no names", b"\7", "{print}"),
                ("the value {} doesn't conform for the rule bitStringMatch", b"\7", "{}")]:
            line, = filters.explain(table, value, tezqulom.item(None, "bitStringMatch", text))
            self.assertEqual((line.truth, line.cause), (Truth.UNDEFINED, cause))
        line, = filters.explain(RIGHTS_TABLE, value, "item:{rule presentMatch,value {play}}")
        self.assertEqual(line.cause, "the value {play} doesn't conform for the rule presentMatch")
        line, = filters.explain(RIGHTS_TABLE, value, "item:{rule octetStringMatch,value '00'H}")
        self.assertEqual(line.cause, "the rule octetStringMatch is not for the type there")
        self.assertEqual(filters.why_filter(RIGHTS_TABLE, "item:{rule bitStringMatch,value {print}"),
                         "at character 33: the value's quotes or braces are not closed")

    def test_name_tables(self):
        """Tables near one with names: a cause exactly where the engine refuses."""
        table = build.build(build.Sequence(a=build.Optional(build.RDNSequence()), b=build.SetOf(build.RelativeDistinguishedName()), c=build.RDNSequence()))
        kinds = (0, 1, 2, 12, 14, 15, 17, 18, 19, 20, 21)
        changed = [table[:at] + bytes([octet]) + table[at + 1:] for at in range(len(table)) for octet in (*kinds, table[at] ^ 1)]
        moved = [table[:at] + row + table[at:] for at in range(len(table) + 1) for row in (b"\x13", b"\x14", b"\x13\0")]
        for octets in changed + moved + [table[:at] for at in range(1, len(table))] + [table[at:] for at in range(1, len(table))]:
            cause = clauses.why_table(octets)
            self.assertEqual(cause is None, clauses.admitted(octets), octets.hex())
            self.assertNotIn(NOT_FOUND, str(cause), octets.hex())
        self.assertEqual(str(clauses.why_table(b"\x16")), "row 0: at octet 0: there is no kind 22")

    def test_long_tables(self):
        """Tables near one with long member names: a cause exactly where the engine refuses."""
        table = build.build(build.Sequence({"a": build.Optional(build.Integer()), CATEGORY: build.Default(build.Explicit(0, build.Integer()), 5),
                                            LONGEST_NAME: build.Choice({"b" * 25: build.Null(), "c": build.Boolean()})}))
        changed = [table[:at] + bytes([octet]) + table[at + 1:] for at in range(len(table)) for octet in (0, 1, 2, 16, 18, 21, 22, 45, 97, table[at] ^ 1)]
        cut = [table[:at] for at in range(1, len(table))] + [table[at:] for at in range(1, len(table))]
        moved = [table[:at] + row + table[at:] for at in range(len(table)) for row in (member("y", 9), long_member("y" * 25, 9), b"\x15", b"\0" * 24)]
        answers = set()
        for octets in changed + cut + moved:
            cause = clauses.why_table(octets)
            self.assertEqual(cause is None, clauses.admitted(octets), octets.hex())
            self.assertNotIn(NOT_FOUND, str(cause), octets.hex())
            answers.add(re.sub("[0-9]+|[a-z]+(?=:| stands| has)", "", str(cause)))
        self.assertGreaterEqual(len(answers), 20)

    def test_long_sentences(self):
        def one(name, *fields, **more):
            return b"\x0c\1" + long_member(name, 2, *fields, **more) + b"\2"
        category = long_member(CATEGORY, 3)
        for sentence, octets in [
                ("row 1: member %s: a name of 24 characters in a row of kind 21, not 25 to 48" % CATEGORY[:24], one(CATEGORY[:24])),
                ("row 1: member a: a name of 1 character in a row of kind 21, not 25 to 48", one("a")),
                ("row 1: member without a name: its name is not a lowercase letter", one("")),
                ("row 1: member %s-: its name is not a lowercase letter" % CATEGORY, one(CATEGORY + "-")),
                ("row 1: member %s\\x00b: its name is not a lowercase letter" % CATEGORY, one(CATEGORY.encode() + b"\0b")),
                ("row 1: member %s: tag mode 3, not 0 to 2" % CATEGORY, one(CATEGORY, 3)),
                ("row 1: member %s: a default with contents 0001, no INTEGER" % CATEGORY, one(CATEGORY, presence=2, default=b"\0\1")),
                ("row 0: row 0 is a member, not a type", category), ("row 1: member %s stands after no SEQUENCE or CHOICE" % CATEGORY, b"\2" + category),
                ("row 1: at octet 2: member is cut off after 62 of 63 octets", b"\x0c\1" + category[:-1]),
                ("row 1: member stands where a named bit is counted: 1 more", b"\x11\1" + category),
                ("row 1: named bit stands where a member is counted: 1 more", b"\x0c\1" + bit_row("a", 0)),
                ("row 1: member %s: names row 3, the last one is 2" % CATEGORY, b"\x0c\1" + category + b"\2"),
                ("row 0: names row 2, a member", b"\x0e\0\2\x0c\1" + category + b"\2"),
                ("row 2: member %s has the name of row 1" % CATEGORY, b"\x0c\2" + category * 2 + b"\2"),
                ("the table has 8065 octets, not 1 to 8064", b"\2" * 8065)]:
            self.assertTrue(str(clauses.why_table(octets)).startswith(sentence), (clauses.why_table(octets), sentence))
        self.assertEqual(str(clauses.why_table(b"\2" * 8064)), "the table has 8064 rows, not 1 to 128")

    def test_long_values(self):
        """The tree of a record with long member names, and the first cause in a refused one."""
        table = build.build(build.Sequence({"event": build.UTF8String(), CATEGORY: build.Default(build.Integer(), 1),
                                            LONGEST_NAME: build.Optional(build.Choice({"b" * 25: build.Null(), "c": build.Boolean()}))}))
        for value, names in [("30040C026531", [CATEGORY]), ("30070C026531020103", [CATEGORY]),
                             ("30060C0265310500", [CATEGORY, LONGEST_NAME, "b" * 25]), ("30070C0265310101FF", [CATEGORY, LONGEST_NAME, "c"])]:
            self.compare_tree(table, bytes.fromhex(value))
            found = [node.name for node in records.tree(table, bytes.fromhex(value))]
            self.assertEqual([name for name in found if name in names], names)
        self.assertEqual(str(records.why_value(table, bytes.fromhex("30070C026531020101"))),
                         "at octet 6, %s: 1, the default, is stored; a default never is" % CATEGORY)
        self.assertEqual(str(records.why_value(table, bytes.fromhex("30070C026531050100"))).split(": ")[0], "at octet 6, %s.%s" % (LONGEST_NAME, "b" * 25))

    def test_long_undefined(self):
        """A name isn't cut: a part of it is not the member."""
        table = build.build(build.Sequence({CATEGORY: build.Integer()}))
        for name in (CATEGORY[:24], CATEGORY[:-1], CATEGORY + "s", CATEGORY.lower()):
            line, = filters.explain(table, bytes.fromhex("3003020105"), tezqulom.item(name, "presentMatch", "NULL"))
            self.assertEqual((line.truth, line.cause), (Truth.UNDEFINED, 'the reference "%s" is malformed, or the table\'s type doesn\'t allow it' % name))

    def test_name_values(self):
        """The second program's stored names, most of them near misses: a cause exactly where the engine refuses, and the tree of good ones."""
        good, causes = 0, set()
        for table, value in corpus_names.values():
            try:
                fault = records.why_value(table, value)
            except Refused as refused:
                self.assertIn(refused.refusal, (Refusal.SIZE, Refusal.TABLE))
                continue
            self.assertNotIn(NOT_FOUND, str(fault), (table.hex(), value.hex()))
            causes.add(re.sub("[0-9]+|[0-9A-F]{2,}", "", str(fault)))
            if fault is None:
                good += 1
                self.compare_tree(table, value)
        self.assertGreaterEqual((good, len(causes)), (500, 50))

    def test_name_sentences(self):
        table = build.build(build.Sequence(n=build.Integer(), holder=build.Explicit(1, build.RDNSequence()),
                                           r=build.Optional(build.RelativeDistinguishedName())))
        pair = bytes.fromhex("30080603550403130161")
        for sentence, holder, last in [
                ("at octet 204, holder: 17 RDNs, more than 16", [[pair]] * 17, None), ("at octet 21, holder: RDN 2: 0 pairs, not 1 to 4", [[pair], []], None),
                ("at octet 9, holder: RDN 1: 5 pairs, not 1 to 4", [[pair] * 5], None),
                ("at octet 18, holder: RDN 1, pair 1, value: tag octet 1E is of none of the three string kinds", [[pair.replace(b"\x13", b"\x1e")]], None),
                ("at octet 18, holder: RDN 1, pair 1, value: PrintableString with contents 40", [[pair[:-1] + b"@"]], None),
                ("at octet 13, holder: RDN 1, pair 1, type: OBJECT IDENTIFIER with contents 550483", [[pair.replace(b"\4\3", b"\4\x83")]], None),
                ("at octet 21, holder: RDN 1, pair 2: it is less than the element before it, and elements of a SET OF do not fall",
                 [[pair[:-1] + b"b", pair]], None),
                ("at octet 9, holder: RDN 1: tag octet 30 where 31 is needed (SET OF)", [pair], None),
                ("at octet 9, r: 5 pairs, not 1 to 4", [], [pair] * 5), ("at octet 9, r: 0 pairs, not 1 to 4", [], []),
                ("at octet 11, r: pair 1: tag octet 31 where 30 is needed (SEQUENCE)", [], [b"\x31" + pair[1:]])]:
            inner = encoded(0x30, b"".join(encoded(0x31, b"".join(rdn)) if isinstance(rdn, list) else rdn for rdn in holder))
            value = encoded(0x30, b"\2\1\5" + encoded(0xA1, inner) + (b"" if last is None else encoded(0x31, b"".join(last))))
            self.assertEqual(str(records.why_value(table, value)), sentence)

    def test_encoded_name(self):
        table = build.build(build.Sequence(n=build.Integer(), h=build.Implicit(0, build.RDNSequence()), rs=build.SequenceOf(build.RelativeDistinguishedName())))
        text, rdns = "2.5.4.3=Steven Legg,2.5.4.6=AU", [[("2.5.4.6", "AU")], [("2.5.4.3", "Steven Legg")]]
        octets = bytes.fromhex("3023310b3009060355040613024155311430120603550403130b53746576656e204c656767")
        self.assertEqual((records.encoded_name(table, "h", text), records.encoded_name(table, "h", rdns)), (octets, octets))
        self.assertEqual((records.encoded_name(table, "h", "").hex(), records.encoded_name(table, "h", []).hex()), ("3000", "3000"))
        self.assertEqual((records.encoded_name(table, "rs.*", "2.5.4.6=AU"), records.encoded_name(table, "rs.1", rdns[0])), (octets[2:15],) * 2)
        value = encoded(0x30, b"\2\1\5" + b"\xa0" + octets[1:] + encoded(0x30, octets[2:15]))
        self.assertEqual([part.value for reference in ("h", "rs.*") for part in records.parts(table, value, reference)], [text, "2.5.4.6=AU"])
        self.compare_tree(table, value)
        one = tezqulom.item(None, "rdnMatch", tezqulom.quoted_name("2.5.4.6=au"))
        self.assertEqual([answer.truth.name for _, answer in records.each(table, value, "rs.*", one)], ["TRUE"])
        for error, reference, name in [(tezqulom.NotName, "h", "cn=a"), (tezqulom.NotName, "rs.*", text), (tezqulom.NotName, "h", [[]]),
                                       (ValueError, "n", text), (ValueError, None, text), (ValueError, "rs.0", text), (TypeError, "h", rdns[0]),
                                       (TypeError, "rs.*", rdns), (TypeError, "h", 5), (Refused, "h.1", text), (Refused, "x", text)]:
            self.assertRaises(error, records.encoded_name, table, reference, name)

    def test_name_undefined(self):
        """Why an item about a name is Undefined."""
        name, rdn = records.encoded_name(b"\x13", None, "2.5.4.3=a"), records.encoded_name(b"\x14", None, "2.5.4.3=a")
        start = "the value %s doesn't conform for the rule %s"
        for cause, table, rule, text in [
                (": at character 1 of the name: a dotted type and = are needed", b"\x13", "distinguishedNameMatch", '"cn=a"'),
                (': at character 10 of the name: " is not escaped', b"\x13", "distinguishedNameMatch", '"2.5.4.3=x"""'),
                (": the name has 17 RDNs, more than 16", b"\x13", "2.5.13.1", '"%s"' % ",".join(["2.5=a"] * 17)),
                (": an RDN has 5 pairs, not 1 to 4", b"\x14", "rdnMatch", '"%s"' % "+".join(["2.5=a"] * 5)),
                (": it has 2 RDNs, not one", b"\x14", "rdnMatch", '"2.5=a,2.5=b"'), (": it has 0 RDNs, not one", b"\x14", "rdnMatch", '""'),
                (": it is no quoted string", b"\x13", "distinguishedNameMatch", "2.5.4.3=a"),
                (": it is no quoted string", b"\x13", "distinguishedNameMatch", 'rdnSequence:"2.5.4.3=a"'), ("", b"\x13", "presentMatch", '"2.5.4.3=a"')]:
            line, = filters.explain(table, name if table == b"\x13" else rdn, tezqulom.item(None, rule, text))
            self.assertEqual((line.truth, line.cause), (Truth.UNDEFINED, start % (text, rule) + cause))
        for table, value, rule in ((b"\x13", name, "rdnMatch"), (b"\x14", rdn, "distinguishedNameMatch"), (b"\x13", name, "caseIgnoreMatch")):
            line, = filters.explain(table, value, tezqulom.item(None, rule, '"2.5.4.3=a"'))
            self.assertEqual(line.cause, "the rule %s is not for the type there" % rule)
        line, = filters.explain(b"\x13", name, tezqulom.item("1", "presentMatch", "NULL"))
        self.assertEqual(line.cause, 'the reference "1" is malformed, or the table\'s type doesn\'t allow it')

    def test_undefined(self):
        for cause, text in [('the reference "seat" is malformed', 'item:{component "seat",rule presentMatch,value NULL}'),
                            ("the rule foo is unknown", "item:{rule foo,value NULL}"),
                            ("the rule 1.2.3 is unknown", "item:{rule 1.2.3,value NULL}"),
                            ("the rule integerMatch is not for the type there", 'item:{component "event",rule integerMatch,value 3}'),
                            ("the value x doesn't conform", 'item:{component "seats",rule integerMatch,value x}'),
                            ("the value null doesn't conform", "item:{rule presentMatch,value null}")]:
            line, = filters.explain(LICENCE, RECORD, text)
            self.assertIs(line.truth, Truth.UNDEFINED)
            self.assertTrue(line.cause.startswith(cause), line.cause)

    def test_exact(self):
        for reference, exact in [("parts.*.copies", ["parts.1.copies", "parts.2.copies"]), ("parts.-1.name", ["parts.2.name"]), ("parts.0", ["parts.0"]),
                                 ("parts.-2", ["parts.1"]), ("seats", ["seats"]), (None, [""]), ("parts.9", [])]:
            self.assertEqual([part.reference for part in records.parts(LICENCE, RECORD, reference)], exact)
        choice = build.build(build.SequenceOf(build.Choice(a=build.Choice(b=build.Sequence(n=build.Default(build.Integer(), 1))))))
        value = bytes.fromhex("3007" "3000" "3003020105")
        for reference, exact in [("*", ["1", "2"]), ("*.a", ["1.a", "2.a"]), ("*.a.b", ["1.a.b", "2.a.b"]), ("*.a.b.n", ["1.a.b.n", "2.a.b.n"])]:
            self.assertEqual([part.reference for part in records.parts(choice, value, reference)], exact)
            self.assertEqual([node.reference for node in records.tree(choice, value, reference) if node.depth == 0], exact)

    def test_stored(self):
        """A listed part has its octets as they are stored, and with its type's own tag."""
        table = build.build(build.Sequence(a=build.Implicit(0, build.Sequence(n=build.Integer()))))
        one, = records.parts(table, bytes.fromhex("3005A003020105"), "a")
        self.assertEqual((one.stored.hex(), one.octets.hex(), one.value), ("a003020105", "3003020105", one.stored))

    def test_each(self):
        more = 'not:item:{component "copies",rule integerOrderingMatch,value 3}'
        self.assertEqual([answer.truth.name for _, answer in records.each(LICENCE, RECORD, "parts.*", more)], ["FALSE", "TRUE"])
        three = "item:{rule integerMatch,value 3}"
        self.assertEqual([answer.truth.name for _, answer in records.each(LICENCE, RECORD, "parts.*.copies", three)], ["FALSE", "TRUE"])
        two = "item:{rule integerMatch,value 2}"
        self.assertEqual([answer.truth.name for _, answer in records.each(LICENCE, RECORD, "parts.0", two)], ["TRUE"])


class Openssl(unittest.TestCase):
    """Records that openssl encodes, compared place by place with what it says of them."""

    CONFIGURATION = """asn1=SEQUENCE:record
[record]
a=BOOL:TRUE
b=INTEGER:-129
c=ENUM:2
d=NULL
e=OID:2.5.4.3
f=FORMAT:HEX,OCT:0AFF
g=FORMAT:BITLIST,BITSTR:0,2,5
h=UTF8:caf%s
i=PRINTABLESTRING:%s
j=IA5STRING:%s
k=GENTIME:20240229120000Z
l=EXPLICIT:1,INTEGER:7
m=IMPLICIT:2,INTEGER:300
n=SEQUENCE:list
o=SET:set
[list]
1=SEQUENCE:one
2=SEQUENCE:two
[one]
name=PRINTABLESTRING:Vl
[two]
name=PRINTABLESTRING:Va
copies=IMPLICIT:0,INTEGER:3
[set]
1=INTEGER:1
2=INTEGER:2
""" % ("é", "P" * 130, "I" * 300)

    @staticmethod
    def table():
        part = build.Sequence(name=build.PrintableString(), copies=build.Default(build.Implicit(0, build.Integer()), 1))
        basic = [build.Boolean, build.Integer, build.Enumerated, build.Null, build.ObjectIdentifier, build.OctetString, build.BitString,
                 build.UTF8String, build.PrintableString, build.IA5String, build.GeneralizedTime]
        members = {name: one() for name, one in zip("abcdefghijk", basic)}
        return build.build(build.Sequence(members, l=build.Explicit(1, build.Integer()), m=build.Implicit(2, build.Integer()),
                                          n=build.SequenceOf(part), o=build.SetOf(build.Integer())))

    def setUp(self):
        try:
            subprocess.run(["openssl", "version"], check=True, capture_output=True)
        except OSError:
            print("\n  the comparison with openssl SKIPPED, it is not installed")
            self.skipTest("openssl is not installed")

    def test_places(self):
        with tempfile.TemporaryDirectory() as folder:
            configuration, der = pathlib.Path(folder, "conf"), pathlib.Path(folder, "der")
            configuration.write_text(self.CONFIGURATION, encoding="utf-8")
            subprocess.run(["openssl", "asn1parse", "-genconf", configuration, "-noout", "-out", der], check=True, capture_output=True)
            record = der.read_bytes()
        self.compare(self.table(), record)

    def test_bit_lists(self):
        """openssl leaves out trailing zero bits of a list of bits."""
        for bits in ([0], [0, 1], [2], [0, 2, 5], [7], [8], [0, 15], [63]):
            with tempfile.TemporaryDirectory() as folder:
                der, text = pathlib.Path(folder, "der"), "FORMAT:BITLIST,BITSTR:" + ",".join(map(str, bits))
                subprocess.run(["openssl", "asn1parse", "-genstr", text, "-noout", "-out", der], check=True, capture_output=True)
                self.assertEqual(der.read_bytes(), records.encoded_bits(RIGHTS_TABLE, None, bits))
                tezqulom.check_value(RIGHTS_TABLE, der.read_bytes())

    @unittest.skipIf(encoder is None, "pyasn1 is not installed")
    def test_places_of_pyasn1(self):
        record = Pyasn1().licence()()
        record["event"], record["seats"] = "é" * 100, 70000
        for at in range(40):
            record["parts"][at]["name"] = "part %d" % at
            record["parts"][at]["copies"] = at % 3
        self.compare(LICENCE, encoder.encode(record))

    def compare(self, table, record):
        """Each stored component is where openssl has it; openssl has explicit wrappers besides."""
        tezqulom.check_value(table, record)
        said = subprocess.run(["openssl", "asn1parse", "-inform", "DER"], input=record, check=True, capture_output=True).stdout.decode("utf-8", "replace")
        found = {}
        for line in said.splitlines():
            place, _, rest = line.partition(":d=")
            fields = rest.replace("hl=", " ").replace("l=", " ").split()
            found[int(place)] = (int(fields[1]) + int(fields[2]), "cont [" in rest and "cons" in rest, rest)
        stored = {node.place: node for node in records.tree(table, record) if node.source == "stored"}
        for place, node in stored.items():
            self.assertEqual(found[place][0], node.length, node)
            if node.kind is Kind.INTEGER and ":-" not in found[place][2] and "cont" not in found[place][2]:
                self.assertEqual(int(found[place][2].rsplit(":", 1)[1], 16), node.value)
            if node.kind in (Kind.PRINTABLE_STRING, Kind.IA5_STRING):
                self.assertTrue(found[place][2].endswith(":" + node.value), node)
        self.assertTrue(all(found[place][1] for place in set(found) - set(stored)))


if __name__ == "__main__":
    unittest.main()
