"""Tests of the command: each exit status, broken inputs, closed outputs, the bill run."""

import base64
import json
import os
import pathlib
import pty
import resource
import shutil
import sqlite3
import subprocess
import sys
import tempfile
import unittest
import zipfile

import backend
import tezqulom
from tezqulom import command, inputs
from tezqulom.distinguished import encoded_name, encoded_rdn
from tezqulom.library import library
from tezqulom.values import encoded

ROOT = pathlib.Path(__file__).resolve().parents[2]
sys.path.insert(0, str(ROOT / "second"))

from rows import long_member  # noqa: E402
from samples import CATEGORY, LICENCE, RECORD, sequence  # noqa: E402

TRUE = 'item:{component "parts.*.copies",rule integerMatch,value 3}'
FALSE = 'item:{component "parts.*.copies",rule integerMatch,value 7}'
UNDEFINED = 'item:{component "event",rule integerMatch,value 3}'
MANY, SECONDS = 40000, 2.5


def licence(event, copies):
    """A licence record, with a part for each number of copies."""
    parts = b"".join(encoded(0x30, encoded(0x13, b"Vl") + (b"" if one == 1 else encoded(0x80, bytes([one])))) for one in copies)
    return encoded(0x30, encoded(0x0C, event.encode()) + encoded(0x30, parts))


class Command(unittest.TestCase):
    """A folder with a table and a record, in which the command runs."""

    def setUp(self):
        self.folder = pathlib.Path(tempfile.mkdtemp())
        self.addCleanup(shutil.rmtree, self.folder)
        for name, octets in (("table", LICENCE), ("record", RECORD), ("filter", TRUE.encode() + b"\n"), ("bad", RECORD[:-1]), ("badtable", b"\0")):
            (self.folder / name).write_bytes(octets)

    def run_(self, *arguments, stdin=b"", **more):
        environment = {**os.environ, "TEZQULOM_LIBRARY": library.file, **more.pop("env", {})}
        return subprocess.run([sys.executable, "-B", ROOT / "bindings" / "tezqulom", *arguments], check=False, cwd=self.folder, env=environment,
                              input=stdin, stdout=more.pop("stdout", subprocess.PIPE), stderr=subprocess.PIPE, timeout=60, **more)

    def gives(self, status, out, *arguments, error="", **more):
        """The status, the output and the start of the message."""
        done = self.run_(*arguments, **more)
        said, message = done.stdout.decode(), done.stderr.decode()
        self.assertEqual((done.returncode, said if isinstance(out, str) else None), (status, out), (arguments, message))
        self.assertTrue(message.startswith("tezqulom: " + error) if error else not message, message)
        self.assertNotIn("Traceback", message)
        return said


class Statuses(Command):
    """Each exit status, and what is said with it."""

    def test_truths(self):
        self.gives(0, "TRUE 2\n", "ask", "table", "record", TRUE)
        self.gives(1, "FALSE 2\n", "ask", "table", "record", FALSE)
        self.gives(2, "UNDEFINED 0\n", "ask", "table", "record", UNDEFINED)
        self.gives(0, "TRUE 2\n", "ask", "table", "record", "filter")
        for text, status in ((TRUE, 0), (FALSE, 1), (UNDEFINED, 2)):
            self.gives(status, None, "explain", "table", "record", text)

    def test_done(self):
        self.gives(0, "table: admitted, 12 rows\nrecord: good\n", "check", "table", "record")
        self.gives(0, "table: admitted, 12 rows\n", "check", "table")
        self.gives(0, "default 8 9 parts.1.copies INTEGER 1\nstored 20 3 parts.2.copies INTEGER 3\n", "list", "table", "record", "parts.*.copies")
        self.gives(0, "stored 20 3 parts.2.copies INTEGER 3\n", "list", "table", "record", "parts.*.copies", "--no-defaults")
        self.gives(0, "count 6 2 parts.0 INTEGER 2\n", "list", "table", "record", "parts.0")
        self.gives(0, "       seats INTEGER 1 (default)\n", "show", "table", "record", "seats")
        self.gives(0, "", "show", "table", "record", "parts.3")
        (self.folder / "list").write_bytes(b"\x0e\0\1\2")
        self.gives(0, "stored 5 3 2 INTEGER 9\n", "list", "list", "-", "-1", stdin=bytes.fromhex("3006020107020109"))
        self.gives(3, "REFUSED 3\n", "list", "list", "-", "--", "-1.x", stdin=bytes.fromhex("3006020107020109"), error="the reference: refused 3")
        self.gives(0, "FALSE 1  default 8 9 parts.1.copies INTEGER 1\nTRUE 1  stored 20 3 parts.2.copies INTEGER 3\n", "each", "table", "record",
                   "parts.*.copies", "item:{rule integerMatch,value 3}")
        self.gives(0, "nothing is refused\n", "why", "table", "record", TRUE)
        self.gives(0, '"a""b"\n', "quote", 'a"b')
        for value, text in [('a"b, c', 'a\\"b\\, c'), ("", ""), (" #", "\\ #"), ("#", "\\#"), ("é\\", "é\\\\")]:
            self.gives(0, text + "\n", "escape", value)
        self.gives(0, "tezqulom %s\n" % tezqulom.__version__, "--version")
        self.assertIn("Exit status", self.gives(0, None, "--help"))
        for name in ("show", "ask", "list", "check", "why", "explain", "each", "run", "table", "quote", "escape"):
            self.assertIn("usage: tezqulom " + name, self.gives(0, None, name, "--help"))

    def test_show(self):
        self.assertEqual(self.gives(0, None, "show", "table", "record").splitlines(), [
            "    0  SEQUENCE", '    2    event UTF8String "e1"', "         seats INTEGER 1 (default)", "    6    parts SEQUENCE OF, 2 elements",
            "    8      1 SEQUENCE", '   10        name PrintableString "Vl"', "             copies INTEGER 1 (default)", "   14      2 SEQUENCE",
            '   16        name PrintableString "Va"', "   20        copies INTEGER 3"])

    def test_refused(self):
        four = "bad: refused 4: the value is not one of the table's type: at octet 0: length 21 passes the enclosing end by 1 octet\n"
        for arguments in (["ask", "table", "bad", TRUE], ["show", "table", "bad"], ["list", "table", "bad"], ["check", "table", "bad"],
                          ["explain", "table", "bad", TRUE], ["each", "table", "bad", "parts.*", TRUE]):
            self.gives(3, "REFUSED 4\n", *arguments, error=four)
        self.gives(3, four, "why", "table", "bad")
        two = "badtable: refused 2: the table is not admitted: row 0: at octet 0: there is no kind 0\n"
        self.gives(3, "REFUSED 2\n", "ask", "badtable", "record", TRUE, error=two)
        self.gives(3, "REFUSED 2\n", "run", "badtable", TRUE, "record", error=two)
        self.gives(3, "REFUSED 2\n", "table", "--show", "badtable", error=two)
        self.gives(3, two, "why", "badtable")
        three = "refused 3: the filter is not of the form, or too deep, or has too many items: at character 6: an opening brace is needed\n"
        self.gives(3, "REFUSED 3\n", "ask", "table", "record", "item:x", error="the filter: " + three)
        self.gives(3, "REFUSED 3\n", "run", "table", "item:x", "record", error="the filter: " + three)
        self.gives(3, "REFUSED 3\n", "each", "table", "record", "parts.*", "item:x", error="the filter: " + three)
        self.gives(3, "REFUSED 3\n", "list", "table", "record", "seat", error="the reference: refused 3: the reference is malformed")
        self.gives(3, "REFUSED 3\n", "list", "table", "record", "", error="the reference: refused 3: the reference is malformed")
        self.gives(3, "REFUSED 3\n", "show", "table", "record", b"\xff", error="the reference: refused 3: the reference is malformed")
        self.gives(3, "REFUSED 3\n", "ask", "table", "record", b"item:\xff", error="the filter: refused 3")
        self.gives(3, "REFUSED 5\n", "ask", "table", "record", TRUE, "--budget", "1", error="the filter: refused 5: the tests needed exceed the budget")
        self.gives(3, "REFUSED 1\n", "ask", "table", "record", TRUE, "--budget", "65536", error="the filter: refused 1: the budget is 65536")

    def test_sizes(self):
        (self.folder / "empty").write_bytes(b"")
        self.gives(3, "REFUSED 1\n", "check", "empty", error="empty: refused 1: the table has 0 octets, not 1 to 8064")
        self.gives(3, "REFUSED 1\n", "check", "table", "empty", error="empty: refused 1: the value has 0 octets, not 2 to 4096")
        self.gives(3, "REFUSED 1\n", "ask", "table", "record", "empty", error="empty: refused 1: the filter has 0 octets, not 1 to 2048")
        self.gives(3, "REFUSED 1\n", "run", "table", "empty", "record", error="empty: refused 1")

    def test_usage(self):
        for arguments in ([], ["foo"], ["ask"], ["ask", "table", "record"], ["ask", "table", "record", TRUE, "x"], ["--foo"],
                          ["ask", "table", "record", TRUE, "--budget", "x"], ["ask", "table", "record", TRUE, "--budget", "-1"],
                          ["check", "-", "-"], ["run", "table", TRUE], ["run", "table", TRUE, "record", "--sqlite", "db", "select 1"], ["table"],
                          ["table", "a.py", "--show", "table"], ["run", "table", TRUE, "record", "--undefined", "x", "--refused", "x"], ["quote", ""],
                          ["escape"], ["escape", b"\xff"]):
            done = self.run_(*arguments, stdin=LICENCE)
            self.assertEqual((done.returncode, done.stdout), (64, b""), arguments)
            self.assertTrue(done.stderr.startswith(b"tezqulom: "))

    def test_no_file(self):
        (self.folder / "shut").write_bytes(b"")
        for arguments, message in [(["check", "nope"], "nope: no such file or directory"), (["check", "."], ".: is a directory"),
                                   (["check", "table", "nope"], "nope: no such file"), (["check", "table/x"], "table/x: not a directory"),
                                   (["ask", "table", "record", "itm:{}"], "itm:{}: no such file or directory (a filter's text starts with item:"),
                                   (["run", "table", TRUE, "--sqlite", "nope", "select 1, 2"], "nope: no such file"),
                                   (["run", "table", TRUE, "--sqlite", "record", "select id, record from bill"], "record: file is not a database"),
                                   (["table", "nope.py"], "nope.py: no such file"), (["check", "/dev/zero"], "/dev/zero: more than 1048576 octets")]:
            self.gives(66, "", *arguments, error=message)
        self.gives(66, "", "check", "table", error="there is no /nowhere", env={"TEZQULOM_LIBRARY": "/nowhere"})
        self.gives(66, "", "check", "table", error="the library can't be loaded", env={"TEZQULOM_LIBRARY": str(self.folder / "table")})

    def test_write_error(self):
        for arguments in (["show", "table", "record"], ["--help"], ["run", "table", TRUE, "record"], ["ask", "table", "record", FALSE], ["table", "t.py"]):
            (self.folder / "t.py").write_text("table = b'\\2'\n")
            with open("/dev/full", "wb") as full:
                self.assertEqual(self.run_(*arguments, stdout=full).returncode, 74, arguments)
            reading, writing = os.pipe()
            os.close(reading)
            done = self.run_(*arguments, stdout=writing, env={"PYTHONUNBUFFERED": ""})
            os.close(writing)
            self.assertEqual(done.returncode, 74, arguments)
            self.assertNotIn(b"Traceback", done.stderr)
            self.assertNotIn(b"Exception ignored", done.stderr)
        self.gives(74, "", "table", "t.py", "-o", "nope/x", error="nope/x: no such file")
        self.gives(74, "", "run", "table", TRUE, "record", "--refused", "nope/x", error="nope/x: no such file")
        self.gives(74, None, "run", "table", TRUE, "bad", "--refused", "/dev/full", error="/dev/full: no space left")

    def test_mistake(self):
        """A mistake in the command has a status of its own, never that of FALSE."""
        (self.folder / "sitecustomize.py").write_text("import tezqulom.records\ntezqulom.records.tree = None\n")
        path = os.pathsep.join((str(self.folder), str(ROOT / "bindings" / "python")))
        self.assertEqual(self.run_("show", "table", "record", env={"PYTHONPATH": path}).returncode, 70)

    def test_json(self):
        def said(status, *arguments):
            return json.loads(self.run_(*arguments, "--json").stdout.decode().splitlines()[0])
        self.assertEqual(said(0, "ask", "table", "record", TRUE), {"answer": "TRUE", "tests": 2})
        self.assertEqual(said(3, "ask", "table", "bad", TRUE)["refusal"], 4)
        self.assertEqual(said(3, "why", "table", "bad")["refusal"], 4)
        self.assertEqual(said(0, "why", "table", "record"), {"answer": "GOOD"})
        self.assertEqual(said(0, "check", "table"), {"answer": "GOOD", "rows": 12})
        self.assertEqual(said(0, "list", "table", "record", "seats"), [
            {"source": "default", "place": 0, "row": 2, "reference": "seats", "kind": "INTEGER", "value": 1}])
        self.assertEqual([node["reference"] for node in said(0, "show", "table", "record")][:4], ["", "event", "seats", "parts"])
        self.assertEqual(said(0, "each", "table", "record", "parts.*.copies", "item:{rule integerMatch,value 3}")[1]["answer"], "TRUE")
        self.assertEqual(said(0, "explain", "table", "record", TRUE)[0]["truth"], "TRUE")
        self.assertEqual(said(0, "quote", "a"), {"quoted": '"a"'})
        self.assertEqual(said(0, "escape", "a,b"), {"escaped": "a\\,b"})
        self.assertEqual(said(0, "table", "--show", "table")["text"].splitlines()[0], "SEQUENCE")


class Names(Command):
    """Distinguished names: shown as a filter takes them, and asked about."""

    HOLDERS = {"legg": "2.5.4.3=Steven Legg,2.5.4.10=Adacel,2.5.4.6=AU", "none": "", "odd": '2.5.4.3=x\\"+2.5.4.5=\\ \x1b,2.5.4.6=AU'}

    def setUp(self):
        super().setUp()
        (self.folder / "holders.py").write_text("from tezqulom.builder import *\ntable = Sequence(event=UTF8String(), holder=RDNSequence(), agent=Optional("
                                                "Implicit(0, RelativeDistinguishedName())))\n")
        for name, text in self.HOLDERS.items():
            (self.folder / name).write_bytes(encoded(0x30, b"\x0c\2e1" + encoded_name(text)))
        agent = b"\xa0" + encoded_rdn([("2.5.4.3", "Élan")])[1:]
        (self.folder / "agent").write_bytes(encoded(0x30, b"\x0c\2e1" + encoded_name("") + agent))
        (self.folder / "empty-rdn").write_bytes(encoded(0x30, b"\x0c\2e1\x30\2\x31\0"))

    def made(self):
        self.gives(0, "", "table", "holders.py", "-o", "holders")

    def test_table(self):
        self.made()
        self.gives(0, "holders: admitted, 7 rows\nlegg: good\n", "check", "holders", "legg")
        self.gives(0, "SEQUENCE\n  event UTF8String\n  holder RDNSequence\n  agent [0] IMPLICIT RelativeDistinguishedName OPTIONAL\n", "table", "--show",
                   "holders")
        (self.folder / "two.py").write_text("from tezqulom.builder import *\ntable = Choice(a=RDNSequence(), b=Sequence())\n")
        self.gives(3, "", "table", "two.py", error="two.py: b: alternatives a and b start with the same tag\n")

    def test_show(self):
        self.made()
        for name, line in [("legg", '    6  holder RDNSequence "2.5.4.3=Steven Legg,2.5.4.10=Adacel,2.5.4.6=AU"\n'), ("none", '    6  holder RDNSequence ""\n'),
                           ("odd", '    6  holder RDNSequence "2.5.4.3=x\\""+2.5.4.5=\\ \\1B,2.5.4.6=AU"\n')]:
            self.gives(0, line, "show", "holders", name, "holder")
        self.assertIn("         agent RelativeDistinguishedName (absent)\n", self.gives(0, None, "show", "holders", "legg"))
        self.gives(0, 'stored 8 16 agent RelativeDistinguishedName "2.5.4.3=Élan"\n', "list", "holders", "agent", "agent")

    def test_ask(self):
        self.made()
        for name, reference, rule, text, status, answer in [
                ("legg", "holder", "distinguishedNameMatch", '"2.5.4.3=STEVEN LEGG,2.5.4.10=adacel,2.5.4.6=au"', 0, "TRUE 1"),
                ("legg", "holder", "distinguishedNameMatch", '"2.5.4.6=AU,2.5.4.10=Adacel,2.5.4.3=Steven Legg"', 1, "FALSE 1"),
                ("legg", "holder", "distinguishedNameMatch", '"cn=Steven Legg"', 2, "UNDEFINED 0"),
                ("agent", "agent", "rdnMatch", '"2.5.4.3=élan"', 0, "TRUE 1"),
                ("none", "agent", "rdnMatch", '"2.5.4.3=élan"', 1, "FALSE 0"), ("none", "holder", "distinguishedNameMatch", '""', 0, "TRUE 1")]:
            self.gives(status, answer + "\n", "ask", "holders", name, tezqulom.item(reference, rule, text))
        for name in self.HOLDERS:
            shown = self.gives(0, None, "show", "holders", name, "holder").split(" RDNSequence ")[1].rstrip("\n")
            self.gives(0, "TRUE 1\n", "ask", "holders", name, tezqulom.item("holder", "distinguishedNameMatch", shown))
        text = tezqulom.item("holder", "distinguishedNameMatch", '"2.5.4.3=x\\"",2.5.4.6 =AU"')
        self.gives(2, 'UNDEFINED 0  %s\n  because the value "2.5.4.3=x\\"",2.5.4.6 =AU" doesn\'t conform for the rule distinguishedNameMatch: '
                   "at character 13 of the name: a dotted type and = are needed\n" % text, "explain", "holders", "odd", text)

    def test_refused(self):
        self.made()
        self.gives(3, "empty-rdn: refused 4: the value is not one of the table's type: at octet 8, holder: RDN 1: 0 pairs, not 1 to 4\n", "why", "holders",
                   "empty-rdn")
        self.gives(3, "REFUSED 3\n", "list", "holders", "legg", "holder.1", error="the reference: refused 3")

    def test_json(self):
        self.made()
        for name, text in self.HOLDERS.items():
            shown, = json.loads(self.gives(0, None, "show", "holders", name, "holder", "--json"))
            listed, = json.loads(self.gives(0, None, "list", "holders", name, "holder", "--json"))
            for found in (shown, listed):
                self.assertEqual((found["kind"], found["value"]), ("RDNSequence", text))


class NamedBits(Command):
    """A BIT STRING whose bits have names: shown by them, and asked about by them."""

    def setUp(self):
        super().setUp()
        (self.folder / "rights.py").write_text("from tezqulom.builder import *\ntable = Sequence(event=UTF8String(), rights=Optional("
                                               "BitString(print=0, perform=1, record=2)))\n")
        for name, rights in (("both", "030206C0"), ("none", "030100"), ("more", "030300C001"), ("absent", ""), ("zero", "030205C0")):
            (self.folder / name).write_bytes(encoded(0x30, b"\x0c\2e1" + bytes.fromhex(rights)))

    def made(self):
        self.gives(0, "", "table", "rights.py", "-o", "rights")

    def test_table(self):
        self.made()
        self.gives(0, "rights: admitted, 8 rows\nboth: good\n", "check", "rights", "both")
        self.gives(0, "SEQUENCE\n  event UTF8String\n  rights BIT STRING {print(0), perform(1), record(2)} OPTIONAL\n", "table", "--show", "rights")
        (self.folder / "rights.py").write_text("from tezqulom.builder import *\ntable = Sequence(rights=BitString(print=0, perform=0))\n")
        self.gives(3, "", "table", "rights.py", error="rights.py: rights: named bits print and perform have the same number\n")

    def test_show(self):
        self.made()
        for name, line in [("both", "    6  rights BIT STRING {print, perform}\n"), ("none", "    6  rights BIT STRING {}\n"),
                           ("more", "    6  rights BIT STRING '1100000000000001'B\n"), ("absent", "")]:
            self.gives(0, line, "show", "rights", name, "rights")
        self.assertIn("         rights BIT STRING (absent)\n", self.gives(0, None, "show", "rights", "absent"))
        self.gives(0, "stored 6 4 rights BIT STRING {print, perform}\n", "list", "rights", "both", "rights")

    def test_ask(self):
        self.made()
        for text, status, answer in [("{print,perform}", 0, "TRUE 1"), ("'110'B", 0, "TRUE 1"), ("{print}", 1, "FALSE 1"), ("{play}", 2, "UNDEFINED 0")]:
            self.gives(status, answer + "\n", "ask", "rights", "both", tezqulom.item("rights", "bitStringMatch", text))
        self.assertIn("  because the value {play} doesn't conform for the rule bitStringMatch: no bit has the name play\n",
                      self.gives(2, None, "explain", "rights", "both", tezqulom.item("rights", "bitStringMatch", "{play}")))

    def test_refused(self):
        self.made()
        self.gives(3, "zero: refused 4: the value is not one of the table's type: at octet 6, rights: BIT STRING with contents 05C0: "
                   "a trailing zero bit, which named bits don't have\n", "why", "rights", "zero")
        (self.folder / "cut").write_bytes(b"\x11\1")
        self.gives(3, "cut: refused 2: the table is not admitted: row 0: the table ends where a named bit is counted: 1 more\n", "why", "cut")

    def test_json(self):
        self.made()
        for name, value, names in [("both", "11", ["print", "perform"]), ("none", "", []), ("more", "1100000000000001", ["print", "perform", 15])]:
            shown, = json.loads(self.gives(0, None, "show", "rights", name, "rights", "--json"))
            listed, = json.loads(self.gives(0, None, "list", "rights", name, "rights", "--json"))
            for found in (shown, listed):
                self.assertEqual((found["kind"], found["value"], found["names"]), ("BIT STRING", value, names))


class LongNames(Command):
    """A member with a long name: in a table, shown, asked about, and cut."""

    def setUp(self):
        super().setUp()
        (self.folder / "concessions.py").write_text(
            "from tezqulom.builder import *\ntable = Sequence(event=UTF8String(), %s=Default(Integer(), 1))\n" % CATEGORY)
        for name, octets in (("three", "30070C026531020103"), ("one", "30040C026531"), ("stored", "30070C026531020101")):
            (self.folder / name).write_bytes(bytes.fromhex(octets))

    def made(self):
        self.gives(0, "", "table", "concessions.py", "-o", "concessions")

    def test_table(self):
        self.made()
        self.gives(0, "concessions: admitted, 5 rows\nthree: good\n", "check", "concessions", "three")
        self.gives(0, "SEQUENCE\n  event UTF8String\n  %s INTEGER DEFAULT 1\n" % CATEGORY, "table", "--show", "concessions")
        (self.folder / "long.py").write_text("from tezqulom.builder import *\ntable = Sequence(%s=Integer())\n" % ("a" * 49))
        self.gives(3, "", "table", "long.py", error="long.py: %s: a member's name has at most 48 characters\n" % ("a" * 49))

    def test_show(self):
        self.made()
        self.gives(0, '    0  SEQUENCE\n    2    event UTF8String "e1"\n    6    %s INTEGER 3\n' % CATEGORY, "show", "concessions", "three")
        self.gives(0, "       %s INTEGER 1 (default)\n" % CATEGORY, "show", "concessions", "one", CATEGORY)
        self.gives(0, "stored 6 3 %s INTEGER 3\n" % CATEGORY, "list", "concessions", "three", CATEGORY)
        listed, = json.loads(self.gives(0, None, "list", "concessions", "one", CATEGORY, "--json"))
        self.assertEqual(listed, {"source": "default", "place": 0, "row": 2, "reference": CATEGORY, "kind": "INTEGER", "value": 1})

    def test_ask(self):
        self.made()
        for name, status, answer in (("three", 0, "TRUE 1"), ("one", 1, "FALSE 1")):
            self.gives(status, answer + "\n", "ask", "concessions", name, tezqulom.item(CATEGORY, "integerMatch", "3"))
        cut = tezqulom.item(CATEGORY[:24], "integerMatch", "3")
        self.gives(2, "UNDEFINED 0\n", "ask", "concessions", "three", cut)
        self.gives(2, 'UNDEFINED 0  %s\n  because the reference "%s" is malformed, or the table\'s type doesn\'t allow it\n' % (cut, CATEGORY[:24]), "explain",
                   "concessions", "three", cut)
        self.gives(3, "REFUSED 3\n", "list", "concessions", "three", CATEGORY[:24], error="the reference: refused 3")

    def test_refused(self):
        self.made()
        self.gives(3, "stored: refused 4: the value is not one of the table's type: at octet 6, %s: 1, the default, is stored; a default never is\n" % CATEGORY,
                   "why", "concessions", "stored")
        (self.folder / "short").write_bytes(sequence(long_member(CATEGORY[:24], 2)) + b"\2")
        self.gives(3, "short: refused 2: the table is not admitted: row 1: member %s: a name of 24 characters in a row of kind 21, not 25 to 48\n"
                   % CATEGORY[:24], "why", "short")
        for octets, message in ((8064, "refused 2: the table is not admitted: the table has 8064 rows, not 1 to 128\n"),
                                (8065, "refused 1: the table has 8065 octets, not 1 to 8064\n")):
            (self.folder / "large").write_bytes(b"\2" * octets)
            self.gives(3, "large: " + message, "why", "large")


class Forms(Command):
    """DER, hexadecimal digits and PEM; standard input; names and values that don't print."""

    def test_recognised(self):
        wrapped = b"-----BEGIN LICENCE-----\n" + base64.encodebytes(RECORD) + b"-----END LICENCE-----\n"
        for form in (RECORD, RECORD.hex().encode(), RECORD.hex(" ").upper().encode() + b"\n", b"text before is not passed over"[:0] + wrapped,
                     wrapped.replace(b"\n", b"\r\n")):
            self.gives(0, "TRUE 2\n", "ask", "table", "-", TRUE, stdin=form)
        self.gives(0, "TRUE 2\n", "ask", "-", "record", TRUE, stdin=LICENCE.hex().encode())
        self.gives(0, "TRUE 2\n", "ask", "table", "record", "-", stdin=TRUE.encode())
        self.gives(0, "TRUE 2\n", "ask", "table", "record", "-", stdin=TRUE.encode() + b"\r\n")
        for form, message in [(b"301", "an odd number of hexadecimal digits"), (wrapped[:40], "PEM with 0 whole blocks"), (wrapped * 2, "PEM with 2"),
                              (b"-----BEGIN X-----\n?\n-----END X-----\n", "PEM whose base64 is damaged")]:
            self.gives(66, "", "check", "table", "-", stdin=form, error="standard input: " + message)

    def test_never_mistaken(self):
        """Octets of a good value or an admitted table are never taken for digits."""
        for octets in (b"\x09", b"\x0a", b"\x0d\x0a", b"\x09\x0a"):
            self.assertEqual(inputs.recognised(octets), octets)

    def test_escapes(self):
        (self.folder / "strange").write_bytes(licence("\x1b[31m\u202e\n", [1]))
        said = self.gives(0, None, "show", "table", "strange")
        self.assertIn(r'"\x1b[31m\u202e\n"', said)
        self.gives(0, None, "show", "table", "strange", env={"LC_ALL": "C", "PYTHONIOENCODING": "ascii"})

    def test_module(self):
        done = subprocess.run([sys.executable, "-B", "-m", "tezqulom", "ask", "table", "record", TRUE], check=False, capture_output=True, cwd=self.folder,
                              env={**os.environ, "PYTHONPATH": str(ROOT / "bindings" / "python"), "TEZQULOM_LIBRARY": library.file})
        self.assertEqual((done.returncode, done.stdout), (0, b"TRUE 2\n"))

    def test_main(self):
        self.assertEqual(command.main(["quote", ""]), 64)

    def test_table(self):
        source = "from tezqulom.builder import *\ntable = Sequence(event=UTF8String(), seats=Default(Integer(), 1), parts=SequenceOf(Sequence(\n" \
                 "    name=PrintableString(), copies=Default(Implicit(0, Integer()), 1))))\n"
        (self.folder / "licence.py").write_text(source)
        self.gives(0, "", "table", "licence.py", "-o", "made")
        self.assertEqual((self.folder / "made").read_bytes(), LICENCE)
        self.assertEqual(self.run_("table", "licence.py").stdout, LICENCE)
        self.assertIn("  seats INTEGER DEFAULT 1\n", self.gives(0, None, "table", "--show", "made"))
        for status, text, message in [(3, "table = Sequence(a=Optional(Integer()), b=Integer())", "t.py: b: members a and b start with the same tag"),
                                      (3, "x = 1", "t.py: it doesn't set `table`"), (3, "table = b''", "t.py: refused 1"), (66, "table = y", "t.py: NameError"),
                                      (66, "table = (", "t.py: SyntaxError"), (66, "import sys; sys.exit(0)", "t.py: SystemExit")]:
            (self.folder / "t.py").write_text("from tezqulom.builder import *\n" + text + "\n")
            self.gives(status, "", "table", "t.py", error=message)


class BillRun(Command):
    """One filter about many records."""

    def database(self, records):
        database = sqlite3.connect(self.folder / "bills.db")
        database.execute("create table bill(id, record)")
        database.executemany("insert into bill values (?, ?)", records)
        database.commit()
        database.close()

    def test_answers(self):
        self.database([("a", RECORD), ("b", RECORD[:-1]), (3, licence("x", [2])), (None, None), (b"\xff", RECORD), ("hex", RECORD.hex()),
                       ("odd", "301"), ("n\n", RECORD), ("i", 7)])
        done = self.run_("run", "table", TRUE, "--sqlite", "bills.db", "select id, record from bill")
        self.assertEqual(done.stdout.decode(), "a\n\\\\xff\nhex\nn\\n\n")
        self.assertEqual(done.returncode, 3)
        self.assertIn(b"9 records: 4 TRUE, 1 FALSE, 0 UNDEFINED, 4 refused; Undefined ids are in tezqulom.undefined", done.stderr)
        self.assertEqual((self.folder / "tezqulom.refused").read_text(), "b\trefused 4: the value is not one of the table's type\nNone\tno octets: NULL\n"
                         "odd\tan odd number of hexadecimal digits\ni\tno octets: int\n")
        self.assertEqual((self.folder / "tezqulom.undefined").read_text(), "")

    def test_statuses(self):
        self.gives(0, "record\n", "run", "table", TRUE, "record", error="1 record: 1 TRUE")
        self.gives(0, "", "run", "table", FALSE, "record", error="1 record: 0 TRUE, 1 FALSE")
        self.gives(2, "", "run", "table", UNDEFINED, "record", "--undefined", "u", error="1 record: 0 TRUE, 0 FALSE, 1 UNDEFINED")
        self.assertEqual((self.folder / "u").read_text(), "record\n")
        self.gives(3, "record\n", "run", "table", TRUE, "bad", "record", error="2 records: 1 TRUE, 0 FALSE, 0 UNDEFINED, 1 refused")
        self.gives(66, "record\n", "run", "table", TRUE, "nope", "record", error="2 records: 1 TRUE, 0 FALSE, 0 UNDEFINED, 0 refused, 1 not read")
        self.assertEqual((self.folder / "tezqulom.refused").read_text(), "nope\tnope: no such file or directory\n")

    def test_queries(self):
        self.database([("a", RECORD)])
        for query in ("select id from bill", "select * from nothing", "delete from bill", "selec", "", "select 1, 2; select 3, 4"):
            self.assertEqual(self.run_("run", "table", TRUE, "--sqlite", "bills.db", query).returncode, 64, query)
        self.gives(0, "a\n", "run", "table", TRUE, "--sqlite", "bills.db", "select id, record from bill", error="1 record")

    def test_terminal(self):
        """On a terminal the number of records so far is shown on standard error, and wiped."""
        leader, follower = pty.openpty()
        program = "import sys\nfrom tezqulom import billrun\nbillrun._PAUSE, billrun._STEP = -1, 1\n" \
                  "from tezqulom.command import main\nsys.exit(main())\n"
        environment = {**os.environ, "PYTHONPATH": str(ROOT / "bindings" / "python"), "TEZQULOM_LIBRARY": library.file}
        done = subprocess.run([sys.executable, "-B", "-c", program, "run", "table", TRUE, "record", "record"], check=False, cwd=self.folder, env=environment,
                              stdout=subprocess.PIPE, stderr=follower)
        os.close(follower)
        said = os.read(leader, 9999)
        os.close(leader)
        self.assertEqual((done.returncode, done.stdout), (0, b"record\nrecord\n"))
        self.assertTrue(said.startswith(b"\r0 records\r1 records\r\x1b[Ktezqulom: 2 records: 2 TRUE"), said)

    def test_json(self):
        done = self.run_("run", "table", TRUE, "record", "bad", "--json")
        lines = [json.loads(line) for line in done.stdout.decode().splitlines()]
        self.assertEqual(lines, [{"id": "record", "answer": "TRUE", "tests": 2}, {"true": 1, "false": 0, "undefined": 0, "refused": 1, "unread": 0}])
        self.assertEqual(json.loads((self.folder / "tezqulom.refused").read_text())["answer"], "REFUSED")

    def test_many(self):
        """40,000 records in about a second of CPU; the answers are those of single questions."""
        records = [("L%d" % at, licence("e%d" % at, [at % 5 + 1, at % 3 + 1])[:-1 if at % 1000 == 7 else None]) for at in range(MANY)]
        self.database(records)
        before = resource.getrusage(resource.RUSAGE_CHILDREN)
        done = self.run_("run", "table", TRUE, "--sqlite", "bills.db", "select id, record from bill", env={"PYTHONUNBUFFERED": ""})
        after = resource.getrusage(resource.RUSAGE_CHILDREN)
        used = after.ru_utime + after.ru_stime - before.ru_utime - before.ru_stime
        print("\n  %d records: %.2f seconds of CPU" % (MANY, used))
        self.assertLess(used, SECONDS)
        self.assertEqual(done.returncode, 3)
        expected = [name for at, (name, _) in enumerate(records) if (at % 5 == 2 or at % 3 == 2) and at % 1000 != 7]
        self.assertEqual(done.stdout.decode().split(), expected)
        self.assertIn(b"%d records: %d TRUE, %d FALSE, 0 UNDEFINED, 40 refused" % (MANY, len(expected), MANY - 40 - len(expected)), done.stderr)


class Wheel(unittest.TestCase):
    """The package that pip installs."""

    def test_wheel(self):
        with tempfile.TemporaryDirectory() as folder:
            wheel = pathlib.Path(folder, backend.build_wheel(folder))
            self.assertIn(tezqulom.__version__, wheel.name)
            program = "import tezqulom, tezqulom.command; print(tezqulom.__file__, tezqulom.check_table(b'\\2'))"
            done = subprocess.run([sys.executable, "-B", "-c", program], check=True, capture_output=True, cwd=folder, text=True,
                                  env={**os.environ, "PYTHONPATH": str(wheel), "TEZQULOM_LIBRARY": library.file})
            self.assertEqual(done.stdout, "%s/tezqulom/__init__.py 1\n" % wheel)
            with zipfile.ZipFile(wheel) as archive:
                self.assertIn("tezqulom/py.typed", archive.namelist())
            self.assertTrue(pathlib.Path(folder, backend.build_sdist(folder)).is_file())


class ManPage(unittest.TestCase):
    """The man page has each command, and no warnings."""

    PAGE = ROOT / "bindings" / "tezqulom.1"

    def test_page(self):
        text = self.PAGE.read_text()
        for name in ("show", "ask", "list", "check", "why", "explain", "each", "run", "table", "quote", "escape"):
            self.assertIn("\n.B %s\n" % name, text.replace("\n.BR %s" % name, "\n.B %s\n" % name).replace("\n.BI \"%s " % name, "\n.B %s\n" % name))
        self.assertIn(tezqulom.__version__, text)

    def test_warnings(self):
        if shutil.which("man") is None:
            print("\n  the man page's warnings SKIPPED, man is not installed")
            self.skipTest("man is not installed")
        done = subprocess.run(["man", "--warnings", "-l", "-E", "UTF-8", "-Tutf8", self.PAGE], check=False, capture_output=True,
                              env={**os.environ, "LC_ALL": "C.UTF-8", "MANROFFSEQ": ""})
        self.assertEqual((done.returncode, done.stderr), (0, b""))


if __name__ == "__main__":
    unittest.main()
