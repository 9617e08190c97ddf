"""Tests of the cases of crates/cases, read back from its files."""

import hashlib
import unittest
from collections import Counter

import corpus
import der
import engine
import filters
import question_bits
import question_names
import question_strings
import questions
import reference
import table as types
import value as values
from samples import LICENCE, NAME, RDN, RECORD, item, leaf

# The cases up to Q-3, which stand first and stay as they are: the number of their octets and what these hash to.
EARLIER = 8683171, "685d7fe4765d3d317eb57ffc4799b920c7dd866c0daebb281973afa8b1518a8c"


class Reader:
    """Reads the cases of standard input as docs/CASES.md describes them."""

    def __init__(self, octets):
        self.octets, self.place = octets, 0

    def take(self, size):
        """The next octets."""
        self.place += size
        if self.place > len(self.octets):
            raise ValueError("a case is cut off")
        return self.octets[self.place - size:self.place]

    def number(self, size):
        """A number of so many octets."""
        return int.from_bytes(self.take(size), "big")

    def input(self):
        """An input of octets."""
        return self.take(self.number(2))

    def question(self):
        """A listing or a filter."""
        if self.take(1) == b"f":
            return ("f", self.input(), self.number(8))
        return ("l", self.number(1) == 1, self.input(), self.number(1) == 1, self.number(2))

    def cases(self):
        """Each case: its kind, and for a question its table, value and inputs."""
        while self.place < len(self.octets):
            kind = self.take(1).decode()
            if kind == "q":
                table, value = self.input(), self.input()
                for _ in range(self.number(2)):
                    question = self.question()
                    yield question[0], (table, value) + question[1:]
                continue
            inputs = (self.input(),) + ((self.input(),) if kind == "v" else ())
            yield kind, inputs + ((self.number(8), self.number(8)) if kind == "p" else ())


class Files(unittest.TestCase):
    """What stands in crates/cases/stdin and stdout."""

    @classmethod
    def setUpClass(cls):
        lines = (corpus.FOLDER / "stdout").read_text(encoding="utf-8").splitlines()
        found = [*Reader((corpus.FOLDER / "stdin").read_bytes()).cases()]
        cls.lines, cls.cases = len(lines), [(*case, line) for case, line in zip(found, lines)]
        cls.number = len(found)

    def test_a_line_each(self):
        self.assertEqual(self.lines, self.number)

    def test_each_answer_often(self):
        seen = Counter((kind, corpus.word_of(line)) for kind, _, line in self.cases)
        self.assertGreaterEqual(sum(seen[one] for one in seen if one[0] == "l"), 5000)
        self.assertGreaterEqual(sum(seen[one] for one in seen if one[0] == "f"), 20000)
        for kind, words in (("l", ["listed"] + ["refused %d" % number for number in (1, 2, 3, 4, 6)]),
                            ("f", ["TRUE", "FALSE", "UNDEFINED"] + ["refused %d" % number for number in range(1, 6)])):
            self.assertEqual(sorted(word for one, word in seen if one == kind), sorted(words))
            for word in words:
                self.assertGreaterEqual(seen[kind, word], 150, (kind, word))

    def test_around_the_need(self):
        rooms, budgets = Counter(), Counter()
        for kind, inputs, line in self.cases:
            if kind == "l" and line.startswith("listed"):
                rooms[inputs[5] - 3 * int(line.split(":")[0].split()[1])] += 1
            if kind == "f" and line[0] in "TFU":
                budgets[inputs[3] - int(line.split()[1])] += 1
        for more in (0, 1, 2):
            self.assertGreaterEqual(rooms[more], 300)
        self.assertEqual(min(rooms), 0)
        self.assertGreaterEqual(budgets[0], 3000)
        self.assertEqual(min(budgets), 0)

    def test_short_by_one(self):
        rooms = budgets = 0
        for kind, inputs, line in self.cases:
            if kind == "l" and line.startswith("refused 6"):
                rooms += engine.listing(*inputs[:5], inputs[5] + 1)[0] == "listed"
            if kind == "f" and line == "refused 5" and inputs[3] < 65535 and len(inputs[1]) < 1000:
                budgets += engine.ask(*inputs[:3], inputs[3] + 1)[0] == "answer"
        self.assertGreaterEqual(rooms, 300)
        self.assertGreaterEqual(budgets, 2000)

    def test_paper(self):
        answers = {(kind, inputs): line for kind, inputs, line in self.cases if inputs[0] == LICENCE}
        copies = "parts.*.copies"
        for text, budget, line in [
                (item(copies, "integerMatch", "3"), 65535, "TRUE 2"),
                (item(copies, "integerMatch", "3"), 1, "refused 5"),
                (item(copies, "integerMatch", "7"), 65535, "FALSE 2"),
                (item(copies, "integerMatch", "1", "FALSE"), 65535, "FALSE 1"),
                (item(copies, "integerOrderingMatch", "2"), 65535, "TRUE 1"),
                (item("event", "integerMatch", "3"), 65535, "UNDEFINED 0"),
                ("not:" + item("event", "integerMatch", "3"), 65535, "UNDEFINED 0"), ("and:{ }", 65535, "TRUE 0"),
                ("or:{ }", 65535, "FALSE 0"), (item("seats", "integerMatch", "9223372036854775808"), 65535, "FALSE 1"),
                (item("parts.3", "presentMatch", "NULL"), 65535, "FALSE 0")]:
            self.assertEqual(answers["f", (LICENCE, RECORD, text.encode(), budget)], line)
        for text, room, line in [("parts.*.copies", 6, "listed 2: 1 8 9 0 20 3"), ("parts.0", 3, "listed 1: 2 6 2"),
                                 ("parts.*.copies", 5, "refused 6: 9999 9999 9999 9999 9999")]:
            self.assertEqual(answers["l", (LICENCE, RECORD, True, text.encode(), True, room)], line)
        stored = bytes.fromhex("30180C026531020101300F30041302566C300713025661800103")
        self.assertEqual(answers["l", (LICENCE, stored, True, b"seats", True, 3)], "refused 4: 9999 9999 9999")

    def test_each_character(self):
        """Each character up to U+017F is stored and asserted alone, doubled, between letters and beside spaces, for both rules."""
        asked = {(inputs[1], inputs[2]) for kind, inputs, _ in self.cases if kind == "f" and inputs[0] == question_strings.STRINGS}
        texts, stored = {text for _, text in asked}, {value for value, _ in asked}
        for character in question_strings.CHARACTERS:
            for form in question_strings.FORMS:
                string = form.format(character)
                self.assertTrue(any(leaf(8, string.encode()) in value for value in stored), string)
                for oid, _ in question_strings.RULES:
                    self.assertIn(item("*", oid, question_strings.quoted(string)).encode(), texts)

    def test_each_bit(self):
        """Each bit number is asserted by a name, with the number of tests that tells it, and stored as the last bit and above the names."""
        value = question_bits.of_bits(question_bits.one_bit(number) for number in range(64))
        told, rows = set(), {}
        for kind, inputs, line in self.cases:
            if kind == "f" and inputs[1] == value and b'component "*"' in inputs[2] and b"value {" in inputs[2] and line.startswith("TRUE"):
                table = rows.setdefault(inputs[0], types.Table(inputs[0]))
                name = inputs[2].decode().split("value {")[1].split("}")[0]
                self.assertEqual(line, "TRUE %d" % (table.bits_by_name(1)[name] + 1))
                told.add(table.bits_by_name(1)[name])
        self.assertEqual(told, {*range(64)})

    def test_named_bits(self):
        """Tables, values and questions with rows of kind 17 or 18 stand in all answers."""
        seen = Counter((kind, corpus.word_of(line)) for kind, inputs, line in self.cases
                       if kind != "p" and self.has_rows(inputs[0], (der.NAMED_BIT_STRING, der.BIT_NAME)))
        for kind, words in (("t", ["admitted", "refused 2"]), ("v", ["good", "refused 4"]),
                            ("f", ["TRUE", "FALSE", "UNDEFINED", "refused 3", "refused 5"]), ("l", ["listed", "refused 3", "refused 6"])):
            for word in words:
                self.assertGreaterEqual(seen[kind, word], 100, (kind, word))

    def test_names(self):
        """Tables, values and questions with rows of kind 19, and those with rows of kind 20, stand in all answers."""
        for row in der.NAME_KINDS:
            seen = Counter((kind, corpus.word_of(line)) for kind, inputs, line in self.cases if kind != "p" and self.has_rows(inputs[0], (row,)))
            for kind, words in (("t", ["admitted", "refused 2"]), ("v", ["good", "refused 4"]),
                                ("f", ["TRUE", "FALSE", "UNDEFINED", "refused 3", "refused 5"]), ("l", ["listed", "refused 3", "refused 6"])):
                for word in words:
                    self.assertGreaterEqual(seen[kind, word], 25, (row, kind, word))

    def test_asserted_names(self):
        """Both rules accept and don't accept, by RFC 4514 strings with each character escaped that may be, and with hex pairs."""
        seen = Counter()
        for kind, inputs, line in self.cases:
            if kind == "f" and line[0] in "TFU" and inputs[0] in (NAME, RDN, question_names.NAMES, question_names.RDNS):
                text = inputs[2].decode()
                found = [rule for rule in (question_names.WHOLE, question_names.ONE, "distinguishedNameMatch", "rdnMatch") if "rule %s," % rule in text]
                if len(found) == 1 and text.startswith("item:"):
                    seen.update((found[0], line[0], "\\" + sign) for sign in '\\"+,;<> #=' if "\\" + sign in text)
                    seen[found[0], line[0], "of any kind"] += 1
        for rule in (question_names.WHOLE, question_names.ONE):
            for truth in "TFU":
                self.assertGreaterEqual(seen[rule, truth, "of any kind"], 100)
        for sign in '\\"+,;<> #=':
            self.assertGreaterEqual(sum(seen[rule, "T", "\\" + sign] for rule, _, _ in [*seen]), 5, sign)

    def test_long_names(self):
        """Tables, values and questions with rows of kind 21 stand in all answers, and tables of all sizes around the limits."""
        seen = Counter((kind, corpus.word_of(line)) for kind, inputs, line in self.cases if kind != "p" and self.has_rows(inputs[0], (der.LONG_MEMBER,)))
        for kind, words in (("t", ["admitted", "refused 2"]), ("v", ["good", "refused 4"]),
                            ("f", ["TRUE", "FALSE", "UNDEFINED", "refused 3", "refused 5"]), ("l", ["listed", "refused 3", "refused 6"])):
            for word in words:
                self.assertGreaterEqual(seen[kind, word], 100, (kind, word))
        sizes = {(len(inputs[0]), corpus.word_of(line)) for kind, inputs, line in self.cases if kind == "t"}
        for size, word in ((4992, "admitted"), (4993, "admitted"), (7515, "admitted"), (4993, "refused 2"), (7515, "refused 2"), (7516, "refused 2"),
                           (8063, "refused 2"), (8064, "refused 2"), (8065, "refused 1")):
            self.assertIn((size, word), sizes)
        self.assertEqual([one for one in sizes if one[1] == "refused 1" and 1 <= one[0] <= 8064 or one[1] == "admitted" and one[0] > 7515], [])

    def test_each_place_of_a_name(self):
        """16 long names that differ at one place are told apart, for each of the 48 places, and two of 16 are equal, for any two rows."""
        told, pairs = Counter(), set()
        for kind, inputs, line in self.cases:
            if kind == "t" and corpus.word_of(line) == "refused 2" and len(inputs[0]) == 2 + 16 * 63 + 1 and inputs[0][:1] in (b"\x0c", b"\x0d"):
                names = [inputs[0][at + 1:at + 49] for at in range(2, 1010, 63)]
                pairs.update((one, two) for two in range(16) for one in range(two) if names[one] == names[two])
            if kind == "f" and line[0] in "TF" and len(inputs[0]) == 2 + 16 * 63 + 3 + 1 and inputs[2].endswith((b"value 0}", b"value 99}")):
                names = [row.name for row in types.Table(inputs[0]).rows[1:17]]
                places = [at for at in range(48) if len({name[at:at + 1] for name in names}) == 16]
                name = inputs[2].decode().split('"')[1].split(".")
                if len(places) == 1 and len({name[:places[0]] + name[places[0] + 1:] for name in names}) == 1 and name[1:] == ["*"]:
                    self.assertEqual(line, "%s %d" % ("TRUE" if b"value 0}" in inputs[2] else "FALSE", names.index(name[0]) + 1))
                    told[places[0]] += 1
        self.assertEqual({place for place in told if told[place] >= 4}, {*range(48)})
        self.assertEqual(len(pairs), 120)

    def test_short_names_instead(self):
        """A table whose long names are made short answers the same: its rows, its values, and listings by its names."""
        seen, words = Counter(), ("admitted", "good", "refused 4", "listed", "refused 6")
        for kind, inputs, line in self.cases:
            if kind in "tvl" and corpus.word_of(line) in words and self.has_rows(inputs[0], (der.LONG_MEMBER,)):
                table, names = self.shortened(inputs[0])
                seen[kind] += 1
                if kind == "t":
                    self.assertEqual("%s %d" % engine.check_table(table), line)
                elif kind == "v":
                    self.assertEqual(" ".join(map(str, engine.check_value(table, inputs[1]))), line)
                else:
                    steps = [names.get(step, step) for step in inputs[3].decode("utf-8", "replace").split(".")]
                    self.assertEqual(questions.answered(table, inputs[1], ("l", inputs[2], ".".join(steps).encode(), *inputs[4:])), line + "\n")
        self.assertGreaterEqual(min(seen[kind] for kind in "tvl"), 500)

    def shortened(self, octets):
        """An admitted table with each long name made a short one, in rows of kind 16, and the short name of each."""
        rows, names, place = [], {}, 0
        while place < len(octets):
            kind = octets[place]
            row = octets[place:place + 1 + types.BODY[kind]]
            place += len(row)
            if kind == der.LONG_MEMBER:
                name = names.setdefault(row[1:49].rstrip(b"\0").decode(), "short-%d" % len(names))
                row = bytes([der.MEMBER]) + name.encode().ljust(24, b"\0") + row[49:]
            rows.append(row)
        return b"".join(rows), names

    def test_each_once(self):
        self.assertEqual(len({(kind, inputs) for kind, inputs, _ in self.cases}), self.number)

    def test_earlier_cases_stay(self):
        """What was there before Q-4 is there still, octet for octet, before the rest."""
        octets = (corpus.FOLDER / "stdin").read_bytes()[:EARLIER[0]]
        self.assertEqual((len(octets), hashlib.sha256(octets).hexdigest()), EARLIER)

    def has_rows(self, octets, kinds):
        """Whether the table holds a whole row of one of these kinds that is where its rows begin."""
        place = 0
        while place < len(octets) and octets[place] in types.BODY:
            if octets[place] in kinds and place + types.BODY[octets[place]] < len(octets):
                return True
            place += 1 + types.BODY[octets[place]]
        return False

    def test_laws(self):
        kept = None, None, None
        for kind, inputs, line in self.cases:
            if kind == "f" and line[0] in "TFU":
                items = filters.items(filters.parse(inputs[2]))
                self.assertLessEqual(int(line.split()[1]), items * (len(inputs[1]) // 2))
            if kind == "l" and line.startswith("listed"):
                if kept[0] != inputs[:2]:
                    rows = types.Table(inputs[0])
                    kept = inputs[:2], rows, values.decode(rows, inputs[1])
                steps = reference.parse(inputs[3].decode()) if inputs[2] else []
                named = reference.named_in_tree(kept[1], kept[2], steps, inputs[4])
                numbers = [number for one in named for number in (one.source, one.place, one.number)]
                told = [int(number) for number in line.split(":")[1].split()]
                self.assertEqual(told, numbers + [questions.UNWRITTEN] * (inputs[5] - len(numbers)))
                self.assertNotIn(questions.UNWRITTEN, numbers)
                self.assertTrue(all(one.place < other.place for one, other in zip(named, named[1:])))


if __name__ == "__main__":
    unittest.main()
