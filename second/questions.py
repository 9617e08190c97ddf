"""Listings and filters for crates/cases: tables and values, each with what is asked about it.

Like corpus.py this module and those that it draws on, question_filters.py, question_places.py, question_strings.py, question_bits.py,
question_names.py and question_long.py, choose cases; engine.py answers them.
"""

import random

import draw
import draw_values
import engine
import question_bits
import question_filters
import question_long
import question_names
import question_places
import question_strings
import written
from samples import LICENCE, RECORD, item

# What the program's buffers hold.
LONGEST_TABLE, LONGEST_VALUE, LONGEST_TEXT = engine.TABLE_SIZES.stop, engine.VALUE_SIZES.stop, engine.FILTER_SIZES.stop
MOST_NUMBERS = 6144
MOST_BUDGET = 65535
# What each number of the room is before a listing.
UNWRITTEN = 9999
EDGES, SUBJECTS, BROKEN, LARGE = 4500, 1200, 450, 50


class Questions:
    """Tables and values in the order met, each with its questions, each question once."""

    def __init__(self, seed):
        self.dice, self.of = random.Random(seed), {}

    def add(self, table, value, question):
        """One question: ("f", filter, budget) or ("l", given, reference, defaults, room)."""
        if len(table) <= LONGEST_TABLE and len(value) <= LONGEST_VALUE:
            self.of.setdefault((table, value), {}).setdefault(question)

    def filter(self, table, value, text, budget=MOST_BUDGET):
        """A filter with this budget."""
        text = text.encode("utf-8") if isinstance(text, str) else text
        if len(text) <= LONGEST_TEXT:
            self.add(table, value, ("f", text, budget))

    def budgets(self, table, value, text):
        """A filter with budgets around the tests that it needs."""
        text = text.encode("utf-8") if isinstance(text, str) else text
        answer = engine.ask(table, value, text, MOST_BUDGET)
        if answer[0] == "refused":
            self.filter(table, value, text, self.dice.choice([MOST_BUDGET, MOST_BUDGET, 0, 1]))
            return
        need = answer[2]
        self.filter(table, value, text, need)
        if need:
            self.filter(table, value, text, need - 1)

    def budget(self, table, value, text):
        """A filter with one budget, often close to the tests that it needs."""
        text = text.encode("utf-8") if isinstance(text, str) else text
        answer = engine.ask(table, value, text, MOST_BUDGET)
        need = answer[2] if answer[0] == "answer" else 0
        self.filter(table, value, text, self.dice.choice(
            [MOST_BUDGET, MOST_BUDGET, MOST_BUDGET, need, need, need, need + 1, max(0, need - 1), max(0, need - 1), 0]))

    def listing(self, table, value, text, defaults, room):
        """A listing; the reference is given unless it is None."""
        octets = text.encode("utf-8") if isinstance(text, str) else text or b""
        if len(octets) <= LONGEST_TEXT and room <= MOST_NUMBERS:
            self.add(table, value, ("l", text is not None, octets, defaults, room))

    def rooms(self, table, value, text, defaults, count=1):
        """A listing with so many rooms around the numbers that it needs."""
        octets = text.encode("utf-8") if isinstance(text, str) else text or b""
        answer = engine.listing(table, value, text is not None, octets, defaults, MOST_NUMBERS)
        need = 3 * len(answer[1]) if answer[0] == "listed" else self.dice.choice([0, 3])
        rooms = [need, need, need, need + 1, need + 2, max(0, need - 1), max(0, need - 1), max(0, need - 3), 0]
        for _ in range(count):
            self.listing(table, value, text, defaults, self.dice.choice(rooms))


def of_the_tests(found):
    """What the tests ask: P1..P12, "Run only", RFC 3687's examples, and the edges of every sentence."""
    for case in written.cases(10000, written.BASE):
        if case.entry == "ask":
            found.filter(*case.inputs)
            found.budgets(*case.inputs[:3])
        elif case.entry == "list":
            table, value, given, octets, defaults, room = case.inputs
            if room <= 64:
                found.add(table, value, ("l", given, octets, defaults, room))
            for _ in range(3):
                found.rooms(table, value, octets if given else None, defaults)


def of_the_paper(found):
    """P1..P12 and "Run only", with every budget and room up to the need and beyond."""
    for text in [item("parts.*.copies", "integerMatch", "3"), item("parts.*.copies", "integerMatch", "7"),
                 item("parts.*.copies", "integerMatch", "1", "FALSE"),
                 item("parts.*.copies", "integerOrderingMatch", "2"), item("event", "integerMatch", "3"),
                 "not:" + item("event", "integerMatch", "3"), "and:{ }", "or:{ }",
                 item("seats", "integerMatch", "9223372036854775808"), item("parts.3", "presentMatch", "NULL")]:
        for budget in (0, 1, 2, 3, 65534, 65535, 65536, 2 ** 32, 2 ** 32 + 2, 2 ** 63, 2 ** 64 - 1):
            found.filter(LICENCE, RECORD, text, budget)
    for text in ("parts.*.copies", "parts.0"):
        for room in range(9):
            for defaults in (True, False):
                found.listing(LICENCE, RECORD, text, defaults, room)
    stored = bytes.fromhex("30180C026531020101300F30041302566C300713025661800103")
    for value in (stored, stored.replace(b"\2\1\1", b"\2\1\2")):
        found.filter(LICENCE, value, item("seats", "integerMatch", "1"))
        found.listing(LICENCE, value, "seats", True, 3)


def edges(found, seed):
    """Drawn cases close to the edge of one sentence."""
    drawer, asked = draw.CaseDrawer(seed), 0
    while asked < EDGES:
        case = drawer.edge()
        if case.entry == "ask":
            found.filter(*case.inputs)
        elif case.entry == "list":
            found.add(case.inputs[0], case.inputs[1], ("l",) + case.inputs[2:])
        else:
            continue
        asked += 1


def drawn(found, seed, limits, subjects, filters, listings, where=("none",), bits=False, names=False, longer=False):
    """Drawn tables with drawn values, and so many drawn filters and listings about each."""
    drawer = draw.CaseDrawer(seed, limits, bits, names, longer)
    dice = drawer.dice
    for _ in range(subjects):
        table, value = drawer.both(dice.choice(where))
        texts = drawer.texts(table, value)
        for _ in range(filters):
            text = texts.filter(limits.filter)
            octets = (texts.bad_filter(text) if dice.random() < 0.1 else text).encode("utf-8")
            if dice.random() < 0.02:
                at = dice.randint(0, len(octets))
                octets = octets[:at] + dice.choice([b"\xff", b"\x80", b"\xc3", b"\0"]) + octets[at:]
            found.budget(table, value, octets)
        for _ in range(listings):
            octets = texts.listing_reference()
            if dice.random() < 0.1:
                octets = draw_values.break_octets(dice, octets)
            given = bool(octets) or dice.random() < 0.1
            found.rooms(table, value, octets if given else None, dice.random() < 0.7)


def subjects(hostile):
    """All tables and values with their questions up to Q-2: a dict from (table, value) to a list of questions."""
    found = Questions(81)
    of_the_paper(found)
    of_the_tests(found)
    edges(found, 82)
    question_filters.ask(found)
    question_places.ask(found, hostile)
    drawn(found, 83, draw.SMALL, SUBJECTS, 8, 3)
    drawn(found, 84, draw.SMALL, BROKEN, 2, 2, ("table", "value", "value", "value"))
    drawn(found, 85, draw.LARGE, LARGE, 8, 4)
    question_strings.ask(found)
    question_bits.ask(found)
    drawn(found, 86, draw.SMALL, 60, 6, 3, bits=True)
    drawn(found, 87, draw.SMALL, 40, 2, 1, ("table", "value", "value", "value"), bits=True)
    drawn(found, 88, draw.LARGE, 8, 6, 3, bits=True)
    return {subject: list(asked) for subject, asked in found.of.items()}


def name_subjects():
    """Those about names (Q-3), likewise."""
    found = Questions(91)
    question_names.ask(found)
    drawn(found, 92, draw.SMALL, 36, 5, 2, names=True)
    drawn(found, 93, draw.SMALL, 20, 2, 1, ("table", "value", "value", "value"), names=True)
    drawn(found, 94, draw.LARGE, 5, 5, 2, names=True)
    return {subject: list(asked) for subject, asked in found.of.items()}


def long_subjects():
    """Those about members of kind 21 (Q-4), likewise."""
    found = Questions(101)
    question_long.ask(found)
    drawn(found, 102, draw.SMALL, 50, 5, 2, longer=True)
    drawn(found, 103, draw.SMALL, 30, 2, 1, ("table", "value", "value", "value"), longer=True)
    drawn(found, 104, draw.LARGER, 5, 5, 2, longer=True)
    return {subject: list(asked) for subject, asked in found.of.items()}


def without(subjects, earlier):
    """These questions but those that stand among the earlier ones."""
    left = {subject: [question for question in asked if question not in earlier.get(subject, ())] for subject, asked in subjects.items()}
    return {subject: asked for subject, asked in left.items() if asked}


def answered(table, value, question):
    """The line that the program prints for a question."""
    if question[0] == "f":
        answer = engine.ask(table, value, *question[1:])
        return "refused %d\n" % answer[1] if answer[0] == "refused" else "%s %d\n" % answer[1:]
    answer = engine.listing(table, value, *question[1:])
    threes = answer[1] if answer[0] == "listed" else []
    numbers = [number for three in threes for number in three]
    room = numbers + [UNWRITTEN] * (question[4] - len(numbers))
    count = len(threes) if answer[0] == "listed" else answer[1]
    return "%s %d:%s\n" % (answer[0], count, "".join(" %d" % number for number in room))


def octets_of(question):
    """A question as the program reads it."""
    if question[0] == "f":
        _, text, budget = question
        return b"f" + len(text).to_bytes(2, "big") + text + budget.to_bytes(8, "big")
    _, given, text, defaults, room = question
    return b"l" + bytes([given]) + len(text).to_bytes(2, "big") + text + bytes([defaults]) + room.to_bytes(2, "big")
