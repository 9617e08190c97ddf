"""A seeded generator of cases for the five entries, and what a drawn corpus covers."""

import random
from collections import Counter
from dataclasses import dataclass, replace

import der
import draw_types
import draw_values
import engine
import filters
import reference
import rules
import table as types
import value as values
from draw_bits import BitDrawer
from draw_forms import FormDrawer
from draw_long import LongDrawer
from draw_names import NameDrawer
from draw_text import TextDrawer


@dataclass(frozen=True)
class Limits:
    """How large the drawn inputs may be."""

    rows: int
    table: int
    value: int
    filter: int
    deepest: int
    longest: int


SMALL = Limits(rows=12, table=300, value=60, filter=160, deepest=3, longest=4)
LARGE = Limits(rows=128, table=4992, value=4096, filter=2048, deepest=9, longest=300)
# As large as tables are from Q-4 on; what is drawn with LARGE stays the same.
LARGER = replace(LARGE, table=8064)

ENTRIES = {"table": engine.check_table, "value": engine.check_value, "part": engine.part,
           "ask": engine.ask, "list": engine.listing}
EDGES = 0.65
MIX = ["ask"] * 12 + ["list"] * 4 + ["table"] * 2 + ["value"] * 2 + ["part"]


@dataclass(frozen=True)
class Case:
    """An entry, its inputs in the entry's order, and this program's answer."""

    entry: str
    inputs: tuple
    answer: tuple

    def kind_of_answer(self):
        """One word for the answer: TRUE, FALSE, UNDEFINED, refused n, admitted, good, part, listed."""
        if self.answer[0] == "refused":
            return "refused %d" % self.answer[1]
        return self.answer[1] if self.answer[0] == "answer" else self.answer[0]


class CaseDrawer:
    """Draws one case after another from a seed.

    On request it draws named BIT STRINGs too (Q-2 of document 02), or them and names (Q-3), or these and members of kind 21 (Q-4).
    """

    def __init__(self, seed, limits=SMALL, bits=False, names=False, longer=False):
        self.dice, self.limits, names = random.Random(seed), limits, names or longer
        self.edges = (LongDrawer if longer else NameDrawer if names else BitDrawer if bits else FormDrawer)(self.dice)
        self.leaves = draw_types.LEAVES_WITH_NAMES if names else draw_types.LEAVES_WITH_BITS if bits else draw_types.LEAVES
        self.member_names = draw_types.NAMES_WITH_LONG if longer else draw_types.NAMES
        self.rules = rules.RULES if names else rules.BASE_RULES

    def case(self):
        """One case of any entry; small ones are often close to the edge of a sentence."""
        if self.limits is SMALL and self.dice.random() < EDGES:
            return self.edge()
        return self.of(self.dice.choice(MIX))

    def edge(self):
        """One small case close to the edge of a sentence."""
        entry, inputs = self.edges.draw()
        return Case(entry, inputs, ENTRIES[entry](*inputs))

    def of(self, entry):
        """One case of this entry."""
        dice = self.dice
        broken = dice.random() < (0.55 if entry in ("table", "value") else 0.2)
        place = {"table": ["table"], "value": ["value"] * 4 + ["table"], "part": ["none"],
                 "ask": ["table", "value", "filter", "filter"],
                 "list": ["table", "value", "value", "reference"]}[entry]
        inputs = getattr(self, entry)(dice.choice(place) if broken else "none")
        if dice.random() < (0.12 if entry == "part" else 0.04):
            inputs = self.wrong_size(entry, inputs)
        return Case(entry, inputs, ENTRIES[entry](*inputs))

    def type_and_table(self, broken=False):
        """A drawn type with its table, small enough; broken on request."""
        dice, limits = self.dice, self.limits
        least = dice.choice([0, 0, 40, 80, 80, 120])
        while True:
            room = 20 if dice.random() < 0.1 else dice.randint(100, limits.table)
            root = draw_types.TypeDrawer(dice, room, limits.deepest, self.leaves, self.member_names).type()
            rows = draw_types.lay_out(dice, root, dice.random() < 0.05)
            octets = draw_types.table_octets(rows)
            if len(rows) > limits.rows or not least <= len(octets) <= limits.table:
                continue
            if broken and dice.random() < 0.2:
                octets = draw_values.break_octets(dice, octets)
            elif broken:
                draw_types.break_rows(dice, rows)
                octets = draw_types.table_octets(rows)
            return root, octets

    def both(self, where="none"):
        """A table and a value of its type, small enough; one of them broken on request."""
        dice = self.dice
        root, table = self.type_and_table(where == "table")
        fault = None
        if where == "value":
            fault = dice.choice(draw_values.FAULTS + ["octet", "octet"])
        longest, found = self.limits.longest, []
        for attempt in range(60):
            drawer = draw_values.ValueDrawer(dice, max(1, longest * (60 - attempt) // 60), fault)
            octets = drawer.encode(root)
            if len(octets) <= self.limits.value and (fault in (None, "octet") or not drawer.fault):
                found.append(octets)
            if len(found) == 3:
                break
        if not found:
            return self.both(where)
        octets = max(found, key=len) if dice.random() < 0.7 else found[0]
        if fault == "octet":
            octets = draw_values.break_octets(dice, octets)
        return table, octets

    def texts(self, table, value):
        """A drawer of texts for this table and value, or for one that is admitted."""
        try:
            rows = types.Table(table)
            return TextDrawer(self.dice, rows, values.decode(rows, value), self.rules)
        except types.NotAdmitted:
            return TextDrawer(self.dice, types.Table(b"\x02"), None, self.rules)

    def table(self, where):
        """Inputs of the table check."""
        return (self.type_and_table(where == "table")[1],)

    def value(self, where):
        """Inputs of the value check."""
        return self.both(where)

    def part(self, _where):
        """Inputs of the fifth entry, around the value's end."""
        dice = self.dice
        value = self.both()[1]
        size = len(value)
        place = dice.choice([0, 1, size // 2, size, size - 1, dice.randint(0, size)])
        length = dice.choice([0, 1, 2, max(0, size - place), size - place + 1, dice.randint(0, size)])
        return value, place, max(0, length)

    def ask(self, where):
        """Inputs of the engine, with a budget around the need."""
        dice = self.dice
        table, value = self.both(where)
        texts = self.texts(table, value)
        while True:
            text = texts.filter(self.limits.filter)
            if where == "filter":
                text = texts.bad_filter(text)
            octets = text.encode("utf-8")
            if where == "filter" and dice.random() < 0.1:
                at = dice.randint(0, len(octets))
                octets = octets[:at] + dice.choice([b"\xff", b"\x80", b"\xc3"]) + octets[at:]
            if len(octets) <= self.limits.filter:
                break
        answer = engine.ask(table, value, octets, 65535)
        need = answer[2] if answer[0] == "answer" else 0
        budget = dice.choice([65535, 65535, 65535, need, need, need + 1, max(0, need - 1), 0])
        return table, value, octets, budget

    def list(self, where):
        """Inputs of the listing, with room around the need."""
        dice = self.dice
        table, value = self.both(where)
        texts = self.texts(table, value)
        octets, given = texts.listing_reference(), dice.random() < 0.92
        if given and not octets and dice.random() < 0.9:
            given = False
        if where == "reference":
            octets = dice.choice([draw_values.break_octets(dice, octets), b"",
                                  texts.odd_reference(octets.decode("utf-8", "replace")).encode()])
        defaults = dice.random() < 0.7
        answer = engine.listing(table, value, given, octets, defaults, 100000)
        need = 3 * len(answer[1]) if answer[0] == "listed" else 0
        room = dice.choice([need, need, need, need + 1, 100, max(0, need - 1), max(0, need - 3)])
        return table, value, given, octets, defaults, room

    def wrong_size(self, entry, inputs):
        """The inputs with one of them of a size that is refused 1, without large inputs."""
        dice, inputs = self.dice, [*inputs]
        place = dice.choice({"table": [0], "value": [0, 1], "part": [0], "ask": [0, 1, 2, 3],
                             "list": [0, 1]}[entry])
        if entry == "ask" and place == 3:
            inputs[3] = dice.choice([65536, 70000])
        elif entry == "part" or place == 1:
            inputs[place] = dice.choice([b"", b"\x05"])
        else:
            inputs[place] = b""
        return tuple(inputs)


def corpus(seed, count, limits=SMALL):
    """The first `count` cases of a seed, with named BIT STRINGs, names and members of kind 21 among them."""
    drawer = CaseDrawer(seed, limits, longer=True)
    return [drawer.case() for _ in range(count)]


def _items(found):
    """All items of a filter."""
    if isinstance(found, filters.Item):
        return [found]
    inner = [found.filter] if isinstance(found, filters.Not) else found.filters
    return [item for one in inner for item in _items(one)]


def target_of(table, item):
    """The type row that the reference of an item ends at, which the table allows."""
    return reference.target(table, [] if item.component is None else reference.parse(item.component))


def coverage(cases):
    """What the cases cover: a Counter, and the list of things that occur in none of them."""
    seen = Counter()
    for case in cases:
        seen[case.entry, case.kind_of_answer()] += 1
        if case.answer[0] == "refused" or case.entry == "part":
            continue
        table = types.Table(case.inputs[0])
        for row in table.rows:
            seen["kind", row.kind] += 1
            if row.kind in der.MEMBER_KINDS:
                seen["tag mode", row.mode] += 1
                seen["kind and presence", (row.kind, row.presence)] += 1
                seen["presence", row.presence] += 1
                if row.mode == 0 and table.rows[row.points].kind == der.CHOICE:
                    seen["untagged CHOICE", "member"] += 1
        if case.entry == "ask":
            for item in _items(filters.parse(case.inputs[2])):
                rule = rules.find(item.rule)
                seen["rule", rule.name if rule else "unknown"] += 1
                alone = "item:{%srule %s,value %s}" % (
                    'component "%s",' % item.component.replace('"', '""')
                    if item.component is not None else "", item.rule, item.value)
                answer = engine.ask(case.inputs[0], case.inputs[1], alone.encode("utf-8"), 65535)
                if rule and answer[0] == "answer":
                    seen["rule says", rule.name + " " + answer[1]] += 1
                    if max(map(len, (item.component or "").split("."))) > 24:
                        seen["long name", answer[1]] += 1
                    if rule.read is rules.bits_of and answer[1] == "TRUE" and table.rows[target_of(table, item)].kind == der.NAMED_BIT_STRING:
                        seen["bits", "names" if item.value[0] == "{" else "digits"] += 1
                    if rule in rules.NAME_RULES and answer[1] == "TRUE":
                        for sign in "\\,+":
                            seen["name", "with " + sign if sign in item.value else "without " + sign] += 1
        if case.entry == "list":
            for source, _, _ in case.answer[1]:
                seen["source", source] += 1
    return seen, [thing for thing in wanted() if not seen[thing]]


def wanted():
    """Everything that a corpus has to hold."""
    answers = {"table": ["admitted", "refused 1", "refused 2"],
               "value": ["good", "refused 1", "refused 2", "refused 4"],
               "part": ["part", "refused 1", "refused 4"],
               "ask": ["TRUE", "FALSE", "UNDEFINED"] + ["refused %d" % n for n in range(1, 6)],
               "list": ["listed"] + ["refused %d" % n for n in (1, 2, 3, 4, 6)]}
    things = [(entry, answer) for entry, several in answers.items() for answer in several]
    things += [("kind", kind) for kind in range(1, 22)] + [("bits", way) for way in ("names", "digits")]
    things += [("name", way + sign) for way in ("with ", "without ") for sign in "\\,+"]
    things += [("tag mode", mode) for mode in range(3)] + [("presence", n) for n in range(3)]
    things += [("kind and presence", (kind, n)) for kind in der.MEMBER_KINDS for n in range(3)]
    things += [("long name", truth) for truth in ("TRUE", "FALSE", "UNDEFINED")]
    things += [("source", n) for n in range(3)] + [("untagged CHOICE", "member")]
    things += [("rule", rule.name) for rule in rules.RULES] + [("rule", "unknown")]
    things += [("rule says", rule.name + " " + truth) for rule in rules.RULES
               for truth in ("TRUE", "FALSE", "UNDEFINED")]
    return things
