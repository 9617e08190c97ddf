"""Filters and listings for crates/cases about members of kind 21 (Q-4 of document 02): references by long names and by texts close to them."""

import itertools

import draw_long
import question_filters
from corpus_long import LETTERS, MIXED, changed, fitting, record, sixteen
from long_cases import COPIES, LONG_LICENCE, SEATS, largest
from question_filters import CHANGES, around, wrapped
from rows import either_member, long_member
from samples import CATEGORY, LONGEST_NAME, RECORD, choice, item, leaf, member, of, sequence, tlv

EQUAL, LESS, PRESENT = "2.5.13.14", "2.5.13.15", "1.2.36.79672281.1.13.5"
EDGES = 120


def counted(names):
    """Members of these names, each a list of INTEGERs with one element more than the one before, and a value of them.

    The last element of each list is 0. So the number of tests of a filter that accepts 0, or none of them, tells which member was meant.
    """
    size = len(names)
    table = sequence(*[either_member(name, 1 + size, 2, at) for at, name in enumerate(names)]) + of(14, 2 + size) + b"\2"
    return table, tlv(0x30, *(tlv(0xA0 + at, *[leaf(2, bytes([number])) for number in range(at, -1, -1)]) for at in range(size)))


def tell(found, table, value, text):
    """One of the ways to ask which member this reference means."""
    found.filter(table, value, item(text + ".*", EQUAL, found.dice.choice(["0", "99"])))
    way = found.dice.randrange(4)
    if way == 0:
        found.rooms(table, value, text, True)
    elif way == 1:
        found.rooms(table, value, text + found.dice.choice([".0", ".-1", ".*", ".1"]), True)
    elif way == 2:
        found.budget(table, value, item(text + ".0", EQUAL, str(found.dice.randint(1, 16))))


def each_place(found):
    """16 names that differ at one of the 48 places only: each meant by its own text, and others by none."""
    dice = found.dice
    for place in range(48):
        names = [name.decode() for name in dice.sample(sixteen(place), 16)]
        table, value = counted(names)
        for name in dice.sample(names, 4):
            tell(found, table, value, name)
        head, tail = names[0][:place], names[0][place + 1:]
        near = [LONGEST_NAME, head + tail, head + "9" + tail, head.swapcase() + names[0][place:], head or "a", head + names[0][place].upper() + tail,
                names[0][:24], names[0][:47], names[0] + "x"]
        for text in dice.sample(near, 3):
            tell(found, table, value, text)


# Names that begin alike, up to 24, 25, 40 and 47 characters, of both kinds of rows, in no order of their lengths.
ALIKE = [LONGEST_NAME, LONGEST_NAME[:24], LONGEST_NAME[:25], LONGEST_NAME[:47], LONGEST_NAME[:40], LONGEST_NAME[:47] + "W", LONGEST_NAME[:24] + "Y",
         LONGEST_NAME[:23], LONGEST_NAME[:40] + "-9", LONGEST_NAME[:24] + "-y", LONGEST_NAME[:47] + "v", "a", CATEGORY, CATEGORY[:24],
         CATEGORY + "2", "b" + LONGEST_NAME[1:]]


def prefixes(found):
    """Names that begin others: the first characters of a name, of every number, and texts close to it at each of its places."""
    dice = found.dice
    table, value = counted(ALIKE)
    alone, stored = counted([LONGEST_NAME])
    for size in range(50):
        text = (LONGEST_NAME + "W")[:size]
        found.filter(table, value, item(text + ".*", EQUAL, "0"))
        found.filter(alone, stored, item(text + ".*", EQUAL, dice.choice(["0", "99"])))
        found.rooms(table, value, text, True)
        if size > 20 or size % 4 == 0:
            found.rooms(alone, stored, text, True)
    for name in ALIKE:
        for text in (name, name[:-1], name[:24], name[:25], name[:47], name + "x", name.swapcase(), name.upper(), name.capitalize(), name + "-", name + "0",
                     "-" + name, name + "--", name + "\u00e9", name + "_", name * 2):
            found.filter(table, value, item(text + ".*", EQUAL, dice.choice(["0", "99"])))
            if dice.random() < 0.35:
                found.rooms(table, value, text, True)
            if dice.random() < 0.35:
                found.budget(table, value, "not:" + item(text + ".1", EQUAL, dice.choice("01")))
        ends = [".", ".x", ".0", ".*", ".1", ".-1", ".99", ".content", ".(1)", ".-0", ".01", " ", "..1", ".*.0", ".0.0", "." + name, ".1." + name]
        for end in dice.sample(ends, 5):
            found.rooms(table, value, name + end, True)
            found.filter(table, value, item(name + end, *dice.choice([(PRESENT, "NULL"), (EQUAL, "1"), (LESS, "3")])))
    for at in range(48):
        several = around(LONGEST_NAME, at) + [LONGEST_NAME[:at] + dice.choice(CHANGES) + LONGEST_NAME[at + 1:], LONGEST_NAME[:at] + "-" + LONGEST_NAME[at:]]
        for text in dice.sample(several, 4):
            found.filter(table, value, item(text + ".*", EQUAL, "99"))
        found.rooms(alone, stored, dice.choice(several), True)


BASES = ['item:{component "%s",rule integerMatch,value 3}' % COPIES,
         'item:{ component "%s", useDefaultValues FALSE, rule 2.5.13.14, value 1 }' % SEATS]


def broken(found):
    """Filters and references with a long name cut off, or with one character missing, doubled, changed or put in, at each place."""
    dice = found.dice
    for base in BASES:
        found.filter(LONG_LICENCE, RECORD, base)
        for at in range(len(base)):
            several = around(base, at) + [base[:at] + dice.choice(CHANGES) + base[at + 1:], base[:at] + dice.choice(CHANGES) + base[at:]]
            for text in dice.sample(several, 2 if base is BASES[0] else 1):
                found.filter(LONG_LICENCE, RECORD, text)
    for at in range(len(COPIES)):
        found.rooms(LONG_LICENCE, RECORD, dice.choice(around(COPIES, at)), True)
        found.rooms(LONG_LICENCE, RECORD, COPIES[:at] + dice.choice(CHANGES) + COPIES[at + dice.choice([0, 1]):], True)


PARTS, EVENT, NAME = COPIES.split(".")[0], "event-of-the-licence-record", "name-of-the-part-of-the-licence"
ATOMS = [item(COPIES, EQUAL, "3"), item(COPIES, EQUAL, "7"), item(COPIES, EQUAL, "1", "FALSE"), item(COPIES, LESS, "2"), item(EVENT, EQUAL, "3"),
         item(SEATS, EQUAL, "9223372036854775808"), item(SEATS, EQUAL, "1"), item(SEATS, EQUAL, "1", "FALSE"), item(PARTS + ".3", PRESENT, "NULL"),
         item(PARTS + ".*." + NAME, "2.5.13.2", '"VA"'), item(PARTS + ".*." + NAME[:24], "2.5.13.2", '"VA"'),
         item(PARTS[:24] + ".*." + NAME, "2.5.13.2", '"VA"'), item("parts.*.copies", EQUAL, "3"), item(PARTS + ".0", EQUAL, "2"),
         item(EVENT, "2.5.13.5", '"e1"'), "and:{}", "or:{ }"]


def licence(found):
    """The licence record with long names: document 01's P1..P12 with all budgets and rooms, lists and `not` of them, and what references list."""
    dice = found.dice
    for atom in ATOMS:
        found.budgets(LONG_LICENCE, RECORD, atom)
        found.budgets(LONG_LICENCE, RECORD, "not:" + atom)
    for _ in range(110):
        inner = [dice.choice(["", "", "not:"]) + dice.choice(ATOMS) for _ in range(dice.randint(2, 4))]
        text = "%s:{%s}" % (dice.choice(["and", "or"]), dice.choice([",", ", "]).join(inner))
        found.budget(LONG_LICENCE, RECORD, wrapped(dice, text, dice.choice([0, 0, 1, 2])))
    for text in (None, EVENT, SEATS, PARTS, COPIES, PARTS + ".0", PARTS + ".*", PARTS + ".1", PARTS + ".-1." + NAME, PARTS + ".3",
                 PARTS + ".*." + NAME, PARTS + "." + NAME, SEATS + ".0", EVENT + "." + SEATS, NAME, PARTS + ".0." + NAME,
                 EVENT[:24], SEATS[:24], PARTS[:24], COPIES[:-1], COPIES + "s", PARTS.upper()):
        for defaults in (True, False):
            found.rooms(LONG_LICENCE, RECORD, text, defaults, 3)
    for room in range(8):
        found.listing(LONG_LICENCE, RECORD, COPIES, True, room)
    for depth in (14, 15, 16):
        for atom in ATOMS[:3] + ATOMS[10:11]:
            found.filter(LONG_LICENCE, RECORD, "not:" * depth + atom)
            found.filter(LONG_LICENCE, RECORD, wrapped(dice, atom, depth))


def defaults(found):
    """SEQUENCEs of 16 members of both kinds, some absent, many with defaults, in rows up to 127: each listed and asked, defaults on and off."""
    dice = found.dice
    for before in (0, 0, 1, 1, 110):
        rows, stored, names = [], [], []
        for at in range(16):
            mode, presence = dice.choice([1, 2]), dice.choice([0, 1, 2, 2, 2])
            names.append("member-%02d-of-the-sixteen-of-the-type" % at if dice.random() < 0.7 else "m%d" % at)
            rows.append(either_member(names[-1], before + 17, mode, at, presence, b"\1" if presence == 2 else b""))
            if presence == 0 or dice.random() < 0.4:
                inner = bytes([dice.randint(2, 9)])
                stored.append(tlv(0xA0 + at, leaf(2, inner)) if mode == 1 else tlv(0x80 + at, inner))
        table, value = sequence(*rows) + b"\2", tlv(0x30, *stored)
        # With rows before it the SEQUENCE is the element of a list.
        if before:
            table, value = of(14, before) + b"\1" * (before - 1) + table, tlv(0x30, value, value)
        for name in names + ["member-16-of-the-sixteen-of-the-type", names[0][:24], names[1] + "x"]:
            text = ("*." if before else "") + name
            for flag in (True, False):
                found.rooms(table, value, text, flag)
                found.budget(table, value, item(text, EQUAL, dice.choice("123"), "TRUE" if flag else "FALSE"))


def alternatives(found):
    """CHOICEs of long names in each other, 15 of them, and in lists: what is chosen, what isn't, and strings."""
    dice = found.dice
    names = [LONGEST_NAME, LONGEST_NAME[:47], LONGEST_NAME[:24], CATEGORY]
    table = b"".join(choice(*[either_member(name, 5 * level + 5, 1, at) for at, name in enumerate(names)]) for level in range(15)) + b"\2"
    for _ in range(2):
        path, value = [dice.randrange(4) for _ in range(15)], leaf(2, b"\5")
        for at in reversed(path):
            value = tlv(0xA0 + at, value)
        steps = [names[at] for at in path]
        for size in range(16):
            for more in ([], [dice.choice(names)], [dice.choice(names)[:25]]):
                text = ".".join(steps[:size] + more) or None
                found.rooms(table, value, text, True)
                found.filter(table, value, item(text, *dice.choice([(PRESENT, "NULL"), (EQUAL, "5")])))
    strings = of(14, 1) + choice(long_member(CATEGORY, 5), member("a", 6), long_member(LONGEST_NAME, 7)) + b"\x08\x09\x0a"
    tagged = of(14, 1) + choice(long_member(CATEGORY, 5), member("a", 6), long_member(LONGEST_NAME, 7, 1, 0)) + b"\x08\x09\x0a"
    several = tlv(0x30, leaf(8, b"Ab"), leaf(9, b"ab"), leaf(8, b"x"), leaf(9, b"X"), leaf(10, b"AB"))
    for component, text, rule in itertools.product(("*", "*." + CATEGORY, "*." + LONGEST_NAME, "*.a", "-1", "3." + CATEGORY, "3.a", "*." + CATEGORY[:24], "0"),
                                                   ('"aB"', '"x"', '"no"'), ("2.5.13.2", "2.5.13.5")):
        found.filter(strings, several, item(component, rule, text))
        if rule == "2.5.13.2":
            found.filter(tagged, several[:2] + several[2:].replace(b"\x16\2AB", b"\x0c\2AB"), item(component, rule, text))
    for text in ("*", "*." + CATEGORY, "*." + LONGEST_NAME, "*.a", "5." + LONGEST_NAME, "1." + LONGEST_NAME, "*." + LONGEST_NAME[:47], "*.A", "0", CATEGORY):
        found.rooms(strings, several, text, True, 2)


def limits(found):
    """Filters and references up to the largest sizes, made of long names, items that fill a filter, and tables of the largest sizes."""
    dice = found.dice
    table, value = counted(ALIKE)
    for size in (2046, 2047, 2048, 2049):
        for head, part, tail in ((LONGEST_NAME, ".1", ""), ("", LONGEST_NAME + ".", "x"), (LONGEST_NAME + ".", "9", ""), (LONGEST_NAME + ".-", "9", ""),
                                 ("a", LETTERS[1:].decode(), "")):
            text = head + part * ((size - len(head + tail)) // len(part))
            text += "x" * (size - len(text + tail)) + tail
            found.listing(table, value, text, True, dice.choice([0, 3]))
        one = item(LONGEST_NAME + ".*", EQUAL, "99")
        lists = "or:{%s" % ",".join([one] * 20)
        found.filter(table, value, lists + " " * (size - len(lists) - 1) + "}")
        found.filter(table, value, one[:-1] + " " * (size - len(one)) + "}")
        found.filter(table, value, item(LONGEST_NAME + "." + "9" * (size - len(item("", EQUAL, "0")) - 49), EQUAL, "0"))
    for count in (19, 20, 21, 22):
        for name, word in itertools.product((LONGEST_NAME, CATEGORY, LONGEST_NAME[:24], LONGEST_NAME[:46]), ("and", "or")):
            found.budget(table, value, "%s:{%s}" % (word, ",".join([item(name + ".*", EQUAL, "99")] * count)))
    full, nested = largest(), tlv(0x30, *[b"\x30\0"] * 16)
    for at in (0, 7, 15, 16):
        text = "m%02d" % at + "x" * 45
        found.rooms(full, nested, text, True)
        found.filter(full, nested, item(text, PRESENT, "NULL"))
        found.filter(full, nested, item(text[:dice.choice([24, 25, 47])], PRESENT, "NULL"))
    for large in (b"\2" * 4993, b"\2" * 8063, b"\2" * 8064, b"\2" * 8065, full[:-1], full + b"\2", fitting(4993), long_member(CATEGORY, 0) * 128):
        for text, budget in (("and:{}", 0), ("and: {}", 0), ("and:{}", 65536), (item("1", PRESENT, "NULL"), 1)):
            found.filter(large, b"\2\1\1", text, budget)
        for text, room in ((None, 3), ("1", 0), ("", 3)):
            found.listing(large, b"\2\1\1", text, True, room)


def refusals(found):
    """Tables and values that are refused, with good and bad filters and references: the first refusal is given."""
    dice, good = found.dice, tlv(0x30, leaf(2, b"\1"))
    names = [LETTERS[:24], LETTERS[:25], LETTERS[:47] + b"-", LETTERS[:30] + b"\0a", LETTERS, CATEGORY.encode(), changed(LETTERS, 24, 45),
             changed(LETTERS, 40, 0), MIXED]
    for name, (mode, presence) in itertools.product(names, ((0, 0), (0, 1), (2, 0))):
        table = sequence(long_member(name, 2, mode, 0, presence)) + b"\2"
        for value in (good, tlv(0x30, tlv(0x80, b"\1")), good + b"\0", b"\x30\0", tlv(0x30, leaf(1, b"\0"))):
            text = name.decode().split("\0")[0]
            asked = dice.choice([item(text, EQUAL, "1"), item(text, EQUAL, "1")[:-1], item(text[:24], PRESENT, "NULL"), "not:" + item(text, EQUAL, "2")])
            found.filter(table, value, asked, dice.choice([65535] * 6 + [0, 65536]))
            found.listing(table, value, dice.choice([text, text, text[:24], None]), True, dice.choice([3, 3, 2]))
    table, value = record()
    for at in range(len(value)):
        wrong = dice.choice([changed(value, at, value[at] ^ 1), value[:at], value[:at] + value[at + 1:], changed(value, at, value[at] ^ 0x20)])
        found.filter(table, wrong, item(dice.choice([CATEGORY, LONGEST_NAME, LONGEST_NAME[:24]]), EQUAL, "7"))
        found.listing(table, wrong, dice.choice([CATEGORY, LONGEST_NAME, LONGEST_NAME[:24], LONGEST_NAME[:26]]), True, 3)


def shapes(found):
    """A record of members of both kinds, with values that lack some: each member and what is in it, listed and asked."""
    dice, (table, value) = found.dice, record()
    less = tlv(0x30, leaf(2, b"\7"), leaf(1, b"\xff"))
    parts, chosen = "list-of-the-parts-of-the-record", "choice-of-the-record-of-a-licence"
    several = [(PRESENT, "NULL"), (EQUAL, "1"), (EQUAL, "7"), ("2.5.13.13", "TRUE"), ("2.5.13.17", "'6162'H"), ("2.5.13.2", '"X"')]
    for stored in (value, less):
        for text in (CATEGORY, LONGEST_NAME, LONGEST_NAME[:24], LONGEST_NAME[:25], LONGEST_NAME[:26], "z", parts, parts + ".*", parts + ".0", parts + ".-1",
                     parts + ".3", parts + "." + CATEGORY, chosen, chosen + "." + CATEGORY, chosen + ".n", chosen + ".n.n", chosen[:24], parts[:24] + ".*",
                     CATEGORY + ".1", chosen + "." + CATEGORY[:28], chosen + "." + CATEGORY + "s", "n", "content"):
            for flag in (True, False):
                found.rooms(table, stored, text, flag)
            for rule, asserted in dice.sample(several, 3):
                found.budgets(table, stored, item(text, rule, asserted, dice.choice([None, "FALSE"])))
    nested = b"".join(sequence(long_member(CATEGORY, 2 * at + 2)) for at in range(15)) + b"\2"
    deep = leaf(2, b"\5")
    for _ in range(15):
        deep = tlv(0x30, deep)
    for size in range(17):
        text = ".".join([CATEGORY] * size) or None
        found.rooms(nested, deep, text, True)
        found.filter(nested, deep, item(text, EQUAL, "5"))
        found.filter(nested, deep, item((text or "a")[:-1], EQUAL, "5"))


def drawn(found):
    """Drawn filters and listings close to the edges of Q-4."""
    edges = draw_long.LongDrawer(found.dice)
    question_filters.close_to_edges(found, EDGES, edges.long_references)


def of_the_tests(found):
    """What the tests of this request ask."""
    question_filters.of_the_tests(found, "LongNames")


def ask(found):
    """All of this module's questions."""
    for topic in (of_the_tests, each_place, prefixes, broken, licence, defaults, alternatives, limits, refusals, shapes, drawn):
        topic(found)
