"""Filters for crates/cases: rules and value texts, broken texts, truths, the limits of a question."""

import itertools

import der
import draw_edges
import draw_types
import draw_values
import rules
import written
from samples import LICENCE, RECORD, choice, item, leaf, member, of, tlv

MOST_BUDGET = 65535
PAIRS, NESTED = 350, 400

# Contents of each kind that a rule is on, and value texts for them.
STORED = {
    der.BOOLEAN: [b"\0", b"\xff"],
    der.INTEGER: [draw_types.integer_octets(number) for number in draw_types.INTEGERS],
    der.ENUMERATED: [b"\1"], der.NULL: [b""],
    der.OBJECT_IDENTIFIER: [
        b"".join(draw_values.subidentifier_octets(one) for one in (40 * arcs[0] + arcs[1],) + arcs[2:])
        for arcs in draw_edges.ARCS],
    der.OCTET_STRING: [b"\1", b"", b"\0", b"\0\0", b"\1\xfe", b"\xff", b"\1\xff\0", b"\x0a\xb0"],
    der.BIT_STRING: [b"\0", b"\7\x80", b"\7\0", b"\4\xa0", b"\0\xa0", b"\5\xa0", b"\0\xf0",
                     b"\4\xf0\xf0", b"\3\xf0\xf0"],
    der.UTF8_STRING: [text.encode() for text in draw_edges.STRINGS],
    der.PRINTABLE_STRING: [b"a", b"A", b"ab", b"aB", b"a b", b"a  b", b" a", b"a ", b" ", b"", b"a-b", b"(a)"],
    der.IA5_STRING: [text.encode() for text in draw_edges.STRINGS if text.isascii()],
    der.GENERALIZED_TIME: [text.encode() for text in draw_edges.TIMES],
}
STRING_TEXTS = ['"%s"' % text.replace('"', '""') for text in draw_edges.STRINGS] + [
    '"AB"', '"  a   b  "', '"a-B"', '"(A)"', "a", "'a'", '"a', 'a"',
    '"a" "b"', '"a"b"', '{"a"}', '"a",', '"\0"', '"a\n"']
TEXTS = {
    der.BOOLEAN: ["TRUE", "FALSE", "true", "True", "1", "NULL", "TRUE FALSE", '"TRUE"', "TRUEX", "T"],
    der.INTEGER: sorted({str(number + more) for number in draw_types.INTEGERS
                         for more in (0, 1, -1, 2 ** 64, -2 ** 64, 2 ** 32)})
    + ["-0", "00", "01", "-01", "+1", "- 1", "1 1", "1.0", "0x1", "1e3", '"1"', "--1", "-", "\u0661",
       "9" * 400, "-" + "9" * 400],
    der.OBJECT_IDENTIFIER: [".".join(str(arc) for arc in arcs + more)
                            for arcs in draw_edges.ARCS for more in ((), (0,))]
    + [".".join(str(arc + more * (at == place)) for at, arc in enumerate(arcs))
       for arcs in draw_edges.ARCS for place in range(1, len(arcs)) for more in (2 ** 32, 2 ** 64)]
    + draw_edges.ODD_OIDS + ["2.5.6.18446744073709551616", "2.18446744073709551621", "{2 5}", "2.5.4.3 ", "2. 5",
                             '"2.5"', "2.5.4,3"],
    der.OCTET_STRING: ["'%s'H" % text for text in (
        "01", "", "00", "0000", "01FE", "01FF", "FF", "01FF00", "01FE00", "02",
        "0AB0", "0ab0", "0AB", "0", "0G", "01 FE", "FFFFFF")]
    + ["''B", "'00000001'B", "01", "'01'", "'01'h", "\"01\"", "'01'H'01'H", "'01'HH"],
    der.BIT_STRING: ["'%s'B" % text for text in (
        "", "1", "0", "1010", "10100000", "101", "10100", "11110000", "111100001111", "1111000011110",
        "1111000011111", "2", "1 0", "A")]
    + ["'%s'H" % text for text in ("", "A", "A0", "F0", "F0F", "F0F0", "a", "8", "0", "G", "A 0")]
    + ["1010", "'1010'", "'1010'b", "B'1010'", "'1'B'0'B"],
    der.UTF8_STRING: STRING_TEXTS, der.PRINTABLE_STRING: STRING_TEXTS, der.IA5_STRING: STRING_TEXTS,
    der.GENERALIZED_TIME: ['"%s"' % text for text in draw_edges.TIMES + draw_edges.ODD_TIMES]
    + ['"20240301000000.1Z"', "20240301000000Z", "'20240301000000Z'", '"20240301000000Z "', '" 20240301000000Z"',
       '"20240301000000z"', '"20240301000000+0000"', '"202403010000Z"',
       '"20240301000000,5Z"', '"20240301000000.1234567891Z"'],
}
ANY_TEXT = {rules.null_of: "NULL", rules.boolean_of: "TRUE", rules.integer_of: "1", rules.oid_of: "2.5",
            rules.octets_of: "'01'H", rules.bits_of: "'1'B", rules.string_of: '"a"', rules.time_of: '"20240301000000Z"'}


def listed_values(kind):
    """A SEQUENCE OF all stored contents of a kind, and its table."""
    return of(14, 1) + bytes([kind]), tlv(0x30, *(leaf(kind, contents) for contents in STORED[kind]))


def accepted(found):
    """Each value text of a kind, conforming or not, against each stored value of that kind, and against all."""
    for kind, texts in TEXTS.items():
        table, value = listed_values(kind)
        for rule in rules.BASE_RULES:
            if kind not in rule.kinds:
                continue
            for text in texts:
                found.budgets(table, value, item("*", rule.oid, text))
                found.filter(table, value, "not:" + item("-1", rule.name, text))
            pairs = [(text, place) for text in texts for place in range(1, 1 + len(STORED[kind]))
                     if rule.read(text) is not rules.NOT_CONFORMING]
            for text, place in found.dice.sample(pairs, min(len(pairs), PAIRS)):
                found.filter(table, value, item(str(place), rule.oid, text),
                             found.dice.choice([1, 1, 1, MOST_BUDGET, 0]))


def writings(rule, dice):
    """Texts for a rule: its OID, its name in several cases, and texts close to them."""
    name, oid = rule.name, rule.oid
    mixed = "".join(dice.choice([letter.lower(), letter.upper()]) for letter in name)
    return [oid, name, name.lower(), name.upper(), name.swapcase(), mixed, name[:-1], name + "x",
            name + "-", oid + ".0", oid + "0", oid[:oid.rindex(".")], oid[:-1] + chr(ord(oid[-1]) ^ 1),
            name.replace("Match", "match-"), oid.replace(".", ".0", 1), name[0] + name, " " + name, name + " "]


def by_name_and_number(found):
    """Each rule, written in several ways, on each kind, on a count, a CHOICE, a SEQUENCE and lists."""
    subjects = [(table, value, "1") for table, value in map(listed_values, STORED)]
    strings = of(14, 1) + choice(member("m", 4), member("n", 5)) + bytes([8, 9])
    subjects += [(strings, tlv(0x30, leaf(9, b"A")), "1"), (strings, tlv(0x30, leaf(9, b"A")), "0"),
                 (LICENCE, RECORD, None), (LICENCE, RECORD, "parts"), (LICENCE, RECORD, "parts.0")]
    for table, value, component in subjects:
        for rule in rules.BASE_RULES:
            several = writings(rule, found.dice)
            for text in several[:2] + found.dice.sample(several[2:], 6):
                found.filter(table, value, item(component, text, ANY_TEXT[rule.read]))


BASES = [
    'item:{component "parts.*.copies",rule integerMatch,value 3}',
    'item:{ component "seats", useDefaultValues FALSE, rule 2.5.13.14, value 1 }',
    'item:{useDefaultValues TRUE,rule presentMatch,value NULL}',
    'and:{item:{component "event",rule caseIgnoreMatch,value "E1"},or:{ },not:and:{}}',
    'or:{ item:{rule a,value {b "}" {}}}, item:{component "parts.1.name",rule 2.5.13.5,value "V""l"} }',
    'not:item:{component "parts.0",rule integerOrderingMatch,value 3  }',
    'not:or:{not:item:{component "x""y",rule 1.2.36.79672281.1.13.5,value NULL},and:{item:{rule b-,value \'00\'H}}}',
    'item:{component "event",rule caseExactMatch,value "\u00e9\u20ac\U0001f600"}',
    'item:{component "se""ats",rule integerMatch,value 1}',
]
NO_UTF8 = [b"\x80", b"\xff", b"\xc3", b"\xc0\x80", b"\xed\xa0\x80", b"\xf4\x90\x80\x80", b"\xe2\x82"]
CHANGES = ' ,:{}"\'.-a0AZ9*(\t\n\0\x7f'


def around(text, at):
    """A text cut off at a place, or there with one character missing, a space put in, one doubled, two exchanged, or a letter of the other case."""
    return [text[:at], text[:at] + text[at + 1:], text[:at] + " " + text[at:], text[:at] + text[at] + text[at:],
            text[:at] + text[at + 1:at + 2] + text[at] + text[at + 2:], text[:at] + text[at].swapcase() + text[at + 1:]]


def of_the_tests(found, request):
    """What the tests of a request ask, by the name of their class."""
    for case in written.cases(10000, (request,)):
        if case.entry == "ask":
            found.filter(*case.inputs)
        elif case.entry == "list":
            found.add(case.inputs[0], case.inputs[1], ("l",) + case.inputs[2:5] + (min(case.inputs[5], 12),))


def close_to_edges(found, count, one):
    """So many drawn filters and listings; `one` draws an entry and its inputs."""
    asked = 0
    while asked < count:
        entry, inputs = one()
        if entry == "ask":
            found.filter(*inputs)
        elif entry == "list":
            found.add(inputs[0], inputs[1], ("l",) + inputs[2:])
        else:
            continue
        asked += 1


def broken_texts(found):
    """Filters cut off, with one character missing, doubled, changed or put in, or two exchanged, at each place."""
    dice = found.dice
    for base in BASES:
        found.filter(LICENCE, RECORD, base)
        for at in range(len(base)):
            several = [base[:at], base[at:], base[:at] + base[at + 1:], base[:at] + " " + base[at:],
                       base[:at] + base[at] + base[at:], base[:at] + base[at + 1:at + 2] + base[at] + base[at + 2:],
                       base[:at] + dice.choice(CHANGES) + base[at + 1:], base[:at] + dice.choice(CHANGES) + base[at:],
                       base[:at] + base[at].swapcase() + base[at + 1:]]
            for text in several:
                found.filter(LICENCE, RECORD, text)
        octets = base.encode("utf-8")
        for at in dice.sample(range(len(octets) + 1), 12):
            found.filter(LICENCE, RECORD, octets[:at] + dice.choice(NO_UTF8) + octets[at:])


ATOMS = [item("seats", "2.5.13.14", "1"), item("seats", "2.5.13.14", "2"), item("seats", "2.5.13.13", "TRUE"),
         item("parts.*.copies", "2.5.13.14", "7"), item("parts.9", "presentMatch", "NULL"), "and:{}", "or:{}"]


def truths(found):
    """Lists of up to three filters of each truth and number of tests, and drawn filters of them."""
    for word in ("and", "or"):
        for size in range(4):
            for inner in itertools.product(ATOMS, repeat=size):
                found.budgets(LICENCE, RECORD, "%s:{%s}" % (word, ",".join(inner)))
    dice = found.dice

    def tree(depth):
        way = dice.random()
        if depth == 0 or way < 0.2:
            return dice.choice(ATOMS)
        if way < 0.4:
            return "not:" + tree(depth - 1)
        return "%s:{%s}" % (dice.choice(["and", "or"]), ",".join(tree(depth - 1) for _ in range(dice.randint(1, 4))))

    for _ in range(NESTED):
        found.budgets(LICENCE, RECORD, tree(dice.randint(2, 5)))


def wrapped(dice, text, depth):
    """The filter within so many lists and nots."""
    for _ in range(depth):
        text = dice.choice(["not:%s", "and:{%s}", "or:{ %s }", "and:{or:{},%s}", "or:{%s, and:{}}"]) % text
    return text


def limits(found):
    """Depths, numbers of items and sizes at the limits and one over them."""
    dice, one = found.dice, "item:{rule 2.5.13.14,value 1}"
    short = "item:{rule a,value 1}"
    for depth in (14, 15, 16, 17):
        for inner in ("and:{}", "or:{ }", ATOMS[0], ATOMS[2], short):
            for _ in range(6):
                found.filter(LICENCE, RECORD, wrapped(dice, inner, depth))
            found.filter(LICENCE, RECORD, "not:" * depth + inner)
            found.filter(LICENCE, RECORD, "and:{" * depth + inner + "}" * depth)
    for count in (63, 64, 65, 66):
        for word in ("and", "or"):
            for text in (short, one, "not:" + one):
                found.filter(b"\2", b"\2\1\1", "%s:{%s}" % (word, ",".join([text] * count)))
                found.filter(b"\2", b"\2\1\2", "%s:{%s}" % (word, ",".join([text] * count)), count - 1)
                halves = ",".join([text] * (count // 2)), ",".join([text] * (count - count // 2))
                found.filter(b"\2", b"\2\1\1", "%s:{and:{%s},or:{%s}}" % ((word,) + halves))
                found.filter(b"\2", b"\2\1\2", "%s:{and:{%s},or:{%s}}" % ((word,) + halves), 33)
    for size in (2046, 2047, 2048, 2049):
        for text in ("and:{%s}", "item:{rule 2.5.13.14,value 1%s}", "item:{%srule 2.5.13.14,value 1}",
                     "not:or:{and:{}%s}"):
            found.filter(b"\2", b"\2\1\1", text % (" " * (size - len(text) + 2)))
        for text in ("item:{rule 2.5.13.14,value %s}", "item:{rule 2.5.13.15,value -%s}",
                     "item:{rule 2.5.13.15,value 1%s1}"):
            found.filter(b"\2", b"\2\1\1", text % ("9" * (size - len(text) + 2)))
        for text in ('item:{rule 2.5.13.2,value "%s"}', "item:{rule a%s,value 1}",
                     'item:{component "%s",rule a,value 1}'):
            found.filter(b"\x08", b"\x0c\1a", text % ("a" * (size - len(text) + 2)))
        text = "item:{rule 2.5.13.0,value 2.5%s}"
        found.filter(b"\5", b"\6\1\x55", text % (".1" * ((size - len(text) + 2) // 2)))
        found.filter(b"\5", b"\6\1\x55", text % ("1" * (size - len(text) + 2)))
        for given in ("a" * size, "parts." + "9" * (size - 6), "parts.-" + "9" * (size - 7),
                      "parts" + ".*" * ((size - 5) // 2)):
            for room in (0, 3):
                found.listing(LICENCE, RECORD, given, True, room)
            found.add(LICENCE, RECORD, ("l", False, given.encode(), False, 3))
    fine = "item:{component \"1\",rule presentMatch,value NULL}"
    octets = of(14, 1) + b"\6"
    for table, value in [(b"\2" * 128, b"\2\1\1"), (b"\2" * 129, b"\2\1\1"), (member("a", 0) * 128, b"\2\1\1"),
                         (b"\2" * 4993, b"\2\1\1"), (octets, tlv(0x30, tlv(4, bytes(4088)))),
                         (octets, tlv(0x30, tlv(4, bytes(4089)))), (b"", RECORD), (LICENCE, b""), (LICENCE, b"\x30"),
                         (b"", b""), (b"\4", b"\5\0"), (of(14, 1) + b"\4", b"\x30\0")]:
        for text in (fine, "and:{}", "", "and: {}"):
            for budget in (0, 1, 65535, 65536):
                found.filter(table, value, text, budget)
        for text in (None, "1", "", "x", "*", "0"):
            for room in (0, 2, 3, 4):
                found.listing(table, value, text, True, room)


def ask(found):
    """All of this module's questions."""
    for topic in (accepted, by_name_and_number, broken_texts, truths, limits):
        topic(found)
