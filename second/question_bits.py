"""Filters and listings for crates/cases about named BIT STRINGs (Q-2 of document 02)."""

import draw_bits
import draw_text
import question_filters
import rules
from question_filters import ANY_TEXT, CHANGES, around
from samples import RIGHTS, bit_contents, choice, item, leaf, member, named_bits, of, sequence, tlv

RULE = "2.5.13.16"
NAMED = named_bits(*RIGHTS)
# Names that are alike, in no order of their numbers.
ALIKE = [("print", 2), ("prin", 0), ("printX", 63), ("pRint", 1), ("print-x", 9), ("p", 31), ("a", 8), ("aa", 7), ("aaa", 16), ("aB", 15), ("ab", 40),
         ("a-b", 5), ("content", 62), ("abcdefghijklmnopqrstuvwx", 33), ("abcdefghijklmnopqrstuvwy", 32), ("abcdefghijklmnopqrstuvw", 34)]
# Bits of the values that are stored together in one list.
STORED = ["01", "001", "0001", "011", "111", "1101", "00000011", "110000001", "1100000000000001", "0" * 62 + "1", "0" * 63 + "1", "0" * 64 + "1",
          "11" + "0" * 62 + "1", "1" * 9, "", "1", "101", "11"]
FORMS = ["{}", "{ }", "{  }", "{%s}" % (" " * 60), "{print}", "{ print}", "{print }", "{ print }", "{   print   }", "{print,perform}", "{perform,print}",
         "{ print,perform }", "{print, perform}", "{print,  perform}", "{ print, perform }", "{  print,   perform  }", "{print,print}",
         "{print,perform,print}", "{ print, print, perform, print }", "{print,record}", "{record, print}", "{print,perform,record}",
         "{record,perform,print,perform,record}", "{perform}", "{record}", "{perform,record}", " {print} ", "   {print,perform}   "]
ODD_FORMS = ["{print ,perform}", "{print , perform}", "{print  ,  perform}", "{print perform}", "{print  perform}", "{print;perform}", "{print.perform}",
             "{print:perform}", "{print|perform}", "{,}", "{ , }", "{,print}", "{ ,print}", "{print,}", "{print, }", "{print,,perform}", "{print, ,perform}",
             "{\tprint}", "{print\t}", "{print,\tperform}", "{print\t,perform}", "{\nprint}", "{print,\nperform}", "{\u00a0print}", "{print\u00a0}",
             "{print,\u00a0perform}", "{\u3000}", "{\t}", "{\n}", "{\0}", "{print\0}", "{\u00ad}", "{{print}}", "{{}}", "{{},print}", "{print,{}}", "{print{}}",
             "{}{}", "{print}{perform}", "{print},{perform}", "{print} {perform}", "{print},", "{print}x", "x{print}", "{print}'1'B", "'1'B{print}",
             '{"print"}', '{"}"}', '{"print","perform"}', '"{print}"', "'{print}'", "{'print'}", "{'1'B}", "{1}", "{0}", "{0,1}", "{print(0)}",
             "{print 0}", "{print TRUE}", "{print=1}", "{-print}", "{print-}", "{print--x}", "{other}", "{print,other}", "{other,print}",
             "{print,other,perform}", "{Print}", "{PRINT}", "{prinT}", "{print,PERFORM}", "{PRINT,perform}", "{prin}", "{rint}", "{printx}",
             "{xprint}", "{print1}", "{p}", "{prints,perform}", "{pr int}",
             "{pri\u00f1t}", "{pr\u0131nt}", "{\u017f}", "print", "print,perform", "(print)", "[print]",
             "<print>", "{print", "NULL", "TRUE", "0", "1", "2.5", '"print"', '""', "{*}", "{ALL}", "all", "{rights}", "{print}:{}", "set:{print}"]
DIGITS = ["", "0", "00", "0" * 70, "1", "10", "100", "10000000", "1" + "0" * 70, "11", "110", "1100", "11000000", "110000000", "11" + "0" * 62, "11" + "0" * 63,
          "111", "1110", "01", "010", "001", "011", "0110", "101", "1101", "1111", "0001", "110000001", "1100000010", "1100000000000001", "11000000000000010",
          "0" * 62 + "1", "0" * 63 + "1", "0" * 63 + "10", "0" * 64 + "1", "0" * 65 + "1", "11" + "0" * 61 + "1", "11" + "0" * 62 + "1", "1" * 9, "1" * 10]
HEX = ["", "0", "00", "000", "8", "80", "800", "C", "C0", "C00", "C000", "C" + "0" * 30, "E", "E0", "D", "4", "40", "6", "60", "06", "2", "20", "3", "C08",
       "C080", "C081", "C001", "C0010", "C0011", "0C", "C4", "FF8", "FF80", "FFC", "0" * 15 + "1", "0" * 15 + "2", "0" * 16 + "8", "0" * 15 + "10", "c", "C0c",
       "G", "C G", "c0"]
ODD_DIGITS = ["'11'", "11", "'11'b", "'C'h", "B'11'", "'1 1'B", "' 11'B", "'11 'B", "'11' B", "'12'B", "'C'B", "'1C'B", "''", "'", "''b", "'11'BB", "'11'B'0'B",
              "'C'H'0'H", "\"11\"B", "'11'H0", "'11'D", "'11\u00a0'B", "'\uff11'B", "'\u0661'B", "'1.1'B", "'1_1'B", "'11", "11'B", "''B''B"]
PAIRS, SUBSETS, NEAR, EDGES = 400, 240, 300, 160


def stored(bits):
    """A value of one BIT STRING, named or not."""
    return leaf(17, bit_contents(bits))


def digits(bits):
    """Bits as digits, `'..'B`."""
    return "'%s'B" % bits


def hexed(bits):
    """Bits as hexadecimal digits, filled up with zero bits."""
    bits += "0" * (-len(bits) % 4)
    return "'%s'H" % "".join(format(int(bits[at:at + 4], 2), "X") for at in range(0, len(bits), 4))


def of_bits(several):
    """A SEQUENCE OF these."""
    return tlv(0x30, *(stored(bits) for bits in several))


def one_bit(number):
    """The bits of a value in which one bit is set."""
    return "0" * number + "1"


def forms(found):
    """Each value text, conforming or not, against all stored values and each, on kind 17 and on kind 7."""
    texts = FORMS + ODD_FORMS + [digits(text) for text in DIGITS] + ["'%s'H" % text for text in HEX] + ODD_DIGITS
    table, value, plain = of(14, 1) + NAMED, of_bits(STORED), of(14, 1) + b"\7"
    for text in texts:
        found.budgets(table, value, item("*", RULE, text))
        found.filter(table, value, "not:" + item("-1", "bitStringMatch", text))
        found.filter(plain, value, item("*", RULE, text))
    conforming = [text for text in texts if rules.named_bits_of(text.strip(" "), dict(RIGHTS)) is not rules.NOT_CONFORMING]
    pairs = [(text, place) for text in conforming for place in range(1, 1 + len(STORED))]
    for text, place in found.dice.sample(pairs, PAIRS):
        found.filter(table, value, item(str(place), RULE, text), found.dice.choice([1, 1, 1, 0]))


BASES = ["item:{rule 2.5.13.16,value {print,perform}}", 'item:{component "*", rule bitStringMatch, value { perform, print } }',
         "not:item:{rule bitStringMatch,value {record ,print}}", "and:{item:{rule 2.5.13.16,value {}},item:{rule 2.5.13.16,value {print}}}",
         "item:{rule bitStringMatch,value '1100'B}"]


def broken(found):
    """Filters with a list of names cut off, or with one character missing, doubled, changed or put in, at each place of the value text."""
    dice = found.dice
    for base in BASES:
        table, value = (of(14, 1) + NAMED, of_bits(["1", "11"])) if "*" in base else (NAMED, stored("11"))
        found.filter(table, value, base)
        for at in range(base.index("value"), len(base)):
            several = around(base, at) + [base[:at] + dice.choice("{},\" '") + base[at:], base[:at] + dice.choice(CHANGES) + base[at + 1:]]
            for text in dice.sample(several, 6):
                found.filter(table, value, text)


def each_bit(found):
    """Each bit number, named in no order, against a list of values of one bit each: the number of tests tells which bit was meant."""
    dice = found.dice
    value, whole = of_bits(one_bit(number) for number in range(64)), dice.sample(range(64), 64)
    for first in range(0, 64, 16):
        names = dice.sample([name for name, _ in ALIKE], 16)
        pairs = [*zip(names, whole[first:first + 16])]
        table = of(14, 1) + named_bits(*pairs)
        for name, number in pairs:
            found.filter(table, value, item("*", RULE, "{%s}" % name))
            found.filter(table, value, item(str(number + 1), RULE, "{ %s }" % name), 1)
            found.filter(table, value, item(str(dice.randint(1, 64)), RULE, "{%s}" % name))
            found.filter(table, value, item("*", RULE, digits(one_bit(number) + "0" * dice.randrange(12))))
            found.filter(table, value, item("*", RULE, hexed(one_bit(number) + "0" * dice.randrange(12))))
            for near in dice.sample([name[:-1], name + "x", name.swapcase(), name + "-", name[1:], name.capitalize(), name + " x", name + "0"], 2):
                found.filter(table, value, item("*", RULE, "{%s}" % near))
        every, bits = ",".join(names), "".join("1" if number in whole[first:first + 16] else "0" for number in range(64)).rstrip("0")
        for stored_bits in (bits, bits[:-1] + "01", bits.replace("1", "0", 1).rstrip("0"), bits + "1"):
            for text in ("{%s}" % every, "{%s,%s}" % (every, names[0]), "{%s}" % ",".join(names[:-1]), "{%s}" % ",".join(reversed(names)), "{%s,}" % every):
                found.filter(named_bits(*pairs), stored(stored_bits), item(None, RULE, text))


def spaced(dice, names):
    """A list of names with spaces where they may stand."""
    return "{" + " " * dice.choice([0, 0, 1, 3]) + ("," + " " * dice.choice([0, 0, 1, 2])).join(names) + " " * dice.choice([0, 0, 1, 3]) + "}"


def subsets(found):
    """Drawn sets of names, some repeated, against the bits that they stand for and bits that differ in one place."""
    dice = found.dice
    for _ in range(SUBSETS // 3):
        pairs = dice.sample(ALIKE, dice.choice([1, 2, 3, 5, 16]))
        chosen = dice.sample(pairs, dice.randint(0, len(pairs)))
        names = [name for name, _ in chosen] + ([name for name, _ in dice.choices(chosen, k=dice.choice([0, 1, 3]))] if chosen else [])
        ones = {number for _, number in chosen}
        near = [ones, ones ^ {dice.choice(pairs)[1]}, ones ^ {dice.randrange(66)}]
        values = ["".join("1" if at in one else "0" for at in range(max(one, default=-1) + 1)) for one in near]
        for bits in dice.sample(values, 3):
            found.filter(named_bits(*pairs), stored(bits), item(None, RULE, spaced(dice, dice.sample(names, len(names)))))


def zeros(found):
    """Digits with and without trailing zeros against values of all lengths, and digits that differ in one bit."""
    dice = found.dice
    for _ in range(NEAR):
        size = dice.choice([*range(1, 20), 31, 32, 33, 62, 63, 64, 65, 127, 128, 129, 300, 500])
        bits = "".join(dice.choice("01") for _ in range(size - 1)) + "1"
        at = dice.randrange(size)
        asserted = dice.choice([bits, bits, bits, bits[:-1], bits[:-1] + "0", bits + "1", "0" + bits, bits[1:], bits[:at] + "10"[int(bits[at])] + bits[at + 1:],
                                bits[:-1] + "01"])
        asserted += "0" * dice.choice([0, 0, 1, 2, 3, 4, 5, 7, 8, 9, 16, 64, 100])
        found.filter(dice.choice([NAMED, NAMED, NAMED, b"\7"]), stored(bits), item(None, RULE, dice.choice([digits, hexed])(asserted)))
    for size in range(9):
        for more in range(9):
            found.filter(NAMED, stored("1" * size), item(None, RULE, digits("1" * size + "0" * more)))
            if more % 4 == 0:
                found.filter(b"\7", stored("1" * size), item(None, RULE, digits("1" * size + "0" * more)))
                found.filter(b"\7", leaf(7, bit_contents("1" * size + "0" * more)), item(None, RULE, digits("1" * size)))


def other_rules(found):
    """Each rule on a named BIT STRING; bitStringMatch with names on each other kind, on a count, on a CHOICE, a SEQUENCE and lists."""
    table, value = of(14, 1) + NAMED, of_bits(["1", "11", ""])
    for rule in rules.BASE_RULES:
        for text in (rule.oid, rule.name, rule.name.upper(), rule.name + "x"):
            for asserted in (ANY_TEXT[rule.read], "{print}"):
                found.filter(table, value, item("*", text, asserted))
        found.filter(table, value, item("0", rule.oid, ANY_TEXT[rule.read]))
        found.filter(table, value, item(None, rule.oid, ANY_TEXT[rule.read]))
    leaves = {1: b"\0", 2: b"\1", 3: b"\1", 4: b"", 5: b"\x55", 6: b"\6\xc0", 7: b"\6\xc0", 8: b"print", 9: b"print", 10: b"print", 11: b"20240301000000Z"}
    for kind, contents in leaves.items():
        for text in ("{print}", "{}", "'11'B"):
            found.filter(bytes([kind]), leaf(kind, contents), item(None, RULE, text))
    bits = choice(member("a", 3), member("b", 4, 2, 0)) + b"\7" + NAMED
    for component in (None, "a", "b", "b.print", "a.b", "print"):
        for text in ("{print,perform}", "'11'B", "'110'B", "{}", "{b}", "NULL"):
            for stored_value in (stored("11"), tlv(0x80, bit_contents("11"))):
                found.filter(bits, stored_value, item(component, RULE, text))
    for text in ("{print}", "'1'B"):
        found.filter(sequence(member("a", 2)) + NAMED, tlv(0x30, stored("1")), item(None, RULE, text))
        found.filter(of(15, 1) + NAMED, tlv(0x31, stored("1")), item(None, RULE, text))


# A licence with rights, and with parts that may have rights of their own.
LICENCE = (sequence(member("event", 5), member("seats", 6, presence=2, default=b"\1"), member("rights", 7), member("parts", 11, presence=1))
           + bytes([8, 2]) + NAMED + of(14, 12)
           + sequence(member("name", 16), member("rights", 17, 2, 0, 1), member("flags", 20, 1, 1, 1)) + b"\x09"
           + named_bits(("print", 1), ("copy", 0)) + b"\7")
RECORDS = [
    tlv(0x30, leaf(8, b"e1"), stored("11"), tlv(0x30, tlv(0x30, leaf(9, b"Vl")), tlv(0x30, leaf(9, b"Va"), tlv(0x80, bit_contents("01"))),
                                                tlv(0x30, leaf(9, b"Vc"), tlv(0x80, bit_contents("")), tlv(0xA1, leaf(7, bit_contents("110")))))),
    tlv(0x30, leaf(8, b"e2"), leaf(2, b"\2"), stored(""), tlv(0x30)),
    tlv(0x30, leaf(8, b"e3"), stored("1" + "0" * 70 + "1")),
]
ATOMS = [item("rights", RULE, "{print,perform}"), item("rights", RULE, "{}"), item("rights", RULE, "{record}"), item("rights", RULE, "{copy}"),
         item("parts.*.rights", RULE, "{print}"), item("parts.*.rights", RULE, "{copy,print}"), item("parts.*.rights", RULE, "'010'B"),
         item("parts.*.rights", RULE, "{perform}"), item("parts.0", "2.5.13.14", "3"), item("seats", "2.5.13.14", "1"),
         item("seats", "2.5.13.14", "1", "FALSE"),
         item("parts.*.flags", RULE, "'110'B"), item("parts.*.flags", RULE, "{}"), item("rights", "presentMatch", "NULL"),
         item("parts.-1.rights", RULE, "{ }"), item("rights.print", "presentMatch", "NULL"), item("rights", RULE, "{ print ,perform}"), "and:{}", "or:{ }"]


def licence(found):
    """Rights of a licence and of its parts under lists and `not`, with budgets around the need, and listed."""
    dice = found.dice
    for value in RECORDS:
        for atom in ATOMS:
            found.budgets(LICENCE, value, atom)
            found.budgets(LICENCE, value, "not:" + atom)
        for _ in range(90):
            inner = [dice.choice(["", "", "not:"]) + dice.choice(ATOMS) for _ in range(dice.randint(2, 4))]
            text = "%s:{%s}" % (dice.choice(["and", "or"]), dice.choice([",", ", "]).join(inner))
            found.budget(LICENCE, value, dice.choice(["%s", "not:%s", "or:{and:{},%s}", "and:{%s,or:{}}"]) % text)
        for text in (None, "rights", "seats", "parts", "parts.*", "parts.0", "parts.*.rights", "parts.*.flags", "parts.-1.rights", "parts.2.rights",
                     "parts.1.rights", "parts.3", "parts.*.name", "rights.print", "rights.perform", "rights.0", "rights.*", "rights.1", "rights.-1",
                     "rights.content", "rights.(1)", "rights.", "print", "parts.*.rights.copy", "parts.*.rights.0", "parts.1.print", "parts.rights", "Rights",
                     "rights.rights", "rights.{print}"):
            found.rooms(LICENCE, value, text, dice.random() < 0.6, 3)
            if text is not None:
                found.filter(LICENCE, value, item(text, "presentMatch", "NULL"))
                found.filter(LICENCE, value, item(text, RULE, dice.choice(["{}", "{print}", "'11'B"])))


def shapes(found):
    """A named BIT STRING as row 0, in a CHOICE, in a SET OF, in lists of lists and under tags: listed, and asked for its bits."""
    two = tlv(0x31, stored(""), stored("11"), stored("1"))
    subjects = [
        (NAMED, stored("11"), [None, "print", "0", "1", "*", "", "content"]), (NAMED, stored(""), [None, "print"]),
        (of(15, 1) + NAMED, tlv(0x31, stored(""), stored("11"), stored("1")), [None, "*", "0", "1", "2", "3", "4", "-1", "-3", "-4", "*.0", "1.print", "01"]),
        (of(14, 1) + of(15, 2) + NAMED, tlv(0x30, two, tlv(0x31), two), ["*", "*.*", "*.0", "0", "1.2", "2.*", "-1.-1", "3.4", "*.*.*", "*.print"]),
        (choice(member("a", 3), member("b", 7, 1, 4)) + NAMED + NAMED, stored("01"), [None, "a", "b", "a.print", "b.print", "c"]),
        (choice(member("a", 3), member("b", 7, 1, 4)) + NAMED + NAMED, tlv(0xA4, stored("01")), [None, "a", "b", "a.0", "print"]),
        (sequence(member("print", 3, 2, 1), member("perform", 3, 1, 2, 1)) + NAMED, tlv(0x30, tlv(0x81, b"\6\x40")),
         [None, "print", "perform", "print.print", "perform.perform", "record"]),
        (sequence(member("print", 3, 2, 1), member("perform", 3, 1, 2, 1)) + NAMED, tlv(0x30, tlv(0x81, b"\0"), tlv(0xA2, stored("1" * 400))),
         ["print", "perform", "record", "perform.0"]),
        (of(14, 1) + NAMED, of_bits(["1"] * 600), ["*", "0", "600", "601", "-600", "-601"]),
        (b"".join(of(14, row + 1) for row in range(15)) + NAMED, nested(15),
         [".".join(["*"] * 15), ".".join(["1"] * 15), ".".join(["*"] * 16), ".".join(["*"] * 14)]),
        (sequence(*[member("m%d" % at, 17, 2, at, 1) for at in range(16)]) + NAMED,
         tlv(0x30, *[tlv(0x80 + at, bit_contents(one_bit(at))) for at in range(0, 16, 2)]), ["m%d" % at for at in range(17)]),
    ]
    for table, value, several in subjects:
        for text in several:
            found.rooms(table, value, text, True, 6)
            for asserted in ("{print}", "{perform}", "'11'B", "{}", "'1" + "0" * 64 + "'B"):
                found.budget(table, value, item(text, RULE, asserted))
            found.budgets(table, value, item(text, "presentMatch", "NULL"))


def nested(depth):
    """A named BIT STRING in so many lists."""
    value = stored("1")
    for _ in range(depth):
        value = tlv(0x30, value)
    return value


def limits(found):
    """Lists of names, spaces and digits up to the filter's size, items and depths at their limits, and braces that do not close."""
    for size in (2046, 2047, 2048, 2049):
        for head, part, tail in (("{", "print,", "perform}"), ("{print", " ", "}"), ("{", " ", "print}"), ("{print,", " ", "perform}"), ("{", " ", "}"),
                                 ("'11", "0", "'B"), ("'C", "0", "'H"), ("'", "0", "1'B"), ("'11", "0", "1'B"), ("{", "print, ", "print}"),
                                 ("{", "perform,print,", "x}"), ("{", "{}", "}"), ("{", "p", "}")):
            room = size - len(item(None, RULE, head + tail))
            text = head + part * (room // len(part)) + " " * (room % len(part)) + tail
            for bits in ("11", "1"):
                found.filter(NAMED, stored(bits), item(None, RULE, text))
    one, other = item(None, RULE, "{}"), item(None, RULE, "{p}")
    for count in (63, 64, 65):
        for word in ("and", "or"):
            for text in ([one] * count, [one] * (count - 1) + [other], [other] + [one] * (count - 1), (["not:" + one] + [other] * 64)[:count]):
                found.budget(named_bits(("p", 0)), stored("1"), "%s:{%s}" % (word, ",".join(text)))
    for depth in (14, 15, 16):
        for text in (one, other, item(None, RULE, "{q}")):
            found.filter(named_bits(("p", 0)), stored("1"), "not:" * depth + text)
            found.filter(named_bits(("p", 0)), stored("1"), "and:{" * depth + text + "}" * depth)
    for size in (1, 400, 500, 4087):
        table, value = of(14, 1) + NAMED, tlv(0x30, leaf(17, b"\0" + b"\xff" * size))
        bits = min(size, 240) * 8
        for text in (digits("1" * bits), hexed("1" * (min(size, 480) * 8)), "{print,perform,record}", "{}", digits("1" * bits + "0"), digits("1" * bits + "1")):
            found.filter(table, value, item("*", RULE, text))


def refusals(found):
    """Tables and values that are refused, with good and bad filters and references: the first refusal is given."""
    tables = [named_bits(*RIGHTS, count=2), named_bits(*RIGHTS, count=4), NAMED[:-1], named_bits(("a", 64)), named_bits(("a", 0), ("a", 1)),
              named_bits(("a", 0), ("b", 0)), NAMED[2:], named_bits(), named_bits(("A", 0)), of(14, 2) + NAMED]
    for table in tables + [NAMED]:
        for value in (stored("11"), leaf(17, b"\6\x80"), leaf(17, b"\5\xc0"), b"\x23\4\3\2\6\xc0"):
            for text in (item(None, RULE, "{print,perform}"), item(None, RULE, "{print")):
                found.filter(table, value, text, found.dice.choice([65535] * 6 + [0, 65536]))
            for text in (None, "print"):
                found.listing(table, value, text, True, found.dice.choice([3, 3, 2]))
    for contents in draw_bits.STORED:
        found.filter(of(14, 1) + NAMED, tlv(0x30, stored("1"), leaf(17, bytes.fromhex(contents))), item("1", RULE, "{print}"))
        found.listing(of(14, 1) + NAMED, tlv(0x30, stored("1"), leaf(17, bytes.fromhex(contents))), "*", True, 6)


def drawn(found):
    """Drawn filters and listings close to the edges of Q-2."""
    edges = draw_bits.BitDrawer(found.dice)
    question_filters.close_to_edges(found, EDGES, lambda: edges.bit_texts() if found.dice.random() < 0.8 else edges.bit_contents())
    for text in draw_text.ODD_BITS:
        found.filter(NAMED, stored("1"), item(None, RULE, text))


def of_the_tests(found):
    """What the tests of this request ask."""
    question_filters.of_the_tests(found, "Bits")


def ask(found):
    """All of this module's questions."""
    for topic in (of_the_tests, forms, broken, each_bit, subsets, zeros, other_rules, licence, shapes, limits, refusals, drawn):
        topic(found)
