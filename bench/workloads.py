"""The questions of the benchmark, for the harness: tables, values, filters and the answers expected.

Tables and texts come from second/samples.py, and the second program has to give the expected answers too.
"""

import itertools
import pathlib
import sys

sys.path.insert(0, str(pathlib.Path(__file__).resolve().parent.parent / "second"))

import samples  # noqa: E402

LARGEST_TABLE, LONGEST_FILTER, LONGEST_VALUE = 8064, 2048, 4096
PARTS = 250
SIZES = [64, 128, 256] + list(range(512, LONGEST_VALUE + 1, 512))
EVENT_TABLE = b"\x08"  # one row, UTF8String
RIGHTS = [("print", 0), ("perform", 1), ("record", 2)]
NAME_ROW, RDN_ROW = bytes([19]), bytes([20])
COUNTRY, ORGANIZATION, COMMON_NAME = "2.5.4.6", "2.5.4.10", "2.5.4.3"
GIVEN_NAMES = ["Ann", "Ben", "Eva", "Ida", "Jan", "Kim", "Leo", "Mia", "Ole", "Pia"]
CATEGORY = "educationalConcessionCategory"
FAMILY_NAMES = ["Berg", "Falk", "Holm", "Lind", "Moe", "Roy", "Sand", "Vik"]


class Question:
    """A question, the truth and tests expected, and the name of its comparing in harness/by_hand.c."""

    def __init__(self, name, by_hand, table, value, text, answer, timed=True):
        told = samples.asked(table, value, text)
        if answer not in (told, told.split()[0]):
            raise SystemExit("bench: %s: the second program answers %s, expected is %s" % (name, told, answer))
        self.name, self.by_hand, self.timed = name, by_hand, timed
        self.table, self.value, self.text, self.answer = table, value, text, told

    def asked_of(self, side):
        """Whether an implementation is asked: asn1c's code answers only what is compared by hand."""
        return side != "asn1c" or self.by_hand != "-"

    def line(self):
        """The harness's line."""
        return " ".join(["timed" if self.timed else "checked", self.name, self.by_hand, self.answer,
                         self.table.hex(), self.value.hex(), self.text.encode().hex()])


def integer(number):
    """The shortest contents of an INTEGER."""
    return number.to_bytes((number if number >= 0 else ~number).bit_length() // 8 + 1, "big", signed=True)


def part(name, copies=1):
    """A Part; a default is not stored."""
    return samples.tlv(0x30, samples.tlv(0x13, name.encode()), b"" if copies == 1 else samples.tlv(0x80, integer(copies)))


def licence(event="e1", seats=1, parts=()):
    """A Licence; a default is not stored."""
    return samples.tlv(0x30, samples.tlv(0x0C, event.encode()), b"" if seats == 1 else samples.tlv(2, integer(seats)),
                       samples.tlv(0x30, *parts))


def parts_of_16_octets(count):
    """Parts by turns without and with stored copies."""
    return [part("Part no. %03d" % at) if at % 2 else part("Part %04d" % at, 3) for at in range(1, count + 1)]


def sized(size, parts):
    """A licence of so many octets; its event fills it up. None if there is none."""
    return next((found for length in range(1, 128) if len(found := licence("e" * length, 1, parts)) == size), None)


def of_octets(size):
    """A licence of so many octets with as many parts as fit, and their number."""
    for count in range(size // 16, 0, -1):
        value = sized(size, parts_of_16_octets(count))
        if value:
            return value, count
    raise SystemExit("bench: no licence of %d octets" % size)


def copies(number):
    """A filter on the copies of all parts."""
    return samples.item("parts.*.copies", "integerMatch", number)


def of_parts():
    """P1, 250 parts, growing values; no part has seven copies."""
    table, seven = samples.LICENCE, copies(7)
    yield Question("P1", "three_copies", table, samples.RECORD, copies(3), "TRUE 2")
    yield Question("P1-false", "three_copies", table, licence(parts=[part("Vl")]), copies(3), "FALSE 1", timed=False)
    parts = parts_of_16_octets(PARTS)
    yield Question("250-parts", "seven_copies", table, sized(LONGEST_VALUE, parts), seven, "FALSE %d" % PARTS)
    last = licence(parts=parts[:-1] + [part("Last", 7)])
    yield Question("250-parts-true", "seven_copies", table, last, seven, "TRUE %d" % PARTS, timed=False)
    for size in SIZES:
        value, count = of_octets(size)
        yield Question("%d-octets" % size, "seven_copies", table, value, seven, "FALSE %d" % count)


def named_bits(names):
    """The rows of a named BIT STRING, from names and numbers."""
    return bytes([17, len(names)]) + b"".join(bytes([18]) + name.encode().ljust(24, b"\0") + bytes([number]) for name, number in names)


def bits(digits):
    """A BIT STRING of binary digits."""
    octets = [digits[at:at + 8].ljust(8, "0") for at in range(0, len(digits), 8)]
    return samples.tlv(3, bytes([-len(digits) % 8] + [int(octet, 2) for octet in octets]))


def parts_table(part):
    """SEQUENCE { event UTF8String, parts SEQUENCE OF Part }, and the rows of Part, from row 5 on."""
    return samples.sequence(samples.member("event", 3), samples.member("parts", 4)) + b"\x08" + samples.of(14, 5) + part


def rights_table():
    """SEQUENCE { event UTF8String, parts SEQUENCE OF SEQUENCE { name PrintableString, rights BIT STRING { print(0), perform(1), record(2) } } }."""
    return parts_table(samples.sequence(samples.member("name", 8), samples.member("rights", 9)) + b"\x09" + named_bits(RIGHTS))


def parts_with_rights(count):
    """Parts of 16 octets, by turns without rights, with one right, another one, and all three."""
    turns = [("Part %04d", ""), ("Part %03d", "1"), ("Part %03d", "01"), ("Part %03d", "111")]
    return [samples.tlv(0x30, samples.tlv(0x13, (name % at).encode()), bits(digits)) for at, (name, digits) in zip(range(count), itertools.cycle(turns))]


def of_rights():
    """250 parts with rights; none has exactly the first two. asn1c's code has no names and isn't asked."""
    table, both = rights_table(), samples.item("parts.*.rights", "bitStringMatch", "{print,perform}")
    parts, last = parts_with_rights(PARTS), samples.tlv(0x30, samples.tlv(0x13, b"Last one"), bits("11"))
    yield Question("named-bits", "-", table, sized(LONGEST_VALUE, parts), both, "FALSE %d" % PARTS)
    value = sized(LONGEST_VALUE, parts[:-1] + [last])
    yield Question("named-bits-true", "-", table, value, both, "TRUE %d" % PARTS, timed=False)
    yield Question("named-bits-zeros", "-", table, value, samples.item("parts.*.rights", "bitStringMatch", "'110'B"), "TRUE %d" % PARTS, timed=False)


def base_128(number):
    """A subidentifier's octets."""
    octets = [number & 0x7F]
    while number := number >> 7:
        octets.append(0x80 | number & 0x7F)
    return bytes(reversed(octets))


def attribute(dotted, value, tag=0x0C):
    """A pair of an attribute type and a value."""
    first, second, *arcs = map(int, dotted.split("."))
    return samples.tlv(0x30, samples.tlv(6, *map(base_128, [40 * first + second, *arcs])), samples.tlv(tag, value.encode()))


def rdn(*pairs):
    """A RelativeDistinguishedName of pairs in any order."""
    return samples.tlv(0x31, *sorted(pairs))


def holder(country, organization, name):
    """A distinguished name of three RDNs."""
    return samples.tlv(0x30, rdn(attribute(COUNTRY, country, 0x13)), rdn(attribute(ORGANIZATION, organization)), rdn(attribute(COMMON_NAME, name)))


def holders_table():
    """SEQUENCE { event UTF8String, holders SEQUENCE OF RDNSequence }."""
    return samples.sequence(samples.member("event", 3), samples.member("holders", 4)) + b"\x08" + samples.of(14, 5) + NAME_ROW


def of_holders():
    """80 singers of two choirs, who hold a licence; the last of them is asked for. asn1c's code isn't asked."""
    table, singers = holders_table(), ["%s %s" % (given, family) for family in FAMILY_NAMES for given in GIVEN_NAMES]
    holders = [holder("AU", "Voces" if at % 3 == 0 else "\u00c9lan", singer) for at, singer in enumerate(singers)]
    value = sized(LONGEST_VALUE, holders)

    def asked(name, text, answer, timed=False):
        return Question(name, "-", table, value, samples.item("holders.*", "distinguishedNameMatch", '"%s"' % text), answer, timed)

    yield asked("holder-names", "2.5.4.3=Pia Vik,2.5.4.10=\u00c9lan,2.5.4.6=AU", "TRUE %d" % len(holders), timed=True)
    yield asked("holder-names-varied", "2.5.4.3=\\50ia  VIK,2.5.4.10=\\20\u00e9\u00adlan\\ ,2.5.4.6=au", "TRUE %d" % len(holders))
    yield asked("holder-names-turned", "2.5.4.6=AU,2.5.4.10=\u00c9lan,2.5.4.3=Pia Vik", "FALSE %d" % len(holders))
    yield asked("holder-names-false", "2.5.4.3=Pia Vik,2.5.4.10=Voces,2.5.4.6=AU", "FALSE %d" % len(holders))


def long_member(name, *fields):
    """A member with a name of 25 to 48 characters; the fields are those of samples.member."""
    return bytes([21]) + name.encode().ljust(48, b"\0") + samples.member("m", *fields)[1 + 24:]


def concessions_table():
    """SEQUENCE { event UTF8String, parts SEQUENCE OF SEQUENCE { name PrintableString, educationalConcessionCategory PrintableString } }."""
    return parts_table(samples.sequence(samples.member("name", 8), long_member(CATEGORY, 8)) + b"\x09")


def concession(name, category):
    """A part with its category."""
    return samples.tlv(0x30, samples.tlv(0x13, name.encode()), samples.tlv(0x13, category.encode()))


def parts_with_concessions(count):
    """Parts of 16 octets, by turns of three categories."""
    turns = [("P-%03d", "pupil"), ("%04d", "school"), ("%03d", "student")]
    return [concession(name % at, category) for at, (name, category) in zip(range(count), itertools.cycle(turns))]


def of_concessions():
    """250 parts with a category, the member of a long name; none has the one that is asked for. asn1c's code isn't asked."""
    table, parts = concessions_table(), parts_with_concessions(PARTS)

    def asked(name, parts, reference, answer, timed=False):
        text = samples.item("parts.*." + reference, "caseIgnoreMatch", '"teacher"')
        return Question(name, "-", table, sized(LONGEST_VALUE, parts), text, answer, timed)

    yield asked("long-names", parts, CATEGORY, "FALSE %d" % PARTS, timed=True)
    yield asked("long-names-true", parts[:-1] + [concession("Las", "Teacher")], CATEGORY, "TRUE %d" % PARTS)
    yield asked("long-names-cut", parts, CATEGORY[:24], "UNDEFINED 0")


# What the items of the two `or` filters assert. An item: the comparing in harness/by_hand.c, reference, rule, asserted value (a text or a number).


def event_items():
    """64 items on a record that is one string: two texts of one character, the others of two, so that the filter has 2,048 octets."""
    texts = ["a", "b"] + ["e" + last for last in "23456789abcdefghijklmnopqrstuv"]
    return [item for text in texts for item in (("whole_is", None, "2.5.13.5", text), ("whole_like", None, "2.5.13.2", text))]


def licence_item_forms(n):
    """Items of several rules that no two numbers n make alike, each with a licence that it accepts. None accepts the record of document 01."""
    return [
        (("event_like", "event", "2.5.13.2", "f%d" % n), licence(event="  F%d " % n)),
        (("seats_equal", "seats", "2.5.13.14", n + 2), licence(seats=n + 2)),
        (("parts_counted", "parts.0", "integerMatch", n + 3), licence(parts=[part("A")] * (n + 3))),
        (("some_copies_equal", "parts.*.copies", "2.5.13.14", n + 4), licence(parts=[part("A"), part("B", n + 4)])),
        (("some_name_is", "parts.*.name", "2.5.13.5", "V%d" % n), licence(parts=[part("A"), part("V%d" % n)])),
        (("seats_less", "seats", "2.5.13.15", 1 - n), licence(seats=-n)),
        (("first_name_like", "parts.1.name", "2.5.13.2", "w%d x" % n), licence(parts=[part("W%d   X" % n)])),
        (("event_is", "event", "caseExactMatch", "E%d" % n), licence(event="E%d" % n)),
    ]


def or_of(items):
    """The filter that is TRUE if one of the items is."""
    quoted = (item[:3] + ('"%s"' % item[3] if isinstance(item[3], str) else item[3],) for item in items)
    return "or:{%s}" % ",".join(samples.item(*item[1:]) for item in quoted)


def licence_items():
    """As many items as the limit on a filter's text lets in."""
    items = []
    for item in (item for n in itertools.count() for item, _ in licence_item_forms(n)):
        if len(or_of(items + [item])) > LONGEST_FILTER:
            return items
        items.append(item)


def of_items():
    """The two filters of many items, all FALSE, and values that make them TRUE."""
    text = or_of(event_items())
    yield Question("64-items", "event_items", EVENT_TABLE, samples.leaf(8, b"e1"), text, "FALSE 64")
    for stored, answer in ((b"a", "TRUE 1"), (b" A ", "TRUE 2"), (b"ev", "TRUE 63"), (b"  EV  ", "TRUE 64")):
        yield Question("64-items-true", "event_items", EVENT_TABLE, samples.leaf(8, stored), text, answer, timed=False)
    items = licence_items()
    text = or_of(items)
    yield Question("%d-items" % len(items), "licence_items", samples.LICENCE, samples.RECORD, text, "FALSE")
    for item, value in licence_item_forms(1):
        yield Question(item[0], "licence_items", samples.LICENCE, value, text, "TRUE", timed=False)


def questions():
    """All questions."""
    return list(of_parts()) + list(of_items()) + list(of_rights()) + list(of_holders()) + list(of_concessions())


def further_of_bits():
    """Named bits: lists of names, digits, bits beyond the names, a reference that goes inside."""
    rights = rights_table(), licence(parts=parts_with_rights(4))
    for text in ("{print}", "{ perform, print,perform }", "{}", "'010'B", "'E0'H", "{stage}", "{print ,perform}"):
        for reference in ("parts.*.rights", "parts.3.rights", "parts.1.rights.print"):
            yield (*rights, samples.item(reference, "bitStringMatch", text))
    far = named_bits([("far", 63), ("near", 7), ("a-name-of-24-characters1", 0)])
    for digits, text in (("0" * 7 + "1", "{near}"), ("0" * 63 + "1", "{ far }"), ("1" + "0" * 99 + "1", "{a-name-of-24-characters1}"), ("", "''B"),
                         ("11", "'C00'H")):
        yield far, bits(digits), samples.item(None, "bitStringMatch", text)
        yield samples.of(15, 1) + far, samples.tlv(0x31, bits(digits), bits(digits)), samples.item("*", "2.5.13.16", text)
    yield bytes([7]), bits("11"), samples.item(None, "bitStringMatch", "{}")


def further_of_names():
    """Distinguished names and RDNs: escapes, pairs in any order, types and texts close to good ones, wrappers, a reference that goes inside."""
    legg, several = holder("AU", "Adacel", "Steven Legg"), rdn(attribute(COMMON_NAME, "a"), attribute(COMMON_NAME, "B", 0x13), attribute("2.999", ""))
    odd = samples.tlv(0x30, several, rdn(attribute(COMMON_NAME, 'x"', 0x16)))
    names = samples.of(14, 1) + NAME_ROW, samples.tlv(0x30, samples.tlv(0x30), odd, legg)
    texts = ["", "2.5.4.3=steven  LEGG,2.5.4.10=adacel,2.5.4.6=au", "2.5.4.3=\\53teven\\20Legg,2.5.4.10=Adacel,2.5.4.6=AU",
             "2.5.4.3=x\\\"\",2.5.4.3=b+2.999=+2.5.4.3=A", "2.5.4.3=x\\22,2.5.4.3=b+2.999=\\ +2.5.4.3=\\61", "2.5.4.3=x,2.5.4.3=b+2.5.4.3=A",
             "2.5.4.6=AU,2.5.4.10=Adacel,2.5.4.3=Steven Legg", "2.5.4.3=Steven Legg, 2.5.4.10=Adacel,2.5.4.6=AU", "cn=Steven Legg,o=Adacel,c=AU",
             "2.5.4.4294967299=Steven Legg,2.5.4.10=Adacel,2.5.4.6=AU", "2.5.4.3=#53,2.5.4.10=\\Adacel,2.5.4.6=AU"]
    for text in texts:
        yield (*names, samples.item("*", "distinguishedNameMatch", '"%s"' % text))
    places = ([attribute(COMMON_NAME, "a"), attribute(COMMON_NAME, "A", 0x16)], [attribute(COMMON_NAME, "\u00e9"), attribute("1.2.4294967295", "a", 0x13)])
    rdns = samples.of(15, 1) + RDN_ROW, samples.tlv(0x31, *sorted(rdn(*pairs) for pairs in places))
    for text in ("2.5.4.3=a+2.5.4.3=a", "1.2.4294967295=a+2.5.4.3=\\c3\\89", "2.5.4.3=a", "2.5.4.3=\u00c9+1.2.4294967296=a", "2.5.4.3=\\C3+1.2.4294967295=a",
                 "2.5.4.3=a+2.5.4.3=a+2.5.4.3=a+2.5.4.3=a+2.5.4.3=a", "2.5.4.3=a,2.5.4.3=a", ""):
        yield (*rdns, samples.item("*", "rdnMatch", '"%s"' % text))
    members = samples.member("holder", 4, 2, 0), samples.member("place", 5, 2, 1, 1), samples.member("other", 4, 1, 2, 1)
    record = samples.sequence(*members) + NAME_ROW + RDN_ROW
    value = samples.tlv(0x30, samples.tlv(0xA0, legg[2:]), samples.tlv(0xA1, attribute(COMMON_NAME, "Hall")), samples.tlv(0xA2, odd))
    for reference, rule, text in (("holder", "2.5.13.1", texts[1]), ("place", "1.2.36.79672281.1.13.3", "2.5.4.3=HALL"),
                                  ("other", "distinguishedNameMatch", texts[3]), ("holder.-1", "rdnMatch", "2.5.4.3=Steven Legg"),
                                  ("place", "distinguishedNameMatch", "2.5.4.3=HALL")):
        yield record, value, samples.item(reference, rule, '"%s"' % text)
    sixteen = NAME_ROW, samples.tlv(0x30, rdn(attribute("0.0", "")) * 16)
    for count in (15, 16, 17):
        yield (*sixteen, samples.item(None, "distinguishedNameMatch", '"%s"' % ",".join(["0.0="] * count)))


def further_of_members():
    """Members with long names beside others that begin as they do, as alternatives too: whole names, cut ones, names that go on. Sizes of a table."""
    first, stem = CATEGORY[:24], "a-name-of-48-characters-begins-as-others-do-"
    alike = [stem + last for last in ("ab-1", "ab-2", "ac-1")]
    part = samples.sequence(long_member(CATEGORY, 6), samples.member(first, 7, 2, 0, 1), long_member(CATEGORY + "Copies", 7, 2, 1, 2, b"\1"),
                            long_member(alike[0], 8, 1, 2, 1)) + b"\x09\x02"
    reason = samples.choice(*(long_member(name, 12, 2, at) for at, name in enumerate(alike))) + b"\x02"
    record = samples.of(14, 1) + part + reason, samples.tlv(
        0x30, samples.tlv(0x30, samples.tlv(0x13, b"pupil"), samples.tlv(0x80, b"\3")),
        samples.tlv(0x30, samples.tlv(0x13, b"x"), samples.tlv(0x81, b"\2"), samples.tlv(0xA2, samples.tlv(0x82, b"\7"))))
    for reference in (CATEGORY, CATEGORY[:28], CATEGORY[:25], CATEGORY + "1", CATEGORY.lower()):
        yield (*record, samples.item("*." + reference, "caseIgnoreMatch", '"PUPIL"'))
    for reference in (first, first + "e", first[:-1], CATEGORY + "Copies", CATEGORY + "Copie", CATEGORY + "CopiesOfAPart"):
        yield (*record, samples.item("*." + reference, "integerMatch", 3))
        yield (*record, samples.item("2." + reference, "integerOrderingMatch", 3, "FALSE"))
    for reference in [*alike, stem[:-1], alike[0][:47], alike[2] + "1"]:
        yield (*record, samples.item("*.%s.%s" % (alike[0], reference), "integerMatch", 7))
        yield (*record, samples.item("*." + reference, "presentMatch", "NULL"))
    value = samples.tlv(0x30, samples.tlv(2, b"\5"))
    for name in ("m" * 24, "m" * 25, "m" * 48, "m" * 23 + "-m", "m\0" + "m" * 46, "m" * 47 + "-", "m" * 24 + "\0m"):
        yield samples.sequence(long_member(name, 2)) + b"\x02", value, samples.item(name.replace("\0", ""), "integerMatch", 5)
    for size in (4993, LARGEST_TABLE, LARGEST_TABLE + 1):
        yield b"\x02" * size, samples.tlv(2, b"\5"), samples.item(None, "integerMatch", 5)


def further():
    """Questions on the samples' other types, for changing: every rule, lists of lists, wrappers, a CHOICE, a SET OF, strings that aren't plain."""
    stored = ["\u00c9lan", "stra\u00dfe", "a\u00a0\u00adb", "x \u00b4y", "\u0130\u0149", "\u00bc\u017f", "\u0132\u00b5 "]
    strings = samples.of(14, 1) + EVENT_TABLE, samples.tlv(0x30, *(samples.leaf(8, text.encode()) for text in stored))
    texts = ["\u00e9LAN", "STRASSE", "A\u0009 B", "x \u00b4y", "i\u0307\u02bcN", "1\u20444s", "ij\u03bc"]
    example, classes = (samples.EXAMPLE, samples.EXAMPLE_VALUE), (samples.CLASSES, samples.object_class([b"a", b"b"], b"text", b"\xff", [b"\x55\x04\x03"]))
    asked = [(*example, samples.item("part1", "integerMatch", 42)), (*example, samples.item("part2.option", "caseIgnoreMatch", '"YES"')),
             (*example, samples.item("part2.setting", "booleanMatch", "TRUE")), (*example, samples.item("part3.*", "objectIdentifierMatch", "2.5.6.19")),
             (*example, samples.item("part4.miney-mo", "octetStringMatch", "'CAFE'H")), (*example, samples.item("part3.0", "integerOrderingMatch", 3)),
             (*classes, samples.item("name.-1", "caseExactMatch", '"b"')), (*classes, samples.item("description", "caseIgnoreMatch", '"  TEXT "')),
             (*classes, samples.item("information.kind", "presentMatch", "NULL")), (*classes, samples.item("information.mandatories.*", "objectIdentifierMatch", "2.5.4.3")),
             (bytes([7]), samples.leaf(7, b"\x04\xa0"), samples.item(None, "bitStringMatch", "'1010'B")),
             (bytes([6]), samples.leaf(6, b"\x0a\xff"), samples.item(None, "octetStringOrderingMatch", "'0B'H")),
             (bytes([11]), samples.leaf(11, b"20240229120000.5Z"), samples.item(None, "generalizedTimeOrderingMatch", '"20240229120001Z"')),
             (bytes([11]), samples.leaf(11, b"20240229120000Z"), "not:" + samples.item(None, "generalizedTimeMatch", '"20240229120000Z"')),
             (samples.LICENCE, samples.RECORD, "and:{%s,or:{},%s}" % (samples.item("parts.0", "integerMatch", 2), samples.item("x", "integerMatch", 2)))]
    asked += [(*strings, samples.item("*", rule, '"%s"' % text)) for rule in ("caseIgnoreMatch", "caseExactMatch") for text in texts + stored]
    asked += [*further_of_bits(), *further_of_names(), *further_of_members()]
    return [Question("further-%d" % at, "-", *question, samples.asked(*question), timed=False) for at, question in enumerate(asked)]


def asserted_header():
    """What by_hand.c compares with, as C."""
    lines = []
    for name, items in (("LICENCE_ITEMS", licence_items()), ("EVENT_ITEMS", event_items())):
        lines.append("#define %s" % name)
        for test, _, _, asserted in items:
            form = 'TEXT(%s, "%s")' if isinstance(asserted, str) else "NUMBER(%s, %d)"
            lines[-1] += " \\"
            lines.append("    " + form % (test, asserted))
    return "\n".join(lines) + "\n"
