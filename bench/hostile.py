"""Inputs that ask for much work: tables, values and filters at their limits. Every answer expected is the second program's."""

from workloads import LARGEST_TABLE, LONGEST_FILTER, LONGEST_VALUE, NAME_ROW, RDN_ROW, Question, attribute, bits, long_member, named_bits, rdn, samples

choice, item, member, of, sequence, tlv = samples.choice, samples.item, samples.member, samples.of, samples.sequence, samples.tlv

NULL_ROW, INTEGER_ROW, OID_ROW, OCTETS_ROW, BITS_ROW, UTF8_ROW = (bytes([kind]) for kind in (4, 2, 5, 6, 7, 8))
NULL = tlv(5)
PRESENT = item(None, "presentMatch", "NULL")
DEEPEST = 16
SHORT_NAMES, LONG_NAMES = (["m" * letters + last for last in "abcdefghijklmnop"] for letters in (23, 47))
BIT_NAMES = [(name, at) for at, name in enumerate(SHORT_NAMES)]
CN = "2.5.4.3"
MOST_RDNS, MOST_PAIRS = 16, 4


def asks(name, table, value, text=PRESENT):
    """A question with whatever answer it has."""
    return Question(name, "-", table, value, text, samples.asked(table, value, text))


def contents(element):
    """An element as many times as a list of the longest value has room for."""
    return element * ((LONGEST_VALUE - 4) // len(element))


def items(one):
    """The `or` of an item, as many times as a filter has room for."""
    return "or:{%s}" % ",".join([one] * min(64, (LONGEST_FILTER - 3) // (len(one) + 1)))


def longest(before, character, after):
    """Texts and a character between them, as many times as a filter has room for."""
    return before + character * (LONGEST_FILTER - len(before) - len(after)) + after


def chain(levels, group, count, tagged):
    """Groups of members that are all of the next group's type, and a NULL behind the last."""
    rows = (group(*(member("m%d" % at, (level + 1) * (count + 1), 1 if tagged else 0, at if tagged else 0) for at in range(count)))
            for level in range(levels - 1))
    return b"".join(rows) + NULL_ROW


def nested_choices():
    """A list of CHOICEs 15 deep, each the untagged alternative z of the one before."""
    rows = (choice(member("z", 3 * level + 4), member("t", 44, 1, level)) for level in range(14))
    return of(14, 1) + b"".join(rows) + OCTETS_ROW + NULL_ROW


def member_of(name, *fields):
    """A member of the kind that its name takes."""
    return (member if len(name) <= 24 else long_member)(name, *fields)


def most_members(names, last_names):
    """128 rows: 7 SEQUENCEs of 16 names, one of 7, and one without members, which is the type of all members."""
    groups = [names] * 7 + [last_names]
    return b"".join(sequence(*(member_of(name, 127) for name in group)) for group in groups) + sequence()


def tables():
    """Tables, each with a value that is not of its type."""
    yield asks("sequences-16-deep", chain(DEEPEST, sequence, 7, True), NULL)
    yield asks("sequences-17-deep", chain(DEEPEST + 1, sequence, 6, True), NULL)
    yield asks("choices-16-deep", chain(DEEPEST, choice, 7, True), NULL)
    yield asks("choices-alike", chain(DEEPEST, choice, 7, False), NULL)
    yield asks("untagged-choices", nested_choices(), NULL)
    late = (sequence(*(member(name, 119) for name in SHORT_NAMES)) for _ in range(7))
    yield asks("last-letters-differ", b"".join(late) + INTEGER_ROW, NULL)
    yield asks("names-alike", sequence(*[member("m" * 24, 17)] * 16) + NULL_ROW, NULL)
    yield asks("lists-127-deep", b"".join(of(14, row + 1) for row in range(127)) + NULL_ROW, NULL)
    yield asks("128-rows", INTEGER_ROW * 128, NULL)
    yield asks("129-rows", INTEGER_ROW * 129, NULL)
    yield asks("members-alone", member("m", 1) * 128, NULL)
    yield asks("bit-names-differ-late", named_bits(BIT_NAMES) * 7 + named_bits(BIT_NAMES[:8]), NULL)
    yield asks("last-bit-name-twice", named_bits(BIT_NAMES) * 7 + named_bits(BIT_NAMES[:7] + [(BIT_NAMES[6][0], 7)]), NULL)
    yield asks("bit-names-alone", named_bits([("m", 0)])[2:] * 128, NULL)


def tables_of_long_names():
    """Tables of members with long names, and others as large as there may be."""
    yield asks("48th-letters-differ", most_members(LONG_NAMES, LONG_NAMES[:7]), NULL)
    yield asks("last-long-name-twice", most_members(LONG_NAMES, LONG_NAMES[:6] + [LONG_NAMES[5]]), NULL)
    mixed = [name for short in SHORT_NAMES[:8] for name in (short, short + "m" * 24)]
    yield asks("long-names-after-short", most_members(mixed, mixed[:7]), NULL)
    yield asks("long-members-alone", long_member("m" * 48, 1) * 128, NULL)
    yield asks("8064-octets-of-rows", INTEGER_ROW * LARGEST_TABLE, NULL)


def values():
    """Values of lists, SEQUENCEs and CHOICEs."""
    nulls, sets = of(14, 1) + NULL_ROW, of(15, 1) + OCTETS_ROW
    yield asks("2046-elements", nulls, tlv(0x30, contents(NULL)))
    yield asks("last-element-wrong", nulls, tlv(0x30, contents(NULL)[:-2], b"\x05\x01"))
    yield asks("2046-equal-in-set", sets, tlv(0x31, contents(b"\x04\x00")))
    alike = [tlv(4, b"a" * 1013 + bytes([last])) for last in b"abcd"]
    yield asks("alike-in-set", sets, tlv(0x31, *alike))
    yield asks("set-out-of-order", sets, tlv(0x31, alike[0], alike[1], alike[3], alike[2]))
    deep = NULL * 1000
    for _ in range(DEEPEST - 1):
        deep = tlv(0x30, deep)
    yield asks("lists-16-deep", b"".join(of(14, row + 1) for row in range(DEEPEST - 1)) + NULL_ROW, deep)
    optional = sequence(*(member("m%d" % at, 18, 1, at, 1) for at in range(16)))
    yield asks("16-absent-members", of(14, 1) + optional + NULL_ROW, tlv(0x30, contents(b"\x30\x00")))
    yield asks("choices-15-deep", nested_choices(), tlv(0x30, contents(b"\x04\x01a")))


def fills(name, row, element, rule, before, fill, after):
    """An item over a list of one element many times, whose value text is filled up to the longest filter."""
    start, end = 'item:{component "*",rule %s,value %s' % (rule, before), after + "}"
    room = LONGEST_FILTER - len(start) - len(end)
    return asks(name, of(14, 1) + row, tlv(0x30, contents(element)), start + fill * (room // len(fill)) + end)


def names(name, stored, count, asserted):
    """An item over a list of names that begin as the asserted one does."""
    elements = [tlv(12, (stored % at).encode()) for at in range(count)]
    return asks(name, of(14, 1) + UTF8_ROW, tlv(0x30, *elements), item("*", "caseIgnoreMatch", '"%s"' % asserted))


def questions_of_strings():
    """Names, plain and with accents; strings against long texts of spaces, quotes and letters; a long string of spaces against many texts."""
    yield names("plain-names", "Elan no. %03d", 292, "elan NO. 999")
    yield names("accented-names", "\u00c9lan no. %03d", 272, "\u00e9lan NO. 999")
    one, two, quote = tlv(12, b"a"), tlv(12, b"a b"), tlv(12, b'"')
    for name, element, before, after in (("spaces-last", one, '"a', 'b"'), ("spaces-between", two, '"a', 'c"'), ("spaces-first", two, '"', 'c"'),
                                         ("spaces-at-end", two, '"a c', '"'), ("spaces-alone", one, '"', '"')):
        yield fills(name, UTF8_ROW, element, "caseExactMatch", before, " ", after)
    yield fills("spaces-folded", UTF8_ROW, two, "caseIgnoreMatch", '"A', " ", 'C"')
    yield fills("spaces-in-pairs", UTF8_ROW, one, "caseIgnoreMatch", '"A', " b", '"')
    yield fills("doubled-quotes", UTF8_ROW, quote, "caseIgnoreMatch", '"', '""', '"')
    yield fills("long-text", UTF8_ROW, one, "caseExactMatch", '"', "a", '"')
    stored = tlv(12, b"a" + b" " * (LONGEST_VALUE - 6) + b"b")
    yield asks("stored-spaces", UTF8_ROW, stored, items(item(None, "caseIgnoreMatch", '"A c"')))


def questions_of_numbers():
    """Integers and OIDs against long numbers."""
    integer, oid = tlv(2, b"\1"), tlv(6, b"\x2a\3")
    yield fills("long-number", INTEGER_ROW, integer, "integerMatch", "1", "0", "")
    yield fills("long-number-below", INTEGER_ROW, integer, "integerOrderingMatch", "-1", "0", "")
    yield asks("numbers-in-items", of(14, 1) + INTEGER_ROW, tlv(0x30, contents(integer)), items(item("*", "integerMatch", 2)))
    yield fills("long-oid", OID_ROW, oid, "objectIdentifierMatch", "1.2.3", ".1", "")
    yield fills("long-arc", OID_ROW, oid, "objectIdentifierMatch", "1.2.", "3", "")
    arcs = tlv(6, b"\x2a" + b"\1" * 31)
    yield asks("last-arc", of(14, 1) + OID_ROW, tlv(0x30, contents(arcs)), items(item("*", "objectIdentifierMatch", "1.2" + ".1" * 30 + ".2")))


def questions_of_digits():
    """Octets and bits against long texts of digits."""
    octets, bits = tlv(4, b"\xaa"), tlv(3, b"\0\xaa")
    yield fills("long-octets", OCTETS_ROW, octets, "octetStringMatch", "'", "AA", "'H")
    yield fills("long-octets-below", OCTETS_ROW, tlv(4, b"\xab"), "octetStringOrderingMatch", "'", "AA", "'H")
    yield fills("long-bits-in-hex", BITS_ROW, bits, "bitStringMatch", "'", "A", "'H")
    yield fills("long-bits", BITS_ROW, bits, "bitStringMatch", "'", "10", "'B")
    long = b"\0" + b"\xaa" * 990
    yield asks("all-bits", of(14, 1) + BITS_ROW, tlv(0x30, contents(tlv(3, long))), item("*", "bitStringMatch", "'%s'H" % ("AA" * 989 + "AB")))


def questions_of_named_bits():
    """Named bits against long lists of names, long texts of digits and spaces; long stored bits against many lists."""
    two = named_bits([("a", 0), ("b", 1)])
    for name, digits, before, fill, after in (("name-repeated", "", "{", "a,", "a}"), ("name-before-another", "1", "{", "a,", "b}"),
                                              ("name-before-unknown", "1", "{", "a,", "c}"), ("spaces-in-list", "1", "{a,", " ", "b}"),
                                              ("zeros-in-hex", "1", "'8", "0", "1'H"), ("zeros-in-binary", "1", "'1", "0", "1'B"),
                                              ("zeros-at-end", "11", "'8", "0", "'H")):
        yield fills(name, two, bits(digits), "bitStringMatch", before, fill, after)
    last, other = BIT_NAMES[-1][0], BIT_NAMES[-2][0]
    yield fills("long-name-repeated", named_bits(BIT_NAMES), bits("0" * 15 + "1"), "bitStringMatch", "{", last + ",", other + "}")
    yield asks("names-in-items", of(14, 1) + two, tlv(0x30, contents(bits("1"))), items(item("*", "bitStringMatch", "{a,b}")))
    yield asks("stored-zeros", two, tlv(3, b"\0\x80" + b"\0" * (LONGEST_VALUE - 7) + b"\1"), items(item(None, "bitStringMatch", "{a}")))
    long = tlv(3, b"\0" + b"\xaa" * 989 + b"\xab")
    yield asks("all-named-bits", of(14, 1) + two, tlv(0x30, contents(long)), item("*", "bitStringMatch", "'%s'H" % ("AA" * 989 + "A9")))


def questions_of_names():
    """References of long names, and one that no type allows."""
    for question, names in (("names-of-24-letters", SHORT_NAMES), ("names-of-48-letters", LONG_NAMES)):
        table = of(14, 1) + sequence(*(member_of(name, 18, 1, at, 1) for at, name in enumerate(names))) + NULL_ROW
        yield asks(question, table, tlv(0x30, contents(b"\x30\0")), items(item("*." + names[-1], "presentMatch", "NULL")))
    rows = b"".join(sequence(member("m" * 24, 2 * level + 2)) for level in range(DEEPEST - 1)) + NULL_ROW
    value = NULL
    for _ in range(DEEPEST - 1):
        value = tlv(0x30, value)
    yield asks("names-16-deep", rows, value, items("not:" + item(".".join(["m" * 24] * (DEEPEST - 1)), "presentMatch", "NULL")))
    yield asks("long-reference", rows, value, longest('item:{component "m', "m", '",rule presentMatch,value NULL}'))


def questions_of_lists():
    """References that go over many elements, in many items."""
    empty = sequence(*(member("m%d" % at, 18, 1, at, 1) for at in range(16)))
    table, value = of(14, 1) + empty + NULL_ROW, tlv(0x30, contents(b"\x30\x00"))
    yield asks("last-member", table, value, items(item("*.m15", "presentMatch", "NULL")))
    plain = of(14, 1) + sequence(member("p", 3, 0, 0, 1)) + INTEGER_ROW
    yield asks("absent-member", plain, value, items(item("*.p", "integerMatch", 2)))
    yield asks("one-member", plain, tlv(0x30, contents(b"\x30\x03\x02\x01\x01")), items(item("*.p", "integerMatch", 2)))
    nulls = of(14, 1) + NULL_ROW, tlv(0x30, contents(NULL))
    yield asks("count-in-items", *nulls, items(item("0", "integerMatch", 2)))
    yield asks("position-in-items", *nulls, items(item("-2047", "presentMatch", "NULL")))
    for name, position in (("last-in-items", "-1"), ("first-from-end", "-2046"), ("far-position", "2046")):
        yield asks(name, *nulls, items("not:" + item(position, "presentMatch", "NULL")))
    yield asks("along-choices", nested_choices(), tlv(0x30, contents(b"\x04\x01a")), item("*" + ".z" * 14, "octetStringMatch", "'62'H"))


def questions_of_nested_lists():
    """References with `*` in lists of lists."""
    table, one = of(14, 1) + of(14, 2) + INTEGER_ROW, tlv(2, b"\1")
    for name, element, reference in (("all-in-empty", b"", "*.*"), ("all-in-short", one, "*.*"), ("last-in-short", one, "*.-1"),
                                     ("last-in-long", one * 672, "*.-1"), ("counts", b"", "*.0")):
        yield asks(name, table, tlv(0x30, contents(tlv(0x30, element))), items(item(reference, "integerMatch", 2)))
    rows = b"".join(of(14, row + 1) for row in range(DEEPEST - 1)) + INTEGER_ROW
    value = one * 1340
    for _ in range(DEEPEST - 1):
        value = tlv(0x30, value)
    yield asks("all-16-deep", rows, value, items(item(".".join("*" * (DEEPEST - 1)), "integerMatch", 2)))


def pairs(values):
    """An RDN of common names."""
    return rdn(*(attribute(CN, value) for value in values))


def holder(*values):
    """A distinguished name of common names, stored in this order."""
    return tlv(0x30, *(pairs([value]) for value in values))


def text(values, between):
    """The text of common names, in this order, with a comma or a plus between them."""
    return between.join("%s=%s" % (CN, value) for value in values)


def named(name, row, elements, asserted, many=False):
    """One item or as many as fit, over a list of names or RDNs."""
    one = item("*", "distinguishedNameMatch" if row == NAME_ROW else "rdnMatch", '"%s"' % asserted)
    return asks(name, of(14, 1) + row, tlv(0x30, *elements), items(one) if many else one)


def stored_holders():
    """Names of as many RDNs and pairs as there may be; pairs that are long and alike, in order and out of order."""
    shortest = rdn(*[attribute("0.0", "")] * MOST_PAIRS)
    yield asks("64-pairs-each", of(14, 1) + NAME_ROW, tlv(0x30, contents(tlv(0x30, shortest * MOST_RDNS))))
    yield asks("17th-rdn-last", of(14, 1) + NAME_ROW, tlv(0x30, contents(tlv(0x30, shortest * MOST_RDNS)), tlv(0x30, rdn(attribute("0.0", "")) * 17)))
    alike = [attribute(CN, "a" * 1000 + last) for last in "abcd"]
    yield asks("pairs-alike", RDN_ROW, tlv(0x31, *alike))
    yield asks("pairs-out-of-order", RDN_ROW, tlv(0x31, alike[0], alike[1], alike[3], alike[2]))
    yield asks("long-pair-at-end", RDN_ROW, tlv(0x31, *alike[:3], attribute(CN, "a" * 1000 + "*", 0x13)))


def holders_of_pairs():
    """Pairs that are alike but for their last character, so that each is compared with all others before its own; few long and many short ones."""
    for name, letters, count, many in (("long-pairs-crosswise", 490, 2, False), ("pairs-crosswise", 20, 33, True)):
        stem = "a" * letters
        others = [pairs(stem + last for last in "abce")] * (count - 1)
        asserted = text((stem + last for last in "dcba"), "+")
        yield named(name, RDN_ROW, others + [pairs(stem + last for last in ("abce" if many else "abcd"))], asserted, many)
    crossed, last = pairs("abcd"), pairs("abce")
    asserted = ",".join([text("dcba", "+")] * MOST_RDNS)
    yield named("64-pairs-first-differs", NAME_ROW, [tlv(0x30, last, crossed * (MOST_RDNS - 1))] * 6, asserted, True)
    yield named("64-pairs-last-differs", NAME_ROW, [tlv(0x30, crossed * (MOST_RDNS - 1), last)] * 6, asserted, True)
    yield named("pairs-of-one-kind", RDN_ROW, [pairs("aaab")] * 90, text("aaaa", "+"), True)
    yield named("fewer-pairs", RDN_ROW, [pairs("aaa")] * 100, text("aaaa", "+"), True)


def holders_of_rdns():
    """Names of 16 RDNs and names of long values that are the same but for one octet, in the first or in the last RDN."""
    same = "a" * (MOST_RDNS - 1)
    for name, stored in (("first-rdn-differs", "b" + same), ("last-rdn-differs", same + "b")):
        yield named(name, NAME_ROW, [holder(*stored)] * 20, text("a" * MOST_RDNS, ","), True)
    yield named("15-rdns-against-16", NAME_ROW, [holder(*same)] * 22, text("a" * MOST_RDNS, ","), True)
    long = "a" * 640
    for name, stored in (("long-names-first-octet", ("b" + long[1:], long, long)), ("long-names-last-octet", (long, long, long[1:] + "b"))):
        yield named(name, NAME_ROW, [holder(*stored), holder(long, long, long)], text([long] * 3, ","))
    empty, short, seventeen = tlv(0x30), tlv(0x30, rdn(attribute("0.0", ""))), text("a" * (MOST_RDNS + 1), ",")
    for name, element in (("2046-empty-names", empty), ("shortest-names", short)):
        yield fills(name, NAME_ROW, element, "distinguishedNameMatch", '"%s,%s=' % (text(same, ","), CN), "a", '"')
    yield named("shortest-names-in-items", NAME_ROW, [short] * 371, "0.0=a", True)
    yield named("17-rdns-asserted", NAME_ROW, [short] * 371, seventeen, True)
    yield fills("5-pairs-asserted", RDN_ROW, pairs("a"), "rdnMatch", '"%s=' % CN, "a", '+%s"' % text("bcde", "+"))


def holders_of_escapes():
    """Texts that are nothing but escapes, against short values and against those that they stand for, and texts that go wrong at their end."""
    start = '"%s=' % CN
    for name, stored, fill, end in (("hex-escapes", "a", "\\41", '"'), ("plain-escapes", ",", "\\,", '"'), ("escapes-of-two-octets", "\u00e9", "\\C3\\89", '"'),
                                    ("escaped-quotes", "\"", '\\""', '"'), ("escaped-spaces", "a b", "\\ ", 'A\\20C"'),
                                    ("escaped-hyphens", "a", "\\C2\\AD", 'b"'), ("escape-cut-off", "a", "\\41", '\\4"'),
                                    ("octet-missing", "\u00e9", "\\C3\\89", '\\C3"'), ("space-last", "a", "a", ' "'), ("comma-last", "a", "a", ',"')):
        yield fills(name, NAME_ROW, holder(stored), "distinguishedNameMatch", start, fill, end)
    room = LONGEST_FILTER - len(item("*", "distinguishedNameMatch", start + 'B"'))
    for name, letter, escape in (("hex-escapes-of-long", "a", "\\41"), ("escapes-of-long-accents", "\u00e9", "\\C3\\89")):
        count = room // len(escape)
        yield named(name, NAME_ROW, [contents(holder(letter * count + "a"))], "%s=%sB" % (CN, escape * count))
    stored = holder("a" + " " * (LONGEST_VALUE - 30) + "b")
    yield asks("spaces-in-holder", NAME_ROW, stored, items(item(None, "distinguishedNameMatch", '"%s=A c"' % CN)))


def holders_of_types():
    """Attribute types of many arcs, of a long arc, and alike but for their last arc."""
    stored = tlv(0x30, rdn(attribute("1.2.3", "a")))
    yield fills("long-type", NAME_ROW, stored, "distinguishedNameMatch", '"1.2.3', ".1", '=a"')
    yield fills("long-arc-of-type", NAME_ROW, stored, "distinguishedNameMatch", '"1.2.', "3", '=a"')
    yield fills("long-type-wrong-at-end", NAME_ROW, stored, "distinguishedNameMatch", '"1.2.3', ".1", '.01=a"')
    arcs = "1.2" + ".1" * 30
    yield named("last-arc-of-type", RDN_ROW, [rdn(attribute(arcs + ".1", "a"))] * 99, arcs + ".2=a", True)
    crossed = [attribute("%s.%d" % (arcs, last), "") for last in range(1, 5)]
    asserted = "+".join("%s.%d=" % (arcs, last) for last in (5, 3, 2, 1))
    yield named("types-crosswise", RDN_ROW, [rdn(*crossed)] * 25, asserted, True)


def questions_of_holders():
    """All about distinguished names."""
    return [*stored_holders(), *holders_of_pairs(), *holders_of_rdns(), *holders_of_escapes(), *holders_of_types()]


def questions():
    """All of them."""
    return [*tables(), *tables_of_long_names(), *values(), *questions_of_strings(), *questions_of_numbers(), *questions_of_digits(), *questions_of_named_bits(),
            *questions_of_names(), *questions_of_lists(), *questions_of_nested_lists(), *questions_of_holders()]
