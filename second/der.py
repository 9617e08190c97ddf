"""DER headers and contents, from the section "Stored value" of document 01 and from Q-2 to Q-4 of document 02."""

import calendar
import re

# Kinds of rows, as numbered in the section "Type table", in Q-2, in Q-3 and in Q-4.
BOOLEAN, INTEGER, ENUMERATED, NULL, OBJECT_IDENTIFIER, OCTET_STRING = 1, 2, 3, 4, 5, 6
BIT_STRING, UTF8_STRING, PRINTABLE_STRING, IA5_STRING, GENERALIZED_TIME = 7, 8, 9, 10, 11
SEQUENCE, CHOICE, SEQUENCE_OF, SET_OF, MEMBER = 12, 13, 14, 15, 16
NAMED_BIT_STRING, BIT_NAME = 17, 18
RDN_SEQUENCE, RELATIVE_NAME = 19, 20
LONG_MEMBER = 21

STRING_KINDS = (UTF8_STRING, PRINTABLE_STRING, IA5_STRING)
LIST_KINDS = (SEQUENCE_OF, SET_OF)
BIT_KINDS = (BIT_STRING, NAMED_BIT_STRING)
NAME_KINDS = (RDN_SEQUENCE, RELATIVE_NAME)
MEMBER_KINDS = (MEMBER, LONG_MEMBER)
# The kinds of rows that only follow another, by the kinds that they follow. All other rows are of types.
FOLLOWERS = {SEQUENCE: MEMBER_KINDS, CHOICE: MEMBER_KINDS, NAMED_BIT_STRING: (BIT_NAME,)}

UNIVERSAL, CONTEXT = 0, 2

# X.680: the universal tag number of each kind of type but CHOICE, which has none.
UNIVERSAL_NUMBER = {
    BOOLEAN: 1, INTEGER: 2, ENUMERATED: 10, NULL: 5, OBJECT_IDENTIFIER: 6, OCTET_STRING: 4,
    BIT_STRING: 3, UTF8_STRING: 12, PRINTABLE_STRING: 19, IA5_STRING: 22,
    GENERALIZED_TIME: 24, SEQUENCE: 16, SEQUENCE_OF: 16, SET_OF: 17, NAMED_BIT_STRING: 3,
    RDN_SEQUENCE: 16, RELATIVE_NAME: 17,
}
# The kinds whose values hold values of other rows, and all those that have the constructed bit in their tag.
NESTED_KINDS = (SEQUENCE, SEQUENCE_OF, SET_OF)
CONSTRUCTED_KINDS = NESTED_KINDS + NAME_KINDS

# 0 to 16 RDNs, with 1 to 4 pairs in one.
MOST_RDNS, MOST_PAIRS = 16, 4

PRINTABLE = re.compile(rb"[A-Za-z0-9 '()+,\-./:=?]*")
TIME = re.compile(r"([0-9]{4})([0-9]{2})([0-9]{2})([0-9]{2})([0-9]{2})([0-9]{2})"
                  r"(?:\.([0-9]{0,8}[1-9]))?Z")


class Bad(Exception):
    """The octets are not DER of the expected type."""


def split_tag(octet):
    """A tag octet has two top bits class, the next constructed, five the tag number."""
    return divmod(octet, 64)[0], bool(octet & 32), octet % 32


def tag_octet(cls, constructed, number):
    """The octet that `split_tag` takes apart."""
    return cls * 64 + (32 if constructed else 0) + number


def read_header(octets, place, end):
    """Tag octet, start and end of the contents of what stands at `place`, before `end`.

    Lengths are definite and shortest: one octet below 128, else 81 or 82 (hex) with one or
    two octets; tag 31 is not used.
    """
    if end - place < 2:
        raise Bad("no room for a header")
    tag, first = octets[place], octets[place + 1]
    if tag % 32 == 31:
        raise Bad("tag 31")
    if first < 128:
        size, start = first, place + 2
    elif first in (0x81, 0x82):
        start = place + 2 + (first - 0x80)
        if start > end:
            raise Bad("length cut off")
        size = int.from_bytes(octets[place + 2:start], "big")
        if size < (128 if first == 0x81 else 256):
            raise Bad("length not shortest")
    else:
        raise Bad("length octet not usable")
    if start + size > end:
        raise Bad("contents pass the enclosing length")
    return tag, start, start + size


def read_integer(contents):
    """INTEGER and ENUMERATED: 1..8 octets, shortest."""
    if not 1 <= len(contents) <= 8:
        raise Bad("integer size")
    number = int.from_bytes(contents, "big", signed=True)
    if len(contents) > 1 and -(1 << (8 * len(contents) - 9)) <= number < 1 << (8 * len(contents) - 9):
        raise Bad("integer not shortest")
    return number


def read_boolean(contents):
    """BOOLEAN 00 or FF."""
    if contents == b"\x00":
        return False
    if contents == b"\xff":
        return True
    raise Bad("boolean")


def read_oid(contents):
    """OBJECT IDENTIFIER: 1..32 subidentifiers up to 4294967295, shortest; the arcs as a tuple."""
    groups = re.findall(rb"[\x80-\xff]*[\x00-\x7f]", contents)
    if b"".join(groups) != contents or not 1 <= len(groups) <= 32:
        raise Bad("subidentifiers")
    numbers = []
    for group in groups:
        if group[0] == 0x80:
            raise Bad("subidentifier not shortest")
        number = 0
        for octet in group:
            number = number * 128 + octet % 128
        if number > 4294967295:
            raise Bad("subidentifier too large")
        numbers.append(number)
    first = min(numbers[0] // 40, 2)
    return (first, numbers[0] - 40 * first) + tuple(numbers[1:])


def read_bits(contents):
    """BIT STRING: unused count 0..7, unused bits zero, 0 if no bits; a text of 0 and 1."""
    if not contents or contents[0] > 7 or (contents[0] and len(contents) == 1):
        raise Bad("unused count")
    bits = "".join(format(octet, "08b") for octet in contents[1:])
    used = len(bits) - contents[0]
    if "1" in bits[used:]:
        raise Bad("unused bits")
    return bits[:used]


def read_named_bits(contents):
    """Named BIT STRING: as BIT STRING, with no trailing zero bit."""
    bits = read_bits(contents)
    if bits.endswith("0"):
        raise Bad("trailing zero bit")
    return bits


def read_string(kind, contents):
    """UTF8String by RFC 3629; PrintableString and IA5String by X.680."""
    if kind == PRINTABLE_STRING and not PRINTABLE.fullmatch(contents):
        raise Bad("PrintableString")
    try:
        return contents.decode("utf-8" if kind == UTF8_STRING else "ascii", "strict")
    except UnicodeDecodeError:
        raise Bad("characters") from None


def time_of_text(text):
    """The stored form of a time as something that sorts by date and time, then fraction, or None.

    `YYYYMMDDHHMMSS`, perhaps `.` and 1..9 digits not ending in 0, then `Z`; a real Gregorian
    date, second 00..60.
    """
    match = TIME.fullmatch(text)
    if not match:
        return None
    year, month, day, hour, minute, second = (int(part) for part in match.groups()[:6])
    if not 1 <= month <= 12 or hour > 23 or minute > 59 or second > 60:
        return None
    days = (31, 29 if calendar.isleap(year) else 28, 31, 30, 31, 30,
            31, 31, 30, 31, 30, 31)[month - 1]
    if not 1 <= day <= days:
        return None
    return (year, month, day, hour, minute, second, (match.group(7) or "").ljust(9, "0"))


def read_time(contents):
    """A GeneralizedTime in the stored form."""
    time = time_of_text(contents.decode("latin-1"))
    if time is None:
        raise Bad("time")
    return time


def in_set_order(encodings):
    """Whether the elements of a SET OF are in X.690 order: whole encodings, the shorter as if padded with zero octets; equals may repeat."""
    longest = max(map(len, encodings), default=0)
    padded = [encoding.ljust(longest, b"\0") for encoding in encodings]
    return padded == sorted(padded)


def split(contents):
    """The values that stand one after another in the contents: the tag octet, the contents and the whole encoding of each."""
    found, place = [], 0
    while place < len(contents):
        tag, start, stop = read_header(contents, place, len(contents))
        found.append((tag, contents[start:stop], contents[place:stop]))
        place = stop
    return found


def read_pair(contents):
    """AttributeTypeAndValue: an OBJECT IDENTIFIER and one string of the three kinds; the type's arcs and the value's text."""
    inner = split(contents)
    if len(inner) != 2 or inner[0][0] != UNIVERSAL_NUMBER[OBJECT_IDENTIFIER]:
        raise Bad("attribute type and value")
    for kind in STRING_KINDS:
        if inner[1][0] == UNIVERSAL_NUMBER[kind]:
            return read_oid(inner[0][1]), read_string(kind, inner[1][1])
    raise Bad("attribute value")


def read_rdn(contents):
    """RelativeDistinguishedName: a SET OF 1 to 4 pairs, as a list."""
    pairs = split(contents)
    if not 1 <= len(pairs) <= MOST_PAIRS:
        raise Bad("pairs")
    if any(tag != tag_octet(UNIVERSAL, True, UNIVERSAL_NUMBER[SEQUENCE]) for tag, _, _ in pairs):
        raise Bad("pair")
    if not in_set_order([encoding for _, _, encoding in pairs]):
        raise Bad("SET OF order")
    return [read_pair(inner) for _, inner, _ in pairs]


def read_rdns(contents):
    """RDNSequence: a SEQUENCE OF 0 to 16 RDNs, as a list."""
    rdns = split(contents)
    if len(rdns) > MOST_RDNS:
        raise Bad("RDNs")
    if any(tag != tag_octet(UNIVERSAL, True, UNIVERSAL_NUMBER[RELATIVE_NAME]) for tag, _, _ in rdns):
        raise Bad("RDN")
    return [read_rdn(inner) for _, inner, _ in rdns]


def read_contents(kind, contents):
    """The value that the contents octets of a kind 1..11, 17, 19 or 20 stand for, or Bad."""
    if kind == BOOLEAN:
        return read_boolean(contents)
    if kind in (INTEGER, ENUMERATED):
        return read_integer(contents)
    if kind == NULL:
        if contents:
            raise Bad("NULL not empty")
        return None
    if kind == OBJECT_IDENTIFIER:
        return read_oid(contents)
    if kind == OCTET_STRING:
        return contents
    if kind == BIT_STRING:
        return read_bits(contents)
    if kind == NAMED_BIT_STRING:
        return read_named_bits(contents)
    if kind in STRING_KINDS:
        return read_string(kind, contents)
    if kind == GENERALIZED_TIME:
        return read_time(contents)
    if kind == RDN_SEQUENCE:
        return read_rdns(contents)
    if kind == RELATIVE_NAME:
        return read_rdn(contents)
    raise Bad("no contents of this kind")
