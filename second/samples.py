"""Tables and values that the tests share."""

import der
import draw_values
import engine
from rows import either_member, member, name_field


def sequence(*members):
    """A SEQUENCE row and its members."""
    return bytes([12, len(members)]) + b"".join(members)


def choice(*members):
    """A CHOICE row and its alternatives."""
    return bytes([13, len(members)]) + b"".join(members)


def bit_name(name, number):
    """A row of kind 18: a bit's name, as a text or as octets, and its number."""
    return bytes([der.BIT_NAME]) + name_field(name, 24) + bytes([number])


def named_bits(*pairs, count=None):
    """A row of kind 17 and its names of bits, given as pairs of name and number; `count` is another number of names to state."""
    return bytes([17, len(pairs) if count is None else count]) + b"".join(bit_name(*pair) for pair in pairs)


def bit_contents(bits):
    """Contents octets of a text of 0 and 1."""
    unused = -len(bits) % 8
    filled = bits + "0" * unused
    return bytes([unused]) + bytes(int(filled[at:at + 8], 2) for at in range(0, len(filled), 8))


def oid_contents(text):
    """Contents octets of a dotted OID."""
    first, second, *others = (int(arc) for arc in text.split("."))
    return b"".join(draw_values.subidentifier_octets(number) for number in [40 * first + second, *others])


def pair(text, string, kind=der.UTF8_STRING):
    """An attribute type and value: a dotted OID and a string, as a text or as octets."""
    string = string.encode("utf-8") if isinstance(string, str) else string
    return tlv(0x30, tlv(6, oid_contents(text)), leaf(kind, string))


def rdn(*pairs):
    """A RelativeDistinguishedName of these pairs, put in order."""
    return tlv(0x31, *sorted(pairs))


def name(*rdns):
    """An RDNSequence."""
    return tlv(0x30, *rdns)


def quoted(string):
    """A string as a value text."""
    return '"%s"' % string.replace('"', '""')


def of(kind, row):
    """A SEQUENCE OF (14) or SET OF (15) row."""
    return bytes([kind]) + row.to_bytes(2, "big")


def layered(depth, width, owner, tag, named="m%d".__mod__):
    """`depth` groups of `width` members, each member of a group of the type of the next group; the last type is an INTEGER."""
    table = b""
    for level in range(depth):
        after = (level + 1) * (width + 1)
        table += owner(*[either_member(named(at), after, *tag(level, at)) for at in range(width)])
    return table + b"\2"


def tlv(tag, *contents):
    """One encoding with the shortest length."""
    joined = b"".join(contents)
    return bytes([tag]) + draw_values.length_octets(len(joined)) + joined


def leaf(kind, contents):
    """A value of the table of one row of this kind."""
    return tlv(der.UNIVERSAL_NUMBER[kind], contents)


def item(component, rule, value, defaults=None):
    """An assertion, with no spaces but those needed."""
    return "item:{%s%srule %s,value %s}" % (
        'component "%s",' % component.replace('"', '""') if component is not None else "",
        "useDefaultValues %s," % defaults if defaults else "", rule, value)


def asked(table, value, text, budget=65535):
    """The engine's answer as the line that the program `askvalue` prints."""
    answer = engine.ask(table, value, text.encode("utf-8") if isinstance(text, str) else text, budget)
    return "REFUSED %d" % answer[1] if answer[0] == "refused" else "%s %d" % answer[1:]


def listed(table, value, text, defaults=True, room=1000):
    """The listing's triples or its refusal."""
    answer = engine.listing(table, value, text is not None, (text or "").encode("utf-8"), defaults, room)
    return answer[1]


# The licence record of document 01.
LICENCE = (sequence(member("event", 4), member("seats", 5, presence=2, default=b"\1"),
                    member("parts", 6))
           + bytes([8, 2]) + of(14, 7)
           + sequence(member("name", 10), member("copies", 11, 2, 0, 2, b"\1")) + bytes([9, 2]))
RECORD = bytes.fromhex("30150C026531300F30041302566C3007130256618001" + "03")

# ExampleType of RFC 3687 section 3.1.5, its SET as a SEQUENCE.
EXAMPLE = (sequence(member("part1", 5, 1, 0), member("part2", 6, 1, 1), member("part3", 9, 1, 2),
                    member("part4", 10, 1, 3))
           + bytes([2]) + sequence(member("option", 13), member("setting", 14))
           + of(15, 15) + choice(member("eeny-meeny", 16), member("miney-mo", 17))
           + bytes([9, 1, 5, 7, 6]))
EXAMPLE_VALUE = tlv(0x30, tlv(0xA0, tlv(2, b"\x2a")),
                    tlv(0xA1, tlv(0x30, tlv(0x13, b"yes"), tlv(1, b"\xff"))),
                    tlv(0xA2, tlv(0x31, tlv(6, b"\x55\x06\x12"), tlv(6, b"\x55\x06\x13"))),
                    tlv(0xA3, tlv(4, b"\xca\xfe")))

# ObjectClassDescription of RFC 3687 section 7.
CLASSES = (sequence(member("identifier", 12), member("name", 6, presence=1),
                    member("description", 7, presence=1),
                    member("obsolete", 13, presence=2, default=b"\0"), member("information", 14, 1, 0))
           + of(15, 7) + choice(member("printableString", 10), member("uTF8String", 11))
           + bytes([9, 8, 5, 1])
           + sequence(member("subclassOf", 19, presence=1),
                      member("kind", 20, presence=2, default=b"\1"),
                      member("mandatories", 21, 1, 3, 1), member("optionals", 21, 1, 4, 1))
           + of(15, 22) + bytes([3]) + of(15, 22) + bytes([5]))


def object_class(names=None, description=None, obsolete=None, mandatories=None):
    """A value of CLASSES."""
    parts = [tlv(6, b"\x55\x06\x12")]
    if names is not None:
        parts.append(tlv(0x31, *sorted(tlv(0x13, name) for name in names)))
    if description is not None:
        parts.append(tlv(0x0C, description))
    if obsolete is not None:
        parts.append(tlv(1, obsolete))
    inner = [] if mandatories is None else [tlv(0xA3, tlv(0x31, *(tlv(6, one) for one in mandatories)))]
    return tlv(0x30, *parts, tlv(0xA0, tlv(0x30, *inner)))


# The rights of a licence, from Q-2 of document 02.
RIGHTS = (("print", 0), ("perform", 1), ("record", 2))

# Tables of one row of kind 19 and of kind 20, from Q-3 of document 02, and X.520's types commonName, countryName and organizationName.
NAME, RDN = bytes([der.RDN_SEQUENCE]), bytes([der.RELATIVE_NAME])
CN, C, O = "2.5.4.3", "2.5.4.6", "2.5.4.10"

# The name that Q-4 of document 02 was asked for, of 29 letters, and one of 48, the most that kind 21 takes.
CATEGORY = "educationalConcessionCategory"
LONGEST_NAME = "abcdefghijklmnopqrstuvwxyzABCDEFGHIJKLMNOPQRSTUV"
