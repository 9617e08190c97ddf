"""Drawn values, encoded by an encoder of their own, with one thing got wrong on request."""

import der
from draw_types import INTEGERS, integer_octets

SUBIDENTIFIERS = [0, 1, 5, 39, 40, 79, 80, 127, 128, 16383, 16384, 4294967295]
WORDS = {der.UTF8_STRING: ["a", "B", " ", "e", "\u00e9", "\u20ac", "{", '"', "}", "\U0001f600", "\0"],
         der.PRINTABLE_STRING: ["a", "B", " ", "z", "Z", "'", "?", "-", "0"],
         der.IA5_STRING: ["a", "A", " ", '"', "}", "@", "\x7f", "_"]}
TIMES = ["20240229120000Z", "20231231235960Z", "00000101000000Z", "20000229000000.5Z",
         "20240301000000.000000001Z", "99991231235959.25Z", "19000228235959Z"]
TYPES = ["2.5.4.3", "2.5.4.3", "2.5.4.3", "2.5.4.6", "2.5.4.10", "2.5", "0.0", "1.39.1", "2.40", "2.999", "2.5.4.4294967295"]
NAME_WORDS = ["", "a", "A", "b", "a b", " a", "a  B", "+", ",", "a=b", "#a", "\\"]
WIDE_WORDS = ["\u00e9", "\u00c9", "\u20ac", "a\"", "<", "\0", "a#"]
BAD_TIMES = ["20230229120000Z", "19000229000000Z", "20240101240000Z", "20240101006000Z",
             "20240101000061Z", "20240101000000.50Z", "20240101000000.Z", "20240101000000",
             "20241301000000Z", "20240100000000Z", "20240431000000Z", "20240101000000.0123456789Z"]
BAD_CONTENTS = {der.BOOLEAN: ["", "01", "FFFF"], der.INTEGER: ["", "007F", "FF80", "010203040506070809"],
                der.ENUMERATED: ["", "0000", "FFFF"], der.NULL: ["00"],
                der.OBJECT_IDENTIFIER: ["", "8001", "2A80", "9080808000", "2A" * 33],
                der.BIT_STRING: ["", "01", "08FF", "01FF", "0780FF"],
                der.NAMED_BIT_STRING: ["", "01", "08FF", "01FF", "0780FF", "0000", "00FE", "05C0", "0640", "0700", "0100", "00C000"],
                der.UTF8_STRING: ["C080", "EDA080", "F4908080", "80", "E282", "FF"],
                der.PRINTABLE_STRING: ["40", "2A", "80"], der.IA5_STRING: ["80", "C3A9"]}
FAULTS = ["length", "tag", "order", "extra", "default", "missing", "contents"]


def length_octets(size):
    """The shortest length octets."""
    if size < 128:
        return bytes([size])
    octets = size.to_bytes((size.bit_length() + 7) // 8, "big")
    return bytes([0x80 + len(octets)]) + octets


def bits_without_zeros(octets):
    """Contents of a named BIT STRING: these octets without their trailing zero bits."""
    octets = octets.rstrip(b"\0")
    unused = (octets[-1] & -octets[-1]).bit_length() - 1 if octets else 0
    return bytes([unused]) + octets


def subidentifier_octets(number):
    """Base 128, the top bit set on all but the last octet."""
    octets = [number % 128]
    while number >= 128:
        number //= 128
        octets.append(128 + number % 128)
    return bytes(reversed(octets))


class ValueDrawer:
    """Encodes drawn values of a type; `fault` names one thing to get wrong, once."""

    def __init__(self, dice, longest, fault=None):
        self.dice, self.longest, self.fault = dice, longest, fault

    def spoil(self, what):
        """Whether this is the place to get it wrong."""
        if self.fault == what and self.dice.random() < 0.6:
            self.fault = None
            return True
        return False

    def header(self, tag, contents):
        """Tag, length and contents, perhaps with a length that is not the shortest."""
        size = length_octets(len(contents))
        if self.spoil("length"):
            size = self.dice.choice([b"\x81" + bytes([len(contents) % 256]), b"\x80", b"\x84\0\0\0\1",
                                     b"\x82\0" + bytes([len(contents) % 256]),
                                     bytes([(len(contents) + 1) % 128])])
        if self.spoil("tag"):
            tag ^= self.dice.choice([1, 32, 64, 128])
        return bytes([tag]) + size + contents

    def encode(self, drawn, number=None, unlike=None):
        """A value of the type; `number` an implicit tag, `unlike` contents not to be drawn."""
        if drawn.kind == der.CHOICE:
            return self.member(self.dice.choice(drawn.members))
        tag = der.tag_octet(0 if number is None else 2, drawn.kind in der.CONSTRUCTED_KINDS,
                            der.UNIVERSAL_NUMBER[drawn.kind] if number is None else number)
        if drawn.kind == der.SEQUENCE:
            contents = b"".join(self.in_sequence(member) for member in drawn.members)
        elif drawn.kind in der.LIST_KINDS:
            several = [self.encode(drawn.element) for _ in range(self.dice.choice([0, 1, 2, 2, 3, 3, 4]))]
            if drawn.kind == der.SET_OF:
                several.sort(reverse=self.spoil("order"))
            contents = b"".join(several)
        else:
            contents = self.contents(drawn.kind, drawn.names)
            while contents == unlike:
                contents = self.contents(drawn.kind)
        if self.spoil("extra"):
            contents += self.dice.choice([b"\0", b"\5\0"])
        return self.header(tag, contents)

    def in_sequence(self, member):
        """A member of a SEQUENCE, or nothing where it is left out."""
        if member.presence == 2 and self.spoil("default"):
            number = member.number if member.mode == 2 else None
            tag = der.tag_octet(0 if number is None else 2, False,
                                der.UNIVERSAL_NUMBER[member.type.kind] if number is None else number)
            stored = self.header(tag, member.default)
            return self.header(0xA0 + member.number, stored) if member.mode == 1 else stored
        if member.presence and self.dice.random() < 0.45 or self.spoil("missing"):
            return b""
        return self.member(member)

    def member(self, member):
        """A member that is stored, with its tag."""
        unlike = member.default if member.presence == 2 else None
        if member.mode == 1:
            return self.header(0xA0 + member.number, self.encode(member.type, None, unlike))
        return self.encode(member.type, member.number if member.mode == 2 else None, unlike)

    def contents(self, kind, names=()):
        """Contents octets of a kind 1..11, 17, 19 or 20; `names` are the names and numbers of bits."""
        dice = self.dice
        if kind in BAD_CONTENTS and self.spoil("contents"):
            return bytes.fromhex(dice.choice(BAD_CONTENTS[kind]))
        if kind == der.BOOLEAN:
            return dice.choice([b"\0", b"\xff"])
        if kind in (der.INTEGER, der.ENUMERATED):
            return integer_octets(dice.choice(INTEGERS[:6] if dice.random() < 0.6 else INTEGERS))
        if kind == der.NULL:
            return b""
        if kind == der.OBJECT_IDENTIFIER:
            return b"".join(subidentifier_octets(dice.choice(SUBIDENTIFIERS))
                            for _ in range(dice.randint(1, 3)))
        if kind == der.OCTET_STRING:
            return bytes(dice.choice([0, 1, 2, 255]) for _ in range(dice.randint(0, self.longest)))
        if kind == der.BIT_STRING:
            octets = [dice.randrange(256) for _ in range(dice.randint(0, min(3, self.longest)))]
            unused = dice.randint(0, 7) if octets else 0
            return bytes([unused] + octets[:-1] + [octet >> unused << unused for octet in octets[-1:]])
        if kind == der.NAMED_BIT_STRING:
            ones = sum(1 << 63 - number for _, number in names if dice.random() < 0.6)
            if dice.random() < 0.25:
                ones ^= 1 << dice.randrange(64)
            return bits_without_zeros(ones.to_bytes(8, "big") + (b"\1" if dice.random() < 0.04 else b""))
        if kind == der.RDN_SEQUENCE:
            count = dice.choice([16, 17]) if self.longest > 50 and dice.random() < 0.2 else dice.choice([0, 1, 1, 2, 2, 3])
            return b"".join(self.header(0x31, self.rdn()) for _ in range(17 if self.spoil("contents") else count))
        if kind == der.RELATIVE_NAME:
            return self.rdn()
        if kind == der.GENERALIZED_TIME:
            return dice.choice(BAD_TIMES if self.spoil("contents") else TIMES).encode()
        return "".join(dice.choice(WORDS[kind])
                       for _ in range(dice.randint(0, self.longest))).encode("utf-8")

    def rdn(self):
        """Contents octets of an RDN; its pairs are in order."""
        dice = self.dice
        pairs = [self.pair() for _ in range(dice.choice([0, 5]) if self.spoil("missing") else dice.choice([1, 1, 1, 1, 2, 2, 3, 4]))]
        if dice.random() < 0.1:
            pairs[1:2] = pairs[:1]
        return b"".join(sorted(pairs, reverse=self.spoil("order")))

    def pair(self):
        """An attribute type and value."""
        dice, kind = self.dice, self.dice.choice(der.STRING_KINDS)
        first, second, *others = (int(arc) for arc in dice.choice(TYPES).split("."))
        oid = b"".join(subidentifier_octets(number) for number in [40 * first + second, *others])
        oid = bytes.fromhex(dice.choice(BAD_CONTENTS[der.OBJECT_IDENTIFIER])) if self.spoil("contents") else oid
        string = dice.choice(NAME_WORDS + WIDE_WORDS if kind == der.UTF8_STRING else NAME_WORDS)
        string = string if kind != der.PRINTABLE_STRING else "".join(one for one in string if one not in "#\\")
        value = bytes.fromhex(dice.choice(BAD_CONTENTS[kind])) if self.spoil("contents") else string.encode("utf-8")
        inner = [self.header(6, oid), self.header(der.UNIVERSAL_NUMBER[kind], value)]
        if self.spoil("missing"):
            del inner[dice.randrange(2)]
        return self.header(0x30, b"".join(inner) + (dice.choice([b"\0", b"\5\0", b"\x0c\0"]) if self.spoil("extra") else b""))


def break_octets(dice, octets):
    """One octet changed, removed or inserted, or the end cut off."""
    octets = bytearray(octets)
    way = dice.randrange(4)
    if way == 0 or not octets:
        octets.insert(dice.randint(0, len(octets)), dice.choice([0, 1, 32, 128, 255, 0x7F]))
    elif way == 1:
        octets[dice.randrange(len(octets))] ^= dice.choice([1, 2, 32, 128, 255])
    elif way == 2:
        del octets[dice.randrange(len(octets))]
    else:
        del octets[dice.randrange(len(octets)):]
    return bytes(octets)
