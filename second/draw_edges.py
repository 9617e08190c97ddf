"""Drawn cases close to the edges of single sentences of document 01.

Each method gives an entry and its inputs: a table check, a value check, a filter or a listing.
"""

import der
from draw_values import subidentifier_octets
from draw_types import integer_octets
from samples import choice, member, of, sequence, tlv

CONTENTS = {
    1: ["00", "FF", "", "01", "FE", "FFFF"],
    2: ["00", "7F", "80", "0080", "FF7F", "007F", "FF80", "", "0000", "FFFF", "7FFFFFFFFFFFFFFF",
        "8000000000000000", "00FFFFFFFFFFFFFF", "008000000000000000", "0100"],
    3: ["05", "0080", "007F", "FF80", "", "FF7F", "008000000000000000"],
    4: ["", "00"],
    5: ["", "00", "2A", "7F", "8100", "80", "8000", "8001", "2A80", "2A8001", "55061F", "8FFFFFFF7F",
        "9080808000", "8FFFFFFFFF7F", "01" * 32, "01" * 33],
    6: ["", "00", "FFFF"],
    7: ["", "00", "01", "07", "0780", "0740", "08FF", "0800", "090000", "01FE", "01FF", "00FF",
        "07FF80", "07FF40", "0100"],
    8: ["", "00", "7F", "80", "BF", "C080", "C1BF", "C280", "DFBF", "C2", "C2C2", "E09FBF", "E0A080",
        "ED9FBF", "EDA080", "EDBFBF", "EE8080", "EFBFBF", "EFBBBF", "E28282", "E282", "F08FBFBF",
        "F0908080", "F48FBFBF", "F4908080", "F5808080", "FF", "41C3A942", "F09080"],
    9: ["", "41", "7A", "20", "27", "2829", "2B", "2C2D2E2F", "3A", "3D", "3F", "40", "2A", "26", "22",
        "5F", "3B", "3C", "3E", "21", "00", "80", "5B", "60", "7B"],
    10: ["", "00", "7F", "80", "2240", "C3A9"],
    11: [text.encode().hex() for text in (
        "20240229000000Z", "20230229000000Z", "19000229000000Z", "20000229000000Z", "00000229000000Z",
        "20230228235960Z", "20230228235961Z", "20230228236000Z", "20230228240000Z", "20230430000000Z",
        "20230431000000Z", "20231231000000Z", "20231301000000Z", "20230001000000Z", "20230100000000Z",
        "20230132000000Z", "20230101000000", "20230101000000.Z", "20230101000000.0Z",
        "20230101000000.1Z", "20230101000000.10Z", "20230101000000.01Z", "20230101000060.5Z",
        "20230101000000.123456789Z", "20230101000000.1234567891Z", "20230101000000,5Z",
        "202301010000Z", "20230101000000z", "2023010100000:Z", "20230101000000.5", "20210229000000Z")],
}
TIMES = ["20240229235960Z", "20240301000000Z", "20240229235959.5Z", "20240229235959.49Z",
         "20240229235959.51Z", "20240229235959.05Z", "20240229235959.500000001Z", "20240229235959Z",
         "20250101000000Z", "00000229000000Z"]
ODD_TIMES = ["20230229000000Z", "20240229235959.50Z", "20240229235961Z", "20240229235959.Z",
             "202402292359Z", "20240229235959", ""]
STRINGS = ["a", "A", "ab", "aB", "a b", "a  b", " a", "a ", " ", "  ", "", "a\tb", "\u00e9", "\u00c9",
           "\u212a", "k", "a\u00a0b", "a\u00a0", "Z[", "z{", 'a"b', '"', "a}b", "{", "\u0130", "@`"]
ARCS = [(0, 0), (0, 39), (1, 0), (1, 39), (2, 0), (2, 5), (2, 47), (2, 48), (2, 999, 3), (2, 5, 4, 3),
        (2, 5, 4), (2, 4294967215), (1, 2, 128)]
ODD_OIDS = ["2.05", "1.40", "0.40", "3.0", "2", "2.5.", "cn", "2.4294967216", "2.5.4.4294967299",
            "2..5", "02.5", "2.5.04", ".2.5", "4294967298.5"]
ODD_RULES = ["3.1", "1.40", "0.40", "2", "2.05", "2.5.", ".5", "1a", "-a", "a.b", "a_b", "2..5", "1.39",
             "2.40", "a", "a-", "a--b", "A9", "2.5.13.014", "2.5.13.1", "\u00e9", "0.0"]
VALUE_TEXTS = ["1 ", "3, x", '"}"', "{}", '{"{"}', "'", '"', '""', '""""', "}", "{", "{}}", "\t", "\u00e9",
               "'\"'", '"a', "{a{}b}", "", '"{"', "1\n", '" }', '"" }', "{\"}\"}", "1,", "value 1"]
STEPS = ["a", "b", "c", "*", "*", "*", "0", "0", "0", "1", "2", "-1", "-2", "3", "00", "01", "-0", "-01", "content",
         "(1)", "", "A", "--1", "+1", "a ", "-", "-3", "4294967297", "-18446744073709551615"]
NUMBERS = [0, 1, -1, 127, 128, -128, -129, 255, 2 ** 63 - 1, -2 ** 63, 2 ** 32, 5]


class EdgeDrawer:
    """Draws with the given dice; `TOPICS` names its methods."""

    def __init__(self, dice):
        self.dice, self.decks = dice, {}

    def draw(self):
        """An entry and its inputs from any topic."""
        return getattr(self, self.dice.choice(TOPICS))()

    def deal(self, name, things):
        """One of the things; each is dealt once before any is dealt again."""
        if not self.decks.get(name):
            self.decks[name] = self.dice.sample(things, len(things))
        return self.decks[name].pop()

    def leaf_case(self, kind, contents):
        """A table and value in which a leaf stands in a type of its own, and its reference."""
        dice, way = self.dice, self.dice.randrange(6)
        own = der.UNIVERSAL_NUMBER[kind]
        if way < 2:
            return bytes([kind]), tlv(own, contents), None
        if way == 2:
            owner = dice.choice([14, 15])
            several = [tlv(own, contents)] * dice.choice([1, 1, 2])
            return (of(owner, 1) + bytes([kind]), tlv(0x30 if owner == 14 else 0x31, *several),
                    dice.choice(["1", "*", "-1"]))
        mode, number = dice.choice([(0, 0), (1, 0), (2, 0), (1, 30), (2, 30)])
        inner = tlv(0x80 + number if mode == 2 else own, contents)
        inner = tlv(0xA0 + number, inner) if mode == 1 else inner
        if way == 3:
            return choice(member("a", 2, mode, number)) + bytes([kind]), inner, "a"
        row = member("a", 2, mode, number, dice.choice([0, 1]))
        return sequence(row) + bytes([kind]), tlv(0x30, inner), "a"

    def contents(self):
        """Contents octets around what each kind allows."""
        kind, octets = self.deal("contents", [(kind, octets) for kind in CONTENTS
                                              for octets in CONTENTS[kind]])
        table, value, text = self.leaf_case(kind, bytes.fromhex(octets))
        if self.dice.random() < 0.8:
            return "value", (table, value)
        return "list", (table, value, text is not None, (text or "").encode(), True, 3)

    def lengths(self):
        """Length octets of all forms, and octets after what they enclose."""
        dice = self.dice
        size = dice.choice([0, 1, 3, 3, 5, 127, 128] if dice.random() < 0.3 else [0, 1, 3, 3, 5])
        form = dice.choice([bytes([size])] * 4 + [
            b"\x81" + bytes([size]), b"\x82\0" + bytes([size]), b"\x80", bytes([size + 1]),
            bytes([max(0, size - 1)]), b"\x83\0\0" + bytes([size]), b"\xff", b"\x81", b"\x82",
            b"\x82\1", b""])
        value = bytes([dice.choice([4, 4, 4, 4, 0x24, 0x1F, 0x44, 0x84, 5])]) + form + b"\1" * size
        table, way = b"\6", dice.randrange(4)
        if way == 0:
            table, value = of(14, 1) + table, tlv(0x30, *[b"\4\0"] * dice.choice([0, 1]), value)
        elif way < 3:
            mode = dice.choice([0, 1])
            table = sequence(member("a", 2, mode, 0)) + table
            value = tlv(0xA0, value, dice.choice([b"", b"", b"\5\0"])) if mode else value
            value = tlv(0x30, value, dice.choice([b"", b"", b"", b"\5\0"]))
        return "value", (table, value + dice.choice([b"", b"", b"\0"]))

    def set_order(self):
        """Elements of a SET OF or SEQUENCE OF in any order, equals among them."""
        dice = self.dice
        kind = dice.choice([2, 6, 6, 6])
        pool = [b"", b"\0", b"\0\0", b"\1", b"\xff", b"\1\0"] if kind == 6 else [b"\0", b"\1", b"\x80", b"\0\x80"]
        several = [tlv(der.UNIVERSAL_NUMBER[kind], dice.choice(pool)) for _ in range(dice.choice([2, 2, 3]))]
        if dice.random() < 0.3:
            several.sort()
        owner = dice.choice([14, 15, 15, 15])
        return "value", (of(owner, 1) + bytes([kind]), tlv(0x30 if owner == 14 else 0x31, *several))

    def stored_default(self):
        """A member with a default, stored with that or another value, or left out."""
        dice = self.dice
        kind, mode = dice.choice([1, 2, 2, 3]), dice.choice([0, 1, 2])
        pool = [b"\0", b"\xff"] if kind == 1 else [b"\0", b"\1", b"\xff", b"\0\x80"]
        default = dice.choice(pool)
        inner = tlv(0x83 if mode == 2 else der.UNIVERSAL_NUMBER[kind], dice.choice(pool + [default]))
        inner = tlv(0xA3, inner) if mode == 1 else inner
        value = tlv(0x30, inner if dice.random() < 0.7 else b"")
        table = sequence(member("a", 2, mode, 3 if mode else 0, 2, default)) + bytes([kind])
        if dice.random() < 0.6:
            return "value", (table, value)
        return "list", (table, value, True, b"a", dice.random() < 0.5, 3)

    def rule_on_leaf(self):
        """One rule on one value, the asserted text close to it."""
        dice = self.dice
        kind = self.deal("kinds", [1, 2, 2, 2, 2, 3, 5, 5, 5, 6, 6, 6, 7, 7, 8, 8, 8, 8, 9, 10, 10,
                                   11, 11, 11])
        contents, texts, names = self.stored_and_texts(kind)
        if dice.random() < 0.04:
            names = ["presentMatch", "2.5.13.14", "2.5.13.5", "2.5.13.16", "2.5.13.17", "2.5.13.13"]
        table, value, text = self.leaf_case(kind, contents)
        component = 'component "%s",' % text if text is not None else ""
        shown = texts[self.deal("texts %d" % kind, range(len(texts)))]
        asked = "item:{%srule %s,value %s}" % (component, self.deal(names[0], names), shown)
        return "ask", (table, value, asked.encode(), dice.choice([65535, 65535, 65535, 65535, 1, 0]))

    def stored_and_texts(self, kind):
        """Contents of a kind, value texts for them, and the rules on that kind."""
        dice = self.dice
        if kind == der.BOOLEAN:
            return dice.choice([b"\0", b"\xff"]), ["TRUE", "FALSE", "true", "1"], ["2.5.13.13"]
        if kind in (der.INTEGER, der.ENUMERATED):
            number = self.deal("numbers", NUMBERS)
            near = [number, number, number + 1, number - 1, number + 2 ** 64, number - 2 ** 32, -number]
            texts = [str(one) for one in near] + ["-0", "00", "+%d" % abs(number), "0%d" % abs(number)]
            texts += ["%d 1" % number, "-0" if number == 0 else "-0%d" % abs(number)]
            return integer_octets(number), texts, ["2.5.13.14", "2.5.13.15", "INTEGERmatch"]
        if kind == der.OBJECT_IDENTIFIER:
            arcs = self.deal("arcs", ARCS)
            texts = [".".join(map(str, one)) for one in (arcs, arcs, arcs, dice.choice(ARCS), arcs + (0,))]
            octets = [subidentifier_octets(one) for one in (40 * arcs[0] + arcs[1],) + arcs[2:]]
            return b"".join(octets), texts + [self.deal("oids", ODD_OIDS) for _ in range(3)], ["2.5.13.0"]
        if kind == der.OCTET_STRING:
            octets = bytes(dice.choice([0, 1, 254, 255]) for _ in range(dice.randint(0, 3)))
            near = [octets, octets, octets + b"\0", octets[:-1], octets[:-1] + b"\xff", b"\1" + octets]
            texts = ["'%s'H" % one.hex().upper() for one in near]
            texts += ["'%s'H" % octets.hex(), "'%s0'H" % octets.hex().upper(), "''B", "'0'H", "'00'"]
            return octets, texts, ["2.5.13.17", "2.5.13.18"]
        if kind == der.BIT_STRING:
            bits = self.deal("bits", ["", "1", "0", "1010", "10100000", "101", "1111000", "11110000", "111100001111"])
            texts = ["'%s'B" % one for one in (bits, bits, bits + "0", bits[:-1])] + ["'a'H", "'A'H", "'12'B"]
            texts += ["'%s'H" % one for one in ("A", "A0", "F0", "", "F0F", "F0F0", "a0")] + ["''B"]
            unused = -len(bits) % 8
            filled = bits + "0" * unused
            octets = bytes(int(filled[at:at + 8], 2) for at in range(0, len(filled), 8))
            return bytes([unused]) + octets, texts, ["2.5.13.16"]
        if kind == der.GENERALIZED_TIME:
            pairs = [(one, two) for one in TIMES for two in TIMES + ODD_TIMES + [one] * 6]
            time, other = self.deal("times", pairs)
            texts = ['"%s"' % other] * 9 + [time]
            return time.encode(), texts, ["2.5.13.27", "2.5.13.28", "2.5.13.28"]
        string = self.deal("strings", STRINGS)
        allowed = {8: string, 9: "".join(one for one in string if one in "aAbkZz "),
                   10: "".join(one for one in string if one < "\x80")}[kind]
        near = [string, allowed, allowed.swapcase(), " %s  " % allowed, allowed.replace(" ", "   "),
                allowed.replace(" ", ""), dice.choice(STRINGS), allowed.lower(), allowed.strip(),
                " ".join(allowed.split()), allowed.replace("\u212a", "k").replace("\u00c9", "\u00e9")]
        texts = ['"%s"' % one.replace('"', '""') for one in near] + [string, '"%s' % allowed, "'a'"]
        return allowed.encode(), texts, ["2.5.13.2", "2.5.13.5"]

    def choice_of_strings(self):
        """A string rule on a CHOICE, which may or may not be one of strings."""
        dice = self.dice
        kinds = dice.sample([8, 9, 10, 8, 9, 10, 6], dice.choice([1, 2, 2]))
        modes = [dice.choice([0, 0, 0, 0, 1, 2]) for _ in kinds]
        rows = [member("mn"[at], 1 + len(kinds) + at, mode, at if mode else 0)
                for at, mode in enumerate(modes)]
        at = dice.randrange(len(kinds))
        inner = tlv(0x80 + at if modes[at] == 2 else der.UNIVERSAL_NUMBER[kinds[at]], dice.choice([b"Ab", b"a b", b""]))
        inner = tlv(0xA0 + at, inner) if modes[at] == 1 else inner
        text = dice.choice(['"Ab"', '"aB"', '"a  b"', '" "', '""'])
        table, component = choice(*rows) + bytes(kinds), dice.choice(["", "", "", "m", "n"])
        if dice.random() < 0.3:
            rows = [member("mn"[at], 2 + len(kinds) + at, mode, at if mode else 0)
                    for at, mode in enumerate(modes)]
            table, inner = of(14, 1) + choice(*rows) + bytes(kinds), tlv(0x30, inner, inner)
            component = "*" + ("." + component if component else "")
        component = 'component "%s",' % component if component else ""
        rule = dice.choice(["2.5.13.2", "2.5.13.5", "1.2.36.79672281.1.13.5"])
        asked = "item:{%srule %s,value %s}" % (component, rule, text)
        return "ask", (table, inner, asked.encode(), 65535)


TOPICS = (["contents"] * 8 + ["lengths"] * 3 + ["rule_on_leaf"] * 7 + ["choice_of_strings"] * 2
          + ["set_order"] * 2 + ["stored_default"])
