"""Drawn cases close to the edges of Q-2 of document 02: rows of kinds 17 and 18, values of them, and bitStringMatch on them."""

import draw_edges
import draw_forms
from draw_edges import CONTENTS
from draw_text import ODD_BITS
from samples import RIGHTS, bit_contents, bit_name, choice, item, member, named_bits, of, sequence, tlv

NAMES = draw_forms.NAMES + ["print", "prin", "printX", "pRINT", "abcdefghijklmnopqrstuvwy"]
NUMBERS = [0, 1, 2, 3, 7, 8, 31, 32, 61, 62, 63, 64, 65, 127, 128, 255]
# Contents that kind 7 takes or refuses, and trailing zero bits of all kinds.
STORED = CONTENTS[7] + ["0000", "00FE", "0101", "0102", "06C0", "05C0", "05E0", "0620", "0680", "0480", "0410", "000001", "000100", "0001", "070080"]
BITS = ["", "1", "01", "11", "001", "101", "111", "0001", "11000001", "110000011", "1100000000000001", "0" * 62 + "1", "0" * 63 + "1", "0" * 64 + "1"]
LISTS = ["{}", "{ }", "{   }", "{print}", "{ print }", "{perform,print}", "{print,perform}", "{print, perform}", "{  print,   perform  }",
         "{print,print}", "{ print, print, perform, print }", "{record}", "{record,print}", "{print,perform,record}", "{print ,perform}",
         "{print,PERFORM}", "{print,perform,}", "{prin}", "{printX}", "{print,record,other}"]
DIGITS = ["''B", "''H", "'0'B", "'0'H", "'1'B", "'11'B", "'110'B", "'11000000000'B", "'C'H", "'C0'H", "'C00'H", "'C1'H", "'C18'H", "'C001'H", "'c'H",
          "'2'B", "'111'B", "'E'H", "'E00'H", "'01'B", "'4'H", "'8'H", "'00'H", "'11'", "11"]


class BitDrawer(draw_forms.FormDrawer):
    """The topics of FormDrawer and those of this module."""

    def draw(self):
        topics = draw_edges.TOPICS + draw_forms.TOPICS + TOPICS
        return getattr(self, self.deal("topics with bits", topics))()

    def pairs(self, count):
        """Names and numbers that differ."""
        dice = self.dice
        names = dice.sample(["print", "perform", "record", "a", "ab", "aB", "a-b", "z9"], count)
        return [*zip(names, dice.sample([0, 1, 2, 3, 7, 8, 31, 62, 63], count))]

    def held(self, named):
        """A table that has rows of a named BIT STRING at row 2, at row 1, or at row 0."""
        dice = self.dice
        return dice.choice([named, of(dice.choice([14, 15]), 1) + named, sequence(member("a", 2, *dice.choice([(0, 0), (1, 0), (2, 0)]))) + named,
                            choice(member("a", 2, *dice.choice([(0, 0), (1, 0), (2, 0)]))) + named])

    def bit_fields(self):
        """The fields of rows of kinds 17 and 18 around what is allowed."""
        dice = self.dice
        pairs = self.pairs(dice.choice([1, 2, 2, 3]))
        at, other = dice.randrange(len(pairs)), dice.randrange(len(pairs))
        way, count = dice.randrange(6), None
        if way == 0:
            pairs[at] = self.deal("bit names", NAMES), pairs[at][1]
        elif way == 1:
            pairs[at] = pairs[at][0], self.deal("bit numbers", NUMBERS)
        elif way == 2:
            pairs[at] = pairs[other][0], pairs[at][1]
        elif way == 3:
            pairs[at] = pairs[at][0], pairs[other][1]
        elif way == 4:
            count = dice.choice([0, len(pairs), len(pairs) + 1, len(pairs) - 1, 16, 17])
        named = named_bits(*pairs, count=count)
        if dice.random() < 0.1:
            named = named[:dice.randrange(1, len(named))]
        return "table", (self.held(named) + dice.choice([b"", b"", b"\2"]),)

    def bit_places(self):
        """Rows of kind 18 where they may and may not stand, and row numbers that point to them."""
        dice = self.dice
        point, row = dice.randint(1, 6), bit_name("x", 9)
        named = named_bits(*self.pairs(2))
        return "table", (dice.choice([
            row, row + named, named + row, b"\2" + row, of(14, 1) + row + named, of(14, 1) + named + b"\2" + row,
            of(dice.choice([14, 15]), point) + named + b"\2", sequence(member("a", point)) + named + b"\2", choice(member("a", point)) + named + b"\2",
            sequence(member("a", 3), row) + b"\2", sequence(member("a", 3)) + row + b"\2", b"\x0c\1" + row + member("a", 3) + b"\2",
            b"\x0c\2" + member("a", 3) + named[2:28] + named, named[:2] + b"\2" + named[2:], named[:28] + b"\2" + named[28:],
            named[:28] + member("b", 3) + b"\2", named + named, named + b"\2" + named, b"\x11\1" + named, b"\x11\2" + row + named])
            + dice.choice([b"", b"", b"\1"]),)

    def bit_clashes(self):
        """A named BIT STRING among members whose tags may clash, or with a default."""
        dice = self.dice
        owner = dice.choice([sequence, choice])
        one, two = (dice.choice([(0, 0), (0, 0), (1, 1), (2, 1)]) for _ in range(2))
        presence = dice.choice([0, 1, 1]) if owner is sequence else 0
        default = b""
        if owner is sequence and dice.random() < 0.2:
            presence, default = 2, dice.choice([b"\0", b"\7\x80", b"\6\xc0"])
        first, second = dice.sample([3, 5], 2)
        table = owner(member("a", first, *one, presence, default), member("b", second, *two)) + named_bits(("print", 0))
        return "table", (table + dice.choice([b"\7", b"\7", b"\6", b"\3", named_bits(("print", 0)), choice(member("c", 7)) + b"\7"]),)

    def bit_contents(self):
        """Contents octets around what a named BIT STRING allows, and the same in a BIT STRING."""
        dice = self.dice
        contents = bytes.fromhex(self.deal("bit contents", STORED))
        named = named_bits(*RIGHTS) if dice.random() < 0.85 else b"\7"
        tag = dice.choice([3, 3, 3, 3, 3, 3, 0x23, 4])
        way = dice.randrange(5)
        if way < 2:
            return "value", (named, tlv(tag, contents))
        if way == 2:
            several = [tlv(tag, contents), tlv(3, bytes.fromhex(dice.choice(["00", "0780", "06C0"])))]
            kind = dice.choice([14, 15])
            return "value", (of(kind, 1) + named, tlv(0x30 if kind == 14 else 0x31, *dice.sample(several, 2)))
        mode = dice.choice([0, 1, 2])
        inner = tlv(tag | 0x80 if mode == 2 else tag, contents)
        inner = tlv(0xA3, inner) if mode == 1 else inner
        table = sequence(member("a", 2, mode, 3 if mode else 0, dice.choice([0, 1]))) + named
        if way == 3:
            return "value", (table, tlv(0x30, inner))
        return "list", (table, tlv(0x30, inner), True, dice.choice([b"a", b"a", b"a", b"a.print", b"a.0", b"a.*"]), True, dice.choice([3, 3, 2]))

    def bit_texts(self):
        """bitStringMatch on a named BIT STRING or a BIT STRING, the asserted text close to what is stored or to the form."""
        dice = self.dice
        text = self.deal("bit texts", LISTS * 2 + DIGITS + ODD_BITS)
        bits = dice.choice(["11", "11", self.deal("bits stored", BITS)])
        named = named_bits(*dice.sample(RIGHTS, 3)) if dice.random() < 0.85 else b"\7"
        rule = dice.choice(["2.5.13.16"] * 12 + ["bitStringMatch", "presentMatch", "2.5.13.17", "2.5.13.14"])
        table, value, component = named, tlv(3, bit_contents(bits)), None
        if dice.random() < 0.4:
            several = [tlv(3, bit_contents(one)) for one in dice.sample(BITS, 2)] + [value]
            table, value, component = of(14, 1) + named, tlv(0x30, *several), dice.choice(["*", "*", "-1", "2", "0"])
        asked = dice.choice(["%s", "%s", "%s", "not:%s"]) % item(component, rule, text)
        return "ask", (table, value, asked.encode("utf-8"), dice.choice([65535, 65535, 65535, 3, 2, 1, 0]))


TOPICS = ["bit_fields"] * 4 + ["bit_places"] * 3 + ["bit_clashes"] * 2 + ["bit_contents"] * 5 + ["bit_texts"] * 9
