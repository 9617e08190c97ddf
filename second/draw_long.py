"""Drawn cases close to the edges of Q-4 of document 02: rows of kind 21, values under them, and references by their names."""

import draw_bits
import draw_edges
import draw_forms
import draw_names
from rows import either_member, long_member
from samples import CATEGORY, LONGEST_NAME, bit_name, choice, item, leaf, member, named_bits, of, sequence, tlv

# What may stand in the name field of a row of kind 21, and what may not.
NAMES = [LONGEST_NAME[:size] for size in (25, 26, 40, 47, 48, 25, 48)] + [CATEGORY, "x" + "-9" * 12, "x" + "-9" * 23 + "A", "content" * 4, "a" * 25]
ODD_NAMES = [LONGEST_NAME[:size] for size in (0, 1, 12, 23, 24, 24)] + [
    LONGEST_NAME[:24] + "-", LONGEST_NAME[:47] + "-", LONGEST_NAME[:24] + "--b", LONGEST_NAME[:23] + "--" + LONGEST_NAME[25:], "-" + CATEGORY, "E" + CATEGORY,
    "9" + CATEGORY, LONGEST_NAME[:24] + "\0" + LONGEST_NAME[25:], LONGEST_NAME[:24] + "\0" * 23 + "a", "\0" + LONGEST_NAME[1:], LONGEST_NAME[:30] + "\0a",
    LONGEST_NAME[:24] + ".", LONGEST_NAME[:24] + "_x", LONGEST_NAME[:24] + " x", LONGEST_NAME[:40] + "\u00e9", "a\0" + CATEGORY]
# Names of one type that may be alike: a name, and others that differ from it in one place or in length.
ALIKE = [LONGEST_NAME, LONGEST_NAME[:47], LONGEST_NAME[:47] + "v", LONGEST_NAME[:40] + "-" + LONGEST_NAME[41:], LONGEST_NAME[:24], LONGEST_NAME[:25],
         LONGEST_NAME[:24] + "Z", LONGEST_NAME[:24] + "Z" + LONGEST_NAME[25:], LONGEST_NAME[:23] + "Z" + LONGEST_NAME[24:],
         "b" + LONGEST_NAME[1:], LONGEST_NAME[:40]]


class LongDrawer(draw_names.NameDrawer):
    """The topics of NameDrawer and those of this module."""

    def draw(self):
        topics = draw_edges.TOPICS + draw_forms.TOPICS + draw_bits.TOPICS + draw_names.TOPICS + TOPICS
        return getattr(self, self.deal("topics with long names", topics))()

    def long_fields(self):
        """The fields of a row of kind 21 around what is allowed."""
        dice = self.dice
        owner = dice.choice([sequence, sequence, sequence, choice])
        name = self.deal("long names", NAMES + ODD_NAMES) if dice.random() < 0.6 else CATEGORY
        presence = dice.choice([0, 0, 0, 1, 1, 2, 2, 2, 3]) if owner is sequence else dice.choice([0, 0, 0, 1])
        default = b""
        if presence == 2 or dice.random() < 0.08:
            default = bytes.fromhex(self.deal("long defaults", ["00", "FF", "01", "0080", "007F", "FF80", "FF7F", "", "7FFFFFFFFFFFFFFF", "00FFFFFFFFFFFFFF"]))
        mode, number = dice.choice([(0, 0)] * 5 + [(1, 0), (2, 0), (1, 30), (2, 30), (2, 31), (0, 1), (3, 0)])
        row = bytearray(long_member(name, 2, mode, number, presence, default))
        if dice.random() < 0.12:
            row[dice.choice([54, 55, 56, 61, 62])] = dice.choice([0, 1, 8, 9, 97])
        inner = bytes([dice.choice([1, 2, 2, 2, 3] if presence == 2 else [1, 2, 4, 6, 9])])
        if dice.random() < 0.15:
            inner = choice(dice.choice([member("c", 4), long_member(CATEGORY, 4)])) + b"\1"
        table = owner(bytes(row)) + inner
        if dice.random() < 0.1:
            at = dice.randrange(len(table))
            table = dice.choice([table[:at], table[:at] + table[at + 1:], table[:at] + table[at:at + 1] + table[at:]])
        return "table", (table,)

    def long_alike(self):
        """Names of one type that may be equal, begin alike, or be of the other kind of row."""
        dice = self.dice
        several = [self.deal("alike", ALIKE) for _ in range(dice.choice([2, 2, 3]))]
        if dice.random() < 0.3:
            several[-1] = several[0]
        rows = [either_member(name, 1 + len(several), 1, at) for at, name in enumerate(several)]
        if dice.random() < 0.15:
            rows[0] = long_member(several[0], 1 + len(several), 1, 0)
        return "table", (dice.choice([sequence, choice])(*rows) + b"\1",)

    def long_places(self):
        """Rows of kind 21 where they may and may not stand, and row numbers that point to them."""
        dice = self.dice
        row, other, point = long_member(CATEGORY, 4), member("a", 4, 1, 1), dice.randint(0, 5)
        rows = dice.sample([row, other], 2)
        stated = dice.choice([1, 2, 2, 3])
        return "table", (dice.choice([
            row, row + b"\2", b"\2" + row, bytes([dice.choice([12, 13]), stated]) + b"".join(rows) + b"\2\2", named_bits(("a", 0)) + row,
            b"\x11\1" + row, b"\x11\2" + bit_name("a", 0) + row, sequence(row) + bit_name("a", 0) + b"\2\2", sequence(row, bit_name("a", 0)) + b"\2\2",
            sequence(rows[0]) + b"\2" + rows[1] + b"\2", sequence(rows[0]) + rows[1] + b"\2\2", b"\x13" + row, of(14, 1) + row + b"\2\2\2",
            of(dice.choice([14, 15]), point) + sequence(*rows) + b"\2", sequence(long_member(CATEGORY, point), member("a", 3)) + b"\2",
            choice(member("a", point, 1, 0), long_member(CATEGORY, 3)) + b"\2", b"\x0c\0" + row + b"\2\2\2", bytes([12, 1, 21]) + member("a", 2)[1:] + b"\2",
            bytes([12, 1, 16]) + row[1:] + b"\2\2\2"]),)

    def long_clashes(self):
        """Members of both kinds whose tags may clash, in a SEQUENCE or a CHOICE."""
        dice = self.dice
        owner, rows = dice.choice([sequence, sequence, choice]), []
        names = dice.sample([CATEGORY, LONGEST_NAME, "a", "b"], 3)
        for at in range(3):
            mode = dice.choice([0, 0, 0, 1, 2])
            presence = dice.choice([0, 1, 1]) if owner is sequence else 0
            rows.append(either_member(names[at], 4 + dice.choice([0, 0, 1, 2]), mode, dice.choice([0, 1]) if mode else 0, presence))
        return "table", (owner(*rows) + dice.choice([b"\1\2", b"\1\1", b"\2\1"]) + choice(either_member(names[0], 8)) + dice.choice([b"\1", b"\2"]),)

    def record(self, before=0):
        """After so many rows a SEQUENCE of a name of 48 characters, its first 24 as a name of kind 16, and two that begin alike; and a value of it."""
        dice = self.dice
        first = LONGEST_NAME[:dice.choice([25, 40, 47])]
        names = [LONGEST_NAME, first, LONGEST_NAME[:24], LONGEST_NAME[:47] + "W"]
        stored, rows = [], []
        for at, name in enumerate(dice.sample(names, 4)):
            presence = dice.choice([0, 0, 1, 2, 2])
            mode = dice.choice([1, 2])
            rows.append(either_member(name, before + 5, mode, at, presence, b"\1" if presence == 2 else b""))
            if presence == 0 or dice.random() < 0.5:
                number = bytes([dice.choice([2, 3, 3, 4])]) if dice.random() < 0.95 else b"\1"
                stored.append(tlv(0x80 + at, number) if mode == 2 else tlv(0xA0 + at, leaf(2, number)))
        return sequence(*rows) + b"\2", tlv(0x30, *stored)

    def long_values(self):
        """Values of members with long names, of which some have one thing wrong."""
        dice = self.dice
        table, value = self.record()
        if dice.random() < 0.5:
            at, more = dice.randrange(len(value)), dice.choice([b"", b"\0", b"\2\1\1", b"\x81"])
            value = value[:at] + more + value[at + dice.choice([0, 1]):]
        return "value", (table, value)

    def long_references(self):
        """References by long names, exact or close to them, listed and asked."""
        dice = self.dice
        listed = dice.random() < 0.25
        table, value = self.record(1 if listed else 0)
        text = LONGEST_NAME[:self.deal("sizes of names", [23, 24, 24, 25, 25, 26, 39, 40, 41, 46, 47, 47, 48, 48, 48, 48])]
        way = dice.randrange(8)
        if way == 0:
            text = LONGEST_NAME[:47] + dice.choice(["W", "w", "v", "V0", "-", "VW", "\u00e9"])
        elif way == 1:
            text = dice.choice([text + ".0", text + ".*", text + ".", text + "." + text, "." + text, text.swapcase(), text + " ", text + "x" * 30])
        if listed:
            table, value, text = of(14, 1) + table, tlv(0x30, value, value), dice.choice(["*.", "*.", "-1.", "1.", ""]) + text
        if dice.random() < 0.4:
            return "list", (table, value, True, text.encode("utf-8"), dice.random() < 0.7, dice.choice([3, 3, 6, 6, 2, 0]))
        rule, asserted = dice.choice([("2.5.13.14", "1"), ("2.5.13.14", "3"), ("2.5.13.15", "3"), ("presentMatch", "NULL")])
        asked = dice.choice(["%s", "%s", "not:%s"]) % item(text, rule, asserted, dice.choice([None, None, "FALSE"]))
        return "ask", (table, value, asked.encode("utf-8"), dice.choice([65535, 65535, 65535, 2, 1, 0]))


TOPICS = ["long_fields"] * 8 + ["long_alike"] * 4 + ["long_places"] * 4 + ["long_clashes"] * 3 + ["long_values"] * 3 + ["long_references"] * 9
