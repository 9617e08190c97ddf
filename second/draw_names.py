"""Drawn cases close to the edges of Q-3 of document 02: rows of kinds 19 and 20, values of them, distinguishedNameMatch and rdnMatch on them."""

import draw_bits
import draw_edges
import draw_forms
import name_text
from draw_edges import CONTENTS
from dotted import arcs_of
from samples import CN, C, NAME, O, RDN, choice, item, leaf, member, name, named_bits, of, oid_contents, pair, quoted, rdn, sequence, tlv

TYPES = [CN, CN, CN, C, O, "2.5", "0.0", "1.39", "2.40", "2.999.1", "2.5.4.4294967295", "2.4294967215", "2.5" + ".4" * 31]
STRINGS = ["", "a", "A", "b", "ab", "a b", "a  b", " a", "a ", " ", "#", "#a", "a#", "=", "a=b", "+", "a,b", "\\", "\"", "x\"", "<a>", "a;b", "\u00e9",
           "\u00c9", "e\u0301", "\u20ac", "\U0001f600", "\0", "a\0b", "\t", "a\tb", "\u00ad", "a\u00a0b", "\u00df", "ss", "\u0131", "\u017f", "\u00b4"]
# Tags of strings that are no attribute values here, and of other things.
OTHER_TAGS = [0x04, 0x05, 0x06, 0x12, 0x14, 0x1A, 0x1B, 0x1C, 0x1E, 0x2C, 0x30, 0x33, 0x36, 0x80, 0x8C, 0xAC]
# RFC 4514 strings about a commonName of `a`, after its type: those that conform, and near misses.
ENDS = ["=a", "=A", "=\\61", "=\\41", "=\\ a", "=a\\ ", "=\\20a", "=\\  a", "=a\\00", "=\u00ada", "=", "=b", "=a+2.5.4.3=a", "=a,2.5.4.3=a", "=a+2.5.4.3=b",
        "= a", "=a ", "=#61", "=#a", "=\\#a", "=a#", "=a\\", "=\\a", "=\\6", "=\\6g", "=a;", "=a+", "=a,", "==a", "=\\=a", "", " =a", ".0=a", ".=a", "=\"a\""]
LONG_TYPES = ["2.5.4.4294967299", "2.5.4.18446744073709551619", "2.4294967216", "2.5" + ".4" * 40, "2.5.4.03", "1.40", "0.40", "3.1", "2", "02.5", "2.5.",
              "cn", "OID.2.5.4.3", "2.5.4.3 ", "1.39", "0.39", "2.5.4"]


class NameDrawer(draw_bits.BitDrawer):
    """The topics of BitDrawer and those of this module."""

    def draw(self):
        topics = draw_edges.TOPICS + draw_forms.TOPICS + draw_bits.TOPICS + TOPICS
        return getattr(self, self.deal("topics with names", topics))()

    def pairs_of(self, count):
        """So many pairs, each an attribute type and a string; some are alike."""
        dice, found = self.dice, []
        for _ in range(count):
            again = found and dice.random() < 0.25
            found.append(dice.choice(found) if again else (self.deal("types", TYPES), self.deal("strings", STRINGS)))
        return found

    def rdns_of(self):
        """The pairs of each of a few RDNs."""
        dice = self.dice
        return [self.pairs_of(dice.choice([1, 1, 1, 1, 2, 2, 3, 4])) for _ in range(dice.choice([0, 1, 1, 2, 2, 3]))]

    def encoded(self, text, string):
        """A pair, its string of one of the kinds that can hold it."""
        kinds = [8] + [10] * string.isascii() + [9] * (string.isalpha() and string.isascii())
        return pair(text, string, self.dice.choice(kinds))

    def encoded_rdn(self, pairs):
        """An RDN of these."""
        return rdn(*(self.encoded(*one) for one in pairs))

    def name_rows(self):
        """Rows of kinds 19 and 20 as members, alternatives and elements, beside rows whose tags may clash, with defaults and row numbers of all sorts."""
        dice = self.dice
        row = dice.choice([NAME, RDN])
        way = dice.randrange(6)
        if way == 0:
            point = dice.randint(0, 4)
            return "table", (dice.choice([of(dice.choice([14, 15]), point) + row + b"\2", sequence(member("a", point)) + row + b"\2",
                                          choice(member("a", point, 1, 0)) + row + b"\2", row + of(14, point) + row]),)
        if way == 1:
            default = dice.choice([b"\0", b"\1", b"\x30\0", b"\x31\0", b"\xff"])
            return "table", (sequence(member("a", 3, *dice.choice([(0, 0), (2, 1)]), 2, default), member("b", 4)) + dice.choice([row, row, b"\2"]) + row,)
        if way == 2:
            return "table", (dice.choice([b"\x0c\1" + row + member("a", 3) + b"\2", b"\x11\1" + row, row + member("a", 2) + b"\2", row + b"\x15", row + b"\0",
                                          row, row + dice.choice([NAME, RDN]), named_bits(("a", 0)) + row, row + named_bits(("a", 0)), b"\x0d\0" + row,
                                          row * 2]),)
        owner = dice.choice([sequence, choice])
        one, two = (dice.choice([(0, 0), (0, 0), (0, 0), (1, 1), (2, 1)]) for _ in range(2))
        presence = dice.choice([0, 1, 1]) if owner is sequence else 0
        first, second = dice.choice([(3, 4), (4, 3), (3, 3)])
        other = dice.choice([NAME, RDN, b"\x0c\0", of(14, 5) + b"\2", of(15, 5) + b"\2", choice(member("c", 6)) + NAME, choice(member("c", 6)) + RDN, b"\2"])
        return "table", (owner(member("a", first, *one, presence), member("b", second, *two)) + row + other,)

    def name_values(self):
        """Stored names, of which most have one thing wrong."""
        dice = self.dice
        way = dice.randrange(9)
        table, rdns = NAME, [self.encoded_rdn(pairs) for pairs in self.rdns_of()]
        if way == 0:
            count = self.deal("RDNs", [0, 1, 15, 16, 16, 17, 17, 18])
            rdns = [rdn(pair("2.5", "a"))] * count
        elif way == 1:
            count = self.deal("pairs", [0, 1, 3, 4, 4, 5, 5, 6])
            rdns.append(rdn(*[pair("2.5", dice.choice("ab")) for _ in range(count)]))
        elif way == 2:
            several = [self.encoded(*one) for one in self.pairs_of(dice.choice([2, 2, 3]))]
            rdns.append(tlv(0x31, *several))
        elif way == 3:
            string = tlv(self.deal("tags", OTHER_TAGS), dice.choice([b"", b"a"]))
            rdns.append(tlv(0x31, tlv(0x30, tlv(6, oid_contents(CN)), string)))
        elif way == 4:
            kind, contents = self.deal("strings stored", [(kind, contents) for kind in (8, 9, 10) for contents in CONTENTS[kind]])
            rdns.append(rdn(pair(CN, bytes.fromhex(contents), kind)))
        elif way == 5:
            contents = bytes.fromhex(self.deal("types stored", CONTENTS[5]))
            rdns.append(tlv(0x31, tlv(0x30, tlv(6, contents), leaf(8, b"a"))))
        value = name(*rdns)
        if way == 6 and rdns:
            at, more = dice.randrange(len(value)), dice.choice([b"\0", b"\5\0", b"", b"\x81", bytes([value[dice.randrange(len(value))]])])
            value = value[:at] + more + value[at + dice.choice([0, 1]):]
        elif way == 7:
            one = self.encoded(*self.pairs_of(1)[0])
            value = dice.choice([tlv(0x30, one), tlv(0x30, tlv(0x30, one)), tlv(0x31, tlv(0x31, one)), tlv(0x31, tlv(0x30, tlv(0x31, one))), b"\x31\0",
                                 b"\x10\0", tlv(0x30, tlv(0x31, one[2:])), tlv(0x30, tlv(0x11, one)), tlv(0x30, tlv(0x31, b"\x10" + one[1:])),
                                 tlv(0x30, one[2:])])
        if dice.random() < 0.3 and rdns:
            table, value = RDN, dice.choice(rdns)
        return self.placed(table, value)

    def placed(self, table, value):
        """The value check, or a listing, of a value in a type of its own."""
        dice = self.dice
        way, number = dice.randrange(6), dice.choice([0, 1, 30])
        if way == 0:
            return "value", (of(14, 1) + table, tlv(0x30, *[value] * dice.choice([1, 1, 2])))
        if way == 1:
            return "value", (choice(member("a", 2, 2, number)) + table, bytes([dice.choice([0xA0, 0xA0, 0xA0, 0x80]) + number]) + value[1:])
        if way == 2:
            reference = dice.choice([b"a", b"a", b"a.1", b"a.0", b"a.*"])
            return "list", (sequence(member("a", 2, 1, number)) + table, tlv(0x30, tlv(0xA0 + number, value)), True, reference, True, dice.choice([3, 2]))
        return "value", (table, value)

    def name_texts(self):
        """distinguishedNameMatch or rdnMatch, the asserted text close to what is stored or to the form."""
        dice = self.dice
        rdns = self.rdns_of() or [[(CN, "a")]]
        way = dice.randrange(9)
        if way == 0:
            rdns = [[(CN, "a")]]
            text = CN + self.deal("ends", ENDS)
        elif way == 1:
            rdns = [[(CN, "a")]]
            text = self.deal("long types", LONG_TYPES) + "=a"
        elif way == 2:
            text = self.deal("odd names", name_text.ODD_NAMES)
        else:
            arcs = [[(arcs_of(one), name_text.like(dice, string)) for one, string in pairs] for pairs in rdns]
            text = name_text.name_text(dice, name_text.near_name(dice, arcs) if way < 5 else arcs)
        table, value, rule = NAME, name(*map(self.encoded_rdn, rdns)), "2.5.13.1"
        if len(rdns) == 1 and dice.random() < 0.5:
            table, value, rule = RDN, self.encoded_rdn(rdns[0]), dice.choice(["rdnMatch", "1.2.36.79672281.1.13.3"])
        component = None
        if dice.random() < 0.3:
            table, value, component = of(14, 1) + table, tlv(0x30, value, value), dice.choice(["*", "*", "-1", "1", "0", None, "1.1"])
        rule = dice.choice([rule] * 12 + ["distinguishedNameMatch", "rdnMatch", "presentMatch", "2.5.13.2"])
        text = dice.choice([quoted(text)] * 15 + [text, "'%s'" % text])
        asked = dice.choice(["%s", "%s", "%s", "not:%s"]) % item(component, rule, text)
        return "ask", (table, value, asked.encode("utf-8"), dice.choice([65535, 65535, 65535, 2, 1, 0]))


TOPICS = ["name_rows"] * 5 + ["name_values"] * 8 + ["name_texts"] * 14
