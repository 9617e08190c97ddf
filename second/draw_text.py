"""Drawn references and filter texts for one table and value."""

import der
import name_text
import reference
import rules
import table as types
from draw_values import TIMES, WORDS
from samples import quoted

ODD_REFERENCES = ["", ".", "*", "0", "1", "(1)", "content", "01", "-0", "+1", " a", "a.", ".a", "A",
                  "a..b", "a--b", "a-", "\u00e9", "--1", "-", "00", "a b", "1.", "*.*", "x(2.5)"]
ODD_ENDS = [".", ".x", ".0", ".*", ".1", ".content", ".(1)", ".-0", ".01", " ", "..", ".*.0"]
ODD_VALUES = ["-0", "01", "00", "+1", "1 2", "3, x", "{}", "{ a }", "{\"}\"}", "''", "'0'H", "'a0'H",
              "'2'B", "'1'H", "''H", "''B", "\"\"", "\" \"", "\"\"\"\"", "NULL", "null", "TRUE",
              "true", "FALSE", "1.40", "3.1", "2", "2.05", "1.2.", "cn", "\"20230229120000Z\"",
              "20240229120000Z", "\"20240229120000.10Z\"", "0", "-1", "2.999", "- 1", "1.0",
              "9223372036854775808", "-9223372036854775809", "18446744073709551617"]
ODD_BITS = ["{,}", "{a,}", "{,a}", "{print ,perform}", "{print perform}", "{print;perform}", "{{}}", "{\"print\"}", "{print.perform}",
            "{PRINT}", "{'1'B}", "{0}", "{print}{}", "{}{}", "{print},", "print", "{\tprint}", "{print,\u00a0perform}", "{ print, }", "{-}"]
ODD_RULES = ["unknownMatch", "2.5.13.99", "x", "integerMatch-", "a--b", "1.39", "0.0", "2.999.1",
             "caseIgnoreSubstringsMatch", "integermatchx", "2.5.13.140"]
BAD_RULES = ["3.1", "1.40", "2", "2.05", "2.5.", ".5", "1a", "-a", "a.b", "", "a_b", "2..5"]


def time_text(time):
    """The stored form of a decoded time."""
    fraction = time[6].rstrip("0")
    return "%04d%02d%02d%02d%02d%02d" % time[:6] + ("." + fraction if fraction else "") + "Z"


class TextDrawer:
    """Draws for an admitted table, and for the tree of a value of it or None; now and then a rule of these that may not fit."""

    def __init__(self, dice, table, tree, any_rules=rules.BASE_RULES):
        self.dice, self.table, self.tree, self.any_rules = dice, table, tree, any_rules

    def reference(self):
        """An allowed reference and the type it ends at, often the one of several that names most."""
        several = [self.any_reference() for _ in range(self.dice.choice([1, 1, 3, 6]))]
        if self.tree is None:
            return several[0]
        return max(several, key=lambda one: min(3, len(self.held(one[0], True))))

    def held(self, text, defaults):
        """What the values named by an allowed reference hold."""
        steps = reference.parse(text) if text else []
        return [one.held for one in
                reference.named_in_tree(self.table, self.tree, steps, defaults)]

    def any_reference(self):
        """A reference that the type allows, and the type it ends at; "" names row 0."""
        dice, row, steps = self.dice, 0, []
        while True:
            kind = self.table.rows[row].kind
            members = self.table.members(row) if kind in (der.SEQUENCE, der.CHOICE) else ()
            if (kind not in der.LIST_KINDS and not members) or (steps and dice.random() < 0.15):
                return ".".join(steps), row
            if members:
                member = dice.choice(members)
                if dice.random() < 0.3:
                    member = max(members, key=lambda one: self.liking(row, one))
                steps.append(self.table.rows[member].name)
                row = self.table.rows[member].points
                continue
            steps.append(dice.choice(["*"] * 8 + ["1", "1", "2", "-1", "-2", "3", "0", "0",
                                                  "18446744073709551617"]))
            if steps[-1] == "0":
                return ".".join(steps), reference.COUNT_TYPE
            row = self.table.rows[row].points

    def liking(self, row, member):
        """How well a member lets more than one value be named: lists, defaults, then others."""
        described = self.table.rows[member]
        kind = self.table.rows[described.points].kind
        return (kind in der.LIST_KINDS, described.presence == types.DEFAULT, row)

    def listing_reference(self):
        """The text of a reference for the listing, seldom one that is refused."""
        text = self.reference()[0]
        if self.dice.random() < 0.12:
            text = self.odd_reference(text)
        return text.encode("utf-8")

    def odd_reference(self, text):
        """A reference that is most likely malformed or not allowed."""
        dice = self.dice
        if dice.random() < 0.5:
            return text + dice.choice(ODD_ENDS)
        if text and dice.random() < 0.4:
            return text[:-1] if dice.random() < 0.5 else text[0].upper() + text[1:]
        return dice.choice(ODD_REFERENCES)

    def sp(self):
        """Spaces where none are needed."""
        return self.dice.choice(["", "", "", "", " ", "  "])

    def msp(self):
        """Spaces where one is needed."""
        return self.dice.choice([" ", " ", " ", " ", "  "])

    def rule_text(self, rule):
        """A rule by its OID or by its name, in mixed case."""
        way = self.dice.randrange(4)
        if way < 2:
            return rule.oid if len(rule.oid) < 12 or way else rule.name
        if way == 2:
            return rule.name
        return "".join(self.dice.choice([letter.lower(), letter.upper()]) for letter in rule.name)

    def item(self):
        """One assertion."""
        dice = self.dice
        text, target = self.reference()
        defaults = dice.random() < 0.75
        fitting = [rule for rule in rules.RULES if rules.applies(rule, self.table, target)]
        if len(fitting) > 1 and dice.random() < 0.9:
            fitting = [rule for rule in fitting if rule.kinds != rules.ANY]
        rule = dice.choice(fitting)
        asserted = self.asserted(rule, text, defaults, target)
        shown, odd = self.rule_text(rule), dice.random()
        if odd < 0.04:
            shown = dice.choice(ODD_RULES)
        elif odd < 0.08:
            shown = self.rule_text(dice.choice(self.any_rules))
        elif odd < 0.12:
            asserted = dice.choice(ODD_VALUES)
        elif odd < 0.17:
            text = self.odd_reference(text)
        parts = ["{" + self.sp()]
        if text or odd > 0.98 or 0.12 < odd < 0.17:
            quoted = text.replace('"', '""')
            parts.append("component" + self.msp() + '"' + quoted + '",' + self.sp())
        if not defaults or dice.random() < 0.08:
            parts.append("useDefaultValues" + self.msp() + ("TRUE," if defaults else "FALSE,")
                         + self.sp())
        parts.append("rule" + self.msp() + shown + "," + self.sp())
        parts.append("value" + self.msp() + asserted + self.sp() + "}")
        return "item:" + "".join(parts)

    def asserted(self, rule, text, defaults, target):
        """A value text: equal to, near or unlike something that the reference names."""
        dice = self.dice
        held = [] if self.tree is None else self.held(text, defaults)
        near = dice.random() < 0.45
        stored = dice.choice(held) if held and dice.random() < 0.9 else None
        if rule.read is rules.null_of:
            return "NULL"
        if rule.read is rules.boolean_of:
            return dice.choice(["TRUE", "FALSE"])
        if rule.read is rules.integer_of:
            number = dice.choice([0, 1, 3, 128]) if stored is None else stored
            return str(number + (dice.choice([-1, 1, 1, 2, 2 ** 64]) if near else 0))
        if rule.read is rules.oid_of:
            arcs = (2, 5) if stored is None else stored
            if near:
                arcs = dice.choice([arcs + (0,), arcs[:-1] + (arcs[-1] ^ 1,), (2, 2 ** 32 + 1)])
            return ".".join(str(arc) for arc in arcs)
        if rule.read is rules.octets_of:
            octets = b"\1" if stored is None else stored
            if near:
                octets = dice.choice([octets + b"\0", octets[:-1], octets[:-1] + b"\2", b"\xff"])
            return "'" + octets.hex().upper() + "'H"
        if rule.read is rules.bits_of and self.table.rows[target].kind == der.NAMED_BIT_STRING:
            return self.named_bits(self.table.bits_by_name(target), stored, near)
        if rule.read is rules.bits_of:
            bits = "1" if stored is None else stored
            if near:
                bits = dice.choice([bits + "0", bits[:-1], bits[:-1] + "1"])
            if len(bits) % 4 == 0 and dice.random() < 0.6:
                digits = [format(int(bits[at:at + 4], 2), "X") for at in range(0, len(bits), 4)]
                return "'" + "".join(digits) + "'H"
            return "'" + bits + "'B"
        if rule in rules.NAME_RULES:
            return self.name(rule, stored, near)
        if rule.read is rules.time_of:
            time = dice.choice(TIMES) if stored is None or near else time_text(stored)
            return '"' + time + '"'
        return self.string(stored, near)

    def named_bits(self, numbers, stored, near):
        """Bits for a named BIT STRING: a list of names, or digits with trailing zeros or without, perhaps close to what is stored."""
        dice = self.dice
        if near and dice.random() < 0.2:
            return dice.choice(ODD_BITS)
        bits = dice.choice(["", "1", "01"]) if stored is None else stored
        ones = {at for at, bit in enumerate(bits) if bit == "1"}
        if near:
            ones ^= {dice.choice([*numbers.values(), len(bits)])}
        if ones <= {*numbers.values()} and dice.random() < 0.6:
            return self.bit_list([name for name, number in numbers.items() if number in ones])
        digits = "".join("1" if at in ones else "0" for at in range(max(ones, default=-1) + 1))
        digits += "0" * dice.choice([0, 0, 0, 1, 3, 8])
        if dice.random() < 0.4:
            digits += "0" * (-len(digits) % 4)
            return "'%s'H" % "".join(format(int(digits[at:at + 4], 2), "X") for at in range(0, len(digits), 4))
        return "'%s'B" % digits

    def bit_list(self, names):
        """A GSER list of these names in any order, some of them perhaps repeated."""
        dice = self.dice
        names = dice.sample(names, len(names)) + (dice.choices(names, k=dice.choice([0, 0, 0, 1, 2])) if names else [])
        return "{" + self.sp() + ("," + self.sp()).join(names) + self.sp() + "}"

    def name(self, rule, stored, near):
        """A name or an RDN as an RFC 4514 string, perhaps close to what is stored."""
        dice = self.dice
        whole = rule.read is rules.name_of
        if near and dice.random() < 0.2:
            return quoted(dice.choice(name_text.ODD_NAMES))
        rdns = [[((2, 5, 4, 3), "a")]] if stored is None else stored if whole else [stored]
        if near:
            rdns = name_text.near_name(dice, rdns) if whole else [name_text.near_rdn(dice, rdns[0])]
        rdns = [[(arcs, name_text.like(dice, string)) for arcs, string in rdn] for rdn in rdns]
        return quoted(name_text.name_text(dice, rdns))

    def string(self, stored, near):
        """A quoted string, perhaps with spaces or letters changed."""
        dice = self.dice
        string = "a" if stored is None else stored
        if dice.random() < 0.5:
            string = dice.choice(["", " "]) + string.replace(" ", dice.choice([" ", "  "])) \
                + dice.choice(["", " ", "  "])
        if dice.random() < 0.5:
            string = string.swapcase() if string.isascii() else string.upper()
        if near:
            string = dice.choice([string + dice.choice(WORDS[der.IA5_STRING]), string[1:], "b"])
        return '"' + string.replace('"', '""') + '"'

    def filter(self, room, depth=0):
        """A filter of about at most `room` characters."""
        dice = self.dice
        way = dice.random()
        if way < (0.5 if depth == 0 else 0.65) or depth > 4:
            return self.item()
        if way < 0.68:
            return "not:" + self.filter(room - 4, depth + 1)
        inner, size = [], 6
        for _ in range(dice.choice([0, 1, 2, 2, 3, 3, 4])):
            found = self.filter(room - size, depth + 1)
            if size + len(found) > room:
                continue
            inner.append(found)
            size += len(found) + 1
        between = [found + "," + self.sp() for found in inner[:-1]] + inner[-1:]
        return dice.choice(["and:{", "or:{"]) + self.sp() + "".join(between) + self.sp() + "}"

    def bad_filter(self, text):
        """A filter of which one place is not of the form."""
        dice = self.dice
        way = dice.randrange(10)
        places = [at for at, letter in enumerate(text) if letter in ' ,:{}"']
        if way == 0:
            return text.replace(",", " ,", 1) if "," in text else " " + text
        if way == 1:
            return dice.choice([" " + text, text + " ", text + ",", text + "}", "{" + text])
        if way == 2 and places:
            at = dice.choice(places)
            return text[:at] + text[at + 1:]
        if way == 3 and places:
            at = dice.choice(places) + 1
            return text[:at] + dice.choice(" ,}{\":x") + text[at:]
        if way == 4:
            return "not:" * dice.choice([14, 15, 16]) + dice.choice(["and:{}", "or:{ }"])
        if way == 5:
            return "item:{rule " + dice.choice(BAD_RULES) + ",value 1}"
        if way == 6:
            return dice.choice(["item:{value 1,rule 2.5}", "item:{rule 2.5,value }", "item:{rule 2.5}",
                                "item:{rule 2.5,value\"a\"}", "item:{rule 2.5,value {}",
                                "item:{rule 2.5,value \"}", "item:{}", "item:{ }", "and:{,}",
                                "and: {}", "item: {rule 2.5,value 1}", "and:{and:{},}", "and",
                                "item:{useDefaultValues true,rule 2.5,value 1}",
                                "item:{useDefaultValues TRUE,component \"a\",rule 2.5,value 1}"])
        if way == 7:
            return text.replace(dice.choice(["item", "rule", "value", "component"]), "Item", 1)
        if way == 8:
            return text[:dice.randrange(len(text))]
        return text.replace(" ", dice.choice(["\t", "\u00a0", "\n"]), 1)
