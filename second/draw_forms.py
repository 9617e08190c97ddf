"""Drawn cases close to the edges of the table's conditions, the filter's form and references."""

import draw_edges
from draw_edges import ODD_RULES, STEPS, VALUE_TEXTS
from samples import choice, member, of, sequence, tlv

NAMES = ["a", "b", "aB", "ab", "a-b", "a--b", "a-", "-a", "A", "9a", "a9", "", "a\0b", "a.b", "a_b",
         "abcdefghijklmnopqrstuvwx", "abcdefghijklmnopqrstuvw-", "z-9"]


class FormDrawer(draw_edges.EdgeDrawer):
    """The topics of EdgeDrawer and those of this module."""

    def draw(self):
        topics = draw_edges.TOPICS + TOPICS
        return getattr(self, self.deal("topics", topics))()

    def clashes(self):
        """Members whose tags may clash, in a SEQUENCE or CHOICE."""
        dice = self.dice
        count = dice.choice([2, 2, 3])
        first = 1 + count
        owner = dice.choice([sequence, sequence, choice])
        rows = []
        for at in range(count):
            mode = dice.choice([0, 0, 0, 1, 2])
            presence = 0 if owner is choice and dice.random() < 0.95 else dice.choice([0, 1, 1])
            rows.append(member("abc"[at], first + dice.choice([0, 0, 1, 2, 3]), mode,
                               dice.choice([0, 1]) if mode else 0, presence))
        inner = choice(member("d", first + 5, *dice.choice([(0, 0), (1, 0), (1, 1)])))
        leaves = dice.choice([b"\1", b"\2"]) + dice.choice([b"\1", b"\2", b"\x0c\0"])
        several = of(dice.choice([14, 15]), first + 5)
        return "table", (owner(*rows) + leaves + several + inner + dice.choice([b"\1", b"\2"]),)

    def pointers(self):
        """Row numbers around what is allowed."""
        dice = self.dice
        point = dice.randint(0, 6)
        table = dice.choice([
            of(14, point) + b"\1\2", b"\1" + of(15, point) + b"\1", sequence(member("a", point)) + b"\1",
            sequence(member("a", 3), member("b", point)) + b"\1\2", of(14, 1) + of(15, point) + b"\3",
            sequence(member("a", 2)) + sequence(member("b", point)) + b"\1", of(14, 256 + point) + b"\1",
            of(14, point) + sequence(member("a", 3)) + b"\1"])
        if dice.random() < 0.2:
            table = dice.choice([table[:-1], table + member("z", 1), table + b"\x0c\1", table + b"\0",
                                 table + b"\x10", table + b"\x11", table + b"\x0c\0", table + b"\x0d\0"])
        return "table", (table,)

    def fields(self):
        """The fields of a member row around what is allowed."""
        dice = self.dice
        owner = dice.choice([sequence, sequence, sequence, choice])
        kind = dice.choice([1, 2, 2, 3, 4, 6, 9])
        presence = dice.choice([0, 1, 2, 2, 2, 3]) if owner is sequence else dice.choice([0, 0, 1])
        default = b""
        if presence == 2 or dice.random() < 0.1:
            default = bytes.fromhex(dice.choice(["00", "FF", "01", "0080", "007F", "FF80", "FF7F", "",
                                                 "7FFFFFFFFFFFFFFF", "FF7FFFFFFFFFFFFF"]))
        mode, number = dice.choice([(0, 0), (0, 0), (1, 0), (2, 0), (1, 30), (2, 31), (0, 1), (3, 0), (1, 30)])
        name = "a" if dice.random() < 0.6 else dice.choice(NAMES)
        row = bytearray(member(name, 2, mode, number, presence, default))
        if dice.random() < 0.15:
            row[30] = dice.choice([0, 1, 8, 9])
        if dice.random() < 0.1:
            row[dice.choice([25 - 1, 31, 38])] ^= 1
        inner = bytes([kind])
        if dice.random() < 0.15:
            inner = choice(member("c", 4)) + b"\1"
        return "table", (owner(bytes(row)) + inner,)

    def names(self):
        """Names that may be equal or odd."""
        dice = self.dice
        several = [self.deal("names", NAMES), dice.choice(NAMES[:6])]
        if dice.random() < 0.3:
            several[1] = several[0]
        rows = [member(name, 3, 1, at) for at, name in enumerate(several)]
        return "table", (dice.choice([sequence, choice])(*rows) + b"\1",)

    def chains(self):
        """Chains of about 16 type rows, from row 0 or not."""
        dice = self.dice
        size = dice.choice([15, 16, 16, 17])
        first = dice.choice([0, 0, 1])
        table, row = b"\4" * first, first
        for _ in range(size - 1):
            if dice.random() < 0.06 and len(table) < 200:
                table += dice.choice([sequence, choice])(member("a", row + 2))
                row += 2
            else:
                table += of(dice.choice([14, 15]), row + 1)
                row += 1
        return "table", (table + b"\1",)

    def spacing(self):
        """A filter with one gap perhaps other than allowed."""
        dice = self.dice
        parts = [("", 0), ("item:", 0), ("{", 1)]
        if dice.random() < 0.6:
            parts += [("component", 2), ('"a"', 0), (",", 1)]
        if dice.random() < 0.3:
            parts += [("useDefaultValues", 2), (dice.choice(["TRUE", "FALSE"]), 0), (",", 1)]
        parts += [("rule", 2), ("2.5.13.14", 0), (",", 1), ("value", 2), ("1", 1), ("}", 0)]
        if dice.random() < 0.3:
            inner = [("and:", 0), ("{", 1)] + ([("or:", 0), ("{", 1), ("}", 0), (",", 1)]
                                               if dice.random() < 0.5 else [])
            parts = parts[:1] + inner + parts[1:-1] + [("}", 1), ("}", 0)]
        elif dice.random() < 0.2:
            parts = parts[:1] + [("not:", 0)] + parts[1:]
        changed = dice.randrange(len(parts)) if dice.random() < 0.75 else -1
        text = ""
        for at, (word, gap) in enumerate(parts):
            space = ["", dice.choice(["", "", " ", "  "]), dice.choice([" ", " ", "  "])][gap]
            if at == changed:
                way = dice.random()
                if way < 0.7:
                    space = dice.choice(["", " ", " ", "\t", "\n", "\u00a0", ","])
                elif way < 0.85:
                    word = ""
                else:
                    word = word.swapcase()
            text += word + space
        table = sequence(member("a", 2)) + b"\2"
        return "ask", (table, bytes.fromhex("3003020101"), text.encode(), 65535)

    def texts(self):
        """Rules, value texts and depths around the form."""
        dice = self.dice
        way = dice.randrange(5)
        if way == 0:
            text = "item:{rule %s,value 1}" % self.deal("rules", ODD_RULES)
        elif way < 3:
            inner = "item:{rule 2.5.13.14,value %s}" % self.deal("values", VALUE_TEXTS)
            text = dice.choice(["%s", "%s", "and:{%s}", "or:{%s,and:{}}"]) % inner
        elif way == 3:
            depth = dice.choice([13, 14, 14, 15])
            inner = dice.choice(["and:{}", "not:or:{}", "and:{not:and:{}}", "or:{or:{}, and:{}}"])
            lists = "and:{" * depth + inner + "}" * depth
            text = dice.choice(["not:" * depth + inner, lists])
        else:
            labels = ['component "a"', "useDefaultValues TRUE", "rule 2.5.13.14", "value 1"]
            at = dice.randrange(4)
            way = dice.randrange(3)
            if way == 0:
                labels[at], labels[at - 1] = labels[at - 1], labels[at]
            elif way == 1:
                del labels[at]
            else:
                labels.insert(at, labels[at])
            text = "item:{" + ",".join(labels) + "}"
        return "ask", (b"\2", b"\2\1\1", text.encode(), 65535)

    def truths(self):
        """Lists and `not` of short items of known truth, with a budget around the need."""
        def tree(depth):
            way = self.dice.random()
            if depth == 0 or way < 0.3:
                return self.dice.choice(["item:{rule 2.5.13.14,value 1}", "item:{rule 2.5.13.14,value 2}",
                                         "item:{rule a,value 1}", "and:{}", "or:{}"])
            if way < 0.45:
                return "not:" + tree(depth - 1)
            inner = [tree(depth - 1) for _ in range(self.dice.choice([1, 2, 2, 3]))]
            return self.dice.choice(["and:{", "or:{"]) + ",".join(inner) + "}"
        text = tree(3)
        while len(text) > 160:
            text = tree(3)
        budget = self.dice.choice([65535, 65535, 0, 1, 1, 2, 3])
        return "ask", (b"\2", b"\2\1\1", text.encode(), budget)

    def references(self):
        """References of odd and good identifiers on a list of SEQUENCEs."""
        dice = self.dice
        mode = dice.choice([0, 1, 2])
        table = (sequence(member("a", 3), member("c", 4, 1, 0, 1)) + of(14, 5) + of(15, 7)
                 + sequence(member("b", 7, mode, 1 if mode else 0, 2, b"\1")) + b"\2")
        stored = []
        for _ in range(dice.choice([0, 1, 2, 3])):
            inner = tlv(0x81 if mode == 2 else 2, dice.choice([b"\2", b"\3"]))
            inner = tlv(0xA1, inner) if mode == 1 else inner
            stored.append(tlv(0x30, dice.choice([b"", inner])))
        value = tlv(0x30, tlv(0x30, *stored), *dice.choice(
            [[], [tlv(0xA0, tlv(0x31))], [tlv(0xA0, tlv(0x31, tlv(2, b"\1"), tlv(2, b"\2")))]]))
        way = dice.random()
        if way < 0.5:
            text = self.deal("good", ["a.*.b", "a.*.b", "a.0", "c.0", "c.*", "a.1.b", "a.-1.b", "a.2", "c"])
        elif way < 0.8:
            text = dice.choice(["a.%s.b", "a.%s", "c.%s", "a.%s.b"]) % self.deal("steps", STEPS)
        else:
            text = ".".join(dice.choice(STEPS) for _ in range(dice.randint(1, 3)))
        if dice.random() < 0.6:
            room = dice.choice([9, 9, 9, 3, 2, 0, 6])
            return "list", (table, value, True, text.encode(), dice.random() < 0.7, room)
        rule = dice.choice(["2.5.13.14,value 1", "2.5.13.14,value 2", "2.5.13.15,value 2",
                            "presentMatch,value NULL"])
        flag = dice.choice(["", "", "useDefaultValues FALSE,"])
        asked = 'item:{component "%s",%srule %s}' % (text, flag, rule)
        return "ask", (table, value, asked.encode(), dice.choice([65535, 65535, 0, 1, 2]))

    def sizes(self):
        """One input of a size that is refused 1, or just within."""
        table, value, text = b"\4", b"\5\0", b"and:{}"
        return self.deal("sizes", [
            ("table", (b"",)), ("value", (b"", value)), ("value", (table, b"")), ("value", (table, b"\5")),
            ("value", (table, value)), ("part", (b"", 0, 0)), ("part", (b"\5", 0, 0)), ("part", (value, 0, 2)),
            ("ask", (b"", value, text, 0)), ("ask", (table, b"\5", text, 0)), ("ask", (table, value, b"", 0)),
            ("ask", (table, value, text, 65536)), ("ask", (table, value, text, 65535)),
            ("list", (b"", value, False, b"", True, 3)), ("list", (table, b"\5", False, b"", True, 3))])

    def order(self):
        """Two things wrong at once: the first in the order of checking is given."""
        dice = self.dice
        wrong = dice.sample(range(4), 2)
        table, value = b"\2", b"\2\1\1"
        table = dice.choice([b"\0", b"\x0c\1", b"\2\0"]) if 1 in wrong else table
        value = dice.choice([b"\2\1\1\1", b"\2\0", b"\1\1\0"]) if 3 in wrong else value
        if dice.random() < 0.4:
            table = b"" if 0 in wrong else table
            text = dice.choice([b"a", b"", b"0"])
            return "list", (table, value, 2 in wrong, text, True, dice.choice([3, 2, 0]))
        budget = 65536 if 0 in wrong else dice.choice([65535, 0])
        text = b"and: {}" if 2 in wrong else b"item:{rule 2.5.13.14,value 1}"
        return "ask", (table, value, text, budget)


TOPICS = (["clashes"] * 4 + ["pointers"] * 2 + ["fields"] * 4 + ["names", "chains"] + ["spacing"] * 5
          + ["texts"] * 4 + ["truths"] * 5 + ["references"] * 7 + ["order"] * 2
          + ["sizes"])
