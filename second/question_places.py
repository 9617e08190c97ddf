"""Listings and filters for crates/cases: what references name in values of all shapes."""

import itertools

import draw_types
import reference
import table as types
from samples import choice, item, leaf, member, of, sequence, tlv

# A type of all the shapes that a reference meets, and values of it.
SHAPES = (sequence(member("a", 6), member("d", 11, 1, 0), member("g", 14, 2, 1, 1), member("n", 16, 1, 2),
                   member("content", 18, presence=2, default=b"\5"))
          + of(14, 7) + sequence(member("b", 18, 2, 3, 2, b"\1"), member("c", 17, 1, 2, 1), member("e", 18))
          + choice(member("f", 18), member("h", 19, 1, 4)) + of(14, 15) + bytes([4]) + of(14, 17) + of(15, 18)
          + bytes([2, 8]))
SHAPED = [
    tlv(0x30, tlv(0x30, tlv(0x30, leaf(2, b"\7")),
                  tlv(0x30, tlv(0x83, b"\2"), tlv(0xA2, tlv(0x31, leaf(2, b"\1"), leaf(2, b"\2"))), leaf(2, b"\x08")),
                  tlv(0x30, tlv(0xA2, tlv(0x31)), leaf(2, b"\x09"))),
        tlv(0xA0, tlv(0xA4, leaf(8, b"hi"))), tlv(0xA1, b"\5\0\5\0"),
        tlv(0xA2, tlv(0x30, tlv(0x31, leaf(2, b"\1"), leaf(2, b"\2")), tlv(0x31), tlv(0x31, leaf(2, b"\3"))))),
    tlv(0x30, tlv(0x30), tlv(0xA0, leaf(2, b"\1")), tlv(0xA2, tlv(0x30)), leaf(2, b"\6")),
    tlv(0x30, tlv(0x30, tlv(0x30, leaf(2, b"\7"))), tlv(0xA0, leaf(2, b"\1")), tlv(0xA1),
        tlv(0xA2, tlv(0x30, tlv(0x31)))),
]
STEPS = ["a", "b", "c", "d", "e", "f", "g", "h", "n", "content", "x", "A", "1", "2", "3", "4", "-1", "-2",
         "-3", "-4", "0", "*", "00", "-0", "01", "", "(1)", "4294967297", "18446744073709551617",
         "-18446744073709551615", "9" * 40]
HUGE = [2 ** 8, 2 ** 16, 2 ** 31, 2 ** 32, 2 ** 63, 2 ** 64, 10 ** 30]


def allowed(steps):
    """Whether SHAPES allows these steps."""
    parsed = reference.parse(".".join(steps)) if steps else []
    return parsed is not None and reference.target(types.Table(SHAPES), parsed) is not None


def along(found):
    """All references of up to four steps that go wrong at their last step or not at all, listed and asked."""
    held = [[]]
    for _ in range(4):
        longer = [steps + [step] for steps in held for step in STEPS]
        for steps in longer:
            good, text = allowed(steps), ".".join(steps)
            if not good and found.dice.random() < 0.6:
                continue
            for value in SHAPED if good else SHAPED[:1]:
                for defaults in (True, False) if good else (True,):
                    found.rooms(SHAPES, value, text, defaults)
                if found.dice.random() < 0.5:
                    found.budgets(SHAPES, value, item(text, *found.dice.choice(
                        [("presentMatch", "NULL"), ("2.5.13.14", "1"), ("2.5.13.14", "9"), ("2.5.13.15", "2")]),
                        found.dice.choice([None, "TRUE", "FALSE"])))
        held = [steps for steps in longer if allowed(steps) and (len(steps[-1]) < 3 or steps[-1] == "content")]
        held = found.dice.sample(held, min(len(held), 40))
    for value in SHAPED:
        for room in range(8):
            found.listing(SHAPES, value, None, room % 2 == 0, room)


def positions(found):
    """Positions around the ends of lists of several lengths, and as large as they come."""
    for count in (0, 1, 2, 5, 130, 300):
        for kind, tag in ((14, 0x30), (15, 0x31)):
            table = of(kind, 1) + b"\2"
            value = tlv(tag, *(leaf(2, draw_types.integer_octets(number)) for number in range(count)))
            places = {1, 2, count - 1, count, count + 1, count + 2, 255, 256, 257}
            for place in sorted(places | {huge + more for huge in HUGE for more in (-1, 0, 1, count)}):
                for text in (str(place), "-%d" % place):
                    found.rooms(table, value, text, True, 2)
                    number = found.dice.choice([0, place, count - 1, count - place])
                    found.filter(table, value, item(text, "2.5.13.14", str(number)))
            for text in ("0", "*"):
                found.rooms(table, value, text, True, 4)
            found.budgets(table, value, item("*", "2.5.13.14", str(count - 1)))
            found.budgets(table, value, item("0", "2.5.13.14", str(count)))
            found.budgets(table, value, item("0", "2.5.13.15", str(count)))


def lists_of_lists(found):
    """All references of up to three positions on lists of lists of lists, among them empty ones."""
    dice, steps = found.dice, ["1", "2", "-1", "-2", "3", "0", "*"]
    for kinds in ((14, 14, 14), (14, 15, 14), (15, 14, 15)):
        table = b"".join(of(kind, row + 1) for row, kind in enumerate(kinds)) + b"\2"

        def drawn_list(level):
            if level == 3:
                return leaf(2, bytes([dice.randrange(100)]))
            several = [drawn_list(level + 1) for _ in range(dice.choice([0, 1, 2, 2, 3, 3]))]
            several.sort(key=lambda one: one.ljust(100, b"\0"))
            return tlv(0x30 if kinds[level] == 14 else 0x31, *several)

        value = max((drawn_list(0) for _ in range(12)), key=len)
        for size in range(1, 4):
            for text in itertools.product(steps, repeat=size):
                found.rooms(table, value, ".".join(text), True)
                found.budgets(table, value, item(".".join(text), *dice.choice(
                    [("presentMatch", "NULL"), ("2.5.13.14", "2"), ("2.5.13.14", "99"), ("2.5.13.15", "20")])))


def deep(found):
    """CHOICEs within CHOICEs, 15 of them, down to an INTEGER: references that end at, leave or pass each."""
    dice = found.dice
    for mode, count in ((1, 7), (0, 1)):
        table = b"".join(choice(*[member("m%d" % at, (level + 1) * (count + 1), mode, at) for at in range(count)])
                         for level in range(15)) + b"\2"
        for _ in range(3):
            path, value = [dice.randrange(count) for _ in range(15)], leaf(2, b"\5")
            for at in reversed(path) if mode else ():
                value = tlv(0xA0 + at, value)
            names = ["m%d" % at for at in path]
            for size in range(16):
                for more in ([], ["m%d" % dice.randrange(count)], ["x"]):
                    text = ".".join(names[:size] + more) or None
                    found.rooms(table, value, text, True)
                    rule, asserted = dice.choice([("presentMatch", "NULL"), ("2.5.13.14", "5")])
                    found.filter(table, value, item(text, rule, asserted))


def wide(found):
    """SEQUENCEs of 16 members, some of them absent: each member listed and asked, defaults on and off."""
    dice = found.dice
    for _ in range(12):
        rows, stored = [], []
        for at in range(16):
            mode, presence = dice.choice([1, 2]), dice.choice([0, 1, 1, 2, 2])
            rows.append(member("m%d" % at, 17, mode, at, presence, b"\1" if presence == 2 else b""))
            if presence == 0 or dice.random() < 0.5:
                inner = bytes([dice.randint(2, 9)])
                stored.append(tlv(0xA0 + at, leaf(2, inner)) if mode == 1 else tlv(0x80 + at, inner))
        table, value = sequence(*rows) + b"\2", tlv(0x30, *stored)
        for at in range(17):
            for defaults in (True, False):
                found.rooms(table, value, "m%d" % at, defaults)
                flag = "TRUE" if defaults else "FALSE"
                found.budgets(table, value, item("m%d" % at, "2.5.13.14", dice.choice("123"), flag))


def full(found, hostile):
    """Listings and filters about values of full length, with rooms for all that they name."""
    for table, value in hostile:
        for text in (None, "*", "0", "1", "-1", "2046", "-2046", "-2047", ".".join(["*"] * 15), "*.m3",
                     "*" + ".z" * 14):
            found.rooms(table, value, text, True)
        for text in ("*", "0", "-1", "*.0", ".".join(["*"] * 15)):
            found.budgets(table, value, item(text, "presentMatch", "NULL"))
            found.budgets(table, value, item(text, "2.5.13.14", "0"))
    table, value = of(14, 1) + b"\6", tlv(0x30, *[b"\4\0"] * 2046)
    for room in (6138, 6137, 6139, 6144):
        found.listing(table, value, "*", True, room)
    for count in (31, 32, 33):
        text = "or:{" + ",".join([item("*", "2.5.13.17", "'00'H")] * count) + "}"
        for budget in (count * 2046, count * 2046 - 1, 65535, 65536):
            found.filter(table, value, text, budget)


def ask(found, hostile):
    """All of this module's questions; `hostile` are tables and values of full length."""
    for topic in (along, positions, lists_of_lists, deep, wide):
        topic(found)
    full(found, hostile)
