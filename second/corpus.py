"""The cases of crates/cases: what its program is run on, and what it must print.

    python3 second/corpus.py            writes crates/cases/stdin and crates/cases/stdout
    python3 second/corpus.py --check    fails if they are not what is drawn and answered here
    python3 second/corpus.py --count    prints how often each answer occurs

docs/CASES.md describes both files.
"""

import pathlib
import random
import sys
from collections import Counter

import corpus_bits
import corpus_long
import corpus_names
import draw
import engine
import questions
import written
from samples import choice, layered, member, of, sequence, tlv

FOLDER = pathlib.Path(__file__).resolve().parent.parent / "crates" / "cases"
EDGES, SMALL, LARGE, LOOSE = 2400, 2700, 60, 200
VALUE_EDGES, VALUES, BROKEN, LARGE_VALUES = 1200, 900, 3200, 40
PARTS, LARGE_PARTS = 800, 20
LONGEST, LONGEST_VALUE = engine.TABLE_SIZES.stop, engine.VALUE_SIZES.stop


def long_names(last):
    """Seven groups of 16 members, whose names differ in the last octet only, or not at all."""
    table = b""
    for _ in range(7):
        table += sequence(*[member("a" * 23 + (chr(97 + at) if last else "a"), 7 * 17, 2, at)
                            for at in range(16)])
    return table + b"\2"


def hostile():
    """Tables as large as they come that a check by plain recursion would take long for, by name."""
    return {
        "chains of 16 rows, SEQUENCEs of 7 members of one type":
            layered(15, 7, sequence, lambda level, at: (1, at)),
        "chains of 17 rows, SEQUENCEs of 6 members of one type":
            layered(16, 6, sequence, lambda level, at: (1, at)),
        "chains of 16 rows, CHOICEs of 7 members of one type":
            layered(15, 7, choice, lambda level, at: (1, at)),
        "chains of 16 rows, CHOICEs with an untagged CHOICE":
            layered(15, 2, choice, lambda level, at: (0, 0) if at else (1, level)),
        "chains of 16 rows, CHOICEs of 7 untagged CHOICEs":
            layered(15, 7, choice, lambda level, at: (0, 0)),
        "names that differ in the last octet": long_names(True),
        "equal names": long_names(False),
        "lists of lists, 127 deep": b"".join(of(14, at + 1) for at in range(127)) + b"\2",
        "128 rows": b"\2" * 128,
        "129 rows": b"\2" * 129,
        "4,992 octets": member("a", 0) * 128,
        "4,993 octets": b"\2" * 4993,
    }


def tables():
    """All tables up to Q-2, each once."""
    found = dict.fromkeys(hostile().values())
    found.update(dict.fromkeys(case.inputs[0] for case in written.cases(LONGEST, written.BASE) if case.entry == "table"))
    for count, drawer, way in ((EDGES, draw.CaseDrawer(41), "edge"), (SMALL, draw.CaseDrawer(42), "of"),
                               (LARGE, draw.CaseDrawer(43, draw.LARGE), "of")):
        most = len(found) + count
        while len(found) < most:
            case = drawer.edge() if way == "edge" else drawer.of("table")
            if len(case.inputs[0]) <= LONGEST:
                found.setdefault(case.inputs[0])
    dice = random.Random(44)
    for _ in range(LOOSE):
        found.setdefault(bytes(dice.choice([dice.randrange(17), dice.randrange(256)])
                               for _ in range(dice.randint(1, 60))))
    found.update(dict.fromkeys(corpus_bits.tables()))
    return list(found)


def spread_choices(levels):
    """A list of CHOICEs, each of one tagged alternative and an untagged CHOICE; an INTEGER is the last of all."""
    last = 1 + 3 * levels
    table = of(14, 1)
    for level in range(levels):
        table += choice(member("a", last + 1, 2, level), member("z", last if level == levels - 1 else 1 + 3 * (level + 1)))
    return table + b"\2" + b"\4"


def hostile_values():
    """Tables and values of full length that a careless check would take long for, by name."""
    nulls = (4096 - 4) // 2
    deep = b"\5\0"
    for _ in range(15):
        deep = tlv(0x30, deep)
    lists = b"".join(of(14, at + 1) for at in range(15)) + b"\4"
    octets = tlv(4, b"a" * 1018)
    return {
        "SEQUENCE OF, 2,046 elements": (of(14, 1) + b"\4", tlv(0x30, b"\5\0" * nulls)),
        "SEQUENCE OF, the last of 2,046 elements wrong": (of(14, 1) + b"\4", tlv(0x30, b"\5\0" * (nulls - 1), b"\1\0")),
        "SET OF, 2,046 equal elements": (of(15, 1) + b"\4", tlv(0x31, b"\5\0" * nulls)),
        "SET OF, four elements alike in 1,018 octets": (of(15, 1) + b"\6", tlv(0x31, octets * 4)),
        "SET OF, the last two in the wrong order": (of(15, 1) + b"\6", tlv(0x31, octets * 2, tlv(4, b"a" * 1017 + b"b"), octets)),
        "lists of lists, 16 deep": (lists, tlv(0x30, deep[2:] * ((4096 - 4) // len(deep[2:])))),
        "lists of lists, 17 deep": (lists, tlv(0x30, deep)),
        "all tags wrong": (of(14, 1) + sequence(*[member("m%d" % at, 18, 2, at, 1) for at in range(16)]) + b"\2",
                           tlv(0x30, *[tlv(0x30, b"\x90\1\1")] * 800)),
        "SEQUENCEs of 16 absent members": (of(14, 1) + sequence(*[member("m%d" % at, 18, 2, at, 1) for at in range(16)]) + b"\2",
                                           tlv(0x30, b"\x30\0" * nulls)),
        "CHOICEs of 15 levels": (spread_choices(14), tlv(0x30, b"\2\1\1" * ((4096 - 4) // 3))),
        "octets after the value": (b"\4", b"\5\0" + b"\0" * 4094),
        "4,096 octets": (b"\6", tlv(4, b"\0" * 4092)),
        "4,097 octets": (b"\6", tlv(4, b"\0" * 4093)),
    }


def value_cases():
    """Tables and values up to Q-2, each pair once."""
    found = dict.fromkeys(hostile_values().values())
    found.update(dict.fromkeys(case.inputs for case in written.cases(LONGEST_VALUE, written.BASE) if case.entry == "value"))
    edges, drawer = draw.CaseDrawer(51), draw.CaseDrawer(52)
    large = draw.CaseDrawer(53, draw.LARGE)

    def edge():
        case = edges.edge()
        return case.inputs if case.entry == "value" else None

    for count, one in ((VALUE_EDGES, edge), (VALUES, lambda: drawer.of("value").inputs),
                       (BROKEN, lambda: drawer.value("value")), (LARGE_VALUES, lambda: large.of("value").inputs)):
        most = len(found) + count
        while len(found) < most:
            inputs = one()
            if inputs and len(inputs[0]) <= LONGEST and len(inputs[1]) <= LONGEST_VALUE:
                found.setdefault(inputs)
    found.update(dict.fromkeys(corpus_bits.values()))
    return list(found)


def parts():
    """Values with places and lengths, each once: around the value's end, and the largest numbers."""
    most = 2 ** 64 - 1
    ends = [0, 1, 22, 23, 24, most, most - 22, most // 2 + 1]
    record = bytes.fromhex("30150C026531300F30041302566C300713025661800103")
    found = dict.fromkeys((record, place, length) for place in ends for length in ends)
    found.update(dict.fromkeys((octets, place, length) for octets in (b"", b"\5", b"\5\0", b"\0" * 4096, b"\0" * 4097)
                               for place in (0, 1, 2, 4095, 4096) for length in (0, 1, 2, 4096)))
    found.update(dict.fromkeys(case.inputs for case in written.cases(LONGEST_VALUE, written.BASE) if case.entry == "part"))
    small, large = draw.CaseDrawer(61), draw.CaseDrawer(62, draw.LARGE)
    for count, drawer in ((PARTS, small), (LARGE_PARTS, large)):
        enough = len(found) + count
        while len(found) < enough:
            inputs = drawer.of("part").inputs
            if len(inputs[0]) <= LONGEST_VALUE:
                found.setdefault(inputs)
    return list(found)


def given(octets):
    """An input of octets: its length and they."""
    return len(octets).to_bytes(2, "big") + octets


def groups():
    """Tables, values, parts and questions, each case once.

    Those up to Q-2 stand first, after all of them those about names (Q-3), then those about members of kind 21 (Q-4), so that each case stays where it stands.
    """
    several = tables(), value_cases(), parts(), questions.subjects(hostile_values().values())
    yield several
    for request, asked in ((corpus_names, questions.name_subjects), (corpus_long, questions.long_subjects)):
        earlier = [*map(set, several[:2])]
        more = ([table for table in request.tables() if table not in earlier[0]], [both for both in request.values() if both not in earlier[1]], [],
                questions.without(asked(), several[3]))
        yield more
        subjects = {subject: several[3].get(subject, []) + more[3].get(subject, []) for subject in several[3] | more[3]}
        several = several[0] + more[0], several[1] + more[1], [], subjects


def cases():
    """What the program reads and prints, case by case: its kind, its octets and its line."""
    for group in groups():
        yield from cases_of(*group)


def cases_of(several_tables, several_values, several_parts, subjects):
    """The cases of these tables, values, parts and questions."""
    for table in several_tables:
        yield "t", b"t" + given(table), "%s %d\n" % engine.check_table(table)
    for table, value in several_values:
        line = " ".join(str(word) for word in engine.check_value(table, value)) + "\n"
        yield "v", b"v" + given(table) + given(value), line
    for value, place, length in several_parts:
        answer = engine.part(value, place, length)
        line = "refused %d\n" % answer[1] if answer[0] == "refused" else "part %s\n" % answer[1].hex().upper()
        yield "p", b"p" + given(value) + place.to_bytes(8, "big") + length.to_bytes(8, "big"), line
    for (table, value), asked in subjects.items():
        head = b"q" + given(table) + given(value) + len(asked).to_bytes(2, "big")
        for question in asked:
            yield question[0], head + questions.octets_of(question), questions.answered(table, value, question)
            head = b""


def files():
    """The program's input and its output."""
    asked, told = [], []
    for _, octets, line in cases():
        asked.append(octets)
        told.append(line)
    return {"stdin": b"".join(asked), "stdout": "".join(told).encode()}


def word_of(line):
    """The answer of a line: its first word, with the number of a refusal."""
    words = line.split(":")[0].split()
    return " ".join(words[:2]) if words[0] == "refused" else words[0]


def main():
    """Write the files, compare them, or count the answers."""
    if sys.argv[1:] == ["--count"]:
        for (kind, word), number in sorted(Counter((kind, word_of(line)) for kind, _, line in cases()).items()):
            print(kind, word, number)
        return
    for name, octets in files().items():
        path = FOLDER / name
        if sys.argv[1:] == ["--check"]:
            if path.read_bytes() != octets:
                sys.exit("crates/cases/%s is not what second/corpus.py draws and answers" % name)
        else:
            path.write_bytes(octets)


if __name__ == "__main__":
    main()
