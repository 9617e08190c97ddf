"""Filters for crates/cases about string preparation (Q-1 of document 02)."""

from unicodedata import ucd_3_2_0 as unicode_3_2

import der
import rules
import written
from preparation import LAST, image, prepared
from samples import choice, item, leaf, member, of, quoted, tlv

CHARACTERS = [chr(code) for code in range(ord(LAST) + 1)]
# caseExactMatch and caseIgnoreMatch, with whether they fold.
RULES = (("2.5.13.5", False), ("2.5.13.2", True))
# Alone, doubled, between letters, beside spaces.
FORMS = ("{0}", "{0}{0}", "a{0}b", " a {0} b")
STRINGS = of(14, 1) + b"\x08"

# Characters above U+017F that RFC 4518 maps, folds or normalizes, or that are close to those up to U+017F that it does.
ABOVE = ("\u0180\u0181\u0182\u0183\u0187\u018f\u01a0\u01c4\u01c5\u01c6\u01cd\u01f0\u01f1\u01f4\u0200\u0220\u0222\u024f\u02bc\u02d8\u02d9\u02da\u02dc"
         "\u0300\u0301\u0304\u0307\u0308\u0327\u0340\u0345\u034f\u037a\u0384\u0385\u0390\u0391\u039c\u03a9\u03bc\u03c2\u0410\u0587\u06dd\u070f\u1680"
         "\u1806\u180b\u180e\u1e00\u1e96\u1e9a\u1e9b\u1e9e\u1f50\u2000\u2003\u200a\u200b\u200c\u2010\u2024\u2028\u2029\u202f\u2044\u205f\u2060"
         "\u2074\u2126\u212a\u212b\u2153\u2160\u2460\u24b6\u3000\ufb00\ufb01\ufe00\ufeff\uff01\uff21\uff41\uffe3\ufff9\ufffc\ufffd\ue000\uffff"
         "\U00010400\U0001d173\U0001d400\U000e0001\U000e0020\U0010ffff")
# What drawn strings are made of.
PIECES = [*"abAsSiIjJlLnN1", " ", " ", "  ", "\t", "\r\n", "\u0085", "\u00a0", "\u0000", "\u007f", "\u0084", "\u00ad", "\u00a8", "\u00af", "\u00b4",
          "\u00b8", "\u0301", "\u0304", "\u0307", "\u0308", "\u0327", "\u00aa", "\u00b5", "\u03bc", "\u039c", "\u00bc", "\u2044", "\u00c9", "\u00e9",
          "\u00df", "\u0130", "\u0131", "\u0132", "\u0133", "\u0140", "\u00b7", "\u0149", "\u02bc", "\u0178", "\u00ff", "\u017e", "\u017d", "\u017f",
          "\u0180", "\u2003", "\u200b", "\u212a", "\u1e9e"]
# Lists of drawn strings, and filters about each.
LISTS, FILTERS = 60, 20


def text_of(character, fold):
    """The image of a character as a text."""
    return "".join(one for one, _ in image(character, fold))


def of_strings(strings, kind=der.UTF8_STRING):
    """A SEQUENCE OF these strings."""
    return tlv(0x30, *(leaf(kind, string.encode("utf-8")) for string in strings))


def near_misses(character):
    """Texts that careless steps would make of a character, and its neighbours."""
    code = ord(character)
    several = [character.lower(), character.upper(), unicode_3_2.normalize("NFKD", character)[0], "", " ", chr(code ^ 0x20), chr(code + 1),
               chr(max(0, code - 1)), text_of(character, False), text_of(character, True)]
    return [one for one in dict.fromkeys(several) if one != character]


def characters(found):
    """Every character up to U+017F, stored and asserted, in every form, against its images and near misses."""
    for character in CHARACTERS:
        near, own = near_misses(character), [form.format(character) for form in FORMS]
        strings = [form.format(one) for form in FORMS[::2] for one in near]
        strings += [form.format(one) for form in FORMS[1::2] for one in (text_of(character, False), text_of(character, True), "", " ")]
        strings = [*dict.fromkeys(one for one in found.dice.sample(strings, len(strings)) if one not in own)]
        # Those that differ from each form under both rules stand first, so that the number of tests tells that none of them is accepted.
        strings.sort(key=lambda one: prepared(one, True) in [prepared(form, True) for form in own])
        value = of_strings(strings + own)
        for oid, fold in RULES:
            for place, form in enumerate(FORMS, 1 + len(strings)):
                found.filter(STRINGS, value, item("*", oid, quoted(form.format(character))))
                asserted = form.format(text_of(character, fold))
                if asserted and asserted != form.format(character):
                    found.filter(STRINGS, value, item(str(place), oid, quoted(asserted)))
            for _ in range(2):
                at = found.dice.randrange(len(FORMS))
                asserted = FORMS[at].format(found.dice.choice(near))
                if asserted:
                    found.filter(STRINGS, value, item(str(1 + len(strings) + at), oid, quoted(asserted)))


def other_kinds(found):
    """The characters of PrintableString and IA5String, stored and asserted."""
    for kind in (der.PRINTABLE_STRING, der.IA5_STRING):
        fits = [one for one in CHARACTERS if one < "\x80" and (kind == der.IA5_STRING or der.PRINTABLE.fullmatch(one.encode()))]
        for character in fits:
            table, value = of(14, 1) + bytes([kind]), of_strings([form.format(character) for form in FORMS], kind)
            for oid, fold in RULES:
                found.filter(table, value, item("*", oid, quoted(found.dice.choice(FORMS[1:]).format(character))))
                at = found.dice.randrange(len(FORMS))
                asserted = FORMS[at].format(found.dice.choice([text_of(character, fold)] * 3 + near_misses(character)))
                if asserted:
                    found.filter(table, value, item(str(at + 1), oid, quoted(asserted)))


def above(found):
    """Characters above U+017F, which stand for themselves, against what RFC 4518 would make of them."""
    for character in ABOVE:
        others = ["", " ", character.lower(), character.upper(), unicode_3_2.normalize("NFKC", character), chr(ord(character) & 0x7F)]
        others = [one for one in dict.fromkeys(others) if one != character]
        value = of_strings("a%sb" % one for one in others + [character])
        for oid, _ in RULES:
            for one in found.dice.sample(others, 2) + [character]:
                found.filter(STRINGS, value, item("*", oid, quoted("a%sb" % one)))
                found.filter(STRINGS, value, item("-1", oid, quoted("a%sb" % one)))


def like(dice, string, fold):
    """A string that is mostly prepared as this one is: characters exchanged for their images, spaces and what is mapped to nothing put in."""
    parts = []
    for character in string:
        text, upper = text_of(character, fold), character.upper()
        several = [character, character, text, text]
        if fold and "".join(text_of(one, True) for one in upper) == text:
            several += [upper, upper]
        parts.append(dice.choice(several))
        if parts[-1] == " ":
            parts.append(dice.choice(["", " ", "\u00a0", "\t"]))
        elif dice.random() < 0.1:
            parts.append(dice.choice(["\u00ad", "\u0000", "\u009f"]))
    return dice.choice(["", "", " ", "\u00ad", "\u0085"]) + "".join(parts) + dice.choice(["", "", " ", "\u00a0\u0000"])


def drawn(found):
    """Drawn strings, asserted as they are, as others that are prepared alike, and with one place changed."""
    dice = found.dice
    for _ in range(LISTS):
        strings = ["".join(dice.choice(PIECES) for _ in range(dice.randint(1, 5))) for _ in range(8)]
        value = of_strings(strings)
        for _ in range(FILTERS):
            oid, fold = dice.choice(RULES)
            place = dice.randrange(len(strings))
            asserted = like(dice, strings[place], fold)
            if dice.random() < 0.6:
                at = dice.randint(0, len(asserted))
                asserted = asserted[:at] + dice.choice(PIECES + [""]) + asserted[at + dice.choice([0, 1]):]
            if asserted:
                found.filter(STRINGS, value, item(dice.choice(["*", str(place + 1), str(place + 1)]), oid, quoted(asserted)))


def long_strings(found):
    """Strings that get much longer or much shorter, and runs of what is mapped to a space or nothing."""
    for stored, asserted in [("\u00bc" * 400, ["1\u20444" * 390, "1\u20444" * 389 + "1\u2044", "\u00bc" * 400, "\u00bc" * 401]),
                             ("\u00ad" * 600, ["\u0000", " ", "\u00ad" * 900, "a"]),
                             ("a" + "\u0085\u00ad\u00a0" * 200 + "b", ["a b", "ab", "a" + "\t\u0000" * 900 + "b", "a \u0301b"]),
                             ("\u00b4" * 300, [" \u0301" * 300, "\u00b4" * 299 + " \u0301", "\u00b4" * 300, "\u00b4" * 301]),
                             ("\u00df\u0130\u0149" * 100, ["SSI\u0307\u02bcN" * 100, "SSI\u0307\u02bcN" * 99 + "SSI\u0307\u02bc", "\u1e9e\u0130\u0149" * 100])]:
        for oid, _ in RULES:
            for one in asserted:
                found.filter(b"\x08", leaf(der.UTF8_STRING, stored.encode("utf-8")), item(None, oid, quoted(one)))


def rest_of_the_filter(found):
    """Characters up to U+017F where nothing is prepared: in rule names, labels, references, and beside the value text."""
    table, value = choice(member("sik", 2)) + b"\x08", leaf(der.UTF8_STRING, b"a")
    exchanged = {"a": "\u00aa\u00e1", "c": "\u0107", "e": "\u00e9", "h": "\u0125", "I": "\u0130\u0131", "i": "\u0131\u0130", "k": "\u212a\u0138",
                 "o": "\u00ba", "s": "\u017f\u00df", "t": "\u0165", "1": "\u00b9", "2": "\u00b2", "3": "\u00b3"}
    for name, oid in [(rule.name, rule.oid) for rule in rules.RULES if rule.oid in dict(RULES)]:
        texts = [item("sik", name, '"A"'), item("sik", oid, '"a"')]
        for text in texts:
            for at, letter in enumerate(text):
                for other in exchanged.get(letter, ""):
                    if found.dice.random() < 0.5:
                        found.filter(table, value, text[:at] + other + text[at + 1:])
        text = texts[0]
        for at in range(len(text) + 1):
            other = found.dice.choice(["\u00a0", "\u00ad", "\u0085", "\t", "\u0000", "\u00b4"])
            found.filter(table, value, text[:at] + other + text[at:])
            if at < len(text) and text[at] == " ":
                found.filter(table, value, text[:at] + other + text[at + 1:])


def of_the_tests(found):
    """What the tests of this request ask."""
    for case in written.cases(10000, ("Preparation",)):
        found.filter(*case.inputs)


def ask(found):
    """All of this module's questions."""
    for topic in (of_the_tests, characters, other_kinds, above, drawn, long_strings, rest_of_the_filter):
        topic(found)
