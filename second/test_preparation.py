"""Tests of string preparation: the steps on every character up to U+017F, and what holds of prepared strings."""

import random
import stringprep
import unittest

import images
import images_of_definitions
from preparation import LAST, SPACE, image, mapped, normalized, prepared

CHARACTERS = [chr(code) for code in range(ord(LAST) + 1)]
# RFC 4518 section 2.2, its lists up to U+017F.
TO_NOTHING = [*range(0x00, 0x09), *range(0x0E, 0x20), *range(0x7F, 0x85), *range(0x86, 0xA0), 0xAD]
TO_SPACE = [*range(0x09, 0x0E), 0x20, 0x85, 0xA0]
# RFC 3454 table B.2 where it isn't the lower case letter of the same name.
NOT_LOWER = {0xB5: "\u03bc", 0xDF: "ss", 0x130: "i\u0307", 0x149: "\u02bcn", 0x17F: "s"}
# Compatibility decompositions of Unicode 3.2 up to U+017F, but that of U+00A0, which is mapped before.
NFKC = {0xA8: " \u0308", 0xAA: "a", 0xAF: " \u0304", 0xB2: "2", 0xB3: "3", 0xB4: " \u0301", 0xB5: "\u03bc", 0xB8: " \u0327", 0xB9: "1",
        0xBA: "o", 0xBC: "1\u20444", 0xBD: "1\u20442", 0xBE: "3\u20444", 0x132: "IJ", 0x133: "ij", 0x13F: "L\u00b7", 0x140: "l\u00b7",
        0x149: "\u02bcn", 0x17F: "s"}
WORTH = "ab S\u00c9\u00e9\u00df\u0130\u0131\u0149\u017f\u0132\u00bc\u00b5\u00a0\t\u0085\u0000\u00ad\u00a8\u00af\u00b4\u00b8\u0301\u2003\u0180\u039c"


def text(character, fold):
    """The characters of an image."""
    return "".join(one for one, _ in image(character, fold))


class Images(unittest.TestCase):
    """Single characters."""

    def test_map(self):
        for code, character in enumerate(CHARACTERS):
            for fold in (False, True):
                if code in TO_NOTHING or code in TO_SPACE:
                    self.assertEqual(mapped(character, fold), SPACE if code in TO_SPACE else "")
                elif not fold:
                    self.assertEqual(mapped(character, fold), character)
                else:
                    self.assertEqual(mapped(character, fold), NOT_LOWER.get(code, character.lower()))
                    self.assertEqual(mapped(character, fold), character.casefold())

    def test_normalize(self):
        for code, character in enumerate(CHARACTERS):
            self.assertEqual(normalized(character), " " if code == 0xA0 else NFKC.get(code, character))

    def test_order_of_folding_and_nfkc(self):
        for code, character in enumerate(CHARACTERS):
            if code not in TO_NOTHING and code not in TO_SPACE:
                other = "".join(normalized(part) for one in normalized(character) for part in stringprep.map_table_b2(one))
                self.assertEqual(text(character, True), other)

    def test_spaces(self):
        for code, character in enumerate(CHARACTERS):
            for fold in (False, True):
                found = image(character, fold)
                self.assertEqual(any(is_space for _, is_space in found), code in TO_SPACE)
                kept = [at for at, pair in enumerate(found) if pair == images.KEPT]
                self.assertEqual(kept, [0] if code in (0xA8, 0xAF, 0xB4, 0xB8) else [])

    def test_images_stand_for_themselves(self):
        for character in CHARACTERS:
            for fold in (False, True):
                for one in text(character, fold):
                    self.assertEqual([pair[0] for pair in image(one, fold)], [one])
            self.assertEqual("".join(text(one, True) for one in text(character, False)), text(character, True))
            self.assertEqual("".join(text(one, False) for one in text(character, True)), text(character, True))

    def test_above(self):
        for code in [*range(0x180, 0x2100), 0x3000, 0xFB01, 0xFEFF, 0xFFFC, 0xFFFD, 0x10400, 0xE0001, 0x10FFFF]:
            for fold in (False, True):
                self.assertEqual(image(chr(code), fold), [(chr(code), False)])

    def test_lines(self):
        lines = images.lines()
        self.assertEqual(len(lines), 0x180)
        for line in ("0000\t-\t-", "0041\t0041\t0061", "0085\t0020\t0020", "00B4\t0020* 0301\t0020* 0301", "00BC\t0031 2044 0034\t0031 2044 0034",
                     "00DF\t00DF\t0073 0073", "0132\t0049 004A\t0069 006A", "0149\t02BC 006E\t02BC 006E", "017F\t0073\t0073"):
            self.assertEqual(lines[int(line[:4], 16)], line)
        self.assertEqual(images.differences(lines), [])
        self.assertEqual(images.differences(lines[:-1]), [("017F\t0073\t0073", "nothing")])
        self.assertEqual(images.differences(lines + ["x"]), [("nothing", "x")])

    def test_definitions(self):
        self.assertEqual(images.differences(images_of_definitions.lines()), [])


class Strings(unittest.TestCase):
    """Whole strings."""

    def drawn(self):
        """Strings of characters that the steps treat differently."""
        dice = random.Random(1)
        return ["".join(dice.choice(WORTH) for _ in range(dice.randint(0, 7))) for _ in range(4000)]

    def test_prepared_again(self):
        """A prepared string is prepared to itself unless a space of NFKC stands at its start or after a space."""
        seen = {True: 0, False: 0}
        for string in self.drawn():
            for fold in (False, True):
                pairs = [pair for character in string for pair in image(character, fold)]
                before = [(" ", True)] + pairs
                loose = any(pair == images.KEPT and before[at][1] for at, pair in enumerate(pairs))
                once = prepared(string, fold)
                self.assertEqual(prepared(once, fold) == once, not loose, string)
                seen[loose] += 1
        self.assertGreater(min(seen.values()), 1000)

    def test_strings_equal_exactly_are_equal_ignoring_case(self):
        """Folding what is prepared without it gives what is prepared with it; x stands for spaces, which are not to be joined again."""
        for string in self.drawn():
            self.assertEqual(prepared(prepared(string, False).replace(" ", "x"), True),
                             prepared(string, True).replace(" ", "x"))

    def test_ascii(self):
        """Printable ASCII strings are prepared as document 01 has it."""
        dice = random.Random(2)
        for _ in range(2000):
            string = "".join(dice.choice("  aAbZ[z@`{~!\"") for _ in range(dice.randint(0, 9)))
            words = " ".join(word for word in string.split(" ") if word)
            self.assertEqual(prepared(string, False), words)
            self.assertEqual(prepared(string, True), "".join(one.lower() if "A" <= one <= "Z" else one for one in words))


if __name__ == "__main__":
    unittest.main()
