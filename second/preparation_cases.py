"""Cases of string preparation (Q-1 of document 02), imported by test_second."""

import unittest

from samples import asked, choice, item, leaf, member, of, tlv

IGNORE, EXACT = "caseIgnoreMatch", "caseExactMatch"
BOTH = (IGNORE, EXACT)


class Preparation(unittest.TestCase):
    """Q-1 and the project's readings of it, each on a table of one row."""

    def check(self, stored, accepted=(), not_accepted=(), rules=BOTH, kind=8):
        """Asserted strings, unquoted, that are accepted and not accepted."""
        for rule in rules:
            for strings, answer in ((accepted, "TRUE 1"), (not_accepted, "FALSE 1")):
                for string in strings:
                    text = item(None, rule, '"%s"' % string.replace('"', '""'))
                    self.assertEqual(asked(bytes([kind]), leaf(kind, stored.encode("utf-8")), text), answer, (stored, text))

    def test_names(self):
        self.check("\u00c9lan", ["\u00e9lan", "\u00c9LAN", "\u00e9LaN"], ["elan", "e\u0301lan"], [IGNORE])
        self.check("\u00c9lan", ["\u00c9lan"], ["\u00e9lan", "\u00c9LAN", "E\u0301lan"], [EXACT])
        self.check("stra\u00dfe", ["STRASSE", "strasse", "STRA\u00dfE", "stra\u017f\u017fe"], ["strase", "stra\u1e9ee"], [IGNORE])
        self.check("stra\u00dfe", ["stra\u00dfe"], ["strasse", "STRASSE"], [EXACT])
        self.check("\u0178\u0141\u00d0", ["\u00ff\u0142\u00f0"], ["\u00fd\u0142\u00f0", "\u00ff\u0142\u0111"], [IGNORE])
        self.check("\u00d7\u00f7", ["\u00d7\u00f7"], ["\u00f7\u00f7", "\u00d7\u00d7"])

    def test_order_of_the_steps(self):
        self.check("a \u00ad b", ["a b", "a\u00ad \u00adb"], ["a  \u0301b", "ab"])
        self.check("\u00ad a \u00ad", ["a", " a", "a\u0000 "], ["\u0301a"])
        self.check("\u0132", ["ij", "IJ", "\u0133", "iJ"], ["i", "\u0131j"], [IGNORE])
        self.check("\u0132", ["IJ"], ["ij", "\u0133", "Ij"], [EXACT])
        self.check("\u013f", ["l\u00b7", "\u0140", "L\u00b7"], ["l", "l\u2027"], [IGNORE])
        self.check("\u013f", ["L\u00b7"], ["l\u00b7", "\u0140", "L."], [EXACT])

    def test_space_that_nfkc_puts_before_a_mark(self):
        for character, mark in (("\u00a8", "\u0308"), ("\u00af", "\u0304"), ("\u00b4", "\u0301"), ("\u00b8", "\u0327")):
            self.check(" " + mark, [mark, "  " + mark], [character])
            self.check(character, [character, " %s " % character], [mark, " " + mark, "  " + mark, " "])
            self.check("a " + character, ["a  " + character, "a\u00a0" + character], ["a" + character, "a " + mark])
            self.check(" %s " % character, [character, "\t%s\u00ad" % character], [mark, " " + mark])
            self.check("a" + character, ["a  " + mark, "a " + mark, "a" + character], ["a" + mark, "a %s" % character])
            self.check(character + character, [character + " " + mark], [character + mark, character + " " + character])
            self.check(character + " b", [character + "  b"], [character + "b"])

    def test_exact_maps_all_but_case(self):
        self.check("a\u00a0b\u00ad", ["a b", "a\u0085b"], ["ab", "A B"], [EXACT])
        self.check("\u017f\u0132", ["sIJ"], ["SIJ", "sij", "\u017fij"], [EXACT])
        self.check("\u00aa\u00ba\u00b9\u00b2\u00b3", ["ao123"], ["a\u00b0123", "ao12"])
        self.check("\u00aa\u00ba", ["AO"], [], [IGNORE])
        self.check("\u00aa\u00ba", [], ["AO"], [EXACT])

    def test_several_characters(self):
        self.check("\u00df\u0130\u0149", ["SSi\u0307\u02bcN", "ss\u0130\u02bcn", "\u00dfI\u0307\u0149"], ["ssi\u02bcn", "ss\u0130'n"], [IGNORE])
        self.check("\u00df", ["\u00df"], ["ss", "SS", "s"], [EXACT])
        self.check("\u0130", ["\u0130"], ["i\u0307", "I\u0307", "i", "I", "\u0131"], [EXACT])
        self.check("\u0130", ["i\u0307", "I\u0307"], ["i", "I", "\u0131", "i\u0307\u0307"], [IGNORE])
        self.check("\u0149", ["\u02bcn"], ["\u02bcN", "n"], [EXACT])
        self.check("\u0149", ["\u02bcn", "\u02bcN"], ["n", "'n"], [IGNORE])
        self.check("\u00bc\u00bd\u00be", ["1\u204441\u204423\u20444"], ["1/41/23/4", "1\u20444"])
        self.check("\u00bc" * 60, ["1\u20444" * 60], ["1\u20444" * 59, "1\u20444" * 61])

    def test_images_above(self):
        self.check("\u00b5", ["\u03bc", "\u00b5"], ["\u039c", "u"])
        self.check("\u039c", ["\u039c"], ["\u03bc", "\u00b5"])

    def test_case_is_that_of_table_b_2(self):
        self.check("\u0131", ["\u0131"], ["i", "I", "\u0130"])
        self.check("\u017f", ["S", "s"], ["\u00df"], [IGNORE])
        self.check("\u017f", ["s"], ["S"], [EXACT])
        self.check("\u0138", ["\u0138"], ["k", "K", "q"])

    def test_controls(self):
        for kind in (8, 10):
            for control in "\u0000\u0001\u0008\u000e\u001f\u007f":
                self.check("a%sb" % control, ["ab", "a\u00adb"], ["a b"], BOTH, kind)
            for control in "\t\n\v\f\r":
                self.check("a%sb" % control, ["a b", "a\u00a0b", "a \u0085 b"], ["ab"], BOTH, kind)
        for control in "\u0080\u0084\u0086\u009f\u00ad":
            self.check("a%sb" % control, ["ab", "a\u0000b"], ["a b", "a\u0085b"])
        for space in "\u0085\u00a0":
            self.check("a%sb" % space, ["a b", "a \t b"], ["ab"])
            self.check("%sa%s" % (space, space), ["a", "  a "], ["b"])

    def test_prepared_to_nothing(self):
        for stored in ("", " ", "\u0000", "\u00ad\u00a0\t"):
            self.check(stored, ["\u00ad", "\u0000", " ", "\u0085\u007f", "\u00a0"], ["a", "\u0301", "\u00b4", "\u200b"])
            for text in ('""', "\u00ad", '"'):
                expected = "REFUSED 3" if text == '"' else "UNDEFINED 0"
                self.assertEqual(asked(b"\x08", leaf(8, stored.encode()), item(None, IGNORE, text)), expected)

    def test_nothing_is_prohibited(self):
        self.check("\ufffd\ue000", ["\ufffd\ue000"], ["\ufffd"])
        self.check("\u05d0a\u0340", ["\u05d0a\u0340"], ["a\u05d0\u0340"])
        self.check("\U000e0001\uffff", ["\U000e0001\uffff"], ["\uffff"])

    def test_above(self):
        for space in "\u1680\u2000\u2003\u2028\u2029\u202f\u205f\u3000":
            self.check("a%sb" % space, ["a%sb" % space], ["a b", "ab", "a\u00a0b"])
            self.check(space, [space, " %s" % space], [" "])
        for nothing in "\u034f\u06dd\u1806\u180b\u180e\u200b\u200c\u200f\u2060\u206f\ufe00\ufeff\ufffc":
            self.check("a%sb" % nothing, ["a%sb" % nothing], ["ab", "a b"])
        for upper, lower in ("\u0182\u0183", "\u0391\u03b1", "\u0410\u0430", "\u1e00\u1e01", "\u212ak", "\u2126\u03c9", "\uff21\uff41"):
            self.check(upper, [upper], [lower])
        self.check("\u01c4\ufb01\u1e9b", ["\u01c4\ufb01\u1e9b"], ["d\u017efi\u1e61", "D\u017dfi\u1e61"])

    def test_sequences(self):
        self.check("e\u0301", ["e\u0301"], ["\u00e9", "e"])
        self.check("E\u0301", ["e\u0301", "E\u0301"], ["\u00e9", "\u00c9"], [IGNORE])
        self.check("a\u0327\u0301", ["a\u0327\u0301"], ["a\u0301\u0327"])

    def test_the_rest_of_the_filter(self):
        value = leaf(8, b"a")
        for text, answer in [('value "a"', "TRUE 1"), ('value \u00a0"a"', "UNDEFINED 0"), ('value "a"\u00a0', "UNDEFINED 0"),
                             ('value\u00a0"a"', "REFUSED 3"), ('value \u00ad"a"', "UNDEFINED 0"), ('value \t"a"', "UNDEFINED 0"),
                             ('\u00advalue "a"', "REFUSED 3"), ('value "a\u00ad"', "TRUE 1"), ('value "\u00aa"', "TRUE 1")]:
            self.assertEqual(asked(b"\x08", value, "item:{rule caseIgnoreMatch,%s}" % text), answer, text)
        for rule in ("caseIgnoreMatc\u0125", "ca\u017feIgnoreMatch", "case\u0131gnoreMatch", "case\u0130gnoreMatch", "case\u00adIgnoreMatch",
                     "caseIgnoreMatch\u00a0", "\u00aabc", "2.5.13.\u00b2"):
            self.assertEqual(asked(b"\x08", value, item(None, rule, '"a"')), "REFUSED 3", rule)
        table = choice(member("s", 2)) + b"\x08"
        for component, answer in [("s", "TRUE 1"), ("\u017f", "UNDEFINED 0"), ("s\u00ad", "UNDEFINED 0"), ("\u00a0s", "UNDEFINED 0")]:
            self.assertEqual(asked(table, value, item(component, IGNORE, '"a"')), answer, component)

    def test_choice_of_strings(self):
        table = of(14, 1) + choice(member("a", 5), member("b", 6), member("c", 7)) + bytes([8, 9, 10])
        value = tlv(0x30, leaf(9, b"elan"), leaf(10, b"\0\x7f"), leaf(8, "\u00c9lan".encode()), leaf(10, b"a\t\nb\0"))
        for rule, string, answer in [(IGNORE, "\u00e9LAN", "TRUE 3"), (EXACT, "\u00e9LAN", "FALSE 4"), (IGNORE, "\u00ad", "TRUE 2"),
                                     (EXACT, "a b", "TRUE 4"), (EXACT, "ab", "FALSE 4"), (EXACT, "el\u00aan", "TRUE 1")]:
            self.assertEqual(asked(table, value, item("*", rule, '"%s"' % string)), answer, string)
