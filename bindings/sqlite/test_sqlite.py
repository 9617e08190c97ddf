"""Tests of the SQLite extension: python3 bindings/sqlite/test_sqlite.py EXTENSION, with a Python whose sqlite3 loads extensions."""

import pathlib
import sqlite3
import sys
import unittest

DATA = pathlib.Path(__file__).resolve().parents[2] / "crates" / "askvalue" / "data"
TABLE, VALUE = (DATA / "table").read_bytes(), (DATA / "value").read_bytes()
FILTER = (DATA / "filter").read_text()
EXTENSION = ""


class Ask(unittest.TestCase):
    """tezqulom_ask by SQL."""

    def setUp(self):
        self.database = sqlite3.connect(":memory:")
        self.database.enable_load_extension(True)
        self.database.load_extension(EXTENSION)

    def tearDown(self):
        self.database.close()

    def ask(self, *arguments):
        """The answer, by one question."""
        marks = ",".join("?" * len(arguments))
        return self.database.execute("SELECT tezqulom_ask(%s)" % marks, arguments).fetchone()[0]

    def test_answers(self):
        for answer, arguments in [
                ("TRUE 2", (TABLE, VALUE, FILTER)), ("FALSE 2", (TABLE, VALUE, FILTER.replace("3", "7"))),
                ("UNDEFINED 0", (TABLE, VALUE, FILTER.replace("integerMatch", "caseIgnoreMatch"))),
                ("REFUSED 1", (b"", VALUE, FILTER)), ("REFUSED 1", (TABLE, VALUE, "")), ("REFUSED 2", (b"\0", VALUE, FILTER)),
                ("REFUSED 3", (TABLE, VALUE, FILTER + "x")), ("REFUSED 3", (TABLE, VALUE, FILTER + "\0")),
                ("REFUSED 4", (TABLE, VALUE[:-1], FILTER)), ("REFUSED 4", (TABLE, VALUE + b"\0", FILTER))]:
            self.assertEqual(self.ask(*arguments), answer)

    def test_tests_beyond_the_budget(self):
        """A list of 2,046 strings, each tested by 33 items."""
        table, value = bytes.fromhex("0E000108"), bytes.fromhex("30820FFC") + bytes.fromhex("0C00") * 2046
        item = 'item:{component "*",rule caseExactMatch,value "a"}'
        for answer, items in [("FALSE 65472", 32), ("REFUSED 5", 33)]:
            self.assertEqual(self.ask(table, value, "or:{%s}" % ",".join([item] * items)), answer)

    def test_other_types(self):
        """An argument of another type is an error with a sentence."""
        for sentence, arguments in [
                ("the table (first argument) is not a BLOB", (None, VALUE, FILTER)), ("the table (first argument) is not a BLOB", ("02", VALUE, FILTER)),
                ("the record (second argument) is not a BLOB", (TABLE, None, FILTER)), ("the record (second argument) is not a BLOB", (TABLE, 5, FILTER)),
                ("the filter (third argument) is not TEXT", (TABLE, VALUE, None)), ("the filter (third argument) is not TEXT", (TABLE, VALUE, 5.0)),
                ("the filter (third argument) is not TEXT", (TABLE, VALUE, FILTER.encode()))]:
            with self.assertRaises(sqlite3.OperationalError) as caught:
                self.ask(*arguments)
            self.assertEqual(str(caught.exception), "tezqulom_ask: " + sentence)

    def test_number_of_arguments(self):
        for arguments in ((TABLE, VALUE), (TABLE, VALUE, FILTER, 1), ()):
            with self.assertRaisesRegex(sqlite3.OperationalError, "wrong number of arguments"):
                self.ask(*arguments)


if __name__ == "__main__":
    EXTENSION = sys.argv.pop()
    unittest.main()
