"""The cases that the tests ask, each once, as cases for the comparison."""

import unittest

import draw
import engine

# The classes of the tests: those of document 01, and one for each request of document 02.
BASE = ("Licence", "Lists", "Rules", "Published", "Entries", "Contents", "Tables", "Filters")
REQUESTS = ("Preparation", "Bits", "Names", "LongNames")
NAMES = {"table": "check_table", "value": "check_value", "part": "part", "ask": "ask", "list": "listing"}


def cases(longest=700, classes=BASE + REQUESTS):
    """Every call of an entry that these tests make on inputs of at most `longest` octets in all."""
    import test_second

    found, kept = {}, {}

    def recording(entry, function):
        def record(*inputs):
            answer = function(*inputs)
            size = sum(len(given) for given in inputs if isinstance(given, bytes))
            if size <= longest:
                found.setdefault((entry, inputs), draw.Case(entry, inputs, answer))
            return answer
        return record

    suite = unittest.TestSuite()
    for name in classes:
        suite.addTests(unittest.defaultTestLoader.loadTestsFromTestCase(getattr(test_second, name)))
    for entry, name in NAMES.items():
        kept[name] = getattr(engine, name)
        setattr(engine, name, recording(entry, kept[name]))
    try:
        suite.run(unittest.TestResult())
    finally:
        for name, function in kept.items():
            setattr(engine, name, function)
    return list(found.values())
