"""The filter text: GSER, case sensitive, valid UTF-8."""

import re
from dataclasses import dataclass

import rules

DEEPEST = 16
MOST_ITEMS = 64

LIST_START = re.compile(r"(and|or):\{ *")
COMPONENT = re.compile(r'component +"((?:[^"]|"")*)", *')
USE_DEFAULTS = re.compile(r"useDefaultValues +(TRUE|FALSE), *")
RULE = re.compile(r"rule +([A-Za-z0-9.-]+), *")
VALUE = re.compile(r"value +")
SPACES = re.compile(r" *")


class Malformed(Exception):
    """The filter is not of the form of document 01, or over depth or items."""


@dataclass(frozen=True)
class Item:
    """One assertion: `component` is the reference's text or None if there is none."""

    component: object
    defaults: bool
    rule: str
    value: str


@dataclass(frozen=True)
class Listed:
    """`and` or `or` of a list of filters."""

    word: str
    filters: tuple


@dataclass(frozen=True)
class Not:
    """`not` of a filter."""

    filter: object


class Reader:
    """Reads a filter from left to right; a list holds filters and a filter may hold a list."""

    def __init__(self, text):
        self.text, self.place, self.items = text, 0, 0

    def whole(self):
        """The filter is the whole text."""
        found = self.filter(1)
        if self.place != len(self.text):
            raise Malformed("text after the filter")
        return found

    def take(self, word):
        """Pass over a fixed text if it stands here."""
        if self.text.startswith(word, self.place):
            self.place += len(word)
            return True
        return False

    def match(self, pattern):
        """Pass over what the pattern matches here; the match or None."""
        found = pattern.match(self.text, self.place)
        if found:
            self.place = found.end()
        return found

    def filter(self, level):
        """One filter; an item or empty list is depth 1, `not` and a list add 1 to their deepest."""
        if level > DEEPEST:
            raise Malformed("depth")
        if self.take("not:"):
            return Not(self.filter(level + 1))
        if self.take("item:{"):
            self.items += 1
            if self.items > MOST_ITEMS:
                raise Malformed("items")
            return self.assertion()
        start = self.match(LIST_START)
        if start:
            return Listed(start.group(1), tuple(self.list(level + 1)))
        raise Malformed("no filter")

    def list(self, level):
        """The filters of a braced list, from after its opening brace and spaces."""
        found = []
        if self.take("}"):
            return found
        while True:
            found.append(self.filter(level))
            if self.take(","):
                self.match(SPACES)
                continue
            self.match(SPACES)
            if self.take("}"):
                return found
            raise Malformed("list not closed")

    def assertion(self):
        """`component`, `useDefaultValues`, `rule`, `value`, in that order, to the closing brace."""
        self.match(SPACES)
        component = self.match(COMPONENT)
        defaults = self.match(USE_DEFAULTS)
        rule = self.match(RULE)
        if not rule or not rules.well_formed(rule.group(1)):
            raise Malformed("rule")
        if not self.match(VALUE):
            raise Malformed("value")
        return Item(component.group(1).replace('""', '"') if component else None,
                    not defaults or defaults.group(1) == "TRUE", rule.group(1), self.value_text())

    def value_text(self):
        """The value text runs to the first closing brace that is neither in double quotes nor
        paired with an opening one inside; spaces at its ends are dropped; it may not be empty."""
        start, opened, quoted = self.place, 0, False
        for place in range(start, len(self.text)):
            character = self.text[place]
            if character == '"':
                quoted = not quoted
            elif quoted:
                continue
            elif character == "{":
                opened += 1
            elif character == "}" and opened:
                opened -= 1
            elif character == "}":
                self.place = place + 1
                found = self.text[start:place].strip(" ")
                if not found:
                    raise Malformed("empty value")
                return found
        raise Malformed("value without an end")


def parse(octets):
    """The filter that the octets hold, or None."""
    try:
        return Reader(octets.decode("utf-8", "strict")).whole()
    except (UnicodeDecodeError, Malformed):
        return None


def items(found):
    """The number of items in a filter."""
    if isinstance(found, Item):
        return 1
    if isinstance(found, Not):
        return items(found.filter)
    return sum(items(inner) for inner in found.filters)
