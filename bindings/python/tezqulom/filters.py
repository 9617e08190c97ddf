"""A filter taken apart: the truth of each item, and of an Undefined its cause, by further questions to the engine."""

import re
from typing import Callable, Iterator, List, NamedTuple, Optional, Union

from .distinguished import OID, NotName, rdns_of
from .engine import Answer, Octets, Refusal, Refused, Text, Truth, ask, counted, item, listing
from .rows import Table
from .values import NAMES, Kind

MOST_DEPTH = 16
MOST_ITEMS = 64

# For each kind a value and asserted values that conform for its rules; presentMatch is for any. A BIT STRING's conform for a named one too.
_SAMPLES = ((Kind.BOOLEAN, "0101FF", "TRUE"), (Kind.INTEGER, "020100", "0"), (Kind.OBJECT_IDENTIFIER, "06012A", "1.2"),
            (Kind.OCTET_STRING, "040100", "'00'H"), (Kind.BIT_STRING, "030100", "'0'B"), (Kind.IA5_STRING, "160161", '"a"'),
            (Kind.GENERALIZED_TIME, "180F32303234303130313030303030305A", '"20240101000000Z"'), (Kind.NULL, "0500", "NULL"),
            (Kind.RDN_SEQUENCE, "3000", '"2.5.4.3=a"'), (Kind.RDN, "310A30080603550403130161", '"2.5.4.3=a"'))
_QUOTED = re.compile('"((?:[^"]|"")*)"')
_BIT_LIST = re.compile(r"\{ *[a-z][A-Za-z0-9-]*(?:, *[a-z][A-Za-z0-9-]*)* *\}")


class Malformed(ValueError):
    """A text that is no filter: the number of the character where reading ended, from 1, and what is wrong there."""

    def __init__(self, at: int, sentence: str) -> None:
        super().__init__(at, sentence)
        self.at, self.sentence = at, sentence

    def __str__(self) -> str:
        return "at character %d: %s" % (self.at, self.sentence)


class Item(NamedTuple):
    """An item: its text, and the parts of its assertion."""

    text: str
    reference: Optional[str]
    rule: str
    value: str


class Listed(NamedTuple):
    """A list: `and` or `or`."""

    word: str
    filters: List["Filter"]


class Not(NamedTuple):
    """A negated filter."""

    filter: "Filter"


Filter = Union[Item, Listed, Not]


class _Reader:
    """Reads a filter's text."""

    COMPONENT = re.compile(r'component +"((?:[^"]|"")*)", *')
    DEFAULTS = re.compile(r"useDefaultValues +(TRUE|FALSE), *")
    RULE = re.compile("rule +([A-Za-z][A-Za-z0-9-]*|%s), *" % OID)
    VALUE = re.compile("value +")

    def __init__(self, text: str) -> None:
        self.text, self.at, self.items = text, 0, 0

    def fail(self, sentence: str) -> Malformed:
        return Malformed(self.at + 1, sentence)

    def word(self, *words: str) -> Optional[str]:
        """Pass the first of the words that stands here."""
        for word in words:
            if self.text.startswith(word, self.at):
                self.at += len(word)
                return word
        return None

    def spaces(self) -> None:
        while self.word(" "):
            pass

    def matched(self, form: "re.Pattern[str]") -> Optional["re.Match[str]"]:
        """Pass what has a form here."""
        found = form.match(self.text, self.at)
        if found is not None:
            self.at = found.end()
        return found

    def filter(self, depth: int) -> Filter:
        """A filter, that may be so deep."""
        if not depth:
            raise self.fail("the filter is deeper than %d" % MOST_DEPTH)
        word = self.word("item:", "and:", "or:", "not:")
        if word is None:
            raise self.fail("item:, and:, or: or not: is needed")
        if word == "item:":
            return self.item()
        return Not(self.filter(depth - 1)) if word == "not:" else self.list(word[:-1], depth)

    def list(self, word: str, depth: int) -> Listed:
        """A list of filters."""
        found: List[Filter] = []
        self.need("{")
        if self.word("}"):
            return Listed(word, found)
        while True:
            found.append(self.filter(depth - 1))
            if self.word(","):
                self.spaces()
                continue
            self.spaces()
            if not self.word("}"):
                raise self.fail("a comma or a closing brace is needed")
            return Listed(word, found)

    def need(self, opening: str) -> None:
        """Pass an opening brace and spaces."""
        if not self.word(opening):
            raise self.fail("an opening brace is needed")
        self.spaces()

    def item(self) -> Item:
        """An item's assertion."""
        self.items += 1
        if self.items > MOST_ITEMS:
            raise self.fail("the filter has more than %d items" % MOST_ITEMS)
        start = self.at - len("item:")
        self.need("{")
        component = self.matched(self.COMPONENT)
        self.matched(self.DEFAULTS)
        rule = self.matched(self.RULE)
        if rule is None:
            raise self.fail("rule, a rule's name or dotted OID and a comma are needed")
        if not self.matched(self.VALUE):
            raise self.fail("value and a space are needed")
        value = self.value()
        reference = None if component is None else component.group(1).replace('""', '"')
        return Item(self.text[start:self.at], reference, rule.group(1), value)

    def value(self) -> str:
        """The value text, which the first unpaired closing brace outside of quotes ends."""
        start, depth, within = self.at, 0, False
        for at in range(start, len(self.text)):
            one = self.text[at]
            within ^= one == '"'
            depth += 0 if within else (one == "{") - (one == "}")
            if depth < 0:
                self.at = at + 1
                if not self.text[start:at].strip(" "):
                    raise Malformed(at + 1, "the value is empty")
                return self.text[start:at].strip(" ")
        raise self.fail("the value's quotes or braces are not closed")


def read(text: str) -> Filter:
    """A filter's text, taken apart. The engine says whether it is one; this says where reading ends."""
    reader = _Reader(text)
    found = reader.filter(MOST_DEPTH)
    if reader.at < len(text):
        raise reader.fail("the filter ends here, and more follows")
    return found


def why_filter(table: Octets, filter_text: Text) -> Optional[str]:
    """Why the engine refuses a filter (1 or 3), in a sentence; None where it takes it. Refused: TABLE, and SIZE of the table."""
    try:
        ask(table, b"\0\0", filter_text)
        return None
    except Refused as refused:
        if refused.refusal in (Refusal.VALUE, Refusal.TESTS):
            return None
        if refused.refusal is Refusal.TABLE or refused.refusal is Refusal.SIZE and "filter" not in refused.sentence:
            raise
        if refused.refusal is Refusal.SIZE:
            return refused.sentence
    try:
        read(filter_text if isinstance(filter_text, str) else bytes(filter_text).decode("utf-8"))
    except UnicodeDecodeError as bad:
        return "at octet %d: the filter is not UTF-8" % bad.start
    except Malformed as bad:
        return str(bad)
    return "the engine refuses the filter; the cause was not found"


class Explained(NamedTuple):
    """A filter's truth: the words or the item, its depth in the filter, its answer, and of an Undefined item the cause."""

    depth: int
    text: str
    truth: Truth
    tests: Optional[int]
    """The tests of an item asked alone."""
    cause: Optional[str] = None


def explain(table: Octets, value: Octets, filter_text: Text) -> List[Explained]:
    """The truth of each filter in a filter, from the outside in, each item asked alone. Refused as `ask` is, but for TESTS."""
    try:
        whole: Optional[Answer] = ask(table, value, filter_text)
    except Refused as refused:
        if refused.refusal is not Refusal.TESTS:
            raise
        whole = None
    text = filter_text if isinstance(filter_text, str) else bytes(filter_text).decode("utf-8")
    lines = list(_explained(read(text), 0, lambda one: ask(table, value, one), lambda one: _cause(table, value, one)))
    if whole is not None and lines[0].truth is not whole.truth:
        raise RuntimeError("the parts give %s, the engine %s" % (lines[0].truth.name, whole.truth.name))
    return lines


def _explained(found: Filter, depth: int, asked: Callable[[str], Answer], cause: Callable[[Item], str]) -> Iterator[Explained]:
    """The lines of a filter: its own first."""
    if isinstance(found, Item):
        answer = asked(found.text)
        undefined = answer.truth is Truth.UNDEFINED
        yield Explained(depth, found.text, answer.truth, answer.tests, cause(found) if undefined else None)
        return
    inner = [found.filter] if isinstance(found, Not) else found.filters
    below = [list(_explained(one, depth + 1, asked, cause)) for one in inner]
    truths = [lines[0].truth for lines in below]
    word = "not" if isinstance(found, Not) else found.word
    yield Explained(depth, word, _combined(word, truths), None)
    for lines in below:
        yield from lines


def _combined(word: str, truths: List[Truth]) -> Truth:
    """What a list or `not` makes of truths (RFC 3687 section 4)."""
    if word == "not":
        return {Truth.TRUE: Truth.FALSE, Truth.FALSE: Truth.TRUE}.get(truths[0], Truth.UNDEFINED)
    ending, other = (Truth.FALSE, Truth.TRUE) if word == "and" else (Truth.TRUE, Truth.FALSE)
    return ending if ending in truths else Truth.UNDEFINED if Truth.UNDEFINED in truths else other


def _cause(table: Octets, value: Octets, found: Item) -> str:
    """Why an item is Undefined, by further questions."""
    if found.reference is not None and not _allowed(table, value, found.reference):
        return 'the reference "%s" is malformed, or the table\'s type doesn\'t allow it' % found.reference
    if not any(_defined(bytes([kind]), bytes.fromhex(octets), None, found.rule, text) for kind, octets, text in _SAMPLES):
        return "the rule %s is unknown" % found.rule
    if not any(_defined(table, value, found.reference, found.rule, text) for _, _, text in _SAMPLES):
        return "the rule %s is not for the type there" % found.rule
    rows = Table(table)
    return "the value %s doesn't conform for the rule %s%s" % (found.value, found.rule, _unnamed(rows, found) or _no_name(rows, found))


def _unnamed(table: Table, found: Item) -> str:
    """What is wrong with a list of names of bits."""
    row = table.reached(found.reference)
    if row is None or not _BIT_LIST.fullmatch(found.value) or not _defined(bytes([Kind.BIT_STRING]), b"\3\1\0", None, found.rule, "'0'B"):
        return ""
    if table.kind(row) is Kind.BIT_STRING:
        return ": the bits there have no names"
    unknown = [name for name in re.findall("[^{}, ]+", found.value) if name not in table.bits(row)]
    return ": no bit has the name %s" % unknown[0] if table.kind(row) is Kind.NAMED_BIT_STRING and unknown else ""


def _no_name(table: Table, found: Item) -> str:
    """What is wrong with a distinguished name."""
    row = table.reached(found.reference)
    sample = next((bytes.fromhex(octets) for kind, octets, _ in _SAMPLES if row is not None and kind in NAMES and kind is table.kind(row)), None)
    if row is None or sample is None or not _defined(bytes([table.kind(row)]), sample, None, found.rule, '"2.5.4.3=a"'):
        return ""
    text = _QUOTED.fullmatch(found.value)
    if text is None:
        return ": it is no quoted string"
    try:
        rdns = rdns_of(text.group(1).replace('""', '"'))
    except NotName as bad:
        return ": %s" % bad
    return ": it has %s, not one" % counted(len(rdns), "RDN") if table.kind(row) is Kind.RDN and len(rdns) != 1 else ""


def _allowed(table: Octets, value: Octets, reference: str) -> bool:
    """Whether the engine takes a reference."""
    try:
        listing(table, value, reference)
    except Refused:
        return False
    return True


def _defined(table: Octets, value: Octets, reference: Optional[str], rule: str, text: str) -> bool:
    """Whether an item is TRUE or FALSE."""
    try:
        return ask(table, value, item(reference, rule, text)).truth is not Truth.UNDEFINED
    except Refused:
        return False
