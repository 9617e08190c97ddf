"""The engine's entries, and the quoting and escaping of texts for filters."""

import ctypes
import enum
import re
from typing import Any, Callable, Iterable, List, Mapping, NamedTuple, NoReturn, Optional, Sequence, Tuple, Union

from .library import CAnswer, library

Octets = Union[bytes, bytearray, memoryview]
Text = Union[str, Octets]

LONGEST_TABLE = 8064
LONGEST_VALUE = 4096
LONGEST_FILTER = 2048
MOST_TESTS = 65535
"""The largest budget."""

_DONE = 0
_LARGEST = 2 ** 64 - 1
_NAME = re.compile("[a-z](-?[A-Za-z0-9])*")
_TO_ESCAPE = re.compile(rb'["+,;<>\\\0]|\A[ #]| \Z')


class Truth(enum.Enum):
    """The truth of a filter over a value, with the interface's number.

    It has no bool(): whoever writes `if` has to say on which side Undefined stands.
    """

    FALSE = 16
    TRUE = 17
    UNDEFINED = 18

    def __bool__(self) -> NoReturn:
        raise TypeError("a truth is TRUE, FALSE or UNDEFINED: compare it")


class Refusal(enum.IntEnum):
    """Document 01's refusals."""

    SIZE = 1
    """A size or the budget is not within its limits."""
    TABLE = 2
    """The table is not admitted."""
    FORM = 3
    """The filter is not of the form, or over depth or items; a reference is malformed or not allowed."""
    VALUE = 4
    """The value is not one of the table's type; a part passes the value's end."""
    TESTS = 5
    """The tests needed exceed the budget."""
    ROOM = 6
    """The room is under three numbers for each named value."""
    WALK = 7
    """A header on the way along a reference doesn't fit. No input gives it."""


_SENTENCES = {
    Refusal.SIZE: "a size or the budget is not within its limits",
    Refusal.TABLE: "the table is not admitted",
    Refusal.FORM: "the filter is not of the form, or too deep, or has too many items",
    Refusal.VALUE: "the value is not one of the table's type",
    Refusal.TESTS: "the tests needed exceed the budget",
    Refusal.ROOM: "the room is under three numbers for each named value",
    Refusal.WALK: "a header on the way along a reference doesn't fit",
}
_REFERENCE = {Refusal.FORM: "the reference is malformed, or the table's type doesn't allow it"}
_PART = {Refusal.VALUE: "the part passes the value's end"}


class Refused(Exception):
    """An entry refused: `refusal` is why, `sentence` says it in words."""

    def __init__(self, refusal: Refusal, sentence: Optional[str] = None) -> None:
        self.refusal = Refusal(refusal)
        self.sentence = _SENTENCES[self.refusal] if sentence is None else sentence
        super().__init__(self.refusal, self.sentence)

    def __str__(self) -> str:
        return "refused %d: %s" % (self.refusal, self.sentence)


class Answer(NamedTuple):
    """The answer to a filter: its truth, and the number of values that a rule was applied to.

    It has no bool(), as its truth has none.
    """

    truth: Truth
    tests: int

    def __bool__(self) -> NoReturn:
        raise TypeError("an answer's truth is TRUE, FALSE or UNDEFINED: compare `.truth`")


class Stored(NamedTuple):
    """A stored value: where its own tag octet stands, and its whole length."""

    place: int
    length: int


class Default(NamedTuple):
    """The default of an absent member: the place of the SEQUENCE that lacks it, and the member's row."""

    place: int
    row: int


class Count(NamedTuple):
    """The number of elements of a list: the list's place, and that number."""

    place: int
    elements: int


Component = Union[Stored, Default, Count]
_SOURCES = (Stored, Default, Count)


def _octets(given: Any, name: str) -> Tuple[bytes, int]:
    """The octets of an argument and their number."""
    if not isinstance(given, bytes):
        try:
            given = memoryview(given).tobytes()
        except TypeError:
            raise TypeError("%s: bytes are needed, not %s" % (name, type(given).__name__)) from None
    return given, len(given)


def _text(given: Any, name: str) -> Tuple[bytes, int]:
    """The octets of a text argument and their number."""
    if isinstance(given, str):
        try:
            given = given.encode("utf-8")
        except UnicodeEncodeError:
            raise ValueError("%s: a text with a lone surrogate has no octets" % name) from None
    try:
        return _octets(given, name)
    except TypeError:
        raise TypeError("%s: str or bytes are needed, not %s" % (name, type(given).__name__)) from None


def _number(given: Any, name: str) -> int:
    """A number of 64 bits. A larger one is beyond every limit, and so is the largest of 64 bits."""
    if not isinstance(given, int):
        raise TypeError("%s: an int is needed, not %s" % (name, type(given).__name__))
    if given < 0:
        raise ValueError("%s: a number below 0" % name)
    return min(given, _LARGEST)


def counted(number: int, thing: str) -> str:
    """So many things, in words.

    >>> counted(1, "octet"), counted(2, "octet")
    ('1 octet', '2 octets')
    """
    return "%d %s%s" % (number, thing, "" if number == 1 else "s")


def _size_sentence(name: str, size: int, least: int, most: int) -> Optional[str]:
    """What is wrong with a size, or None."""
    return None if least <= size <= most else "the %s has %s, not %d to %d" % (name, counted(size, "octet"), least, most)


def _sizes(table: Optional[int] = None, value: Optional[int] = None, text: Optional[int] = None,
           reference: Optional[int] = None, budget: int = 0) -> Optional[str]:
    """The sentence for refusal 1 of these arguments."""
    for name, size, least, most in (("table", table, 1, LONGEST_TABLE), ("value", value, 2, LONGEST_VALUE),
                                    ("filter", text, 1, LONGEST_FILTER), ("reference", reference, 0, LONGEST_FILTER)):
        sentence = None if size is None else _size_sentence(name, size, least, most)
        if sentence is not None:
            return sentence
    return "the budget is %d, above %d" % (budget, MOST_TESTS) if budget > MOST_TESTS else None


def _accepted(answer: CAnswer, sizes: Callable[[], Optional[str]], own: Mapping[Refusal, str] = _SENTENCES) -> CAnswer:
    """The answer, where it is no refusal; `own` are sentences of the entry's own."""
    if Refusal.SIZE <= answer.number <= Refusal.WALK:
        refusal = Refusal(answer.number)
        raise Refused(refusal, sizes() if refusal is Refusal.SIZE else own.get(refusal))
    return answer


def _done(answer: CAnswer, sizes: Callable[[], Optional[str]], own: Mapping[Refusal, str] = _SENTENCES) -> int:
    """The count of an answer that is done or refused."""
    if _accepted(answer, sizes, own).number != _DONE:
        raise RuntimeError("the engine answered %d" % answer.number)
    return answer.count


def check_table(table: Octets) -> int:
    """The number of rows of an admitted table. Refused: SIZE, TABLE.

    >>> check_table(b"\\x0E\\x00\\x01\\x02")
    2
    """
    octets, size = _octets(table, "table")
    return _done(library.tezqulom_check_table(octets, size), lambda: _sizes(size))


def check_value(table: Octets, value: Octets) -> None:
    """Return if the value is one of the type of the table's row 0. Refused: SIZE, TABLE, VALUE.

    >>> check_value(b"\\x02", b"\\x02\\x02\\x00\\x05")
    Traceback (most recent call last):
    tezqulom.Refused: refused 4: the value is not one of the table's type
    """
    rows, value_octets = _octets(table, "table"), _octets(value, "value")
    _done(library.tezqulom_check_value(*rows, *value_octets), lambda: _sizes(rows[1], value_octets[1]))


def part(value: Octets, place: int, length: int) -> bytes:
    """The octets of a stored value from a place on. Refused: SIZE, VALUE.

    >>> part(b"\\x02\\x01\\x05", 1, 2)
    b'\\x01\\x05'
    """
    octets, size = _octets(value, "value")
    answer = library.tezqulom_part(octets, size, _number(place, "place"), _number(length, "length"))
    return octets[place:place + _done(answer, lambda: _sizes(value=size), _PART)]


def room_for(octets: int) -> int:
    """The numbers of room that are enough for every listing of a value of so many octets.

    No two components have one place, and at each place there is a tag octet and a length octet: so there is at
    most one component for two octets, and each needs three numbers.

    >>> room_for(4096)
    6144
    """
    return min(octets, LONGEST_VALUE) // 2 * 3


def list_into(table: Octets, value: Octets, reference: Optional[Text], defaults: bool, room: Any) -> List[Component]:
    """What a component reference names, by rising place, written into lent room.

    With None for the reference the whole value is named. With `defaults` an absent member that has a default
    names it, else it names nothing. The room is an array.array("Q") or a ctypes array of c_uint64. It takes three
    numbers for each component, from its start; the rest of it stays as it was, and so does all of it with a
    refusal. The answer is a list of Stored, Default and Count. Refused: SIZE, TABLE, FORM, VALUE, WALK, ROOM.

    >>> import array
    >>> room = array.array("Q", [0] * 3)
    >>> list_into(b"\\x0E\\x00\\x01\\x02", b"\\x30\\x03\\x02\\x01\\x07", "0", True, room)
    [Count(place=0, elements=1)]
    >>> room
    array('Q', [2, 0, 1])
    """
    rows, value_octets = _octets(table, "table"), _octets(value, "value")
    given, text = reference is not None, _text(b"" if reference is None else reference, "reference")
    numbers, size = _room(room)
    answer = library.tezqulom_list(*rows, *value_octets, given, *text, bool(defaults), numbers, size)
    count = _done(answer, lambda: _sizes(rows[1], value_octets[1], reference=text[1]), _REFERENCE)
    return [_SOURCES[numbers[at]](numbers[at + 1], numbers[at + 2]) for at in range(0, 3 * count, 3)]


def _room(room: Any) -> Tuple[Any, int]:
    """The lent room as numbers, and how many there are."""
    try:
        view = memoryview(room)
    except TypeError:
        raise TypeError("room: an array of numbers is needed, not %s" % type(room).__name__) from None
    with view:
        if view.format.lstrip("<") not in ("Q", "L") or view.itemsize != 8 or view.readonly:
            raise TypeError("room: unsigned numbers of 64 bits that can be written are needed")
        size = len(view)
    return (ctypes.c_uint64 * size).from_buffer(room), size


def listing(table: Octets, value: Octets, reference: Optional[Text] = None, defaults: bool = True) -> List[Component]:
    """What a component reference names, as list_into has it, with room of its own.

    Refused: SIZE, TABLE, FORM, VALUE, WALK.

    >>> listing(b"\\x02", b"\\x02\\x01\\x05")
    [Stored(place=0, length=3)]
    """
    octets, size = _octets(value, "value")
    return list_into(table, octets, reference, defaults, (ctypes.c_uint64 * room_for(size))())


def ask(table: Octets, value: Octets, filter_text: Text, budget: int = MOST_TESTS) -> Answer:
    """The truth of a filter over a value, with the number of tests made.

    Refused: SIZE, TABLE, FORM, VALUE, TESTS, WALK.

    >>> ask(b"\\x02", b"\\x02\\x01\\x05", 'item:{rule caseIgnoreMatch,value "5"}')
    Answer(truth=<Truth.UNDEFINED: 18>, tests=0)
    """
    return asker(table, filter_text, budget)(value)


def asker(table: Octets, filter_text: Text, budget: int = MOST_TESTS) -> Callable[[Octets], Answer]:
    """One question for many values: a function that answers as `ask` does.

    >>> below_six = asker(b"\\x02", "item:{rule integerOrderingMatch,value 6}")
    >>> [below_six(bytes([2, 1, number])).truth.name for number in (5, 6)]
    ['TRUE', 'FALSE']
    """
    rows, rows_size = _octets(table, "table")
    text, text_size = _text(filter_text, "filter_text")
    most = _number(budget, "budget")
    call, truths = library.tezqulom_ask, {truth.value: truth for truth in Truth}

    def asked(value: Octets) -> Answer:
        octets, size = _octets(value, "value")
        answer = call(rows, rows_size, octets, size, text, text_size, most)
        truth = truths.get(answer.number)
        if truth is None:
            _accepted(answer, lambda: _sizes(rows_size, size, text_size, budget=most))
            raise RuntimeError("the engine answered %d" % answer.number)
        return Answer(truth, answer.count)

    return asked


class NotQuoted(ValueError):
    """A text that has no quoted form: it is empty, or not UTF-8. One that is not UTF-8 has no escaped form either."""


_QUOTE_SENTENCES = {32: "an empty text has no quoted form", 33: "the text is not UTF-8"}


def quoted_by_library() -> bool:
    """Whether `quoted` asks the library. A library without tezqulom_quote has a function here in its place."""
    return hasattr(library, "tezqulom_quote")


def quoted(text: Text) -> str:
    """A text as the GSER string that stands for it in a filter: nothing in it can end its item.

    >>> quoted('say "e1"')
    '"say ""e1\"""'
    """
    octets, size = _text(text, "text")
    written = _quoted_by_library(octets, size) if quoted_by_library() else _quoted_here(octets)
    return written.decode("utf-8")


def _quoted_by_library(octets: bytes, size: int) -> bytes:
    """The quoted form by the library's function."""
    room = (ctypes.c_uint8 * (2 * size + 2))()
    answer = library.tezqulom_quote(octets, size, room, len(room))
    if answer.number != _DONE:
        raise NotQuoted(_QUOTE_SENTENCES.get(answer.number, "the engine answered %d" % answer.number))
    return bytes(room[:answer.count])


def _quoted_here(octets: bytes) -> bytes:
    """The quoted form, for a library that has no function for it."""
    if not octets:
        raise NotQuoted(_QUOTE_SENTENCES[32])
    try:
        octets.decode("utf-8")
    except UnicodeDecodeError:
        raise NotQuoted(_QUOTE_SENTENCES[33]) from None
    return b'"' + octets.replace(b'"', b'""') + b'"'


def escaped_by_library() -> bool:
    """Whether `escaped` asks the library. A library without tezqulom_escape has a function here in its place."""
    return hasattr(library, "tezqulom_escape")


def escaped(value: Text) -> str:
    """The value of an attribute as it stands in the text of a distinguished name (RFC 4514 section 2.4): nothing in it can end its pair.

    It is no text for a filter yet: `quoted` makes one of the whole name.

    >>> print(escaped('say "e1", Adacel+'))
    say \\"e1\\"\\, Adacel\\+
    """
    octets, size = _text(value, "value")
    written = _escaped_by_library(octets, size) if escaped_by_library() else _escaped_here(octets)
    return written.decode("utf-8")


def _escaped_by_library(octets: bytes, size: int) -> bytes:
    """The escaped form by the library's function."""
    room = (ctypes.c_uint8 * (3 * size))()
    answer = library.tezqulom_escape(octets, size, room, len(room))
    if answer.number != _DONE:
        raise NotQuoted(_QUOTE_SENTENCES.get(answer.number, "the engine answered %d" % answer.number))
    return bytes(room[:answer.count])


def _escaped_here(octets: bytes) -> bytes:
    """The escaped form, for a library that has no function for it."""
    try:
        octets.decode("utf-8")
    except UnicodeDecodeError:
        raise NotQuoted(_QUOTE_SENTENCES[33]) from None
    return _TO_ESCAPE.sub(lambda one: b"\\00" if one[0] == b"\0" else b"\\" + one[0], octets)


def bit_list(names: Iterable[str]) -> str:
    """Names of bits as the GSER list that stands for them in a filter, for bitStringMatch on a BIT STRING whose bits have names.

    A ValueError for what is no name, so nothing in it can end its item. A name that no bit has makes the item Undefined.

    >>> bit_list(["print", "perform"]), bit_list([])
    ('{print,perform}', '{}')
    """
    if isinstance(names, (str, bytes, Mapping)):
        raise TypeError("names: a list or set of names is needed, not %s" % type(names).__name__)
    given = sorted(names) if isinstance(names, (set, frozenset)) else list(names)
    for name in given:
        if not isinstance(name, str):
            raise TypeError("names: str is needed, not %s" % type(name).__name__)
        if not _NAME.fullmatch(name):
            raise ValueError("names: %r is no name of a bit" % name)
    return "{%s}" % ",".join(given)


def item(reference: Optional[str], rule: str, value: str, defaults: bool = True) -> str:
    """An item of a filter. The value is a GSER text: make one of a text by `quoted`, of names of bits by `bit_list`, of a distinguished name by
    `quoted_name`.

    >>> item("event", "caseExactMatch", quoted("e1"))
    'item:{component "event",rule caseExactMatch,value "e1"}'
    """
    component = "" if reference is None else "component %s," % quoted(reference)
    return "item:{%s%srule %s,value %s}" % (component, "" if defaults else "useDefaultValues FALSE,", rule, value)


def _public(names: Sequence[str]) -> None:
    """The classes bear the package's name, which is how users, pickles and messages name them."""
    for name in names:
        globals()[name].__module__ = "tezqulom"


_public(("Truth", "Refusal", "Refused", "Answer", "Stored", "Default", "Count", "NotQuoted"))
