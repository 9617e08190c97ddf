"""The matching rules: what they are on, which value texts conform, which values they accept."""

import re
from dataclasses import dataclass
from typing import Callable

import der
import names
import table as types
from dotted import OID_TEXT, arcs_of
from preparation import prepared
from reference import COUNT_TYPE

INTEGER_TEXT = re.compile(r"0|-?[1-9][0-9]*")
OCTETS_TEXT = re.compile(r"'((?:[0-9A-F]{2})*)'H")
BITS_TEXT = re.compile(r"'(?:([01]*)'B|([0-9A-F]*)'H)")
STRING_TEXT = re.compile(r'"((?:[^"]|"")*)"')
RULE_NAME = re.compile(r"[A-Za-z][A-Za-z0-9-]*")

# The asserted value of a text that does not conform.
NOT_CONFORMING = object()


def null_of(text):
    """presentMatch: value `NULL`."""
    return None if text == "NULL" else NOT_CONFORMING


def boolean_of(text):
    """Booleans: `TRUE` or `FALSE`."""
    return {"TRUE": True, "FALSE": False}.get(text, NOT_CONFORMING)


def integer_of(text):
    """Integers asserted are of any size; `-0` and leading zeros don't conform."""
    return int(text) if INTEGER_TEXT.fullmatch(text) else NOT_CONFORMING


def oid_of(text):
    """OIDs are dotted, two arcs or more, first 0..2, second below 40 under 0 and 1."""
    return arcs_of(text) if OID_TEXT.fullmatch(text) else NOT_CONFORMING


def octets_of(text):
    """Octets: `'..'H`, uppercase, even digits."""
    match = OCTETS_TEXT.fullmatch(text)
    return bytes.fromhex(match.group(1)) if match else NOT_CONFORMING


def bits_of(text):
    """Bits: `'..'B` or `'..'H`, as a text of 0 and 1."""
    match = BITS_TEXT.fullmatch(text)
    if not match:
        return NOT_CONFORMING
    if match.group(1) is not None:
        return match.group(1)
    return "".join(format(int(digit, 16), "04b") for digit in match.group(2))


def named_bits_of(text, numbers):
    """A named BIT STRING: bits as above, or a GSER list of names in braces (RFC 3641 section 3.5).

    Trailing zero bits are treated as absent (RFC 4517 section 4.2.1); stored values have none. Spaces stand after the opening
    brace, after a comma and before the closing brace. An unknown name doesn't conform, a repeated one counts once.
    """
    if text[:1] != "{" or text[-1:] != "}" or len(text) < 2:
        bits = bits_of(text)
        return bits if bits is NOT_CONFORMING else bits.rstrip("0")
    inner = text[1:-1].strip(" ")
    names = {name.lstrip(" ") for name in inner.split(",")} if inner else set()
    if not names <= numbers.keys():
        return NOT_CONFORMING
    ones = {numbers[name] for name in names}
    return "".join("1" if number in ones else "0" for number in range(max(ones, default=-1) + 1))


def unquoted(text):
    """What stands in a quoted text, `""` for a quote, or None."""
    match = STRING_TEXT.fullmatch(text)
    return match.group(1).replace('""', '"') if match else None


def string_of(text):
    """Strings: quoted, `""` for a quote, at least one character."""
    return unquoted(text) or NOT_CONFORMING


def name_of(text):
    """Names (Q-3): quoted RFC 4514 strings with dotted attribute types, within Q-3's limits."""
    string = unquoted(text)
    name = None if string is None else names.name_of(string)
    return NOT_CONFORMING if name is None else name


def rdn_of(text):
    """The same of exactly one RDN."""
    string = unquoted(text)
    rdn = None if string is None else names.rdn_of(string)
    return NOT_CONFORMING if rdn is None else rdn


def time_of(text):
    """Times: quoted, only the stored form."""
    if len(text) < 2 or text[0] != '"' or text[-1] != '"':
        return NOT_CONFORMING
    time = der.time_of_text(text[1:-1])
    return NOT_CONFORMING if time is None else time


def always(_stored, _asserted):
    """presentMatch accepts any value."""
    return True


def equal(stored, asserted):
    """An equality rule accepts an equal value."""
    return stored == asserted


def less(stored, asserted):
    """Ordering is TRUE if the stored value is less."""
    return stored < asserted


def same_exactly(stored, asserted):
    """caseExactMatch."""
    return prepared(stored, fold=False) == prepared(asserted, fold=False)


def same_ignoring_case(stored, asserted):
    """caseIgnoreMatch."""
    return prepared(stored, fold=True) == prepared(asserted, fold=True)


@dataclass(frozen=True)
class Rule:
    """One line of the table of rules."""

    name: str
    oid: str
    kinds: tuple
    read: Callable
    accepts: Callable


ANY = ()
# The rules of document 01, and those that Q-3 adds.
BASE_RULES = (
    Rule("presentMatch", "1.2.36.79672281.1.13.5", ANY, null_of, always),
    Rule("booleanMatch", "2.5.13.13", (der.BOOLEAN,), boolean_of, equal),
    Rule("integerMatch", "2.5.13.14", (der.INTEGER,), integer_of, equal),
    Rule("integerOrderingMatch", "2.5.13.15", (der.INTEGER,), integer_of, less),
    Rule("objectIdentifierMatch", "2.5.13.0", (der.OBJECT_IDENTIFIER,), oid_of, equal),
    Rule("octetStringMatch", "2.5.13.17", (der.OCTET_STRING,), octets_of, equal),
    Rule("octetStringOrderingMatch", "2.5.13.18", (der.OCTET_STRING,), octets_of, less),
    Rule("bitStringMatch", "2.5.13.16", der.BIT_KINDS, bits_of, equal),
    Rule("caseIgnoreMatch", "2.5.13.2", der.STRING_KINDS, string_of, same_ignoring_case),
    Rule("caseExactMatch", "2.5.13.5", der.STRING_KINDS, string_of, same_exactly),
    Rule("generalizedTimeMatch", "2.5.13.27", (der.GENERALIZED_TIME,), time_of, equal),
    Rule("generalizedTimeOrderingMatch", "2.5.13.28", (der.GENERALIZED_TIME,), time_of, less),
)
NAME_RULES = (
    Rule("distinguishedNameMatch", "2.5.13.1", (der.RDN_SEQUENCE,), name_of, names.same_name),
    Rule("rdnMatch", "1.2.36.79672281.1.13.3", (der.RELATIVE_NAME,), rdn_of, names.same_rdn),
)
RULES = BASE_RULES + NAME_RULES
BY_TEXT = {rule.oid: rule for rule in RULES} | {rule.name.lower(): rule for rule in RULES}


def well_formed(text):
    """`rule` is a dotted OID (as under Rules) or a name."""
    return bool(RULE_NAME.fullmatch(text) or OID_TEXT.fullmatch(text))


def find(text):
    """The rule that a well-formed text stands for, names without regard to case, or None."""
    return BY_TEXT.get(text.lower())


def choice_of_strings(table, row):
    """Whether a type row is a CHOICE of untagged string rows."""
    return table.rows[row].kind == der.CHOICE and all(
        table.rows[member].mode == types.NONE
        and table.rows[table.rows[member].points].kind in der.STRING_KINDS
        for member in table.members(row))


def applies(rule, table, target):
    """Whether the rule is for the type that a reference ends at."""
    if rule.kinds == ANY:
        return True
    if target == COUNT_TYPE:
        return der.INTEGER in rule.kinds
    if table.rows[target].kind in rule.kinds:
        return True
    return rule.kinds == der.STRING_KINDS and choice_of_strings(table, target)


def asserted(rule, table, target, text):
    """What a value text asserts under a rule for the type that a reference ends at, or NOT_CONFORMING."""
    if rule.read is bits_of and table.rows[target].kind == der.NAMED_BIT_STRING:
        return named_bits_of(text, table.bits_by_name(target))
    return rule.read(text)
