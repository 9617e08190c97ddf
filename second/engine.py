"""The five entries: each has an answer for every input and raises nothing.

An answer is a tuple: ("refused", n), or ("admitted", rows), ("good",), ("part", octets),
("answer", truth, tests), ("listed", triples). The part's refusal has a third place, b"".
"""

import functools

import filters
import reference
import rules
import table as types
import value as values

TRUE, FALSE, UNDEFINED = "TRUE", "FALSE", "UNDEFINED"

# Q-4 takes 8,064 octets for the table.
TABLE_SIZES = range(1, 8064 + 1)
VALUE_SIZES = range(2, 4096 + 1)
FILTER_SIZES = range(1, 2048 + 1)
REFERENCE_SIZES = range(0, 2048 + 1)
BUDGETS = range(0, 65535 + 1)


class Refused(Exception):
    """Carries one number of the table of refusals."""

    def __init__(self, number):
        super().__init__(number)
        self.number = number


def refuse_unless(condition, number):
    """Give this refusal where the condition fails."""
    if not condition:
        raise Refused(number)


def answering(entry):
    """Turn the refusals raised inside an entry into its answer."""
    def answer(*given):
        try:
            return entry(*given)
        except Refused as refused:
            return ("refused", refused.number)
    answer.__doc__ = entry.__doc__
    return answer


# Many questions about one table and value follow one another: what was read last is kept.
read_table = functools.lru_cache(maxsize=1)(types.Table)
read_value = functools.lru_cache(maxsize=1)(values.decode)


def admitted(octets):
    """The table, or refusal 2."""
    try:
        return read_table(octets)
    except types.NotAdmitted:
        raise Refused(2) from None


def decoded(table, octets):
    """The tree of the value, or refusal 4."""
    tree = read_value(table, octets)
    refuse_unless(tree is not None, 4)
    return tree


@answering
def check_table(table):
    """The table check, alone: refusal 1 or 2, or the number of rows."""
    refuse_unless(len(table) in TABLE_SIZES, 1)
    return ("admitted", len(admitted(table).rows))


@answering
def check_value(table, value):
    """The value check, alone: refusal 1, 2 or 4, or good."""
    refuse_unless(len(table) in TABLE_SIZES and len(value) in VALUE_SIZES, 1)
    decoded(admitted(table), value)
    return ("good",)


def part(value, place, length):
    """The fifth entry: the bytes of a stored value, from place and length."""
    if len(value) not in VALUE_SIZES:
        return ("refused", 1, b"")
    if place + length > len(value):
        return ("refused", 4, b"")
    return ("part", value[place:place + length])


class Asking:
    """One reading of a filter, left to right, with the tests made so far."""

    def __init__(self, table, value, budget):
        self.table, self.value, self.budget, self.tests = table, value, budget, 0

    def truth(self, found):
        """Lists and `not` follow RFC 3687 section 4; Undefined stops nothing."""
        if isinstance(found, filters.Item):
            return self.assertion(found)
        if isinstance(found, filters.Not):
            inner = self.truth(found.filter)
            return {TRUE: FALSE, FALSE: TRUE, UNDEFINED: UNDEFINED}[inner]
        stop, end = (FALSE, TRUE) if found.word == "and" else (TRUE, FALSE)
        undefined = False
        for inner in found.filters:
            truth = self.truth(inner)
            if truth == stop:
                return stop
            undefined = undefined or truth == UNDEFINED
        return UNDEFINED if undefined else end

    def assertion(self, item):
        """TRUE if some named value is accepted, FALSE if none, or Undefined without a test."""
        steps = [] if item.component is None else reference.parse(item.component)
        target = None if steps is None else reference.target(self.table, steps)
        rule = rules.find(item.rule)
        if target is None or rule is None or not rules.applies(rule, self.table, target):
            return UNDEFINED
        asserted = rules.asserted(rule, self.table, target, item.value)
        if asserted is rules.NOT_CONFORMING:
            return UNDEFINED
        try:
            for named in reference.Walk(self.table, self.value, item.defaults).named(steps):
                refuse_unless(self.tests < self.budget, 5)
                self.tests += 1
                if rule.accepts(named.held, asserted):
                    return TRUE
        except reference.Misfit:
            raise Refused(7) from None
        return FALSE


@answering
def ask(table, value, filter_text, budget):
    """The engine's answer to a filter: refusal 1, 2, 3, 4, then 5 or 7, or truth and tests."""
    refuse_unless(len(table) in TABLE_SIZES and len(value) in VALUE_SIZES
                  and len(filter_text) in FILTER_SIZES and budget in BUDGETS, 1)
    rows = admitted(table)
    found = filters.parse(filter_text)
    refuse_unless(found is not None, 3)
    decoded(rows, value)
    asking = Asking(rows, value, budget)
    truth = asking.truth(found)
    return ("answer", truth, asking.tests)


def steps_of(table, given, octets):
    """The identifiers of a listing's reference, or None: malformed and not allowed are one."""
    if not given:
        return []
    try:
        steps = reference.parse(octets.decode("utf-8", "strict"))
    except UnicodeDecodeError:
        return None
    if steps is None or reference.target(table, steps) is None:
        return None
    return steps


@answering
def listing(table, value, given, octets, defaults, room):
    """The listing: refusal 1, 2, 3, 4, 7 or 6, or three numbers for each named value."""
    refuse_unless(len(table) in TABLE_SIZES and len(value) in VALUE_SIZES
                  and (not given or len(octets) in REFERENCE_SIZES), 1)
    rows = admitted(table)
    steps = steps_of(rows, given, octets)
    refuse_unless(steps is not None, 3)
    decoded(rows, value)
    try:
        named = [*reference.Walk(rows, value, defaults).named(steps)]
    except reference.Misfit:
        raise Refused(7) from None
    refuse_unless(room >= 3 * len(named), 6)
    return ("listed", [(one.source, one.place, one.number) for one in named])
