#include "tezqulom.h"

const char *tezqulom_text(uint64_t number)
{
    switch (number) {
    case TEZQULOM_DONE:
        return "done";
    case TEZQULOM_REFUSED_SIZE:
        return "a size or the budget is not within its limits";
    case TEZQULOM_REFUSED_TABLE:
        return "the table is not admitted";
    case TEZQULOM_REFUSED_FORM:
        return "the filter is not of the form, or the reference is malformed or not allowed";
    case TEZQULOM_REFUSED_VALUE:
        return "the value is not of the table's type, or the part passes its end";
    case TEZQULOM_REFUSED_TESTS:
        return "the tests needed exceed the budget";
    case TEZQULOM_REFUSED_ROOM:
        return "the room is under three numbers for each named value";
    case TEZQULOM_REFUSED_WALK:
        return "a header on the way along the reference doesn't fit";
    case TEZQULOM_FALSE:
        return "the filter is FALSE";
    case TEZQULOM_TRUE:
        return "the filter is TRUE";
    case TEZQULOM_UNDEFINED:
        return "the filter is Undefined, neither TRUE nor FALSE";
    case TEZQULOM_QUOTE_EMPTY:
        return "the text to quote is empty";
    case TEZQULOM_QUOTE_UTF8:
        return "the text to quote or escape is not UTF-8";
    case TEZQULOM_QUOTE_ROOM:
        return "the room is too small for the quoted or escaped text";
    default:
        return "this number is no answer of the interface";
    }
}
