/*
 * Tezqulom: component filters (RFC 3687) over DER records whose types are given by a table.
 *
 * Link with -ltezqulom, which `bindings/install` installs, or with the archive libcapi.a, which `bindings/archive` writes, and bindings/c/text.c
 * (docs/BINDINGS.md).
 *
 * Every function takes any octets and any numbers, and answers for all of them: nothing has to be checked first. As for every C function, a pointer
 * and the length after it are memory that may be read (for `room`: written) for the whole call; where the length is 0 nothing is read, and the
 * pointer may be any. `room` shares no memory with the other arguments. Nothing is allocated, nothing is kept between calls, and only
 * tezqulom_list, tezqulom_quote and tezqulom_escape write, into `room` alone. So calls may run on several threads at once.
 */
#ifndef TEZQULOM_H
#define TEZQULOM_H

#include <stdint.h>

#ifdef __cplusplus
extern "C" {
#endif

/* This header's version. The text is that of the three numbers: "0.1.0". */
#define TEZQULOM_VERSION_MAJOR 0
#define TEZQULOM_VERSION_MINOR 1
#define TEZQULOM_VERSION_PATCH 0
#define TEZQULOM_VERSION                                                                                                                              \
    TEZQULOM_DIGITS(TEZQULOM_VERSION_MAJOR) "." TEZQULOM_DIGITS(TEZQULOM_VERSION_MINOR) "." TEZQULOM_DIGITS(TEZQULOM_VERSION_PATCH)
#define TEZQULOM_DIGITS(number) TEZQULOM_DIGITS_OF(number)
#define TEZQULOM_DIGITS_OF(number) #number

/* Limits. Beyond those of sizes and of the budget an input is refused 1. */
#define TEZQULOM_MIN_TABLE 1        /* octets */
#define TEZQULOM_MAX_TABLE 8064     /* octets */
#define TEZQULOM_MIN_VALUE 2        /* octets */
#define TEZQULOM_MAX_VALUE 4096     /* octets */
#define TEZQULOM_MIN_FILTER 1       /* octets */
#define TEZQULOM_MAX_FILTER 2048    /* octets */
#define TEZQULOM_MAX_REFERENCE 2048 /* octets, of a listing's reference */
#define TEZQULOM_MAX_BUDGET 65535   /* tests */

/* Limits of what stands in a table, refused 2, and in a filter, refused 3. */
#define TEZQULOM_MAX_ROWS 128     /* rows of a table */
#define TEZQULOM_MAX_CHAIN 16     /* type rows, each naming the next as its element or as its member's type */
#define TEZQULOM_MAX_MEMBERS 16   /* members of a SEQUENCE, alternatives of a CHOICE */
#define TEZQULOM_MAX_NAME 24      /* octets of a member's name in a row of kind 16, of a named bit's */
#define TEZQULOM_MAX_LONG_NAME 48 /* octets of a member's name in a row of kind 21, which is for names above TEZQULOM_MAX_NAME alone */
#define TEZQULOM_MAX_DEPTH 16     /* of a filter */
#define TEZQULOM_MAX_ITEMS 64     /* of a filter */

/* Limits of a distinguished name. A stored one beyond them is refused 4; an asserted one doesn't conform, and its item is Undefined. */
#define TEZQULOM_MAX_RDNS 16 /* RDNs of a name */
#define TEZQULOM_MAX_PAIRS 4 /* pairs of a type and a value in an RDN, 1 at least */

/* Numbers of room that are enough for every listing of a value of so many octets, and of any value. */
#define TEZQULOM_ROOM_FOR(octets) (((octets) < TEZQULOM_MAX_VALUE ? (octets) : TEZQULOM_MAX_VALUE) / 2 * 3)
#define TEZQULOM_MAX_ROOM TEZQULOM_ROOM_FOR(TEZQULOM_MAX_VALUE)

/* The compiler, where it can, warns of a call whose answer is not looked at. */
#ifndef TEZQULOM_WARN_UNUSED
#if defined(__GNUC__) || defined(__clang__)
#define TEZQULOM_WARN_UNUSED __attribute__((__warn_unused_result__))
#else
#define TEZQULOM_WARN_UNUSED
#endif
#endif

/* What an answer's `number` is: done, a refusal by its number, from tezqulom_ask alone a truth, or from tezqulom_quote and tezqulom_escape alone why
 * nothing is written. */
enum {
    TEZQULOM_DONE = 0,          /* admitted, good, listed, a part, quoted, escaped */
    TEZQULOM_REFUSED_SIZE = 1,  /* a size or the budget is not within its limits */
    TEZQULOM_REFUSED_TABLE = 2, /* the table is not admitted */
    TEZQULOM_REFUSED_FORM = 3,  /* the filter is not of the form, or over depth or items; a listing's reference is malformed or not allowed */
    TEZQULOM_REFUSED_VALUE = 4, /* the value is not one of the table's type; a part passes the value's end */
    TEZQULOM_REFUSED_TESTS = 5, /* the tests needed exceed the budget */
    TEZQULOM_REFUSED_ROOM = 6,  /* the room is under three numbers for each named value */
    TEZQULOM_REFUSED_WALK = 7,  /* a header on the way along a reference doesn't fit */
    TEZQULOM_FALSE = 16,
    TEZQULOM_TRUE = 17,
    TEZQULOM_UNDEFINED = 18,
    TEZQULOM_QUOTE_EMPTY = 32,  /* the text is empty; from tezqulom_quote alone */
    TEZQULOM_QUOTE_UTF8 = 33,   /* the text is not valid UTF-8 */
    TEZQULOM_QUOTE_ROOM = 34    /* the room is under the octets of the quoted or escaped text */
};

/* An answer: a number from above, and a count, which is 0 with a refusal and where nothing is written. */
typedef struct tezqulom_answer {
    uint64_t number;
    uint64_t count;
} tezqulom_answer;

/* Whether a table is admitted: TEZQULOM_DONE with the number of its rows, or refusal 1 or 2. */
TEZQULOM_WARN_UNUSED tezqulom_answer tezqulom_check_table(const uint8_t *table, uint64_t table_length);

/* Whether a value is one of the type of the table's row 0: TEZQULOM_DONE with count 0, or refusal 1, 2 or 4. */
TEZQULOM_WARN_UNUSED tezqulom_answer tezqulom_check_value(const uint8_t *table, uint64_t table_length, const uint8_t *value,
                                                          uint64_t value_length);

/* The octets of a stored value from a place on: TEZQULOM_DONE with their number, and they are value[place] to value[place + count - 1]; or refusal 1
 * or 4. */
TEZQULOM_WARN_UNUSED tezqulom_answer tezqulom_part(const uint8_t *value, uint64_t value_length, uint64_t place, uint64_t length);

/* What a component reference names: TEZQULOM_DONE with the number of named values, and three numbers for each from room[0] on (source, place,
 * number), by rising place; or refusal 1, 2, 3, 4, 6 or 7 with the room as it was. `given` 0: no reference, the whole value is named and `reference`
 * is not looked at; any other: the reference is the text without quotes. `defaults` 0: an absent member with a default names nothing; any other: it
 * names its default. `room_length` is in numbers. */
TEZQULOM_WARN_UNUSED tezqulom_answer tezqulom_list(const uint8_t *table, uint64_t table_length, const uint8_t *value, uint64_t value_length,
                                                   uint64_t given, const uint8_t *reference, uint64_t reference_length, uint64_t defaults,
                                                   uint64_t *room, uint64_t room_length);

/* The truth of a filter over a value: TEZQULOM_TRUE, TEZQULOM_FALSE or TEZQULOM_UNDEFINED with the number of tests made, or refusal 1, 2, 3, 4, 5
 * or 7. */
TEZQULOM_WARN_UNUSED tezqulom_answer tezqulom_ask(const uint8_t *table, uint64_t table_length, const uint8_t *value, uint64_t value_length,
                                                  const uint8_t *filter, uint64_t filter_length, uint64_t budget);

/* A text as a filter's value text has it: between quotes, each quote of it twice. TEZQULOM_DONE with the number of octets, written from room[0] on; or
 * TEZQULOM_QUOTE_EMPTY, _UTF8 or _ROOM with the room as it was. No text so quoted can end its item. Room of twice the text and 2 octets is enough. */
TEZQULOM_WARN_UNUSED tezqulom_answer tezqulom_quote(const uint8_t *text, uint64_t text_length, uint8_t *room, uint64_t room_length);

/* The value of an attribute as it stands in the text of a distinguished name (RFC 4514 section 2.4): a backslash before each of " + , ; < > \ and before
 * a space that is first or last and a # that is first, NUL as \00. TEZQULOM_DONE with the number of octets, written from room[0] on, none for an empty
 * text; or TEZQULOM_QUOTE_UTF8 or _ROOM with the room as it was. No text so escaped can end its pair; the whole name is then quoted for a filter. Room of
 * three times the text is enough. */
TEZQULOM_WARN_UNUSED tezqulom_answer tezqulom_escape(const uint8_t *text, uint64_t text_length, uint8_t *room, uint64_t room_length);

/* A sentence about an answer's number, in lower case and without a full stop, so that it can stand after a name and a colon; one for any other number
 * too. It is kept by the library, and is not to be written to. */
TEZQULOM_WARN_UNUSED const char *tezqulom_text(uint64_t number);

#ifdef __cplusplus
}
#endif

#endif
