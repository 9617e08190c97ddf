/*
 * What the header says beside its functions: the version, the limits and the sentences. The program checks that the engine has the limits
 * where the header has them, prints the version and a sentence for each number, and ends with status 0, or 1 at the first check that
 * fails.
 */
#include "file.h"
#include "tezqulom.h"

#include <stdio.h>
#include <stdlib.h>
#include <string.h>

static const uint8_t integer[] = {0x02};          /* row 0: INTEGER */
static const uint8_t five[] = {0x02, 0x01, 0x05}; /* 5 */
static const char item[] = "item:{rule integerMatch,value 5}";

static void check(int holds, const char *what)
{
    if (!holds) {
        fprintf(stderr, "not so: %s\n", what);
        exit(1);
    }
}

/* The refusal of the entry `which` for an input of so many octets, or another answer's number. */
static uint64_t sized(char which, uint64_t length)
{
    uint8_t *octets = block(length);
    uint64_t number, room[3];
    memset(octets, ' ', (size_t)length);
    switch (which) {
    case 't':
        number = tezqulom_check_table(octets, length).number;
        break;
    case 'v':
        number = tezqulom_check_value(integer, sizeof integer, octets, length).number;
        break;
    case 'f':
        number = tezqulom_ask(integer, sizeof integer, five, sizeof five, octets, length, 0).number;
        break;
    default:
        number = tezqulom_list(integer, sizeof integer, five, sizeof five, 1, octets, length, 0, room, 3).number;
    }
    free(octets);
    return number;
}

static void check_sizes(char which, uint64_t least, uint64_t most, const char *what)
{
    if (least > 0)
        check(sized(which, least - 1) == TEZQULOM_REFUSED_SIZE, what);
    check(sized(which, least) != TEZQULOM_REFUSED_SIZE, what);
    check(sized(which, most) != TEZQULOM_REFUSED_SIZE, what);
    check(sized(which, most + 1) == TEZQULOM_REFUSED_SIZE, what);
}

static uint64_t asked(const char *filter, uint64_t budget)
{
    return tezqulom_ask(integer, sizeof integer, five, sizeof five, (const uint8_t *)filter, strlen(filter), budget).number;
}

/* A filter `before`, `count` times `one` with `between`, and `after`. */
static uint64_t repeated(const char *before, const char *one, const char *between, int count, const char *after)
{
    char filter[TEZQULOM_MAX_FILTER + 1];
    int i;
    strcpy(filter, before);
    for (i = 0; i < count; i++) {
        check(strlen(filter) + strlen(one) + strlen(between) + strlen(after) <= TEZQULOM_MAX_FILTER, "a filter fits");
        strcat(filter, i > 0 ? between : "");
        strcat(filter, one);
    }
    strcat(filter, after);
    return asked(filter, TEZQULOM_MAX_BUDGET);
}

static void check_filters(void)
{
    static const char shortest[] = "item:{rule 0.0,value 5}";
    check(asked(item, TEZQULOM_MAX_BUDGET) == TEZQULOM_TRUE, "the largest budget");
    check(asked(item, TEZQULOM_MAX_BUDGET + 1) == TEZQULOM_REFUSED_SIZE, "a larger budget");
    check(repeated("and:{", shortest, ",", TEZQULOM_MAX_ITEMS, "}") == TEZQULOM_UNDEFINED, "the most items");
    check(repeated("and:{", shortest, ",", TEZQULOM_MAX_ITEMS + 1, "}") == TEZQULOM_REFUSED_FORM, "more items");
    check(repeated("", "not:", "", TEZQULOM_MAX_DEPTH - 1, item) == TEZQULOM_FALSE, "the deepest filter");
    check(repeated("", "not:", "", TEZQULOM_MAX_DEPTH, item) == TEZQULOM_REFUSED_FORM, "a deeper filter");
}

/* A table of SEQUENCE OFs of the next row, the last row of INTEGER. */
static uint64_t chained(int rows)
{
    uint8_t table[3 * 32];
    int i;
    for (i = 0; i < rows - 1; i++) {
        table[3 * i] = 0x0E;
        table[3 * i + 1] = 0;
        table[3 * i + 2] = (uint8_t)(i + 1);
    }
    table[3 * i] = 0x02;
    return tezqulom_check_table(table, (uint64_t)(3 * i + 1)).number;
}

enum { KIND_16 = 0x10, KIND_21 = 0x15, AFTER_NAME = 14, LONG_TABLE = 3 + TEZQULOM_MAX_LONG_NAME + AFTER_NAME + 1 };

/* A table of a SEQUENCE of so many INTEGERs with explicit tags. */
static uint64_t with_members(int members)
{
    enum { MEMBER = 1 + TEZQULOM_MAX_NAME + AFTER_NAME };
    uint8_t table[2 + (TEZQULOM_MAX_MEMBERS + 1) * MEMBER + 1];
    int i;
    memset(table, 0, sizeof table);
    table[0] = 0x0C;
    table[1] = (uint8_t)members;
    for (i = 0; i < members; i++) {
        uint8_t *row = table + 2 + i * MEMBER, *after = row + 1 + TEZQULOM_MAX_NAME;
        row[0] = KIND_16;
        row[1] = (uint8_t)('a' + i);
        after[1] = (uint8_t)(members + 1);
        after[2] = 1;
        after[3] = (uint8_t)i;
    }
    table[2 + members * MEMBER] = 0x02;
    return tezqulom_check_table(table, (uint64_t)(2 + members * MEMBER + 1)).number;
}

/* Writes a table of a SEQUENCE of one INTEGER, whose name is so many letters of this one, in a row of this kind; the number of its octets, up to
 * LONG_TABLE. */
static uint64_t with_name(uint8_t *table, uint8_t kind, const char *name, int letters)
{
    int field = kind == KIND_21 ? TEZQULOM_MAX_LONG_NAME : TEZQULOM_MAX_NAME;
    int last = 3 + field + AFTER_NAME;
    memset(table, 0, (size_t)last);
    table[0] = 0x0C;
    table[1] = 1;
    table[2] = kind;
    memcpy(table + 3, name, (size_t)letters);
    table[3 + field + 1] = 2;
    table[last] = 0x02;
    return (uint64_t)(last + 1);
}

/* The refusal of such a table, or another answer's number. */
static uint64_t with_letters(uint8_t kind, int letters)
{
    static const char name[] = "abcdefghijklmnopqrstuvwxyzABCDEFGHIJKLMNOPQRSTUV";
    uint8_t table[LONG_TABLE];
    uint64_t length = with_name(table, kind, name, letters);
    return tezqulom_check_table(table, length).number;
}

static const uint8_t record[] = {0x30, 0x03, 0x02, 0x01, 0x05}; /* a SEQUENCE of 5 */

/* The number of the listing of a member of the record. */
static uint64_t listed_of(const uint8_t *table, uint64_t length, const char *member)
{
    uint64_t room[3];
    tezqulom_answer answer = tezqulom_list(table, length, record, sizeof record, 1, (const uint8_t *)member, strlen(member), 0, room, 3);
    check(answer.number != TEZQULOM_DONE || (answer.count == 1 && room[0] == 0 && room[1] == 2 && room[2] == 3), "the member is listed");
    return answer.number;
}

/* The truth of a filter that a member of the record is 5. */
static uint64_t asked_of(const uint8_t *table, uint64_t length, const char *member)
{
    char filter[TEZQULOM_MAX_FILTER];
    sprintf(filter, "item:{component \"%s\",rule integerMatch,value 5}", member);
    return tezqulom_ask(table, length, record, sizeof record, (const uint8_t *)filter, strlen(filter), TEZQULOM_MAX_BUDGET).number;
}

/* A long name names its member; its first 24 letters name nothing. */
static void check_long_name(void)
{
    static const char name[] = "educationalConcessionCategory", cut[] = "educationalConcessionCat";
    uint8_t table[LONG_TABLE];
    uint64_t length = with_name(table, KIND_21, name, sizeof name - 1);
    check(listed_of(table, length, name) == TEZQULOM_DONE, "a long name is listed");
    check(listed_of(table, length, cut) == TEZQULOM_REFUSED_FORM, "a long name that is cut is refused");
    check(asked_of(table, length, name) == TEZQULOM_TRUE, "a long name is asked about");
    check(asked_of(table, length, cut) == TEZQULOM_UNDEFINED, "a long name that is cut is Undefined");
}

static void check_member_names(void)
{
    check(with_letters(KIND_16, 1) == TEZQULOM_DONE && with_letters(KIND_16, TEZQULOM_MAX_NAME) == TEZQULOM_DONE, "names in kind 16");
    check(with_letters(KIND_21, TEZQULOM_MAX_NAME + 1) == TEZQULOM_DONE, "the shortest name in kind 21");
    check(with_letters(KIND_21, TEZQULOM_MAX_LONG_NAME) == TEZQULOM_DONE, "the longest name in kind 21");
    check(with_letters(KIND_21, TEZQULOM_MAX_NAME) == TEZQULOM_REFUSED_TABLE, "a shorter name in kind 21");
    check_long_name();
}

static void check_tables(void)
{
    uint8_t rows[TEZQULOM_MAX_ROWS + 1];
    memset(rows, 0x02, sizeof rows);
    check(tezqulom_check_table(rows, TEZQULOM_MAX_ROWS).count == TEZQULOM_MAX_ROWS, "the most rows");
    check(tezqulom_check_table(rows, TEZQULOM_MAX_ROWS + 1).number == TEZQULOM_REFUSED_TABLE, "more rows");
    check(chained(TEZQULOM_MAX_CHAIN) == TEZQULOM_DONE, "the longest chain");
    check(chained(TEZQULOM_MAX_CHAIN + 1) == TEZQULOM_REFUSED_TABLE, "a longer chain");
    check(with_members(TEZQULOM_MAX_MEMBERS) == TEZQULOM_DONE, "the most members");
    check(with_members(TEZQULOM_MAX_MEMBERS + 1) == TEZQULOM_REFUSED_TABLE, "more members");
}

/* Writes a name of so many RDNs, each of so many equal pairs; the number of its octets. */
static uint64_t name_of(uint8_t *name, int rdns, int pairs)
{
    static const uint8_t pair[] = {0x30, 0x07, 0x06, 0x03, 0x55, 0x04, 0x03, 0x13, 0x00}; /* 2.5.4.3, an empty PrintableString */
    uint64_t at = 4, contents;
    int i, j;
    for (i = 0; i < rdns; i++) {
        name[at++] = 0x31;
        name[at++] = (uint8_t)(pairs * (int)sizeof pair);
        for (j = 0; j < pairs; j++, at += sizeof pair)
            memcpy(name + at, pair, sizeof pair);
    }
    contents = at - 4;
    check(contents >= 256, "a length of two octets");
    name[0] = 0x30;
    name[1] = 0x82;
    name[2] = (uint8_t)(contents / 256);
    name[3] = (uint8_t)(contents % 256);
    return at;
}

/* The refusal of a name of so many RDNs, each of so many pairs, or another answer's number. */
static uint64_t named(int rdns, int pairs)
{
    static const uint8_t table[] = {0x13}; /* row 0: RDNSequence */
    uint8_t name[TEZQULOM_MAX_VALUE];
    uint64_t length = name_of(name, rdns, pairs);
    return tezqulom_check_value(table, sizeof table, name, length).number;
}

static void check_names(void)
{
    check(named(TEZQULOM_MAX_RDNS, TEZQULOM_MAX_PAIRS) == TEZQULOM_DONE, "the most RDNs and pairs");
    check(named(TEZQULOM_MAX_RDNS + 1, TEZQULOM_MAX_PAIRS) == TEZQULOM_REFUSED_VALUE, "more RDNs");
    check(named(TEZQULOM_MAX_RDNS, TEZQULOM_MAX_PAIRS + 1) == TEZQULOM_REFUSED_VALUE, "more pairs");
}

/* The longest value that names most: a list of NULLs. */
static void check_room(void)
{
    static const uint8_t nulls[] = {0x0E, 0x00, 0x01, 0x04};
    static const uint8_t head[] = {0x30, 0x82, 0x0F, 0xFC};
    uint8_t value[TEZQULOM_MAX_VALUE];
    uint64_t room[TEZQULOM_MAX_ROOM];
    tezqulom_answer listed;
    int i;
    memcpy(value, head, sizeof head);
    for (i = sizeof head; i < TEZQULOM_MAX_VALUE; i += 2) {
        value[i] = 0x05;
        value[i + 1] = 0x00;
    }
    listed = tezqulom_list(nulls, sizeof nulls, value, sizeof value, 1, (const uint8_t *)"*", 1, 0, room, TEZQULOM_MAX_ROOM);
    check(listed.number == TEZQULOM_DONE && listed.count == (TEZQULOM_MAX_VALUE - sizeof head) / 2, "room for every element");
}

int main(void)
{
    uint64_t number;
    check_sizes('t', TEZQULOM_MIN_TABLE, TEZQULOM_MAX_TABLE, "a table's sizes");
    check_sizes('v', TEZQULOM_MIN_VALUE, TEZQULOM_MAX_VALUE, "a value's sizes");
    check_sizes('f', TEZQULOM_MIN_FILTER, TEZQULOM_MAX_FILTER, "a filter's sizes");
    check_sizes('r', 0, TEZQULOM_MAX_REFERENCE, "a reference's sizes");
    check_filters();
    check_tables();
    check_member_names();
    check_room();
    check_names();
    printf("version %s\n", TEZQULOM_VERSION);
    for (number = 0; number < 64; number++)
        if (strcmp(tezqulom_text(number), tezqulom_text(UINT64_MAX)) != 0)
            printf("%u: %s\n", (unsigned)number, tezqulom_text(number));
    printf("other: %s\n", tezqulom_text(UINT64_MAX));
    end_output();
    return 0;
}
