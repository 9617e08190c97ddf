/*
 * Damaged inputs for all five entries.
 *
 *     damaged TABLE VALUE FILTER REFERENCE ROUNDS
 *
 * The first four are files with document 01's licence record and questions about it. A round asks each entry about copies of them,
 * and of a long record made from the value's parts, in which octets are changed, dropped, put in or cut off; what is done follows
 * from the round's number alone. Each input is in a block of exactly its size, and so is the room, so that valgrind sees an access
 * outside. The program checks that each answer is one of its entry's, that a refusal brings count 0 and leaves the room as it was,
 * that a listing writes no more than it says, and that every answer of every entry but refusal 7 came. It prints how often each came
 * and ends with status 0, or 1 at the first check that fails.
 */
#include "file.h"
#include "tezqulom.h"

#include <stdio.h>
#include <stdlib.h>
#include <string.h>

enum { MANY = TEZQULOM_MAX_TABLE /* the largest limit of a size */, LARGEST = 2 * MANY, PAIRS = 270, NUMBERS = 19 };
enum entry { CHECK_TABLE, CHECK_VALUE, PART, LIST, ASK, ENTRIES };

static const uint64_t UNWRITTEN = 9999; /* no listing writes it */

static const char *const names[ENTRIES] = {"check_table", "check_value", "part", "list", "ask"};

/* The numbers that each entry answers, ended by -1. No input gives 7. */
static const int answers[ENTRIES][9] = {
    {TEZQULOM_DONE, 1, 2, -1},
    {TEZQULOM_DONE, 1, 2, 4, -1},
    {TEZQULOM_DONE, 1, 4, -1},
    {TEZQULOM_DONE, 1, 2, 3, 4, 6, -1},
    {TEZQULOM_FALSE, TEZQULOM_TRUE, TEZQULOM_UNDEFINED, 1, 2, 3, 4, 5, -1},
};

static unsigned long seen[ENTRIES][NUMBERS];
static unsigned long round_now;
static uint64_t state;

static void check(int holds, const char *what)
{
    if (!holds) {
        fprintf(stderr, "round %lu: not so: %s\n", round_now, what);
        exit(1);
    }
}

/* SplitMix64. */
static uint64_t draw(void)
{
    uint64_t z = state += 0x9E3779B97F4A7C15u;
    z = (z ^ (z >> 30)) * 0xBF58476D1CE4E5B9u;
    z = (z ^ (z >> 27)) * 0x94D049BB133111EBu;
    return z ^ (z >> 31);
}

static uint64_t below(uint64_t limit)
{
    return draw() % limit;
}

/* One change of what stands in `octets`, which has room for LARGEST. The length afterwards. */
static uint64_t damage(uint8_t *octets, uint64_t length)
{
    uint64_t at = below(length + 1), more = below(40) == 0 ? MANY : 1 + below(3);
    switch (below(5)) {
    case 0:
        return at;
    case 1:
        if (length + more > LARGEST)
            return length;
        memmove(octets + at + more, octets + at, length - at);
        memset(octets + at, (int)below(256), more);
        return length + more;
    case 2:
        if (at < length)
            memmove(octets + at, octets + at + 1, length - at - 1);
        return at < length ? length - 1 : length;
    case 3:
        if (at < length)
            octets[at] = (uint8_t)draw();
        return length;
    default:
        if (at < length)
            octets[at] ^= (uint8_t)(1u << below(8));
        return length;
    }
}

/* A copy with up to two changes, often none, in a block of its exact size. */
static struct octets damaged(struct octets from)
{
    static uint8_t octets[LARGEST];
    static const unsigned changes[] = {0, 0, 0, 0, 1, 2};
    struct octets copy;
    unsigned left = changes[below(6)];
    check(from.length <= LARGEST, "an input fits");
    copy.length = from.length;
    memcpy(octets, from.at, from.length);
    for (; left > 0; left--)
        copy.length = damage(octets, copy.length);
    copy.at = block(copy.length);
    memcpy(copy.at, octets, copy.length);
    return copy;
}

/* Counts an answer, after the checks that hold for each entry. */
static void count(enum entry entry, tezqulom_answer answer)
{
    const int *one = answers[entry];
    while (*one >= 0 && (uint64_t)*one != answer.number)
        one++;
    check(*one >= 0, "the answer is one of its entry's");
    if (answer.number != TEZQULOM_DONE && answer.number < TEZQULOM_FALSE)
        check(answer.count == 0, "a refusal brings count 0");
    seen[entry][answer.number]++;
}

static void ask_table(struct octets table)
{
    tezqulom_answer answer = tezqulom_check_table(table.at, table.length);
    count(CHECK_TABLE, answer);
    if (answer.number == TEZQULOM_DONE)
        check(answer.count >= 1 && answer.count <= 128, "a table has 1 to 128 rows");
}

static void ask_value(struct octets table, struct octets value)
{
    tezqulom_answer answer = tezqulom_check_value(table.at, table.length, value.at, value.length);
    count(CHECK_VALUE, answer);
    check(answer.count == 0, "a good value brings count 0");
}

/* Around a value's length, or that with a bit set above. */
static uint64_t place_or_length(uint64_t length)
{
    return below(length + 2) + (below(8) ? 0 : (uint64_t)1 << (16 + below(48)));
}

static void ask_part(struct octets value)
{
    uint64_t place = place_or_length(value.length), length = place_or_length(value.length);
    int within = place <= value.length && length <= value.length - place;
    tezqulom_answer answer = tezqulom_part(value.at, value.length, place, length);
    count(PART, answer);
    if (answer.number == TEZQULOM_DONE)
        check(answer.count == length && within, "a part is as long as asked, and within the value");
    check(answer.number != TEZQULOM_REFUSED_VALUE || !within, "a part that is refused 4 passes the value's end");
}

/* What a listing wrote: known sources, rising places, stored values within the value. */
static void check_listed(struct octets value, const uint64_t *room, uint64_t named)
{
    uint64_t i;
    for (i = 0; i < named; i++) {
        const uint64_t *one = room + 3 * i;
        check(one[0] <= 2, "a source is 0, 1 or 2");
        check(i == 0 || one[1] > one[-2], "places rise");
        if (one[0] == 0)
            check(tezqulom_part(value.at, value.length, one[1], one[2]).number == TEZQULOM_DONE, "a stored value is a part");
    }
}

static void ask_list(struct octets table, struct octets value, struct octets reference)
{
    static const uint64_t others[] = {0, 1, 2, (uint64_t)1 << 32, UINT64_MAX};
    uint64_t given = others[below(5)], defaults = others[below(5)];
    uint64_t room_length = below(3) ? below(8) : below(6200), i;
    uint64_t *room = block(room_length * sizeof *room);
    tezqulom_answer answer;
    for (i = 0; i < room_length; i++)
        room[i] = UNWRITTEN;
    answer = tezqulom_list(table.at, table.length, value.at, value.length, given, reference.at, reference.length, defaults, room,
                           room_length);
    count(LIST, answer);
    check(answer.count <= room_length / 3, "what is listed has room");
    for (i = 0; i < room_length; i++)
        check((room[i] == UNWRITTEN) == (i >= 3 * answer.count), "three numbers for each value are written, and no more");
    check_listed(value, room, answer.count);
    if (given == 0 && answer.number == TEZQULOM_DONE)
        check(answer.count == 1 && room[0] == 0 && room[1] == 0 && room[2] == value.length, "no reference names the whole value");
    check(given != 0 || answer.number != TEZQULOM_REFUSED_FORM, "no reference is not refused 3");
    free(room);
}

static void ask_filter(struct octets table, struct octets value, struct octets filter)
{
    static const uint64_t budgets[] = {0, 1, 2, 65535, 65535, 65535, 65536, UINT64_MAX};
    uint64_t budget = budgets[below(8)];
    tezqulom_answer answer = tezqulom_ask(table.at, table.length, value.at, value.length, filter.at, filter.length, budget);
    count(ASK, answer);
    check(answer.count <= budget, "the tests are within the budget");
}

/* The licence record with its two parts repeated. They are the last 15 octets of the value. */
static struct octets long_record(struct octets value)
{
    static const uint8_t head[] = {0x30, 0x82, 0x0F, 0xDA, 0x0C, 0x02, 0x65, 0x31, 0x30, 0x82, 0x0F, 0xD2};
    struct octets record;
    uint64_t i;
    check(value.length == 23, "the value is the licence record");
    record.length = sizeof head + PAIRS * 15;
    record.at = block(record.length);
    memcpy(record.at, head, sizeof head);
    for (i = 0; i < PAIRS; i++)
        memcpy(record.at + sizeof head + 15 * i, value.at + 8, 15);
    return record;
}

/* Filters with each truth: the one given, FALSE and Undefined. */
static struct octets some_filter(struct octets filter)
{
    static const char *const texts[] = {
        "or:{item:{component \"seats\",rule integerMatch,value 2}, and:{not:item:{rule presentMatch,value NULL}}}",
        "not:item:{component \"event\",rule integerMatch,value 3}",
        "item:{component \"parts.*.name\",useDefaultValues FALSE,rule caseIgnoreMatch,value \" va \"}",
    };
    uint64_t which = below(4);
    if (which < 3) {
        filter.at = (uint8_t *)texts[which];
        filter.length = strlen(texts[which]);
    }
    return filter;
}

/* All entries, about damaged copies. */
static void ask_all(struct octets table, struct octets value, struct octets filter, struct octets reference)
{
    table = damaged(table);
    value = damaged(value);
    filter = damaged(some_filter(filter));
    reference = damaged(reference);
    ask_table(table);
    ask_value(table, value);
    ask_part(value);
    ask_list(table, value, reference);
    ask_filter(table, value, filter);
    free(table.at);
    free(value.at);
    free(filter.at);
    free(reference.at);
}

/* Where a length is 0 the pointer may be any. */
static void ask_nothing(struct octets table, struct octets value)
{
    uint8_t *nowhere[2] = {NULL, (uint8_t *)16};
    int i;
    for (i = 0; i < 2; i++) {
        uint8_t *any = nowhere[i];
        check(tezqulom_check_table(any, 0).number == 1, "an empty table is refused 1");
        check(tezqulom_check_value(table.at, table.length, any, 0).number == 1, "an empty value is refused 1");
        check(tezqulom_part(any, 0, 0, 0).number == 1, "a part of an empty value is refused 1");
        check(tezqulom_ask(table.at, table.length, value.at, value.length, any, 0, 0).number == 1, "an empty filter is refused 1");
        check(tezqulom_list(table.at, table.length, value.at, value.length, 1, any, 0, 0, (uint64_t *)any, 0).number == 3,
              "an empty reference is refused 3");
        check(tezqulom_list(table.at, table.length, value.at, value.length, 0, any, 0, 0, (uint64_t *)any, 0).number == 6,
              "no room is refused 6");
    }
}

/* Document 01's P1 on the undamaged inputs, and a test for each part of the long record. */
static void ask_undamaged(struct octets table, struct octets value, struct octets record, struct octets filter)
{
    static const char none[] = "item:{component \"parts.*.copies\",rule integerMatch,value 7}";
    tezqulom_answer answer = tezqulom_ask(table.at, table.length, value.at, value.length, filter.at, filter.length, 65535);
    check(answer.number == TEZQULOM_TRUE && answer.count == 2, "P1 is TRUE 2");
    answer = tezqulom_ask(table.at, table.length, record.at, record.length, (const uint8_t *)none, strlen(none), 65535);
    check(answer.number == TEZQULOM_FALSE && answer.count == 2 * PAIRS, "each part of the long record is tested");
}

/* Prints how often each answer came. Each has to. */
static void print_seen(void)
{
    int entry;
    for (entry = 0; entry < ENTRIES; entry++) {
        const int *one;
        printf("%s:", names[entry]);
        for (one = answers[entry]; *one >= 0; one++) {
            printf(" %d: %lu%s", *one, seen[entry][*one], one[1] >= 0 ? "," : "\n");
            check(seen[entry][*one] > 0, "each answer came");
        }
    }
}

int main(int argc, char **argv)
{
    struct octets files[4], record;
    unsigned long rounds;
    int i;
    if (argc != 6 || (rounds = strtoul(argv[5], NULL, 10)) == 0) {
        fprintf(stderr, "damaged TABLE VALUE FILTER REFERENCE ROUNDS\n");
        return 2;
    }
    for (i = 0; i < 4; i++)
        files[i] = read_file(argv[1 + i]);
    record = long_record(files[1]);
    ask_undamaged(files[0], files[1], record, files[2]);
    ask_nothing(files[0], files[1]);
    for (round_now = 1; round_now <= rounds; round_now++) {
        state = round_now << 32;
        ask_all(files[0], below(4) ? files[1] : record, files[2], files[3]);
    }
    print_seen();
    end_output();
    free(record.at);
    for (i = 0; i < 4; i++)
        free(files[i].at);
    return 0;
}
