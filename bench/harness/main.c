/* Asks the questions of a file of all implementations, in one process.
 *
 *   harness check QUESTIONS                   sees that all give the expected answers
 *   harness time QUESTIONS ROUNDS             the same, then prints a line for each sample: question, implementation, nanoseconds per call
 *   harness count QUESTIONS NAME SIDE CALLS   makes so many calls and nothing else, for a tool that counts instructions
 *   harness mutate QUESTIONS CALLS SEED       asks so many changed questions of the engine and the independent implementation, which have to agree
 *
 * A line of QUESTIONS: timed or checked, name, comparing by hand (- for none), the answer (a truth and its tests, or REFUSED and a number), then table,
 * value and filter in hexadecimal digits.
 */
#include <stdio.h>
#include <stdlib.h>
#include <string.h>
#include <time.h>

#include "question.h"
#include "tezqulom.h"

enum { MOST_QUESTIONS = 256, LONGEST = 8100 };
static const double SAMPLE_NS = 50e6, BATCH_NS = 1e6;
static const uint64_t BUDGET = 65535;

tezqulom_answer independent_ask(const uint8_t *table, uint64_t table_length, const uint8_t *value, uint64_t value_length, const uint8_t *filter,
                                uint64_t filter_length, uint64_t budget);

static tezqulom_answer ask_engine(const question *q)
{
    return tezqulom_ask(q->table.start, q->table.length, q->value.start, q->value.length, q->filter.start, q->filter.length, BUDGET);
}

static tezqulom_answer ask_independent(const question *q)
{
    return independent_ask(q->table.start, q->table.length, q->value.start, q->value.length, q->filter.start, q->filter.length, BUDGET);
}

#ifdef WITH_ASN1C
static tezqulom_answer ask_asn1c(const question *q)
{
    static const uint64_t numbers[] = {TEZQULOM_REFUSED_VALUE, TEZQULOM_FALSE, TEZQULOM_TRUE};
    tezqulom_answer answer = {numbers[1 + q->decode_and_compare(q->value.start, q->value.length)], 0};

    return answer;
}
#else
by_hand *by_hand_named(const char *name)
{
    (void)name;
    return NULL;
}
#endif

typedef struct side {
    const char *name;
    int counts_tests;
    tezqulom_answer (*ask)(const question *);
} side;

static const side sides[] = {
    {"engine", 1, ask_engine},
    {"independent", 1, ask_independent},
#ifdef WITH_ASN1C
    {"asn1c", 0, ask_asn1c},
#endif
};
enum { SIDES = sizeof sides / sizeof sides[0] };

static question questions[MOST_QUESTIONS];
static int question_count;

static void fail(const char *what, const char *name)
{
    fprintf(stderr, "harness: %s: %s\n", name, what);
    exit(1);
}

static uint8_t digit(char c, const char *name)
{
    static const char digits[] = "0123456789abcdef";
    const char *found = strchr(digits, c);

    if (!c || !found)
        fail("not hexadecimal digits", name);
    return found - digits;
}

/* The octets of hexadecimal digits, in memory of their own size. */
static octets from_hex(const char *digits, const char *name)
{
    octets found;

    found.length = strlen(digits) / 2;
    found.start = malloc(found.length);
    for (uint64_t i = 0; i < found.length; i++)
        found.start[i] = digit(digits[2 * i], name) << 4 | digit(digits[2 * i + 1], name);
    return found;
}

/* The number and count of an answer that is told as a word and a number: a truth with its tests, or REFUSED with the refusal. */
static void expect(question *q, const char *word, uint64_t told)
{
    static const struct {
        const char *word;
        uint64_t number;
    } truths[] = {{"TRUE", TEZQULOM_TRUE}, {"FALSE", TEZQULOM_FALSE}, {"UNDEFINED", TEZQULOM_UNDEFINED}};

    q->number = told;
    q->count = 0;
    if (!strcmp(word, "REFUSED"))
        return;
    for (size_t i = 0; i < sizeof truths / sizeof truths[0]; i++)
        if (!strcmp(word, truths[i].word)) {
            q->number = truths[i].number;
            q->count = told;
            return;
        }
    fail("no truth and no refusal is expected", q->name);
}

static void read_questions(const char *path)
{
    static char table[2 * LONGEST + 1], value[2 * LONGEST + 1], filter[2 * LONGEST + 1]; /* 2 * LONGEST: the 16200 below */
    char use[8], hand[32], word[16];
    uint64_t told;
    question *q = questions;
    FILE *file = fopen(path, "r");

    if (!file)
        fail("cannot be read", path);
    while (question_count < MOST_QUESTIONS && fscanf(file, "%7s %31s %31s %15s %lu %16200s %16200s %16200s", use, q->name, hand, word, &told, table,
                                                     value, filter) == 8) {
        q->timed = !strcmp(use, "timed");
        expect(q, word, told);
        q->table = from_hex(table, q->name);
        q->value = from_hex(value, q->name);
        q->filter = from_hex(filter, q->name);
        q->decode_and_compare = by_hand_named(hand);
#ifdef WITH_ASN1C
        if (!q->decode_and_compare && strcmp(hand, "-"))
            fail("no comparing by hand of this name", hand);
#endif
        q++, question_count++;
    }
    if (!feof(file) || question_count == 0)
        fail("not a file of questions", path);
    fclose(file);
}

/* Whether an implementation can be asked: asn1c's code answers only what is compared by hand. */
static int answers(const side *s, const question *q)
{
    return s->counts_tests || q->decode_and_compare;
}

/* All implementations give the expected truth; those that count tests, the expected number. */
static void check(const question *q)
{
    for (int i = 0; i < SIDES && answers(&sides[i], q); i++) {
        tezqulom_answer answer = sides[i].ask(q);
        uint64_t count = sides[i].counts_tests ? q->count : 0;

        if (answer.number == q->number && answer.count == count)
            continue;
        fprintf(stderr, "harness: %s: %s answers %lu with count %lu, expected are %lu and %lu\n", q->name, sides[i].name, answer.number, answer.count,
                q->number, count);
        exit(1);
    }
}

static double now(void)
{
    struct timespec t;

    clock_gettime(CLOCK_MONOTONIC, &t);
    return t.tv_sec * 1e9 + t.tv_nsec;
}

static void make_calls(const side *s, const question *q, long calls)
{
    while (calls-- > 0)
        if (s->ask(q).number != q->number)
            fail("another answer than before", q->name);
}

/* How many calls take about a millisecond. */
static long batch_of(const side *s, const question *q)
{
    long calls = 1;

    for (;; calls *= 2) {
        double start = now();

        make_calls(s, q, calls);
        if (now() - start >= BATCH_NS)
            return calls;
    }
}

/* Nanoseconds per call, over as many batches as reach the time of a sample. */
static double sample(const side *s, const question *q, long batch)
{
    double start = now(), passed;
    long calls = 0;

    do {
        make_calls(s, q, batch);
        calls += batch;
        passed = now() - start;
    } while (passed < SAMPLE_NS);
    return passed / calls;
}

/* Rounds over all questions, in which the implementations take turns: a load of the machine falls on all alike. */
static void time_questions(long rounds)
{
    long batch[MOST_QUESTIONS][SIDES];

    for (int n = 0; n < question_count; n++)
        for (int i = 0; questions[n].timed && i < SIDES && answers(&sides[i], &questions[n]); i++)
            batch[n][i] = batch_of(&sides[i], &questions[n]);
    while (rounds-- > 0)
        for (int n = 0; n < question_count; n++)
            for (int i = 0; questions[n].timed && i < SIDES && answers(&sides[i], &questions[n]); i++)
                printf("%s %s %.2f\n", questions[n].name, sides[i].name, sample(&sides[i], &questions[n], batch[n][i]));
}

static void count_calls(const char *name, const char *side_name, long calls)
{
    for (int n = 0; n < question_count; n++)
        for (int i = 0; i < SIDES; i++)
            if (!strcmp(questions[n].name, name) && !strcmp(sides[i].name, side_name)) {
                make_calls(&sides[i], &questions[n], calls);
                return;
            }
    fail("no such question or implementation", name);
}

/* ---- changed questions */
static uint64_t state;

/* A number below a limit, by xorshift. */
static uint64_t drawn(uint64_t limit)
{
    state ^= state << 13;
    state ^= state >> 7;
    state ^= state << 17;
    return (state >> 11) % limit;
}

static const question *any_question(void)
{
    return &questions[drawn(question_count)];
}

static octets *part_of(question *q, uint64_t which)
{
    return which == 0 ? &q->table : which == 1 ? &q->value : &q->filter;
}

/* One change: an octet set, a bit turned, an octet taken out, put in or made one that stands elsewhere in the octets. */
static void change(octets *o)
{
    uint64_t at = drawn(o->length + 1);

    if (at == o->length || o->length == 0) {
        if (drawn(2) && o->length)
            o->length--;
        else if (o->length < LONGEST)
            o->start[o->length++] = drawn(256);
        return;
    }
    switch (drawn(5)) {
    case 0:
        o->start[at] = drawn(256);
        break;
    case 1:
        o->start[at] ^= 1 << drawn(8);
        break;
    case 2:
        memmove(o->start + at, o->start + at + 1, --o->length - at);
        break;
    case 3:
        if (o->length < LONGEST) {
            memmove(o->start + at + 1, o->start + at, o->length++ - at);
            o->start[at] = drawn(256);
        }
        break;
    default:
        o->start[at] = o->start[drawn(o->length)];
    }
}

/* A question with one to three changes, of the table least often; one time in four a part of another question stands in it. */
static void make_changed(question *made)
{
    static const uint8_t parts[] = {0, 1, 1, 1, 2, 2, 2, 2};
    const question *from = any_question();

    for (uint64_t which = 0; which < 3; which++) {
        const octets *o = part_of((question *)(drawn(12) ? from : any_question()), which);

        part_of(made, which)->length = o->length;
        memcpy(part_of(made, which)->start, o->start, o->length);
    }
    for (uint64_t changes = 1 + drawn(3); changes > 0; changes--)
        change(part_of(made, parts[drawn(sizeof parts)]));
}

static void mutate(long calls, uint64_t seed)
{
    static uint8_t memory[3][LONGEST];
    question made = {.table.start = memory[0], .value.start = memory[1], .filter.start = memory[2]};
    long kinds[32] = {0};

    state = seed * 2 + 1;
    for (long call = 0; call < calls; call++) {
        make_changed(&made);
        tezqulom_answer engine = ask_engine(&made), other = ask_independent(&made);

        if (engine.number != other.number || engine.count != other.count) {
            printf("call %ld: engine %lu %lu, independent %lu %lu\n", call, engine.number, engine.count, other.number, other.count);
            for (uint64_t which = 0; which < 3; which++, puts(""))
                for (uint64_t i = 0; i < part_of(&made, which)->length; i++)
                    printf("%02x", part_of(&made, which)->start[i]);
            fail("the implementations differ", "changed question");
        }
        kinds[engine.number % 32]++;
    }
    printf("%ld changed questions, 0 differ;", calls);
    for (int number = 0; number < 32; number++)
        if (kinds[number])
            printf(" %ld answered %d", kinds[number], number);
    puts("");
}

int main(int argc, char **argv)
{
    const char *mode = argc > 2 ? argv[1] : "";
    int checking = argc == 3 && !strcmp(mode, "check"), timing = argc == 4 && !strcmp(mode, "time"), counting = argc == 6 && !strcmp(mode, "count");
    int mutating = argc == 5 && !strcmp(mode, "mutate");

    if (!checking && !timing && !counting && !mutating)
        fail("usage: harness check QUESTIONS, time QUESTIONS ROUNDS, count QUESTIONS NAME SIDE CALLS or mutate QUESTIONS CALLS SEED", "arguments");
    read_questions(argv[2]);
    if (mutating) {
        mutate(atol(argv[3]), strtoul(argv[4], NULL, 10));
        return 0;
    }
    if (counting) {
        count_calls(argv[3], argv[4], atol(argv[5]));
        return 0;
    }
    for (int n = 0; n < question_count; n++)
        check(&questions[n]);
    if (timing)
        time_questions(atol(argv[3]));
    return 0;
}
