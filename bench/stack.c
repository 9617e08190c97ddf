/*
 * The stack that calls take for inputs as deep as the limits allow, in octets. A call runs on a stack of its own that is painted before it; what is no
 * longer paint was used.
 *
 *   check  tezqulom_check_value: a chain of 16 type rows and a value that goes all the way down, right and with a wrong first tag
 *   list   tezqulom_list: a reference of 15 identifiers along such a chain
 *   ask    tezqulom_ask: an item with such a reference inside 15 `not:`, `and:` or `or:`, with asserted values of each syntax, the long ones as long as a
 *          filter lets them be
 *
 * Of `ask` the deepest is printed for each chain, each asserted value and each nesting; `stack all` prints every one. A line at the end has the deepest
 * of all. It is an error if an answer isn't the one that is expected.
 */
#include <stdio.h>
#include <stdlib.h>
#include <string.h>
#include <ucontext.h>

#include "tezqulom.h"

enum { SEQUENCE = 12, CHOICE = 13, SEQUENCE_OF = 14, SET_OF = 15, MEMBER = 16, PAINT = 0xA5, LINKS = TEZQULOM_MAX_CHAIN - 1 };
enum { NESTED = TEZQULOM_MAX_DEPTH - 1, TEXT = TEZQULOM_MAX_FILTER + 1 };

/* Type rows by turns of two kinds, each naming the next as its element or as its only member's type, in a wrapper or not; with the identifiers of both. */
typedef struct {
    const char *name;
    uint8_t kinds[2];
    int wrapped;
    const char *ids[2];
} chain;

static const chain chains[] = {
    {"SEQUENCE", {SEQUENCE, SEQUENCE}, 0, {"m", "m"}},
    {"SEQUENCE, explicit tags", {SEQUENCE, SEQUENCE}, 1, {"m", "m"}},
    {"CHOICE", {CHOICE, CHOICE}, 0, {"m", "m"}},
    {"CHOICE, explicit tags", {CHOICE, CHOICE}, 1, {"m", "m"}},
    {"SEQUENCE OF, *", {SEQUENCE_OF, SEQUENCE_OF}, 0, {"*", "*"}},
    {"SEQUENCE OF, 1", {SEQUENCE_OF, SEQUENCE_OF}, 0, {"1", "1"}},
    {"SEQUENCE OF, -1", {SEQUENCE_OF, SEQUENCE_OF}, 0, {"-1", "-1"}},
    {"SEQUENCE OF, * and -1", {SEQUENCE_OF, SEQUENCE_OF}, 0, {"*", "-1"}},
    {"SET OF, *", {SET_OF, SET_OF}, 0, {"*", "*"}},
    {"SET OF, -1", {SET_OF, SET_OF}, 0, {"-1", "-1"}},
    {"SEQUENCE OF SEQUENCE, *", {SEQUENCE_OF, SEQUENCE}, 0, {"*", "m"}},
    {"SET OF SEQUENCE, explicit tags, *", {SET_OF, SEQUENCE}, 1, {"*", "m"}},
    {"SEQUENCE OF CHOICE, explicit tags, *", {SEQUENCE_OF, CHOICE}, 1, {"*", "m"}},
    {"SEQUENCE OF CHOICE, explicit tags, -1", {SEQUENCE_OF, CHOICE}, 1, {"-1", "m"}},
};

/* The last type row of a chain and its value, a rule, and a value text: what stands before and behind a fill, which is as long as a filter lets it be. */
typedef struct {
    const char *name;
    uint8_t kind;
    const char *octets;
    size_t size;
    const char *rule, *before, *fill, *after;
} leaf;

#define OCTETS(text) text, sizeof text - 1
#define PAIR_OF_A "\x30\x08\x06\x03\x55\x04\x03\x0c\x01" "a"
#define RDN_OF_A "\x31\x0a" PAIR_OF_A

static const leaf leaves[] = {
    {"presentMatch", 4, OCTETS("\x05\x00"), "presentMatch", "NULL", "", ""},
    {"booleanMatch", 1, OCTETS("\x01\x01\xff"), "booleanMatch", "TRUE", "", ""},
    {"integerMatch", 2, OCTETS("\x02\x01\x05"), "integerMatch", "5", "", ""},
    {"integerMatch, long", 2, OCTETS("\x02\x01\x05"), "integerMatch", "-1", "0", ""},
    {"integerOrderingMatch, long", 2, OCTETS("\x02\x01\x05"), "integerOrderingMatch", "1", "0", ""},
    {"objectIdentifierMatch", 5, OCTETS("\x06\x03\x2a\x03\x04"), "objectIdentifierMatch", "1.2.3.4", "", ""},
    {"objectIdentifierMatch, many arcs", 5, OCTETS("\x06\x03\x2a\x03\x04"), "objectIdentifierMatch", "1.2.3.4", ".5", ""},
    {"objectIdentifierMatch, a long arc", 5, OCTETS("\x06\x03\x2a\x03\x04"), "objectIdentifierMatch", "1.2.3.", "4", ""},
    {"octetStringMatch", 6, OCTETS("\x04\x02\x0a\xff"), "octetStringMatch", "'0AFF'H", "", ""},
    {"octetStringOrderingMatch, long", 6, OCTETS("\x04\x02\x0a\xff"), "octetStringOrderingMatch", "'0AFF", "00", "'H"},
    {"bitStringMatch, long '..'B", 7, OCTETS("\x03\x02\x04\xa0"), "bitStringMatch", "'1010", "1", "'B"},
    {"bitStringMatch, long '..'H", 7, OCTETS("\x03\x02\x04\xa0"), "bitStringMatch", "'A", "0", "'H"},
    {"caseExactMatch", 8, OCTETS("\x0c\x03" "a b"), "caseExactMatch", "\"a b\"", "", ""},
    {"caseExactMatch, long", 9, OCTETS("\x13\x03" "a b"), "caseExactMatch", "\"a b", "c", "\""},
    {"caseIgnoreMatch, inner spaces", 8, OCTETS("\x0c\x03" "a b"), "caseIgnoreMatch", "\"A", " ", "B\""},
    {"caseIgnoreMatch, outer spaces", 10, OCTETS("\x16\x03" "a b"), "caseIgnoreMatch", "\" a  b", " ", "\""},
    {"caseIgnoreMatch, doubled quotes", 8, OCTETS("\x0c\x03" "a b"), "caseIgnoreMatch", "\"", "\"\"", "\""},
    {"caseIgnoreMatch, accents", 8, OCTETS("\x0c\x04" "\xc2\xbc\xc3\x89"), "caseIgnoreMatch", "\"", "\xc2\xbc", "\""},
    {"generalizedTimeMatch", 11, OCTETS("\x18\x0f" "20240229120000Z"), "generalizedTimeMatch", "\"20240229120000.5Z\"", "", ""},
    {"generalizedTimeOrderingMatch", 11, OCTETS("\x18\x0f" "20240229120000Z"), "generalizedTimeOrderingMatch", "\"20240229120001Z\"", "", ""},
    {"distinguishedNameMatch", 19, OCTETS("\x30\x0c" RDN_OF_A), "distinguishedNameMatch", "\"2.5.4.3=A\"", "", ""},
    {"distinguishedNameMatch, empty", 19, OCTETS("\x30\x00"), "distinguishedNameMatch", "\"\"", "", ""},
    {"distinguishedNameMatch, long", 19, OCTETS("\x30\x18" RDN_OF_A RDN_OF_A), "distinguishedNameMatch", "\"2.5.4.3=A,2.5.4.3=", "a", "\""},
    {"distinguishedNameMatch, escapes", 19, OCTETS("\x30\x0c" RDN_OF_A), "distinguishedNameMatch", "\"2.5.4.3=", "\\41", "\""},
    {"distinguishedNameMatch, accents", 19, OCTETS("\x30\x0c" RDN_OF_A), "distinguishedNameMatch", "\"2.5.4.3=", "\xc2\xbc", "\""},
    {"distinguishedNameMatch, a long type", 19, OCTETS("\x30\x0c" RDN_OF_A), "distinguishedNameMatch", "\"2.5.4.3", ".3", "=a\""},
    {"rdnMatch", 20, OCTETS(RDN_OF_A), "rdnMatch", "\"2.5.4.3=A\"", "", ""},
    {"rdnMatch, long pairs", 20, OCTETS("\x31\x14" PAIR_OF_A PAIR_OF_A), "rdnMatch", "\"2.5.4.3=A+2.5.4.3=b+2.5.4.3=a+2.5.4.3=", "a", "\""},
};

/* What stands before and behind a nested filter, by turns. */
typedef struct {
    const char *name;
    const char *before[2], *after[2];
} nesting;

static const nesting nestings[] = {
    {"not:", {"not:", "not:"}, {"", ""}},
    {"and:", {"and:{", "and:{"}, {"}", "}"}},
    {"or:", {"or:{", "or:{"}, {"}", "}"}},
    {"or: and not:", {"or:{", "not:"}, {"}", ""}},
    {"and: after another item", {"and:{and:{},", "or:{or:{},"}, {"}", "}"}},
};

enum { CHAINS = sizeof chains / sizeof chains[0], LEAVES = sizeof leaves / sizeof leaves[0], NESTINGS = sizeof nestings / sizeof nestings[0] };

static uint8_t stack[1 << 20], table[TEZQULOM_MAX_TABLE], value[TEZQULOM_MAX_VALUE];
static uint64_t room[8];
static char reference[TEXT], filter[TEXT], end[TEXT];
static size_t table_size, value_size;
static tezqulom_answer answer;
static ucontext_t caller, callee;

/* ---- inputs */
static int is_list(uint8_t kind) { return kind == SEQUENCE_OF || kind == SET_OF; }

/* Row `row`, a type row of a chain, with its member. */
static int add_row(uint8_t kind, int wrapped, int row)
{
    uint8_t *at = table + table_size;

    at[0] = kind;
    if (is_list(kind)) {
        at[2] = row + 1;
        table_size += 3;
        return row + 1;
    }
    at[1] = 1;
    at[2] = MEMBER;
    at[3] = 'm';
    at[28] = row + 2;
    at[29] = wrapped;
    table_size += 2 + 39;
    return row + 2;
}

/* The value so far inside a tag. */
static void wrap(uint8_t tag)
{
    memmove(value + 2, value, value_size);
    value[0] = tag;
    value[1] = value_size;
    value_size += 2;
}

static void make_chain(const chain *c, const leaf *l)
{
    memset(table, 0, sizeof table);
    table_size = 0;
    for (int link = 0, row = 0; link < LINKS; link++)
        row = add_row(c->kinds[link % 2], c->wrapped, row);
    table[table_size++] = l->kind;
    memcpy(value, l->octets, l->size);
    value_size = l->size;
    for (int link = LINKS - 1; link >= 0; link--) {
        uint8_t kind = c->kinds[link % 2];

        if (c->wrapped && !is_list(kind))
            wrap(0xA0);
        if (kind != CHOICE)
            wrap(kind == SET_OF ? 0x31 : 0x30);
    }
}

static void make_reference(const chain *c)
{
    reference[0] = 0;
    for (int link = 0; link < LINKS; link++) {
        strcat(reference, link ? "." : "");
        strcat(reference, c->ids[link % 2]);
    }
}

/* What stands behind the value text of the item. */
static void make_end(const nesting *n, const leaf *l)
{
    end[0] = 0;
    strcat(end, l->after);
    strcat(end, "}");
    for (int depth = NESTED - 1; depth >= 0; depth--)
        strcat(end, n->after[depth % 2]);
}

static void make_filter(const nesting *n, const leaf *l)
{
    const char *item[] = {"item:{component \"", reference, "\",rule ", l->rule, ",value ", l->before};

    make_end(n, l);
    filter[0] = 0;
    for (int depth = 0; depth < NESTED; depth++)
        strcat(filter, n->before[depth % 2]);
    for (size_t at = 0; at < sizeof item / sizeof item[0]; at++)
        strcat(filter, item[at]);
    while (*l->fill && strlen(filter) + strlen(l->fill) + strlen(end) <= TEZQULOM_MAX_FILTER)
        strcat(filter, l->fill);
    strcat(filter, end);
}

/* ---- calls */
static void check(void) { answer = tezqulom_check_value(table, table_size, value, value_size); }

static void list(void)
{
    answer = tezqulom_list(table, table_size, value, value_size, 1, (const uint8_t *)reference, strlen(reference), 1, room, sizeof room / sizeof room[0]);
}

static void ask(void)
{
    answer = tezqulom_ask(table, table_size, value, value_size, (const uint8_t *)filter, strlen(filter), TEZQULOM_MAX_BUDGET);
}

static size_t used(void (*call)(void))
{
    size_t left = 0;

    memset(stack, PAINT, sizeof stack);
    getcontext(&callee);
    callee.uc_stack.ss_sp = stack;
    callee.uc_stack.ss_size = sizeof stack;
    callee.uc_link = &caller;
    makecontext(&callee, call, 0);
    swapcontext(&caller, &callee);
    while (stack[left] == PAINT)
        left++;
    return sizeof stack - left;
}

static void expect(int right, const char *entry, const char *name)
{
    if (right)
        return;
    fprintf(stderr, "stack: %s: %s: answered %lu with count %lu\n", entry, name, (unsigned long)answer.number, (unsigned long)answer.count);
    exit(1);
}

/* ---- what is measured */
static size_t deepest;
static char deepest_name[200];

static size_t measured(size_t size, const char *entry, const char *a, const char *b, const char *c)
{
    if (size > deepest) {
        deepest = size;
        snprintf(deepest_name, sizeof deepest_name, "%s%s%s%s%s%s", entry, a, *b ? "; " : "", b, *c ? "; " : "", c);
    }
    return size;
}

static void measure_checks(void)
{
    for (const chain *c = chains; c < chains + CHAINS; c++) {
        make_chain(c, leaves);
        size_t right = measured(used(check), "check: ", c->name, "", "");
        expect(answer.number == TEZQULOM_DONE, "check", c->name);
        value[0] ^= 1;
        size_t wrong = measured(used(check), "check: ", c->name, "a wrong tag", "");
        expect(answer.number == TEZQULOM_REFUSED_VALUE, "check", c->name);
        printf("check  %-40s %6zu, with a wrong first tag %zu\n", c->name, right, wrong);
    }
}

static void measure_lists(void)
{
    for (const chain *c = chains; c < chains + CHAINS; c++) {
        make_chain(c, leaves);
        make_reference(c);
        size_t size = measured(used(list), "list: ", c->name, "", "");
        expect(answer.number == TEZQULOM_DONE && answer.count == 1, "list", c->name);
        printf("list   %-40s %6zu\n", c->name, size);
    }
}

static void larger(size_t *most, size_t size)
{
    if (*most < size)
        *most = size;
}

static void measure_asks(int all)
{
    size_t by_chain[CHAINS] = {0}, by_leaf[LEAVES] = {0}, by_nesting[NESTINGS] = {0};

    for (int c = 0; c < CHAINS; c++)
        for (int l = 0; l < LEAVES; l++)
            for (int n = 0; n < NESTINGS; n++) {
                make_chain(chains + c, leaves + l);
                make_reference(chains + c);
                make_filter(nestings + n, leaves + l);
                size_t size = measured(used(ask), "ask: ", chains[c].name, leaves[l].name, nestings[n].name);
                expect((answer.number == TEZQULOM_TRUE || answer.number == TEZQULOM_FALSE) && answer.count == 1, chains[c].name, filter);
                larger(by_chain + c, size);
                larger(by_leaf + l, size);
                larger(by_nesting + n, size);
                if (all)
                    printf("ask    %-40s %6zu  %s; %s\n", chains[c].name, size, leaves[l].name, nestings[n].name);
            }
    for (int c = 0; c < CHAINS; c++)
        printf("ask    %-40s %6zu\n", chains[c].name, by_chain[c]);
    for (int l = 0; l < LEAVES; l++)
        printf("ask    %-40s %6zu\n", leaves[l].name, by_leaf[l]);
    for (int n = 0; n < NESTINGS; n++)
        printf("ask    %-40s %6zu\n", nestings[n].name, by_nesting[n]);
}

int main(int argc, char **argv)
{
    measure_checks();
    measure_lists();
    measure_asks(argc == 2 && !strcmp(argv[1], "all"));
    printf("The deepest: %zu octets, %s.\n", deepest, deepest_name);
    return 0;
}
