/*
 * Whether a record already carries an event, as the receiver of a payment's webhook asks it.
 *
 *     event TABLE FILTER REFERENCE RECORD...
 *
 * TABLE and FILTER are files, and so is each RECORD, a stored value; one of these may be - for standard input. REFERENCE is a text.
 * For each record the program prints the truth of the filter with the tests made, and what the reference names in it, with the octets
 * of stored values; for a refusal also, on standard error, the record's file and a sentence. The last line says what follows: a record
 * that carries the event is there; none is, so a new one can be stored; or a person has to look, since an answer is Undefined or a
 * refusal.
 */
#include "file.h"
#include "tezqulom.h"

#include <stdio.h>
#include <stdlib.h>
#include <string.h>

static const char *const sources[] = {"stored", "default", "count"};

static void print_refusal(const char *name, const char *what, uint64_t number)
{
    fprintf(stderr, "%s: %s refused %u: %s\n", name, what, (unsigned)number, tezqulom_text(number));
}

static void print_octets(struct octets value, uint64_t place, uint64_t length)
{
    tezqulom_answer part = tezqulom_part(value.at, value.length, place, length);
    uint64_t i;
    if (part.number != TEZQULOM_DONE)
        return;
    printf(" ");
    for (i = 0; i < part.count; i++)
        printf("%02X", value.at[place + i]);
}

static void print_listing(struct octets table, struct octets value, const char *reference, const char *name)
{
    uint64_t room_length = TEZQULOM_ROOM_FOR(value.length), i;
    uint64_t *room = block(room_length * sizeof *room);
    tezqulom_answer listed = tezqulom_list(table.at, table.length, value.at, value.length, 1, (const uint8_t *)reference,
                                           strlen(reference), 1, room, room_length);
    if (listed.number != TEZQULOM_DONE) {
        printf("  refused %u\n", (unsigned)listed.number);
        print_refusal(name, "listing", listed.number);
    }
    for (i = 0; i < listed.count; i++) {
        const uint64_t *named = room + 3 * i;
        printf("  %s %u %u", sources[named[0]], (unsigned)named[1], (unsigned)named[2]);
        if (named[0] == 0)
            print_octets(value, named[1], named[2]);
        printf("\n");
    }
    free(room);
}

static void print_answer(tezqulom_answer answer, const char *name)
{
    switch (answer.number) {
    case TEZQULOM_TRUE:
        printf("TRUE %u\n", (unsigned)answer.count);
        break;
    case TEZQULOM_FALSE:
        printf("FALSE %u\n", (unsigned)answer.count);
        break;
    case TEZQULOM_UNDEFINED:
        printf("UNDEFINED %u\n", (unsigned)answer.count);
        break;
    default:
        printf("REFUSED %u\n", (unsigned)answer.number);
        print_refusal(name, "filter", answer.number);
    }
}

int main(int argc, char **argv)
{
    struct octets table, filter;
    int carried = 0, open = 0, i;
    if (argc < 5) {
        fprintf(stderr, "event TABLE FILTER REFERENCE RECORD...\n");
        return 2;
    }
    table = read_file(argv[1]);
    filter = read_file(argv[2]);
    for (i = 4; i < argc; i++) {
        struct octets value = read_file(argv[i]);
        tezqulom_answer answer =
            tezqulom_ask(table.at, table.length, value.at, value.length, filter.at, filter.length, TEZQULOM_MAX_BUDGET);
        print_answer(answer, argv[i]);
        print_listing(table, value, argv[3], argv[i]);
        carried += answer.number == TEZQULOM_TRUE;
        open += answer.number != TEZQULOM_TRUE && answer.number != TEZQULOM_FALSE;
        free(value.at);
    }
    printf("%s\n", carried ? "carried" : open ? "for a person" : "new");
    free(table.at);
    free(filter.at);
    end_output();
    return 0;
}
