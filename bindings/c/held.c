/*
 * Which records are held by a person, with the filter made of the person's name.
 *
 *     held TABLE PERSON RECORD...
 *
 * TABLE is a file, and so is each RECORD, a stored value with a member `holder`, a distinguished name; one of these may be - for standard input. PERSON is
 * a text, from anywhere: the common name (2.5.4.3) of a holder in Australia (2.5.4.6=AU). It is escaped as a value in a name, and the name is quoted, so
 * nothing in it can end its pair or its item. The program prints the filter, and a line for each record: the file and what the answer says. It ends with
 * status 0, or 2 where it can't ask.
 */
#include "file.h"
#include "tezqulom.h"

#include <stdio.h>
#include <stdlib.h>
#include <string.h>

static const char before[] = "item:{component \"holder\",rule distinguishedNameMatch,value ";
static const char after[] = "}";
static const char type[] = "2.5.4.3=";
static const char country[] = ",2.5.4.6=AU";

/* The number of octets that were written. The program ends where there are none. */
static uint64_t written(tezqulom_answer answer)
{
    if (answer.number != TEZQULOM_DONE) {
        fprintf(stderr, "held: %s\n", tezqulom_text(answer.number));
        exit(2);
    }
    return answer.count;
}

/* The name of a person: the last RDN stands first. */
static struct octets name_of(const char *person)
{
    uint64_t length = strlen(person), start = strlen(type);
    struct octets name;
    name.at = block(start + 3 * length + strlen(country));
    memcpy(name.at, type, start);
    name.length = start + written(tezqulom_escape((const uint8_t *)person, length, name.at + start, 3 * length));
    memcpy(name.at + name.length, country, strlen(country));
    name.length += strlen(country);
    return name;
}

/* The filter for a person. */
static struct octets filter_for(const char *person)
{
    struct octets name = name_of(person), filter;
    uint64_t start = strlen(before), room_length = 2 * name.length + 2;
    filter.at = block(start + room_length + strlen(after));
    memcpy(filter.at, before, start);
    filter.length = start + written(tezqulom_quote(name.at, name.length, filter.at + start, room_length));
    memcpy(filter.at + filter.length, after, strlen(after));
    filter.length += strlen(after);
    free(name.at);
    return filter;
}

int main(int argc, char **argv)
{
    struct octets table, filter;
    int i;
    if (argc < 4) {
        fprintf(stderr, "held TABLE PERSON RECORD...\n");
        return 2;
    }
    table = read_file(argv[1]);
    filter = filter_for(argv[2]);
    printf("%.*s\n", (int)filter.length, (const char *)filter.at);
    for (i = 3; i < argc; i++) {
        struct octets value = read_file(argv[i]);
        tezqulom_answer answer =
            tezqulom_ask(table.at, table.length, value.at, value.length, filter.at, filter.length, TEZQULOM_MAX_BUDGET);
        printf("%s: %s\n", argv[i], tezqulom_text(answer.number));
        free(value.at);
    }
    free(table.at);
    free(filter.at);
    end_output();
    return 0;
}
