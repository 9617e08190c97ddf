/*
 * Which records carry an event, with the filter made of the event's text.
 *
 *     carries TABLE EVENT RECORD...
 *
 * TABLE is a file, and so is each RECORD, a stored value with a member `event`; one of these may be - for standard input. EVENT is a text,
 * from anywhere: it is quoted, so nothing in it can end its item. The program prints the filter, and a line for each record: the file and
 * what the answer says. It ends with status 0, or 2 where it can't ask.
 */
#include "file.h"
#include "tezqulom.h"

#include <stdio.h>
#include <stdlib.h>
#include <string.h>

static const char before[] = "item:{component \"event\",rule caseExactMatch,value ";
static const char after[] = "}";

/* The filter for a text. The program ends where the text can't be quoted. */
static struct octets filter_for(const char *text)
{
    uint64_t length = strlen(text), room_length = 2 * length + 2, start = strlen(before);
    struct octets filter;
    tezqulom_answer quoted;
    filter.at = block(start + room_length + strlen(after));
    quoted = tezqulom_quote((const uint8_t *)text, length, filter.at + start, room_length);
    if (quoted.number != TEZQULOM_DONE) {
        fprintf(stderr, "carries: %s\n", tezqulom_text(quoted.number));
        exit(2);
    }
    memcpy(filter.at, before, start);
    memcpy(filter.at + start + quoted.count, after, strlen(after));
    filter.length = start + quoted.count + strlen(after);
    return filter;
}

int main(int argc, char **argv)
{
    struct octets table, filter;
    int i;
    if (argc < 4) {
        fprintf(stderr, "carries TABLE EVENT RECORD...\n");
        return 2;
    }
    table = read_file(argv[1]);
    filter = filter_for(argv[2]);
    printf("%.*s\n", (int)filter.length, (const char *)filter.at);
    for (i = 3; i < argc; i++) {
        struct octets value = read_file(argv[i]);
        tezqulom_answer answer =
            tezqulom_ask(table.at, table.length, value.at, value.length, filter.at, filter.length, TEZQULOM_MAX_BUDGET);
        printf("%s: %s\n", argv[i], tezqulom_text(answer.number));
        free(value.at);
    }
    free(table.at);
    free(filter.at);
    end_output();
    return 0;
}
