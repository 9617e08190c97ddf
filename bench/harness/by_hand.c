/* Decoding by asn1c's generated code, and the questions of bench/workloads.py compared by hand. */
#include "question.h"

#include <string.h>

#include "Event.h"
#include "Licence.h"
#include "asserted.h" /* written by bench/workloads.py: what the items of its filters assert */

enum { EXACT, IGNORE_CASE };

static uint8_t folded(uint8_t c, int ignore_case)
{
    return ignore_case && c >= 'A' && c <= 'Z' ? c + ('a' - 'A') : c;
}

/* Whether a stored string is the asserted one, which is prepared already: no spaces at its ends, inner runs of one space, lowercase if case is
 * ignored. */
static int same_text(const OCTET_STRING_t *stored, const char *asserted, size_t length, int ignore_case)
{
    const uint8_t *at = stored->buf, *end = at + stored->size;
    size_t i;

    while (at < end && *at == ' ')
        at++;
    while (at < end && end[-1] == ' ')
        end--;
    for (i = 0; i < length && at < end; i++) {
        if (folded(*at, ignore_case) != (uint8_t)asserted[i])
            return 0;
        if (*at++ == ' ')
            while (*at == ' ')
                at++;
    }
    return i == length && at == end;
}

static long or_default(const long *stored)
{
    return stored ? *stored : 1;
}

static int seats_equal(const Licence_t *licence, long asserted)
{
    return or_default(licence->seats) == asserted;
}

static int seats_less(const Licence_t *licence, long asserted)
{
    return or_default(licence->seats) < asserted;
}

static int parts_counted(const Licence_t *licence, long asserted)
{
    return licence->parts.list.count == asserted;
}

static int some_copies_equal(const Licence_t *licence, long asserted)
{
    for (int i = 0; i < licence->parts.list.count; i++)
        if (or_default(licence->parts.list.array[i]->copies) == asserted)
            return 1;
    return 0;
}

static int some_name_is(const Licence_t *licence, const char *asserted, size_t length)
{
    for (int i = 0; i < licence->parts.list.count; i++)
        if (same_text(&licence->parts.list.array[i]->name, asserted, length, EXACT))
            return 1;
    return 0;
}

static int first_name_like(const Licence_t *licence, const char *asserted, size_t length)
{
    return licence->parts.list.count > 0 && same_text(&licence->parts.list.array[0]->name, asserted, length, IGNORE_CASE);
}

static int event_is(const Licence_t *licence, const char *asserted, size_t length)
{
    return same_text(&licence->event, asserted, length, EXACT);
}

static int event_like(const Licence_t *licence, const char *asserted, size_t length)
{
    return same_text(&licence->event, asserted, length, IGNORE_CASE);
}

static int whole_is(const Event_t *event, const char *asserted, size_t length)
{
    return same_text(event, asserted, length, EXACT);
}

static int whole_like(const Event_t *event, const char *asserted, size_t length)
{
    return same_text(event, asserted, length, IGNORE_CASE);
}

/* The filters `or:{..}`, one line for each item. */
#define TEXT(test, asserted) || test(decoded, asserted, sizeof asserted - 1)
#define NUMBER(test, asserted) || test(decoded, asserted)

static int some_of_licence_items(const Licence_t *decoded)
{
    return 0 LICENCE_ITEMS;
}

static int some_of_event_items(const Event_t *decoded)
{
    return 0 EVENT_ITEMS;
}

static int three_copies(const Licence_t *decoded)
{
    return some_copies_equal(decoded, 3);
}

static int seven_copies(const Licence_t *decoded)
{
    return some_copies_equal(decoded, 7);
}

/* Decodes all of a value into `decoded`, which is zero; what it holds is to be freed in any case. */
static int decode(asn_TYPE_descriptor_t *type, void *decoded, const uint8_t *value, size_t length)
{
    asn_dec_rval_t result = ber_decode(0, type, &decoded, value, length);

    return result.code == RC_OK && result.consumed == length;
}

static int of_licence(const uint8_t *value, size_t length, int (*compare)(const Licence_t *))
{
    Licence_t licence;
    int answer = -1;

    memset(&licence, 0, sizeof licence);
    if (decode(&asn_DEF_Licence, &licence, value, length))
        answer = compare(&licence);
    ASN_STRUCT_FREE_CONTENTS_ONLY(asn_DEF_Licence, &licence);
    return answer;
}

static int ask_three_copies(const uint8_t *value, size_t length)
{
    return of_licence(value, length, three_copies);
}

static int ask_seven_copies(const uint8_t *value, size_t length)
{
    return of_licence(value, length, seven_copies);
}

static int ask_licence_items(const uint8_t *value, size_t length)
{
    return of_licence(value, length, some_of_licence_items);
}

static int ask_event_items(const uint8_t *value, size_t length)
{
    Event_t event;
    int answer = -1;

    memset(&event, 0, sizeof event);
    if (decode(&asn_DEF_Event, &event, value, length))
        answer = some_of_event_items(&event);
    ASN_STRUCT_FREE_CONTENTS_ONLY(asn_DEF_Event, &event);
    return answer;
}

by_hand *by_hand_named(const char *name)
{
    static const struct {
        const char *name;
        by_hand *function;
    } known[] = {
        {"three_copies", ask_three_copies},
        {"seven_copies", ask_seven_copies},
        {"licence_items", ask_licence_items},
        {"event_items", ask_event_items},
    };

    for (size_t i = 0; i < sizeof known / sizeof known[0]; i++)
        if (!strcmp(known[i].name, name))
            return known[i].function;
    return NULL;
}
