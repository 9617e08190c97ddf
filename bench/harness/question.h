/* A question, and the comparing by hand after asn1c's decoding. */
#ifndef QUESTION_H
#define QUESTION_H

#include <stddef.h>
#include <stdint.h>

/* Decodes a value and compares by hand: 1 for TRUE, 0 for FALSE, -1 for a value that isn't decoded. */
typedef int by_hand(const uint8_t *value, size_t length);

typedef struct octets {
    uint8_t *start;
    uint64_t length;
} octets;

typedef struct question {
    char name[32];
    int timed;              /* 0: only checked */
    uint64_t number, count; /* the answer expected, as tezqulom_answer */
    octets table, value, filter;
    by_hand *decode_and_compare;
} question;

/* The comparing of this name, or NULL. */
by_hand *by_hand_named(const char *name);

#endif
