/* Drawn texts and rooms for a function that writes another form of a text. */
#ifndef DRAWN_H
#define DRAWN_H

#include "file.h"
#include "tezqulom.h"

/* A function of the interface, and what is known of it. */
struct writer {
    const char *name;
    tezqulom_answer (*write)(const uint8_t *text, uint64_t text_length, uint8_t *room, uint64_t room_length);
    uint64_t (*form)(struct octets text, uint8_t *form); /* the form that has to be written, in room enough for it; its length */
    int empty;                                           /* an empty text is answered with TEZQULOM_QUOTE_EMPTY */
};

/* A round draws a text of quotes, letters, characters that are escaped, characters of several octets and octets that are not UTF-8, and a room about as
 * long as its form; what is drawn follows from the round's number alone. Text and room are in blocks of exactly their size, so that valgrind sees an
 * access outside. The answer and the room afterwards have to be those that are found here. Prints how often each answer came. The program's status: 0,
 * or 1 at the first answer that is another or does not come, or 2 where the arguments are not the number of rounds. */
int draw_texts(int argc, char **argv, const struct writer *writer);

#endif
