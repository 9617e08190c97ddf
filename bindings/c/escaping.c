/*
 * tezqulom_escape about drawn texts and rooms.
 *
 *     escaping ROUNDS
 *
 * drawn.h says what is drawn and compared.
 */
#include "drawn.h"

#include <string.h>

static uint64_t escaped(struct octets text, uint8_t *form)
{
    uint64_t i, length = 0;
    for (i = 0; i < text.length; i++) {
        uint8_t one = text.at[i];
        int first = i == 0, last = i == text.length - 1;
        if (one == 0) {
            memcpy(form + length, "\\00", 3);
            length += 3;
            continue;
        }
        if (strchr("\"+,;<>\\", one) != NULL || (one == ' ' && (first || last)) || (one == '#' && first))
            form[length++] = '\\';
        form[length++] = one;
    }
    return length;
}

int main(int argc, char **argv)
{
    static const struct writer writer = {"escape", tezqulom_escape, escaped, 0};
    return draw_texts(argc, argv, &writer);
}
