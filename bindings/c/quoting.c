/*
 * tezqulom_quote about drawn texts and rooms.
 *
 *     quoting ROUNDS
 *
 * drawn.h says what is drawn and compared.
 */
#include "drawn.h"

static uint64_t quoted(struct octets text, uint8_t *form)
{
    uint64_t i, length = 0;
    form[length++] = '"';
    for (i = 0; i < text.length; i++) {
        if (text.at[i] == '"')
            form[length++] = '"';
        form[length++] = text.at[i];
    }
    form[length++] = '"';
    return length;
}

int main(int argc, char **argv)
{
    static const struct writer writer = {"quote", tezqulom_quote, quoted, 1};
    return draw_texts(argc, argv, &writer);
}
