#include "drawn.h"

#include <stdio.h>
#include <stdlib.h>
#include <string.h>

enum { LONGEST = 100, UNWRITTEN = 7, MOST_FOR_ONE = 3 };

static uint64_t state;

/* SplitMix64. */
static uint64_t below(uint64_t limit)
{
    uint64_t z = state += 0x9E3779B97F4A7C15u;
    z = (z ^ (z >> 30)) * 0xBF58476D1CE4E5B9u;
    z = (z ^ (z >> 27)) * 0x94D049BB133111EBu;
    return (z ^ (z >> 31)) % limit;
}

/* Appends a piece of text: mostly a character, sometimes octets that are none. The piece without octets stands for NUL. */
static void append(struct octets *text)
{
    static const char *const pieces[] = {
        "\"",           "\"",           " ",            " ",            "#",                "+",                ",",
        ";",            "<",            ">",            "\\",           "=",                "",                 "00",
        "a",            "}",            "\x7F",         "\xC2\x80",     "\xC3\xA9",         "\xDF\xBF",         "\xE0\xA0\x80",
        "\xED\x9F\xBF", "\xEE\x80\x80", "\xEF\xBF\xBF", "\x1F",         "\xF0\x90\x80\x80", "\xF4\x8F\xBF\xBF", "\xC0\x80",
        "\xC1\xBF",     "\xE0\x9F\xBF", "\xED\xA0\x80", "\xF0\x8F\xBF\xBF", "\xF4\x90\x80\x80", "\xF5\x80\x80\x80", "\x80",
        "\xC3",         "\xE2\x82",     "\xF0\x9F\x98", "\xFF",
    };
    enum { GOOD = 27, ALL = sizeof pieces / sizeof *pieces };
    const char *piece = pieces[below(below(40) ? GOOD : ALL)];
    size_t length = *piece ? strlen(piece) : 1;
    if (text->length + length <= LONGEST) {
        memcpy(text->at + text->length, piece, length);
        text->length += length;
    }
}

/* The octets of the UTF-8 character at the start, by RFC 3629's table; 0 where there is none. */
static uint64_t character(const uint8_t *at, uint64_t left)
{
    uint64_t length = at[0] < 0x80 ? 1 : at[0] < 0xC2 ? 0 : at[0] < 0xE0 ? 2 : at[0] < 0xF0 ? 3 : at[0] < 0xF5 ? 4 : 0, i;
    if (length > left)
        return 0;
    for (i = 1; i < length; i++)
        if (at[i] < 0x80 || at[i] > 0xBF)
            return 0;
    if ((at[0] == 0xE0 && at[1] < 0xA0) || (at[0] == 0xED && at[1] > 0x9F) || (at[0] == 0xF0 && at[1] < 0x90) || (at[0] == 0xF4 && at[1] > 0x8F))
        return 0;
    return length;
}

static int is_utf8(struct octets text)
{
    uint64_t at = 0, length;
    while (at < text.length) {
        length = character(text.at + at, text.length - at);
        if (length == 0)
            return 0;
        at += length;
    }
    return 1;
}

/* The answer about a text whose form has so many octets. */
static tezqulom_answer expected(const struct writer *writer, struct octets text, uint64_t length, uint64_t room_length)
{
    tezqulom_answer answer = {TEZQULOM_DONE, 0};
    if (text.length == 0 && writer->empty)
        answer.number = TEZQULOM_QUOTE_EMPTY;
    else if (!is_utf8(text))
        answer.number = TEZQULOM_QUOTE_UTF8;
    else if (length > room_length)
        answer.number = TEZQULOM_QUOTE_ROOM;
    else
        answer.count = length;
    return answer;
}

static void end(unsigned long round, const char *what)
{
    fprintf(stderr, "round %lu: %s\n", round, what);
    exit(1);
}

/* One text and one room. The answer's number. */
static uint64_t write_one(const struct writer *writer, unsigned long round)
{
    uint8_t text_octets[LONGEST], form[MOST_FOR_ONE * LONGEST + 2];
    struct octets drawn = {text_octets, 0}, text;
    uint64_t pieces = below(20), room_length, length, i;
    uint8_t *room;
    tezqulom_answer answer, wanted;
    for (i = 0; i < pieces; i++)
        append(&drawn);
    text.length = drawn.length;
    text.at = block(text.length);
    memcpy(text.at, text_octets, (size_t)text.length);
    length = writer->form(text, form);
    room_length = below(3) ? length + below(5) : below(3);
    room_length -= room_length < 2 ? room_length : 2;
    room = block(room_length);
    memset(room, UNWRITTEN, (size_t)room_length);
    wanted = expected(writer, text, length, room_length);
    answer = writer->write(text.at, text.length, room, room_length);
    if (answer.number != wanted.number || answer.count != wanted.count)
        end(round, "another answer");
    if (memcmp(room, form, (size_t)answer.count) != 0)
        end(round, "something else is written");
    for (i = answer.count; i < room_length; i++)
        if (room[i] != UNWRITTEN)
            end(round, "the rest of the room is not as it was");
    free(text.at);
    free(room);
    return answer.number;
}

int draw_texts(int argc, char **argv, const struct writer *writer)
{
    static const int numbers[] = {TEZQULOM_DONE, TEZQULOM_QUOTE_EMPTY, TEZQULOM_QUOTE_UTF8, TEZQULOM_QUOTE_ROOM};
    unsigned long seen[TEZQULOM_QUOTE_ROOM + 1] = {0}, rounds, round;
    size_t i;
    if (argc != 2 || (rounds = strtoul(argv[1], NULL, 10)) == 0) {
        fprintf(stderr, "%s ROUNDS\n", writer->name);
        return 2;
    }
    for (round = 1; round <= rounds; round++) {
        state = (uint64_t)round << 32;
        seen[write_one(writer, round)]++;
    }
    for (i = 0; i < sizeof numbers / sizeof *numbers; i++) {
        if (numbers[i] == TEZQULOM_QUOTE_EMPTY && !writer->empty)
            continue;
        printf("%s %d: %lu\n", writer->name, numbers[i], seen[numbers[i]]);
        if (seen[numbers[i]] == 0)
            end(rounds, "an answer has not come");
    }
    end_output();
    return 0;
}
