/* Random replies of the core. How they were made tells what a viewer must find in them. */

#include "host.h"

#include <stdio.h>

/* Behind so many bytes of entries there is room for one more of any kind. */
enum { ENOUGH = 5000 };

/* A key that comes after the others: the major types rise, and in each of them the numbers. */
static void put_key(struct text *t, unsigned major, uint32_t number)
{
    uint8_t wide[4];
    char digits[9];

    if (major <= NEGATIVE) {
        text_head(t, major, number);
    } else if (major == BYTES) {
        number_to(wide, number);
        text_head(t, major, sizeof wide);
        text_put(t, wide, sizeof wide);
    } else {
        snprintf(digits, sizeof digits, "%08x", (unsigned)number);
        text_head(t, major, 8);
        text_put(t, digits, 8);
    }
}

/* An entry whose key is the last of all, and whose value makes the reply, with what stands before the entries, so long. */
static void fill_up(struct text *t, size_t length)
{
    text_put(t, "\x69" "zzzzzzzzz", 10);
    text_string(t, BYTES, (uint32_t)(length - t->length - 3));
}

static void put_map(struct answer *a)
{
    static uint8_t bytes[LARGEST];
    struct text entries = { bytes, 0 }, t = { a->reply.bytes, 1 };
    uint32_t wanted = chance_one_in(16) ? chance_below(MOST_ENTRIES) : chance_below(8), number = chance_below(30);
    unsigned major = UNSIGNED;
    bool fills = chance_one_in(16);
    size_t begins;

    for (a->count = 0; a->count < wanted && entries.length < ENOUGH; a->count++) {
        if (major < TEXT && chance_one_in(6))
            major++;
        a->entries[a->count].at = entries.length;
        put_key(&entries, major, number);
        a->entries[a->count].value = entries.length;
        if (chance_one_in(16))
            text_put(&entries, "\x81\x81\x80", 3); /* as many levels as there may be */
        else
            text_item(&entries, wanted > 20 ? UNSIGNED : chance_one_in(8) ? SIMPLE : chance_below(MAP + 1), 3);
        a->entries[a->count].end = entries.length;
        number += 1 + chance_below(chance_one_in(8) ? 100000 : 20);
    }
    if (fills) {
        a->entries[a->count].at = entries.length;
        a->entries[a->count].value = entries.length + 10;
    }
    text_head(&t, MAP, (uint32_t)a->count + fills);
    begins = t.length;
    if (fills) {
        fill_up(&entries, BQ_MESSAGE_SIZE - begins - chance_below(3));
        a->entries[a->count++].end = entries.length;
    }
    text_put(&t, bytes, entries.length);
    a->reply.length = t.length;
    for (size_t i = 0; i < a->count; i++) {
        a->entries[i].at += begins;
        a->entries[i].value += begins;
        a->entries[i].end += begins;
    }
}

void answer_status(struct answer *a, uint8_t status)
{
    a->form = ALONE;
    a->reply.bytes[0] = status;
    a->reply.length = 1;
    a->count = 0;
}

void answer_make(struct answer *a)
{
    answer_status(a, chance_one_in(8) ? (uint8_t)chance_any() : 0x00);
    if (chance_one_in(16)) {
        a->form = ANY_BYTES;
        a->reply.length = 1 + chance_below(chance_one_in(8) ? BQ_MESSAGE_SIZE : 200);
        chance_fill(a->reply.bytes, a->reply.length);
    } else if (!chance_one_in(8)) {
        a->form = MAPPED;
        put_map(a);
    }
}
