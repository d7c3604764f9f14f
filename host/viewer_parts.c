/* Random parts of commands: most make a command that the key takes, and the others are wrong in one way or another. */

#include "host.h"

#include <string.h>

size_t parts_command(enum kind kind, const struct host *h, uint8_t *out)
{
    const struct command *c = &commands[kind - MAKE];
    size_t length = 2;

    out[0] = c->command;
    out[1] = 0xa0;
    for (uint8_t key = 1; key <= c->keys; key++) {
        const struct buffer *part = &h->buffers[PART + key - 1];

        if ((h->given >> key & 1) == 0)
            continue;
        out[1]++;
        out[length] = key;
        memcpy(out + length + 1, part->bytes, part->length);
        length += 1 + part->length;
    }
    return length;
}

/* The PIN's proof makes the command as long as commands get, or longer. */
static void fill_up(enum kind kind, struct host *h, uint8_t *command)
{
    uint8_t key = kind == MAKE ? 8 : 6;
    struct buffer *proof = &h->buffers[PART + key - 1];
    struct text t = { proof->bytes, 0 };
    size_t length = BQ_MESSAGE_SIZE - 2 + (chance_one_in(4) ? chance_below(400) : chance_below(5)), others;

    h->given &= (uint16_t)~(1u << key);
    others = parts_command(kind, h, command) + 1 + 3; /* its key, and the head of a string of 256 bytes or more */
    if (others + 256 > length)
        return;
    h->given |= (uint16_t)(1u << key);
    text_string(&t, BYTES, (uint32_t)(length - others));
    proof->length = t.length;
}

static void make_part(enum kind kind, struct host *h, uint8_t key)
{
    struct buffer *part = &h->buffers[PART + key - 1];
    struct text t = { part->bytes, 0 };

    if (chance_one_in(48))
        text_odd(&t);
    else
        t.length = message_part((int)kind - MAKE, key, part->bytes);
    if (chance_one_in(48) && t.length < MOST_JUDGED - 16) /* damage may make it longer */
        text_damage(&t);
    part->length = t.length;
    h->given |= (uint16_t)(1u << key);
}

void parts_make(enum kind kind, struct host *h)
{
    static uint8_t command[LARGEST_COMMAND];
    const struct command *c = &commands[kind - MAKE];
    struct buffer *out = &h->buffers[MESSAGE];
    uint32_t which;
    size_t length;

    h->given = 0;
    for (uint8_t key = 1; key <= c->keys; key++)
        if (key <= c->required ? !chance_one_in(48) : chance_one_in(4))
            make_part(kind, h, key);
        else if (chance_one_in(2)) /* else bytes that stand there do not count */
            h->buffers[PART + key - 1].length = 0;
    if (chance_one_in(16))
        fill_up(kind, h, command);
    if (chance_one_in(8)) /* bits of no key */
        h->given |= (uint16_t)(1u | chance_any() << (c->keys + 1));
    length = parts_command(kind, h, command);
    which = chance_below(16);
    out->length = which < 8 ? BQ_MESSAGE_SIZE : which < 12 ? LARGEST : which == 12 ? chance_below(LARGEST + 1) : length + 13 - which;
    if (out->length > LARGEST)
        out->length = LARGEST;
    chance_fill(out->bytes, out->length < 256 ? out->length : 256);
}
