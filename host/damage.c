/* Calls that no sensible host makes: buffers that are too short, blocks that are none, states that cannot be, calls out of place. */

#include "host.h"

#include <string.h>

/* ---- lengths */

static void damage_lengths(struct host *h)
{
    if (chance_one_in(3))
        h->buffers[BLOCK].length = chance_near(BQ_BLOCK_SIZE, 64);
    if (chance_one_in(3))
        h->buffers[INPUT].length = chance_near(BQ_PACKET_SIZE, 128);
    if (chance_one_in(3))
        h->buffers[REPLY].length = chance_near(BQ_PACKET_SIZE, 128);
    if (chance_one_in(3))
        h->buffers[MESSAGE].length = chance_near(BQ_MESSAGE_SIZE, LARGEST);
}

/* ---- blocks */

/* A state whose numbers are those that count; most are in order. */
static struct state any_state(void)
{
    static const uint32_t counts[] = { 0, 1, 2, 3, 65535, MOST_CHANNELS - 1, MOST_CHANNELS };
    static const uint32_t sizes[] = { 0, 1, 57, 58, 116, 117, 200, BQ_MESSAGE_SIZE - 59, BQ_MESSAGE_SIZE };
    static const uint8_t commands[] = { PING, MSG, CBOR };
    struct state s = { .phase = (uint8_t)chance_below(4) };

    s.given = counts[chance_below(7)];
    s.ticket = chance_one_in(8) ? UINT32_MAX : chance_any();
    if (s.phase == IDLE || s.given == 0)
        return (struct state) { .given = s.given, .ticket = s.ticket };
    s.command = commands[chance_below(3)];
    s.holder = 1 + chance_below(s.given);
    s.size = sizes[chance_below(9)];
    s.done = s.phase == WAITING ? 0 : chance_below(packets_needed(s.size));
    s.left = s.phase == GATHERING ? 1 + chance_below(MOST_TIME) : 0;
    return s;
}

/* A number is put just out of order, by document 01's list, or anywhere. Where its phase has no use for it, the block is no state's. */
static void put_out_of_order(struct state *s)
{
    uint32_t *const numbers[] = { &s->given, &s->holder, &s->size, &s->done, &s->left }, *any = numbers[chance_below(5)];
    const struct {
        uint32_t *number, value;
    } just_out[] = {
        { &s->given, BROADCAST },
        { &s->holder, 0 },
        { &s->holder, s->given + 1 },
        { &s->size, BQ_MESSAGE_SIZE + 1 },
        { &s->done, packets_needed(s->size) },
        { &s->done, 0 },
        { &s->left, 0 },
        { &s->left, MOST_TIME + 1 },
    };
    enum { WAYS = sizeof just_out / sizeof just_out[0] };
    uint32_t which = chance_below(WAYS + 4);

    if (which < WAYS)
        *just_out[which].number = just_out[which].value;
    else if (which == WAYS)
        s->command = PING; /* which never waits */
    else if (which == WAYS + 1)
        s->command = chance_one_in(2) ? INIT : (uint8_t)chance_any();
    else if (which == WAYS + 2)
        *any += chance_below(3) - 1;
    else
        *any = chance_any();
}

/* All numbers stand, whether the phase has a use for them or not. */
static void write_all(const struct state *s, uint8_t *block)
{
    block_write(s, block);
    block[3] = s->command;
    number_to(block + 12, s->holder);
    number_to(block + 16, s->size);
    number_to(block + 20, s->done);
    number_to(block + 24, s->left);
}

static void damage_block(uint8_t *block)
{
    struct state s = any_state();
    uint32_t which = chance_below(10);

    if (which > 0)
        block_write(&s, block);
    if (which == 1) {
        chance_fill(block, BQ_BLOCK_SIZE);
    } else if (which == 2) {
        chance_fill(block + 3, BQ_BLOCK_SIZE - 3);
        memset(block + 28, 0, 4);
    } else if (which == 3) {
        memset(block, chance_one_in(2) ? 0x00 : 0xff, BQ_BLOCK_SIZE);
    } else if (which >= 7) {
        put_out_of_order(&s);
        write_all(&s, block);
    } else if (which == 4) {
        block[2] = (uint8_t)(chance_one_in(2) ? 4 : chance_any());
    } else {
        chance_turn_bit(block, BQ_BLOCK_SIZE);
    }
}

/* ---- calls */

static enum kind any_call(struct host *h)
{
    struct buffer *input = &h->buffers[INPUT];
    struct state s = { .given = 1 };
    enum kind kind = chance_one_in(64) ? FRESH : chance_one_in(2) ? PACKET : chance_one_in(3) ? TIME : chance_one_in(2) ? DELIVER : FETCH;

    block_read(h->buffers[BLOCK].bytes, BQ_BLOCK_SIZE, &s);
    h->number = kind == DELIVER && !chance_one_in(4) ? s.ticket : chance_one_in(2) ? chance_below(4000) : chance_any();
    if (kind == PACKET && chance_one_in(4)) {
        chance_fill(input->bytes, BQ_PACKET_SIZE);
        input->length = BQ_PACKET_SIZE;
    } else if (kind == PACKET) {
        visitor_packet(&s, input);
    } else {
        input->length = chance_near(chance_one_in(2) ? 1 : BQ_MESSAGE_SIZE, LARGEST);
    }
    return kind;
}

static void check_call(struct host *h)
{
    struct buffer *input = &h->buffers[INPUT];

    if (chance_one_in(8)) {
        input->length = chance_one_in(4) ? chance_near(BQ_MESSAGE_SIZE, LARGEST) : chance_near(40, 100);
        chance_fill(input->bytes, input->length < 100 ? input->length : 100);
        input->bytes[0] &= 0x07;
    } else {
        input->length = message_command(input->bytes);
    }
    make_call(CHECK, h);
}

/* The host goes on with what it lent otherwise; with another block if that is of a state in order. */
void damage_call(struct host *h)
{
    uint8_t block[BQ_BLOCK_SIZE];
    size_t lengths[KEY_SLOTS];
    struct state s;
    enum kind kind;

    if (chance_one_in(3)) {
        check_call(h);
        return;
    }
    memcpy(block, h->buffers[BLOCK].bytes, sizeof block);
    for (int slot = 0; slot < KEY_SLOTS; slot++)
        lengths[slot] = h->buffers[slot].length;
    if (chance_one_in(2))
        damage_block(h->buffers[BLOCK].bytes);
    kind = any_call(h);
    if (chance_one_in(2))
        damage_lengths(h);
    make_call(kind, h);
    for (int slot = 0; slot < KEY_SLOTS; slot++)
        h->buffers[slot].length = lengths[slot];
    if (!block_read(h->buffers[BLOCK].bytes, BQ_BLOCK_SIZE, &s) || !in_order(&s))
        memcpy(h->buffers[BLOCK].bytes, block, sizeof block);
}
