/* Calls that no sensible viewer makes: words that are no reply's, packets and parts that are none, short buffers and long messages. */

#include "host.h"

#include <string.h>

/* What it lends is its own, so that it does not disturb a viewer that talks to the key. */
static struct host h;

/* A channel, of which there are few, and a command, which may be one that no packet has. */
static void choose_numbers(void)
{
    h.number = chance_one_in(8) ? chance_any() : 1 + chance_below(3);
    h.command = chance_one_in(4) ? (uint8_t)chance_any() : CBOR;
}

/* ---- gathering */

/* The word of a reply of which some packets have come; the numbers are those that count, and not all can be. */
static uint64_t begun_word(uint32_t *done)
{
    static const uint32_t sizes[] = { 0, 1, 57, 58, 59, 116, 117, 200, 1000, BQ_MESSAGE_SIZE - 1, BQ_MESSAGE_SIZE, BQ_MESSAGE_SIZE + 1 };
    uint32_t size = sizes[chance_below(12)], packets = packets_needed(size);

    *done = chance_one_in(8) ? packets - 1 + chance_below(3) : chance_below(packets);
    return UINT64_C(1) << 40 | (uint64_t)size << 42 | (uint64_t)*done << 56;
}

/* Any word, one of a reply, or one of which a bit was turned. */
static uint64_t any_word(uint32_t *done)
{
    uint32_t which = chance_below(8);
    uint64_t word = (uint64_t)h.number | (uint64_t)h.command << 32;

    *done = 0;
    if (which == 0) {
        word = (uint64_t)chance_any() << 32;
        word |= chance_any();
    } else if (which == 1) {
        word |= (uint64_t)(2 + chance_below(2)) << 40;
        word |= (uint64_t)chance_below(0x2000) << 42;
    } else if (which < 6) {
        word |= begun_word(done);
    }
    return chance_one_in(8) ? word ^ UINT64_C(1) << chance_below(64) : word;
}

/* A packet for a reply of which so many have come: the next one, or another. */
static void any_packet(uint32_t done)
{
    uint8_t *packet = h.buffers[INPUT].bytes;
    uint32_t which = chance_below(8);
    size_t length = chance_one_in(4) ? chance_below(0x10000) : chance_one_in(4) ? chance_near(BQ_MESSAGE_SIZE, LARGEST) : chance_below(200);

    chance_fill(packet, BQ_PACKET_SIZE);
    h.buffers[INPUT].length = BQ_PACKET_SIZE;
    number_to(packet, chance_one_in(8) ? h.number + 1 : h.number);
    packet[5] = (uint8_t)(length >> 8);
    packet[6] = (uint8_t)length;
    if (which < 4)
        packet[4] = (uint8_t)((done - 1 + (which == 0 ? chance_below(3) - 1 : 0)) & 0x7f);
    else if (which < 7)
        packet[4] = (uint8_t)(0x80 | (which == 4 ? chance_any() : h.command));
    else
        packet[4] = 0x80 | ERROR;
}

static void take_call(void)
{
    uint32_t done;

    choose_numbers();
    h.word = any_word(&done);
    any_packet(done);
    h.buffers[MESSAGE].length = BQ_MESSAGE_SIZE;
    if (chance_one_in(6))
        h.buffers[INPUT].length = chance_near(BQ_PACKET_SIZE, 128);
    if (chance_one_in(6))
        h.buffers[MESSAGE].length = chance_near(BQ_MESSAGE_SIZE, LARGEST);
    make_call(TAKE, &h);
}

static void await_call(void)
{
    choose_numbers();
    make_call(AWAIT, &h);
}

/* ---- cutting */

static void cut_call(void)
{
    choose_numbers();
    h.buffers[INPUT].length = chance_one_in(2) ? chance_near(BQ_MESSAGE_SIZE, LARGEST) : chance_below(300);
    h.buffers[REPLY].length = chance_one_in(4) ? chance_near(BQ_PACKET_SIZE, 128) : BQ_PACKET_SIZE;
    chance_fill(h.buffers[REPLY].bytes, BQ_PACKET_SIZE);
    h.place = chance_one_in(8) ? SIZE_MAX - chance_below(2) : chance_below(132);
    make_call(CUT, &h);
}

/* ---- parts */

static void parts_call(void)
{
    enum kind kind = chance_one_in(2) ? MAKE : GET;

    for (int slot = PART; slot < SLOTS; slot++) {
        h.buffers[slot].length = chance_below(8);
        chance_fill(h.buffers[slot].bytes, h.buffers[slot].length);
    }
    h.given = chance_one_in(2) ? (uint16_t)chance_any() : (uint16_t)(1u << chance_below(16));
    h.buffers[MESSAGE].length = chance_near(64, LARGEST);
    make_call(kind, &h);
}

/* ---- replies */

/* A reply that is damaged, odd, too long or none. */
static void any_reply(struct answer *a)
{
    struct text t = { a->reply.bytes, 0 };

    answer_make(a);
    t.length = a->reply.length;
    if (chance_one_in(8)) {
        t.length = chance_near(BQ_MESSAGE_SIZE, LARGEST);
    } else if (chance_one_in(8)) {
        t.length = 1;
        text_put(&t, "\xa1\x00", 2);
        text_odd(&t);
    } else {
        text_damage(&t);
    }
    a->reply.length = t.length;
}

/* A place where an entry of the reply began before it was damaged, or any. */
static size_t any_place(const struct answer *a)
{
    if (a->count > 0 && !chance_one_in(4))
        return a->entries[chance_below((uint32_t)a->count)].at;
    return chance_one_in(16) ? SIZE_MAX : chance_below(chance_one_in(2) ? 4 : (uint32_t)a->reply.length + 2);
}

static void reply_calls(void)
{
    static struct answer a;

    any_reply(&a);
    memcpy(h.buffers[INPUT].bytes, a.reply.bytes, a.reply.length);
    h.buffers[INPUT].length = a.reply.length;
    make_call(APART, &h);
    make_call(FIRST, &h);
    h.place = any_place(&a);
    make_call(ENTRY, &h);
}

void viewer_damage_call(void)
{
    switch (chance_below(8)) {
    case 0:
        await_call();
        break;
    case 1:
        parts_call();
        break;
    case 2:
        cut_call();
        break;
    case 3:
        reply_calls();
        break;
    default:
        take_call();
    }
}
