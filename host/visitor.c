/* Hosts that use the key as it is meant, all at once: they get channels, send messages, cancel, and fetch; and a core that delivers. */

#include "host.h"

#include <string.h>

/* The message that is being sent. */
static struct buffer sent;

/* ---- packets */

static void begin_packet(struct buffer *packet, uint32_t channel, uint8_t fifth)
{
    chance_fill(packet->bytes, BQ_PACKET_SIZE); /* bytes that are not used are not read */
    packet->length = BQ_PACKET_SIZE;
    number_to(packet->bytes, channel);
    packet->bytes[4] = fifth;
}

static void opening(struct buffer *packet, uint32_t channel, uint8_t command, size_t length)
{
    begin_packet(packet, channel, (uint8_t)(0x80 | command));
    packet->bytes[5] = (uint8_t)(length >> 8);
    packet->bytes[6] = (uint8_t)length;
}

static void init(struct buffer *packet, uint32_t channel)
{
    opening(packet, channel, INIT, chance_one_in(16) ? chance_below(20) : 8);
}

/* A message is made, and its opening packet. */
static void open_message(struct buffer *packet, uint32_t channel)
{
    uint32_t which = chance_below(8);
    uint8_t command = which < 4 ? CBOR : which < 6 ? MSG : PING;

    if (command == CBOR)
        sent.length = message_command(sent.bytes);
    else if (command == MSG)
        sent.length = message_apdu(sent.bytes);
    else
        sent.length = chance_below(chance_one_in(32) ? BQ_MESSAGE_SIZE + 2 : 200);
    opening(packet, channel, command, sent.length);
    memcpy(packet->bytes + 7, sent.bytes, FIRST_PAYLOAD);
}

/* The next continuation of the message, which is not looked at behind its end. */
static void continuation(const struct state *s, struct buffer *packet)
{
    size_t from = FIRST_PAYLOAD + (s->done - 1) * LATER_PAYLOAD;

    begin_packet(packet, s->holder, (uint8_t)(s->done - 1));
    memcpy(packet->bytes + 5, sent.bytes + from, LATER_PAYLOAD);
}

static uint32_t known_channel(const struct state *s)
{
    return 1 + chance_below(s->given < 8 ? s->given : chance_one_in(2) ? 8 : s->given);
}

/* A channel that was given, the holder's own, or one that was not. */
static uint32_t any_channel(const struct state *s)
{
    switch (chance_below(8)) {
    case 0:
        return BROADCAST;
    case 1:
        return 0;
    case 2:
        return s->given + 1;
    case 3:
        return s->holder;
    default:
        return s->given == 0 ? 1 : known_channel(s);
    }
}

void visitor_packet(const struct state *s, struct buffer *packet)
{
    static const uint8_t commands[] = { PING, MSG, CBOR, INIT, INIT, INIT, CANCEL, CANCEL };
    uint32_t channel = any_channel(s);
    uint8_t command = chance_one_in(8) ? (uint8_t)chance_below(0x80) : commands[chance_below(sizeof commands)];

    if (chance_one_in(4)) /* with the number that the holder's message waits for, or another */
        begin_packet(packet, channel, (uint8_t)((s->done - chance_below(2)) & 0x7f));
    else if (command == INIT)
        init(packet, channel);
    else
        opening(packet, channel, command, chance_one_in(8) ? chance_below(0x10000) : chance_below(200));
}

/* ---- what comes next */

static enum kind begin(const struct state *s, struct host *h)
{
    struct buffer *packet = &h->buffers[INPUT];

    if (s->given == 0 || chance_one_in(16))
        init(packet, BROADCAST);
    else if (chance_one_in(32))
        init(packet, known_channel(s));
    else
        open_message(packet, known_channel(s));
    return PACKET;
}

static enum kind go_on(const struct state *s, struct host *h)
{
    continuation(s, &h->buffers[INPUT]);
    return PACKET;
}

/* The core's answer, or something else while it works. */
static enum kind wait(const struct state *s, struct host *h)
{
    struct buffer *input = &h->buffers[INPUT];

    if (chance_one_in(8)) {
        opening(input, s->holder, CANCEL, 0);
        return PACKET;
    }
    h->number = chance_one_in(8) ? s->ticket - chance_below(3) : s->ticket;
    input->length = chance_one_in(32) ? BQ_MESSAGE_SIZE - 1 + chance_below(3) : chance_below(200);
    chance_fill(input->bytes, input->length < 64 ? input->length : 64);
    return DELIVER;
}

static enum kind next(const struct state *s, struct host *h)
{
    switch (s->phase) {
    case IDLE:
        return begin(s, h);
    case GATHERING:
        return go_on(s, h);
    case WAITING:
        return wait(s, h);
    default:
        return FETCH;
    }
}

/* Some time, or about as much as is left. */
static uint32_t time_step(const struct state *s)
{
    if (chance_one_in(8))
        return s->left - 1 + chance_below(3);
    return chance_one_in(8) ? chance_any() : chance_below(MOST_TIME / 2);
}

/* The core looks for the hash of a request that was handed to it. */
static void look_for_hash(struct host *h)
{
    const uint8_t *block = h->buffers[BLOCK].bytes;
    uint32_t size = bq_request_size(block);

    if (bq_request_command(block) != CBOR)
        return;
    memcpy(h->buffers[INPUT].bytes, h->buffers[MESSAGE].bytes, size);
    h->buffers[INPUT].length = size;
    if (bq_status(make_call(CHECK, h)) != 0)
        fail("a request of %u bytes waits for the core, and bq_check refuses it", size);
}

void visitor_call(struct host *h, bool calm)
{
    struct state s;
    enum kind kind;

    if (!block_read(h->buffers[BLOCK].bytes, BQ_BLOCK_SIZE, &s) || !in_order(&s))
        fail("the host has lost its block");
    if (!calm && chance_one_in(6)) {
        visitor_packet(&s, &h->buffers[INPUT]);
        kind = PACKET;
    } else if (!calm && chance_one_in(16)) {
        h->number = time_step(&s);
        kind = TIME;
    } else {
        kind = next(&s, h);
    }
    if (bq_ticketed(make_call(kind, h)) && kind == PACKET)
        look_for_hash(h);
}
