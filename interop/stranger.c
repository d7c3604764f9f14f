/* The stranger: a second client whose packets fall between all of the first one's. While that holds the key, document 01 allows
   it an error or a channel and nothing else; while the key is free, a PING of its own is served. */

#include "interop.h"

#include <stdio.h>
#include <string.h>

enum { CHANNEL_BUSY = 0x06, INVALID_CHANNEL = 0x0b };

/* An INIT carries a nonce; its reply gives the nonce back, then the channel. */
enum { NONCE = 8, CHANNEL_AT = OPENING_AT + NONCE };

/* What the stranger's payloads are full of. */
enum { FILLER = 0xee };

enum knock { SERVED, BUSY_PING, BUSY_MSG, BUSY_CBOR, BUSY_INIT, CANCELS, CONTINUES, UNKNOWN, ON_BROADCAST, GREETED, KNOCKS };

static struct {
    const char *knock, *draws;
    unsigned long times;
} tally[KNOCKS] = {
    [SERVED] = { "PING of two packets while the key is free", "its own bytes back", 0 },
    [BUSY_PING] = { "PING opening on its channel", "busy, 06", 0 },
    [BUSY_MSG] = { "MSG opening on its channel", "busy, 06", 0 },
    [BUSY_CBOR] = { "CBOR opening on its channel", "busy, 06", 0 },
    [BUSY_INIT] = { "INIT on its channel", "busy, 06", 0 },
    [CANCELS] = { "CANCEL on its channel", "nothing", 0 },
    [CONTINUES] = { "continuation with the client's number", "nothing", 0 },
    [UNKNOWN] = { "PING opening on a channel not yet given", "invalid channel, 0b", 0 },
    [ON_BROADCAST] = { "PING opening on broadcast", "invalid channel, 0b", 0 },
    [GREETED] = { "INIT on broadcast", "a new channel", 0 },
};

static uint32_t channel;         /* the stranger's */
static uint32_t given;           /* the last channel that the key gave */
static uint8_t greeting[PACKET]; /* the INIT reply that gave it */

static void put_channel(uint8_t at[4], uint32_t number)
{
    for (int i = 0; i < 4; i++)
        at[i] = (uint8_t)(number >> (24 - 8 * i));
}

/* A packet full of filler with this channel and byte 4, and as an opening with this length. */
static void make(uint8_t packet[PACKET], uint32_t on, uint8_t byte_4, uint8_t length)
{
    memset(packet, FILLER, PACKET);
    put_channel(packet, on);
    packet[4] = byte_4;
    if (byte_4 >= OPENING) {
        packet[5] = 0;
        packet[6] = length;
    }
}

/* The answer must be this reply packet, or none where it is NULL; nothing may be handed on. */
static void must_draw(enum knock knock, const char *answer, const uint8_t *reply)
{
    char expected[sizeof "ok reply " + 2 * PACKET] = "ok";

    if (reply != NULL)
        write_hex(strcpy(expected + 2, " reply ") + strlen(" reply "), reply, PACKET);
    if (strcmp(answer, expected) != 0)
        fail("the stranger's %s draws `%s`, not `%s`", tally[knock].knock, answer, expected);
}

static void try(enum knock knock, const uint8_t packet[PACKET], const uint8_t *reply)
{
    must_draw(knock, bench_packet(packet), reply);
    tally[knock].times++;
}

/* An opening that draws this error, or nothing where it is 0. */
static void try_opening(enum knock knock, uint32_t on, uint8_t command, uint8_t error)
{
    uint8_t packet[PACKET], reply[PACKET] = { 0 };

    make(packet, on, command, NONCE);
    put_channel(reply, on);
    reply[4] = ERROR;
    reply[6] = 1;
    reply[7] = error;
    try(knock, packet, error == 0 ? NULL : reply);
}

/* The reply must be the greeting that the client drew, but for the nonce and the channel, which is the next one. */
static void greet(void)
{
    uint8_t packet[PACKET];

    make(packet, BROADCAST, INIT, NONCE);
    memcpy(greeting + OPENING_AT, packet + OPENING_AT, NONCE);
    put_channel(greeting + CHANNEL_AT, ++given);
    try(GREETED, packet, greeting);
}

/* A PING from opening to last reply packet, so that the key is free again: what comes back is what was sent. */
static void ping(void)
{
    uint8_t first[PACKET], second[PACKET];

    make(first, channel, PING, 2 * PACKET - OPENING_AT - CONTINUATION_AT);
    make(second, channel, 0, 0);
    must_draw(SERVED, bench_packet(first), NULL);
    must_draw(SERVED, bench_packet(second), NULL);
    must_draw(SERVED, bench_ask("fetch"), first);
    must_draw(SERVED, bench_ask("fetch"), second);
    tally[SERVED].times++;
}

void stranger_comes(const uint8_t seen[PACKET])
{
    memcpy(greeting, seen, PACKET);
    given = channel_at(seen + CHANNEL_AT);
    greet();
    channel = given;
}

void stranger_knocks(bool key_is_held, uint8_t number)
{
    uint8_t continuation[PACKET];

    if (key_is_held) {
        try_opening(BUSY_PING, channel, PING, CHANNEL_BUSY);
        try_opening(BUSY_MSG, channel, MSG, CHANNEL_BUSY);
        try_opening(BUSY_CBOR, channel, CBOR, CHANNEL_BUSY);
        try_opening(BUSY_INIT, channel, INIT, CHANNEL_BUSY);
    } else {
        ping();
    }
    try_opening(CANCELS, channel, CANCEL, 0);
    make(continuation, channel, number, 0);
    try(CONTINUES, continuation, NULL);
    try_opening(UNKNOWN, given + 1, PING, INVALID_CHANNEL);
    try_opening(ON_BROADCAST, BROADCAST, PING, INVALID_CHANNEL);
    greet();
}

unsigned long stranger_report(void)
{
    unsigned long all = 0;

    for (int i = 0; i < KNOCKS; i++) {
        printf("  %-42s %4lu times: %s\n", tally[i].knock, tally[i].times, tally[i].draws);
        all += tally[i].times;
    }
    return all;
}
