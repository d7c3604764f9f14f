/* The block, written and read by the table of include/bellaqsum.h. */

#include "host.h"

#include <string.h>

uint32_t number_at(const uint8_t *bytes)
{
    return (uint32_t)bytes[0] << 24 | (uint32_t)bytes[1] << 16 | (uint32_t)bytes[2] << 8 | bytes[3];
}

void number_to(uint8_t *bytes, uint32_t number)
{
    bytes[0] = (uint8_t)(number >> 24);
    bytes[1] = (uint8_t)(number >> 16);
    bytes[2] = (uint8_t)(number >> 8);
    bytes[3] = (uint8_t)number;
}

/* The fields that each phase has a use for; the others are 0. */
static bool has_message(const struct state *s)
{
    return s->phase != IDLE;
}

static bool counts_packets(const struct state *s)
{
    return s->phase == GATHERING || s->phase == ANSWERING;
}

static bool has_time(const struct state *s)
{
    return s->phase == GATHERING;
}

bool block_read(const uint8_t *bytes, size_t length, struct state *s)
{
    if (length < BQ_BLOCK_SIZE || bytes[0] != 0x42 || bytes[1] != 0x51 || bytes[2] > ANSWERING || number_at(bytes + 28) != 0)
        return false;
    *s = (struct state) {
        .phase = bytes[2],
        .command = bytes[3],
        .given = number_at(bytes + 4),
        .ticket = number_at(bytes + 8),
        .holder = number_at(bytes + 12),
        .size = number_at(bytes + 16),
        .done = number_at(bytes + 20),
        .left = number_at(bytes + 24),
    };
    return (has_message(s) || (s->command == 0 && s->holder == 0 && s->size == 0)) && (counts_packets(s) || s->done == 0)
           && (has_time(s) || s->left == 0);
}

void block_write(const struct state *s, uint8_t *bytes)
{
    memset(bytes, 0, BQ_BLOCK_SIZE);
    bytes[0] = 0x42;
    bytes[1] = 0x51;
    bytes[2] = s->phase;
    number_to(bytes + 4, s->given);
    number_to(bytes + 8, s->ticket);
    if (has_message(s)) {
        bytes[3] = s->command;
        number_to(bytes + 12, s->holder);
        number_to(bytes + 16, s->size);
    }
    if (counts_packets(s))
        number_to(bytes + 20, s->done);
    if (has_time(s))
        number_to(bytes + 24, s->left);
}
