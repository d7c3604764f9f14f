/* Refusal 7: which states are in order, by document 01's list with requests 2026-10 (channels) and 2026-01 (MSG). */

#include "host.h"

static bool goes_to_core(uint8_t command)
{
    return command == CBOR || command == MSG;
}

bool in_order(const struct state *s)
{
    if (s->given > MOST_CHANNELS)
        return false;
    if (s->phase == IDLE)
        return true;
    if (s->holder < 1 || s->holder > s->given || s->size > BQ_MESSAGE_SIZE)
        return false;
    if (s->phase == WAITING)
        return goes_to_core(s->command);
    if (s->command != PING && !goes_to_core(s->command))
        return false;
    if (s->done >= packets_needed(s->size))
        return false;
    return s->phase == ANSWERING || (s->done >= 1 && s->left >= 1 && s->left <= MOST_TIME);
}
