/* Random calls: most are those of sensible hosts, the others are damaged. What each comes to is held to the rules by make_call. */

#include "host.h"

#include <inttypes.h>
#include <stdio.h>

/* From so many calls on every way must have been reached. */
enum { MANY = 1000000 };

/* In so many calls in a row nothing disturbs the hosts, so that long messages come to their end. */
enum { CALM = 300 };

/* What is lent is mostly as long as it must be, and at times longer. */
static void choose_lengths(struct host *h)
{
    static const size_t needed[KEY_SLOTS] = { BQ_BLOCK_SIZE, 0, BQ_PACKET_SIZE, BQ_MESSAGE_SIZE };
    static const uint32_t spare[KEY_SLOTS] = { 32, 1, 64, LARGEST - BQ_MESSAGE_SIZE };

    for (int slot = 0; slot < KEY_SLOTS; slot++)
        h->buffers[slot].length = needed[slot] + (chance_one_in(4) ? chance_below(spare[slot]) : 0);
}

static void next_call(struct host *h)
{
    static unsigned calm;

    choose_lengths(h);
    chance_fill(h->buffers[REPLY].bytes, BQ_PACKET_SIZE); /* a reply that was not written is then seen */
    if (calm > 0)
        calm--;
    else if (chance_one_in(10 * CALM))
        calm = CALM;
    if (calm == 0 && chance_one_in(6))
        damage_call(h);
    else
        visitor_call(h, calm > 0);
}

void random_calls(uint64_t calls, uint64_t seed)
{
    static struct host h;
    uint64_t part = calls / 10 + 1, shown = part;

    chance_seed(seed);
    fail_about("seed", seed);
    for (int slot = 0; slot < KEY_SLOTS; slot++)
        chance_fill(h.buffers[slot].bytes, LARGEST);
    choose_lengths(&h);
    make_call(FRESH, &h);
    while (calls_made() < calls) {
        next_call(&h);
        if (calls_made() >= shown) {
            fprintf(stderr, "host: %" PRIu64 " of %" PRIu64 " random calls\n", calls_made(), calls);
            shown += part;
        }
    }
    printf("%" PRIu64 " random calls of seed %" PRIu64 ", all within the rules:\n", calls_made(), seed);
    tally_print();
    if (calls >= MANY) {
        tally_want_numbers(FRESH, KEY_KINDS);
        tally_want_replies();
    }
}
