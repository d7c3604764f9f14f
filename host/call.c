/* A call: its buffers are lent, it is made, and what came of it is held to the rules before the host takes it. */

#include "host.h"

#include <string.h>

const char *const slot_names[SLOTS] = { "block", "input", "reply", "message", "part 1", "part 2", "part 3", "part 4", "part 5",
                                        "part 6", "part 7", "part 8", "part 9" };
const char *const call_names[KINDS] = { "bq_fresh", "bq_packet", "bq_time", "bq_deliver", "bq_fetch", "bq_check", "bqv_make_credential",
                                        "bqv_get_assertion", "bqv_cut", "bqv_await", "bqv_take", "bqv_apart", "bqv_first", "bqv_entry" };

enum { NO, READ, WRITE };

static const uint8_t uses[KINDS][SLOTS] = {
    [FRESH] = { WRITE, NO, NO, NO },
    [PACKET] = { WRITE, READ, WRITE, WRITE },
    [TIME] = { WRITE, NO, WRITE, NO },
    [DELIVER] = { WRITE, READ, NO, WRITE },
    [FETCH] = { WRITE, NO, WRITE, READ },
    [CHECK] = { NO, READ, NO, NO },
    [MAKE] = { NO, NO, NO, WRITE, READ, READ, READ, READ, READ, READ, READ, READ, READ },
    [GET] = { NO, NO, NO, WRITE, READ, READ, READ, READ, READ, READ, READ },
    [CUT] = { NO, READ, WRITE, NO },
    [TAKE] = { NO, READ, NO, WRITE },
    [APART] = { NO, READ, NO, NO },
    [FIRST] = { NO, READ, NO, NO },
    [ENTRY] = { NO, READ, NO, NO },
};

/* One in so many calls is made again. */
enum { AGAIN = 16 };

static uint64_t calls;
static enum kind current = KINDS;
static const struct host *caller;

bool is_lent(enum kind kind, enum slot slot)
{
    return uses[kind][slot] != NO;
}

bool is_writable(enum kind kind, enum slot slot)
{
    return uses[kind][slot] == WRITE;
}

uint64_t calls_made(void)
{
    return calls;
}

enum kind call_being_made(const struct host **h)
{
    *h = caller;
    return current;
}

/* A command from parts: by the header's helper, or by the call itself where bits are given that are no key's. */
static uint64_t answer_parts(enum kind kind, const struct host *h, uint8_t *const at[SLOTS])
{
    size_t message = h->buffers[MESSAGE].length;
    unsigned keys = commands[kind - MAKE].keys;
    bqv_part p[BQV_MAKE_PARTS];

    for (unsigned i = 0; i < keys; i++)
        p[i] = (bqv_part) { .bytes = at[PART + i], .size = h->buffers[PART + i].length, .given = h->given >> (i + 1) & 1 };
    if ((h->given & 1) == 0 && h->given >> (keys + 1) == 0)
        return kind == MAKE ? bqv_make(p, at[MESSAGE], message) : bqv_get(p, at[MESSAGE], message);
    if (kind == MAKE)
        return bqv_make_credential(h->given, p[0].bytes, p[0].size, p[1].bytes, p[1].size, p[2].bytes, p[2].size, p[3].bytes, p[3].size,
                                   p[4].bytes, p[4].size, p[5].bytes, p[5].size, p[6].bytes, p[6].size, p[7].bytes, p[7].size, p[8].bytes,
                                   p[8].size, at[MESSAGE], message);
    return bqv_get_assertion(h->given, p[0].bytes, p[0].size, p[1].bytes, p[1].size, p[2].bytes, p[2].size, p[3].bytes, p[3].size,
                             p[4].bytes, p[4].size, p[5].bytes, p[5].size, p[6].bytes, p[6].size, at[MESSAGE], message);
}

static uint64_t answer(enum kind kind, const struct host *h, uint8_t *const at[SLOTS])
{
    size_t block = h->buffers[BLOCK].length, input = h->buffers[INPUT].length;
    size_t reply = h->buffers[REPLY].length, message = h->buffers[MESSAGE].length;

    switch (kind) {
    case FRESH:
        return bq_fresh(at[BLOCK], block);
    case PACKET:
        return bq_packet(at[BLOCK], block, at[INPUT], input, at[REPLY], reply, at[MESSAGE], message);
    case TIME:
        return bq_time(at[BLOCK], block, h->number, at[REPLY], reply);
    case DELIVER:
        return bq_deliver(at[BLOCK], block, h->number, at[INPUT], input, at[MESSAGE], message);
    case FETCH:
        return bq_fetch(at[BLOCK], block, at[REPLY], reply, at[MESSAGE], message);
    case CHECK:
        return bq_check(at[INPUT], input);
    case CUT:
        return bqv_cut(h->number, h->command, at[INPUT], input, h->place, at[REPLY], reply);
    case AWAIT:
        return bqv_await(h->number, h->command);
    case TAKE:
        return bqv_take(h->word, at[INPUT], input, at[MESSAGE], message);
    case APART:
        return bqv_apart(at[INPUT], input);
    case FIRST:
        return bqv_first(at[INPUT], input);
    case ENTRY:
        return bqv_entry(at[INPUT], input, h->place);
    default:
        return answer_parts(kind, h, at);
    }
}

/* Where no parts are lent, their places are left alone: a look around all of them takes its time. */
static uint64_t lend_and_answer(enum kind kind, const struct host *h, uint8_t *at[SLOTS])
{
    int slots = is_lent(kind, PART) ? SLOTS : KEY_SLOTS;
    uint64_t word;

    for (int slot = 0; slot < slots; slot++)
        at[slot] = is_lent(kind, slot) ? lent_place(slot, h->buffers[slot].bytes, h->buffers[slot].length) : lent_place(slot, NULL, 0);
    word = answer(kind, h, at);
    lent_check(slots);
    return word;
}

/* Nothing is kept but what stands in the block, or in the reply's word, so the same call comes to the same. */
static void make_again(enum kind kind, const struct host *before, const struct host *after, uint64_t word)
{
    uint8_t *at[SLOTS];

    if (lend_and_answer(kind, before, at) != word)
        fail("made again, it answers another word");
    for (int slot = 0; slot < SLOTS; slot++)
        if (is_lent(kind, slot) && before->buffers[slot].length > 0
            && memcmp(at[slot], after->buffers[slot].bytes, before->buffers[slot].length) != 0)
            fail("made again, it leaves another %s", slot_names[slot]);
}

uint64_t make_call(enum kind kind, struct host *h)
{
    static struct host before;
    uint8_t *at[SLOTS];
    uint64_t word;

    current = kind;
    caller = h;
    if (++calls % AGAIN == 0)
        before = *h;
    word = lend_and_answer(kind, h, at);
    if (kind < KEY_KINDS)
        rules_check(kind, h, at, word);
    else
        viewer_rules_check(kind, h, at, word);
    for (int slot = 0; slot < SLOTS; slot++)
        if (is_writable(kind, slot) && h->buffers[slot].length > 0)
            memcpy(h->buffers[slot].bytes, at[slot], h->buffers[slot].length);
    tally_add(kind, word, h);
    if (calls % AGAIN == 0)
        make_again(kind, &before, h, word);
    current = KINDS;
    return word;
}
