/* What must hold of any call, whatever it was lent. It is no second key: of a packet it does not say what comes of it. */

#include "host.h"

#include <string.h>

/* A call, with the host before it, the lent bytes after it, and the states of both blocks. */
struct done {
    enum kind kind;
    const struct host *before;
    uint8_t *const *after;
    uint64_t word;
    struct state was, is;
};

static size_t length_of(const struct done *d, enum slot slot)
{
    return d->before->buffers[slot].length;
}

static const uint8_t *bytes_before(const struct done *d, enum slot slot)
{
    return d->before->buffers[slot].bytes;
}

/* ---- refusals */

/* The number that document 01 gives: 7, then the lowest of those that apply. */
static unsigned number_due(const struct done *d, bool has_state)
{
    const struct state *s = &d->was;
    size_t input = length_of(d, INPUT);

    if (d->kind == FRESH)
        return length_of(d, BLOCK) < BQ_BLOCK_SIZE ? BQ_BAD_BLOCK : BQ_OK;
    if (!has_state || !in_order(s))
        return BQ_BAD_BLOCK;
    if (d->kind == PACKET && input != BQ_PACKET_SIZE)
        return BQ_NOT_A_PACKET;
    if (is_lent(d->kind, REPLY) && length_of(d, REPLY) < BQ_PACKET_SIZE)
        return BQ_SHORT_REPLY;
    if (is_lent(d->kind, MESSAGE) && length_of(d, MESSAGE) < BQ_MESSAGE_SIZE)
        return BQ_SHORT_MESSAGE;
    if ((d->kind == DELIVER && s->phase != WAITING) || (d->kind == FETCH && s->phase != ANSWERING))
        return BQ_WRONG_STATE;
    if (d->kind != DELIVER)
        return BQ_OK;
    if (d->before->number != s->ticket)
        return BQ_LATE_TICKET;
    return input == 0 || input > BQ_MESSAGE_SIZE || (s->command == MSG && input == 1) ? BQ_BAD_DELIVERY : BQ_OK;
}

/* The bytes of a lent buffer from one place up to another are as they were. */
static void unchanged(const struct done *d, enum slot slot, size_t from, size_t to)
{
    const uint8_t *was = bytes_before(d, slot), *is = d->after[slot];

    if (!is_lent(d->kind, slot) || from >= to || memcmp(was + from, is + from, to - from) == 0)
        return;
    while (was[from] == is[from])
        from++;
    fail("byte %zu of the %s, of which %zu bytes are lent, is changed from %02x to %02x", from, slot_names[slot], length_of(d, slot),
         was[from], is[from]);
}

static void all_unchanged(const struct done *d, enum slot slot)
{
    unchanged(d, slot, 0, length_of(d, slot));
}

/* What a call may not write to, and the bytes beyond those that it needs. */
static void kept_within(const struct done *d)
{
    static const size_t needed[SLOTS] = { [BLOCK] = BQ_BLOCK_SIZE, [REPLY] = BQ_PACKET_SIZE, [MESSAGE] = BQ_MESSAGE_SIZE };

    for (int slot = 0; slot < SLOTS; slot++)
        unchanged(d, slot, is_writable(d->kind, slot) && bq_refusal(d->word) == BQ_OK ? needed[slot] : 0, length_of(d, slot));
}

/* ---- packets that are replied */

static void replies(const struct done *d, const uint8_t packet[BQ_PACKET_SIZE])
{
    must(bq_replied(d->word), "it does not reply");
    for (size_t i = 0; i < BQ_PACKET_SIZE; i++)
        must(d->after[REPLY][i] == packet[i], "byte %zu of its reply is %02x and not %02x", i, d->after[REPLY][i], packet[i]);
}

static void replies_error(const struct done *d, uint32_t channel, uint8_t code)
{
    uint8_t packet[BQ_PACKET_SIZE];

    packet_of(packet, channel, ERROR, &code, 1, 0);
    replies(d, packet);
}

/* ---- the calls that are wholly told here */

static void becomes(const struct done *d, struct state expected)
{
    uint8_t block[BQ_BLOCK_SIZE];

    block_write(&expected, block);
    for (size_t i = 0; i < BQ_BLOCK_SIZE; i++)
        must(d->after[BLOCK][i] == block[i], "byte %zu of the block is %02x and not %02x", i, d->after[BLOCK][i], block[i]);
}

static struct state idle_after(const struct state *s)
{
    return (struct state) { .phase = IDLE, .given = s->given, .ticket = s->ticket };
}

static void after_fresh(const struct done *d)
{
    must(!bq_replied(d->word), "a fresh key replies");
    becomes(d, (struct state) { .phase = IDLE });
}

static void after_time(const struct done *d)
{
    struct state next = d->was;
    uint32_t ms = d->before->number;

    if (next.phase == GATHERING && ms >= next.left) {
        replies_error(d, next.holder, 0x05);
        next = idle_after(&d->was);
    } else {
        must(!bq_replied(d->word), "it replies, though no time is over");
        if (next.phase == GATHERING)
            next.left -= ms;
    }
    becomes(d, next);
}

static void after_delivery(const struct done *d)
{
    struct state next = d->was;
    size_t size = length_of(d, INPUT);

    must(!bq_replied(d->word), "a delivery replies");
    next.phase = ANSWERING;
    next.size = (uint32_t)size;
    next.done = 0;
    becomes(d, next);
    must(memcmp(d->after[MESSAGE], bytes_before(d, INPUT), size) == 0, "the message does not begin with the delivery");
    unchanged(d, MESSAGE, size, length_of(d, MESSAGE));
}

static void after_fetch(const struct done *d)
{
    struct state next = d->was;
    uint8_t packet[BQ_PACKET_SIZE];

    packet_of(packet, next.holder, next.command, bytes_before(d, MESSAGE), next.size, next.done);
    replies(d, packet);
    next.done++;
    becomes(d, next.done == packets_needed(next.size) ? idle_after(&d->was) : next);
}

/* ---- packets */

static uint32_t channel_of(const struct done *d)
{
    return number_at(bytes_before(d, INPUT));
}

/* Whether the reply gives a channel to a host that asked for one. */
static bool gives_channel(const struct done *d)
{
    return bq_replied(d->word) && channel_of(d) == BROADCAST && d->after[REPLY][4] == (0x80 | INIT);
}

/* A reply to a packet goes on its channel, and is an error or an INIT reply. */
static void packet_reply(const struct done *d)
{
    static const uint8_t codes[] = { 0x01, 0x03, 0x04, 0x06, 0x0b, 0x7f }, device[] = { 2, 1, 0, 0, 4 };
    uint8_t init[17], packet[BQ_PACKET_SIZE];

    if (d->after[REPLY][4] == (0x80 | ERROR)) {
        must(memchr(codes, d->after[REPLY][7], sizeof codes) != NULL, "it replies the error %02x", d->after[REPLY][7]);
        replies_error(d, channel_of(d), d->after[REPLY][7]);
        return;
    }
    memcpy(init, bytes_before(d, INPUT) + 7, 8);
    number_to(init + 8, channel_of(d) == BROADCAST ? d->was.given + 1 : channel_of(d));
    memcpy(init + 12, device, sizeof device);
    packet_of(packet, channel_of(d), INIT, init, sizeof init, 0);
    replies(d, packet);
}

/* A ticket is the next one, and is reported exactly when a request begins to wait. */
static void packet_ticket(const struct done *d)
{
    bool begins = d->is.phase == WAITING && (d->was.phase != WAITING || d->is.ticket != d->was.ticket);

    must(bq_ticketed(d->word) == begins, "%s", begins ? "a request waits without a ticket" : "a ticket is reported, and no request waits");
    must(d->is.ticket == d->was.ticket + (begins ? 1 : 0), "the block's ticket goes from %u to %u", d->was.ticket, d->is.ticket);
    must(bq_ticket(d->word) == (begins ? d->is.ticket : 0), "the word has the ticket %u and the block %u", bq_ticket(d->word),
         d->is.ticket);
    must(!begins || (bq_request_command(d->after[BLOCK]) == d->is.command && bq_request_size(d->after[BLOCK]) == d->is.size),
         "the header's readers of the request do not read the block");
}

/* A packet writes its payload where the last one ended, and at the front the key's own answers of one or two bytes: nowhere else. */
static void packet_message(const struct done *d)
{
    size_t from = 0, to = FIRST_PAYLOAD;

    if (bytes_before(d, INPUT)[4] < 0x80) {
        from = d->was.phase == GATHERING ? FIRST_PAYLOAD + (d->was.done - 1) * LATER_PAYLOAD : 2;
        to = d->was.phase == GATHERING ? from + LATER_PAYLOAD : 2;
    }
    unchanged(d, MESSAGE, 2, from);
    unchanged(d, MESSAGE, to, length_of(d, MESSAGE));
}

/* A message is gathered from the opening packet, which tells its length, and its holder's packets count up; only time takes time away. */
static void packet_gathers(const struct done *d)
{
    const uint8_t *packet = bytes_before(d, INPUT);
    struct state next = d->was;

    if (d->was.phase == GATHERING)
        next.done += packet[4] < 0x80 ? 1 : 0;
    else
        next = (struct state) { .phase = GATHERING, .command = packet[4] & 0x7f, .given = next.given, .ticket = next.ticket,
                                .holder = channel_of(d), .size = (uint32_t)packet[5] << 8 | packet[6], .done = 1, .left = MOST_TIME };
    becomes(d, next);
}

static void after_packet(const struct done *d)
{
    bool stranger = d->was.phase != IDLE && channel_of(d) != d->was.holder;

    if (bq_replied(d->word))
        packet_reply(d);
    must(d->is.given == d->was.given + (gives_channel(d) ? 1 : 0), "the channels given go from %u to %u", d->was.given, d->is.given);
    packet_ticket(d);
    packet_message(d);
    if (stranger) {
        struct state same = d->was;

        same.given = d->is.given;
        becomes(d, same);
        all_unchanged(d, MESSAGE);
    } else if (d->is.phase == GATHERING) {
        packet_gathers(d);
    } else {
        must(d->is.phase == IDLE || d->is.holder == channel_of(d), "channel %u holds the key", d->is.holder);
    }
}

/* ---- the checking call */

static bool has_status(uint8_t status)
{
    static const uint8_t statuses[] = { 0x00, 0x01, 0x03, 0x11, 0x12, 0x14, 0x26 };

    return memchr(statuses, status, sizeof statuses) != NULL;
}

static void after_check(const struct done *d)
{
    const uint8_t *command = bytes_before(d, INPUT);
    size_t length = length_of(d, INPUT), place = bq_place(d->word);
    uint8_t status = bq_status(d->word);

    must((d->word & UINT64_C(0xfffffe00)) == 0, "the word %016llx has other bits", (unsigned long long)d->word);
    must(has_status(status), "it answers the status %02x", status);
    if (length == 0 || length > BQ_MESSAGE_SIZE)
        must(d->word == 0x03, "a command of %zu bytes is not refused with 03 at 0", length);
    else if (command[0] == 0x04)
        must(d->word == (length == 1 ? 0 : UINT64_C(0x100000003)), "GetInfo in %zu bytes is answered wrongly", length);
    else if (command[0] != 0x01 && command[0] != 0x02)
        must(d->word == 0x01, "the command %02x is not refused with 01 at 0", command[0]);
    else if (status == 0)
        must(bq_hashed(d->word) && place >= 2 && place + HASH <= length && command[place - 2] == 0x58 && command[place - 1] == HASH,
             "no hash begins at %zu", place);
    else
        must(!bq_hashed(d->word) && place >= 1 && place <= length, "the fault is at %zu of %zu bytes", place, length);
}

/* ---- any call */

static void after_taken(struct done *d)
{
    must(block_read(d->after[BLOCK], BQ_BLOCK_SIZE, &d->is) && in_order(&d->is), "the block is none of a state in order");
    if (!bq_replied(d->word))
        all_unchanged(d, REPLY);
    if (d->kind != PACKET)
        must(!bq_ticketed(d->word) && bq_ticket(d->word) == 0, "it reports a ticket");
    if (d->kind == FRESH)
        after_fresh(d);
    else if (d->kind == PACKET)
        after_packet(d);
    else if (d->kind == TIME)
        after_time(d);
    else if (d->kind == DELIVER)
        after_delivery(d);
    else
        after_fetch(d);
}

void rules_check(enum kind kind, const struct host *before, uint8_t *const after[SLOTS], uint64_t word)
{
    struct done d = { .kind = kind, .before = before, .after = after, .word = word };
    bool has_state;
    unsigned due;

    kept_within(&d);
    if (kind == CHECK) {
        after_check(&d);
        return;
    }
    has_state = block_read(bytes_before(&d, BLOCK), length_of(&d, BLOCK), &d.was);
    due = number_due(&d, has_state);
    must(bq_refusal(word) == due, "the number is %u and not %u", bq_refusal(word), due);
    must((word & UINT64_C(0xfffffc00)) == 0, "the word %016llx has other bits", (unsigned long long)word);
    if (due == BQ_OK)
        after_taken(&d);
    else
        must(word == due, "the word of a refusal is %016llx", (unsigned long long)word);
}
