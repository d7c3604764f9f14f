/*
 * What each of the viewer's calls must come to: its word, and every byte that it may write. Packets and gathering are told here; what is
 * canonical, and what a command's status is, is asked of the key's own bq_check.
 */

#include "host.h"

#include <string.h>

/* What a call must come to: its word, and the run of bytes that it writes, if any. */
struct due {
    uint64_t word;
    const uint8_t *bytes;
    size_t from, length;
};

static struct due answers(uint64_t word)
{
    return (struct due) { .word = word };
}

/* ---- what is canonical, by the key */

/* Whether bytes, as the one value in a command's map, leave that map canonical; else where it breaks, counted from their first. */
static bool is_value(const uint8_t *bytes, size_t length, size_t *breaks)
{
    static uint8_t command[BQ_MESSAGE_SIZE] = { 0x01, 0xa1, 0x0a }; /* a key that is not known: values of all kinds are allowed */
    const size_t front = BQ_MESSAGE_SIZE - MOST_JUDGED;
    uint64_t word;

    memcpy(command + front, bytes, length);
    word = bq_check(command, front + length);
    if (bq_status(word) != BQV_INVALID_CBOR)
        return true;
    *breaks = bq_place(word) - front;
    return false;
}

/* How many bytes the item at the front takes; 0 if there is none. Where it is followed by others, the map breaks at the first of them. */
static size_t item_size(const uint8_t *bytes, size_t length)
{
    size_t breaks, more;

    if (length == 0)
        return 0;
    if (is_value(bytes, length, &breaks))
        return length;
    return breaks > 0 && is_value(bytes, breaks, &more) ? breaks : 0;
}

/* ---- commands */

static bool is_item(const struct buffer *part)
{
    return part->length > MOST_JUDGED || (part->length > 0 && item_size(part->bytes, part->length) == part->length);
}

/* The same command with the shortest item of each kind, where its value does not count: its status is the same, total size aside. */
static size_t shortened(enum kind kind, const struct host *h, uint8_t *out)
{
    static struct host brief;
    const struct command *c = &commands[kind - MAKE];

    brief.given = h->given;
    for (uint8_t key = 1; key <= c->keys; key++) {
        const struct buffer *part = &h->buffers[PART + key - 1];
        struct buffer *put = &brief.buffers[PART + key - 1];
        bool counts = key == c->hash || key == c->algorithms;

        put->length = counts ? part->length : 1;
        memcpy(put->bytes, part->bytes, put->length);
        if (!counts)
            put->bytes[0] = part->bytes[0] >> 5 == SIMPLE ? 0xf4 : part->bytes[0] & 0xe0;
    }
    return parts_command(kind, &brief, out);
}

static struct due due_command(enum kind kind, const struct host *h)
{
    static uint8_t command[LARGEST_COMMAND], brief[LARGEST_COMMAND];
    size_t length = parts_command(kind, h, command);
    uint8_t status;

    for (uint8_t key = 1; key <= commands[kind - MAKE].keys; key++)
        if ((h->given >> key & 1) != 0 && !is_item(&h->buffers[PART + key - 1]))
            return answers(BQV_INVALID_CBOR);
    status = bq_status(length <= BQ_MESSAGE_SIZE ? bq_check(command, length) : bq_check(brief, shortened(kind, h, brief)));
    if (status != 0)
        return answers(status);
    if (length > BQ_MESSAGE_SIZE || length > h->buffers[MESSAGE].length)
        return answers(BQV_TOO_LONG);
    return (struct due) { .word = (uint64_t)length << 32, .bytes = command, .length = length };
}

/* ---- packets */

static struct due due_cut(const struct host *h)
{
    static uint8_t packet[BQ_PACKET_SIZE];
    size_t length = h->buffers[INPUT].length;

    if (h->command >= 0x80)
        return answers(BQV_CANNOT_BE);
    if (h->buffers[REPLY].length < BQ_PACKET_SIZE)
        return answers(BQV_SHORT_OUT);
    if (length > BQ_MESSAGE_SIZE)
        return answers(BQV_TOO_LONG);
    if (h->place >= packets_needed((uint32_t)length))
        return answers(0);
    packet_of(packet, h->number, h->command, h->buffers[INPUT].bytes, (uint32_t)length, (uint32_t)h->place);
    return (struct due) { .word = 0x100, .bytes = packet, .length = BQ_PACKET_SIZE };
}

/* ---- replies that are awaited, by include/bellaqsum_viewer.h's table */

enum { NOTHING, BEGUN, WHOLE, ENDED };

struct awaited {
    uint32_t channel, stage, size, done; /* of one that ended, the size is the code */
    uint8_t command;
};

static uint64_t word_of(const struct awaited *a)
{
    return (uint64_t)a->channel | (uint64_t)a->command << 32 | (uint64_t)a->stage << 40 | (uint64_t)a->size << 42 | (uint64_t)a->done << 56;
}

/* Whether it is the word of a reply that can be. */
static bool awaited_read(uint64_t word, struct awaited *a)
{
    *a = (struct awaited) { .channel = (uint32_t)word, .stage = word >> 40 & 3, .size = word >> 42 & 0x1fff, .done = (uint32_t)(word >> 56),
                            .command = (uint8_t)(word >> 32) };
    if (word_of(a) != word)
        return false;
    switch (a->stage) {
    case NOTHING:
        return a->size == 0 && a->done == 0;
    case BEGUN:
        return a->size <= BQ_MESSAGE_SIZE && a->done >= 1 && a->done < packets_needed(a->size);
    case WHOLE:
        return a->size <= BQ_MESSAGE_SIZE && a->done == 0;
    default:
        return a->size < 0x100 && a->done == 0;
    }
}

static struct due refuses(uint8_t number)
{
    return answers(UINT64_C(1) << 55 | number);
}

static struct due ends(struct awaited a, uint8_t code)
{
    a.stage = ENDED;
    a.size = code;
    a.done = 0;
    return answers(word_of(&a));
}

/* The payload of the packet that is due, up to the reply's end. */
static struct due receives(struct awaited a, const uint8_t *payload, size_t room)
{
    size_t from = a.done == 0 ? 0 : FIRST_PAYLOAD + (a.done - 1) * LATER_PAYLOAD;
    bool is_last = a.size - from <= room;

    a.stage = is_last ? WHOLE : BEGUN;
    a.done = is_last ? 0 : a.done + 1;
    return (struct due) { .word = word_of(&a), .bytes = payload, .from = from, .length = is_last ? a.size - from : room };
}

static struct due opens(struct awaited a, const uint8_t *packet)
{
    if (packet[4] == (0x80 | ERROR))
        return ends(a, packet[7]);
    if (a.stage == BEGUN)
        return ends(a, BQV_OTHER_NUMBER);
    if ((packet[4] & 0x7f) != a.command)
        return ends(a, BQV_OTHER_COMMAND);
    a.size = (uint32_t)packet[5] << 8 | packet[6];
    return a.size > BQ_MESSAGE_SIZE ? ends(a, BQV_OTHER_LENGTH) : receives(a, packet + 7, FIRST_PAYLOAD);
}

static struct due due_taken(const struct host *h)
{
    const uint8_t *packet = h->buffers[INPUT].bytes;
    struct awaited a;

    if (!awaited_read(h->word, &a))
        return refuses(BQV_CANNOT_BE);
    if (h->buffers[INPUT].length != BQ_PACKET_SIZE)
        return refuses(BQV_NOT_A_PACKET);
    if (h->buffers[MESSAGE].length < BQ_MESSAGE_SIZE)
        return refuses(BQV_SHORT_MESSAGE);
    if (number_at(packet) != a.channel || a.stage >= WHOLE)
        return answers(h->word);
    if (packet[4] >= 0x80)
        return opens(a, packet);
    if (a.stage == NOTHING)
        return answers(h->word);
    return packet[4] == a.done - 1 ? receives(a, packet + 5, LATER_PAYLOAD) : ends(a, BQV_OTHER_NUMBER);
}

/* ---- replies that are taken apart */

/* Behind a command's byte the key wants just the map that stands behind a status. */
static struct due due_apart(const struct buffer *reply)
{
    static uint8_t command[BQ_MESSAGE_SIZE];
    uint64_t status = (uint64_t)reply->bytes[0] << 16;

    if (reply->length == 0 || reply->length > BQ_MESSAGE_SIZE)
        return answers(BQV_INVALID_LENGTH);
    if (reply->length == 1)
        return answers(status);
    memcpy(command, reply->bytes, reply->length);
    command[0] = 0x01;
    if (bq_status(bq_check(command, reply->length)) == BQV_INVALID_CBOR)
        return answers(BQV_INVALID_CBOR);
    return answers(0x100 | status | (uint64_t)(reply->length - 1) << 32);
}

/* How many bytes the head at the front takes; 0 if there is none, or not the shortest. */
static size_t head_size(const uint8_t *bytes, size_t length)
{
    static const uint64_t least[] = { 24, 0x100, 0x10000, UINT64_C(0x100000000) };
    unsigned major, form;
    uint64_t argument = 0;
    size_t size;

    if (length == 0)
        return 0;
    major = bytes[0] >> 5;
    form = bytes[0] & 0x1f;
    if (form > 27 || major == 6 || (major == SIMPLE && (form < 20 || form > 23)))
        return 0;
    size = form < 24 ? 1 : 1 + ((size_t)1 << (form - 24));
    if (size > length)
        return 0;
    for (size_t i = 1; i < size; i++)
        argument = argument << 8 | bytes[i];
    return form < 24 || argument >= least[form - 24] ? size : 0;
}

static struct due due_first(const struct buffer *reply)
{
    size_t head = reply->length == 0 ? 0 : head_size(reply->bytes + 1, reply->length - 1);

    if (reply->length > BQ_MESSAGE_SIZE)
        return answers(0);
    return answers(head == 0 ? reply->length : 1 + head);
}

/* Where more stands behind the place than bq_check takes, the answer is not judged here, but by how the reply was made. */
static struct due due_entry(const struct buffer *reply, size_t at, uint64_t word)
{
    size_t key, value;

    if (reply->length > BQ_MESSAGE_SIZE)
        return answers(BQV_INVALID_LENGTH);
    if (at >= reply->length)
        return answers(0);
    if (reply->length - at > MOST_JUDGED)
        return answers(word);
    key = reply->bytes[at] >> 5 > TEXT ? 0 : item_size(reply->bytes + at, reply->length - at);
    value = key == 0 ? 0 : item_size(reply->bytes + at + key, reply->length - at - key);
    if (value == 0)
        return answers(BQV_INVALID_CBOR);
    return answers(0x100 | (uint64_t)(at + key) << 16 | (uint64_t)(at + key + value) << 32);
}

/* ---- any call */

static struct due due_of(enum kind kind, const struct host *h, uint64_t word)
{
    struct awaited fresh = { .channel = h->number, .command = h->command };

    switch (kind) {
    case CUT:
        return due_cut(h);
    case AWAIT:
        return answers(word_of(&fresh));
    case TAKE:
        return due_taken(h);
    case APART:
        return due_apart(&h->buffers[INPUT]);
    case FIRST:
        return due_first(&h->buffers[INPUT]);
    case ENTRY:
        return due_entry(&h->buffers[INPUT], h->place, word);
    default:
        return due_command(kind, h);
    }
}

/* The run of bytes is written, and all others are as they were. */
static void stands(enum slot slot, const struct buffer *was, const uint8_t *is, const struct due *due)
{
    static uint8_t expected[LARGEST];
    size_t i = 0;

    if (was->length == 0)
        return;
    memcpy(expected, was->bytes, was->length);
    if (due->length > 0)
        memcpy(expected + due->from, due->bytes, due->length);
    if (memcmp(is, expected, was->length) == 0)
        return;
    while (is[i] == expected[i])
        i++;
    fail("byte %zu of the %s, of which %zu bytes are lent, was %02x and must be %02x, but is %02x", i, slot_names[slot], was->length,
         was->bytes[i], expected[i], is[i]);
}

void viewer_rules_check(enum kind kind, const struct host *before, uint8_t *const after[SLOTS], uint64_t word)
{
    static const struct due nothing;
    struct due due = due_of(kind, before, word);

    must(word == due.word, "it answers %016llx and not %016llx (its bits: include/bellaqsum_viewer.h; the rule: host/viewer_rules.c)",
         (unsigned long long)word, (unsigned long long)due.word);
    for (int slot = 0; slot < SLOTS; slot++)
        if (is_lent(kind, slot))
            stands(slot, &before->buffers[slot], after[slot], is_writable(kind, slot) ? &due : &nothing);
}
