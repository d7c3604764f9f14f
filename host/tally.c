/* What calls came to, counted, so that it is seen which ways were reached. */

#include "host.h"

#include <inttypes.h>
#include <stdio.h>

/* The numbers of a call's refusals, or its statuses. */
static const uint8_t numbers[KINDS][9] = {
    [FRESH] = { 0, 7 },
    [PACKET] = { 0, 1, 2, 3, 7 },
    [TIME] = { 0, 2, 7 },
    [DELIVER] = { 0, 3, 4, 5, 6, 7 },
    [FETCH] = { 0, 2, 3, 4, 7 },
    [CHECK] = { 0x00, 0x01, 0x03, 0x11, 0x12, 0x14, 0x26 },
    [MAKE] = { 0x00, 0x03, 0x08, 0x11, 0x12, 0x14, 0x26 },
    [GET] = { 0x00, 0x03, 0x08, 0x11, 0x12, 0x14 },
    [CUT] = { 0, 2, 7, 8 },
    [TAKE] = { 0, 1, 3, 7 },
    [APART] = { 0x00, 0x03, 0x12 },
    [ENTRY] = { 0x00, 0x03, 0x12 },
};

/* The replies: INIT's, the errors of packets and of time, and those that are fetched. */
static const struct {
    enum kind kind;
    uint8_t code; /* of an error */
    const char *name;
} replies[] = {
    { PACKET, 0x00, "INIT" },     { PACKET, 0x01, "error 01" }, { PACKET, 0x03, "error 03" }, { PACKET, 0x04, "error 04" },
    { PACKET, 0x06, "error 06" }, { PACKET, 0x0b, "error 0b" }, { PACKET, 0x7f, "error 7f" }, { TIME, 0x05, "error 05" },
    { FETCH, 0x00, "fetched" },
};
enum { REPLIES = sizeof replies / sizeof replies[0] };

static uint64_t answered[KINDS][256], replied[REPLIES], tickets, hashes;

/* Bytes in the longest request that got a ticket; one over LONG must be among them. */
static uint32_t longest;
enum { LONG = 7000 };

/* How many gatherings ended with each code, and those codes that a viewer gives itself or gets of the key. */
static uint64_t ended[256];
static const uint8_t endings[] = { 0x01, 0x03, 0x04, 0x05, 0x06 };

/* Over all words and what the calls wrote (FNV-1a), so that runs on two machines, or with other archives, can be compared. */
static uint64_t sum = UINT64_C(0xcbf29ce484222325);

static void add_to_sum(const uint8_t *bytes, size_t length)
{
    for (size_t i = 0; i < length; i++)
        sum = (sum ^ bytes[i]) * UINT64_C(0x100000001b3);
}

/* How many bytes a call of the viewer wrote to the message buffer, or gathered there. */
static size_t viewer_wrote(enum kind kind, uint64_t word)
{
    if (kind == MAKE || kind == GET)
        return bqv_size(word);
    return kind == TAKE && bqv_whole(word) ? bqv_reply_size(word) : 0;
}

static void sum_up(enum kind kind, uint64_t word, const struct host *after)
{
    uint8_t bytes[8];

    number_to(bytes, (uint32_t)(word >> 32));
    number_to(bytes + 4, (uint32_t)word);
    add_to_sum(bytes, sizeof bytes);
    add_to_sum(after->buffers[BLOCK].bytes, BQ_BLOCK_SIZE);
    add_to_sum(after->buffers[REPLY].bytes, BQ_PACKET_SIZE);
    add_to_sum(after->buffers[MESSAGE].bytes, viewer_wrote(kind, word));
}

/* The refusal or the status in a call's word. */
static uint8_t number_in(enum kind kind, uint64_t word)
{
    if (kind == AWAIT || kind == FIRST)
        return 0;
    return kind == TAKE ? bqv_take_refusal(word) : (uint8_t)(word & 0xff);
}

void tally_add(enum kind kind, uint64_t word, const struct host *after)
{
    const uint8_t *reply = after->buffers[REPLY].bytes;
    uint32_t size = number_at(after->buffers[BLOCK].bytes + 16);
    uint8_t code = kind != FETCH && reply[4] == (0x80 | ERROR) ? reply[7] : 0x00;

    sum_up(kind, word, after);
    answered[kind][number_in(kind, word)]++;
    if (kind == TAKE && bqv_ended(word) && !bqv_ended(after->word))
        ended[bqv_code(word)]++;
    if (kind >= KEY_KINDS)
        return;
    if (kind == CHECK) {
        hashes += (uint64_t)bq_hashed(word);
        return;
    }
    tickets += (uint64_t)bq_ticketed(word);
    if (bq_ticketed(word) && size > longest)
        longest = size;
    for (int i = 0; i < REPLIES; i++)
        if (bq_replied(word) && replies[i].kind == kind && replies[i].code == code)
            replied[i]++;
}

static void print_calls(enum kind kind)
{
    uint64_t all = 0;

    for (int number = 0; number < 256; number++)
        all += answered[kind][number];
    if (all == 0)
        return;
    printf("  %-19s %10" PRIu64 " ", call_names[kind], all);
    for (int i = 0; i == 0 || numbers[kind][i] != 0; i++)
        if (answered[kind][numbers[kind][i]] > 0)
            printf("  %02x:%" PRIu64, numbers[kind][i], answered[kind][numbers[kind][i]]);
    putchar('\n');
}

void tally_print(void)
{
    puts("  call                     calls   how many of them got each number or status");
    for (int kind = 0; kind < KINDS; kind++)
        print_calls(kind);
    printf("  %" PRIu64 " tickets, the longest request %" PRIu32 " bytes; %" PRIu64 " hashes\n  replies:", tickets, longest, hashes);
    for (int i = 0; i < REPLIES; i++)
        printf("%s %s:%" PRIu64, i == 0 ? "" : ",", replies[i].name, replied[i]);
    printf("\n  sum of all words and what was written: %016" PRIx64 "\n", sum);
}

void tally_print_endings(void)
{
    printf("  gatherings that ended:");
    for (size_t i = 0; i < sizeof endings; i++)
        printf("%s %02x:%" PRIu64, i == 0 ? "" : ",", endings[i], ended[endings[i]]);
    putchar('\n');
}

#define UNREACHED ": it is never given, or the calls do not reach it (host/visitor.c, damage.c; viewer_parts.c, viewer_damage.c)"

void tally_want_numbers(enum kind from, enum kind to)
{
    for (int kind = (int)from; kind < (int)to; kind++)
        for (int i = 0; i == 0 || numbers[kind][i] != 0; i++)
            if (answered[kind][numbers[kind][i]] == 0)
                fail("no %s came to %02x" UNREACHED, call_names[kind], numbers[kind][i]);
}

void tally_want_replies(void)
{
    for (int i = 0; i < REPLIES; i++)
        if (replied[i] == 0)
            fail("no %s replied %s" UNREACHED, call_names[replies[i].kind], replies[i].name);
    if (longest < LONG || hashes == 0)
        fail("no request over %d bytes got a ticket, or no hash was shown" UNREACHED, LONG);
}

void tally_want_endings(void)
{
    for (size_t i = 0; i < sizeof endings; i++)
        if (ended[endings[i]] == 0)
            fail("no bqv_take ended with %02x" UNREACHED, endings[i]);
}
