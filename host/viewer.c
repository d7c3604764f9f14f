/*
 * A viewer that talks to the key, with both ends in one process: in each round a command is written from parts, cut, sent among the packets
 * of other hosts, answered by a core, gathered and taken apart. What each call comes to is held to the rules by make_call; here it is
 * seen that what one end sends is what the other gets.
 */

#include "host.h"

#include <inttypes.h>
#include <stdio.h>
#include <string.h>

/* From so many rounds on every way must have been reached. */
enum { MANY = 10000 };

/* The key with its buffers, and the viewer with its own. */
static struct host key, viewer;

/* The request that is sent, and the answer to it. */
static struct buffer request;
static struct answer answer;

/* How a request goes: it is answered; another host holds the key; the viewer falls silent, or cancels; a packet of the reply is lost. */
enum turn { ANSWERED, BUSY, SILENT, CANCELLED, LOST, TURNS };
static const char *const turn_names[TURNS] = { "answered", "busy", "silent", "cancelled", "lost" };

static struct {
    uint64_t turns[TURNS], refused, sent_refused, packets, others, maps, entries;
    size_t longest_request, longest_reply;
} count;

/* ---- between the two ends */

static struct state state_of_key(void)
{
    struct state s = { 0 };

    must(block_read(key.buffers[BLOCK].bytes, BQ_BLOCK_SIZE, &s), "the key has lost its block");
    return s;
}

/* Whatever the key sends, the viewer gets. */
static void viewer_gets(const uint8_t *packet)
{
    uint64_t word;

    memcpy(viewer.buffers[INPUT].bytes, packet, BQ_PACKET_SIZE);
    viewer.buffers[INPUT].length = BQ_PACKET_SIZE;
    word = make_call(TAKE, &viewer);
    must(bqv_take_refusal(word) == BQV_OK, "the viewer's bqv_take is refused with %u", bqv_take_refusal(word));
    viewer.word = word;
}

static uint64_t key_gets(const uint8_t *packet)
{
    uint64_t word;

    memcpy(key.buffers[INPUT].bytes, packet, BQ_PACKET_SIZE);
    key.buffers[INPUT].length = BQ_PACKET_SIZE;
    word = make_call(PACKET, &key);
    must(bq_refusal(word) == BQ_OK, "the key refuses a packet with %u", bq_refusal(word));
    if (bq_replied(word))
        viewer_gets(key.buffers[REPLY].bytes);
    return word;
}

static void key_waits(uint32_t ms)
{
    key.number = ms;
    if (bq_replied(make_call(TIME, &key)))
        viewer_gets(key.buffers[REPLY].bytes);
}

/* Packets of other hosts to the key, which holds the viewer's request; and some on other channels that the viewer sees. */
static void others_send(void)
{
    while (chance_one_in(3)) {
        struct state s = state_of_key();
        struct buffer packet;

        visitor_packet(&s, &packet);
        if (number_at(packet.bytes) == viewer.number)
            continue;
        count.others++;
        if (chance_one_in(2))
            key_gets(packet.bytes);
        else
            viewer_gets(packet.bytes);
    }
}

/* ---- requests */

/* Packet k of the request, to the key; whether there is one. */
static bool send_packet(size_t k, uint64_t *word)
{
    viewer.buffers[INPUT] = request;
    viewer.buffers[REPLY].length = BQ_PACKET_SIZE;
    chance_fill(viewer.buffers[REPLY].bytes, BQ_PACKET_SIZE); /* a packet that was not written is then seen */
    viewer.place = k;
    if (!bqv_packed(make_call(CUT, &viewer)))
        return false;
    count.packets++;
    *word = key_gets(viewer.buffers[REPLY].bytes);
    return true;
}

/* All packets of the request; what the key answers the last of them. */
static uint64_t send_request(bool among_others)
{
    uint64_t word = 0;

    for (size_t k = 0; send_packet(k, &word); k++) {
        must(k < packets_needed((uint32_t)request.length), "a request of %zu bytes has a packet %zu", request.length, k);
        if (among_others)
            others_send();
    }
    return word;
}

static void await(uint32_t channel, uint8_t command)
{
    viewer.number = channel;
    viewer.command = command;
    viewer.word = make_call(AWAIT, &viewer);
    viewer.buffers[MESSAGE].length = BQ_MESSAGE_SIZE + (chance_one_in(4) ? chance_below(LARGEST - BQ_MESSAGE_SIZE) : 0);
}

/* The viewer asks for a channel as every host does, with eight bytes to know its reply by. */
static void get_channel(void)
{
    const uint8_t *reply = viewer.buffers[MESSAGE].bytes;

    await(BROADCAST, INIT);
    request.length = 8;
    chance_fill(request.bytes, request.length);
    send_request(false);
    must(bqv_whole(viewer.word) && bqv_reply_size(viewer.word) == 17, "INIT on broadcast got no reply of 17 bytes");
    must(memcmp(reply, request.bytes, 8) == 0, "the reply to INIT does not begin with the viewer's bytes");
    must(number_at(reply + 8) == state_of_key().given, "INIT's reply has channel %u, and %u are given", number_at(reply + 8),
         state_of_key().given);
}

/* Read as a reply is read, the command has the parts that it was written from, and no others. */
static void parts_stand(enum kind kind)
{
    viewer.buffers[INPUT] = request;
    viewer.place = (size_t)make_call(FIRST, &viewer);
    for (uint8_t k = 1; k <= commands[kind - MAKE].keys; k++) {
        const struct buffer *part = &viewer.buffers[PART + k - 1];
        uint64_t word;

        if ((viewer.given >> k & 1) == 0)
            continue;
        word = make_call(ENTRY, &viewer);
        must(bqv_found(word) && bqv_value(word) == viewer.place + 1 && bqv_end(word) == bqv_value(word) + part->length,
             "no part %u of %zu bytes stands at %zu of the command", k, part->length, viewer.place);
        must(request.bytes[viewer.place] == k && memcmp(request.bytes + bqv_value(word), part->bytes, part->length) == 0,
             "the part %u at %zu of the command has other bytes", k, viewer.place);
        viewer.place = bqv_end(word);
    }
    must(viewer.place == request.length, "the parts end at %zu, and the command at %zu", viewer.place, request.length);
}

/* A command is written from parts: whether there is a request to be sent. Of what is refused the key gets to see some all the same. */
static bool write_request(uint8_t *status)
{
    static uint8_t command[LARGEST_COMMAND];
    enum kind kind = chance_one_in(2) ? MAKE : GET;
    uint64_t word;
    size_t length;

    parts_make(kind, &viewer);
    word = make_call(kind, &viewer);
    *status = bqv_refusal(word);
    if (*status == BQV_OK) {
        request.length = bqv_size(word);
        memcpy(request.bytes, viewer.buffers[MESSAGE].bytes, request.length);
        must(bq_status(bq_check(request.bytes, request.length)) == 0, "the key does not take the command that was written");
        parts_stand(kind);
        return true;
    }
    count.refused++;
    length = parts_command(kind, &viewer, command);
    if (length > BQ_MESSAGE_SIZE || bq_status(bq_check(command, length)) != *status)
        return false; /* it is too long, or a part is no item: the key may see it otherwise */
    request.length = length;
    memcpy(request.bytes, command, length);
    return true;
}

/* ---- replies */

/* The packets of the key's reply, among those of others; one of them may be lost. */
static void fetch_reply(size_t lost)
{
    for (size_t k = 0; state_of_key().phase == ANSWERING; k++) {
        others_send();
        must(bq_replied(make_call(FETCH, &key)), "the key is answering and has no packet");
        if (k != lost)
            viewer_gets(key.buffers[REPLY].bytes);
    }
}

/* What the viewer gathered is the answer. */
static void got(void)
{
    size_t length = answer.reply.length;

    must(bqv_whole(viewer.word) && !bqv_ended(viewer.word), "a reply of %zu bytes is not whole: its word is %016" PRIx64, length,
         viewer.word);
    must(bqv_reply_size(viewer.word) == length, "a reply of %zu bytes is told to have %u", length, bqv_reply_size(viewer.word));
    must(memcmp(viewer.buffers[MESSAGE].bytes, answer.reply.bytes, length) == 0, "the reply is not the one that was delivered");
}

static void ended_with(uint8_t code)
{
    must(bqv_ended(viewer.word) && !bqv_whole(viewer.word), "the reply does not end: its word is %016" PRIx64, viewer.word);
    must(bqv_code(viewer.word) == code, "the reply ends with %02x and not %02x", bqv_code(viewer.word), code);
}

/* The map's entries are those that it was made of. */
static void walk(void)
{
    viewer.place = (size_t)make_call(FIRST, &viewer);
    for (size_t i = 0; i < answer.count; i++) {
        uint64_t word;

        must(viewer.place == answer.entries[i].at, "entry %zu stands at %zu and not at %zu", i, answer.entries[i].at, viewer.place);
        word = make_call(ENTRY, &viewer);
        must(bqv_found(word) && bqv_value(word) == answer.entries[i].value && bqv_end(word) == answer.entries[i].end,
             "the value of entry %zu stands from %zu up to %zu: the word is %016" PRIx64, i, answer.entries[i].value, answer.entries[i].end,
             word);
        viewer.place = bqv_end(word);
        count.entries++;
    }
    must(make_call(ENTRY, &viewer) == 0, "there is an entry behind the last one");
}

static void take_apart(void)
{
    uint64_t word;

    memcpy(viewer.buffers[INPUT].bytes, viewer.buffers[MESSAGE].bytes, bqv_reply_size(viewer.word));
    viewer.buffers[INPUT].length = bqv_reply_size(viewer.word);
    word = make_call(APART, &viewer);
    if (answer.form == ANY_BYTES)
        return;
    must(bqv_refusal(word) == BQV_OK && bqv_status(word) == answer.reply.bytes[0], "the status %02x is not shown: the word is %016" PRIx64,
         answer.reply.bytes[0], word);
    must(bqv_mapped(word) == (answer.form == MAPPED), "the reply's map is not told: the word is %016" PRIx64, word);
    must(bqv_map_size(word) == (answer.form == MAPPED ? answer.reply.length - 1 : 0), "the map has not %u bytes", bqv_map_size(word));
    count.maps += (uint64_t)bqv_mapped(word);
    walk();
}

/* ---- rounds */

/* Another host opens a message and holds the key, until its time is over. */
static void round_busy(void)
{
    static const uint8_t ping[100];
    uint8_t packet[BQ_PACKET_SIZE];
    uint32_t channel = viewer.number == 1 ? 2 : 1;

    packet_of(packet, channel, PING, ping, sizeof ping, 0);
    key_gets(packet);
    send_request(false);
    ended_with(0x06);
    key_waits(MOST_TIME);
    ended_with(0x06);
    count.turns[BUSY]++;
}

/* The viewer sends no more after its first packet. */
static void round_silent(void)
{
    uint64_t word;

    must(send_packet(0, &word), "a request has no first packet");
    others_send();
    key_waits(MOST_TIME - 1);
    key_waits(1);
    ended_with(0x05);
    count.turns[SILENT]++;
}

/* The core's answer to a request that got its ticket. */
static void deliver(uint32_t ticket)
{
    key.number = ticket;
    key.buffers[INPUT] = answer.reply;
    must(bq_refusal(make_call(DELIVER, &key)) == BQ_OK, "the key refuses the core's answer");
}

static void cancel(void)
{
    request.length = 0;
    viewer.command = CANCEL;
    send_request(false);
}

/* The request waits for the core, as it was sent; then the reply comes, but for a packet that may be lost. */
static void round_handed(enum turn turn, uint32_t ticket)
{
    size_t packets;

    must(bq_request_command(key.buffers[BLOCK].bytes) == CBOR && bq_request_size(key.buffers[BLOCK].bytes) == request.length
             && memcmp(key.buffers[MESSAGE].bytes, request.bytes, request.length) == 0,
         "the core is handed another request than the viewer sent");
    others_send();
    if (turn == CANCELLED) {
        answer_status(&answer, 0x2d);
        cancel();
    } else {
        answer_make(&answer);
        deliver(ticket);
    }
    packets = packets_needed((uint32_t)answer.reply.length);
    if (turn == LOST && packets <= 2)
        turn = ANSWERED;
    count.turns[turn]++;
    if (turn == LOST) {
        fetch_reply(1 + chance_below((uint32_t)packets - 2));
        ended_with(BQV_OTHER_NUMBER);
    } else {
        fetch_reply(packets);
        got();
        take_apart();
    }
    if (answer.reply.length > count.longest_reply)
        count.longest_reply = answer.reply.length;
}

/* A request that the key refuses is answered with the status that the viewer was told. */
static void round_refused(uint8_t status)
{
    count.sent_refused++;
    answer_status(&answer, status);
    fetch_reply(1);
    got();
    take_apart();
}

static void round_of(enum turn turn, uint8_t status)
{
    uint64_t word;

    await(1 + chance_below(state_of_key().given < 8 ? state_of_key().given : 8), CBOR);
    if (turn == SILENT && packets_needed((uint32_t)request.length) == 1)
        turn = ANSWERED;
    if (request.length > count.longest_request)
        count.longest_request = request.length;
    if (turn == BUSY) {
        round_busy();
    } else if (turn == SILENT) {
        round_silent();
    } else {
        word = send_request(true);
        must(bq_ticketed(word) == (status == 0), status == 0 ? "a good request gets no ticket" : "a refused request gets a ticket");
        if (status == 0)
            round_handed(turn, bq_ticket(word));
        else
            round_refused(status);
    }
    must(state_of_key().phase == IDLE, "the key is not idle after the round");
}

static void one_round(void)
{
    uint8_t status;

    if (chance_one_in(64))
        get_channel();
    if (write_request(&status))
        round_of(chance_one_in(4) ? (enum turn)chance_below(TURNS) : ANSWERED, status);
    for (int i = 0; i < 8; i++)
        viewer_damage_call();
}

static void print_counts(void)
{
    printf("  requests:");
    for (int turn = 0; turn < TURNS; turn++)
        printf(" %s:%" PRIu64 ",", turn_names[turn], count.turns[turn]);
    printf(" the longest %zu bytes; %" PRIu64 " packets among %" PRIu64 " of others\n", count.longest_request, count.packets, count.others);
    printf("  refused by the writer:%" PRIu64 ", of which the key refused %" PRIu64 " too\n", count.refused, count.sent_refused);
    printf("  gathered: %" PRIu64 " maps with %" PRIu64 " entries, the longest reply %zu bytes\n", count.maps, count.entries,
           count.longest_reply);
    tally_print_endings();
    tally_print();
}

static void want_all(void)
{
    tally_want_numbers(MAKE, KINDS);
    tally_want_endings();
    for (int turn = 0; turn < TURNS; turn++)
        must(count.turns[turn] > 0, "no round was %s", turn_names[turn]);
    must(count.sent_refused > 0 && count.others > 0 && count.entries > 0, "one of the counts above is 0");
    must(count.longest_request == BQ_MESSAGE_SIZE && count.longest_reply == BQ_MESSAGE_SIZE, "no request or no reply has %d bytes",
         BQ_MESSAGE_SIZE);
}

void viewer_rounds(uint64_t rounds, uint64_t seed)
{
    uint64_t part = rounds / 10 + 1;

    chance_seed(seed);
    fail_about("seed", seed);
    key.buffers[BLOCK].length = BQ_BLOCK_SIZE;
    key.buffers[REPLY].length = BQ_PACKET_SIZE;
    key.buffers[MESSAGE].length = BQ_MESSAGE_SIZE;
    make_call(FRESH, &key);
    get_channel();
    get_channel();
    for (uint64_t round = 1; round <= rounds; round++) {
        one_round();
        if (round % part == 0)
            fprintf(stderr, "host: %" PRIu64 " of %" PRIu64 " rounds\n", round, rounds);
    }
    printf("%" PRIu64 " rounds of a viewer with the key, seed %" PRIu64 ", each call as it must be:\n", rounds, seed);
    print_counts();
    if (rounds >= MANY)
        want_all();
}
