/* A host in C for the key, and a viewer for it: what their files share. */

#ifndef HOST_H
#define HOST_H

#include "bellaqsum.h"
#include "bellaqsum_viewer.h"

#include <stdbool.h>
#include <stddef.h>
#include <stdint.h>

/* More than any call needs of a buffer: the bench's message buffer, and commands that are too long. */
enum { LARGEST = 8192 };

/* The commands that open a transaction, and the two that are about channels and transactions. */
enum { PING = 0x01, MSG = 0x03, INIT = 0x06, CBOR = 0x10, CANCEL = 0x11, ERROR = 0x3f };

#define BROADCAST UINT32_C(0xffffffff)
#define MOST_CHANNELS UINT32_C(4294967294)

enum { MOST_TIME = 3000, FIRST_PAYLOAD = 57, LATER_PAYLOAD = 59, HASH = 32 };

/* The calls: the key's, and the viewer's. */
enum kind { FRESH, PACKET, TIME, DELIVER, FETCH, CHECK, KEY_KINDS, MAKE = KEY_KINDS, GET, CUT, AWAIT, TAKE, APART, FIRST, ENTRY, KINDS };

/* The buffers that they are lent; the parts are the viewer's alone. */
enum slot { BLOCK, INPUT, REPLY, MESSAGE, KEY_SLOTS, PART = KEY_SLOTS, SLOTS = PART + BQV_MAKE_PARTS };

struct buffer {
    uint8_t bytes[LARGEST];
    size_t length; /* so many of them are lent */
};

/*
 * What a host has. Calls are lent copies, so that these are what stood there before. The input is what is only read: the packet, the
 * delivery, the command, the request, or the reply that is taken apart. Packets are written to the reply; commands, and replies that are
 * gathered, to the message.
 */
struct host {
    struct buffer buffers[SLOTS];
    uint32_t number; /* the milliseconds, the ticket, or the viewer's channel */
    uint8_t command; /* from here on the viewer's: of a request and its reply */
    uint16_t given;  /* which parts are there */
    uint64_t word;   /* of the reply that is awaited */
    size_t place;    /* a packet's index, or a place in the reply */
};

struct state {
    uint8_t phase, command;
    uint32_t given, ticket, holder, size, done, left;
};
enum { IDLE, GATHERING, WAITING, ANSWERING };

/* ---- main.c */

/* Ends the program. The message names the call that is being made. */
void fail(const char *form, ...) __attribute__((noreturn, format(printf, 1, 2)));

#define must(holds, ...)       \
    do {                       \
        if (!(holds))          \
            fail(__VA_ARGS__); \
    } while (0)

/* What the message of fail begins with, as a script's line. */
void fail_about(const char *subject, uint64_t number);

/* ---- lent.c: memory that is lent, with nothing around it that a call could touch unseen */

void lent_begin(void);

/* A copy of so many bytes in a place of its own; no bytes are NULL at times. */
uint8_t *lent_place(enum slot slot, const uint8_t *bytes, size_t length);

/* Whether all that lies around what is lent in the first slots is as it was. */
void lent_check(int slots);

/* ---- block.c and order.c: include/bellaqsum.h's table, and refusal 7 */

/* Whether a state's block stands at the front of these bytes, and which. */
bool block_read(const uint8_t *bytes, size_t length, struct state *s);
void block_write(const struct state *s, uint8_t *bytes);
uint32_t number_at(const uint8_t *bytes);
void number_to(uint8_t *bytes, uint32_t number);

bool in_order(const struct state *s);

/* ---- packets.c: document 01's layout */

uint32_t packets_needed(uint32_t size);
void packet_of(uint8_t packet[BQ_PACKET_SIZE], uint32_t channel, uint8_t command, const uint8_t *message, uint32_t size, uint32_t index);

/* ---- call.c: makes a call, and holds what comes of it to the rules */

extern const char *const slot_names[SLOTS];
extern const char *const call_names[KINDS];

/* Whether a call is lent this buffer, and whether it may write to it. */
bool is_lent(enum kind kind, enum slot slot);
bool is_writable(enum kind kind, enum slot slot);

uint64_t make_call(enum kind kind, struct host *h);
uint64_t calls_made(void);

/* For messages: the call that is being made, with what it was given; KINDS between calls. */
enum kind call_being_made(const struct host **h);

/* ---- rules.c, viewer_rules.c: what must hold of any call of the key; what each of the viewer's must come to */

/* The buffers after the call stand at these places. */
void rules_check(enum kind kind, const struct host *before, uint8_t *const after[SLOTS], uint64_t word);
void viewer_rules_check(enum kind kind, const struct host *before, uint8_t *const after[SLOTS], uint64_t word);

/* ---- tally.c */

void tally_add(enum kind kind, uint64_t word, const struct host *after);
void tally_print(void);
void tally_print_endings(void);

/* What no call has come to yet is a failure: a number of one of these calls, a reply of the key, or the end of a gathering. */
void tally_want_numbers(enum kind from, enum kind to);
void tally_want_replies(void);
void tally_want_endings(void);

/* ---- play.c, random.c, viewer.c: the three things that the program does */

void play(const char *script, const char *answers);
void random_calls(uint64_t calls, uint64_t seed);
void viewer_rounds(uint64_t rounds, uint64_t seed);

/* ---- chance.c */

void chance_seed(uint64_t seed);
uint32_t chance_any(void);
uint32_t chance_below(uint32_t bound);
bool chance_one_in(uint32_t bound);
void chance_turn_bit(uint8_t *bytes, size_t length);
void chance_fill(uint8_t *bytes, size_t length);

/* A length near one that counts, or any. */
size_t chance_near(size_t needed, size_t most);

/* ---- items.c: CBOR items, as they are written */

/* A message while it is written. What does not fit is left out, which makes one that is cut short. */
struct text {
    uint8_t *out;
    size_t length;
};

/* The major types. */
enum { UNSIGNED, NEGATIVE, BYTES, TEXT, ARRAY, MAP, SIMPLE = 7 };

void text_put(struct text *t, const void *bytes, size_t length);
void text_byte(struct text *t, unsigned byte);
void text_head(struct text *t, unsigned major, uint32_t number);
void text_string(struct text *t, unsigned major, uint32_t length);

/* An item of this kind, in so many levels at most. */
void text_item(struct text *t, unsigned major, unsigned levels);

/* What is just an item, or just none. */
void text_odd(struct text *t);

/* A bit turned, the end cut off, or bytes behind it. */
void text_damage(struct text *t);

/* ---- messages.c: CBOR commands and APDUs, good and damaged; each answers how long it is, LARGEST at most */

/* The kind of each parameter, from key 1 on; the first ones are required. MakeCredential is the first command, GetAssertion the second. */
extern const struct command {
    uint8_t command, keys, required, hash, algorithms;
    uint8_t kinds[9];
} commands[2];

size_t message_command(uint8_t *out);
size_t message_apdu(uint8_t *out);

/* The value of a command's key, mostly a good one. */
size_t message_part(int which, uint8_t key, uint8_t *out);

/* ---- damage.c: calls with what no sensible host lends */

void damage_call(struct host *h);

/* ---- visitor.c: calls that a sensible host makes */

/* In a calm nothing comes between: no other host, no time step. */
void visitor_call(struct host *h, bool calm);

/* A packet that may come from anyone, in this state. */
void visitor_packet(const struct state *s, struct buffer *packet);

/* ---- viewer_parts.c: what commands are written from */

/* The most bytes of a part that bq_check can judge, alone in a command's map. Longer parts are made whole, and are not damaged. */
enum { MOST_JUDGED = BQ_MESSAGE_SIZE - 3 };

/* The command that a viewer's parts make, put together by hand; how long it is. */
enum { LARGEST_COMMAND = 2 + BQV_MAKE_PARTS * (1 + LARGEST) };
size_t parts_command(enum kind kind, const struct host *h, uint8_t *out);

/* Random parts, and how much of the message buffer is lent for their command. */
void parts_make(enum kind kind, struct host *h);

/* ---- viewer_replies.c: replies, and how they were made */

enum { MOST_ENTRIES = 320 };

struct answer {
    struct buffer reply;
    enum { ALONE, MAPPED, ANY_BYTES } form; /* a status, a status and a map, or bytes that may be neither */
    size_t count;                           /* of the map's entries: where each begins, its value, and where it ends */
    struct {
        size_t at, value, end;
    } entries[MOST_ENTRIES];
};

void answer_make(struct answer *a);
void answer_status(struct answer *a, uint8_t status);

/* ---- viewer_damage.c: calls of the viewer with what no sensible viewer lends */

void viewer_damage_call(void);

#endif
