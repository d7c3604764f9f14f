/*
 * bellaqsum_viewer.h: the other end of the touch key's protocol, for a viewer in C99.
 *
 * A viewer writes a command, cuts it into packets, gathers the reply from the packets that come in, and takes it apart. The calls hold no
 * memory of their own. Your viewer lends them three things:
 *
 *   parts      the parameters of a command, each encoded in CBOR.
 *   out        where a command is written, up to 7,609 bytes; or a packet to send to the key, 64 bytes.
 *   message    7,609 bytes or more: the one reply that is gathered.
 *
 * and keeps a word of 64 bits for each reply that it awaits.
 *
 * What you do, and which call it is:
 *
 *   you have the parts of a command             bqv_make, bqv_get   (what the key would refuse is refused here, with the same status)
 *   a request is to be sent                     bqv_cut, with k = 0, 1, .. until it writes no packet
 *   a reply is to come                          bqv_await
 *   a 64-byte packet came in from USB           bqv_take, until bqv_whole or bqv_ended
 *   a reply is whole                            bqv_apart
 *   you look for something in its map           bqv_first, and bqv_entry from the end of each entry on
 *
 * Every call but bqv_first answers a word of 64 bits, to be read with the bqv_ functions at the end of this header. A call that is refused
 * changes no byte that it was lent.
 *
 * Any bytes, numbers, lengths and order of calls are safe. What the calls do ask, as every C function does:
 *   - each pointer stands for as many bytes as its length says, readable, and writable where it is not const. A pointer whose length
 *     is 0 is not read: it may be NULL;
 *   - a buffer that a call may write to overlaps no other that it is lent.
 * Nothing is allocated, no function is called back, and nothing is kept: calls on different buffers may run at once. The deepest call, a
 * command that is written, takes some 1,200 bytes of stack on x86-64. The archive (tools/hostlib viewer_calls makes it) is for 64-bit
 * machines, and wants memset of the C library; it can be linked into one program with the key's.
 *
 * The functions are proved to do what the rules say, for every input: request 2026-04, and of the key's own rules what it builds on.
 */
#ifndef BELLAQSUM_VIEWER_H
#define BELLAQSUM_VIEWER_H

#include <stddef.h>
#include <stdint.h>

#ifdef __cplusplus
extern "C" {
#endif

/* What each buffer must have. Longer ones are fine, and the bytes beyond are left alone. */
#define BQV_PACKET_SIZE 64    /* a packet */
#define BQV_MESSAGE_SIZE 7609 /* the message buffer: the longest request, and the longest reply */

/* What a viewer sends: INIT on the broadcast channel asks for a channel, CBOR carries a command, CANCEL, of 0 bytes, gives it up. */
#define BQV_INIT 0x06
#define BQV_CBOR 0x10
#define BQV_CANCEL 0x11
#define BQV_BROADCAST UINT32_C(0xffffffff)

/* Why bqv_cut or bqv_take is refused. Where several apply it is the lowest, but BQV_CANNOT_BE comes before all others. */
#define BQV_OK 0            /* it is not refused */
#define BQV_NOT_A_PACKET 1  /* the packet that came in is not 64 bytes long */
#define BQV_SHORT_OUT 2     /* the buffer for a packet is shorter than 64 bytes */
#define BQV_SHORT_MESSAGE 3 /* the message buffer is shorter than 7,609 bytes */
#define BQV_CANNOT_BE 7     /* the command is above 127; the word is no reply's, or of one that cannot be */
#define BQV_TOO_LONG 8      /* the request is longer than 7,609 bytes */

/*
 * Why a command is not written: the CTAP2 status that the key would give it. A part that is not exactly one canonical item gets
 * BQV_INVALID_CBOR before all others; then the parts are looked at in the order of their keys. A command that is longer than 7,609 bytes,
 * or than the output buffer, gets BQV_TOO_LONG, and only where no status is due.
 */
#define BQV_INVALID_LENGTH 0x03        /* the client data hash is not 32 bytes long */
#define BQV_UNEXPECTED_TYPE 0x11       /* a part, or an algorithm's "alg" or "type", is of another kind than it must be */
#define BQV_INVALID_CBOR 0x12          /* a part is not exactly one canonical item */
#define BQV_MISSING_PARAMETER 0x14     /* a part that must be there is not, or an algorithm's "alg" or "type" */
#define BQV_UNSUPPORTED_ALGORITHM 0x26 /* no algorithm is -7 with "public-key" */

/*
 * Why a reply is none: BQV_INVALID_LENGTH if it is empty or longer than 7,609 bytes; BQV_INVALID_CBOR if something else than one canonical
 * map stands behind its status, or if no entry stands at a place.
 */

/* The codes that a gathering ends with. An error packet has its own, as 0x05, the request was too slow, or 0x06, another holds the key. */
#define BQV_OTHER_COMMAND 0x01 /* the reply is to another command */
#define BQV_OTHER_LENGTH 0x03  /* it would be longer than 7,609 bytes */
#define BQV_OTHER_NUMBER 0x04  /* a packet is missing or came twice, or the reply began again */

/*
 * The words, for those who want to look into them. Bits that are not named are 0.
 *
 *   of                                        bits 0..7     bit 8      bits 16..31               bits 32..63
 *   bqv_make_credential, bqv_get_assertion    the refusal                                        bytes that were written
 *   bqv_cut                                   the refusal   a packet
 *   bqv_apart                                 the refusal   a map      the status                bytes in the map
 *   bqv_entry                                 the refusal   an entry   where its value begins    where its value ends
 *
 * A reply that is awaited has one word, and whatever is no reply's word is refused with BQV_CANNOT_BE, a refusal's own word among them:
 *
 *   bits      what                   nothing came   begun   whole   ended   of a bqv_take that is refused
 *   0..31     the channel            yes            yes     yes     yes     the refusal
 *   32..39    the command            yes            yes     yes     yes     0
 *   40, 41    the stage              0              1       2       3       0
 *   42..54    bytes in the reply     0              yes     yes     code    0
 *   55        refused                0              0       0       0       1
 *   56..63    packets that came      0              yes     0       0       0
 */

/*
 * A whole request: an assertion, asked for on a channel that the key gave. The two parts are "saw.room" as a text and 32 bytes of hash.
 *
 *   void usb_send(const uint8_t *packet);   // 64 bytes to the key
 *   int usb_receive(uint8_t *packet);       // waits for 64 bytes from it; whether they came
 *   void found(const uint8_t *key, size_t key_size, const uint8_t *value, size_t value_size);
 *
 *   int ask(uint32_t channel, const uint8_t hash[32])
 *   {
 *       static uint8_t request[BQV_MESSAGE_SIZE], reply[BQV_MESSAGE_SIZE], packet[BQV_PACKET_SIZE];
 *       static const uint8_t name[] = { 0x68, 's', 'a', 'w', '.', 'r', 'o', 'o', 'm' };
 *       uint8_t encoded[34] = { 0x58, 32 };
 *       bqv_part parts[BQV_GET_PARTS] = { { name, sizeof name, 1 }, { encoded, sizeof encoded, 1 } };
 *       uint64_t word, awaited = bqv_await(channel, BQV_CBOR);
 *       size_t size;
 *
 *       memcpy(encoded + 2, hash, 32);
 *       word = bqv_get(parts, request, sizeof request);
 *       if (bqv_refusal(word) != BQV_OK)
 *           return bqv_refusal(word);
 *       size = bqv_size(word);
 *       for (size_t k = 0; bqv_packed(bqv_cut(channel, BQV_CBOR, request, size, k, packet, sizeof packet)); k++)
 *           usb_send(packet);
 *       while (!bqv_whole(awaited) && !bqv_ended(awaited)) {
 *           if (!usb_receive(packet))
 *               return -1;
 *           awaited = bqv_take(awaited, packet, sizeof packet, reply, sizeof reply);
 *       }
 *       if (bqv_ended(awaited))
 *           return bqv_code(awaited);
 *       size = bqv_reply_size(awaited);
 *       word = bqv_apart(reply, size);
 *       if (bqv_refusal(word) != BQV_OK)
 *           return bqv_refusal(word);
 *       if (bqv_status(word) != 0)
 *           return bqv_status(word);
 *       for (size_t at = bqv_first(reply, size); bqv_found(word = bqv_entry(reply, size, at)); at = bqv_end(word))
 *           found(reply + at, bqv_value(word) - at, reply + bqv_value(word), bqv_end(word) - bqv_value(word));
 *       return 0;
 *   }
 *
 * A channel is got in the same way: the request is 8 bytes that nobody else will choose, sent with BQV_INIT on BQV_BROADCAST. Bytes 8 to
 * 11 of the reply, high first, are the channel. Others ask on broadcast too: until a reply begins with your 8 bytes, await again.
 */

/*
 * Writes a MakeCredential, command byte first, to the front of out; bqv_size tells how many bytes. Bit k of given (1 << k) tells whether
 * the part of key k is there; other bits are not looked at. Each part is one CBOR item, encoded canonically, with at most three levels of
 * arrays and maps. bqv_make takes the parts as an array.
 *
 *   key   part           CTAP2's name        kind         must be there
 *   1     hash           clientDataHash      bytes, 32    yes
 *   2     rp             rp                  map          yes
 *   3     user           user                map          yes
 *   4     algorithms     pubKeyCredParams    array        yes, of maps with "alg" and "type"; one of them -7 and "public-key"
 *   5     exclude        excludeList         array
 *   6     extensions     extensions          map
 *   7     options        options             map
 *   8     pin_auth       pinAuth             bytes
 *   9     pin_protocol   pinProtocol         unsigned
 */
uint64_t bqv_make_credential(uint16_t given, const uint8_t *hash, size_t hash_len, const uint8_t *rp, size_t rp_len,
                             const uint8_t *user, size_t user_len, const uint8_t *algorithms, size_t algorithms_len,
                             const uint8_t *exclude, size_t exclude_len, const uint8_t *extensions, size_t extensions_len,
                             const uint8_t *options, size_t options_len, const uint8_t *pin_auth, size_t pin_auth_len,
                             const uint8_t *pin_protocol, size_t pin_protocol_len, uint8_t *out, size_t out_len);

/*
 * Writes a GetAssertion, in the same way. bqv_get takes the parts as an array.
 *
 *   key   part           CTAP2's name        kind         must be there
 *   1     rp             rpId                text         yes
 *   2     hash           clientDataHash      bytes, 32    yes
 *   3     allow          allowList           array
 *   4     extensions     extensions          map
 *   5     options        options             map
 *   6     pin_auth       pinAuth             bytes
 *   7     pin_protocol   pinProtocol         unsigned
 */
uint64_t bqv_get_assertion(uint16_t given, const uint8_t *rp, size_t rp_len, const uint8_t *hash, size_t hash_len,
                           const uint8_t *allow, size_t allow_len, const uint8_t *extensions, size_t extensions_len,
                           const uint8_t *options, size_t options_len, const uint8_t *pin_auth, size_t pin_auth_len,
                           const uint8_t *pin_protocol, size_t pin_protocol_len, uint8_t *out, size_t out_len);

/*
 * Packet k of a request, counted from 0. bqv_packed: send the first 64 bytes of out. Past the last packet the call is not refused, and
 * writes none. The command is BQV_CBOR for what the two calls above wrote; a request of 0 bytes, as BQV_CANCEL's, has one packet.
 */
uint64_t bqv_cut(uint32_t channel, uint8_t command, const uint8_t *request, size_t request_len, size_t k, uint8_t *out, size_t out_len);

/* The word of a reply to this command on this channel, of which nothing has come. It is never refused. */
uint64_t bqv_await(uint32_t channel, uint8_t command);

/*
 * A packet that came in from the key, for the reply of this word; answers the reply's word after it, which takes the place of the old one.
 * Hand in every packet: those of other channels, and continuations before the reply began, change nothing.
 *   - bqv_whole: the reply stands at the front of the message buffer, and bqv_reply_size is how many bytes it has;
 *   - bqv_ended: there is no reply; bqv_code tells why, and what stands in the message buffer is of no use.
 * From then on nothing changes. Leave the message buffer as it is while the reply is gathered.
 * If the call is refused (bqv_take_refusal), what it answers is no reply's word: go on with the one that you have.
 */
uint64_t bqv_take(uint64_t reply, const uint8_t *packet, size_t packet_len, uint8_t *message, size_t message_len);

/*
 * Takes a reply to BQV_CBOR apart. bqv_status is its first byte: 0, or why the key or its core refuses the request. If bqv_mapped, a
 * canonical map stands behind it, from byte 1 on, and bqv_map_size is how many bytes it has; otherwise the status is all.
 */
uint64_t bqv_apart(const uint8_t *reply, size_t reply_len);

/* Where the first entry of the reply's map stands, for bqv_entry; of a status alone, the end. What bqv_apart refuses has none. */
size_t bqv_first(const uint8_t *reply, size_t reply_len);

/*
 * The entry at a place of the reply. bqv_found: its key stands from the place up to bqv_value, and its value from there up to bqv_end,
 * where the next entry stands. Not found and not refused: it is the reply's end. Of a reply that bqv_apart shows to have a map, the places
 * that bqv_first and bqv_end tell are never refused.
 */
uint64_t bqv_entry(const uint8_t *reply, size_t reply_len, size_t at);

/* ---- commands from an array of parts: parts[k - 1] is that of key k. Clear the array, and fill in what you give. */

#define BQV_MAKE_PARTS 9
#define BQV_GET_PARTS 7

typedef struct {
    const uint8_t *bytes;
    size_t size;
    int given; /* whether it is there */
} bqv_part;

static inline uint16_t bqv_given(const bqv_part *parts, unsigned keys)
{
    unsigned given = 0;

    for (unsigned key = 1; key <= keys; key++)
        if (parts[key - 1].given)
            given |= 1u << key;
    return (uint16_t)given;
}

static inline uint64_t bqv_make(const bqv_part parts[BQV_MAKE_PARTS], uint8_t *out, size_t out_len)
{
    return bqv_make_credential(bqv_given(parts, BQV_MAKE_PARTS), parts[0].bytes, parts[0].size, parts[1].bytes, parts[1].size,
                               parts[2].bytes, parts[2].size, parts[3].bytes, parts[3].size, parts[4].bytes, parts[4].size,
                               parts[5].bytes, parts[5].size, parts[6].bytes, parts[6].size, parts[7].bytes, parts[7].size,
                               parts[8].bytes, parts[8].size, out, out_len);
}

static inline uint64_t bqv_get(const bqv_part parts[BQV_GET_PARTS], uint8_t *out, size_t out_len)
{
    return bqv_get_assertion(bqv_given(parts, BQV_GET_PARTS), parts[0].bytes, parts[0].size, parts[1].bytes, parts[1].size,
                             parts[2].bytes, parts[2].size, parts[3].bytes, parts[3].size, parts[4].bytes, parts[4].size,
                             parts[5].bytes, parts[5].size, parts[6].bytes, parts[6].size, out, out_len);
}

/* ---- what the word says */

/* The refusal, of every call but bqv_await and bqv_take: BQV_OK, or why the call was refused. */
static inline uint8_t bqv_refusal(uint64_t word) { return (uint8_t)(word & 0xff); }

/* Of a command: how many bytes were written; 0 if it is refused. */
static inline uint32_t bqv_size(uint64_t word) { return (uint32_t)(word >> 32); }

/* Of bqv_cut: whether a packet was written. */
static inline int bqv_packed(uint64_t word) { return (int)(word >> 8 & 1); }

/* Of bqv_take: BQV_OK, or why it was refused. */
static inline uint8_t bqv_take_refusal(uint64_t word) { return word >> 55 & 1 ? (uint8_t)(word & 0xff) : BQV_OK; }

/* Of a reply that is awaited: whether it is whole, and of how many bytes; whether it has ended, and with which code. */
static inline int bqv_whole(uint64_t word) { return (word >> 40 & 3) == 2; }
static inline uint32_t bqv_reply_size(uint64_t word) { return (uint32_t)(word >> 42 & 0x1fff); }
static inline int bqv_ended(uint64_t word) { return (word >> 40 & 3) == 3; }
static inline uint8_t bqv_code(uint64_t word) { return (uint8_t)(word >> 42 & 0xff); }

/* Of bqv_apart: the status, whether there is a map, and of how many bytes. */
static inline uint8_t bqv_status(uint64_t word) { return (uint8_t)(word >> 16 & 0xff); }
static inline int bqv_mapped(uint64_t word) { return (int)(word >> 8 & 1); }
static inline uint32_t bqv_map_size(uint64_t word) { return (uint32_t)(word >> 32); }

/* Of bqv_entry: whether there is one, where its value begins, and where it ends. */
static inline int bqv_found(uint64_t word) { return (int)(word >> 8 & 1); }
static inline uint32_t bqv_value(uint64_t word) { return (uint32_t)(word >> 16 & 0xffff); }
static inline uint32_t bqv_end(uint64_t word) { return (uint32_t)(word >> 32); }

#ifdef __cplusplus
}
#endif

#endif
