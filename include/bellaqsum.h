/*
 * bellaqsum.h: the touch key's protocol for a firmware in C99.
 *
 * The key holds no memory of its own. Your firmware lends it three things:
 *
 *   block      32 bytes, the key's state. Make it with bq_fresh once, when the key is plugged in; each call reads and rewrites it.
 *   message    7,609 bytes or more: the one message that is gathered, and then the reply to it. While a request waits for the core
 *              (a ticket was reported), your core reads the request here.
 *   reply      64 bytes or more: a packet to send to the host, if the call says that it wrote one.
 *
 * Between calls they are yours to read. Leave the block as it is, and the message buffer too while a message is gathered or a reply is
 * fetched: what stands there then is what is handed to the core, or sent.
 *
 * What you do, and which call it is:
 *
 *   some milliseconds went by                   bq_time      (so that a host that goes silent does not hold the key for ever)
 *   a 64-byte packet came in from USB           bq_packet    (after the time that went by before it came)
 *   your core has an answer for a ticket        bq_deliver
 *   USB is ready for the next packet out        bq_fetch, until it is refused with BQ_WRONG_STATE
 *
 * Every call answers a word of 64 bits, to be read with the bq_ functions at the end of this header. A call that is refused changes
 * nothing: neither the block nor any other byte that it was lent.
 *
 * Any bytes, numbers, lengths and order of calls are safe. What the calls do ask, as every C function does:
 *   - each pointer stands for as many bytes as its length says, readable, and writable where it is not const. A pointer whose length
 *     is 0 is not read: it may be NULL;
 *   - the buffers of one call do not overlap;
 *   - no two calls on the same block run at once: an interrupt handler and the main loop take turns.
 * Nothing is allocated, no function is called back, and no more is kept than what stands in the block. The deepest call, a command that is
 * checked, takes some 1,200 bytes of stack on x86-64. The archive is for 64-bit machines, and wants memset of the C library.
 *
 * The functions are proved to do what the rules of the key say, for every input; docs/BLOCK.md says what that means for the block.
 */
#ifndef BELLAQSUM_H
#define BELLAQSUM_H

#include <stddef.h>
#include <stdint.h>

#ifdef __cplusplus
extern "C" {
#endif

/* What each buffer must have. Longer ones are fine, and the bytes beyond are left alone. */
#define BQ_BLOCK_SIZE 32     /* the state */
#define BQ_PACKET_SIZE 64    /* a packet, and the reply buffer */
#define BQ_MESSAGE_SIZE 7609 /* the message buffer: the longest message */

/* Why a call is refused. Where several apply it is the lowest, but BQ_BAD_BLOCK comes before all others. */
#define BQ_OK 0            /* it is not refused */
#define BQ_NOT_A_PACKET 1  /* the packet is not 64 bytes long */
#define BQ_SHORT_REPLY 2   /* the reply buffer is shorter than 64 bytes */
#define BQ_SHORT_MESSAGE 3 /* the message buffer is shorter than 7,609 bytes */
#define BQ_WRONG_STATE 4   /* nothing waits for a delivery, or there is nothing to fetch */
#define BQ_LATE_TICKET 5   /* the delivery is not for the request that waits */
#define BQ_BAD_DELIVERY 6  /* the delivery is empty, longer than 7,609 bytes, or for a U2F request only 1 byte long */
#define BQ_BAD_BLOCK 7     /* the block is shorter than 32 bytes, no state's block, or of a state that cannot be */

/*
 * The block, for those who want to look into it. Numbers are big-endian, as in packets. What a phase has no use for is 0, so each state
 * has one block; bytes that are no state's block are refused with BQ_BAD_BLOCK, cleared memory among them.
 *
 *   bytes    what                          idle   gathering   waiting   answering
 *   0, 1     42 51
 *   2        the phase                     0      1           2         3
 *   3        the request's command         0      yes         yes       yes         (PING 1, MSG 3, CBOR 16)
 *   4..7     how many channels are given   yes    yes         yes       yes
 *   8..11    the last ticket given         yes    yes         yes       yes
 *   12..15   the channel that holds it     0      yes         yes       yes
 *   16..19   bytes in the message          0      yes         yes       the reply's
 *   20..23   packets done                  0      gathered    0         fetched
 *   24..27   milliseconds left             0      yes         0         0
 *   28..31   0
 */

/*
 * A fresh key: no channels, no transaction, last ticket 0. Whatever stood in the block before is gone; call it when the key is plugged
 * in, and not later, or hosts that were given a channel lose it, and a late answer of the core could meet a new request's ticket.
 * Refused with BQ_BAD_BLOCK if the block is shorter than 32 bytes.
 */
uint64_t bq_fresh(uint8_t *block, size_t block_len);

/*
 * A packet from the host. Afterwards
 *   - bq_replied: send the first 64 bytes of the reply buffer;
 *   - bq_ticketed: a whole request stands at the front of the message buffer and waits for the core, under the ticket bq_ticket;
 *     bq_request_command and bq_request_size tell what it is. Of a CBOR command, bq_check tells where the hash is;
 *   - and in any case ask bq_fetch whether there is something to send.
 */
uint64_t bq_packet(uint8_t *block, size_t block_len, const uint8_t *packet, size_t packet_len, uint8_t *reply, size_t reply_len,
                   uint8_t *message, size_t message_len);

/*
 * Milliseconds that went by since the last bq_time. A message must be gathered within 3,000 of them; when they are over,
 * bq_replied: the first 64 bytes of the reply buffer are an error packet to its host, to be sent.
 */
uint64_t bq_time(uint8_t *block, size_t block_len, uint32_t ms, uint8_t *reply, size_t reply_len);

/*
 * The core's answer, len bytes, for the request that was given this ticket; it is copied into the message buffer. An answer that comes
 * too late, for a request that was cancelled or dropped, is refused (BQ_WRONG_STATE or BQ_LATE_TICKET): throw it away.
 */
uint64_t bq_deliver(uint8_t *block, size_t block_len, uint32_t ticket, const uint8_t *bytes, size_t len, uint8_t *message,
                    size_t message_len);

/*
 * The next packet of the reply that stands in the message buffer. bq_replied: send the first 64 bytes of the reply buffer. Refused with
 * BQ_WRONG_STATE when there is none.
 */
uint64_t bq_fetch(uint8_t *block, size_t block_len, uint8_t *reply, size_t reply_len, const uint8_t *message, size_t message_len);

/*
 * Checks a CBOR command, command byte first, and needs no block. bq_status is 0 if it is good, or the CTAP2 status that refuses it.
 * A good MakeCredential or GetAssertion shows its client data hash: bq_hashed, and bq_place is where the 32 bytes begin. Of a command
 * that is refused bq_place is where it broke, counted from the command byte.
 */
uint64_t bq_check(const uint8_t *message, size_t message_len);

/* ---- what the word says */

/* The refusal's number: BQ_OK, or why the call was refused. */
static inline uint8_t bq_refusal(uint64_t word) { return (uint8_t)(word & 0xff); }

/* Whether a reply packet stands in the reply buffer, to be sent. */
static inline int bq_replied(uint64_t word) { return (int)(word >> 8 & 1); }

/* Whether a request waits for the core, and its ticket. */
static inline int bq_ticketed(uint64_t word) { return (int)(word >> 9 & 1); }
static inline uint32_t bq_ticket(uint64_t word) { return (uint32_t)(word >> 32); }

/*
 * While a request waits for the core, from the word that told its ticket on: which command it came with (3, a U2F message, or 16, a CBOR
 * command), and how many bytes at the front of the message buffer are it. Both are read from the block.
 */
static inline uint8_t bq_request_command(const uint8_t *block) { return block[3]; }
static inline uint32_t bq_request_size(const uint8_t *block)
{
    return (uint32_t)block[16] << 24 | (uint32_t)block[17] << 16 | (uint32_t)block[18] << 8 | (uint32_t)block[19];
}

/* Of bq_check: the status, whether there is a hash, and where the hash begins or the command broke. */
static inline uint8_t bq_status(uint64_t word) { return (uint8_t)(word & 0xff); }
static inline int bq_hashed(uint64_t word) { return (int)(word >> 8 & 1); }
static inline uint32_t bq_place(uint64_t word) { return (uint32_t)(word >> 32); }

#ifdef __cplusplus
}
#endif

#endif
