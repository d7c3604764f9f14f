/* The parties: the key on a pipe, the client's end of the bus, the stand-in core, and a stranger with a channel of its own. The client is
   a library that nobody here wrote: libfido2 (client.c) or python-fido2 (u2f.py). */

#ifndef INTEROP_H
#define INTEROP_H

#include <stdbool.h>
#include <stddef.h>
#include <stdint.h>

/* The bytes of a packet, of the longest message, and where the payload of an opening and of a continuation begins. */
enum { PACKET = 64, LONGEST = 7609, OPENING_AT = 7, CONTINUATION_AT = 5 };

/* Byte 4 of an opening packet: the high bit and the command. */
enum { OPENING = 0x80, PING = 0x81, MSG = 0x83, INIT = 0x86, CBOR = 0x90, CANCEL = 0x91, ERROR = 0xbf };

/* Bytes 0 to 3 of a packet, high first. */
static const uint32_t BROADCAST = 0xffffffff;

/* A message put together from packets: `have` of its `length` bytes have come. */
struct message {
    uint8_t bytes[LONGEST];
    size_t length, have;
};

/* bench.c: the key, one line in and one line out. Whatever goes wrong ends the program with what it was. */
void fail(const char *form, ...) __attribute__((noreturn, format(printf, 1, 2)));
void bench_start(char *const command[]);
void bench_stop(void);
/* The answer stands until the next line is asked for. */
const char *bench_ask(const char *line);
/* One more line of the same answer. */
const char *bench_more(void);
void bench_expect(const char *line, const char *answer);
/* The packet call. */
const char *bench_packet(const uint8_t packet[PACKET]);
/* The reply packet that an answer ends with; false where it has none. */
bool reply_in(const char *answer, uint8_t reply[PACKET]);
void write_hex(char *out, const uint8_t *bytes, size_t length);
/* How many bytes were read; at most `room`. */
size_t read_hex(const char *hex, uint8_t *bytes, size_t room);
uint32_t channel_at(const uint8_t at[4]);

/* core.c: what stands behind the key. It knows no cryptography: it denies CBOR commands that need some, and answers U2F's with bytes that
   it made up. */
void core_is_handed(uint32_t ticket);
bool core_is_busy(void);
/* Answers the command that the key hands on, which must be `sent`; what it delivered. */
const struct message *core_delivers(const struct message *sent);
/* The request at hand was cancelled; the core tries to deliver all the same, at once and again while the next request waits. */
void core_comes_late(void);
void core_report(void);
extern const uint8_t core_aaguid[16];

/* stranger.c: a second client. */
/* It comes when the client has drawn this INIT reply. */
void stranger_comes(const uint8_t greeting[PACKET]);
/* It knocks in every way it can; `number` is the sequence number that the client's transaction is at. */
void stranger_knocks(bool key_is_held, uint8_t number);
unsigned long stranger_report(void);

/* usb.c: the client's packets on their way to the key and back. */
/* A run begins: this client opens the bus, which starts this bench program. Where asked, a stranger knocks between all packets. */
void usb_begin(const char *client, char *const command[], bool stranger);
/* The four I/O functions, in the form that libfido2 wants. There is one bus, so handle and path say nothing. */
void *usb_open(const char *path);
void usb_close(void *handle);
/* A report is the report number, 0, and the packet. */
int usb_write(void *handle, const unsigned char *report, size_t length);
/* 0 where there is no packet to read. */
int usb_read(void *handle, unsigned char *packet, size_t length, int timeout);
/* The client cancels its next request, by this call, while the core works on it. */
void usb_cancel_next(void (*cancel)(void));
/* Ends an exchange: prints what has passed since the last one and what the client reported, which must be as expected. */
void usb_exchange(const char *name, bool handed_on, const char *reported, const char *expected);
/* After a run without the stranger and one with it: the client's packets must be the same to the byte in both. */
void usb_report(void);

#endif
