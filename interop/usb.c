/* The client's end of the bus: its reports, one packet each, become packet and fetch calls of the key. */

#include "interop.h"

#include <inttypes.h>
#include <stdio.h>
#include <string.h>

/* More packets than one run takes. */
enum { MOST_PACKETS = 1000 };

static const char *client;
static char *const *bench_command;
static bool disturbed;       /* a stranger is to come as soon as the client has its channel */
static bool stranger_came;
static void (*cancel)(void); /* by which the client is to cancel its next request; NULL: it is not to */

static struct {
    unsigned packets_out, packets_in;
    size_t bytes_out, bytes_in;
    uint32_t ticket; /* 0: the key handed nothing on */
} traffic;
static unsigned exchanges;

static struct message request, reply;
static const struct message *delivered; /* by the core for this request */
static bool holds;                      /* the client's request is on its way, or its reply not yet read to the end */
static uint8_t number;                  /* of the next continuation on the client's channel */
static uint8_t drawn[PACKET];           /* the reply packet that the client's last packet drew */
static bool has_drawn;                  /* and the client has not read it yet */

/* Every packet on the client's channel: of the run without the stranger, and of the run with it. */
static uint8_t passed[2][MOST_PACKETS][PACKET];
static size_t passed_count[2];

/* How many bytes of the message this packet carries. */
static size_t gather(struct message *message, const uint8_t packet[PACKET])
{
    bool opens = packet[4] >= OPENING;
    size_t from = opens ? OPENING_AT : CONTINUATION_AT;
    size_t part = PACKET - from;

    if (opens) {
        message->length = (size_t)packet[5] << 8 | packet[6];
        message->have = 0;
        if (message->length > LONGEST)
            fail("a packet announces %zu bytes", message->length);
    }
    if (part > message->length - message->have)
        part = message->length - message->have;
    memcpy(message->bytes + message->have, packet + from, part);
    message->have += part;
    return part;
}

/* Broadcast INITs are left out: they carry a fresh nonce and are the same in no two runs. */
static void record(const uint8_t packet[PACKET])
{
    size_t *count = &passed_count[disturbed];

    number = packet[4] >= OPENING ? 0 : (uint8_t)((packet[4] + 1) % OPENING);
    if (channel_at(packet) == BROADCAST)
        return;
    if (*count == MOST_PACKETS)
        fail("over %d packets in one run", MOST_PACKETS);
    memcpy(passed[disturbed][(*count)++], packet, PACKET);
}

/* Full-speed USB takes a packet each millisecond. */
static void between_packets(void)
{
    bench_expect("time 1", "ok");
    if (stranger_came)
        stranger_knocks(holds, number);
}

void usb_begin(const char *name, char *const command[], bool stranger)
{
    client = name;
    bench_command = command;
    disturbed = stranger;
    if (stranger)
        puts("The same while a stranger knocks between all packets:");
    else
        printf("%s alone with the key:\n", client);
    printf("  %-31s bytes out packets bytes in packets  ticket  %s reports\n", "", client);
}

void *usb_open(const char *path)
{
    (void)path;
    bench_start(bench_command);
    holds = has_drawn = stranger_came = false;
    return &traffic; /* anything but NULL */
}

void usb_close(void *handle)
{
    (void)handle;
    bench_stop();
}

int usb_write(void *handle, const unsigned char *report, size_t length)
{
    const uint8_t *packet = report + 1;
    const char *answer;

    (void)handle;
    if (length != 1 + PACKET || report[0] != 0)
        fail("%s writes a report of %zu bytes with number %d", client, length, report[0]);
    between_packets();
    record(packet);
    traffic.packets_out++;
    if (packet[4] != CANCEL) /* it has no bytes, and the request stays what it was */
        traffic.bytes_out += gather(&request, packet);
    if (packet[4] == CBOR || packet[4] == MSG) {
        holds = true;
        delivered = NULL;
    }

    answer = bench_packet(packet);
    if (strncmp(answer, "ok", 2) != 0)
        fail("the key answers `%s` to a packet of %s", answer, client);
    if (sscanf(answer, "ok ticket %" SCNu32, &traffic.ticket) == 1)
        core_is_handed(traffic.ticket);
    has_drawn = reply_in(answer, drawn);
    if (has_drawn) /* an error or a channel: the key is free */
        holds = false;
    if (disturbed && packet[4] == INIT && has_drawn) {
        stranger_comes(drawn);
        stranger_came = true;
    }
    return (int)length;
}

/* The core takes until the client comes to read, so that knocks find the key waiting before and answering after. */
static void core_acts(void)
{
    void (*cancel_this)(void) = cancel;

    cancel = NULL;
    if (cancel_this != NULL) {
        cancel_this();
        core_comes_late();
    } else {
        delivered = core_delivers(&request);
    }
    between_packets();
}

int usb_read(void *handle, unsigned char *packet, size_t length, int timeout)
{
    (void)handle;
    (void)timeout; /* the core has acted: what is not there will not come */
    if (length != PACKET)
        fail("%s reads a report of %zu bytes", client, length);
    between_packets();
    if (core_is_busy())
        core_acts();
    if (has_drawn)
        memcpy(packet, drawn, PACKET);
    else if (!reply_in(bench_ask("fetch"), packet))
        return 0;
    has_drawn = false;
    record(packet);
    traffic.packets_in++;
    traffic.bytes_in += gather(&reply, packet);
    if (packet[4] == INIT || reply.have < reply.length)
        return PACKET;
    holds = false;
    if (delivered != NULL && (reply.length != delivered->length || memcmp(reply.bytes, delivered->bytes, reply.length) != 0))
        fail("the reply to ticket %" PRIu32 " is not what the core delivered", traffic.ticket);
    return PACKET;
}

void usb_cancel_next(void (*by)(void))
{
    cancel = by;
}

void usb_exchange(const char *name, bool handed_on, const char *reported, const char *expected)
{
    printf("  %-31s %9zu %7u %8zu %7u  ", name, traffic.bytes_out, traffic.packets_out, traffic.bytes_in, traffic.packets_in);
    if (traffic.ticket != 0)
        printf("%6" PRIu32, traffic.ticket);
    else
        printf("%6s", "none");
    printf("  %s\n", reported);
    if (strcmp(reported, expected) != 0)
        fail("%s was to report %s", client, expected);
    if ((traffic.ticket != 0) != handed_on)
        fail("the key was %sto hand this on to the core", handed_on ? "" : "not ");
    memset(&traffic, 0, sizeof traffic);
    exchanges++;
}

void usb_report(void)
{
    size_t count = passed_count[0];
    unsigned long knocks;

    puts("What the stranger drew:");
    knocks = stranger_report();
    if (passed_count[1] != count || memcmp(passed[0], passed[1], count * PACKET) != 0)
        fail("with the stranger, the packets of %s are not the same as without", client);
    printf("The %zu packets of %s with the stranger are those without, byte for byte.\n", count, client);
    printf("interop: %s: %u exchanges, %lu knocks, all answered as expected\n", client, exchanges, knocks);
}
