/* The stand-in core: it reads the command where the key keeps it, in the message buffer, and delivers an answer with the ticket. */

#include "interop.h"

#include <inttypes.h>
#include <stdio.h>
#include <string.h>

/* Byte 0 of a CBOR command. */
enum { GET_INFO = 0x04, GET_ASSERTION = 0x02 };

/* The status bytes that are the whole answer. */
#define OPERATION_DENIED "\x27"
#define NO_CREDENTIALS "\x2e"

#define AAGUID "touch key, bench"

/* GetInfo's answer: success and a canonical map, over 57 bytes so that it takes continuation packets. */
static const char INFO[] =
    "\x00" "\xaa"
    "\x01" "\x81" "\x68" "FIDO_2_0"                                                /* versions */
    "\x02" "\x83" "\x68" "credBlob" "\x6b" "credProtect" "\x6b" "hmac-secret"      /* extensions */
    "\x03" "\x50" AAGUID
    "\x04" "\xa3" "\x62" "rk" "\xf5" "\x62" "up" "\xf5" "\x64" "plat" "\xf4"       /* options */
    "\x05" "\x19\x1d\xb9"                                                          /* longest message: 7,609 */
    "\x07" "\x18\x80"                                                              /* credentials in a list: 128 */
    "\x08" "\x18\x40"                                                              /* bytes of a credential id: 64 */
    "\x09" "\x81" "\x63" "usb"                                                     /* transports */
    "\x0a" "\x81" "\xa2" "\x63" "alg" "\x26" "\x64" "type" "\x6a" "public-key"     /* algorithms: -7 */
    "\x0e" "\x01";                                                                 /* firmware version */

const uint8_t core_aaguid[16] = AAGUID;

/* An APDU: where its instruction, its first parameter, the number of its data bytes and the data are. */
enum { INSTRUCTION_AT = 1, PARAMETER_AT = 2, LENGTH_AT = 5, DATA_AT = 7 };
enum { REGISTER = 1, AUTHENTICATE = 2, VERSION = 3 };

/* The first parameter of an AUTHENTICATE that only asks whether the handle is known. */
enum { CHECK_ONLY = 7 };

/* The data of REGISTER are two hashes; in AUTHENTICATE the handle follows, after its length. */
enum { HASHES = 64 };

/* The last two bytes of an answer to an APDU. */
#define NO_ERROR "\x90\x00"
#define NOT_TOUCHED "\x69\x85"
#define WRONG_DATA "\x6a\x80"

#define HANDLE "\x22" "a key handle in place of a wrapped"
#define SIGNATURE "a signature that no library looks into, of the usual size: 70 bytes..."

/* The least that can be read as an X.509 certificate: libfido2 tries. */
#define ALGORITHM "\x30\x03\x06\x01\x2a"
#define CERTIFICATE \
    "\x30\x40" "\x30\x36" "\x02\x01\x01" ALGORITHM "\x30\x00" "\x30\x1e\x17\x0d" "260101000000Z" "\x17\x0d" "360101000000Z" "\x30\x00" \
    "\x30\x08" ALGORITHM "\x03\x01\x00" ALGORITHM "\x03\x01\x00"

static const char REGISTRATION[] =
    "\x05" "\x04" "the x of a point, from nowhere.." "the y of a point, from nowhere.." HANDLE CERTIFICATE SIGNATURE NO_ERROR;

/* Touched, the counter at 7, and a signature. */
static const char SIGNED[] = "\x01" "\x00\x00\x00\x07" SIGNATURE NO_ERROR;

static bool busy;
static uint32_t ticket;      /* of the command at hand */
static bool late;
static uint32_t late_ticket; /* of the command that was cancelled */
static unsigned refused_4, refused_5;

void core_is_handed(uint32_t given)
{
    ticket = given;
    busy = true;
}

bool core_is_busy(void)
{
    return busy;
}

static void deliver(uint32_t with, const struct message *reply, const char *answer)
{
    static char line[sizeof "deliver 4294967295 " + 2 * LONGEST];

    write_hex(line + sprintf(line, "deliver %" PRIu32 " ", with), reply->bytes, reply->length);
    bench_expect(line, answer);
}

/* The command as the key shows it: the transaction that waits says of what kind it is, and how many bytes of the message buffer. */
static unsigned read_command(struct message *command)
{
    const char *waiting = strstr(bench_ask("show"), " waiting ");
    unsigned kind;

    if (waiting == NULL || sscanf(waiting, " waiting %*u %u %zu", &kind, &command->length) != 2 || command->length > LONGEST)
        fail("the key reports ticket %" PRIu32 " but shows no command that waits", ticket);
    bench_more(); /* the reply buffer */
    if (read_hex(bench_more() + strlen("message "), command->bytes, command->length) != command->length)
        fail("the key shows a message buffer shorter than the command in it");
    return kind;
}

static void put(struct message *reply, const char *bytes, size_t length)
{
    memcpy(reply->bytes, bytes, length);
    reply->length = length;
}
/* The constant without the zero at its end. */
#define PUT(reply, constant) put(reply, constant, sizeof constant - 1)

static void answer_cbor(uint8_t command, struct message *reply)
{
    if (command == GET_INFO)
        PUT(reply, INFO);
    else if (command == GET_ASSERTION)
        PUT(reply, NO_CREDENTIALS);
    else
        PUT(reply, OPERATION_DENIED);
}

/* The finger comes when it is asked for the second time: clients of U2F ask until it does. */
static bool is_touched(void)
{
    static bool asked;

    asked = !asked;
    return !asked;
}

static void answer_apdu(const uint8_t apdu[LONGEST], struct message *reply)
{
    size_t length = (size_t)apdu[LENGTH_AT] << 8 | apdu[LENGTH_AT + 1];
    bool registers = apdu[INSTRUCTION_AT] == REGISTER && length == HASHES;
    bool signs = apdu[INSTRUCTION_AT] == AUTHENTICATE && length == HASHES + sizeof HANDLE - 1
                 && memcmp(apdu + DATA_AT + HASHES, HANDLE, sizeof HANDLE - 1) == 0;

    if (apdu[INSTRUCTION_AT] == VERSION)
        PUT(reply, "U2F_V2" NO_ERROR);
    else if (!registers && !signs)
        PUT(reply, WRONG_DATA);
    else if (apdu[PARAMETER_AT] == CHECK_ONLY || !is_touched())
        PUT(reply, NOT_TOUCHED);
    else if (registers)
        PUT(reply, REGISTRATION);
    else
        PUT(reply, SIGNED);
}

const struct message *core_delivers(const struct message *sent)
{
    static struct message command, reply;
    unsigned kind = read_command(&command);

    if (command.length != sent->length || memcmp(command.bytes, sent->bytes, sent->length) != 0)
        fail("the command with ticket %" PRIu32 " is not the one that the client sent", ticket);
    if (kind + OPENING == MSG)
        answer_apdu(command.bytes, &reply);
    else
        answer_cbor(command.bytes[0], &reply);
    if (late) {
        deliver(late_ticket, &reply, "refused 5");
        refused_5++;
        late = false;
    }
    deliver(ticket, &reply, "ok");
    busy = false;
    return &reply;
}

void core_comes_late(void)
{
    static const struct message yes = { .length = 1 };

    deliver(ticket, &yes, "refused 4");
    refused_4++;
    late_ticket = ticket;
    late = true;
    busy = false;
}

void core_report(void)
{
    printf("  %-42s %4u times: refused with 4\n", "while the key answers the CANCEL", refused_4);
    printf("  %-42s %4u times: refused with 5\n", "while the client's next request waits", refused_5);
}
