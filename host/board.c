/*
 * A board for the firmware that README.md shows: USB, clock and core. The USB is standard input and output, as lines of hex: a line in is a
 * packet from the host, a line out one to it. A line `silence N` lets N milliseconds go by without a packet, and a line that begins with #
 * is passed over. At the end of the input the key is unplugged.
 */

#include <inttypes.h>
#include <stddef.h>
#include <stdint.h>
#include <stdio.h>
#include <stdlib.h>
#include <string.h>

enum { PACKET = 64, MSG = 3, CBOR = 16 };

int usb_receive(uint8_t *packet);
void usb_send(const uint8_t *packet);
uint32_t ms_gone(void);
size_t core(uint8_t command, const uint8_t *request, size_t size, uint8_t *answer);

static uint32_t gone;

static void stop(const char *what)
{
    fprintf(stderr, "board: %s\n", what);
    exit(1);
}

int usb_receive(uint8_t *packet)
{
    char line[256];

    do
        if (fgets(line, sizeof line, stdin) == NULL)
            exit(0);
    while (line[0] == '#');
    gone = 1; /* a packet takes a millisecond */
    if (sscanf(line, "silence %" SCNu32, &gone) == 1)
        return 0;
    for (size_t i = 0; i < PACKET; i++)
        if (sscanf(line + 2 * i, "%2" SCNx8, &packet[i]) != 1)
            stop("a line is neither a packet of 64 bytes in hex nor `silence N`");
    return 1;
}

void usb_send(const uint8_t *packet)
{
    for (size_t i = 0; i < PACKET; i++)
        printf("%02x", packet[i]);
    putchar('\n');
}

uint32_t ms_gone(void)
{
    return gone;
}

static size_t answers(uint8_t *answer, const char *bytes, size_t length)
{
    memcpy(answer, bytes, length);
    return length;
}

/*
 * The core knows two requests: CBOR's GetInfo, which it answers with success and a map of versions, extensions, aaguid, options, longest
 * message and transports, and U2F's VERSION, with data and two status bytes.
 */
size_t core(uint8_t command, const uint8_t *request, size_t size, uint8_t *answer)
{
    static const char info[] = "\x00" "\xa6"
        "\x01\x81\x68" "FIDO_2_0"
        "\x02\x81\x6b" "hmac-secret"
        "\x03\x50" "touch key, board"
        "\x04\xa1\x62" "rk" "\xf5"
        "\x05\x19\x1d\xb9"
        "\x09\x81\x63" "usb";
    static const char version[] = "U2F_V2" "\x90\x00";

    if (command == CBOR && size == 1 && request[0] == 0x04)
        return answers(answer, info, sizeof info - 1);
    if (command == MSG && size == 7 && request[1] == 0x03)
        return answers(answer, version, sizeof version - 1);
    stop("the core is handed a request that nobody sent");
    return 0;
}
