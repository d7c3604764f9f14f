/*
 * A desk for the request that include/bellaqsum_viewer.h shows: the key is plugged in, with a core that knows one answer. What is sent to
 * the key, and what is found in its reply, is printed.
 */

#include "bellaqsum.h"

#include <stdio.h>
#include <string.h>

void usb_send(const uint8_t *packet);
int usb_receive(uint8_t *packet);
void found(const uint8_t *key, size_t key_size, const uint8_t *value, size_t value_size);
int ask(uint32_t channel, const uint8_t hash[32]);

static uint8_t block[BQ_BLOCK_SIZE], reply[BQ_PACKET_SIZE], message[BQ_MESSAGE_SIZE];

static void print_bytes(const char *name, const uint8_t *bytes, size_t size)
{
    printf("%s ", name);
    for (size_t i = 0; i < size; i++)
        printf("%02x", bytes[i]);
    putchar('\n');
}

/* The core answers with success and a map of credential, authenticator data and signature, cut short to what takes two packets. */
static void core(uint32_t ticket)
{
    static const char answer[] = "\x00" "\xa3"
        "\x01\xa2\x62" "id" "\x44" "abcd" "\x64" "type" "\x6a" "public-key"
        "\x02\x58\x18" "authenticator data, cut."
        "\x03\x46" "signed";

    print_bytes("the core is handed", message, bq_request_size(block));
    bq_deliver(block, sizeof block, ticket, (const uint8_t *)answer, sizeof answer - 1, message, sizeof message);
}

void usb_send(const uint8_t *packet)
{
    uint64_t word = bq_packet(block, sizeof block, packet, BQ_PACKET_SIZE, reply, sizeof reply, message, sizeof message);

    print_bytes("sent", packet, BQ_PACKET_SIZE);
    if (bq_ticketed(word))
        core(bq_ticket(word));
}

int usb_receive(uint8_t *packet)
{
    return bq_replied(bq_fetch(block, sizeof block, packet, BQ_PACKET_SIZE, message, sizeof message));
}

void found(const uint8_t *key, size_t key_size, const uint8_t *value, size_t value_size)
{
    print_bytes("key", key, key_size);
    print_bytes("value", value, value_size);
}

int main(void)
{
    static const uint8_t init[BQ_PACKET_SIZE] = { 0xff, 0xff, 0xff, 0xff, 0x86, 0, 8, 1, 2, 3, 4, 5, 6, 7, 8 };
    uint8_t hash[32];

    bq_fresh(block, sizeof block);
    bq_packet(block, sizeof block, init, sizeof init, reply, sizeof reply, message, sizeof message);
    memset(hash, 'h', sizeof hash);
    printf("asked: %d\n", ask(1, hash));
    return 0;
}
