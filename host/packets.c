/* How a message is cut into packets, by document 01. */

#include "host.h"

#include <string.h>

uint32_t packets_needed(uint32_t size)
{
    return size <= FIRST_PAYLOAD ? 1 : 1 + (size - FIRST_PAYLOAD + LATER_PAYLOAD - 1) / LATER_PAYLOAD;
}

void packet_of(uint8_t packet[BQ_PACKET_SIZE], uint32_t channel, uint8_t command, const uint8_t *message, uint32_t size, uint32_t index)
{
    uint32_t begins = index == 0 ? 0 : FIRST_PAYLOAD + (index - 1) * LATER_PAYLOAD;
    uint32_t header = index == 0 ? 7 : 5, carried = BQ_PACKET_SIZE - header;

    memset(packet, 0, BQ_PACKET_SIZE);
    number_to(packet, channel);
    if (index == 0) {
        packet[4] = (uint8_t)(0x80 | command);
        packet[5] = (uint8_t)(size >> 8);
        packet[6] = (uint8_t)size;
    } else {
        packet[4] = (uint8_t)(index - 1);
    }
    memcpy(packet + header, message + begins, size - begins < carried ? size - begins : carried);
}
