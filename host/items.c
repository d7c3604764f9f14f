/* CBOR items, as they are written. */

#include "host.h"

#include <string.h>

void text_put(struct text *t, const void *bytes, size_t length)
{
    if (length <= LARGEST - t->length) {
        memcpy(t->out + t->length, bytes, length);
        t->length += length;
    }
}

void text_byte(struct text *t, unsigned byte)
{
    uint8_t one = (uint8_t)byte;

    text_put(t, &one, 1);
}

void text_head(struct text *t, unsigned major, uint32_t number)
{
    unsigned size = number < 24 ? 0 : number < 0x100 ? 1 : number < 0x10000 ? 2 : 4;
    uint8_t wide[4];

    text_byte(t, major << 5 | (size == 0 ? number : size == 4 ? 26 : 23 + size));
    number_to(wide, number);
    text_put(t, wide + 4 - size, size);
}

void text_string(struct text *t, unsigned major, uint32_t length)
{
    uint8_t bytes[LARGEST];

    memset(bytes, 'a' + (int)chance_below(26), length);
    text_head(t, major, length);
    text_put(t, bytes, length);
}

void text_item(struct text *t, unsigned major, unsigned levels)
{
    uint32_t count = levels == 0 ? 0 : chance_below(4);

    if (major <= NEGATIVE) {
        text_head(t, major, chance_one_in(2) ? chance_below(30) : chance_any());
    } else if (major <= TEXT) {
        text_string(t, major, chance_below(40));
    } else if (major == SIMPLE) {
        text_byte(t, 0xf4 + chance_below(4));
    } else {
        text_head(t, major, count);
        for (uint32_t i = 0; i < count; i++) {
            if (major == MAP)
                text_head(t, UNSIGNED, i * 20);
            text_item(t, chance_below(levels > 1 ? MAP + 1 : TEXT + 1), levels - 1);
        }
    }
}

#define ODD(bytes) { bytes, sizeof bytes - 1 }

void text_odd(struct text *t)
{
    static const struct {
        const char *bytes;
        size_t length;
    } odd[] = {
        ODD("\x81\x81\x80"), ODD("\x81\x81\x81\x80"), ODD("\xa1\x00\xa1\x00\xa0"), ODD("\xa1\x00\xa1\x00\xa1\x00\xa0"), /* levels */
        ODD("\x17"), ODD("\x18\x17"), ODD("\x18\x18"), ODD("\x38\x17"), ODD("\x58\x01z"), ODD("\x78\x00"), ODD("\x98\x01\x00"), /* forms */
        ODD("\x19\x00\xff"), ODD("\x1a\x00\x00\xff\xff"), ODD("\x1b\x00\x00\x00\x00\xff\xff\xff\xff"), ODD("\x1c"),
        ODD("\x9f\xff"), ODD("\x5f\xff"), ODD("\xc0\x00"), ODD("\xf3"), ODD("\xf7"), ODD("\xf8\x20"), ODD("\xf9\x00\x00"), /* kinds */
        ODD("\x62\xc3\xa9"), ODD("\x61\xff"), ODD("\x62\xc0\x80"), ODD("\x63\xed\xa0\x80"), ODD("\x62\xe2\x82"), /* texts */
        ODD("\xa2\x00\x00\x01\x00"), ODD("\xa2\x01\x00\x00\x00"), ODD("\xa2\x00\x00\x00\x00"), ODD("\xa2\x60\x00\x20\x00"), /* orders */
        ODD("\xa1\x80\x00"), ODD("\xa1\xf4\x00"), ODD("\xa1\x00"), ODD("\x81"), ODD("\x42z"), ODD(""), ODD("\x00\x00"), /* keys; ends */
        ODD("\x9b\xff\xff\xff\xff\xff\xff\xff\xff"), ODD("\x5b\xff\xff\xff\xff\xff\xff\xff\xff"), /* counts */
    };
    uint32_t which = chance_below(sizeof odd / sizeof odd[0]);

    text_put(t, odd[which].bytes, odd[which].length);
}

void text_damage(struct text *t)
{
    uint32_t which = chance_below(3);

    if (which == 0 && t->length > 0)
        chance_turn_bit(t->out, t->length);
    else if (which == 1)
        t->length = chance_below((uint32_t)t->length + 1);
    else
        text_string(t, BYTES, chance_below(4));
}
