/* Random messages for the core: CBOR commands and APDUs. Most are good, and the others are wrong in one way or another. */

#include "host.h"

/* A list that can make a command as long as commands get. */
static void put_list(struct text *t)
{
    uint32_t count = chance_one_in(16) ? chance_below(120) : chance_below(4);

    text_head(t, ARRAY, count);
    for (uint32_t i = 0; i < count; i++)
        text_string(t, BYTES, 64);
}

static void put_hash(struct text *t)
{
    text_string(t, BYTES, chance_one_in(32) ? chance_below(64) : HASH);
}

/* The algorithms: ES256 as a public key, and at times others, which are not taken, or none. */
static void put_algorithms(struct text *t)
{
    uint32_t count = chance_one_in(16) ? 0 : 1 + chance_below(2);

    text_head(t, ARRAY, count);
    for (uint32_t i = 0; i < count; i++) {
        text_head(t, MAP, 2);
        text_put(t, "\x63" "alg", 4);
        text_head(t, NEGATIVE, chance_one_in(8) ? 256 : 6);
        text_put(t, "\x64" "type" "\x6a" "public-key", 16);
    }
}

/* ---- commands */

const struct command commands[2] = {
    { 0x01, 9, 4, 1, 4, { BYTES, MAP, MAP, ARRAY, ARRAY, MAP, MAP, BYTES, UNSIGNED } },
    { 0x02, 7, 2, 2, 0, { TEXT, BYTES, ARRAY, MAP, MAP, BYTES, UNSIGNED } },
};

static void put_value(struct text *t, int which, uint8_t key)
{
    uint8_t kind = commands[which].kinds[key - 1];

    if (chance_one_in(64))
        text_item(t, chance_below(MAP + 1), 3);
    else if (key == commands[which].hash)
        put_hash(t);
    else if (key == commands[which].algorithms)
        put_algorithms(t);
    else if (kind == ARRAY)
        put_list(t);
    else
        text_item(t, kind, 3);
}

static void put_command(struct text *t)
{
    int which = (int)chance_below(2);
    uint8_t count = 0, keys[9];

    for (uint8_t key = 1; key <= commands[which].keys; key++)
        if (key <= commands[which].required ? !chance_one_in(64) : chance_one_in(4))
            keys[count++] = key;
    text_byte(t, commands[which].command);
    text_head(t, MAP, count);
    for (uint8_t i = 0; i < count; i++) {
        text_byte(t, keys[i]);
        put_value(t, which, keys[i]);
    }
}

size_t message_command(uint8_t *out)
{
    struct text t = { out, 0 };

    if (chance_one_in(16))
        text_byte(&t, chance_one_in(4) ? chance_any() & 0xff : 0x04);
    else
        put_command(&t);
    if (chance_one_in(6))
        text_damage(&t);
    return t.length;
}

size_t message_part(int which, uint8_t key, uint8_t *out)
{
    struct text t = { out, 0 };

    put_value(&t, which, key);
    return t.length;
}

/* ---- APDUs: class, instruction, two parameters, 00, two length bytes, the data, and at times two bytes of reply length */

size_t message_apdu(uint8_t *out)
{
    struct text t = { out, 0 };
    uint32_t length = chance_one_in(32) ? chance_below(BQ_MESSAGE_SIZE - 8) : chance_below(120);
    uint8_t header[7] = { 0, (uint8_t)(1 + chance_below(3)), 0, 0, 0, (uint8_t)(length >> 8), (uint8_t)length };
    static const uint8_t zeros[LARGEST];

    header[2] = (uint8_t)chance_any(); /* a parameter, which is not looked at */
    if (chance_one_in(8))
        chance_turn_bit(header, sizeof header);
    text_put(&t, header, sizeof header);
    text_put(&t, zeros, length + (chance_one_in(2) ? 2 : 0));
    if (chance_one_in(8))
        text_damage(&t);
    return t.length;
}
