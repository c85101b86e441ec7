// The floor: what reading and writing cost in plain C, over the flat form of crates/ffi and with every check of plain mode. A
// refusal has the number of docs/REFUSALS.md. Nothing is judged before the first number or byte is put, so that a refused call
// leaves some of them behind.
#include <stddef.h>
#include <stdint.h>
#include <string.h>

enum { HEAD = 11, MOST_OPTIONS = 128, MOST_NUMBER = 65535, MOST_READ = 65535, MOST_WRITTEN = 65804, MOST_BYTES = 70000 };
enum { HEADER = 1, TOKEN = 2, DELTA = 3, LENGTH = 4, MANY = 6, TOO_LONG = 10, BAD = 11, NO_ROOM = 12 };

// Put into each caller, so that a walk stays in registers.
#define HOT static inline __attribute__((always_inline))

static const uint64_t REFUSED = (uint64_t)1 << 32;

struct walk {
    const uint8_t *bytes;
    size_t len, at;
    uint32_t number, start, size;
};

// A delta or a length with its extension.
HOT int extended(struct walk *w, uint32_t *value, int over)
{
    if (*value < 13)
        return 0;
    if (*value == 13) {
        if (w->len - w->at < 1)
            return LENGTH;
        *value = 13 + w->bytes[w->at++];
        return 0;
    }
    if (*value == 15)
        return over;
    if (w->len - w->at < 2)
        return LENGTH;
    *value = 269 + (w->bytes[w->at] << 8 | w->bytes[w->at + 1]);
    w->at += 2;
    return *value > MOST_READ ? over : 0;
}

// The header and the token.
HOT int opened(struct walk *w)
{
    if (w->len > MOST_BYTES)
        return TOO_LONG;
    if (w->len < 4)
        return HEADER;
    w->at = 4 + (w->bytes[0] & 15);
    return w->at > 12 || w->len < w->at ? TOKEN : 0;
}

HOT int more(const struct walk *w)
{
    return w->at < w->len && w->bytes[w->at] != 0xFF;
}

// The next option, where there is one more.
HOT int option(struct walk *w)
{
    uint8_t byte = w->bytes[w->at++];
    uint32_t delta = byte >> 4, size = byte & 15;
    int refused;
    if ((refused = extended(w, &delta, DELTA)) || (refused = extended(w, &size, LENGTH)))
        return refused;
    w->number += delta;
    if (w->number > MOST_NUMBER)
        return DELTA;
    if (w->len - w->at < size)
        return LENGTH;
    w->start = w->at;
    w->size = size;
    w->at += size;
    return 0;
}

// The flat form of a datagram; 0, or a refusal.
uint32_t floor_read(const uint8_t *bytes, size_t len, uint32_t *out, size_t room)
{
    struct walk w = { .bytes = bytes, .len = len };
    uint32_t count = 0;
    int refused = opened(&w);
    if (refused)
        return refused;
    while (more(&w)) {
        if ((refused = option(&w)))
            return refused;
        if (count == MOST_OPTIONS)
            return MANY;
        if (room < HEAD + 4 * (count + 1))
            return NO_ROOM;
        uint32_t *record = out + HEAD + 4 * count++;
        record[0] = w.number;
        record[1] = 0;
        record[2] = w.start;
        record[3] = w.size;
    }
    if (room < HEAD)
        return NO_ROOM;
    size_t payload = w.at < len ? w.at + 1 : len;
    out[0] = bytes[0] >> 6;
    out[1] = bytes[0] >> 4 & 3;
    out[2] = bytes[1];
    out[3] = bytes[2] << 8 | bytes[3];
    out[4] = 0;
    out[5] = 4;
    out[6] = bytes[0] & 15;
    out[7] = 0;
    out[8] = payload;
    out[9] = len - payload;
    out[10] = count;
    return 0;
}

// The sum of the numbers, starts and lengths of all options, and of start and length of the payload, by a walk that keeps nothing;
// or 4294967296 and a refusal.
uint64_t floor_walk(const uint8_t *bytes, size_t len)
{
    struct walk w = { .bytes = bytes, .len = len };
    uint64_t sum = 0;
    uint32_t count = 0;
    int refused = opened(&w);
    if (refused)
        return REFUSED + refused;
    while (more(&w)) {
        if ((refused = option(&w)))
            return REFUSED + refused;
        if (count++ == MOST_OPTIONS)
            return REFUSED + MANY;
        sum += (uint64_t)w.number + w.start + w.size;
    }
    size_t payload = w.at < len ? w.at + 1 : len;
    return sum + payload + (len - payload);
}

struct store {
    const uint8_t *bytes;
    size_t len;
};

// The bytes of a home, a start and a length; NULL where they are not inside their store.
HOT const uint8_t *part(const struct store *stores, const uint32_t *range)
{
    if (range[0] > 1 || (uint64_t)range[1] + range[2] > stores[range[0]].len)
        return NULL;
    return stores[range[0]].bytes + range[1];
}

HOT uint8_t nibble(uint32_t value)
{
    return value < 13 ? value : value < 269 ? 13 : 14;
}

HOT uint8_t *put_extension(uint8_t *at, uint32_t value)
{
    if (value >= 269) {
        *at++ = (value - 269) >> 8;
        *at++ = value - 269;
    } else if (value >= 13) {
        *at++ = value - 13;
    }
    return at;
}

// The bytes of a flat form; how many, or 4294967296 and a refusal.
uint64_t floor_write(const uint32_t *packet, size_t numbers, const uint8_t *datagram, size_t len, const uint8_t *edits,
                     size_t edited, uint8_t *out, size_t room)
{
    const struct store stores[2] = { { datagram, len }, { edits, edited } };
    if (len > MOST_BYTES || edited > MOST_BYTES)
        return REFUSED + TOO_LONG;
    if (numbers < HEAD || packet[0] > 3 || packet[1] > 3 || packet[2] > 255 || packet[3] > 65535 || packet[6] > 15)
        return REFUSED + BAD;
    uint32_t count = packet[10];
    if (count > MOST_OPTIONS || numbers < HEAD + 4 * count)
        return REFUSED + BAD;
    const uint8_t *token = part(stores, packet + 4), *payload = part(stores, packet + 7);
    if (!token || !payload)
        return REFUSED + BAD;
    if (room < 4 + packet[6])
        return REFUSED + NO_ROOM;
    out[0] = packet[0] << 6 | packet[1] << 4 | packet[6];
    out[1] = packet[2];
    out[2] = packet[3] >> 8;
    out[3] = packet[3];
    memcpy(out + 4, token, packet[6]);
    uint8_t *at = out + 4 + packet[6], *end = out + room;
    uint32_t before = 0;
    for (const uint32_t *record = packet + HEAD; record < packet + HEAD + 4 * count; record += 4) {
        uint32_t number = record[0], size = record[3];
        const uint8_t *value = part(stores, record + 1);
        if (!value || number < before || number > MOST_NUMBER || size > MOST_WRITTEN)
            return REFUSED + BAD;
        if ((size_t)(end - at) < 5 + (size_t)size)
            return REFUSED + NO_ROOM;
        *at++ = nibble(number - before) << 4 | nibble(size);
        at = put_extension(put_extension(at, number - before), size);
        memcpy(at, value, size);
        at += size;
        before = number;
    }
    if (packet[9] == 0 || packet[2] == 0)
        return at - out;
    if ((size_t)(end - at) < 1 + (size_t)packet[9])
        return REFUSED + NO_ROOM;
    *at++ = 0xFF;
    memcpy(at, payload, packet[9]);
    return at + packet[9] - out;
}
