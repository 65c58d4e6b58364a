/* Record batches, written by hand from Kafka's message format: an input that the library didn't make. */
#include "bench.h"

#include <string.h>

const struct producer no_producer = {-1, -1, -1, 0};

static uint8_t *put_big(uint8_t *out, uint64_t number, int bytes)
{
    for (int i = bytes - 1; i >= 0; i--)
        *out++ = (uint8_t)(number >> (8 * i));
    return out;
}

static uint8_t *put_varint(uint8_t *out, int32_t number)
{
    uint32_t zigzag = (uint32_t)number << 1 ^ (uint32_t)(number >> 31);
    for (; zigzag >= 128; zigzag >>= 7)
        *out++ = (uint8_t)(zigzag | 128);
    *out++ = (uint8_t)zigzag;
    return out;
}

/* A record without key and headers, whose value is `len` bytes of its number. */
static uint8_t *put_record(uint8_t *out, int at, size_t len)
{
    uint8_t body[32];
    uint8_t *end = body;
    *end++ = 0;
    end = put_varint(end, 0);
    end = put_varint(end, at);
    end = put_varint(end, -1);
    end = put_varint(end, (int32_t)len);
    size_t front = (size_t)(end - body);
    out = put_varint(out, (int32_t)(front + len + 1));
    memcpy(out, body, front);
    out += front;
    memset(out, at & 0x7F, len);
    out += len;
    return put_varint(out, 0);
}

size_t put_batch(uint8_t *out, int records, size_t value_len, const struct producer *producer)
{
    uint8_t *end = out + 21;
    end = put_big(end, (uint16_t)producer->attributes, 2);
    end = put_big(end, (uint32_t)(records - 1), 4);
    end = put_big(end, 0, 8);
    end = put_big(end, 0, 8);
    end = put_big(end, (uint64_t)producer->id, 8);
    end = put_big(end, (uint16_t)producer->epoch, 2);
    end = put_big(end, (uint32_t)producer->sequence, 4);
    end = put_big(end, (uint32_t)records, 4);
    for (int at = 0; at < records; at++)
        end = put_record(end, at, value_len);
    size_t len = (size_t)(end - out);
    put_big(out, 0, 8);
    put_big(out + 8, len - 12, 4);
    put_big(out + 12, 0, 4);
    out[16] = 2;
    put_big(out + 17, crc_sixteen(out + 21, len - 21), 4);
    return len;
}
