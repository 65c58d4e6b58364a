/* Reading a record batch in plain C, with the checks of the library's reading: its length, magic,
 * checksum and attributes, and each field of each record and of its headers. */
#include "bench.h"

#include <stdbool.h>

enum { BATCH_LIMIT = 1048588, RECORDS_AT = 61 };

/* A key or a value: null has no place. */
struct field {
    const uint8_t *at;
    size_t len;
};

struct record {
    int8_t attributes;
    int64_t timestamp_delta;
    int32_t offset_delta;
    struct field key;
    struct field value;
    int32_t headers;
    const uint8_t *headers_at;
};

/* The bytes that are left to read. */
struct rest {
    const uint8_t *at;
    const uint8_t *end;
};

static uint64_t big(const uint8_t *at, int bytes)
{
    uint64_t number = 0;
    for (int i = 0; i < bytes; i++)
        number = number << 8 | at[i];
    return number;
}

/* The groups at the front, of which there may be `most`, the last of them up to `top`. */
static inline bool take_groups(struct rest *rest, int most, uint8_t top, uint64_t *bits)
{
    uint64_t sum = 0;
    for (int i = 0; i < most; i++) {
        if (rest->at == rest->end)
            return false;
        uint8_t byte = *rest->at++;
        if (i == most - 1 && byte > top)
            return false;
        sum |= (uint64_t)(byte & 127) << (7 * i);
        if (byte < 128) {
            *bits = sum;
            return true;
        }
    }
    return false;
}

static inline bool take_varint(struct rest *rest, int32_t *number)
{
    uint64_t bits;
    if (!take_groups(rest, 5, 15, &bits))
        return false;
    *number = (int32_t)(bits >> 1 ^ -(bits & 1));
    return true;
}

static inline bool take_varlong(struct rest *rest, int64_t *number)
{
    uint64_t bits;
    if (!take_groups(rest, 10, 1, &bits))
        return false;
    *number = (int64_t)(bits >> 1 ^ -(bits & 1));
    return true;
}

/* A length and so many bytes, or -1 for null, which has no place. */
static inline bool take_nullable(struct rest *rest, struct field *field)
{
    int32_t len;
    if (!take_varint(rest, &len))
        return false;
    if (len == -1) {
        *field = (struct field){NULL, 0};
        return true;
    }
    if (len < 0 || rest->end - rest->at < len)
        return false;
    *field = (struct field){rest->at, (size_t)len};
    rest->at += len;
    return true;
}

static inline bool are_headers(struct rest rest, int32_t count)
{
    for (int32_t i = 0; i < count; i++) {
        struct field key, value;
        if (!take_nullable(&rest, &key) || !key.at || !take_nullable(&rest, &value))
            return false;
    }
    return rest.at == rest.end;
}

/* The record at the front, with all its fields, which its length says to the byte. */
static inline bool take_record(struct rest *rest, struct record *record)
{
    int32_t len;
    if (!take_varint(rest, &len) || len < 0 || rest->end - rest->at < len)
        return false;
    struct rest body = {rest->at, rest->at + len};
    rest->at = body.end;
    if (body.at == body.end)
        return false;
    record->attributes = (int8_t)*body.at++;
    if (!take_varlong(&body, &record->timestamp_delta)
        || !take_varint(&body, &record->offset_delta) || !take_nullable(&body, &record->key)
        || !take_nullable(&body, &record->value) || !take_varint(&body, &record->headers)
        || record->headers < 0)
        return false;
    record->headers_at = body.at;
    return are_headers(body, record->headers);
}

/* The batch at the front, but for its records. */
static bool take_batch(const uint8_t *bytes, size_t len, struct rest *records, uint32_t *count)
{
    if (len < 12)
        return false;
    int32_t behind = (int32_t)big(bytes + 8, 4);
    if (behind < 49 || behind > BATCH_LIMIT - 12 || len - 12 < (size_t)behind)
        return false;
    const uint8_t *end = bytes + 12 + behind;
    if (bytes[16] != 2 || crc_sixteen(bytes + 21, (size_t)(end - bytes) - 21) != big(bytes + 17, 4)
        || (big(bytes + 21, 2) & 7) != 0)
        return false;
    int32_t n = (int32_t)big(bytes + 57, 4);
    if (n <= 0 || (int32_t)big(bytes + 23, 4) != n - 1)
        return false;
    *records = (struct rest){bytes + RECORDS_AT, end};
    *count = (uint32_t)n;
    return true;
}

size_t parse_once(const uint8_t *bytes, size_t len)
{
    struct rest rest;
    uint32_t count;
    if (!take_batch(bytes, len, &rest, &count))
        return 0;
    size_t total = 0;
    for (uint32_t at = 0; at < count; at++) {
        struct record record;
        if (!take_record(&rest, &record) || record.offset_delta != (int64_t)at)
            return 0;
        total += record.value.len;
    }
    return rest.at == rest.end ? total : 0;
}

bool check_batch(const uint8_t *bytes, size_t len)
{
    struct rest rest;
    uint32_t count;
    if (!take_batch(bytes, len, &rest, &count))
        return false;
    for (uint32_t at = 0; at < count; at++) {
        struct record record;
        if (!take_record(&rest, &record) || record.offset_delta != (int64_t)at)
            return false;
    }
    return rest.at == rest.end;
}

size_t parse_twice(const uint8_t *bytes, size_t len)
{
    if (!check_batch(bytes, len))
        return 0;
    size_t total = 0;
    uint32_t count = (uint32_t)big(bytes + 57, 4);
    const uint8_t *record = bytes + RECORDS_AT;
    for (uint32_t i = 0; i < count; i++) {
        int32_t size = checked_varint(&record);
        const uint8_t *at = record + 1;
        checked_varint(&at);
        checked_varint(&at);
        int32_t key = checked_varint(&at);
        at += key > 0 ? key : 0;
        int32_t value = checked_varint(&at);
        total += value > 0 ? (size_t)value : 0;
        record += size;
    }
    return total;
}
