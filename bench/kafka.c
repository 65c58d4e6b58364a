/* Kafka's own Produce in plain C, with the checks of the library's reading: the key and the
 * version, each length and count, and that nothing is left over; and its response, with a frame of
 * its own. */
#include "bench.h"

#include <stdlib.h>
#include <string.h>

/* A batch of 16 KiB: 150 records of 100 bytes. */
enum { RECORDS = 150, VALUE = 100, REQUESTS = 1000 };

enum { PRODUCE = 0, FIRST_VERSION = 3, LAST_VERSION = 4, LONGEST_FRAME = 2097152 };

struct rest {
    const uint8_t *at;
    size_t left;
};

static uint64_t big(const uint8_t *at, int bytes)
{
    uint64_t number = 0;
    for (int i = 0; i < bytes; i++)
        number = number << 8 | at[i];
    return number;
}

static bool take_int16(struct rest *rest, int16_t *number)
{
    if (rest->left < 2)
        return false;
    *number = (int16_t)big(rest->at, 2);
    rest->at += 2;
    rest->left -= 2;
    return true;
}

static bool take_int32(struct rest *rest, int32_t *number)
{
    if (rest->left < 4)
        return false;
    *number = (int32_t)big(rest->at, 4);
    rest->at += 4;
    rest->left -= 4;
    return true;
}

/* So many bytes; null, which is -1, where it may be. */
static bool take_bytes(struct rest *rest, int32_t len, bool nullable, struct rest *bytes)
{
    if (len == -1 && nullable) {
        *bytes = (struct rest){NULL, 0};
        return true;
    }
    if (len < 0 || rest->left < (size_t)len)
        return false;
    *bytes = (struct rest){rest->at, (size_t)len};
    rest->at += len;
    rest->left -= (size_t)len;
    return true;
}

static bool take_string(struct rest *rest, bool nullable, struct rest *string)
{
    int16_t len;
    return take_int16(rest, &len) && take_bytes(rest, len, nullable, string);
}

struct partition {
    int32_t index;
    struct rest records;
};

static bool take_partition(struct rest *rest, struct partition *partition)
{
    int32_t len;
    return take_int32(rest, &partition->index) && take_int32(rest, &len)
        && take_bytes(rest, len, true, &partition->records);
}

/* The count of an array: null isn't one. Its elements are read through, and the first is kept. */
static bool take_topics(struct rest *rest, struct rest *name, struct rest *partitions,
    int32_t *count)
{
    int32_t topics;
    if (!take_int32(rest, &topics) || topics < 0)
        return false;
    for (int32_t i = 0; i < topics; i++) {
        struct rest topic, first;
        int32_t n;
        if (!take_string(rest, false, &topic) || !take_int32(rest, &n) || n < 0)
            return false;
        first = *rest;
        for (int32_t k = 0; k < n; k++) {
            struct partition partition;
            if (!take_partition(rest, &partition))
                return false;
        }
        if (i == 0) {
            *name = topic;
            *partitions = first;
            *count = n;
        }
    }
    return topics > 0;
}

static uint8_t *put_number(uint8_t *out, uint64_t number, int bytes)
{
    for (int i = bytes - 1; i >= 0; i--)
        *out++ = (uint8_t)(number >> (8 * i));
    return out;
}

/* What was written is looked at by others: so no compiler leaves it out. */
static inline void keep(const void *bytes)
{
    __asm__ volatile("" : : "r"(bytes) : "memory");
}

/* The response's frame, in room of the right size. */
static size_t put_response(int32_t correlation, struct rest name, struct rest rest, int32_t count)
{
    size_t len = 4 + 4 + 2 + name.left + 4 + 22 * (size_t)count + 4;
    if (len > LONGEST_FRAME)
        return 0;
    uint8_t *frame = get_room(4 + len), *out = frame;
    out = put_number(out, len, 4);
    out = put_number(out, (uint32_t)correlation, 4);
    out = put_number(out, 1, 4);
    out = put_number(out, name.left, 2);
    memcpy(out, name.at, name.left);
    out = put_number(out + name.left, (uint32_t)count, 4);
    for (int32_t i = 0; i < count; i++) {
        struct partition partition;
        take_partition(&rest, &partition);
        out = put_number(out, (uint32_t)partition.index, 4);
        out = put_number(out, 0, 2);
        out = put_number(out, partition.records.left, 8);
        out = put_number(out, UINT64_MAX, 8);
    }
    out = put_number(out, 0, 4);
    size_t size = (size_t)(out - frame);
    keep(frame);
    free(frame);
    return size;
}

static size_t answer_in_c(const uint8_t *text, size_t len)
{
    struct rest rest = {text, len}, client, txn, name = {NULL, 0}, partitions = {NULL, 0};
    int16_t key, version, acks;
    int32_t correlation, timeout, count = 0;
    if (!take_int16(&rest, &key) || !take_int16(&rest, &version)
        || !take_int32(&rest, &correlation) || key != PRODUCE || version < FIRST_VERSION
        || version > LAST_VERSION || !take_string(&rest, true, &client)
        || !take_string(&rest, true, &txn) || !take_int16(&rest, &acks)
        || !take_int32(&rest, &timeout) || !take_topics(&rest, &name, &partitions, &count)
        || rest.left > 0)
        return 0;
    return put_response(correlation, name, partitions, count);
}

/* A request of version 4 by `rdkafka` for partition 0 of `t`, outside of transactions. */
static size_t put_request(uint8_t *out, const uint8_t *batch, size_t len)
{
    uint8_t *start = out;
    out = put_number(out, PRODUCE, 2);
    out = put_number(out, LAST_VERSION, 2);
    out = put_number(out, 7, 4);
    out = put_number(out, 7, 2);
    memcpy(out, "rdkafka", 7);
    out = put_number(out + 7, UINT16_MAX, 2);
    out = put_number(out, UINT16_MAX, 2);
    out = put_number(out, 30000, 4);
    out = put_number(out, 1, 4);
    out = put_number(out, 1, 2);
    *out++ = 't';
    out = put_number(out, 1, 4);
    out = put_number(out, 0, 4);
    out = put_number(out, len, 4);
    memcpy(out, batch, len);
    return (size_t)(out + len - start);
}

struct request {
    const uint8_t *at;
    size_t len;
    size_t answered;
};

static void answer_own(void *what)
{
    struct request *request = what;
    if (kx_bench_kafka_produce(request->at, request->len, REQUESTS) != REQUESTS * request->answered)
        fail("a request isn't answered");
}

static void answer_other(void *what)
{
    struct request *request = what;
    for (int i = 0; i < REQUESTS; i++)
        if (answer_in_c(request->at, request->len) != request->answered)
            fail("a request isn't answered in C");
}

void bench_kafka(void)
{
    uint8_t *batch = get_room(20000), *text = get_room(20100);
    size_t len = put_batch(batch, RECORDS, VALUE, &no_producer);
    struct request request = {text, put_request(text, batch, len), 45};
    struct task own = {answer_own, &request, REQUESTS}, other = {answer_other, &request, REQUESTS};
    compare("Kafka's Produce of 16 KiB, read and answered / C", own, other, TURNS, "ns a request");
    free(batch);
    free(text);
}
