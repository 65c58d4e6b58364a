/* Streams of frames through the server of a partition: batches that it appends, and pages. */
#include "bench.h"

#include <stdlib.h>
#include <string.h>

/* A batch of 16 KiB: 150 records of 100 bytes. Pages have up to 1 MiB. */
enum { RECORDS = 150, VALUE = 100, PRODUCES = 1000, FETCHES = 500, FETCHED_BATCHES = 64 };

enum { PAGE = 1 << 20, FRAME_ROOM = 20100, SERVE_TURNS = 9 };

static uint8_t *put_number(uint8_t *out, uint64_t number, int bytes)
{
    for (int i = bytes - 1; i >= 0; i--)
        *out++ = (uint8_t)(number >> (8 * i));
    return out;
}

/* Produce by client 1: the kind 5, client and correlation, no transactional id, partition 0, and
 * the batch. */
static uint8_t *put_produce(uint8_t *out, const uint8_t *text, size_t len)
{
    out = put_number(out, 16 + len, 4);
    out = put_number(out, 5, 1);
    out = put_number(out, 1, 4);
    out = put_number(out, 1, 4);
    out = put_number(out, 0, 1);
    out = put_number(out, 0, 2);
    out = put_number(out, len, 4);
    memcpy(out, text, len);
    return out + len;
}

/* Fetch by client 1: the kind 11, client and correlation, partition 0, from offset 0, so many
 * bytes, of all records. */
static uint8_t *put_fetch(uint8_t *out)
{
    out = put_number(out, 24, 4);
    out = put_number(out, 11, 1);
    out = put_number(out, 1, 4);
    out = put_number(out, 1, 4);
    out = put_number(out, 0, 2);
    out = put_number(out, 0, 8);
    out = put_number(out, PAGE, 4);
    return put_number(out, 0, 1);
}

struct stream {
    const uint8_t *at;
    size_t len;
    int64_t answered;
};

static void serve(void *what)
{
    struct stream *stream = what;
    stream->answered = kx_bench_serve(stream->at, stream->len);
    if (stream->answered < 0)
        fail("a stream isn't served");
}

struct copies {
    uint8_t *from;
    uint8_t *to;
    size_t len;
};

/* Copies so many bytes, a page at a time. */
static void copy(void *what)
{
    struct copies *copies = what;
    for (size_t done = 0; done < copies->len; done += PAGE) {
        copies->from[0]++;
        memcpy(copies->to, copies->from, PAGE);
        if (copies->to[PAGE / 2] != 1)
            fail("a copy differs");
    }
}

/* Serves a stream of so many frames beside a copy of as many bytes as it sends or is answered. */
static void compare_stream(const char *line, struct stream stream, size_t len, size_t frames)
{
    struct copies copies = {get_room(PAGE), get_room(PAGE), len};
    memset(copies.from, 1, PAGE);
    memset(copies.to, 1, PAGE);
    struct task own = {serve, &stream, (double)frames}, other = {copy, &copies, (double)frames};
    compare(line, own, other, SERVE_TURNS, "ns a frame");
    free(copies.from);
    free(copies.to);
}

void bench_serve(void)
{
    uint8_t *text = get_room(20000);
    size_t len = put_batch(text, RECORDS, VALUE, &no_producer);
    uint8_t *bytes = get_room((size_t)PRODUCES * FRAME_ROOM);

    uint8_t *end = bytes;
    for (int i = 0; i < PRODUCES; i++)
        end = put_produce(end, text, len);
    struct stream produces = {bytes, (size_t)(end - bytes), 0};
    compare_stream("serving Produce of 16 KiB / a copy", produces, produces.len, PRODUCES);

    end = bytes;
    for (int i = 0; i < FETCHED_BATCHES; i++)
        end = put_produce(end, text, len);
    for (int i = 0; i < FETCHES; i++)
        end = put_fetch(end);
    struct stream fetches = {bytes, (size_t)(end - bytes), 0};
    serve(&fetches);
    compare_stream("serving Fetch of 1 MiB / a copy", fetches, (size_t)fetches.answered, FETCHES);
    free(bytes);
    free(text);
}
