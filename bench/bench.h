/* What the parts of the benchmark share. */
#ifndef BENCH_H
#define BENCH_H

#include <stdbool.h>
#include <stddef.h>
#include <stdint.h>

/* common.c: the time in nanoseconds, the end of a run that can't go on, and memory. */
double now(void);
_Noreturn void fail(const char *what);
void *get_room(size_t len);

/* common.c: prints what a load came to: how many commits or batches were asked for and answered,
 * how many records they had, how many nanoseconds all took, and how many requests were refused at
 * first and asked again. There is a time in nanoseconds for each that was asked for. */
struct load {
    size_t asked;
    size_t records;
    size_t again;
    double taken;
};
void print_load(const struct load *load, double *times);

/* bench.c: something to be timed, and how many pieces of work it does. */
struct task {
    void (*run)(void *what);
    void *what;
    double units;
};

/* Runs two tasks so often, one after the other, each first in every other turn, and prints a line:
 * the ratio of the times of a piece of the first and one of the second, as the median of the turns,
 * with the least and the most; and the median times of a piece. */
void compare(const char *line, struct task own, struct task other, int turns, const char *unit);

/* bench.c: how often a pair is run, unless it takes long. */
enum { TURNS = 61 };

/* reads.c: checksums, reading and building batches. */
void bench_crc(void);
void bench_read(const char *path);
void bench_build(void);

/* logs.c: appending, and reading pages. */
void bench_produce(void);
void bench_growth(void);
void bench_pages(void);

/* pages.c: makes a log of so many transactions in plain C, as kx_bench_pages does, and reads so many
 * committed pages of it: how many records they have. As the library does; by an index with the place
 * of each batch; so, but with two bytes of each batch of a page read first; and with prefetches. */
int64_t pages_in_c(uint64_t transactions, uint64_t pages);
int64_t pages_by_places(uint64_t transactions, uint64_t pages);
int64_t pages_touched(uint64_t transactions, uint64_t pages);
int64_t pages_prefetched(uint64_t transactions, uint64_t pages);

/* serve.c: a stream of frames, through the server of a partition. */
void bench_serve(void);

/* served.c: the memory and the time of a log that is served. */
void bench_served(void);

/* heap.c: counts the bytes of the blocks that the library asks for from now on, until it is asked
 * how many there were after the last; and how many there were at most. */
void heap_count(void);
size_t heap_at_last(void);
size_t heap_most(void);

/* kafka.c: Kafka's own Produce, read and answered. */
void bench_kafka(void);

/* txns.c: transactions of a coordinator. */
void bench_transactions(void);

/* crc.c: CRC-32C by tables, of eight and of sixteen bytes a step, and by the processor's
 * instruction. */
void crc_tables(void);
uint32_t crc_eight(const uint8_t *bytes, size_t len);
uint32_t crc_sixteen(const uint8_t *bytes, size_t len);
uint32_t crc_instruction(const uint8_t *bytes, size_t len);

/* batch.c: the text of a record batch of Kafka's message format, magic 2. */
struct producer {
    int64_t id;
    int16_t epoch;
    int32_t sequence;
    int16_t attributes;
};
extern const struct producer no_producer;
size_t put_batch(uint8_t *out, int records, size_t value_len, const struct producer *producer);

/* parse.c: reading a batch and all its records in plain C, with the same checks as the library's:
 * how many bytes the values have, 0 where the bytes are no batch. In one go, with each record used
 * as it is checked; and after all was checked. */
bool check_batch(const uint8_t *bytes, size_t len);
size_t parse_once(const uint8_t *bytes, size_t len);
size_t parse_twice(const uint8_t *bytes, size_t len);

/* the library: crates/kx_bench */
uint32_t kx_bench_crc32c(const uint8_t *bytes, size_t len);
size_t kx_bench_read(const uint8_t *bytes, size_t len);
size_t kx_bench_build(uint64_t records, uint64_t count);
int64_t kx_bench_produce(const uint8_t *text, size_t len, uint64_t count);
int64_t kx_bench_pages(uint64_t transactions, uint64_t pages);
int64_t kx_bench_serve(const uint8_t *stream, size_t len);
int64_t kx_bench_served(const uint8_t *text, size_t len, uint64_t count, uint64_t pages);
size_t kx_bench_kafka_produce(const uint8_t *text, size_t len, uint64_t count);
int64_t kx_bench_transactions(uint64_t txns, uint64_t turns);

/* The number at the front of bytes that were checked. */
static inline int32_t checked_varint(const uint8_t **at)
{
    uint64_t sum = 0;
    for (int shift = 0;; shift += 7) {
        uint8_t byte = *(*at)++;
        sum |= (uint64_t)(byte & 127) << shift;
        if (byte < 128)
            return (int32_t)(sum >> 1 ^ -(sum & 1));
    }
}

#endif
