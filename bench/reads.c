/* Checksums, reading batches, and building them. */
#include "bench.h"

#include <stdio.h>
#include <stdlib.h>
#include <string.h>

/* Batches of 16 KiB: 150 records of 100 bytes. A part of them stays in the processor's caches. */
enum { VALUE = 100, RECORDS = 150, BATCHES = 400, PART = 40 };

struct bytes {
    uint8_t *at;
    size_t len;
};

typedef uint32_t crc_of(const uint8_t *, size_t);

struct sum {
    struct bytes bytes;
    crc_of *crc;
    uint32_t wanted;
};

static void take_sum(void *what)
{
    struct sum *sum = what;
    if (sum->crc(sum->bytes.at, sum->bytes.len) != sum->wanted)
        fail("checksums differ");
}

void bench_crc(void)
{
    size_t len = 1 << 20;
    uint8_t *bytes = get_room(len);
    for (size_t i = 0; i < len; i++)
        bytes[i] = (uint8_t)(i * 2654435761u >> 24);
    uint32_t wanted = crc_eight(bytes, len);
    struct sum sums[] = {
        {{bytes, len}, kx_bench_crc32c, wanted},
        {{bytes, len}, crc_sixteen, wanted},
        {{bytes, len}, crc_eight, wanted},
        {{bytes, len}, crc_instruction, wanted},
    };
    struct task tasks[4];
    for (int i = 0; i < 4; i++)
        tasks[i] = (struct task){take_sum, &sums[i], (double)len};
    compare("crc32c / tables of sixteen in C", tasks[0], tasks[1], TURNS, "ns a byte");
    compare("crc32c / tables of eight in C", tasks[0], tasks[2], TURNS, "ns a byte");
    compare("crc32c / the crc32 instruction", tasks[0], tasks[3], TURNS, "ns a byte");
    free(bytes);
}

typedef size_t read_of(const uint8_t *, size_t);

struct reading {
    struct bytes bytes;
    size_t one;
    read_of *read;
};

/* Reads each of some batches of the same length, and looks at how many bytes the values have. */
static void read_all(void *what)
{
    struct reading *reading = what;
    struct bytes bytes = reading->bytes;
    for (size_t at = 0; at < bytes.len; at += reading->one)
        if (reading->read(bytes.at + at, bytes.len - at) != (size_t)RECORDS * VALUE)
            fail("a batch isn't read");
}

/* Runs the interpreter on the file: nanoseconds a record, or 0 without kafka-python. */
static double read_with_kafka_python(const char *path, size_t wanted)
{
    char command[512];
    snprintf(command, sizeof command, "/usr/bin/python3 read_kafka_python.py %s 2> /dev/null",
        path);
    FILE *pipe = popen(command, "r");
    double taken = 0;
    size_t size = 0;
    if (!pipe)
        return 0;
    bool is_read = fscanf(pipe, "%lf %zu", &taken, &size) == 2;
    if (pclose(pipe) != 0 || !is_read)
        return 0;
    if (size != wanted)
        fail("kafka-python reads something else");
    return taken;
}

/* kafka-python's time is the least of its own turns: a process of its own can't take turns here. */
static void tell_kafka_python(const char *path)
{
    double taken = read_with_kafka_python(path, (size_t)RECORDS * VALUE * BATCHES);
    if (taken > 0)
        printf("%28skafka-python reads a record in %.4g ns\n", "", taken);
    else
        printf("%28skafka-python isn't installed, so reading isn't compared with it\n", "");
}

void bench_read(const char *path)
{
    uint8_t *bytes = get_room((size_t)BATCHES * 20000);
    size_t len = 0;
    for (int i = 0; i < BATCHES; i++)
        len += put_batch(bytes + len, RECORDS, VALUE, &no_producer);
    size_t one = len / BATCHES;
    struct reading parts[] = {
        {{bytes, one * PART}, one, kx_bench_read},
        {{bytes, one * PART}, one, parse_once},
        {{bytes, one * PART}, one, parse_twice},
    };
    struct task tasks[3];
    for (int i = 0; i < 3; i++)
        tasks[i] = (struct task){read_all, &parts[i], (double)PART * RECORDS};
    compare("reading / C, each record used as it is checked", tasks[0], tasks[1], TURNS,
        "ns a record of 100 bytes");
    compare("reading / C, records used after all was checked", tasks[0], tasks[2], TURNS,
        "ns a record of 100 bytes");
    FILE *file = fopen(path, "wb");
    if (!file || fwrite(bytes, 1, len, file) != len || fclose(file) != 0)
        fail("can't write the batches");
    tell_kafka_python(path);
    free(bytes);
}

enum { BUILT = 40 };

static void build_own(void *what)
{
    if (kx_bench_build(RECORDS, BUILT) != *(size_t *)what)
        fail("a batch isn't built");
}

/* Into memory of its own for each batch, as the library's. */
static void build_in_c(void *what)
{
    for (int i = 0; i < BUILT; i++) {
        uint8_t *text = get_room(*(size_t *)what);
        if (put_batch(text, RECORDS, VALUE, &no_producer) != *(size_t *)what)
            fail("a batch isn't built");
        free(text);
    }
}

void bench_build(void)
{
    uint8_t *text = get_room(20000);
    size_t len = put_batch(text, RECORDS, VALUE, &no_producer);
    free(text);
    struct task own = {build_own, &len, (double)BUILT * RECORDS};
    struct task other = {build_in_c, &len, (double)BUILT * RECORDS};
    compare("building / C, into room of the right size", own, other, TURNS,
        "ns a record of 100 bytes");
}
