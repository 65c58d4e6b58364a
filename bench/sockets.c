/* A load for `kx_main serve`.
 *
 *     sockets PORT CONNECTIONS TRANSACTIONS RECORDS
 *     sockets PORT CONNECTIONS BATCHES RECORDS idempotent
 *
 * Each connection is a thread with a transactional id of its own. A transaction is a Produce of a
 * batch of so many records of 100 bytes, to one partition after the other, and an EndTxn that
 * commits; each is asked when the one before was answered, and times are those of EndTxn. A Produce
 * that comes while the markers of the transaction before are on their way is answered 51; it is
 * asked again at once. Idempotent batches have no transaction, five of a connection wait for their
 * answers at a time, and times are those of Produce. Any other answer ends the run. */
#include "bench.h"

#include <arpa/inet.h>
#include <netinet/tcp.h>
#include <pthread.h>
#include <stdio.h>
#include <stdlib.h>
#include <string.h>
#include <sys/socket.h>
#include <unistd.h>

enum { PARTITIONS = 4, VALUE = 100, IN_FLIGHT = 5, TIMEOUT_MILLIS = 60000 };

/* What a batch has at most beside its values. */
enum { BATCH_HEAD = 61, RECORD_HEAD = 20, FRAME_HEAD = 64, MOST_RECORDS = 8000 };

enum { NO_ATTRIBUTES = 0, TRANSACTIONAL = 0x10 };

/* Kinds of frames, a reply's being one above its request's; how many bytes each reply to these has
 * behind its length; and codes. */
enum { INIT = 1, END = 3, PRODUCE = 5 };
enum { REPLY = 21 };
enum { NONE = 0, CONCURRENT_TRANSACTIONS = 51 };

struct client {
    int socket;
    uint32_t number, correlation;
    char txn[32];
    int64_t id;
    int16_t epoch;
    int32_t sequences[PARTITIONS];
    size_t asked, again;
    double *times;
    uint8_t *frame;
    /* what was read and not yet taken */
    uint8_t input[4096];
    size_t at, end;
};

/* The fields of a reply that there are; a reply to a Produce has no id and no epoch. */
struct reply {
    int16_t code, epoch;
    int64_t id;
};

static uint16_t port;
static int records;
static int is_idempotent;
static pthread_barrier_t ready;

static uint8_t *put(uint8_t *out, uint64_t number, int bytes)
{
    for (int i = bytes - 1; i >= 0; i--)
        *out++ = (uint8_t)(number >> (8 * i));
    return out;
}

static uint64_t get(const uint8_t *bytes, int count)
{
    uint64_t number = 0;
    for (int i = 0; i < count; i++)
        number = number << 8 | bytes[i];
    return number;
}

static uint8_t *put_text(uint8_t *out, const char *text)
{
    size_t len = strlen(text);
    *out++ = (uint8_t)len;
    memcpy(out, text, len);
    return out + len;
}

static void dial(struct client *it)
{
    struct sockaddr_in address = {.sin_family = AF_INET, .sin_port = htons(port)};
    address.sin_addr.s_addr = htonl(INADDR_LOOPBACK);
    int yes = 1;
    it->socket = socket(AF_INET, SOCK_STREAM, 0);
    if (it->socket < 0 || connect(it->socket, (struct sockaddr *)&address, sizeof address) != 0
        || setsockopt(it->socket, IPPROTO_TCP, TCP_NODELAY, &yes, sizeof yes) != 0)
        fail("can't connect");
}

/* The front of a frame of a kind, and the numbers of client and request. */
static uint8_t *begin_frame(struct client *it, int kind)
{
    uint8_t *out = put(it->frame + 4, (uint64_t)kind, 1);
    out = put(out, it->number, 4);
    return put(out, ++it->correlation, 4);
}

static void send_frame(struct client *it, const uint8_t *end)
{
    size_t len = (size_t)(end - it->frame);
    put(it->frame, len - 4, 4);
    for (size_t sent = 0; sent < len;) {
        ssize_t count = send(it->socket, it->frame + sent, len - sent, MSG_NOSIGNAL);
        if (count <= 0)
            fail("the server hung up on a request");
        sent += (size_t)count;
    }
}

/* The next bytes that come, as many as there are said to be: few. */
static const uint8_t *take(struct client *it, size_t len)
{
    if (it->end - it->at < len) {
        memmove(it->input, it->input + it->at, it->end - it->at);
        it->end -= it->at;
        it->at = 0;
    }
    while (it->end - it->at < len) {
        ssize_t count = recv(it->socket, it->input + it->end, sizeof it->input - it->end, 0);
        if (count <= 0)
            fail("the server hung up before a reply");
        it->end += (size_t)count;
    }
    it->at += len;
    return it->input + it->at - len;
}

/* The reply to the request of this kind and number. */
static struct reply await(struct client *it, int kind, uint32_t correlation)
{
    size_t len = get(take(it, 4), 4);
    if (len != REPLY)
        fail("a reply has another length");
    const uint8_t *body = take(it, len);
    if (body[0] != kind + 1 || get(body + 1, 4) != it->number || get(body + 5, 4) != correlation)
        fail("a reply to something else");
    if (kind == PRODUCE)
        return (struct reply){.code = (int16_t)get(body + 11, 2)};
    return (struct reply){.code = (int16_t)get(body + 9, 2), .id = (int64_t)get(body + 11, 8),
        .epoch = (int16_t)get(body + 19, 2)};
}

static _Noreturn void refused(const char *what, int16_t code)
{
    char text[64];
    snprintf(text, sizeof text, "%s is answered %d", what, code);
    fail(text);
}

/* The id and the epoch that a reply gives. */
static void take_id(struct client *it, const char *what, struct reply reply)
{
    if (reply.code != NONE)
        refused(what, reply.code);
    it->id = reply.id;
    it->epoch = reply.epoch;
}

static void init(struct client *it)
{
    uint8_t *out = put_text(begin_frame(it, INIT), it->txn);
    send_frame(it, put(out, TIMEOUT_MILLIS, 4));
    take_id(it, "InitProducerId", await(it, INIT, it->correlation));
}

static void send_batch(struct client *it, int partition, int32_t sequence, int16_t attributes)
{
    struct producer producer = {it->id, it->epoch, sequence, attributes};
    uint8_t *out = put_text(begin_frame(it, PRODUCE), it->txn);
    out = put(out, (uint64_t)partition, 2);
    size_t len = put_batch(out + 4, records, VALUE, &producer);
    put(out, len, 4);
    send_frame(it, out + 4 + len);
}

/* Produces one batch, as the first of a transaction. */
static void open_transaction(struct client *it, int partition)
{
    for (;;) {
        send_batch(it, partition, 0, TRANSACTIONAL);
        struct reply reply = await(it, PRODUCE, it->correlation);
        if (reply.code == NONE)
            return;
        if (reply.code != CONCURRENT_TRANSACTIONS)
            refused("Produce", reply.code);
        it->again++;
    }
}

static void commit(struct client *it)
{
    uint8_t *out = put_text(begin_frame(it, END), it->txn);
    out = put(out, (uint64_t)it->id, 8);
    out = put(out, (uint16_t)it->epoch, 2);
    send_frame(it, put(out, 1, 1));
    take_id(it, "EndTxn", await(it, END, it->correlation));
}

static void run_transactions(struct client *it)
{
    for (size_t number = 0; number < it->asked; number++) {
        open_transaction(it, (int)((it->number + number) % PARTITIONS));
        double start = now();
        commit(it);
        it->times[number] = now() - start;
    }
}

static void run_batches(struct client *it)
{
    uint32_t first = it->correlation + 1;
    size_t sent = 0, answered = 0;
    while (answered < it->asked) {
        if (sent < it->asked && sent - answered < IN_FLIGHT) {
            int partition = (int)((it->number + sent) % PARTITIONS);
            it->times[sent++] = now();
            send_batch(it, partition, it->sequences[partition], NO_ATTRIBUTES);
            it->sequences[partition] += records;
            continue;
        }
        struct reply reply = await(it, PRODUCE, first + (uint32_t)answered);
        if (reply.code != NONE)
            refused("Produce", reply.code);
        it->times[answered] = now() - it->times[answered];
        answered++;
    }
}

static void *run_client(void *given)
{
    struct client *it = given;
    dial(it);
    init(it);
    pthread_barrier_wait(&ready);
    if (is_idempotent)
        run_batches(it);
    else
        run_transactions(it);
    close(it->socket);
    return NULL;
}

static void set_up(struct client *it, size_t number, size_t asked, double *times)
{
    memset(it, 0, sizeof *it);
    it->number = (uint32_t)number;
    it->asked = asked;
    it->times = times;
    it->frame = get_room(FRAME_HEAD + BATCH_HEAD + (size_t)records * (VALUE + RECORD_HEAD));
    if (!is_idempotent)
        snprintf(it->txn, sizeof it->txn, "load-%ld-%zu", (long)getpid(), number);
}

static void run_load(size_t connections, size_t each)
{
    struct client *clients = get_room(connections * sizeof *clients);
    pthread_t *threads = get_room(connections * sizeof *threads);
    struct load load = {.asked = connections * each};
    load.records = load.asked * (size_t)records;
    double *times = get_room(load.asked * sizeof *times);
    pthread_barrier_init(&ready, NULL, (unsigned)connections + 1);
    for (size_t i = 0; i < connections; i++) {
        set_up(&clients[i], i + 1, each, times + i * each);
        if (pthread_create(&threads[i], NULL, run_client, &clients[i]) != 0)
            fail("can't start a thread");
    }
    pthread_barrier_wait(&ready);
    double start = now();
    for (size_t i = 0; i < connections; i++)
        pthread_join(threads[i], NULL);
    load.taken = now() - start;
    for (size_t i = 0; i < connections; i++)
        load.again += clients[i].again;
    print_load(&load, times);
}

int main(int argc, char **argv)
{
    if (argc != 5 && !(argc == 6 && strcmp(argv[5], "idempotent") == 0))
        fail("usage: sockets PORT CONNECTIONS TRANSACTIONS RECORDS [idempotent]");
    port = (uint16_t)atoi(argv[1]);
    size_t connections = (size_t)atoi(argv[2]), asked = (size_t)atoi(argv[3]);
    records = atoi(argv[4]);
    is_idempotent = argc == 6;
    if (connections < 1 || connections > 1024 || asked < connections || records < 1
        || records > MOST_RECORDS)
        fail("1 to 1024 connections, a transaction for each, 1 to 8000 records");
    crc_tables();
    run_load(connections, asked / connections);
    return 0;
}
