/* The work of sockets.c by librdkafka, with the mock cluster of one broker that it has.
 *
 *     rdkafka PRODUCERS TRANSACTIONS RECORDS
 *     rdkafka PRODUCERS RECORDS idempotent [LINGER]
 *
 * With BROKERS in the environment, as HOST:PORT, the producers go there: to `kx_main kafka`, say,
 * with a topic `load` of four partitions. Else
 * all go to one mock cluster in this process, over sockets. Each producer is an instance of its own
 * and a thread that calls it. A transaction has so many records of 100 bytes to one partition, and
 * is committed when the one before was; times are those of rd_kafka_commit_transaction, which sends
 * what waits first. Idempotent records go in the batches that librdkafka makes, at its own settings
 * or at another linger.ms; times are those from the call to the report that the record stands. What
 * a producer does first, by which it learns of the cluster and of each partition, isn't counted: it
 * waits up to a second for that. */
#include "bench.h"

#include <librdkafka/rdkafka.h>
#include <librdkafka/rdkafka_mock.h>
#include <pthread.h>
#include <stdio.h>
#include <stdlib.h>
#include <string.h>

enum { PARTITIONS = 4, VALUE = 100, CALL_MILLIS = 60000, POLL_MILLIS = 10 };

static const char topic[] = "load";

struct producer_thread {
    rd_kafka_t *rk;
    size_t number, asked, reported;
    double *times;
};

static const char *brokers;
static const char *linger;
static int records;
static int is_idempotent;
static pthread_barrier_t ready;

static void set(rd_kafka_conf_t *conf, const char *name, const char *value)
{
    char fault[256];
    if (rd_kafka_conf_set(conf, name, value, fault, sizeof fault) != RD_KAFKA_CONF_OK)
        fail(fault);
}

/* An instance of these settings, which become its own. */
static rd_kafka_t *start(rd_kafka_conf_t *conf)
{
    char fault[256];
    rd_kafka_t *rk = rd_kafka_new(RD_KAFKA_PRODUCER, conf, fault, sizeof fault);
    if (!rk)
        fail(fault);
    return rk;
}

/* A mock cluster, and the instance that it belongs to. */
static rd_kafka_t *start_cluster(void)
{
    rd_kafka_conf_t *conf = rd_kafka_conf_new();
    set(conf, "test.mock.num.brokers", "1");
    set(conf, "log_level", "4");
    rd_kafka_t *rk = start(conf);
    rd_kafka_mock_cluster_t *cluster = rd_kafka_handle_mock_cluster(rk);
    if (!cluster || rd_kafka_mock_topic_create(cluster, topic, PARTITIONS, 1) != 0)
        fail("no mock cluster");
    brokers = rd_kafka_mock_cluster_bootstraps(cluster);
    return rk;
}

/* A record stands, or doesn't. */
static void report(rd_kafka_t *rk, const rd_kafka_message_t *message, void *opaque)
{
    (void)rk;
    struct producer_thread *it = opaque;
    if (message->err)
        fail(rd_kafka_err2str(message->err));
    double *time = message->_private;
    if (time)
        *time = now() - *time;
    it->reported++;
}

static void check(rd_kafka_error_t *error)
{
    if (error)
        fail(rd_kafka_error_string(error));
}

static void start_producer(struct producer_thread *it)
{
    rd_kafka_conf_t *conf = rd_kafka_conf_new();
    set(conf, "bootstrap.servers", brokers);
    if (is_idempotent) {
        set(conf, "enable.idempotence", "true");
    } else {
        char txn[32];
        snprintf(txn, sizeof txn, "load-%zu", it->number);
        set(conf, "transactional.id", txn);
    }
    if (linger)
        set(conf, "linger.ms", linger);
    rd_kafka_conf_set_dr_msg_cb(conf, report);
    rd_kafka_conf_set_opaque(conf, it);
    it->rk = start(conf);
    if (!is_idempotent)
        check(rd_kafka_init_transactions(it->rk, CALL_MILLIS));
}

/* Hands out a record, waiting while too many wait. */
static void produce(struct producer_thread *it, size_t partition, double *time)
{
    static const char value[VALUE];
    rd_kafka_resp_err_t fault;
    do {
        fault = rd_kafka_producev(it->rk, RD_KAFKA_V_TOPIC(topic),
            RD_KAFKA_V_PARTITION((int32_t)(partition % PARTITIONS)),
            RD_KAFKA_V_MSGFLAGS(RD_KAFKA_MSG_F_COPY), RD_KAFKA_V_VALUE((void *)value, VALUE),
            RD_KAFKA_V_OPAQUE(time), RD_KAFKA_V_END);
        if (fault == RD_KAFKA_RESP_ERR__QUEUE_FULL)
            rd_kafka_poll(it->rk, POLL_MILLIS);
    } while (fault == RD_KAFKA_RESP_ERR__QUEUE_FULL);
    if (fault)
        fail(rd_kafka_err2str(fault));
}

/* One transaction, and how many nanoseconds its commit takes. */
static double transact(struct producer_thread *it, size_t partition)
{
    check(rd_kafka_begin_transaction(it->rk));
    for (int record = 0; record < records; record++)
        produce(it, partition, NULL);
    double start = now();
    check(rd_kafka_commit_transaction(it->rk, CALL_MILLIS));
    return now() - start;
}

static void run_transactions(struct producer_thread *it)
{
    for (size_t number = 0; number < it->asked; number++)
        it->times[number] = transact(it, it->number + number);
    if (it->reported != it->asked * (size_t)records)
        fail("a record isn't reported");
}

static void run_idempotent(struct producer_thread *it)
{
    for (size_t number = 0; number < it->asked; number++) {
        it->times[number] = now();
        produce(it, it->number + number, &it->times[number]);
        rd_kafka_poll(it->rk, 0);
    }
    if (rd_kafka_flush(it->rk, CALL_MILLIS) != 0 || it->reported != it->asked)
        fail("a record isn't reported");
}

/* Something to each partition, so that what comes then is like what comes later. */
static void warm_up(struct producer_thread *it)
{
    for (size_t partition = 0; partition < PARTITIONS; partition++) {
        if (is_idempotent)
            produce(it, partition, NULL);
        else
            transact(it, partition);
    }
    if (rd_kafka_flush(it->rk, CALL_MILLIS) != 0)
        fail("a record isn't reported");
    it->reported = 0;
}

static void *run_producer(void *given)
{
    struct producer_thread *it = given;
    start_producer(it);
    warm_up(it);
    pthread_barrier_wait(&ready);
    if (is_idempotent)
        run_idempotent(it);
    else
        run_transactions(it);
    pthread_barrier_wait(&ready);
    rd_kafka_destroy(it->rk);
    return NULL;
}

static void run_load(size_t producers, size_t each)
{
    struct producer_thread *them = get_room(producers * sizeof *them);
    pthread_t *threads = get_room(producers * sizeof *threads);
    struct load load = {.asked = producers * each};
    load.records = load.asked * (size_t)records;
    double *times = get_room(load.asked * sizeof *times);
    pthread_barrier_init(&ready, NULL, (unsigned)producers + 1);
    for (size_t i = 0; i < producers; i++) {
        them[i] = (struct producer_thread){.number = i, .asked = each, .times = times + i * each};
        if (pthread_create(&threads[i], NULL, run_producer, &them[i]) != 0)
            fail("can't start a thread");
    }
    pthread_barrier_wait(&ready);
    double start = now();
    pthread_barrier_wait(&ready);
    load.taken = now() - start;
    for (size_t i = 0; i < producers; i++)
        pthread_join(threads[i], NULL);
    print_load(&load, times);
}

int main(int argc, char **argv)
{
    is_idempotent = (argc == 4 || argc == 5) && strcmp(argv[3], "idempotent") == 0;
    if (argc != 4 && !is_idempotent)
        fail("usage: rdkafka PRODUCERS TRANSACTIONS RECORDS, or rdkafka PRODUCERS RECORDS idempotent"
             " [LINGER]");
    size_t producers = (size_t)atoi(argv[1]), asked = (size_t)atoi(argv[2]);
    records = is_idempotent ? 1 : atoi(argv[3]);
    linger = argc == 5 ? argv[4] : NULL;
    if (producers < 1 || producers > 1024 || asked < producers || records < 1)
        fail("1 to 1024 producers, a transaction for each, 1 record or more");
    rd_kafka_t *cluster = NULL;
    brokers = getenv("BROKERS");
    if (!brokers)
        cluster = start_cluster();
    run_load(producers, asked / producers);
    if (cluster)
        rd_kafka_destroy(cluster);
    return 0;
}
