/* librdkafka against the program: a producer with a transactional id whose connections are cut.
 *
 *     transactions ADDRESS TRANSACTIONS
 *
 * Each transaction has five records in partitions 0 to 2 of the topic `t`; every third is aborted. Says
 * of each how it ended: committed, aborted, or unknown once the producer can't go on. */
#include <librdkafka/rdkafka.h>
#include <stdio.h>
#include <stdlib.h>

static void set(rd_kafka_conf_t *conf, const char *name, const char *value) {
    char error[512];
    if (rd_kafka_conf_set(conf, name, value, error, sizeof error) != RD_KAFKA_CONF_OK) {
        fprintf(stderr, "%s: %s\n", name, error);
        exit(2);
    }
}

/* Whether a call went well; else frees the error, and says whether the transaction can be aborted. */
static int went(rd_kafka_error_t *error, int *abortable) {
    if (!error) {
        return 1;
    }
    *abortable = rd_kafka_error_txn_requires_abort(error);
    fprintf(stderr, "%s\n", rd_kafka_error_string(error));
    rd_kafka_error_destroy(error);
    return 0;
}

static int transact(rd_kafka_t *rk, int number) {
    int abortable = 0;
    if (!went(rd_kafka_begin_transaction(rk), &abortable)) {
        return 0;
    }
    for (int n = 0; n < 5; n++) {
        char value[32];
        int length = snprintf(value, sizeof value, "c/%d/%d", number, n);
        rd_kafka_producev(rk, RD_KAFKA_V_TOPIC("t"), RD_KAFKA_V_PARTITION(n % 3),
            RD_KAFKA_V_MSGFLAGS(RD_KAFKA_MSG_F_COPY), RD_KAFKA_V_VALUE(value, (size_t)length),
            RD_KAFKA_V_END);
        rd_kafka_poll(rk, n % 2);
    }
    if (number % 3 != 2) {
        if (went(rd_kafka_commit_transaction(rk, 60000), &abortable)) {
            printf("%d committed\n", number);
            return 1;
        }
        if (!abortable) {
            printf("%d unknown\n", number);
            return 0;
        }
    }
    /* What is in flight when an abort begins isn't sent again by librdkafka 2.0.2 after its connection was
     * cut, and the abort waits for it. */
    rd_kafka_flush(rk, 60000);
    if (went(rd_kafka_abort_transaction(rk, 60000), &abortable)) {
        printf("%d aborted\n", number);
        return 1;
    }
    printf("%d unknown\n", number);
    return 0;
}

int main(int argc, char **argv) {
    if (argc != 3) {
        return 2;
    }
    char error[512];
    rd_kafka_conf_t *conf = rd_kafka_conf_new();
    set(conf, "bootstrap.servers", argv[1]);
    set(conf, "transactional.id", "in-c");
    set(conf, "log_level", "0");
    set(conf, "linger.ms", "1");
    set(conf, "retry.backoff.ms", "20");
    set(conf, "reconnect.backoff.ms", "20");
    set(conf, "reconnect.backoff.max.ms", "100");
    rd_kafka_t *rk = rd_kafka_new(RD_KAFKA_PRODUCER, conf, error, sizeof error);
    if (!rk) {
        fprintf(stderr, "%s\n", error);
        return 1;
    }
    int abortable = 0;
    if (!went(rd_kafka_init_transactions(rk, 30000), &abortable)) {
        return 1;
    }
    for (int number = 0; number < atoi(argv[2]); number++) {
        if (!transact(rk, number)) {
            return 1;
        }
    }
    rd_kafka_destroy(rk);
    return 0;
}
