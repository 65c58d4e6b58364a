/* librdkafka against the program: an idempotent producer whose connections are cut.
 *
 *     rdkafka ADDRESS RECORDS
 *
 * Produces records to partition 0 of the topic `cut`, numbered from 0, and says how many were
 * answered and how many failed. */
#include <librdkafka/rdkafka.h>
#include <stdio.h>
#include <stdlib.h>
#include <string.h>

static long answered, failed;

static void told(rd_kafka_t *rk, const rd_kafka_message_t *it, void *opaque) {
    (void)rk;
    (void)opaque;
    if (it->err) {
        failed++;
    } else {
        answered++;
    }
}

static void set(rd_kafka_conf_t *conf, const char *name, const char *value) {
    char error[512];
    if (rd_kafka_conf_set(conf, name, value, error, sizeof error) != RD_KAFKA_CONF_OK) {
        fprintf(stderr, "%s: %s\n", name, error);
        exit(2);
    }
}

int main(int argc, char **argv) {
    if (argc != 3) {
        return 2;
    }
    long records = atol(argv[2]);
    char error[512];
    rd_kafka_conf_t *conf = rd_kafka_conf_new();
    set(conf, "bootstrap.servers", argv[1]);
    set(conf, "enable.idempotence", "true");
    set(conf, "linger.ms", "2");
    set(conf, "batch.num.messages", "50");
    set(conf, "retry.backoff.ms", "20");
    set(conf, "reconnect.backoff.ms", "20");
    set(conf, "reconnect.backoff.max.ms", "100");
    rd_kafka_conf_set_dr_msg_cb(conf, told);
    rd_kafka_t *rk = rd_kafka_new(RD_KAFKA_PRODUCER, conf, error, sizeof error);
    if (!rk) {
        fprintf(stderr, "%s\n", error);
        return 1;
    }
    for (long n = 0; n < records; n++) {
        char value[32];
        int length = snprintf(value, sizeof value, "%ld", n);
        while (rd_kafka_producev(rk, RD_KAFKA_V_TOPIC("cut"), RD_KAFKA_V_PARTITION(0),
                   RD_KAFKA_V_MSGFLAGS(RD_KAFKA_MSG_F_COPY), RD_KAFKA_V_VALUE(value, (size_t)length),
                   RD_KAFKA_V_END) == RD_KAFKA_RESP_ERR__QUEUE_FULL) {
            rd_kafka_poll(rk, 10);
        }
        rd_kafka_poll(rk, 0);
    }
    rd_kafka_flush(rk, 60000);
    printf("answered %ld failed %ld\n", answered, failed);
    rd_kafka_destroy(rk);
    return 0;
}
