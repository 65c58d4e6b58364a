/* The mock cluster of librdkafka, until it is ended: another Kafka for torture.py.
 *
 * It prints `listening HOST:PORT`. A topic that is asked for has four partitions. It keeps no offsets of
 * a transaction and shows records of aborted ones, so no group's transactions can be looked at here. It
 * writes the leader epoch of ListOffsets 4 and later with eight bytes in place of Kafka's four, so it is
 * asked for at most 3. */
#include <librdkafka/rdkafka.h>
#include <librdkafka/rdkafka_mock.h>
#include <stdio.h>
#include <unistd.h>

enum { LIST_OFFSETS = 2 };

int main(void)
{
    char why[256];
    rd_kafka_t *client = rd_kafka_new(RD_KAFKA_PRODUCER, rd_kafka_conf_new(), why, sizeof why);
    rd_kafka_mock_cluster_t *it = client ? rd_kafka_mock_cluster_new(client, 1) : NULL;
    if (!it) {
        fprintf(stderr, "mock: there is no cluster\n");
        return 1;
    }
    rd_kafka_mock_set_apiversion(it, LIST_OFFSETS, 0, 3);
    printf("listening %s\n", rd_kafka_mock_cluster_bootstraps(it));
    fflush(stdout);
    for (;;)
        pause();
}
