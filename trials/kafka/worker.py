#!/usr/bin/env python3
"""Consumes `in`, and writes an image of each record to `out` and the offset that it has read, in one
transaction, as a member of the group `work`: the worker of groups.py, which kills it.

    worker.py ADDRESS TRANSACTIONAL_ID
"""
import sys

from confluent_kafka import Consumer, KafkaException, Producer, TopicPartition

address, name = sys.argv[1:3]
QUICK = {"bootstrap.servers": address, "log_level": 0, "retry.backoff.ms": 20, "reconnect.backoff.ms": 20,
    "reconnect.backoff.max.ms": 100, "topic.metadata.refresh.interval.ms": 1000}
consumer = Consumer({**QUICK, "group.id": "work", "client.id": name, "enable.auto.commit": False,
    "auto.offset.reset": "earliest", "isolation.level": "read_committed", "session.timeout.ms": 2000,
    "heartbeat.interval.ms": 200})
producer = Producer({**QUICK, "transactional.id": name, "linger.ms": 1, "transaction.timeout.ms": 10000})


def batch():
    """Some records that were read."""
    records = []
    while len(records) < 8:
        it = consumer.poll(0.05)
        if it is None:
            break
        if not it.error():
            records.append(it)
    return records


def rewind():
    """Reads on from what is committed."""
    for it in consumer.committed(consumer.assignment(), timeout=10):
        offset = it.offset if it.offset >= 0 else 0
        consumer.seek(TopicPartition(it.topic, it.partition, offset))


def process(records):
    producer.begin_transaction()
    after = {}
    for it in records:
        producer.produce("out", value=b"image of " + it.value(), partition=it.partition())
        after[it.partition()] = it.offset() + 1
    offsets = [TopicPartition("in", partition, offset) for partition, offset in after.items()]
    producer.send_offsets_to_transaction(offsets, consumer.consumer_group_metadata(), 10)
    producer.commit_transaction(10)


producer.init_transactions(20)
consumer.subscribe(["in"])
while True:
    records = batch()
    if not records:
        continue
    try:
        process(records)
    except KafkaException as refused:
        if refused.args[0].fatal():
            raise
        producer.flush(10)
        producer.abort_transaction(20)
        rewind()
