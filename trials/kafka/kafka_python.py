#!/usr/bin/env python3
"""kafka-python against the program: producing, consuming, and offsets.

    kafka_python.py [PROGRAM]
"""
from server import Server, Trial, program

try:
    from kafka import KafkaConsumer, KafkaProducer, TopicPartition
except ImportError:
    print("skipped: kafka isn't installed (Debian's python3-kafka)")
    raise SystemExit(0)

trial = Trial()
with Server(program(), "--topics", "orders:2") as server:
    producer = KafkaProducer(bootstrap_servers=server.address, acks="all", linger_ms=5)
    sent = [producer.send("orders", key=b"%d" % n, value=b"v%d" % n, headers=[("n", b"%d" % n)],
        partition=1, timestamp_ms=1700000000000 + n) for n in range(1000)]
    producer.flush(30)
    trial.look("each record is answered its offset", [it.get(10).offset for it in sent], list(range(1000)))
    partition = TopicPartition("orders", 1)
    consumer = KafkaConsumer(bootstrap_servers=server.address, consumer_timeout_ms=2000)
    consumer.assign([partition])
    consumer.seek_to_beginning(partition)
    trial.look("records come back", [(it.offset, it.key, it.value, it.headers, it.timestamp)
        for it in consumer], [(n, b"%d" % n, b"v%d" % n, [("n", b"%d" % n)], 1700000000000 + n)
        for n in range(1000)])
    trial.look("where the log begins and ends", (consumer.beginning_offsets([partition]),
        consumer.end_offsets([partition])), ({partition: 0}, {partition: 1000}))
    trial.look("topics and partitions", (consumer.topics(), consumer.partitions_for_topic("orders")),
        ({"orders"}, {0, 1}))
    consumer.close()
    group = {"group_id": "readers", "bootstrap_servers": server.address, "auto_offset_reset": "earliest",
        "enable_auto_commit": False, "consumer_timeout_ms": 3000, "session_timeout_ms": 6000}
    member = KafkaConsumer("orders", **group)
    trial.look("a group reads all records", len(list(member)), 1000)
    member.commit()
    trial.look("its commit is read back", member.committed(partition), 1000)
    member.close()
    member = KafkaConsumer("orders", **group)
    trial.look("the next member reads on after it", len(list(member)), 0)
    member.close()
    producer.close()
trial.end()
