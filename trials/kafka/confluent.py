#!/usr/bin/env python3
"""confluent-kafka-python against the program: round trips, and idempotent producers over a server
that is killed at random: each record stands once, in order.

    confluent.py [PROGRAM [SECONDS [SEED]]]
"""
import random
import sys
import threading
import time

from server import Server, Trial, folder, program

try:
    from confluent_kafka import Consumer, Producer, TopicPartition
except ImportError:
    print("skipped: confluent_kafka isn't installed (Debian's python3-confluent-kafka)")
    raise SystemExit(0)

trial = Trial()
seconds = float(sys.argv[2]) if len(sys.argv) > 2 else 10
choice = random.Random(int(sys.argv[3]) if len(sys.argv) > 3 else 1)


def produce(address, topic, partition, records, **options):
    """Produces records of (key, value, headers, time), and returns the offsets that were answered."""
    offsets = []
    producer = Producer({"bootstrap.servers": address, **options})
    for key, value, headers, at in records:
        producer.produce(topic, key=key, value=value, headers=headers, timestamp=at, partition=partition,
            on_delivery=lambda fault, it: offsets.append(str(fault) if fault else it.offset()))
        producer.poll(0)
    producer.flush(60)
    return offsets


def consume(address, topic, partition, count, level="read_committed"):
    """The first `count` records of a partition, or as many as come within ten seconds."""
    consumer = Consumer({"bootstrap.servers": address, "group.id": "none", "enable.auto.commit": False,
        "isolation.level": level})
    consumer.assign([TopicPartition(topic, partition, 0)])
    records, begun = [], time.time()
    while len(records) < count and time.time() - begun < 10:
        it = consumer.poll(0.5)
        if it is not None and not it.error():
            records.append((it.key(), it.value(), it.headers(), it.timestamp()[1]))
    consumer.close()
    return records


with Server(program(), "--topics", "orders:2") as server:
    records = [(b"k%d" % n, b"v" * (n % 300), [("n", b"%d" % n), ("none", b"")], 1700000000000 + n)
        for n in range(2000)]
    for options in ({"acks": 1}, {"acks": -1, "linger.ms": 50}, {"enable.idempotence": True}):
        before = len(consume(server.address, "orders", 0, 100000, "read_uncommitted"))
        trial.look(f"{options}: each record is answered its offset",
            produce(server.address, "orders", 0, records, **options),
            list(range(before, before + len(records))))
        found = consume(server.address, "orders", 0, before + len(records))
        trial.look(f"{options}: keys, headers and times come back", found[before:], records)
    trial.look("without answers records stand too", (produce(server.address, "orders", 1, records[:100],
        acks=0) and None, len(consume(server.address, "orders", 1, 100))), (None, 100))
    low, high = Consumer({"bootstrap.servers": server.address, "group.id": "none"}) \
        .get_watermark_offsets(TopicPartition("orders", 0), timeout=10)
    trial.look("where the log begins and ends", (low, high), (0, 6000))


def kill_at_random(server, ended):
    while not ended.wait(choice.uniform(0.3, 1.5)):
        server.kill()
        server.start()


with folder() as kept:
    with Server(program(), "--topics", "orders:2", folder=kept) as server:
        ended, kills = threading.Event(), 0
        killer = threading.Thread(target=kill_at_random, args=(server, ended))
        killer.start()
        producer = Producer({"bootstrap.servers": server.address, "enable.idempotence": True,
            "linger.ms": 1, "retry.backoff.ms": 50, "reconnect.backoff.max.ms": 200,
            "message.timeout.ms": 60000})
        faults, sent, begun = [], 0, time.time()
        while time.time() - begun < seconds:
            try:
                producer.produce("orders", value=b"%d" % sent, partition=sent % 2,
                    on_delivery=lambda fault, it: faults.append(str(fault)) if fault else None)
                sent += 1
            except BufferError:
                # The queue is full while the server is down.
                producer.poll(0.1)
            producer.poll(0.0005)
        producer.flush(60)
        ended.set()
        killer.join()
        trial.look(f"killed at random: all of {sent} records are answered", faults, [])
        for partition in (0, 1):
            wanted = [b"%d" % n for n in range(partition, sent, 2)]
            found = [value for _, value, _, _ in consume(server.address, "orders", partition, len(wanted))]
            trial.look(f"each stands once, in order, in partition {partition}", found == wanted, True)
        server.kill()
        server.start()
        trial.look("topics stand after a restart", len(consume(server.address, "orders", 0, 10)), 10)
trial.end()
