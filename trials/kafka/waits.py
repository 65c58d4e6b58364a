#!/usr/bin/env python3
"""Consumers that wait: how soon a record wakes one, and what a hundred of them cost.

    waits.py [PROGRAM]
"""
import statistics
import threading
import time

from server import Server, Trial, program

try:
    from confluent_kafka import Consumer, Producer, TopicPartition
except ImportError:
    print("skipped: confluent_kafka isn't installed (Debian's python3-confluent-kafka)")
    raise SystemExit(0)

trial = Trial()
WAIT_MILLIS = 5000


def consumer(address, topic):
    it = Consumer({"bootstrap.servers": address, "group.id": "none", "enable.auto.commit": False,
        "fetch.wait.max.ms": WAIT_MILLIS, "socket.timeout.ms": 60000})
    it.assign([TopicPartition(topic, 0, 0)])
    return it


with Server(program(), "--topics", "quick:1,quiet:1") as server:
    reader = consumer(server.address, "quick")
    arrived, ended = [], threading.Event()

    def read():
        while not ended.is_set():
            it = reader.poll(0.1)
            if it is not None and not it.error():
                arrived.append((time.monotonic(), float(it.value())))

    thread = threading.Thread(target=read)
    thread.start()
    time.sleep(2)
    writer = Producer({"bootstrap.servers": server.address, "linger.ms": 0})
    for _ in range(50):
        writer.produce("quick", value=repr(time.monotonic()), partition=0)
        writer.flush(10)
        time.sleep(0.05)
    time.sleep(1)
    ended.set()
    thread.join()
    delays = [1000 * (at - sent) for at, sent in arrived]
    print(f"a record wakes a consumer that waits up to {WAIT_MILLIS} ms: median "
        f"{statistics.median(delays):.1f} ms, longest {max(delays):.1f} ms")
    trial.look("each of 50 records wakes it within 50 ms", (len(delays), statistics.median(delays) < 50),
        (50, True))

    waiting = [consumer(server.address, "quiet") for _ in range(100)]
    for it in waiting:
        it.poll(0)
    time.sleep(WAIT_MILLIS / 1000)
    before = server.seconds_of_processor()
    time.sleep(10)
    took = server.seconds_of_processor() - before
    print(f"100 consumers that wait take {took:.2f} s of processor time in 10 s")
    trial.look("that is below one part in a hundred", took < 0.1, True)
    for it in waiting:
        it.close()
    reader.close()
trial.end()
