#!/usr/bin/env python3
"""Stock consumer groups against the program: consume, process, produce; rebalances; fencing.

    groups.py [PROGRAM [INPUTS [SEED]]]

Three workers (worker.py) read INPUTS (600) records and write an image of each in transactions that commit
their offsets too. Workers and the server are killed at random, and answers are cut off with their
connections: each image has to be there once.
"""
import collections
import os
import random
import signal
import subprocess
import sys
import threading
import time

from relay import ADD_PARTITIONS, END, INIT, PRODUCE, Relay
from server import Server, Trial, folder, program

try:
    from confluent_kafka import Consumer, KafkaError, KafkaException, Producer, TopicPartition
except ImportError:
    print("skipped: confluent_kafka isn't installed (Debian's python3-confluent-kafka)")
    raise SystemExit(0)

OFFSET_FETCH, JOIN, HEARTBEAT, SYNC, ADD_OFFSETS, COMMIT_OFFSETS = 9, 11, 12, 14, 25, 28
trial = Trial()
wanted = int(sys.argv[2]) if len(sys.argv) > 2 else 600
seed = int(sys.argv[3]) if len(sys.argv) > 3 else 1
PARTITIONS = 4
here = os.path.dirname(os.path.abspath(__file__))
TOPICS = ("--topics", f"in:{PARTITIONS},out:{PARTITIONS},few:4")


def reader(address, **options):
    return Consumer({"bootstrap.servers": address, "auto.offset.reset": "earliest", "log_level": 0,
        "enable.auto.commit": False, "session.timeout.ms": 6000, **options})


def fill(address, topic, count):
    producer = Producer({"bootstrap.servers": address, "enable.idempotence": True})
    for n in range(count):
        producer.produce(topic, value=f"r{n}".encode(), partition=n % PARTITIONS)
    producer.flush(30)


def poll(consumers, seconds, until=lambda: False):
    begun = time.time()
    while time.time() - begun < seconds and not until():
        for it in consumers:
            it.poll(0.05)


def rebalances(address):
    """Two consumers share four partitions, and one that is left has them all."""
    owned = {}

    def member(name):
        it = reader(address, **{"group.id": "share", "client.id": name})
        it.subscribe(["few"], on_assign=lambda _, parts: owned.__setitem__(name, sorted(p.partition for p in parts)))
        return it

    one = member("one")
    poll([one], 10, lambda: owned.get("one") == [0, 1, 2, 3])
    trial.look("one consumer has all partitions", owned.get("one"), [0, 1, 2, 3])
    two = member("two")
    poll([one, two], 15, lambda: len(owned.get("one", [])) == 2 and len(owned.get("two", [])) == 2)
    trial.look("two share them", sorted(owned.get("one", []) + owned.get("two", [])), [0, 1, 2, 3])
    trial.look("each has two", (len(owned.get("one", [])), len(owned.get("two", []))), (2, 2))
    old = two.consumer_group_metadata()
    two.close()
    poll([one], 15, lambda: owned.get("one") == [0, 1, 2, 3])
    trial.look("the one that is left has all", owned.get("one"), [0, 1, 2, 3])
    producer = Producer({"bootstrap.servers": address, "transactional.id": "stale", "log_level": 0})
    producer.init_transactions(10)
    producer.begin_transaction()
    try:
        producer.send_offsets_to_transaction([TopicPartition("few", 0, 1)], old, 5)
        found = None
    except KafkaException as refused:
        found = refused.args[0].code()
    trial.look("offsets of a member that left are refused", found, KafkaError.UNKNOWN_MEMBER_ID)
    producer.abort_transaction(10)
    early = one.consumer_group_metadata()
    three = member("three")
    poll([one, three], 15, lambda: len(owned.get("three", [])) == 2)
    producer.begin_transaction()
    try:
        producer.send_offsets_to_transaction([TopicPartition("few", 0, 1)], early, 5)
        found = None
    except KafkaException as refused:
        found = refused.args[0].code()
    trial.look("offsets of a stale generation are refused", found, KafkaError.ILLEGAL_GENERATION)
    producer.abort_transaction(10)
    one.close()
    three.close()


def commits(address):
    """Offsets outside of transactions, with subscribe and with assign."""
    fill(address, "few", 8)
    it = reader(address, **{"group.id": "plain"})
    it.subscribe(["few"])
    got = []
    begun = time.time()
    while len(got) < 8 and time.time() - begun < 20:
        record = it.poll(0.1)
        if record is not None and not record.error():
            got.append(record)
    trial.look("a group reads all records", len(got), 8)
    it.commit(asynchronous=False)
    places = [TopicPartition("few", n) for n in range(4)]
    trial.look("its commit is read back", [p.offset for p in it.committed(places, timeout=10)], [2, 2, 2, 2])
    it.close()
    alone = reader(address, **{"group.id": "alone"})
    alone.assign([TopicPartition("few", 0, 0)])
    alone.poll(1)
    alone.commit(offsets=[TopicPartition("few", 0, 1), TopicPartition("few", 1, 2)], asynchronous=False)
    trial.look("a commit without a member", [p.offset for p in alone.committed(places, timeout=10)],
        [1, 2, -1001, -1001])
    alone.close()


def images(address):
    """All committed images, by value."""
    consumer = Consumer({"bootstrap.servers": address, "group.id": "look", "enable.auto.commit": False,
        "isolation.level": "read_committed", "enable.partition.eof": True, "log_level": 0})
    consumer.assign([TopicPartition("out", n, 0) for n in range(PARTITIONS)])
    found, ended, begun = collections.Counter(), set(), time.time()
    while len(ended) < PARTITIONS and time.time() - begun < 60:
        it = consumer.poll(1)
        if it is None:
            continue
        if it.error():
            ended.add(it.partition())
        else:
            found[it.value()] += 1
    consumer.close()
    return found


def exactly_once(run):
    """Workers, the server and connections end at random."""
    choice = random.Random(f"{seed} {run}")
    with folder() as logs, Server(program(), *TOPICS, folder=logs) as server:
        fill(server.address, "in", wanted)
        kinds = (PRODUCE, INIT, ADD_PARTITIONS, END, OFFSET_FETCH, JOIN, SYNC, ADD_OFFSETS, COMMIT_OFFSETS)
        relays = [Relay(server, kinds if n == run % 3 else (), choice.random()) for n in range(3)]
        address = [it.address for it in relays]
        workers = [None] * 3
        kills = {"workers": 0, "server": 0}

        def work(n):
            workers[n] = subprocess.Popen([sys.executable, os.path.join(here, "worker.py"), address[n], f"w{n}"],
                stderr=subprocess.DEVNULL)

        for n in range(3):
            work(n)
        begun, found = time.time(), collections.Counter()
        while time.time() - begun < 240:
            time.sleep(choice.uniform(0.3, 1.2))
            dice = choice.random()
            if dice < 0.45:
                n = choice.randrange(3)
                workers[n].kill()
                kills["workers"] += 1
            elif dice < 0.6:
                server.kill(signal.SIGKILL)
                kills["server"] += 1
                server.start()
            for n in range(3):
                if workers[n].poll() is not None:
                    workers[n].wait()
                    work(n)
            found = images(server.address)
            if len(found) == wanted:
                break
        time.sleep(1)
        for it in workers:
            it.kill()
            it.wait()
        found = images(server.address)
        cuts = sum(it.cuts for it in relays)
        print(f"run {run}: {kills['workers']} workers and {kills['server']} servers killed, {cuts} answers cut, "
            f"{time.time() - begun:.0f} s")
        trial.look(f"run {run}: images", len(found), wanted)
        trial.look(f"run {run}: none twice", [v for v, n in found.items() if n != 1][:5], [])


def main():
    with folder() as logs, Server(program(), *TOPICS, folder=logs) as server:
        rebalances(server.address)
        commits(server.address)
    for run in range(4):
        exactly_once(run)
    trial.end()


if __name__ == "__main__":
    main()
