#!/usr/bin/env python3
"""Stock producers with a transactional id (librdkafka by confluent-kafka-python) against the program.

    transactions.py [PROGRAM [TRANSACTIONS [SEED]]]

Commits and aborts over several partitions; zombies; expiry; empty transactions; answers that are lost
with their connections; a server that is killed inside and between transactions. Of TRANSACTIONS (300)
none may be lost, doubled or misreported: read back by a reader of committed records, and by `dump`.
"""
import collections
import os
import random
import shutil
import subprocess
import sys
import tempfile
import threading
import time

from relay import ADD_PARTITIONS, END, INIT, PRODUCE, Relay
from server import Server, Trial, folder, program

try:
    from confluent_kafka import Consumer, KafkaException, Producer, TopicPartition
except ImportError:
    print("skipped: confluent_kafka isn't installed (Debian's python3-confluent-kafka)")
    raise SystemExit(0)

trial = Trial()
wanted = int(sys.argv[2]) if len(sys.argv) > 2 else 300
seed = int(sys.argv[3]) if len(sys.argv) > 3 else 1
choice = random.Random(seed)
PARTITIONS = 3
QUICK = {"linger.ms": 1, "retry.backoff.ms": 20, "reconnect.backoff.ms": 20, "reconnect.backoff.max.ms": 100,
    "log_level": 0}


def producer(address, name, **options):
    it = Producer({"bootstrap.servers": address, "transactional.id": name, **QUICK, **options})
    it.init_transactions(30)
    return it


def read(address, level="read_committed", topic="t"):
    """All records of the topic, by partition."""
    consumer = Consumer({"bootstrap.servers": address, "group.id": "none", "enable.auto.commit": False,
        "isolation.level": level, "enable.partition.eof": True})
    consumer.assign([TopicPartition(topic, n, 0) for n in range(PARTITIONS)])
    records, ended, begun = collections.defaultdict(list), set(), time.time()
    while len(ended) < PARTITIONS and time.time() - begun < 60:
        it = consumer.poll(1)
        if it is None:
            continue
        if it.error():
            ended.add(it.partition())
        else:
            records[it.partition()].append((it.key(), it.value(), it.headers()))
    consumer.close()
    return records


def fault_of(call, *words):
    """The error that a call raises, or None."""
    try:
        call(*words)
    except KafkaException as fault:
        return fault.args[0]
    return None


with Server(program(), "--topics", f"t:{PARTITIONS},z:1") as server:
    it = producer(server.address, "round", **{"max.in.flight.requests.per.connection": 5})
    committed, everything = collections.defaultdict(list), collections.defaultdict(list)
    for number in range(6):
        it.begin_transaction()
        for n in range(2000):
            record = (b"k%d" % n, b"%d-%d" % (number, n), [("h", b"%d" % n)])
            it.produce("t", key=record[0], value=record[1], headers=record[2], partition=n % PARTITIONS)
            it.poll(0)
            everything[n % PARTITIONS].append(record)
            if number % 2 == 0:
                committed[n % PARTITIONS].append(record)
        if number % 2 == 0:
            it.commit_transaction(60)
        else:
            it.flush(60)
            it.abort_transaction(60)
    trial.look("6 transactions of 2,000 records: the committed ones are read", read(server.address) == committed,
        True)
    trial.look("uncommitted ones too by a reader of all", read(server.address, "read_uncommitted") == everything,
        True)
    it.begin_transaction()
    trial.look("an empty transaction is committed", fault_of(it.commit_transaction, 30), None)
    it.begin_transaction()
    trial.look("an empty transaction is aborted", fault_of(it.abort_transaction, 30), None)

    zombie = producer(server.address, "fenced")
    zombie.begin_transaction()
    zombie.produce("z", b"of the zombie", partition=0)
    zombie.flush(30)
    heir = producer(server.address, "fenced")
    fault = fault_of(zombie.commit_transaction, 30)
    trial.look("a zombie is fenced", (fault is not None and fault.fatal(), fault and fault.name()),
        (True, "_FENCED"))
    heir.begin_transaction()
    heir.produce("z", b"of the heir", partition=0)
    heir.commit_transaction(30)

    slow = producer(server.address, "slow", **{"transaction.timeout.ms": 1000})
    slow.begin_transaction()
    slow.produce("z", b"too late", partition=0)
    slow.flush(30)
    time.sleep(3.5)
    trial.look("a transaction that lasts too long isn't committed", fault_of(slow.commit_transaction, 30)
        is not None, True)
    PARTITIONS = 1
    trial.look("nothing of a zombie or of a late transaction is read", [value for _, value, _ in
        read(server.address, topic="z")[0]], [b"of the heir"])
    PARTITIONS = 3


class Told:
    """What a producer was told of each of its transactions."""

    def __init__(self, name):
        self.name, self.outcomes, self.faults = name, {}, collections.Counter()

    def transact(self, it, number):
        """One transaction; says whether the producer can go on."""
        try:
            it.begin_transaction()
            for n in range(choice.randint(1, 8)):
                it.produce("t", value=b"%s/%d/%d" % (self.name, number, n), partition=n % PARTITIONS)
                it.poll(choice.choice((0, 0, 0.005)))
            if number % 4 == 3:
                it.flush(30)
                it.abort_transaction(60)
                self.outcomes[number] = "aborted"
            else:
                it.commit_transaction(60)
                self.outcomes[number] = "committed"
            return True
        except KafkaException as raised:
            fault = raised.args[0]
            self.faults[fault.name()] += 1
            if fault.fatal() or not fault.txn_requires_abort():
                self.outcomes[number] = "unknown"
                return False
        fault = fault_of(it.abort_transaction, 60)
        self.outcomes[number] = "unknown" if fault else "aborted"
        return fault is None

    def run(self, address, count):
        it = None
        for number in range(count):
            while it is None:
                try:
                    it = producer(address, self.name.decode())
                except KafkaException as raised:
                    self.faults[raised.args[0].name()] += 1
            if not self.transact(it, number):
                it = None


def judge(what, told, address):
    """Compares what producers were told with what is read."""
    found = collections.defaultdict(list)
    for records in read(address).values():
        for _, value, _ in records:
            name, number, n = value.split(b"/")
            found[name, int(number)].append(int(n))
    lost = doubled = misreported = 0
    for it in told:
        for number, outcome in it.outcomes.items():
            stands = found.get((it.name, number), [])
            doubled += len(set(stands)) != len(stands)
            lost += outcome == "committed" and not stands
            misreported += outcome == "aborted" and bool(stands)
            # all or nothing: records of a transaction are numbered without a gap
            misreported += sorted(set(stands)) != list(range(len(set(stands))))
    outcomes = collections.Counter(outcome for it in told for outcome in it.outcomes.values())
    faults = sum((it.faults for it in told), collections.Counter())
    print(f"{dict(outcomes)}, faults {dict(faults)}")
    trial.look(f"{what}: lost, doubled, misreported", (lost, doubled, misreported), (0, 0, 0))
    return found


with Server(program(), "--topics", f"t:{PARTITIONS}") as server:
    relay = Relay(server, {PRODUCE, INIT, ADD_PARTITIONS, END}, seed)
    told = Told(b"cut")
    told.run(relay.address, 40)
    judge(f"{relay.cuts} answers lost with their connections", [told], server.address)

if os.path.exists("/usr/include/librdkafka/rdkafka.h") and shutil.which("gcc"):
    with tempfile.TemporaryDirectory() as work, Server(program(), "--topics", f"t:{PARTITIONS}") as server:
        built = os.path.join(work, "transactions")
        here = os.path.dirname(os.path.abspath(__file__))
        subprocess.run(["gcc", "-O2", "-Wall", "-Wextra", "-o", built,
            os.path.join(here, "transactions.c"), "-lrdkafka"], check=True)
        relay = Relay(server, {PRODUCE, INIT, ADD_PARTITIONS, END}, seed)
        done = subprocess.run([built, relay.address, "40"], capture_output=True, text=True, timeout=300)
        told = Told(b"c")
        told.outcomes = {int(number): outcome for number, outcome in map(str.split, done.stdout.splitlines())}
        judge(f"librdkafka in C, {relay.cuts} answers lost with their connections", [told], server.address)
        trial.look("it got through", (done.returncode, len(told.outcomes)), (0, 40))
else:
    print("skipped: librdkafka isn't installed (Debian's librdkafka-dev and gcc)")



def kill_at_random(server, ended):
    while not ended.wait(choice.uniform(1, 3)):
        server.kill()
        server.start()


with folder() as kept:
    with Server(program(), "--topics", f"t:{PARTITIONS}", folder=kept) as server:
        ended = threading.Event()
        killer = threading.Thread(target=kill_at_random, args=(server, ended))
        killer.start()
        told = [Told(b"p%d" % n) for n in range(3)]
        threads = [threading.Thread(target=it.run, args=(server.address, wanted // 3)) for it in told]
        for it in threads:
            it.start()
        for it in threads:
            it.join()
        ended.set()
        killer.join()
        found = judge(f"{wanted} transactions over a server that is killed", told, server.address)
    dumped = collections.Counter()
    for number in range(PARTITIONS):
        text = subprocess.run([program(), "dump", os.path.join(kept, f"p{number}.log")], capture_output=True,
            text=True, check=True).stdout
        dumped.update(line.split()[3] for line in text.splitlines() if line.startswith("record "))
    values = {(b"%s/%d/%d" % (name, number, n)).hex() for (name, number), list_ in found.items() for n in list_}
    trial.look("the files have each committed record once", {dumped[value] for value in values}, {1})
trial.end()
