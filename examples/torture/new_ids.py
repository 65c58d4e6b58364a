"""Wrong: partitions are assigned by hand, and each start has a new transactional id, so nothing fences an
earlier start that was only asleep.

Found by TxnOffsetCommit#1:zombie, and not at EndTxn. Fix: an id of the slot, as by_hand.py has it.

    ./kx torture --in bills --out paid -- /usr/bin/python3 examples/torture/new_ids.py {bootstrap} {slot}
"""
import sys
import time
import uuid

from confluent_kafka import OFFSET_BEGINNING, Consumer, Producer, TopicPartition

PARTITIONS = {"1": [0, 1], "2": []}  # of each slot
kafka = {"bootstrap.servers": sys.argv[1]}
own = [TopicPartition("bills", it) for it in PARTITIONS[sys.argv[2]]]
while not own:
    time.sleep(1)
consumer = Consumer({**kafka, "group.id": "payers", "enable.auto.commit": False,
                     "isolation.level": "read_committed"})
producer = Producer({**kafka, "transactional.id": "payer-%s" % uuid.uuid4(), "transaction.timeout.ms": 10000})
producer.init_transactions()
consumer.assign([TopicPartition(it.topic, it.partition, it.offset if it.offset >= 0 else OFFSET_BEGINNING)
                 for it in consumer.committed(own, timeout=30)])
while True:
    bill = consumer.poll(1)
    if bill is None or bill.error():
        continue
    after = TopicPartition(bill.topic(), bill.partition(), bill.offset() + 1)
    producer.begin_transaction()
    producer.produce("paid", b"paid " + bill.value())
    producer.send_offsets_to_transaction([after], consumer.consumer_group_metadata())
    producer.commit_transaction()
