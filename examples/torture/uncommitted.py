"""Wrong: it reads records of transactions that were aborted or are still open, and pays such bills too.

Found without a fault, by aborted transactions in its input. Fix: isolation.level read_committed.

    ./kx torture --in bills --out paid -- /usr/bin/python3 examples/torture/uncommitted.py {bootstrap} {slot}
"""
import sys

from confluent_kafka import Consumer, Producer, TopicPartition

kafka = {"bootstrap.servers": sys.argv[1]}
consumer = Consumer({**kafka, "group.id": "payers", "auto.offset.reset": "earliest",
                     "enable.auto.commit": False, "isolation.level": "read_uncommitted"})
producer = Producer({**kafka, "transactional.id": "payer-" + sys.argv[2]})
producer.init_transactions()
consumer.subscribe(["bills"])
while True:
    bill = consumer.poll(1)
    if bill is None or bill.error():
        continue
    after = TopicPartition(bill.topic(), bill.partition(), bill.offset() + 1)
    producer.begin_transaction()
    producer.produce("paid", b"paid " + bill.value())
    producer.send_offsets_to_transaction([after], consumer.consumer_group_metadata())
    producer.commit_transaction()
