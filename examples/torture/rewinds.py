"""Right: on an error that can be aborted it aborts, seeks to what its group committed, and goes on.

    ./kx torture --in bills --out paid -- /usr/bin/python3 examples/torture/rewinds.py {bootstrap} {slot}
"""
import sys

from confluent_kafka import OFFSET_BEGINNING, Consumer, KafkaException, Producer, TopicPartition

kafka = {"bootstrap.servers": sys.argv[1]}
consumer = Consumer({**kafka, "group.id": "payers", "auto.offset.reset": "earliest",
                     "enable.auto.commit": False, "isolation.level": "read_committed"})
producer = Producer({**kafka, "transactional.id": "payer-" + sys.argv[2]})


def pay(bill):
    after = TopicPartition(bill.topic(), bill.partition(), bill.offset() + 1)
    producer.begin_transaction()
    producer.produce("paid", b"paid " + bill.value())
    producer.send_offsets_to_transaction([after], consumer.consumer_group_metadata())
    producer.commit_transaction()


def rewind():
    for it in consumer.committed(consumer.assignment(), timeout=30):
        consumer.seek(TopicPartition(it.topic, it.partition, it.offset if it.offset >= 0 else OFFSET_BEGINNING))


producer.init_transactions()
consumer.subscribe(["bills"])
while True:
    bill = consumer.poll(1)
    if bill is None or bill.error():
        continue
    try:
        pay(bill)
    except KafkaException as refused:
        if not refused.args[0].txn_requires_abort():
            raise  # fenced, for instance: whoever started it starts it again
        producer.abort_transaction()
        rewind()
