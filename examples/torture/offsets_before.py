"""Wrong: it commits its offset before the output is there, so a crash between the two loses a bill.

Found by Produce#1:kill-before. Fix: commit the offset with the output, in one transaction.

    ./kx torture --in bills --out paid -- /usr/bin/python3 examples/torture/offsets_before.py {bootstrap} {slot}
"""
import sys

from confluent_kafka import Consumer, Producer

kafka = {"bootstrap.servers": sys.argv[1]}
consumer = Consumer({**kafka, "group.id": "payers", "auto.offset.reset": "earliest",
                     "enable.auto.commit": False, "isolation.level": "read_committed"})
producer = Producer({**kafka, "transactional.id": "payer-" + sys.argv[2]})
producer.init_transactions()
consumer.subscribe(["bills"])
while True:
    bill = consumer.poll(1)
    if bill is None or bill.error():
        continue
    consumer.commit(bill, asynchronous=False)
    producer.begin_transaction()
    producer.produce("paid", b"paid " + bill.value())
    producer.commit_transaction()
