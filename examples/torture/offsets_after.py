"""Wrong: it commits its offsets after its transaction, so a crash between the two pays a bill again.

Found by EndTxn#1:kill-after. Fix: producer.send_offsets_to_transaction, before commit_transaction.

    ./kx torture --in bills --out paid -- /usr/bin/python3 examples/torture/offsets_after.py {bootstrap} {slot}
"""
import sys

from confluent_kafka import Consumer, Producer

kafka = {"bootstrap.servers": sys.argv[1]}
consumer = Consumer({**kafka, "group.id": "payers", "auto.offset.reset": "earliest",
                     "enable.auto.commit": False, "isolation.level": "read_committed"})
producer = Producer({**kafka, "transactional.id": "payer-" + sys.argv[2]})
producer.init_transactions()
consumer.subscribe(["bills"])
while True:
    bill = consumer.poll(1)
    if bill is None or bill.error():
        continue
    producer.begin_transaction()
    producer.produce("paid", b"paid " + bill.value())
    producer.commit_transaction()
    consumer.commit(bill, asynchronous=False)
