"""Wrong: an idempotent producer repeats no batch by itself, but a program that is started again reads the
same bill again and pays it again.

Found by Produce#1:kill-after. Fix: a transactional id, and the offset in the transaction.

    ./kx torture --in bills --out paid -- /usr/bin/python3 examples/torture/idempotent_only.py {bootstrap}
"""
import sys

from confluent_kafka import Consumer, Producer

kafka = {"bootstrap.servers": sys.argv[1]}
consumer = Consumer({**kafka, "group.id": "payers", "auto.offset.reset": "earliest",
                     "enable.auto.commit": False, "isolation.level": "read_committed"})
producer = Producer({**kafka, "enable.idempotence": True})
consumer.subscribe(["bills"])
while True:
    bill = consumer.poll(1)
    if bill is None or bill.error():
        continue
    producer.produce("paid", b"paid " + bill.value())
    producer.flush()
    consumer.commit(bill, asynchronous=False)
