"""Right, without transactions: the key of each output record is the place of its input record, so a reader can
drop doubles, as same_without_doubles.py does.

    ./kx torture --in bills --out paid --check "python3 examples/torture/same_without_doubles.py" \
        -- /usr/bin/python3 examples/torture/doubles_are_known.py {bootstrap}
"""
import sys

from confluent_kafka import Consumer, Producer

kafka = {"bootstrap.servers": sys.argv[1]}
consumer = Consumer({**kafka, "group.id": "payers", "auto.offset.reset": "earliest",
                     "enable.auto.commit": False, "isolation.level": "read_committed"})
producer = Producer({**kafka, "enable.idempotence": True})
failed = []
consumer.subscribe(["bills"])
while True:
    bill = consumer.poll(1)
    if bill is None or bill.error():
        continue
    place = "%s-%d-%s" % (bill.topic(), bill.partition(), bill.key().decode())
    producer.produce("paid", b"paid " + bill.value(), key=place,
                     on_delivery=lambda fault, _: failed.append(fault) if fault else None)
    producer.flush()
    if failed:
        raise SystemExit("not delivered: %s" % failed)
    consumer.commit(bill, asynchronous=False)
