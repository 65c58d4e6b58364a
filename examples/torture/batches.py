"""Right: up to ten records in each transaction. It ends on any error, and whoever started it starts it again.

    ./kx torture --in bills --out paid -- /usr/bin/python3 examples/torture/batches.py {bootstrap} {slot}
"""
import sys

from confluent_kafka import Consumer, Producer

kafka = {"bootstrap.servers": sys.argv[1]}
consumer = Consumer({**kafka, "group.id": "payers", "auto.offset.reset": "earliest",
                     "enable.auto.commit": False, "isolation.level": "read_committed"})
producer = Producer({**kafka, "transactional.id": "payer-" + sys.argv[2]})
producer.init_transactions()
consumer.subscribe(["bills"])
while True:
    bills = [it for it in consumer.consume(10, timeout=0.5) if not it.error()]
    if not bills:
        continue
    # the position of a partition is the offset after its last record that `consume` returned
    producer.begin_transaction()
    for bill in bills:
        producer.produce("paid", b"paid " + bill.value())
    producer.send_offsets_to_transaction(consumer.position(consumer.assignment()),
                                         consumer.consumer_group_metadata())
    producer.commit_transaction()
