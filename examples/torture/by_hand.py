"""Right: partitions are assigned by hand, and the transactional id is made of the slot, so each start fences the
earlier one in its slot.

    ./kx torture --in bills --out paid -- /usr/bin/python3 examples/torture/by_hand.py {bootstrap} {slot}
"""
import sys
import time

from confluent_kafka import OFFSET_BEGINNING, Consumer, Producer, TopicPartition

PARTITIONS = {"1": [0, 1], "2": []}  # of each slot
kafka = {"bootstrap.servers": sys.argv[1]}
own = [TopicPartition("bills", it) for it in PARTITIONS[sys.argv[2]]]
while not own:
    time.sleep(1)
consumer = Consumer({**kafka, "group.id": "payers", "enable.auto.commit": False,
                     "isolation.level": "read_committed"})
producer = Producer({**kafka, "transactional.id": "payer-" + sys.argv[2]})
producer.init_transactions()
# only now, since init_transactions has aborted what an earlier start left open
consumer.assign([TopicPartition(it.topic, it.partition, it.offset if it.offset >= 0 else OFFSET_BEGINNING)
                 for it in consumer.committed(own, timeout=30)])
while True:
    bill = consumer.poll(1)
    if bill is None or bill.error():
        continue
    after = TopicPartition(bill.topic(), bill.partition(), bill.offset() + 1)
    producer.begin_transaction()
    producer.produce("paid", b"paid " + bill.value())
    producer.send_offsets_to_transaction([after], consumer.consumer_group_metadata())
    producer.commit_transaction()
