"""Wrong: it aborts and goes on with the next bill. The consumer's position is already after the bill whose
transaction was aborted, so nobody pays it.

Found by TxnOffsetCommit#1:refuse-30, and not by expel: after a rebalance the position is the committed
offset. Fix: seek to the committed offsets after an abort, as rewinds.py does.

    ./kx torture --in bills --out paid -- /usr/bin/python3 examples/torture/no_rewind.py {bootstrap} {slot}
"""
import sys

from confluent_kafka import Consumer, KafkaException, Producer, TopicPartition

kafka = {"bootstrap.servers": sys.argv[1]}
consumer = Consumer({**kafka, "group.id": "payers", "auto.offset.reset": "earliest",
                     "enable.auto.commit": False, "isolation.level": "read_committed"})
producer = Producer({**kafka, "transactional.id": "payer-" + sys.argv[2]})


def pay(bill):
    after = TopicPartition(bill.topic(), bill.partition(), bill.offset() + 1)
    producer.begin_transaction()
    producer.produce("paid", b"paid " + bill.value())
    producer.send_offsets_to_transaction([after], consumer.consumer_group_metadata())
    producer.commit_transaction()


producer.init_transactions()
consumer.subscribe(["bills"])
while True:
    bill = consumer.poll(1)
    if bill is None or bill.error():
        continue
    try:
        pay(bill)
    except KafkaException as refused:
        if not refused.args[0].txn_requires_abort():
            raise
        producer.abort_transaction()
