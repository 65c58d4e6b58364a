"""Wrong: it commits its position when partitions are revoked, in the middle of a transaction. The
transaction is refused then, since the group has changed, and its bills are never read again.

Found by Produce#2:join. Fix: commit no offsets in the callback; those of the transaction are enough.

    ./kx torture --in bills --out paid -- /usr/bin/python3 examples/torture/commits_when_revoked.py {bootstrap} {slot}
"""
import sys
import time

from confluent_kafka import Consumer, KafkaException, Producer, TopicPartition

kafka = {"bootstrap.servers": sys.argv[1]}
consumer = Consumer({**kafka, "group.id": "payers", "auto.offset.reset": "earliest", "enable.auto.commit": False,
                     "isolation.level": "read_committed", "heartbeat.interval.ms": 500})
producer = Producer({**kafka, "transactional.id": "payer-" + sys.argv[2]})


def revoked(consumer, partitions):
    try:
        consumer.commit(offsets=consumer.position(partitions), asynchronous=False)
    except KafkaException:
        pass  # there was nothing to commit


def pay_for_a_while():
    """Pays all bills that come in four seconds, in one transaction."""
    end, after, group = time.monotonic() + 4, {}, None
    while time.monotonic() < end:
        bill = consumer.poll(0.1)
        if bill is None or bill.error():
            continue
        if not after:
            producer.begin_transaction()
            group = consumer.consumer_group_metadata()
        producer.produce("paid", b"paid " + bill.value(), partition=bill.partition())
        producer.poll(0)
        after[bill.partition()] = TopicPartition("bills", bill.partition(), bill.offset() + 1)
    if after:
        producer.send_offsets_to_transaction(list(after.values()), group)
        producer.commit_transaction()


producer.init_transactions()
consumer.subscribe(["bills"], on_revoke=revoked)
while True:
    try:
        pay_for_a_while()
    except KafkaException as refused:
        if not refused.args[0].txn_requires_abort():
            raise
        producer.abort_transaction()
