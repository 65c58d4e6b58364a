"""Consume, process, produce, exactly once: worker.py ADDRESS COUNT NAME. Run as many as you like."""
import sys
from confluent_kafka import Consumer, KafkaException, Producer, TopicPartition

if len(sys.argv) != 4:
    sys.exit(__doc__)
kafka = {"bootstrap.servers": sys.argv[1]}
consumer = Consumer({**kafka, "group.id": "payers", "auto.offset.reset": "earliest",
                     "enable.auto.commit": False, "isolation.level": "read_committed"})
producer = Producer({**kafka, "transactional.id": sys.argv[3]})
producer.init_transactions()
consumer.subscribe(["bills"])
for _ in range(int(sys.argv[2])):
    while (bill := consumer.poll(1)) is None or bill.error():
        pass
    after = TopicPartition(bill.topic(), bill.partition(), bill.offset() + 1)
    producer.begin_transaction()
    try:
        producer.produce("paid", b"paid " + bill.value())
        producer.send_offsets_to_transaction([after], consumer.consumer_group_metadata())
        producer.commit_transaction()
    except KafkaException:
        producer.abort_transaction()
        raise  # such as where another worker has the partition by now: begin anew
consumer.close()
