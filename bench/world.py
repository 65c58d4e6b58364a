#!/usr/bin/env python3
"""Writes a script over a whole world: world.py [TRANSACTIONS [CLIENTS [PARTITIONS [RECORDS]]]].

Each transaction is of one batch: eleven lines and eight messages. The batch has one record of a few
bytes, or so many records of 64 bytes. With a last word `idempotent` the clients have no
transactional id, and there are so many batches in place of transactions: three lines and two
messages each. Every message is delivered once, in order.
"""
import sys

words = sys.argv[1:]
is_idempotent = words[-1:] == ["idempotent"]
if is_idempotent:
    words.pop()
count, clients, partitions, records = (
    int(words[at]) if at < len(words) else default
    for at, default in ((0, 100_000), (1, 1_000), (2, 16), (3, 0))
)
write = sys.stdout.write
values = " " + " ".join(["x" * 64] * records) if records else ""
message = 0


def deliver(places):
    for at in places:
        write(f"deliver {message + at}\n")


write(f"world {partitions}\n")
for client in range(1, clients + 1):
    write(f"client {client} {'-' if is_idempotent else f't{client}'}\ninit {client}\n")
    deliver((0, 1))
    message += 2
for number in range(count):
    client, partition = number % clients + 1, number % partitions
    sent = f"send {client} {partition}{values or f' v{number}'}\n"
    if is_idempotent:
        write(sent)
        deliver((0, 1))
        message += 2
        continue
    write(f"begin {client}\n{sent}")
    # the batch, the partition's question, the answer, the reply
    deliver(range(4))
    write(f"commit {client}\n")
    # the request to end; then its marker, the marker's answer, the reply
    deliver((4, 6, 7, 5))
    message += 8
