#!/usr/bin/env python3
"""Readers of both isolation levels over a folder that `serve --dir` wrote, with a committed, an
aborted and an open transaction.

    levels.py [PROGRAM]
"""
import os
import struct
import subprocess
import sys

from server import Server, Trial, folder, program

sys.path.insert(0, os.path.join(os.path.dirname(os.path.abspath(__file__)), ".."))
from kill import Connection, batch  # noqa: E402

try:
    from confluent_kafka import Consumer, TopicPartition
except ImportError:
    print("skipped: confluent_kafka isn't installed (Debian's python3-confluent-kafka)")
    raise SystemExit(0)

INIT, END, PRODUCE = 1, 3, 5
trial = Trial()


def read(address, level):
    consumer = Consumer({"bootstrap.servers": address, "group.id": "none", "enable.auto.commit": False,
        "isolation.level": level, "enable.partition.eof": True})
    consumer.assign([TopicPartition("kept", 0, 0)])
    values = []
    while True:
        it = consumer.poll(10)
        if it is None or it.error():
            consumer.close()
            return values
        values.append((it.offset(), it.value()))


def transact(port, client, name, value, ends):
    """A transaction of one record in partition 0: `ends` is 1 for a commit, 0 for an abort, None for
    neither. Returns the offset of the record."""
    connection = Connection(port, client)
    text = bytes([len(name)]) + name
    code, producer, epoch = struct.unpack(">hqh", connection.ask(INIT, text + struct.pack(">I", 60000)))
    assert code == 0, code
    written = batch(value, producer, epoch, 0)
    _, code, offset = struct.unpack(">Hhq", connection.ask(PRODUCE,
        text + struct.pack(">HI", 0, len(written)) + written))
    assert code == 0, code
    if ends is not None:
        code, _, _ = struct.unpack(">hqh", connection.ask(END, text + struct.pack(">qhB", producer, epoch,
            ends)))
        assert code == 0, code
    return offset


with folder() as kept:
    own = subprocess.Popen([program(), "serve", "--partitions", "1", "--connections", "5", "--dir", kept],
        stdout=subprocess.PIPE, text=True)
    port = int(own.stdout.readline().split()[1])
    values = [(b"committed", 1), (b"aborted", 0), (b"committed too", 1), (b"open", None),
        (b"after the open one", 1)]
    offsets = [transact(port, number, b"t%d" % number, value, ends)
        for number, (value, ends) in enumerate(values)]
    own.wait(10)
    stand = [(offset, value) for offset, (value, _) in zip(offsets, values)]
    with Server(program(), "--topics", "kept:1", folder=kept) as server:
        trial.look("uncommitted records too", read(server.address, "read_uncommitted"), stand)
        trial.look("committed records below the open transaction", read(server.address, "read_committed"),
            [stand[0], stand[2]])
        for level, end in (("read_uncommitted", offsets[-1] + 2), ("read_committed", offsets[3])):
            consumer = Consumer({"bootstrap.servers": server.address, "group.id": "none",
                "isolation.level": level})
            _, found = consumer.get_watermark_offsets(TopicPartition("kept", 0), timeout=10)
            trial.look(f"the last offset of a {level} reader", found, end)
            consumer.close()
trial.end()
