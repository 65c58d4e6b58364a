#!/usr/bin/env python3
"""A client of `./kx serve`: it commits a transaction of one record and reads it back.

    ./kx serve --partitions 1 --connections 1 --port 7171 &
    python3 examples/client.py 7171

Every request and reply is a frame of docs/FORMATS.md, "Frames": a length (4 bytes), a kind (1 byte)
and fields, all numbers highest byte first. Nothing but Python's standard library is used.
"""
import socket
import struct
import sys

# Kinds of frames.
INIT_PRODUCER_ID, END_TXN, PRODUCE, FETCH = 1, 3, 5, 11

# Who asks. The server answers each client over the connection that spoke last for its number.
CLIENT = 1

# The transactional id, with its length in front.
TXN = b"\x03pay"

PARTITION = 0
COMMIT = 1

# Attribute bit 4 of a record batch: it is part of a transaction.
TRANSACTIONAL = 0x10


class Client:
    """A connection, over which one request waits at a time."""

    def __init__(self, port):
        self.socket = socket.create_connection(("127.0.0.1", port))
        self.correlation = 0

    def ask(self, kind, fields):
        """Sends a request, and returns the fields of the reply after client and correlation."""
        body = struct.pack(">BII", kind, CLIENT, self.correlation) + fields
        self.correlation += 1
        self.socket.sendall(struct.pack(">I", len(body)) + body)
        (length,) = struct.unpack(">I", self.receive(4))
        reply = self.receive(length)
        return reply[9:]

    def receive(self, count):
        """Returns this many bytes."""
        received = b""
        while len(received) < count:
            more = self.socket.recv(count - len(received))
            if not more:
                sys.exit("the server closed the connection")
            received += more
        return received

    def init_producer_id(self, timeout_ms):
        """Asks for a producer id and an epoch: code, id, epoch."""
        reply = self.ask(INIT_PRODUCER_ID, TXN + struct.pack(">I", timeout_ms))
        return struct.unpack(">hqh", reply)

    def produce(self, batch):
        """Appends a record batch: partition, code, offset."""
        fields = TXN + struct.pack(">HI", PARTITION, len(batch)) + batch
        return struct.unpack(">Hhq", self.ask(PRODUCE, fields))

    def end_txn(self, producer, epoch, outcome):
        """Ends the transaction: code, and the id and epoch of the next one."""
        fields = TXN + struct.pack(">qhB", producer, epoch, outcome)
        return struct.unpack(">hqh", self.ask(END_TXN, fields))

    def fetch_committed(self, offset, max_bytes):
        """Reads committed records: code, last stable offset, end, and the record batches."""
        reply = self.ask(FETCH, struct.pack(">HqIB", PARTITION, offset, max_bytes, True))
        _partition, code, _next, stable, end, aborted = struct.unpack(">HhqqqI", reply[:32])
        batches = reply[32 + 16 * aborted + 4:]
        return code, stable, end, batches


def crc32c(data):
    """The checksum of a record batch (RFC 3720), bit by bit."""
    crc = 0xFFFFFFFF
    for byte in data:
        crc ^= byte
        for _ in range(8):
            crc = (crc >> 1) ^ (0x82F63B78 if crc & 1 else 0)
    return crc ^ 0xFFFFFFFF


def varint(number):
    """A number from 0 to 63 in one byte."""
    assert 0 <= number < 64
    return bytes([2 * number])


def record_batch(value, producer, epoch, sequence):
    """A transactional batch of one short record without a key (Kafka's message format, magic 2)."""
    no_key, no_headers = b"\x01", varint(0)
    record = b"\x00" + varint(0) + varint(0) + no_key + varint(len(value)) + value + no_headers
    record = varint(len(record)) + record
    last_offset_delta = base_timestamp = max_timestamp = 0
    count = 1
    covered = struct.pack(
        ">hiqqqhii",
        TRANSACTIONAL, last_offset_delta, base_timestamp, max_timestamp,
        producer, epoch, sequence, count,
    ) + record
    base_offset = leader_epoch = 0
    magic = 2
    length = len(covered) + 9
    front = struct.pack(">qiibI", base_offset, length, leader_epoch, magic, crc32c(covered))
    return front + covered


def main(port):
    client = Client(port)
    code, producer, epoch = client.init_producer_id(timeout_ms=60_000)
    print("InitProducerId: code", code, "producer id", producer, "epoch", epoch)

    batch = record_batch(b"rent", producer, epoch, sequence=0)
    partition, code, offset = client.produce(batch)
    print(f"Produce: partition {partition}, code {code}, offset {offset}")

    code, producer, epoch = client.end_txn(producer, epoch, COMMIT)
    print(f"EndTxn: code {code}, goes on with producer id {producer}, epoch {epoch}")

    # The commit is answered before its marker is written, so ask until the marker stands: it takes
    # one offset after the record.
    stable = 0
    while stable < 2:
        code, stable, end, batches = client.fetch_committed(offset=0, max_bytes=65_536)
    count = batches.count(b"rent")
    print(f"Fetch: code {code}, last stable offset {stable}, end {end}, {count} rent")


if __name__ == "__main__":
    if len(sys.argv) != 2:
        sys.exit(__doc__)
    main(int(sys.argv[1]))
