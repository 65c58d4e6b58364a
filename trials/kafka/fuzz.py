#!/usr/bin/env python3
"""Sends requests of random fields, whole and broken, while another client's requests have to go through.

    fuzz.py [PROGRAM] [--requests N] [--seed S] [--connections C]

Each request is written by its layout in Kafka's protocol guide (record/kafka_requests.py), with fields
that are at their extremes, or name what is there, or are random; batches are right, or of a wrong
checksum, or random bytes. One in eight is then broken: bytes changed, cut, or lengthened. C connections
send N requests in all, 100,000 if nothing else is said, each at most 20 before it closes.

- Each answer has the correlation id of its request, in order, and its whole frame arrives.
- A connection that sent what can't be read is closed, or answered as far as it can be read.
- Nothing waits longer than a minute for an answer, but for Fetch, JoinGroup and SyncGroup.
- Meanwhile another client is answered each time, and reads in the end what it was answered for.
- The server holds on, says nothing of a crash, and its audit says yes.
"""
import os
import random
import socket
import struct
import sys
import threading
import time

sys.path.insert(0, os.path.join(os.path.dirname(os.path.abspath(__file__)), "record"))
sys.path.insert(0, os.path.join(os.path.dirname(os.path.abspath(__file__)), ".."))

from frames import crc32c, varint
from kafka_requests import APIS
from server import Server, Trial, program

NAMES = [b"bills", b"paid", b"nowhere", b"__consumer_offsets", b"", b"a" * 249, b"b" * 250, b"\xff\xfe",
         b"pay", b"bad id\n", b"g", b"consumer", b"range"]
NUMBERS = [0, 1, 2, -1, -2, 3, 5, 10, 100, 127, 128, 1000, 32766, 32767, 65536, 2**31 - 1, 2**63 - 1]
WAITS = {1, 11, 14}


def record_batch(draw, value):
    """A batch of one record, right but for what is drawn."""
    held = draw.choice([(-1, -1, -1), (0, 0, 0), (0, 0, draw.randrange(4)), (1, 0, 0), (9, 32767, 0)])
    record = bytes([0, 0, 0, 1]) + varint(len(value)) + value + b"\0"
    body = struct.pack(">hiqqqhii", draw.choice([0, 0, 0, 0x10, 1, 0x20]), 0, 0, 0, *held, 1)
    body += varint(len(record)) + record
    if draw.random() < 0.1:
        body = changed(draw, body)
    crc = crc32c(body) ^ (draw.random() < 0.05)
    size = len(body) + 9 + (draw.random() < 0.03)
    return struct.pack(">qiibI", draw.choice([0, 0, 7, -1]), size, 0, 2, crc) + body


def changed(draw, text):
    text = bytearray(text)
    for _ in range(draw.randrange(1, 4)):
        if text:
            text[draw.randrange(len(text))] = draw.randrange(256)
    return bytes(text)


class Writer:
    """Draws fields where a `Reader` of kafka_requests reads them, by the same layouts."""

    def __init__(self, draw, version, flexible):
        self.draw, self.version, self.flexible, self.text = draw, version, flexible, b""

    def number(self, size):
        draw = self.draw
        it = draw.choice(NUMBERS) if draw.random() < 0.8 else draw.getrandbits(8 * size)
        it = (it + 2 ** (8 * size - 1)) % 2 ** (8 * size) - 2 ** (8 * size - 1)
        self.text += it.to_bytes(size, "big", signed=True)
        return it

    def int8(self):
        return self.number(1)

    def int16(self):
        return self.number(2)

    def int32(self):
        return self.number(4)

    def int64(self):
        return self.number(8)

    def boolean(self):
        self.text += bytes([self.draw.choice([0, 1, 1, 2])])
        return "true"

    def unsigned_varint(self, it):
        while it > 127:
            self.text += bytes([it & 127 | 128])
            it >>= 7
        self.text += bytes([it])

    def length(self, size, it):
        if self.flexible:
            self.unsigned_varint(it + 1)
        else:
            self.text += it.to_bytes(size, "big", signed=True)

    def put(self, size, value):
        self.length(size, -1 if value is None else len(value))
        self.text += value or b""
        return ""

    def string(self):
        return self.put(2, self.draw.choice(NAMES))

    def nullable_string(self):
        return self.put(2, self.draw.choice([None, *NAMES]))

    def bytes(self):
        return self.put(4, self.draw.randbytes(self.draw.choice([0, 1, 30])))

    def nullable_bytes(self):
        draw = self.draw
        value = draw.choice([None, b"", draw.randbytes(70)] + [record_batch(draw, b"fuzz")] * 8)
        return self.put(4, value)

    def array(self, element, null_from=None):
        draw = self.draw
        if draw.random() < 0.05:
            self.length(4, -1)
            return None if null_from is not None else []
        count = draw.choice([0, 1, 1, 1, 2, 3])
        self.length(4, count)
        return [self.struct(element) for _ in range(count)]

    def struct(self, element):
        told = element(self)
        if getattr(element, "__name__", "") != "int32":
            self.tags()
        return told

    def tags(self):
        if self.flexible:
            self.unsigned_varint(0)

    def since(self, version, field, other):
        return other if self.version < version else field()


def without_long_waits(key, text):
    """The same, but a Fetch waits for 50 ms at most."""
    if key == 1:
        return text[:4] + struct.pack(">i", 50) + text[8:]
    return text


def request(draw, correlation):
    """A request, whether it is whole, and its API."""
    key = draw.choice(list(APIS))
    api = APIS[key]
    version = draw.randint(api.first, api.last)
    writer = Writer(draw, version, version >= api.flexible_from)
    api.fields(writer)
    fields = without_long_waits(key, writer.text)
    head = struct.pack(">hhi", key, version, correlation) + b"\0\4fuzz"
    tags = b"\0" if writer.flexible else b""
    text = head + tags + fields + tags
    if draw.random() < 1 / 8:
        broken = draw.choice([
            lambda: text[:8] + changed(draw, text[8:]), lambda: text[:draw.randrange(8, len(text))],
            lambda: text + draw.randbytes(draw.randrange(1, 9)),
            lambda: struct.pack(">hh", draw.choice([key, 99, -1, 3]), draw.randrange(-1, 20)) + text[4:]])
        return broken(), False, key
    return text, True, key


class Tally:
    def __init__(self):
        self.lock, self.counts, self.wrong = threading.Lock(), {}, []

    def add(self, what, count=1):
        with self.lock:
            self.counts[what] = self.counts.get(what, 0) + count

    def note(self, what):
        with self.lock:
            self.wrong.append(what)


def receive(it):
    got = b""
    while len(got) < 4 or len(got) < 4 + struct.unpack(">I", got[:4])[0]:
        want = 4 - len(got) if len(got) < 4 else 4 + struct.unpack(">I", got[:4])[0] - len(got)
        piece = it.recv(want)
        if not piece:
            if got:
                raise ValueError(f"a frame of {len(got)} bytes ended early")
            return b""
        got += piece
    return got[4:]


def talk(port, draw, tally, budget):
    """One connection: some requests, all sent before their answers are read, or each after the one
    before was answered."""
    it = socket.create_connection(("127.0.0.1", port), timeout=10)
    asked = [request(draw, number) for number in range(min(budget, draw.randint(1, 20)))]
    may_wait = any(key in WAITS for _, _, key in asked)
    if not may_wait:
        it.settimeout(60)
    at_once = draw.random() < 0.3
    answered = sent = 0
    try:
        if at_once:
            sent = len(asked)
            it.sendall(b"".join(struct.pack(">I", len(text)) + text for text, _, _ in asked))
        for number, (text, whole, key) in enumerate(asked):
            if not at_once:
                sent += 1
                it.sendall(struct.pack(">I", len(text)) + text)
            # a Produce with acks 0 has no answer
            if key == 0 and no_answer(text):
                continue
            answer = receive(it)
            if not answer:
                tally.add("closed")
                break
            found = struct.unpack(">i", answer[:4])[0]
            if found != number:
                tally.note(f"correlation {found} for {number}: {text.hex()}")
                break
            answered += 1
    except socket.timeout:
        if not may_wait:
            tally.note(f"no answer in a minute: {[text.hex() for text, _, _ in asked]}"[:2000])
        tally.add("waited")
    except ValueError as fault:
        tally.note(str(fault))
    except OSError:
        tally.add("reset")
    finally:
        it.close()
    tally.add("answered", answered)
    return sent


def no_answer(text):
    """Whether a Produce asks for no answer, as far as it can be read."""
    try:
        at = 8 + 2 + struct.unpack(">h", text[8:10])[0]
        length = struct.unpack(">h", text[at:at + 2])[0]
        at += 2 + max(length, 0)
        return struct.unpack(">h", text[at:at + 2])[0] == 0
    except struct.error:
        return False


def fuzz(port, seed, tally, left, lock):
    draw = random.Random(seed)
    while True:
        with lock:
            budget = min(20, left[0])
            left[0] -= budget
        if not budget:
            return
        try:
            sent = talk(port, draw, tally, budget)
        except Exception as fault:
            tally.note(f"{type(fault).__name__}: {fault}")
            return
        with lock:
            left[0] += budget - sent


class Canary:
    """A client whose records have to be there in the end, each answered within some seconds."""

    def __init__(self, port):
        self.port, self.written, self.slowest, self.failed = port, 0, 0.0, []
        self.it = None

    def ask(self, key, version, fields):
        if not self.it:
            self.it = socket.create_connection(("127.0.0.1", self.port), timeout=300)
        text = struct.pack(">hhi", key, version, 1) + b"\0\6canary" + fields
        begun = time.time()
        self.it.sendall(struct.pack(">I", len(text)) + text)
        answer = receive(self.it)
        self.slowest = max(self.slowest, time.time() - begun)
        return answer[4:]

    def once(self):
        value = f"canary {self.written}".encode()
        record = bytes([0, 0, 0, 1]) + varint(len(value)) + value + b"\0"
        body = struct.pack(">hiqqqhii", 0, 0, 0, 0, -1, -1, -1, 1) + varint(len(record)) + record
        batch = struct.pack(">qiibI", 0, len(body) + 9, 0, 2, crc32c(body)) + body
        fields = struct.pack(">hhii", -1, -1, 30000, 1) + b"\0\5birds"
        answer = self.ask(0, 3, fields + struct.pack(">iii", 1, 0, len(batch)) + batch)
        code = struct.unpack(">h", answer[4 + 7 + 4 + 4:][:2])[0] if answer else None
        if code != 0:
            self.failed.append(code)
        self.written += 1

    def records(self):
        """How many of its records a reader gets."""
        found, at = 0, 0
        while True:
            fields = struct.pack(">iiiib", -1, 0, 0, 1 << 20, 0) + struct.pack(">i", 1) + b"\0\5birds"
            answer = self.ask(1, 4, fields + struct.pack(">iiqi", 1, 0, at, 1 << 20))
            count = answer.count(b"canary ")
            if not count:
                return found
            found += count
            at += count


def option(name, other):
    return int(sys.argv[sys.argv.index(name) + 1]) if name in sys.argv else other


def main():
    requests, seed = option("--requests", 100000), option("--seed", 1)
    connections = option("--connections", 4)
    trial, tally = Trial(), Tally()
    with Server(program(), "--topics", "bills:2,paid:1,birds:1") as server:
        left, lock, ended = [requests], threading.Lock(), threading.Event()
        canary = Canary(server.port)

        def sing():
            while not ended.is_set():
                canary.once()
                time.sleep(0.05)
        singer = threading.Thread(target=sing)
        singer.start()
        threads = [threading.Thread(target=fuzz, args=(server.port, seed * 1000 + it, tally, left, lock))
                   for it in range(connections)]
        for it in threads:
            it.start()
        for it in threads:
            it.join()
        ended.set()
        singer.join()
        print(f"{requests} requests: {tally.counts}; the other client's {canary.written} requests took"
              f" {canary.slowest:.2f} s at most")
        trial.look("answers are in order, whole and in time", tally.wrong[:3], [])
        trial.look("the other client is answered", canary.failed, [])
        trial.look("and reads what it wrote", canary.records(), canary.written)
        trial.look("the server holds on", server.process.poll(), None)
    trial.end()


if __name__ == "__main__":
    main()
