#!/usr/bin/env python3
"""Records what kafka-python and sarama send, by a server that answers them just enough to go on.

    kafka_clients.py [FILE]

Starts a server on a free port of 127.0.0.1 that speaks the versions which all stock clients work
with (docs/FORMATS.md), to which kafka-python and sarama (kafka_sarama.go) produce, plainly and, of
sarama, idempotently, and from which they read, with and without a group. Set to other versions of
Kafka, both also send requests in versions that the server doesn't speak; it hangs up. Prints in
which APIs and versions each of them asked. With FILE, the first request of each client, API and
version goes there as cases of crates/kx_cases_kafka, whose answers are kafka_requests.py's.

Wants python3-kafka, and for sarama golang-go and golang-github-shopify-sarama-dev; says so and goes
on where one of them isn't installed. Ends with status 1 where a client fails that the server speaks
with, or where kafka-python reads other values from a request than kafka_requests.py.
"""
import io
import logging
import os
import shutil
import socket
import struct
import subprocess
import sys
import tempfile
import threading
import time
import traceback

sys.path.append(os.path.join(os.path.dirname(os.path.abspath(__file__)), "..", ".."))

import kafka_requests  # noqa: E402
from frames import next_frame  # noqa: E402

HERE = os.path.dirname(os.path.abspath(__file__))
GOCODE = "/usr/share/gocode"
TOPIC = b"t"


def string(text):
    return struct.pack(">h", len(text)) + text


def counted(text):
    return struct.pack(">i", len(text)) + text


def array(elements):
    return struct.pack(">i", len(elements)) + b"".join(elements)


class Server:
    """One broker, the topic `t` with partition 0, and whatever was last appended to it."""

    def __init__(self, offered):
        self.offered = offered
        self.listener = socket.create_server(("127.0.0.1", 0))
        self.port = self.listener.getsockname()[1]
        self.requests = []
        self.log = []
        self.end = 0
        threading.Thread(target=self.accept, daemon=True).start()

    def accept(self):
        while True:
            connection, _ = self.listener.accept()
            threading.Thread(target=self.serve, args=(connection,), daemon=True).start()

    def serve(self, connection):
        try:
            while True:
                text = next_frame(connection)[4:]
                self.requests.append(text)
                answer = self.answer(text)
                if answer is None:
                    return
                connection.sendall(counted(text[4:8] + answer))
        except OSError:
            pass
        finally:
            connection.close()

    def broker(self, rack):
        it = struct.pack(">i", 0) + string(b"127.0.0.1") + struct.pack(">i", self.port)
        return it + (struct.pack(">h", -1) if rack else b"")

    def answer(self, text):
        """The response behind its correlation id, or None where the request isn't answered."""
        key, version = struct.unpack(">hh", text[:4])
        first, last = self.offered[key]
        if not first <= version <= last:
            return None
        r = kafka_requests.Reader(text)
        r.at, r.version = 8, version
        r.nullable_string()
        throttle = struct.pack(">i", 0)
        if key == 18:
            keys = [struct.pack(">hhh", key, *self.offered[key]) for key in sorted(self.offered)]
            return struct.pack(">h", 0) + array(keys)
        if key == 3:
            return self.metadata_response(version)
        if key == 10:
            return struct.pack(">h", 0) + self.broker(False)
        if key == 22:
            return throttle + struct.pack(">hqh", 0, 7, 0)
        if key == 0:
            return self.produce(r)
        if key == 2:
            return self.list_offsets(r)
        if key == 1:
            return throttle + self.fetch(r)
        front = throttle if (key, version) in [(11, 2), (14, 1), (12, 1), (13, 1)] else b""
        return front + self.group(key, r)

    def metadata_response(self, version):
        numbers = array([struct.pack(">i", 0)])
        partition = struct.pack(">hii", 0, 0, 0) + numbers + numbers
        if version >= 5:
            partition += array([])
        topic = struct.pack(">h", 0) + string(TOPIC) + (b"\0" if version >= 1 else b"")
        answer = struct.pack(">i", 0) if version >= 3 else b""
        answer += array([self.broker(version >= 1)])
        if version >= 2:
            answer += string(b"kx")
        if version >= 1:
            answer += struct.pack(">i", 0)
        return answer + array([topic + array([partition])])

    def produce(self, r):
        r.nullable_string(), r.int16(), r.int32()
        r.int32(), r.string(), r.int32(), r.int32()
        batch = r.nullable(4)
        base = self.end
        count = struct.unpack(">i", batch[57:61])[0]
        self.log.append((base, struct.pack(">q", base) + batch[8:]))
        self.end += count
        part = struct.pack(">ihqq", 0, 0, base, -1)
        return array([string(TOPIC) + array([part])]) + struct.pack(">i", 0)

    def list_offsets(self, r):
        r.int32()
        if r.version >= 2:
            r.int8()
        r.int32(), r.string(), r.int32(), r.int32()
        offset = self.end if r.int64() == -1 else 0
        front = struct.pack(">i", 0) if r.version >= 2 else b""
        part = struct.pack(">ihqq", 0, 0, -1, offset)
        return front + array([string(TOPIC) + array([part])])

    def fetch(self, r):
        r.int32()
        wait = r.int32()
        r.int32(), r.int32(), r.int8(), r.int32(), r.string(), r.int32(), r.int32()
        offset = r.int64()
        found = b"".join(batch for base, batch in self.log if base >= offset)
        if not found:
            time.sleep(min(wait, 200) / 1000)
        part = struct.pack(">ihqqi", 0, 0, self.end, self.end, 0) + counted(found)
        return array([string(TOPIC) + array([part])])

    def group(self, key, r):
        ok = struct.pack(">h", 0)
        if key == 11:
            r.string(), r.int32(), r.since(1, r.int32, -1), r.string(), r.string(), r.int32()
            protocol, metadata = r.counted(2), r.counted(4)
            member = string(b"member")
            answer = ok + struct.pack(">i", 1) + string(protocol) + member + member
            return answer + array([member + counted(metadata)])
        if key == 14:
            r.string(), r.int32(), r.string(), r.int32(), r.string()
            return ok + counted(r.counted(4))
        if key == 8:
            return array([string(TOPIC) + array([struct.pack(">ih", 0, 0)])])
        if key == 9:
            part = struct.pack(">iq", 0, -1) + string(b"") + struct.pack(">h", 0)
            return array([string(TOPIC) + array([part])])
        return ok


MINIMAL = {
    0: (3, 4), 1: (4, 4), 2: (1, 2), 3: (0, 5), 8: (1, 2), 9: (1, 1), 10: (0, 1), 11: (0, 2),
    12: (0, 1), 13: (0, 1), 14: (0, 1), 18: (0, 0), 22: (0, 0), 24: (0, 0), 25: (0, 0), 26: (0, 1),
    28: (0, 0),
}


def kafka_python(server, api_version, spoken):
    """A producer, a consumer of a partition and one of a group; `api_version` as kafka-python takes
    it, None where it is to find it out. Where the server doesn't speak all that it is to send, a
    producer and a consumer for a moment."""
    import kafka
    address = f"127.0.0.1:{server.port}"
    producer = kafka.KafkaProducer(bootstrap_servers=address, api_version=api_version)
    sent = producer.send("t", b"value")
    consumer = kafka.KafkaConsumer(bootstrap_servers=address, api_version=api_version)
    partition = kafka.TopicPartition("t", 0)
    consumer.assign([partition])
    consumer.seek_to_beginning(partition)
    if not spoken:
        consumer.poll(timeout_ms=1000)
        consumer.close()
        producer.close(timeout=0)
        return
    sent.get(timeout=10)
    producer.close()
    found = consumer.poll(timeout_ms=5000)
    consumer.close()
    if not found:
        raise AssertionError("kafka-python has read nothing")
    consumer = kafka.KafkaConsumer(
        "t", bootstrap_servers=address, api_version=api_version, group_id="g",
        auto_offset_reset="earliest", heartbeat_interval_ms=200, session_timeout_ms=6000)
    for _ in range(20):
        if consumer.poll(timeout_ms=500):
            break
    else:
        raise AssertionError("kafka-python has read nothing in a group")
    time.sleep(1)
    consumer.commit()
    consumer.close()


def sarama(server, program, version, spoken):
    done = subprocess.run([program, f"127.0.0.1:{server.port}", version], timeout=60,
                          stdout=subprocess.PIPE, stderr=subprocess.STDOUT, text=True)
    if spoken and done.returncode != 0:
        raise AssertionError(f"sarama has failed:\n{done.stdout}")


def build_sarama(folder):
    """The program of sarama, or None where Go or sarama isn't installed."""
    if not shutil.which("go"):
        print("sarama: golang-go isn't installed, so it isn't tried")
        return None
    if not os.path.isdir(f"{GOCODE}/src/github.com/Shopify/sarama"):
        print("sarama: golang-github-shopify-sarama-dev isn't installed, so it isn't tried")
        return None
    program = os.path.join(folder, "sarama")
    env = dict(os.environ, GO111MODULE="off", GOPATH=GOCODE, GOFLAGS="",
               GOCACHE=os.path.join(folder, "cache"))
    subprocess.run(["go", "build", "-o", program, os.path.join(HERE, "kafka_sarama.go")],
                   env=env, check=True, stderr=subprocess.DEVNULL)
    return program


def has_kafka_python():
    try:
        import kafka
        import kafka.protocol
    except ImportError:
        print("kafka-python: python3-kafka isn't installed, so it isn't tried")
        return False
    return True


def value_texts(value):
    """The values of a struct of kafka-python's, one after the other, as they are told."""
    if isinstance(value, (list, tuple)):
        for it in value:
            yield from value_texts(it)
    elif hasattr(value, "SCHEMA"):
        for name in value.SCHEMA.names:
            yield from value_texts(getattr(value, name))
    elif isinstance(value, bool):
        yield "true" if value else "false"
    elif isinstance(value, bytes):
        yield kafka_requests.digits(value)
    elif value is not None:
        yield str(value)


def read_otherwise(text):
    """What kafka-python reads that kafka_requests.py doesn't tell; None where it can't read it."""
    import kafka.protocol.admin
    import kafka.protocol.commit
    import kafka.protocol.fetch
    import kafka.protocol.group
    import kafka.protocol.metadata
    import kafka.protocol.offset
    import kafka.protocol.produce
    from kafka.protocol.api import RequestHeader
    structs = {
        0: kafka.protocol.produce.ProduceRequest, 1: kafka.protocol.fetch.FetchRequest,
        2: kafka.protocol.offset.OffsetRequest, 3: kafka.protocol.metadata.MetadataRequest,
        8: kafka.protocol.commit.OffsetCommitRequest, 9: kafka.protocol.commit.OffsetFetchRequest,
        10: kafka.protocol.commit.GroupCoordinatorRequest,
        11: kafka.protocol.group.JoinGroupRequest, 12: kafka.protocol.group.HeartbeatRequest,
        13: kafka.protocol.group.LeaveGroupRequest, 14: kafka.protocol.group.SyncGroupRequest,
        18: kafka.protocol.admin.ApiVersionRequest,
    }
    key, version = struct.unpack(">hh", text[:4])
    told = kafka_requests.told(text)
    if key not in structs or told in kafka_requests.FAULTS:
        return None
    stream = io.BytesIO(text)
    RequestHeader.SCHEMA.decode(stream)
    request = structs[key][version].decode(stream)
    if stream.read():
        return ["bytes behind the last field"]
    words = told.replace("[", " ").replace("]", " ").replace(":", " ").split()
    values = [it for it in value_texts(request) if it]
    missing = []
    for value in values:
        if value in words:
            words.remove(value)
        else:
            missing.append(value)
    return missing or None


def first_of_each(requests):
    """The first request of each API and version, in the order in which they came."""
    found = {}
    for text in requests:
        found.setdefault(text[:4], text)
    return list(found.values())


def main():
    runs = []
    folder = tempfile.mkdtemp()
    # kafka-python and sarama as for these versions of Kafka, and whether the server speaks all that
    # they send.
    installed = has_kafka_python()
    if installed:
        logging.disable(logging.CRITICAL)
        for version, spoken in [(None, True), ((1, 0, 0), True), ((0, 11), False),
                                ((0, 10, 1), False), ((2, 1, 0), False)]:
            runs.append(("python", f"kafka-python, api_version {version}",
                         lambda server, version=version, spoken=spoken:
                         kafka_python(server, version, spoken)))
    program = build_sarama(folder)
    if program:
        for version, spoken in [("0.11.0.0", True), ("2.2.0", True), ("0.8.2.0", False),
                                ("0.10.0.0", False)]:
            runs.append(("sarama", f"sarama, version {version}",
                         lambda server, version=version, spoken=spoken:
                         sarama(server, program, version, spoken)))
    failed = False
    cases = []
    for client, name, run in runs:
        server = Server(MINIMAL)
        try:
            run(server)
        except Exception:
            traceback.print_exc()
            failed = True
        sent = first_of_each(server.requests)
        print(f"{name}: " + ", ".join(sorted(kafka_requests.version_of(it) for it in sent)))
        for text in sent:
            missing = read_otherwise(text) if installed else None
            if missing:
                print(f"kafka-python reads {text.hex()} otherwise: {missing}")
                failed = True
        cases.append((client, sent))
    shutil.rmtree(folder)
    if len(sys.argv) > 1:
        write_cases(sys.argv[1], cases)
    sys.exit(1 if failed else 0)


HEAD = """\
# Requests of kafka-python 2.0.2 and of sarama 1.22.1, as trials/kafka/record/kafka_clients.py
# captured them, without their lengths. What each says was read of its bytes by kafka_requests.py
# there, from the layouts of Kafka's protocol guide, and by kafka-python where it has the API.
# requests.cases says what the steps are.

"""


def write_cases(path, cases):
    named, seen = [], set()
    for client, sent in cases:
        for text in sent:
            if (client, text[:4]) not in seen:
                seen.add((client, text[:4]))
                named.append((f"{client}{len(named)}", text))
    with open(path, "w") as out:
        out.write(HEAD)
        stdout, sys.stdout = sys.stdout, out
        kafka_requests.print_cases(named)
        sys.stdout = stdout


if __name__ == "__main__":
    main()
