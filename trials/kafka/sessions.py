#!/usr/bin/env python3
"""Writes the sessions of stock clients that the gate runs (server/stock*.session of the cases) and
what has to come back, beside each.

    sessions.py FOLDER

Requests are those that librdkafka sent (captured), but for the length in front and, where a comment
says so, an offset or a time. Responses are written here by the layouts of Kafka's protocol guide
("The Messages") and the rules of docs/STOCK-CLIENTS.md: nothing of them is the program's.
"""
import os
import struct
import sys

# Captured of librdkafka 2.0.2, without their lengths.
API_VERSIONS_3 = ("0012000300000001000772646b61666b610017636f6e666c75656e742d6b61666b612d707974686f6e14312e372e302d"
    "72646b61666b612d322e302e3200")
API_VERSIONS_0 = "0012000000000002000772646b61666b61"
METADATA_NONE = "0003000400000003000772646b61666b610000000000"
FIND_COORDINATOR = "000a000100000004000772646b61666b610002707501"
INIT_PLAIN = "0016000000000004000772646b61666b61ffffffffffff"
INIT_TRANSACTIONAL = "0016000000000004000772646b61666b61000270750000ea60"
PLAIN_BATCH = ("00000000000000000000003a00000000021bf4ac12000000000000000001a21b26382d000001a21b26382dffffffffffffff"
    "ffffffffffffff00000001100000000104703000")
PRODUCE_PLAIN = ("0000000400000004000772646b61666b61ffffffff0000753000000001000174000000010000000000000046"
    + PLAIN_BATCH)
IDEMPOTENT_BATCH = ("0000000000000000000000430000000002de9f1e37000000000001000001a21b26383a000001a21b26383a00000000000000"
    "0100000000000000000002100000000104693000100000020104693100")
PRODUCE_IDEMPOTENT = ("0000000400000005000772646b61666b61ffffffff000075300000000100017400000001000000000000004f"
    + IDEMPOTENT_BATCH)
ADD_PARTITIONS = "0018000000000005000772646b61666b610002707500000000000000000000000000010001740000000100000000"
PRODUCE_TXN_1 = ("0000000400000007000772646b61666b6100027075ffff0000753000000001000174000000010000000000000045000000"
    "00000000000000003900000000028393b0e1001000000000000001a21b2631b5000001a21b2631b5000000000000000000"
    "0000000000000000010e00000001023100")
END_COMMIT = "001a000100000006000772646b61666b61000270750000000000000000000001"
ADD_PARTITIONS_2 = "0018000000000007000772646b61666b610002707500000000000000000000000000010001740000000100000000"
PRODUCE_TXN_2 = ("0000000400000008000772646b61666b6100027075ffff0000753000000001000174000000010000000000000045000000"
    "000000000000000039000000000282f46565001000000000000001a21b263596000001a21b263596000000000000000000"
    "0000000001000000010e00000001023200")
END_ABORT = "001a000100000008000772646b61666b61000270750000000000000000000000"
LIST_END = "0002000200000006000772646b61666b61ffffffff01000000010001740000000100000000ffffffffffffffff"
FETCH = ("0001000400000005000772646b61666b61ffffffff{wait:08x}000000010320000001000000010001740000000100000000"
    "{offset:016x}00100000")

# JoinGroup 2 of a client that is no member yet, and of the other requests what stands in front of the group.
JOIN = ("000b000200000004000772646b61666b61000267730000afc8000493e000000008636f6e73756d657200000002000572616e67"
    "65000000110001000000010001740000000000000000000a726f756e64726f62696e0000001100010000000100017400000000000000"
    "00")
SYNC, HEARTBEAT = "000e000100000006000772646b61666b61", "000c000100000007000772646b61666b61"
OFFSET_COMMIT, LEAVE = "0008000200000009000772646b61666b61", "000d00010000000b000772646b61666b61"
OFFSET_FETCH = "0009000700000007000772646b61666b6100036773020274030000000000000001000100"
ASSIGNMENT = "00000000000100017400000002000000000000000100000000"

OFFERED = [(0, 3, 4), (1, 4, 4), (2, 1, 2), (3, 0, 5), (8, 1, 2), (9, 1, 7), (10, 0, 1), (11, 0, 2), (12, 0, 1),
    (13, 0, 1), (14, 0, 1), (18, 0, 0), (22, 0, 4), (24, 0, 0), (25, 0, 0), (26, 0, 1), (28, 0, 3)]
NO_PORT = 0


def frame(text):
    return (struct.pack(">I", len(text)) + text).hex()


def request(text):
    return frame(bytes.fromhex(text))


def string(text):
    return struct.pack(">h", len(text)) + text


def correlation(text):
    return bytes.fromhex(text)[4:8]


def api_versions(to, code):
    ranges = b"".join(struct.pack(">hhh", *it) for it in OFFERED)
    return frame(correlation(to) + struct.pack(">hi", code, len(OFFERED)) + ranges)


def broker(number):
    return struct.pack(">i", number) + string(b"127.0.0.1") + struct.pack(">i", NO_PORT)


def metadata(to, topics):
    """Version 4: throttle, brokers with their rack, cluster, controller, topics."""
    text = correlation(to) + struct.pack(">ii", 0, 1) + broker(BROKER) + struct.pack(">h", -1)
    text += string(CLUSTER) + struct.pack(">ii", BROKER, len(topics))
    for code, name, count in topics:
        text += struct.pack(">h", code) + string(name) + struct.pack(">?i", False, count)
        for index in range(count):
            text += struct.pack(">hiiiiii", 0, index, BROKER, 1, BROKER, 1, BROKER)
    return frame(text)


def find_coordinator(to):
    """Version 1: throttle, error, its message, the broker."""
    return frame(correlation(to) + struct.pack(">ihh", 0, 0, -1) + broker(BROKER))


def init(to, code, producer, epoch):
    return frame(correlation(to) + struct.pack(">ihqh", 0, code, producer, epoch))


def produce(to, code, offset):
    """Version 4: topics with partitions (error, base offset, append time), throttle."""
    return frame(correlation(to) + struct.pack(">i", 1) + string(b"t") + struct.pack(">iihqqi", 1, 0, code,
        offset, -1, 0))


def list_offsets(to, offset):
    """Version 2: throttle, topics with partitions (error, time, offset)."""
    return frame(correlation(to) + struct.pack(">ii", 0, 1) + string(b"t") + struct.pack(">iihqq", 1, 0, 0, -1,
        offset))


def fetch(to, code, end, stable, records):
    """Version 4 of a reader of committed records: no aborted transactions."""
    return frame(correlation(to) + struct.pack(">ii", 0, 1) + string(b"t") + struct.pack(">iihqqii", 1, 0, code,
        end, stable, 0, len(records)) + records)


def stored(batch, offset):
    """A batch as it is kept: only its base offset is set, and the leader epoch is 0 already."""
    text = bytes.fromhex(batch)
    return struct.pack(">q", offset) + text[8:]


def metadata_request(name):
    return METADATA_NONE[:34] + (struct.pack(">i", 1) + string(name) + b"\1").hex()


# What this server says of itself.
BROKER, CLUSTER = 1, b"mokeupahi"


class Session:
    def __init__(self, about):
        self.lines, self.told = [f"# {line}" for line in about], []

    def do(self, *lines):
        self.lines += lines

    def ask(self, name, asked, answer, portless=False):
        self.lines += [f"send {name} {request(asked)}", ("portless " if portless else "receive ") + name]
        self.told.append(f"{name} {answer}")

    def write(self, path):
        for end, lines in ((".session", self.lines), (".out", self.told)):
            with open(path + end, "w") as out:
                out.write("\n".join(lines) + "\n")


def stock():
    it = Session(["What librdkafka asks of the server, and what is answered by Kafka's layouts."])
    it.do("kafka 1 with t:2,more:1", "open a")
    it.told.append("listening")
    it.ask("a", API_VERSIONS_3, api_versions(API_VERSIONS_3, 35))
    it.ask("a", API_VERSIONS_0, api_versions(API_VERSIONS_0, 0))
    it.do("# None in this version are no topics.")
    it.ask("a", METADATA_NONE, metadata(METADATA_NONE, []), portless=True)
    asked = metadata_request(b"t")
    it.ask("a", asked, metadata(asked, [(0, b"t", 2)]), portless=True)
    it.do("# A topic that isn't there, and a name that Kafka doesn't allow.")
    for name, code in ((b"nowhere", 3), (b"no/name", 17)):
        asked = metadata_request(name)
        it.ask("a", asked, metadata(asked, [(code, name, 0)]), portless=True)
    it.ask("a", FIND_COORDINATOR, find_coordinator(FIND_COORDINATOR), portless=True)
    it.ask("a", PRODUCE_PLAIN, produce(PRODUCE_PLAIN, 0, 0))
    it.do("# Producer ids are given in turn; a transactional id with a space in it is refused.")
    it.ask("a", INIT_PLAIN, init(INIT_PLAIN, 0, 0, 0))
    it.ask("a", INIT_PLAIN, init(INIT_PLAIN, 0, 1, 0))
    asked = INIT_TRANSACTIONAL.replace("00027075", "00022075")
    it.ask("a", asked, init(asked, 53, -1, -1))
    it.do("# The batch of producer 1, and the same again.")
    for _ in range(2):
        it.ask("a", PRODUCE_IDEMPOTENT, produce(PRODUCE_IDEMPOTENT, 0, 1))
    it.do("# After a refused batch librdkafka raises its own epoch, and begins at sequence 0.")
    raised = raise_epoch(IDEMPOTENT_BATCH, 1)
    asked = PRODUCE_IDEMPOTENT.replace(IDEMPOTENT_BATCH, raised)
    it.ask("a", asked, produce(asked, 0, 3))
    it.do("# A wrong checksum.")
    asked = PRODUCE_PLAIN[:-4] + "ff" + PRODUCE_PLAIN[-2:]
    it.ask("a", asked, produce(asked, 2, -1))
    it.do("# Where the log ends, and all of it.")
    it.ask("a", LIST_END, list_offsets(LIST_END, 5))
    asked = FETCH.format(wait=500, offset=0)
    whole = stored(PLAIN_BATCH, 0) + stored(IDEMPOTENT_BATCH, 1) + stored(raised, 3)
    it.ask("a", asked, fetch(asked, 0, 5, 5, whole))
    asked = FETCH.format(wait=0, offset=5)
    it.ask("a", asked, fetch(asked, 0, 5, 5, b""))
    asked = FETCH.format(wait=500, offset=6)
    it.ask("a", asked, fetch(asked, 1, -1, -1, b""))
    it.do("# An API that isn't offered closes the connection.",
        "send a " + request("000f000000000009000772646b61666b610001670001"), "closed a", "end")
    it.told.append("a closed")
    return it


def in_flight():
    it = Session(["Two requests are in flight: the first waits for a record, and the second is answered after",
        "it. A record that another connection appends wakes the first."])
    it.do("kafka 2 with t:2", "open a", "open b")
    it.told.append("listening")
    waits = FETCH.format(wait=20000, offset=0)
    it.do(f"send a {request(waits)}{request(API_VERSIONS_0)}", "wait 100")
    it.ask("b", PRODUCE_PLAIN, produce(PRODUCE_PLAIN, 0, 0))
    it.do("receive a", "receive a")
    it.told += ["a " + fetch(waits, 0, 1, 1, stored(PLAIN_BATCH, 0)), "a " + api_versions(API_VERSIONS_0, 0)]
    it.do("# A client that has closed waits for nothing.",
        f"send a {request(FETCH.format(wait=20000, offset=1))}", "finish a", "receive a", "closed a")
    it.told += ["a " + fetch(waits, 0, 1, 1, b""), "a closed"]
    it.do("drop b", "end")
    return it


def produce_request(batches, acks=-1, index=0):
    """PRODUCE_PLAIN with other batches, None for null."""
    text = bytes.fromhex(PRODUCE_PLAIN)[:19] + struct.pack(">hii", acks, 30000, 1) + string(b"t")
    text += struct.pack(">ii", 1, index)
    text += struct.pack(">i", -1) if batches is None else struct.pack(">i", len(batches)) + batches
    return text.hex()


def refused(index, code):
    answer = correlation(PRODUCE_PLAIN) + struct.pack(">i", 1) + string(b"t")
    return frame(answer + struct.pack(">iihqqi", 1, index, code, -1, -1, 0))


def compressed(batch):
    """The batch with gzip in its attributes, and its checksum."""
    text = bytearray.fromhex(batch)
    text[22] |= 1
    text[17:21] = struct.pack(">I", crc32c(bytes(text[21:])))
    return bytes(text)


def with_sequence(batch, sequence):
    """The batch with this base sequence, and its checksum."""
    text = bytearray.fromhex(batch)
    text[53:57] = struct.pack(">i", sequence)
    text[17:21] = struct.pack(">I", crc32c(bytes(text[21:])))
    return bytes(text)


def faults():
    it = Session(["Batches that are refused, and what closes a connection."])
    it.do("kafka 4 with t:1", "open a", "open b", "open c", "open d")
    it.told.append("listening")
    plain = bytes.fromhex(PLAIN_BATCH)
    for about, asked, index, code in (
            ("Two acknowledgements.", produce_request(plain, acks=2), 0, 21),
            ("A partition that isn't there.", produce_request(plain, index=1), 1, 3),
            ("Null records, and two batches.", produce_request(None), 0, 87),
            ("", produce_request(plain + plain), 0, 87),
            ("A compressed batch.", produce_request(compressed(PLAIN_BATCH)), 0, 76)):
        if about:
            it.do(f"# {about}")
        it.ask("a", asked, refused(index, code))
    it.do("# sarama's base sequence of a plain batch is 0: the batch is kept as one without.")
    asked = produce_request(with_sequence(PLAIN_BATCH, 0))
    it.ask("a", asked, produce(PRODUCE_PLAIN, 0, 0))
    asked = FETCH.format(wait=0, offset=0)
    it.ask("a", asked, fetch(asked, 0, 1, 1, stored(PLAIN_BATCH, 0)))
    it.do("# Without acknowledgement nothing is answered, and a refused batch closes the connection.")
    it.do(f"send a {request(produce_request(plain, acks=0))}")
    it.ask("a", API_VERSIONS_0, api_versions(API_VERSIONS_0, 0))
    it.do(f"send a {request(produce_request(plain, acks=0, index=1))}", "closed a")
    it.told.append("a closed")
    it.do("# A frame that is too long, half a frame, and a text that is no request.")
    for name, text in (("b", "00200001"), ("c", "0000000a0012")):
        it.do(f"send {name} {request(API_VERSIONS_0)}{text}", f"receive {name}", f"finish {name}",
            f"closed {name}")
        it.told += [f"{name} " + api_versions(API_VERSIONS_0, 0), f"{name} closed"]
    it.do(f"send d {request(API_VERSIONS_0[:-2])}", "closed d", "end")
    it.told.append("d closed")
    return it


def added(to, code):
    """AddPartitionsToTxn 0: throttle, topics with partitions (error)."""
    return frame(correlation(to) + struct.pack(">ii", 0, 1) + string(b"t") + struct.pack(">iih", 1, 0, code))


def ended(to, code):
    """EndTxn 1: throttle, error."""
    return frame(correlation(to) + struct.pack(">ih", 0, code))


def with_producer(request_text, epoch, sequence):
    """The batch of a Produce with this epoch and base sequence, and its checksum."""
    text = bytearray.fromhex(request_text)[-69:]
    text[51:57] = struct.pack(">hi", epoch, sequence)
    text[17:21] = struct.pack(">I", crc32c(bytes(text[21:])))
    return text.hex()


def marker(offset, producer, epoch, kind):
    """A transaction marker of the first coordinator epoch (Kafka's message format, "Control Records"):
    type 0 aborts, and 1 commits."""
    record = bytes.fromhex("20000000080000") + struct.pack(">H", kind) + bytes.fromhex("0c00000000000100")
    body = struct.pack(">hiqqqhii", 0x30, 0, 0, 0, producer, epoch, -1, 1) + record
    return struct.pack(">qiibI", offset, len(body) + 9, 0, 2, crc32c(body)) + body


def fetch_all(to, end, stable, aborted, records):
    """As `fetch`, with aborted transactions (producer, first offset)."""
    text = correlation(to) + struct.pack(">ii", 0, 1) + string(b"t") + struct.pack(">iihqqi", 1, 0, 0, end, stable,
        len(aborted))
    text += b"".join(struct.pack(">qq", *it) for it in aborted)
    return frame(text + struct.pack(">i", len(records)) + records)


def member_id(number):
    """The id of the member that the core knows by this number."""
    return b"rdkafka-%d" % number


def join_request(member):
    """JOIN of a member."""
    return JOIN.replace("000493e000000008", "000493e0" + string(member).hex() + "0008")


def of_member(front, generation, member, rest=b""):
    return front + (string(b"gs") + struct.pack(">i", generation) + string(member) + rest).hex()


def sync_request(generation, member, assigned):
    rest = struct.pack(">i", len(assigned))
    for one, text in assigned:
        rest += string(one) + struct.pack(">i", len(text)) + text
    return of_member(SYNC, generation, member, rest)


def leave_request(member):
    return LEAVE + (string(b"gs") + string(member)).hex()


def commit_request(generation, member, offset):
    """OffsetCommit 2 of partition 0, without metadata."""
    rest = struct.pack(">qi", -1, 1) + string(b"t") + struct.pack(">iiq", 1, 0, offset) + string(b"")
    return of_member(OFFSET_COMMIT, generation, member, rest)


def joined(to, generation, leader, member, members):
    """JoinGroup 2: throttle, error, generation, protocol, leader, member, the members with their metadata."""
    metadata = bytes.fromhex("0001000000010001740000000000000000"[:34])
    text = correlation(to) + struct.pack(">ihi", 0, 0, generation) + string(b"range") + string(leader)
    text += string(member) + struct.pack(">i", len(members))
    for one in members:
        text += string(one) + struct.pack(">i", len(metadata)) + metadata
    return frame(text)


def assigned(to, code, text):
    """SyncGroup 1: throttle, error, assignment."""
    return frame(correlation(to) + struct.pack(">ihi", 0, code, len(text)) + text)


def beaten(to, code):
    """Heartbeat 1 and LeaveGroup 1: throttle, error."""
    return frame(correlation(to) + struct.pack(">ih", 0, code))


def committed(to, code):
    """OffsetCommit 2: topics with partitions (error)."""
    return frame(correlation(to) + struct.pack(">i", 1) + string(b"t") + struct.pack(">iih", 1, 0, code))


def fetched_offsets(to, offsets):
    """OffsetFetch 7, flexible: throttle, topics with partitions (offset, leader epoch, metadata, error), error."""
    text = correlation(to) + b"\0" + struct.pack(">i", 0) + b"\2\2t" + bytes([len(offsets) + 1])
    for index, offset in enumerate(offsets):
        text += struct.pack(">iqi", index, offset, -1) + b"\1" + struct.pack(">h", 0) + b"\0"
    return frame(text + b"\0" + struct.pack(">h", 0) + b"\0")


def group():
    it = Session(["A member joins, syncs, commits an offset and leaves. The numbers of clients count up from 0: the",
        "connection is 0, the member 1 and the server's guest 2, which joins last: its generation is the group's."])
    it.do("kafka 1 with t:2", "open a")
    it.told.append("listening")
    one, all_of_it = member_id(1), bytes.fromhex(ASSIGNMENT)
    it.ask("a", JOIN, joined(JOIN, 2, one, one, [one]))
    asked = sync_request(2, one, [(one, all_of_it)])
    it.ask("a", asked, assigned(asked, 0, all_of_it))
    asked = of_member(HEARTBEAT, 2, one)
    it.ask("a", asked, beaten(asked, 0))
    it.ask("a", OFFSET_FETCH, fetched_offsets(OFFSET_FETCH, [-1, -1]))
    asked = commit_request(2, one, 10)
    it.ask("a", asked, committed(asked, 0))
    it.ask("a", OFFSET_FETCH, fetched_offsets(OFFSET_FETCH, [10, -1]))
    it.do("# Another generation, and a member that isn't there.")
    asked = of_member(HEARTBEAT, 1, one)
    it.ask("a", asked, beaten(asked, 22))
    asked = commit_request(1, one, 20)
    it.ask("a", asked, committed(asked, 22))
    asked = commit_request(2, member_id(7), 20)
    it.ask("a", asked, committed(asked, 25))
    it.ask("a", OFFSET_FETCH, fetched_offsets(OFFSET_FETCH, [10, -1]))
    it.do("# After it has left.")
    asked = leave_request(one)
    it.ask("a", asked, beaten(asked, 0))
    asked = of_member(HEARTBEAT, 2, one)
    it.ask("a", asked, beaten(asked, 25))
    it.do("end")
    return it


def group_of_two():
    it = Session(["A second member joins, and both share. Connections are 0 and 1, the members 2 and 4, and the",
        "server's guests 3, 5 and 6; the generation counts each that joins or leaves."])
    it.do("kafka 2 with t:2", "open a", "open b")
    it.told.append("listening")
    one, two, all_of_it = member_id(2), member_id(4), bytes.fromhex(ASSIGNMENT)
    it.ask("a", JOIN, joined(JOIN, 2, one, one, [one]))
    asked = sync_request(2, one, [(one, all_of_it)])
    it.ask("a", asked, assigned(asked, 0, all_of_it))
    it.do("# The second waits until the first has joined again, and its SyncGroup until the leader's.")
    it.do(f"send b {request(JOIN)}", "wait 100")
    asked = of_member(HEARTBEAT, 2, one)
    it.ask("a", asked, beaten(asked, 27))
    asked = join_request(one)
    it.ask("a", asked, joined(asked, 5, one, one, [one, two]))
    it.do("receive b")
    it.told.append("b " + joined(JOIN, 5, one, two, []))
    first, second = b"the first", b"the second"
    waits = sync_request(5, two, [])
    it.do(f"send b {request(waits)}", "wait 100")
    asked = sync_request(5, one, [(one, first), (two, second)])
    it.ask("a", asked, assigned(asked, 0, first))
    it.do("receive b")
    it.told.append("b " + assigned(waits, 0, second))
    it.do("# Of the generation before nothing is taken.")
    asked = sync_request(2, one, [])
    it.ask("a", asked, assigned(asked, 22, b""))
    asked = commit_request(2, one, 10)
    it.ask("a", asked, committed(asked, 22))
    it.do("# One leaves, and the other joins again, alone.")
    asked = leave_request(two)
    it.ask("b", asked, beaten(asked, 0))
    asked = of_member(HEARTBEAT, 5, one)
    it.ask("a", asked, beaten(asked, 27))
    asked = join_request(one)
    it.ask("a", asked, joined(asked, 8, one, one, [one]))
    it.do("end")
    return it


def transactions():
    it = Session(["A commit and an abort of librdkafka's, over the connections that it had: one to the coordinator",
        "and one for batches. It keeps epoch 0, and its sequences go on; the core has epochs 0 and 1, and",
        "sequence 0 in each."])
    it.do("kafka 3 with t:1", "open a", "open b")
    it.told.append("listening")
    it.ask("a", INIT_TRANSACTIONAL, init(INIT_TRANSACTIONAL, 0, 0, 0))
    it.ask("a", ADD_PARTITIONS, added(ADD_PARTITIONS, 0))
    it.ask("b", PRODUCE_TXN_1, produce(PRODUCE_TXN_1, 0, 0))
    it.ask("a", END_COMMIT, ended(END_COMMIT, 0))
    it.ask("a", ADD_PARTITIONS_2, added(ADD_PARTITIONS_2, 0))
    it.do("# Its answer is lost: the client sends the batch again.")
    for _ in range(2):
        it.ask("b", PRODUCE_TXN_2, produce(PRODUCE_TXN_2, 0, 2))
    it.do("# Committed records end before the open transaction.")
    it.ask("b", LIST_END, list_offsets(LIST_END, 2))
    it.do("# So is an end asked again; a commit isn't what was decided.")
    for _ in range(2):
        it.ask("a", END_ABORT, ended(END_ABORT, 0))
    it.ask("a", END_COMMIT, ended(END_COMMIT, 48))
    it.do("# A late batch.")
    it.ask("b", PRODUCE_TXN_2, produce(PRODUCE_TXN_2, 48, -1))
    whole = (stored(with_producer(PRODUCE_TXN_1, 0, 0), 0) + marker(1, 0, 1, 1)
        + stored(with_producer(PRODUCE_TXN_2, 1, 0), 2) + marker(3, 0, 2, 0))
    asked = FETCH.format(wait=20000, offset=0).replace("00004e2000000001", f"00004e20{len(whole):08x}")
    it.ask("b", asked, fetch_all(asked, 4, 4, [(0, 2)], whole))
    it.do("# A second producer takes the transactional id over, and the first is fenced.", "open c")
    it.ask("c", INIT_TRANSACTIONAL, init(INIT_TRANSACTIONAL, 0, 0, 3))
    it.ask("a", ADD_PARTITIONS, added(ADD_PARTITIONS, 47))
    it.ask("a", END_COMMIT, ended(END_COMMIT, 47))
    it.do("drop a", "drop b", "drop c", "end")
    return it


def restarted():
    it = Session(["Topics and records stand after a restart; a torn line is cut off, and a damaged one refused."])
    it.do("clear stock", "kafka 1 in stock", "open a")
    it.told.append("listening")
    asked = metadata_request(b"t")
    it.ask("a", asked, metadata(asked, [(0, b"t", 1)]), portless=True)
    it.ask("a", PRODUCE_PLAIN, produce(PRODUCE_PLAIN, 0, 0))
    it.do("drop a", "end", "append stock/topics 7765", "kafka 1 with t:1,u:3 in stock", "open a")
    it.told.append("listening")
    asked = metadata_request(b"u")
    it.ask("a", asked, metadata(asked, [(0, b"u", 3)]), portless=True)
    asked = FETCH.format(wait=500, offset=0)
    it.ask("a", asked, fetch(asked, 0, 1, 1, stored(PLAIN_BATCH, 0)))
    it.do("drop a", "end", "append stock/topics 7765200a", "kafka 1 in stock", "end", "clear stock")
    it.told.append("fault topics: line 3 is damaged")
    return it


def transactions_restarted():
    it = Session(["A producer notices nothing of a restart but in an open transaction, of which no more is taken: it",
        "can still be ended. What was decided is answered as decided."])
    it.do("clear stock", "kafka 2 with t:1 in stock", "open a", "open b")
    it.told.append("listening")
    it.ask("a", INIT_TRANSACTIONAL, init(INIT_TRANSACTIONAL, 0, 0, 0))
    it.ask("a", ADD_PARTITIONS, added(ADD_PARTITIONS, 0))
    it.ask("b", PRODUCE_TXN_1, produce(PRODUCE_TXN_1, 0, 0))
    it.ask("a", END_COMMIT, ended(END_COMMIT, 0))
    it.ask("a", ADD_PARTITIONS_2, added(ADD_PARTITIONS_2, 0))
    it.ask("b", PRODUCE_TXN_2, produce(PRODUCE_TXN_2, 0, 2))
    it.do("drop a", "drop b", "end", "kafka 2 in stock", "open a", "open b")
    it.told.append("listening")
    it.ask("b", PRODUCE_TXN_2, produce(PRODUCE_TXN_2, 49, -1))
    for _ in range(2):
        it.ask("a", END_ABORT, ended(END_ABORT, 0))
    it.do("# The next transaction begins at whatever sequence the client has reached.")
    it.ask("a", ADD_PARTITIONS_2, added(ADD_PARTITIONS_2, 0))
    it.ask("b", PRODUCE_TXN_2, produce(PRODUCE_TXN_2, 0, 4))
    it.ask("a", END_COMMIT, ended(END_COMMIT, 0))
    it.do("drop a", "drop b", "end", "kafka 1 in stock", "open a")
    it.told.append("listening")
    it.ask("a", END_COMMIT, ended(END_COMMIT, 0))
    it.ask("a", END_ABORT, ended(END_ABORT, 49))
    it.do("drop a", "end", "clear stock")
    return it


def raise_epoch(batch, by):
    """The batch at a higher epoch, with its checksum."""
    text = bytearray.fromhex(batch)
    text[51:53] = struct.pack(">h", struct.unpack(">h", text[51:53])[0] + by)
    text[17:21] = struct.pack(">I", crc32c(bytes(text[21:])))
    return bytes(text).hex()


sys.path.insert(0, os.path.join(os.path.dirname(os.path.abspath(__file__)), ".."))
from frames import crc32c  # noqa: E402

for name, made in (("stock", stock()), ("stock_in_flight", in_flight()), ("stock_faults", faults()),
        ("stock_restarted", restarted()), ("stock_transactions", transactions()),
        ("stock_transactions_restarted", transactions_restarted()), ("stock_group", group()),
        ("stock_group_of_two", group_of_two())):
    made.write(os.path.join(sys.argv[1], name))
