"""Kafka's requests, read by the layouts of its protocol guide ("The Messages"), and told as the
cases of crates/kx_cases_kafka tell them. Written from the guide for the scripts of this folder, and
for what those cases have to tell: nothing here is the library's.

    kafka_requests.py FILE

FILE has lines `NAME HEX`, each a request without its length. Prints the file of cases: what each
request is, what its fronts are, and what comes of it with each of its bytes changed.
"""
import collections
import struct
import sys


class Fault(Exception):
    pass


class Reader:
    """Values one after the other, in the plain or in the flexible form (KIP-482)."""

    def __init__(self, text):
        self.text = text
        self.at = 0
        self.flexible = False
        self.version = 0

    def take(self, count):
        if len(self.text) - self.at < count:
            raise Fault("Short")
        self.at += count
        return self.text[self.at - count:self.at]

    def number(self, size):
        return int.from_bytes(self.take(size), "big", signed=True)

    def int8(self):
        return self.number(1)

    def int16(self):
        return self.number(2)

    def int32(self):
        return self.number(4)

    def int64(self):
        return self.number(8)

    def boolean(self):
        byte = self.take(1)[0]
        if byte > 1:
            raise Fault("Field")
        return "true" if byte else "false"

    def unsigned_varint(self):
        number = 0
        for place in range(5):
            byte = self.take(1)[0]
            if place == 4 and byte > 15:
                raise Fault("Field")
            number |= (byte & 127) << 7 * place
            if byte < 128:
                return number

    def length(self, size):
        """A length or a count; None for null."""
        if self.flexible:
            number = self.unsigned_varint() - 1
        else:
            number = self.number(size)
        if number < -1:
            raise Fault("Field")
        return None if number == -1 else number

    def counted(self, size):
        length = self.length(size)
        if length is None:
            raise Fault("Field")
        return self.take(length)

    def nullable(self, size):
        length = self.length(size)
        return None if length is None else self.take(length)

    def string(self):
        return word(self.counted(2))

    def nullable_string(self):
        return word(self.nullable(2))

    def bytes(self):
        return digits(self.counted(4))

    def nullable_bytes(self):
        return digits(self.nullable(4))

    def array(self, element, null_from=None):
        """The elements' texts; None for null, where a version from `null_from` on has it."""
        count = self.length(4)
        if count is None:
            if null_from is None or self.version < null_from:
                raise Fault("Field")
            return None
        return [self.struct(element) for _ in range(count)]

    def struct(self, element):
        told = element(self)
        if element is not Reader.int32:
            self.tags()
        return told

    def tags(self):
        if self.flexible:
            for _ in range(self.unsigned_varint()):
                self.unsigned_varint()
                self.take(self.unsigned_varint())

    def since(self, version, field, other):
        return other if self.version < version else field()


def word(text):
    """A string: its text, or `x` and its bytes where they are no UTF-8."""
    if text is None:
        return "null"
    try:
        return text.decode("utf-8")
    except UnicodeDecodeError:
        return "x" + text.hex()


def digits(text):
    if text is None:
        return "null"
    return text.hex() or "-"


def topics(r, partition):
    """Topics in brackets, with their partitions behind their names."""
    found = r.array(lambda r: topic(r, partition))
    return "".join(found)


def topic(r, partition):
    name = r.string()
    return " [" + " ".join([name] + [str(it) for it in r.array(partition)]) + "]"


def produce(r):
    told = f" txn {r.nullable_string()} acks {r.int16()} timeout {r.int32()}"
    return told + topics(r, lambda r: f"{r.int32()}:{r.nullable_bytes()}")


def fetch(r):
    told = f" replica {r.int32()} wait {r.int32()} min {r.int32()} max {r.int32()}"
    told += f" isolation {r.int8()}"
    return told + topics(r, lambda r: f"{r.int32()}:{r.int64()}:{r.int32()}")


def list_offsets(r):
    told = f" replica {r.int32()} isolation {r.since(2, r.int8, 0)}"
    return told + topics(r, lambda r: f"{r.int32()}:{r.int64()}")


def metadata(r):
    found = r.array(lambda r: f" [{r.string()}]", null_from=1)
    told = " all" if found is None else "".join(found)
    return told + f" create {r.since(4, r.boolean, 'true')}"


def offset_commit(r):
    told = f" group {r.string()} generation {r.int32()} member {r.string()}"
    told += f" retention {r.since(2, r.int64, -1)}"

    def partition(r):
        told = f"{r.int32()}:{r.int64()}:{r.int64() if r.version == 1 else -1}"
        return told + f":{r.nullable_string()}"
    return told + topics(r, partition)


def offset_fetch(r):
    group = r.string()
    found = r.array(lambda r: topic(r, Reader.int32), null_from=2)
    stable = r.since(7, r.boolean, "false")
    return f" group {group} stable {stable}" + (" all" if found is None else "".join(found))


def find_coordinator(r):
    return f" key {r.string()} type {r.since(1, r.int8, 0)}"


def join_group(r):
    told = f" group {r.string()} session {r.int32()} rebalance {r.since(1, r.int32, -1)}"
    told += f" member {r.string()} type {r.string()}"
    return told + "".join(r.array(lambda r: f" [{r.string()} {r.bytes()}]"))


def heartbeat(r):
    return f" group {r.string()} generation {r.int32()} member {r.string()}"


def leave_group(r):
    return f" group {r.string()} member {r.string()}"


def sync_group(r):
    return heartbeat(r) + "".join(r.array(lambda r: f" [{r.string()} {r.bytes()}]"))


def api_versions(r):
    return ""


def init_producer_id(r):
    told = f" txn {r.nullable_string()} timeout {r.int32()}"
    return told + f" id {r.since(3, r.int64, -1)} epoch {r.since(3, r.int16, -1)}"


def producer(r):
    return f" id {r.int64()} epoch {r.int16()}"


def add_partitions_to_txn(r):
    return f" txn {r.string()}" + producer(r) + topics(r, Reader.int32)


def add_offsets_to_txn(r):
    return f" txn {r.string()}" + producer(r) + f" group {r.string()}"


def end_txn(r):
    return f" txn {r.string()}" + producer(r) + f" commit {r.boolean()}"


def txn_offset_commit(r):
    told = f" txn {r.string()} group {r.string()}" + producer(r)
    told += f" generation {r.since(3, r.int32, -1)} member {r.since(3, r.string, '')}"
    told += f" instance {r.since(3, r.nullable_string, 'null')}"

    def partition(r):
        return f"{r.int32()}:{r.int64()}:{r.since(2, r.int32, -1)}:{r.nullable_string()}"
    return told + topics(r, partition)


Api = collections.namedtuple("Api", "name first last flexible_from fields")
NEVER = 99
APIS = {
    0: Api("Produce", 3, 4, NEVER, produce),
    1: Api("Fetch", 4, 4, NEVER, fetch),
    2: Api("ListOffsets", 1, 2, NEVER, list_offsets),
    3: Api("Metadata", 0, 5, NEVER, metadata),
    8: Api("OffsetCommit", 1, 2, NEVER, offset_commit),
    9: Api("OffsetFetch", 1, 7, 6, offset_fetch),
    10: Api("FindCoordinator", 0, 1, NEVER, find_coordinator),
    11: Api("JoinGroup", 0, 2, NEVER, join_group),
    12: Api("Heartbeat", 0, 1, NEVER, heartbeat),
    13: Api("LeaveGroup", 0, 1, NEVER, leave_group),
    14: Api("SyncGroup", 0, 1, NEVER, sync_group),
    18: Api("ApiVersions", 0, 0, NEVER, api_versions),
    22: Api("InitProducerId", 0, 4, 2, init_producer_id),
    24: Api("AddPartitionsToTxn", 0, 0, NEVER, add_partitions_to_txn),
    25: Api("AddOffsetsToTxn", 0, 0, NEVER, add_offsets_to_txn),
    26: Api("EndTxn", 0, 1, NEVER, end_txn),
    28: Api("TxnOffsetCommit", 0, 3, 3, txn_offset_commit),
}


def told(text):
    """What a request is, or why it isn't read."""
    try:
        r = Reader(text)
        key, version, correlation = r.int16(), r.int16(), r.int32()
        if key not in APIS:
            return "Key"
        api = APIS[key]
        if not api.first <= version <= api.last:
            return "Version"
        client = r.nullable_string()
        r.version = version
        r.flexible = version >= api.flexible_from
        r.tags()
        fields = api.fields(r)
        r.tags()
        if r.at < len(text):
            return "TooLong"
        return f"{api.name} {version} correlation {correlation} client {client}{fields}"
    except Fault as fault:
        return str(fault)


def runs(answers):
    """Answers in a row, each with the first and the last number that it was given for."""
    out = []
    for number, answer in enumerate(answers):
        if out and out[-1][2] == answer:
            out[-1][1] = number
        else:
            out.append([number, number, answer])
    return "; ".join(f"{a} {it}" if a == b else f"{a}..{b} {it}" for a, b, it in out)


def cuts(text):
    return runs(told(text[:length]) for length in range(len(text)))


FAULTS = ["Short", "TooLong", "Key", "Version", "Field"]


def changes(text):
    """With each byte in turn as each of its 255 others: how many are refused as what, how many are
    another request, and how many are the same one."""
    own = told(text)
    count = collections.Counter()
    for place in range(len(text)):
        changed = bytearray(text)
        for byte in range(256):
            if byte != text[place]:
                changed[place] = byte
                answer = told(bytes(changed))
                known = answer if answer in FAULTS else "same" if answer == own else "another"
                count[known] += 1
    return " ".join(f"{name} {count[name]}" for name in FAULTS + ["another", "same"] if count[name])


def version_of(text):
    key, version = struct.unpack(">hh", text[:4])
    return f"{APIS[key].name} {version}"


def print_cases(requests):
    """The cases of requests, each a name and a text."""
    for name, text in requests:
        print(f"bytes {name} = {text.hex()}")
    for name, text in requests:
        print(f"\ncase {version_of(text)} {name}")
        print(f"request ${name} = {told(text)}")
        if told(text) not in FAULTS:
            print(f"cuts ${name} = {cuts(text)}")
            print(f"changes ${name} = {changes(text)}")


def main():
    requests = []
    for line in open(sys.argv[1]):
        name, digits = line.split()
        requests.append((name, bytes.fromhex(digits)))
    print_cases(requests)


if __name__ == "__main__":
    main()
