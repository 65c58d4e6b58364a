"""Kafka's requests and responses that the relay reads: one table of APIs, versions and layouts.

A layout is a list of fields, `NAME TYPE` each. `3+` after a field says that it is there from version
3 on, `2-4` in those versions alone. Types: i8, i16, i32, i64, bool, str, bytes, `[]` of a type or of
fields in braces; `?` may be null. If a version is flexible (KIP-482), lengths are variable and each
struct ends with tagged fields. Messages are dicts; tagged fields are skipped, and none are written.
"""
import collections
import re
import struct

Api = collections.namedtuple("Api", "key name first last flexible request response")

TOPICS = "topics []{name str, parts []%s}"
CODES = TOPICS % "{index i32, error i16}"
MEMBER = "group str, generation i32, member str, instance str? 3+"
PRODUCER = "txn str, pid i64, epoch i16"
NEVER = 99

TABLE = [
    Api(0, "Produce", 3, 8, NEVER,
        "txn str?, acks i16, timeout i32, " + TOPICS % "{index i32, records bytes?}",
        TOPICS % ("{index i32, error i16, base i64, time i64, log_start i64 5+, "
                  "faults []{batch i32, text str?} 8+, text str? 8+}") + ", throttle i32"),
    Api(1, "Fetch", 4, 11, NEVER,
        "replica i32, wait i32, min i32, max i32, isolation i8, session i32 7+, session_epoch i32 7+, "
        + TOPICS % "{index i32, leader_epoch i32 9+, offset i64, log_start i64 5+, max i32}"
        + ", forgotten []{name str, parts []i32} 7+, rack str 11+",
        "throttle i32, error i16 7+, session i32 7+, " + TOPICS % (
            "{index i32, error i16, high i64, stable i64, log_start i64 5+, "
            "aborted []?{pid i64, first i64}, preferred i32 11+, records bytes?}")),
    Api(2, "ListOffsets", 1, 5, NEVER,
        "replica i32, isolation i8 2+, " + TOPICS % "{index i32, leader_epoch i32 4+, time i64}",
        "throttle i32 2+, " + TOPICS % "{index i32, error i16, time i64, offset i64, leader_epoch i32 4+}"),
    Api(3, "Metadata", 0, 8, NEVER,
        "topics []?{name str}, auto bool 4+, cluster_rights bool 8+, topic_rights bool 8+",
        "throttle i32 3+, brokers []{id i32, host str, port i32, rack str? 1+}, cluster str? 2+, "
        "controller i32 1+, topics []{error i16, name str, internal bool 1+, parts []{error i16, index i32, "
        "leader i32, leader_epoch i32 7+, replicas []i32, isr []i32, offline []i32 5+}, rights i32 8+}, "
        "cluster_rights i32 8+"),
    Api(8, "OffsetCommit", 1, 7, NEVER,
        "group str, generation i32, member str, instance str? 7+, retention i64 2-4, " + TOPICS % (
            "{index i32, offset i64, leader_epoch i32 6+, time i64 1-1, metadata str?}"),
        "throttle i32 3+, " + CODES),
    Api(9, "OffsetFetch", 1, 7, 6,
        "group str, topics []?{name str, parts []i32}, stable bool 7+",
        "throttle i32 3+, " + TOPICS % (
            "{index i32, offset i64, leader_epoch i32 5+, metadata str?, error i16}") + ", error i16 2+"),
    Api(10, "FindCoordinator", 0, 2, NEVER,
        "key str, type i8 1+",
        "throttle i32 1+, error i16, text str? 1+, node i32, host str, port i32"),
    Api(11, "JoinGroup", 0, 5, NEVER,
        "group str, session i32, rebalance i32 1+, member str, instance str? 5+, type str, "
        "protocols []{name str, metadata bytes}",
        "throttle i32 2+, error i16, generation i32, protocol str, leader str, member str, "
        "members []{member str, instance str? 5+, metadata bytes}"),
    Api(12, "Heartbeat", 0, 3, NEVER, MEMBER, "throttle i32 1+, error i16"),
    Api(13, "LeaveGroup", 0, 3, NEVER,
        "group str, member str 0-2, members []{member str, instance str?} 3+",
        "throttle i32 1+, error i16, members []{member str, instance str?, error i16} 3+"),
    Api(14, "SyncGroup", 0, 3, NEVER,
        MEMBER + ", assignments []{member str, assignment bytes}",
        "throttle i32 1+, error i16, assignment bytes"),
    Api(18, "ApiVersions", 0, 0, NEVER, "", "error i16, apis []{key i16, min i16, max i16}"),
    Api(19, "CreateTopics", 2, 4, NEVER,
        "topics []{name str, partitions i32, copies i16, places []{index i32, brokers []i32}, "
        "settings []{name str, value str?}}, timeout i32, validate bool",
        "throttle i32, topics []{name str, error i16, text str?}"),
    Api(22, "InitProducerId", 0, 4, 2,
        "txn str?, timeout i32, pid i64 3+, epoch i16 3+",
        "throttle i32, error i16, pid i64, epoch i16"),
    Api(24, "AddPartitionsToTxn", 0, 2, NEVER,
        PRODUCER + ", " + TOPICS % "i32", "throttle i32, " + CODES),
    Api(25, "AddOffsetsToTxn", 0, 2, NEVER, PRODUCER + ", group str", "throttle i32, error i16"),
    Api(26, "EndTxn", 0, 2, NEVER, PRODUCER + ", commit bool", "throttle i32, error i16"),
    Api(28, "TxnOffsetCommit", 0, 3, 3,
        "txn str, group str, pid i64, epoch i16, generation i32 3+, member str 3+, instance str? 3+, "
        + TOPICS % "{index i32, offset i64, leader_epoch i32 2+, metadata str?}",
        "throttle i32, " + CODES),
]
BY_KEY = {it.key: it for it in TABLE}
BY_NAME = {it.name: it for it in TABLE}

Field = collections.namedtuple("Field", "name kind first last")
Array = collections.namedtuple("Array", "of nullable")


class Fault(Exception):
    """Bytes that the layout doesn't allow."""


def parse(text):
    """The fields of a layout."""
    words = re.findall(r"\[\]\??|[{},]|[^\s{},\[\]]+", text)
    fields, left = _fields(words, 0)
    assert left == len(words), text
    return fields


def _fields(words, at):
    fields = []
    while at < len(words) and words[at] != "}":
        if words[at] == ",":
            at += 1
            continue
        name = words[at]
        kind, at = _kind(words, at + 1)
        first, last = 0, NEVER
        if at < len(words) and re.match(r"\d", words[at]):
            bounds = re.match(r"(\d+)(?:\+|-(\d+))$", words[at])
            first, last, at = int(bounds[1]), int(bounds[2] or NEVER), at + 1
        fields.append(Field(name, kind, first, last))
    return fields, at


def _kind(words, at):
    if words[at].startswith("[]"):
        nullable = words[at].endswith("?")
        if words[at + 1] == "{":
            inner, at = _fields(words, at + 2)
            return Array(inner, nullable), at + 1
        return Array(words[at + 1], nullable), at + 2
    return words[at], at + 1


FIELDS = {it.key: (parse(it.request), parse(it.response)) for it in TABLE}
NUMBERS = {"i8": ">b", "i16": ">h", "i32": ">i", "i64": ">q"}


class Reader:
    """Takes values from the front of some bytes."""

    def __init__(self, text, version, flexible, at=0):
        self.text, self.at, self.version, self.flexible = text, at, version, flexible

    def take(self, count):
        if count < 0 or len(self.text) - self.at < count:
            raise Fault("short")
        self.at += count
        return self.text[self.at - count:self.at]

    def number(self, form):
        return struct.unpack(form, self.take(struct.calcsize(form)))[0]

    def varint(self):
        value = 0
        for shift in range(0, 35, 7):
            byte = self.take(1)[0]
            value |= (byte & 127) << shift
            if byte < 128:
                return value
        raise Fault("number too long")

    def length(self, form):
        return self.varint() - 1 if self.flexible else self.number(form)

    def value(self, kind):
        if isinstance(kind, Array):
            count = self.length(">i")
            if count < 0:
                if kind.nullable:
                    return None
                raise Fault("null")
            if isinstance(kind.of, list):
                return [self.fields(kind.of) for _ in range(count)]
            return [self.value(kind.of) for _ in range(count)]
        if kind in NUMBERS:
            return self.number(NUMBERS[kind])
        if kind == "bool":
            return self.take(1)[0] != 0
        plain = kind.rstrip("?")
        length = self.length(">h" if plain == "str" else ">i")
        if length < 0:
            if kind.endswith("?"):
                return None
            raise Fault("null")
        text = self.take(length)
        return text.decode("utf-8", "surrogateescape") if plain == "str" else text

    def fields(self, fields):
        found = {it.name: self.value(it.kind) for it in fields if it.first <= self.version <= it.last}
        self.tags()
        return found

    def tags(self):
        if self.flexible:
            for _ in range(self.varint()):
                self.varint()
                self.take(self.varint())


class Writer:
    """Appends values to some bytes."""

    def __init__(self, version, flexible):
        self.out, self.version, self.flexible = bytearray(), version, flexible

    def varint(self, value):
        while value > 127:
            self.out.append(value & 127 | 128)
            value >>= 7
        self.out.append(value)

    def length(self, form, length):
        if self.flexible:
            self.varint(length + 1)
        else:
            self.out += struct.pack(form, length)

    def value(self, kind, value):
        if isinstance(kind, Array):
            self.length(">i", -1 if value is None else len(value))
            for it in value or []:
                if isinstance(kind.of, list):
                    self.fields(kind.of, it)
                else:
                    self.value(kind.of, it)
        elif kind in NUMBERS:
            self.out += struct.pack(NUMBERS[kind], value)
        elif kind == "bool":
            self.out.append(1 if value else 0)
        else:
            plain = kind.rstrip("?")
            if plain == "str" and value is not None:
                value = value.encode("utf-8", "surrogateescape")
            self.length(">h" if plain == "str" else ">i", -1 if value is None else len(value))
            self.out += value or b""

    def fields(self, fields, values):
        for it in fields:
            if it.first <= self.version <= it.last:
                self.value(it.kind, values.get(it.name, default(it.kind)))
        if self.flexible:
            self.out.append(0)


def default(kind):
    """The value of a field that isn't given."""
    if isinstance(kind, Array):
        return None if kind.nullable else []
    if kind in NUMBERS:
        return 0
    if kind == "bool":
        return False
    return None if kind.endswith("?") else "" if kind == "str" else b""


def is_known(key, version):
    return key in BY_KEY and BY_KEY[key].first <= version <= BY_KEY[key].last


Head = collections.namedtuple("Head", "key version correlation client")


def read_request(text):
    """The head of a request (without its length) and its fields, which are None for a version not in the table."""
    it = Reader(text, 0, False)
    key, version, correlation = it.number(">h"), it.number(">h"), it.number(">i")
    if not is_known(key, version):
        return Head(key, version, correlation, None), None
    client = it.value("str?")
    it.version, it.flexible = version, version >= BY_KEY[key].flexible
    it.tags()
    fields = it.fields(FIELDS[key][0])
    if it.at != len(text):
        raise Fault("bytes left")
    return Head(key, version, correlation, client), fields


def write_request(head, fields):
    """A request, without its length."""
    it = Writer(head.version, head.version >= BY_KEY[head.key].flexible)
    it.out += struct.pack(">hhi", head.key, head.version, head.correlation)
    client = head.client
    it.out += struct.pack(">h", -1) if client is None else \
        struct.pack(">h", len(client.encode())) + client.encode()
    if it.flexible:
        it.out.append(0)
    it.fields(FIELDS[head.key][0], fields)
    return bytes(it.out)


def read_response(key, version, text):
    """The correlation and the fields of a response (without its length)."""
    it = Reader(text, version, version >= BY_KEY[key].flexible)
    correlation = it.number(">i")
    it.tags()
    fields = it.fields(FIELDS[key][1])
    if it.at != len(text):
        raise Fault("bytes left")
    return correlation, fields


def write_response(key, version, correlation, fields):
    """A response, without its length."""
    it = Writer(version, version >= BY_KEY[key].flexible)
    it.out += struct.pack(">i", correlation)
    if it.flexible:
        it.out.append(0)
    it.fields(FIELDS[key][1], fields)
    return bytes(it.out)


def codes(fields):
    """All error codes of a response, in order."""
    found = []
    for name, value in (fields or {}).items():
        if name == "error":
            found.append(value)
        elif isinstance(value, list):
            for it in value:
                if isinstance(it, dict):
                    found += codes(it)
    return found


def refusal(key, request, code):
    """The fields of a response that refuses all of a request with a code."""
    answer = {"error": code, "pid": -1, "epoch": -1, "generation": -1, "node": -1, "port": -1,
        "member": request.get("member", "")}
    if key in (0, 8, 24, 28):
        answer["topics"] = [
            {"name": topic["name"], "parts": [
                {"index": part if isinstance(part, int) else part["index"], "error": code, "base": -1,
                    "time": -1, "log_start": -1}
                for part in topic["parts"]]}
            for topic in request["topics"]]
    return answer
