"""A small Kafka client for the few requests that the harness makes itself."""
import collections
import socket
import struct
import threading
import time

import layouts
import names
import records

# Error codes after which the same request is made again, at a leader or coordinator that is looked up anew.
AGAIN = {3, 5, 6, 7, 14, 15, 16, 51}
CONNECT_SECONDS = 5


class Refused(Exception):
    """A request was answered with an error code."""

    def __init__(self, what, code):
        super().__init__("%s was answered with code %d" % (what, code))
        self.code = code


def read_frame(it):
    """A message without its length, or None if the other end has closed the connection."""
    head = read_whole(it, 4)
    return head and read_whole(it, struct.unpack(">i", head)[0])


def read_whole(it, length):
    text = b""
    while len(text) < length:
        piece = it.recv(length - len(text))
        if not piece:
            return None
        text += piece
    return text


def write_frame(it, text):
    it.sendall(struct.pack(">i", len(text)) + text)


class Connection:
    """One connection, over which a request is made after the answer to the one before."""

    def __init__(self, address, seconds=30):
        self.socket = socket.create_connection(address, CONNECT_SECONDS)
        self.socket.settimeout(seconds)
        self.socket.setsockopt(socket.IPPROTO_TCP, socket.TCP_NODELAY, 1)
        self.correlation = 0
        self.ranges = {18: (0, 0)}
        answer = self.ask("ApiVersions")
        self.ranges = {it["key"]: (it["min"], it["max"]) for it in answer["apis"]}

    def version(self, key):
        """The highest version of an API that both ends know."""
        api, (first, last) = layouts.BY_KEY[key], self.ranges.get(key, (0, -1))
        if min(last, api.last) < max(first, api.first):
            raise OSError("the server doesn't offer %s" % api.name)
        return min(last, api.last)

    def ask(self, name, **fields):
        key = layouts.BY_NAME[name].key
        self.correlation += 1
        head = layouts.Head(key, self.version(key), self.correlation, "torture")
        write_frame(self.socket, layouts.write_request(head, fields))
        text = read_frame(self.socket)
        if text is None:
            raise OSError("the server closed the connection")
        return layouts.read_response(key, head.version, text)[1]

    def close(self):
        self.socket.close()


class Client:
    """Makes requests at a partition's leader or at a coordinator. `address` is a function that returns the address
    of a broker, since a server that was killed is started again at another port."""

    def __init__(self, address, prefix=""):
        self.address, self.prefix, self.open, self.lock = address, prefix, {}, threading.RLock()
        self.own, self.sequences = None, collections.Counter()

    def ask(self, where, name, **fields):
        """Makes a request over a connection that is kept. A broken connection is dropped, and the next call opens one."""
        with self.lock:
            if where not in self.open:
                self.open[where] = Connection(where)
            try:
                answer = self.open[where].ask(name, **names.to_broker(fields, self.prefix))
                return names.to_program(answer, self.prefix)
            except (OSError, struct.error):
                self.drop(where)
                raise

    def drop(self, where):
        with self.lock:
            it = self.open.pop(where, None)
            if it:
                it.close()

    def close(self):
        with self.lock:
            for it in self.open.values():
                it.close()
            self.open = {}

    def again(self, what, ask, seconds=30):
        """Calls `ask` until no error code of its answer is one of AGAIN, at most so long; its answer."""
        end = time.monotonic() + seconds
        while True:
            try:
                answer, code = ask(), 0
                code = next((it for it in layouts.codes(answer) if it), 0)
                if code == 0:
                    return answer
                if code not in AGAIN:
                    raise Refused(what, code)
            except OSError:
                if time.monotonic() > end:
                    raise
            if time.monotonic() > end:
                raise Refused(what, code)
            time.sleep(0.1)

    def metadata(self, *topics, create=True):
        return self.ask(self.address(), "Metadata", topics=[{"name": it} for it in topics], auto=create)

    def leader(self, topic, partition):
        found = self.metadata(topic)
        brokers = {it["id"]: (it["host"], it["port"]) for it in found["brokers"]}
        for part in found["topics"][0]["parts"]:
            if part["index"] == partition and part["leader"] in brokers:
                return self.near(brokers[part["leader"]])
        raise OSError("%s-%d has no leader" % (topic, partition))

    def coordinator(self, key, kind):
        found = self.again("FindCoordinator", lambda: self.ask(self.address(), "FindCoordinator", key=key, type=kind))
        return self.near((found["host"], found["port"]))

    @staticmethod
    def near(address):
        """The address as it is. A run with a server of its own replaces this by that server's address."""
        return address

    def partitions(self, topic):
        found = self.again("Metadata", lambda: self.metadata(topic))
        return len(found["topics"][0]["parts"])

    def create(self, topic, partitions):
        """Makes a topic by CreateTopics, or by asking for it if the broker refuses; its number of partitions."""
        try:
            self.ask(self.address(), "CreateTopics", timeout=10000, topics=[
                {"name": topic, "partitions": partitions, "copies": 1}])
        except OSError:
            pass
        return self.partitions(topic)

    def produce(self, topic, partition, batch, txn=None):
        """Appends a batch, and returns its first offset."""
        answer = self.again("Produce", lambda: self.ask(self.leader(topic, partition), "Produce", txn=txn, acks=-1,
            timeout=30000, topics=[{"name": topic, "parts": [{"index": partition, "records": batch}]}]))
        return answer["topics"][0]["parts"][0]["base"]

    def write(self, topic, partition, record):
        """Appends a record once, even if the request is repeated: it has a producer id and a sequence number."""
        if self.own is None:
            answer = self.again("InitProducerId", lambda: self.ask(self.address(), "InitProducerId", txn=None,
                timeout=60000, pid=-1, epoch=-1))
            self.own = answer["pid"], answer["epoch"]
        sequence = self.sequences[topic, partition]
        self.sequences[topic, partition] += 1
        return self.produce(topic, partition, records.write([record], *self.own, sequence))

    def init(self, txn, timeout=60000, seconds=30):
        """Producer id and epoch of a transactional id. Its open transaction is aborted."""
        answer = self.again("InitProducerId", lambda: self.ask(self.coordinator(txn, 1), "InitProducerId", txn=txn,
            timeout=timeout, pid=-1, epoch=-1), seconds)
        return answer["pid"], answer["epoch"]

    def leave(self, group, member):
        """A member leaves a group, as it would at the end of its session."""
        try:
            self.ask(self.coordinator(group, 0), "LeaveGroup", group=group, member=member,
                members=[{"member": member}])
        except (OSError, Refused):
            pass

    def aborted(self, txn, batches):
        """Writes (topic, partition, records) in a transaction, and aborts it."""
        pid, epoch = self.init(txn)
        for topic, partition, lines in batches:
            self.again("AddPartitionsToTxn", lambda: self.ask(self.coordinator(txn, 1), "AddPartitionsToTxn",
                txn=txn, pid=pid, epoch=epoch, topics=[{"name": topic, "parts": [partition]}]))
            self.produce(topic, partition, records.write(lines, pid, epoch, 0, True), txn)
        self.again("EndTxn", lambda: self.ask(self.coordinator(txn, 1), "EndTxn", txn=txn, pid=pid, epoch=epoch,
            commit=False))

    def ends(self, topic, partition):
        """The last stable offset and the end offset of a partition."""
        found = []
        for isolation in (1, 0):
            answer = self.again("ListOffsets", lambda: self.ask(self.leader(topic, partition), "ListOffsets",
                replica=-1, isolation=isolation, topics=[{"name": topic, "parts": [
                    {"index": partition, "time": -1, "leader_epoch": -1}]}]))
            found.append(answer["topics"][0]["parts"][0]["offset"])
        return tuple(found)

    def committed(self, group, topic, partition):
        """The stable committed offset of a group, or None while an open transaction has one."""
        answer = self.ask(self.coordinator(group, 0), "OffsetFetch", group=group, stable=True,
            topics=[{"name": topic, "parts": [partition]}])
        part = answer["topics"][0]["parts"][0]
        return None if part["error"] or answer.get("error") else part["offset"]

    def read(self, topic, partition):
        """All records of a partition that a reader of committed records gets."""
        found, offset, gone = [], 0, set()
        stable, _ = self.ends(topic, partition)
        while offset < stable:
            answer = self.again("Fetch", lambda: self.ask(self.leader(topic, partition), "Fetch", replica=-1, wait=100,
                min=1, max=1 << 20, isolation=1, session_epoch=-1, rack="", topics=[{"name": topic, "parts": [
                    {"index": partition, "leader_epoch": -1, "offset": offset, "log_start": -1, "max": 1 << 20}]}]))
            part = answer["topics"][0]["parts"][0]
            batches = records.read(part["records"] or b"")
            if not batches:
                raise OSError("%s-%d ends at %d, and nothing comes from %d" % (topic, partition, stable, offset))
            aborted = [(it["pid"], it["first"]) for it in part["aborted"] or []]
            found += [it for it in records.committed(batches, aborted, gone) if it.offset >= offset]
            offset = batches[-1].last + 1
        return found
