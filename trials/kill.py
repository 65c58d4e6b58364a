#!/usr/bin/env python3
"""Kills a server with files at random moments, and looks whether every answered commit stands once.

    kill.py PROGRAM [TRANSACTIONS [KILLS [CONNECTIONS]]]

Clients, each over a connection of its own and with a transactional id of its own, have transactions
of one record over four partitions. The server (PROGRAM serve --dir) is killed with SIGKILL and
started again; the clients connect again, ask for their ids anew and go on. In the end all committed
records are read: each value whose commit was answered has to stand once, and no value twice. Values
whose commit wasn't answered may stand or not. Frames and batches are written from docs/FORMATS.md.
"""
import collections
import os
import random
import shutil
import signal
import struct
import subprocess
import sys
import tempfile
import threading
import time

from frames import connect, crc32c, next_frame, varint

PARTITIONS = 4
MOST_CLIENTS = 1024
CONCURRENT = 51
def batch(value, producer, epoch, sequence):
    record = bytes([0, 0, 0]) + varint(-1) + varint(len(value)) + value + b"\0"
    body = struct.pack(">hiqqqhii", 16, 0, 0, 0, producer, epoch, sequence, 1)
    body += varint(len(record)) + record
    return struct.pack(">qiibI", 0, len(body) + 9, 0, 2, crc32c(body)) + body


class Connection:
    """One client's connection: a frame there, a frame back."""

    def __init__(self, port, client):
        self.client, self.correlation = client, 0
        self.socket = connect(port, 10)

    def ask(self, kind, fields):
        self.correlation += 1
        body = struct.pack(">BII", kind, self.client, self.correlation) + fields
        self.socket.sendall(struct.pack(">I", len(body)) + body)
        while True:
            reply = next_frame(self.socket)[4:]
            if struct.unpack(">I", reply[5:9])[0] == self.correlation:
                return reply[9:]


class Server:
    def __init__(self, program, folder, connections):
        self.words = [program, "serve", "--partitions", str(PARTITIONS), "--connections",
            str(connections), "--dir", folder]
        self.lock, self.process, self.port = threading.Lock(), None, 0
        self.opening = []

    def start(self):
        began = time.monotonic()
        self.process = subprocess.Popen(self.words, stdout=subprocess.PIPE, text=True)
        line = self.process.stdout.readline()
        if not line.startswith("listening "):
            sys.exit("the server doesn't open its logs again")
        self.opening.append(time.monotonic() - began)
        self.port = int(line.split()[1])

    def kill(self):
        os.kill(self.process.pid, signal.SIGKILL)
        self.process.wait()


class Client(threading.Thread):
    def __init__(self, server, number, count):
        super().__init__(daemon=True)
        self.server, self.number, self.left = server, number, count
        txn = b"t%d" % number
        self.text = bytes([len(txn)]) + txn
        self.answered, self.tried, self.begun = [], 0, 0

    def begin(self):
        """Connects, and gets the id at an epoch of its own: by a higher client number each time,
        since the owner of an id isn't given another epoch."""
        while True:
            try:
                self.begun += 1
                connection = Connection(self.server.port, self.number + MOST_CLIENTS * self.begun)
                while True:
                    reply = connection.ask(1, self.text + struct.pack(">I", 60000))
                    code, producer, epoch = struct.unpack(">hqh", reply)
                    if code == 0:
                        return connection, producer, epoch
                    time.sleep(0.01)
            except OSError:
                time.sleep(0.05)

    def transact(self, connection, producer, epoch, value, partition):
        text = batch(value, producer, epoch, 0)
        code = CONCURRENT
        while code == CONCURRENT:  # the markers of the transaction before are on their way
            reply = connection.ask(5, self.text + struct.pack(">HI", partition, len(text)) + text)
            code = struct.unpack(">Hhq", reply)[1]
        if code != 0:
            return None
        reply = connection.ask(3, self.text + struct.pack(">qhB", producer, epoch, 1))
        code, producer, epoch = struct.unpack(">hqh", reply)
        return (producer, epoch) if code == 0 else None

    def run(self):
        held = None
        while self.left > 0:
            try:
                if held is None:
                    held = self.begin()
                connection, producer, epoch = held
                value = b"%d.%d" % (self.number, self.tried)
                self.tried += 1
                done = self.transact(connection, producer, epoch, value, self.tried % PARTITIONS)
                if done is None:
                    held = None
                    continue
                self.answered.append(value)
                self.left -= 1
                held = (connection,) + done
            except OSError:
                held = None


def records_in(data, ids, aborted):
    """The values of the committed records of a page, by the list of aborted transactions."""
    at, values = 0, []
    while at < len(data):
        base, length = struct.unpack(">qi", data[at:at + 12])
        attributes, last = struct.unpack(">hi", data[at + 21:at + 27])
        producer = struct.unpack(">q", data[at + 43:at + 51])[0]
        for entry in [a for a in aborted if a[1] <= base + last]:
            ids.add(entry[0])
            aborted.remove(entry)
        body = data[at + 61:at + 12 + length]
        if attributes & 0x20:
            key = body[body.index(b"\x08\0\0\0") + 1:]
            if key[:4] == b"\0\0\0\0":
                ids.discard(producer)
        elif producer not in ids:
            size = body[5] >> 1
            values.append(body[6:6 + size])
        at += 12 + length
    return values


def read_all(port, partition):
    connection, values, ids, offset = Connection(port, 1 << 30), [], set(), 0
    while True:
        reply = connection.ask(11, struct.pack(">HqIB", partition, offset, 1 << 20, 1))
        _, code, after, stable, end, count = struct.unpack(">HhqqqI", reply[:32])
        aborted = [struct.unpack(">qq", reply[32 + 16 * i:48 + 16 * i]) for i in range(count)]
        # Each page begins anew with its own list.
        values += records_in(reply[36 + 16 * count:], set(), aborted)
        if after == offset and stable == end:
            return values
        if after == offset:
            time.sleep(0.1)
        offset = after


def main():
    program = os.path.abspath(sys.argv[1])
    transactions = int(sys.argv[2]) if len(sys.argv) > 2 else 100_000
    kills = int(sys.argv[3]) if len(sys.argv) > 3 else 10
    connections = int(sys.argv[4]) if len(sys.argv) > 4 else 16
    folder = tempfile.mkdtemp(prefix="kx_kill")
    server = Server(program, folder, 1024)
    server.start()
    began = time.monotonic()
    clients = [Client(server, n, transactions // connections) for n in range(1, connections + 1)]
    for client in clients:
        client.start()
    done = 0
    for _ in range(kills):
        goal = done + transactions // (kills + 1)
        while sum(len(c.answered) for c in clients) < goal and any(c.is_alive() for c in clients):
            time.sleep(0.02)
        done = goal
        time.sleep(random.random() / 5)
        server.kill()
        server.start()
    for client in clients:
        client.join()
    took = time.monotonic() - began
    # Each client's last transaction was committed, so no transaction stays open.
    stood = collections.Counter()
    for partition in range(PARTITIONS):
        stood.update(read_all(server.port, partition))
    answered = [value for client in clients for value in client.answered]
    lost = [value for value in answered if stood[value] == 0]
    doubles = [value for value in stood if stood[value] > 1]
    print("transactions answered %d in %.1f s, %.0f a second, %d kills" % (
        len(answered), took, len(answered) / took, kills))
    print("opening took %.2f s at most; logs hold %d bytes" % (max(server.opening),
        sum(os.path.getsize(os.path.join(folder, name)) for name in os.listdir(folder))))
    print("not answered but committed %d" % (len(stood) - len(set(answered) & set(stood))))
    print("lost %d doubles %d" % (len(lost), len(doubles)))
    server.kill()
    shutil.rmtree(folder)
    sys.exit(1 if lost or doubles else 0)


if __name__ == "__main__":
    main()
