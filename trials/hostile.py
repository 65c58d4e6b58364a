#!/usr/bin/env python3
"""Opens connections that misbehave, and looks whether a well-behaved one is served and what it costs.

    hostile.py PROGRAM

To a server (PROGRAM serve) come 900 connections that say nothing, 40 that ask for pages of 1 MiB
without reading any, 40 that send half a frame, 20 that send bytes which are no frame, and one that
sends a million bytes of frames in pieces of one byte. Meanwhile one client asks 1,000 times, and
the memory of the server is read from /proc. Then, each with a server of its own: two connections
speak for one client in turn; pages are asked for, and bytes that are no frame follow; descriptors
and threads run out for a while; a folder has the empty name; and what a refused batch costs where
few or many connections may come. Ends with status 1 where one of these isn't as
docs/SERVER.md has it. Frames are written from docs/FORMATS.md.
"""
import os
import resource
import socket
import struct
import subprocess
import sys
import tempfile
import threading
import time

from frames import connect, crc32c, next_frame, varint

soft, hard = resource.getrlimit(resource.RLIMIT_NOFILE)
resource.setrlimit(resource.RLIMIT_NOFILE, (min(8192, hard), hard))


def frame(kind, client, correlation, fields):
    body = struct.pack(">BII", kind, client, correlation) + fields
    return struct.pack(">I", len(body)) + body


def reply(it):
    return next_frame(it)[4:]


def memory(process):
    for line in open("/proc/%d/status" % process.pid):
        if line.startswith("VmRSS"):
            return int(line.split()[1]) / 1024


def batch(value, producer=-1, epoch=-1, sequence=-1):
    record = bytes([0, 0, 0, 1]) + varint(len(value)) + value + b"\0"
    body = struct.pack(">hiqqqhii", 0, 0, 0, 0, producer, epoch, sequence, 1)
    body += varint(len(record)) + record
    return struct.pack(">qiibI", 0, len(body) + 9, 0, 2, crc32c(body)) + body


def produce(client, correlation, text):
    fields = b"\0" + struct.pack(">HI", 0, len(text)) + text
    return frame(5, client, correlation, fields)


def init(client, correlation):
    return frame(1, client, correlation, b"\1a" + struct.pack(">I", 60000))


class Server:
    """PROGRAM serve, with standard error in a file, run by this user, who has at most so many
    threads."""

    def __init__(self, words, user=None, most_threads=None):
        def limited():
            if most_threads is not None:
                resource.setrlimit(resource.RLIMIT_NPROC, (most_threads, most_threads))
        self.said = tempfile.TemporaryFile("w+")
        self.process = subprocess.Popen([sys.argv[1], "serve", "--partitions", "1"] + words,
            stdout=subprocess.PIPE, stderr=self.said, text=True, user=user, preexec_fn=limited)
        line = self.process.stdout.readline().split()
        self.port = int(line[1]) if line else 0

    def words(self):
        self.said.seek(0)
        return self.said.read()

    def processor(self):
        fields = open("/proc/%d/stat" % self.process.pid).read().rsplit(")", 1)[1].split()
        return (int(fields[11]) + int(fields[12])) / os.sysconf("SC_CLK_TCK")

    def end(self):
        self.process.kill()
        self.process.wait()


# The user without rights.
NOBODY = 65534

failed = []


def judge(name, is_right):
    print("%s: %s" % (name, "ok" if is_right else "FAILED"))
    if not is_right:
        failed.append(name)


def turns():
    """Two connections that speak for one client in turn stay open."""
    server = Server(["--connections", "2"])
    both = [connect(server.port, 30) for _ in range(2)]
    answered = 0
    try:
        for number in range(4000):
            both[number % 2].sendall(init(1, number))
            answered += len(reply(both[number % 2])) > 0
    except OSError:
        pass
    server.end()
    judge("two connections for one client", answered == 4000)


def written_first():
    """All pages that were asked for come before a connection is closed for what follows them."""
    server = Server(["--connections", "21"])
    good = connect(server.port, 30)
    good.sendall(produce(1, 0, batch(b"v" * 50_000)))
    reply(good)
    fetch = frame(11, 2, 0, struct.pack(">HqIB", 0, 0, 60_000, 0))
    came = []
    for _ in range(20):
        it = connect(server.port, 30)
        it.sendall(fetch * 20 + b"\0\0\0\1c" + b"more" * 10_000)
        pages = 0
        try:
            while True:
                pages += reply(it)[0] == 12
        except OSError:
            pass
        came.append(pages)
    server.end()
    judge("pages before what is no frame, %d of 400" % sum(came), sum(came) == 400)


def says_once(server):
    return sum("the server waits" in line for line in server.words().split("\n")) == 1


def is_answered(it):
    try:
        return len(reply(it)) > 0
    except OSError:
        return False


def few_descriptors():
    """Where descriptors run out for longer than ten seconds, a connection is served when there are
    some again, and the server says once that it waits."""
    server = Server(["--connections", "3"])
    first = connect(server.port, 30)
    first.sendall(init(1, 0))
    reply(first)
    before = resource.prlimit(server.process.pid, resource.RLIMIT_NOFILE)
    resource.prlimit(server.process.pid, resource.RLIMIT_NOFILE, (0, before[1]))
    # For this one the server has a descriptor, since it waits for it already.
    second = connect(server.port, 30)
    good = connect(server.port, 30)
    good.sendall(init(2, 0))
    time.sleep(12)
    resource.prlimit(server.process.pid, resource.RLIMIT_NOFILE, before)
    judge("descriptors that ran out for twelve seconds", is_answered(good) and says_once(server))
    second.close()
    server.end()


def few_threads():
    """The same with threads: a server has six, and two for each connection. The threads of a user
    are counted, but not root's, so this is tried only where root can have nobody run the server."""
    if os.geteuid() != 0:
        print("threads that run out: only root tries this")
        return
    server = Server(["--connections", "8"], NOBODY, most_threads=12)
    if server.port == 0:
        print("threads that run out: not tried, since nobody can't run the program")
        return
    others = [connect(server.port, 30) for _ in range(3)]
    time.sleep(1)
    good = connect(server.port, 30)
    good.sendall(init(2, 0))
    time.sleep(12)
    for it in others:
        it.close()
    judge("threads that ran out for twelve seconds", is_answered(good) and says_once(server))
    server.end()


def nowhere():
    """No folder has the empty name, and nothing is written for one."""
    before = set(os.listdir("/"))
    server = Server(["--connections", "1", "--dir", ""])
    status = server.process.wait(10) if server.port == 0 else 0
    server.end()
    judge("a folder without a name", status != 0 and set(os.listdir("/")) == before)


def refused_batches():
    """A refused batch costs about the same, however many connections may come."""
    costs = []
    for connections in (2, 64, 1024):
        server = Server(["--connections", str(connections)])
        it = connect(server.port, 30)
        ask = produce(1, 0, batch(b"v", 7, 0, 5)) * 50
        for _ in range(4):
            it.sendall(ask)
            codes = {struct.unpack(">h", reply(it)[11:13])[0] for _ in range(50)}
        began, count = server.processor(), 400
        for _ in range(count):
            it.sendall(ask)
            for _ in range(50):
                reply(it)
        costs.append((server.processor() - began) / count / 50 * 1e6)
        server.end()
        judge("refused batches of %d connections" % connections, codes == {45})
    print("a refused batch with --connections 2, 64, 1024: %s us of processor" %
        ", ".join("%.1f" % cost for cost in costs))
    judge("a refused batch for 1,024 connections", costs[2] < 1.5 * costs[0] + 1)


def crowd():
    server = subprocess.Popen([sys.argv[1], "serve", "--partitions", "1", "--connections", "1024"],
        stdout=subprocess.PIPE, text=True)
    port = int(server.stdout.readline().split()[1])
    good = connect(port, 30)
    # One page of about 1 MiB.
    value = b"v" * 1_000_000
    record = bytes([0, 0, 0, 1]) + varint(len(value)) + value + b"\0"
    body = struct.pack(">hiqqqhii", 0, 0, 0, 0, -1, -1, -1, 1) + varint(len(record)) + record
    text = struct.pack(">qiibI", 0, len(body) + 9, 0, 2, crc32c(body)) + body
    good.sendall(frame(5, 1, 0, b"\0" + struct.pack(">HI", 0, len(text)) + text))
    assert struct.unpack(">Hhq", reply(good)[9:])[1] == 0
    fetch = struct.pack(">HqIB", 0, 0, 1 << 20, 0)
    ask = frame(1, 1, 1, b"\1a" + struct.pack(">I", 60000))
    before = memory(server)
    silent = [connect(port, 30) for _ in range(900)]
    print("900 silent connections: %.0f MB more" % (memory(server) - before))
    deaf = [connect(port, 30) for _ in range(40)]
    for number, it in enumerate(deaf):
        it.setsockopt(socket.SOL_SOCKET, socket.SO_RCVBUF, 65536)
        it.sendall(frame(11, 100 + number, 0, fetch) * 500)
    half = [connect(port, 30) for _ in range(40)]
    for it in half:
        it.sendall(ask[:7])
    for it in [connect(port, 30) for _ in range(20)]:
        it.sendall(b"GET / HTTP/1.1\r\n\r\n")
        assert it.recv(1) == b""
    slow = connect(port, 30)

    def trickle():
        for byte in frame(1, 77, 1, b"\1b" + struct.pack(">I", 60000)) * 53_000:
            slow.send(bytes([byte]))

    def drain():
        for _ in range(53_000):
            reply(slow)

    threads = [threading.Thread(target=trickle), threading.Thread(target=drain)]
    for thread in threads:
        thread.start()
    times = []
    for _ in range(1000):
        began = time.monotonic()
        good.sendall(ask)
        reply(good)
        times.append(time.monotonic() - began)
    times.sort()
    print("a client beside them: %.2f ms median, %.2f ms at most" % (times[500] * 1e3, times[-1] * 1e3))
    print("with 40 that don't read: %.0f MB more" % (memory(server) - before))
    for thread in threads:
        thread.join()
    print("a million bytes one by one: 53,000 replies")
    print("in the end: %.0f MB more" % (memory(server) - before))
    server.kill()


def main():
    crowd()
    turns()
    written_first()
    few_descriptors()
    few_threads()
    nowhere()
    refused_batches()
    sys.exit(len(failed) > 0)


main()
