#!/usr/bin/env python3
"""Looks at a server of stock clients where files run out, and where the clock on the wall is put
back or forward.

    edges.py PROGRAM [LOOK..]

- With at most 64 open files the server says how many connections it takes, serves so many at a time,
  closes one more at once, and serves others when these have closed, however often.
- After 1,000 connections that came and went, a new one is answered at once.
- After a server was killed while it committed offsets, they can be read within seconds of the next
  start.
- A transaction whose time is up is ended though the clock is put back by an hour; so is one after
  the clock was ten years ahead for a while, also after a restart. (This needs a C compiler.)
- A connection that asks for nothing is closed after its time, one that waits in a Fetch isn't, and
  the system asks each whether it is still there.
- As many topics are made by being asked for as `--auto-topics` says, and none that begins with `__`.
- A Fetch that names one partition 40,000 times is answered within seconds; ListOffsets of an unknown
  isolation level is answered 42.
- With traces that can't be written any more, a request is answered by a code, also a batch that waits for
  a coordinator whose trace can't be written. (This needs `mount`.)

Ends with status 1 if one of these isn't so. Requests are written from Kafka's protocol guide, and
batches from docs/FORMATS.md.
"""
import contextlib
import os
import random
import re
import resource
import shutil
import signal
import socket
import struct
import subprocess
import sys
import tempfile
import threading
import time

from frames import crc32c, varint

FAILED = []


def say(what, is_right, *more):
    print(("ok     " if is_right else "FAILED ") + what, *more, flush=True)
    if not is_right:
        FAILED.append(what)


def text(it):
    return struct.pack(">h", len(it)) + it.encode()


def request(api, version, fields=b"", tags=b""):
    body = struct.pack(">hhi", api, version, 7) + text("edges") + tags + fields
    return struct.pack(">i", len(body)) + body


class Client:
    """A connection, over which requests are sent and answered one after the other."""

    def __init__(self, port):
        self.socket = socket.create_connection(("127.0.0.1", port), timeout=60)

    def ask(self, api, version, fields=b"", tags=b""):
        """The fields of the answer; nothing if the server closed the connection."""
        self.send(request(api, version, fields, tags))
        return self.answer()

    def send(self, requests):
        try:
            self.socket.sendall(requests)
        except OSError:
            # there is no answer then either
            pass

    def answer(self):
        """The fields of the next answer; nothing if the server closed the connection."""
        try:
            return self.take(struct.unpack(">i", self.take(4))[0])[4:]
        except (OSError, EOFError):
            return b""

    def take(self, count):
        taken = b""
        while len(taken) < count:
            more = self.socket.recv(count - len(taken))
            if not more:
                raise EOFError
            taken += more
        return taken

    def is_served(self):
        """Whether a request for versions is answered."""
        return len(self.ask(18, 0)) > 6

    def close(self):
        self.socket.close()


class Server:
    """PROGRAM kafka, with what it says on standard error in a file."""

    def __init__(self, *words, files=None, clock=None):
        self.said = tempfile.TemporaryFile("w+")
        env = dict(os.environ)
        if clock:
            env.update(LD_PRELOAD=clock[0], CLOCK=clock[1])

        def limited():
            if files:
                resource.setrlimit(resource.RLIMIT_NOFILE, (files, files))

        self.process = subprocess.Popen(
            [sys.argv[1], "kafka", "--port", "0", *words], stdout=subprocess.PIPE, stderr=self.said,
            text=True, env=env, preexec_fn=limited)
        line = self.process.stdout.readline().split()
        if len(line) != 2:
            self.process.wait()
            raise SystemExit(f"the server said {line}, and {self.words()}")
        self.port = int(line[1])

    def words(self):
        self.said.seek(0)
        return self.said.read()

    def end(self):
        self.process.send_signal(signal.SIGKILL)
        self.process.wait()


def files_run_out():
    server = Server(files=64)
    found = re.search(r"at most (\d+) connections at a time: 64 files may be open", server.words())
    say("the limit of connections is said", bool(found), server.words().strip())
    most = int(found[1]) if found else 30
    for turn in range(3):
        clients = [Client(server.port) for _ in range(most)]
        say(f"{most} connections at a time, turn {turn + 1}", all(it.is_served() for it in clients))
        more = Client(server.port)
        say("one more is closed", not more.is_served())
        more.close()
        for it in clients:
            it.close()
        begun, served = time.time(), False
        while not served and time.time() < begun + 10:
            it = Client(server.port)
            served = it.is_served()
            it.close()
        say("another is served afterwards", served, f"{time.time() - begun:.2f} s")
        # the others of this turn may be closing still
        time.sleep(1)
    say("the server held on", server.process.poll() is None)
    server.end()


def many_gone():
    server = Server()
    clients = []
    for _ in range(1000):
        it = Client(server.port)
        it.is_served()
        clients.append(it)
    for it in clients:
        it.close()
    time.sleep(5)
    begun = time.time()
    it = Client(server.port)
    is_served = it.is_served()
    took = time.time() - begun
    say("served after 1,000 connections are gone", is_served and took < 1, f"{took * 1000:.1f} ms")
    it.close()
    server.end()


def commits_until_killed(server, client):
    """Commits offsets until the server is killed, a little while after the first."""
    topic = struct.pack(">i", 1) + text("bills") + struct.pack(">i", 1)
    kill = threading.Timer(random.uniform(0.02, 0.3), server.end)
    kill.start()
    for offset in range(100000):
        partition = struct.pack(">iqh", 0, offset, -1)
        fields = text("g") + struct.pack(">i", -1) + text("") + struct.pack(">q", -1)
        if not client.ask(8, 2, fields + topic + partition):
            break
    kill.join()


def stable_code(client):
    """The code of a group's stable offset, of version 7: 88 if a transaction holds it."""
    topic = b"\2" + b"\6bills" + b"\2" + struct.pack(">i", 0) + b"\0"
    answer = client.ask(9, 7, b"\2g" + topic + b"\1\0", tags=b"\0")
    # tags, throttling, topics, the name, partitions, the partition, its offset and epoch, metadata
    return struct.unpack(">h", answer[1 + 4 + 1 + 6 + 1 + 4 + 8 + 4 + 1:][:2])[0]


def killed_within_commits():
    longest, held = 0, 0
    with tempfile.TemporaryDirectory() as room:
        for _ in range(12):
            server = Server("--dir", f"{room}/logs")
            begun = time.time()
            client = Client(server.port)
            client.ask(3, 1, struct.pack(">i", 1) + text("bills"))
            codes = [stable_code(client)]
            while codes[-1] != 0 and time.time() < begun + 20:
                time.sleep(0.05)
                codes.append(stable_code(client))
            longest = max(longest, time.time() - begun)
            held += len(codes) > 1
            commits_until_killed(server, client)
    say("stable offsets after a kill", longest < 5, f"{longest:.1f} s at most; {held} of 12 were held")


def batch(held, epoch, sequence):
    """A batch of one record in a transaction."""
    record = bytes([0, 0, 0, 1]) + varint(4) + b"rent" + b"\0"
    body = struct.pack(">hiqqqhii", 0x10, 0, 0, 0, held, epoch, sequence, 1)
    body += varint(len(record)) + record
    return struct.pack(">qiibI", 0, len(body) + 9, 0, 2, crc32c(body)) + body


def begin(port, timeout):
    """Writes a record in a transaction that may last so many milliseconds: the client, its id and its
    epoch, and the code of the answer."""
    client = Client(port)
    client.ask(3, 1, struct.pack(">i", 1) + text("bills"))
    for _ in range(100):
        answer = client.ask(22, 0, text("pay") + struct.pack(">i", timeout))
        _, code, held, epoch = struct.unpack(">ihqh", answer[:16])
        if code == 0:
            break
        time.sleep(0.1)
    topic = struct.pack(">i", 1) + text("bills") + struct.pack(">i", 1)
    client.ask(24, 0, text("pay") + struct.pack(">qh", held, epoch) + topic + struct.pack(">i", 0))
    records = batch(held, epoch, 0)
    fields = text("pay") + struct.pack(">hi", -1, 30000) + topic
    fields += struct.pack(">ii", 0, len(records)) + records
    answer = client.ask(0, 3, fields)
    # in front of the code: how many topics, the name, how many partitions, the partition
    code = struct.unpack(">h", answer[4 + 7 + 4 + 4:][:2])[0]
    return client, held, epoch, code


def commit(client, held, epoch):
    """The code that a commit is answered."""
    answer = client.ask(26, 0, text("pay") + struct.pack(">qhb", held, epoch, 1))
    return struct.unpack(">ih", answer[:6])[1]


def the_clock_moves():
    if not shutil.which("cc"):
        print("skipped: there is no C compiler, so the clock isn't moved")
        return
    with tempfile.TemporaryDirectory() as room:
        shim, clock, logs = f"{room}/clock.so", f"{room}/clock", f"{room}/logs"
        here = os.path.dirname(os.path.realpath(__file__))
        subprocess.run(["cc", "-shared", "-fPIC", "-o", shim, f"{here}/clock.c"], check=True)

        def put(seconds):
            with open(f"{clock}.new", "w") as it:
                it.write(str(seconds))
            os.rename(f"{clock}.new", clock)

        put(0)
        server = Server("--dir", logs, clock=(shim, clock))
        client, held, epoch, code = begin(server.port, 60000)
        say("a transaction is committed", (code, commit(client, held, epoch)) == (0, 0))
        client, held, epoch, code = begin(server.port, 1000)
        put(-3600)
        time.sleep(5)
        ended = commit(client, held, epoch)
        say("ended, though the clock was put back", code == 0 and ended != 0, f"code {ended}")
        put(315360000)
        time.sleep(3)
        client, held, epoch, code = begin(server.port, 60000)
        say("committed ten years ahead", (code, commit(client, held, epoch)) == (0, 0))
        put(0)
        client, held, epoch, code = begin(server.port, 1000)
        time.sleep(5)
        ended = commit(client, held, epoch)
        say("ended, though the clock was ahead before", code == 0 and ended != 0, f"code {ended}")
        client, held, epoch, code = begin(server.port, 2000)
        server.end()
        server = Server("--dir", logs, clock=(shim, clock))
        time.sleep(6)
        client = Client(server.port)
        ended = commit(client, held, epoch)
        say("ended after a restart", code == 0 and ended != 0, f"code {ended}")
        server.end()


def closed_after(client, patience):
    """After how many seconds the server closes a connection, at most this many."""
    begun = time.time()
    client.socket.settimeout(patience)
    try:
        while client.socket.recv(65536):
            pass
    except socket.timeout:
        return None
    except OSError:
        pass
    return time.time() - begun


def fetch_fields(partitions, wait, isolation=0):
    """A Fetch of version 4 for at least one byte, of these places of a topic `bills`."""
    fields = struct.pack(">iiiib", -1, wait, 1, 1 << 20, isolation)
    fields += struct.pack(">i", 1) + text("bills") + struct.pack(">i", len(partitions))
    return fields + b"".join(struct.pack(">iqi", it, 0, 1 << 20) for it in partitions)


def is_kept_alive(port):
    """Whether the system asks the other ends of a server's connections if they are still there."""
    with open("/proc/net/tcp") as it:
        rows = [row.split() for row in it.readlines()[1:]]
    served = [row for row in rows if row[1].endswith(f":{port:04X}") and row[3] == "01"]
    return bool(served) and all(row[5].startswith("02:") for row in served)


def idle_ones_are_closed():
    server = Server("--idle", "2000", "--log")
    silent, asks, waits = (Client(server.port) for _ in range(3))
    waits.ask(3, 1, struct.pack(">i", 1) + text("bills"))
    say("connections are kept alive", is_kept_alive(server.port))
    found = []
    thread = threading.Thread(
        target=lambda: found.append(waits.ask(1, 4, fetch_fields([0], 6000))))
    thread.start()
    for _ in range(8):
        asks.is_served()
        time.sleep(0.5)
    took = closed_after(silent, 5)
    say("a silent connection is closed", took is not None and took < 0.5, f"{took}")
    say("one that asks isn't", asks.is_served())
    took = closed_after(asks, 5)
    say("it is closed once it asks no more", took is not None and 1.5 < took < 3.5, f"{took}")
    thread.join()
    say("one that waits in a Fetch is answered", bool(found and found[0]))
    took = closed_after(waits, 5)
    say("and closed after its time", took is not None and 1 < took < 3.5, f"{took}")
    time.sleep(0.5)
    closed = sum("nothing came for too long" in it for it in server.words().split("\n"))
    say("each is said", closed == 3, f"{closed}")
    server.end()
    server = Server("--idle", "0")
    client = Client(server.port)
    say("with --idle 0 none is closed", closed_after(client, 3) is None)
    server.end()


def topic_code(client, name):
    """The code of a topic that is asked for by Metadata of version 1."""
    answer = client.ask(3, 1, struct.pack(">i", 1) + text(name))
    return struct.unpack(">h", answer[answer.index(text(name)) - 2:][:2])[0]


def topics_are_bounded():
    server = Server("--auto-topics", "2", "--log")
    client = Client(server.port)
    codes = [topic_code(client, it) for it in ("a", "__b", "b", "c", "a", "d")]
    say("two topics are made", codes == [0, 3, 0, 3, 0, 3], f"{codes}")
    server.end()
    server = Server("--no-auto-topics")
    say("none is", topic_code(Client(server.port), "a") == 3)
    server.end()


def one_partition_often():
    server = Server()
    client = Client(server.port)
    client.ask(3, 1, struct.pack(">i", 1) + text("bills"))
    client.socket.settimeout(60)
    begun = time.time()
    answer = client.ask(1, 4, fetch_fields([0] * 40000, 0))
    took = time.time() - begun
    say("one partition 40,000 times", len(answer) > 40000 and took < 40, f"{took:.1f} s")
    fields = struct.pack(">ib", -1, 7) + struct.pack(">i", 1) + text("bills")
    answer = client.ask(2, 2, fields + struct.pack(">iiq", 1, 0, -1))
    code = struct.unpack(">h", answer[4 + 4 + 7 + 4 + 4:][:2])[0]
    say("an unknown isolation level", code == 42, f"{code}")
    server.end()


def traces_fill_up():
    with tempfile.TemporaryDirectory() as room:
        small = f"{room}/small"
        os.mkdir(small)
        if subprocess.run(["mount", "-t", "tmpfs", "-o", "size=256k", "none", small],
                          capture_output=True).returncode:
            print("skipped: nothing can be mounted here, so no disk is filled")
            return
        try:
            server = Server("--trace", f"{small}/traces", "--dir", f"{room}/logs")
            client = Client(server.port)
            client.ask(3, 1, struct.pack(">i", 1) + text("bills"))
            codes = []
            for _ in range(4000):
                records = plain_batch(b"x" * 512)
                fields = struct.pack(">hhi", -1, -1, 30000) + struct.pack(">i", 1) + text("bills")
                answer = client.ask(
                    0, 3, fields + struct.pack(">iii", 1, 0, len(records)) + records)
                if not answer:
                    codes.append(None)
                    break
                codes.append(struct.unpack(">h", answer[4 + 7 + 4 + 4:][:2])[0])
                if len(codes) > 3 and codes[-3:] == [56] * 3:
                    break
            say("a full disk of traces", codes[-3:] == [56] * 3, f"{codes[-3:]} after {len(codes)}")
            answer = client.ask(1, 4, fetch_fields([0], 0))
            say("records are still read", len(answer) > 512)
            server.end()
        finally:
            subprocess.run(["umount", small])


def the_coordinators_trace_fills_up():
    with tempfile.TemporaryDirectory() as room:
        small = f"{room}/small"
        os.mkdir(small)
        if subprocess.run(["mount", "-t", "tmpfs", "-o", "size=64k", "none", small],
                          capture_output=True).returncode:
            print("skipped: nothing can be mounted here, so no disk is filled")
            return
        try:
            os.mkdir(f"{room}/traces")
            os.symlink(f"{small}/co.trace", f"{room}/traces/co.trace")
            server = Server("--trace", f"{room}/traces", "--dir", f"{room}/logs")
            client = Client(server.port)
            client.ask(3, 1, struct.pack(">i", 1) + text("bills"))
            answer = client.ask(22, 0, text("pay") + struct.pack(">i", 60000))
            _, code, held, epoch = struct.unpack(">ihqh", answer[:16])
            say("a producer has an id", code == 0, f"{code}")
            topic = struct.pack(">i", 1) + text("bills") + struct.pack(">i", 1)
            fields = struct.pack(">qh", held, epoch) + topic + struct.pack(">i", 0)
            client.ask(24, 0, text("pay") + fields)
            with contextlib.suppress(OSError), open(f"{small}/filler", "wb", 0) as it:
                for _ in range(64):
                    it.write(bytes(1024))
            # (what is left of the last page is filled by producers that have no transactional id)
            codes = []
            while codes[-1:] != [56] and len(codes) < 500:
                answer = Client(server.port).ask(22, 0, struct.pack(">hi", -1, 60000))
                codes.append(struct.unpack(">ih", answer[:6])[1])
            say("the coordinator takes no step", codes[-1] == 56, f"{codes[-3:]} after {len(codes)}")
            records = batch(held, epoch, 0)
            fields = text("pay") + struct.pack(">hi", -1, 30000) + topic
            begun = time.time()
            answer = client.ask(0, 3, fields + struct.pack(">ii", 0, len(records)) + records)
            took = time.time() - begun
            code = struct.unpack(">h", answer[4 + 7 + 4 + 4:][:2])[0] if answer else None
            say("a batch that waits for it is answered", code == 56 and took < 20, f"{code} in {took:.1f} s")
            say("and its connection ends", closed_after(client, 5) is not None)
            server.end()
        finally:
            subprocess.run(["umount", small])


def plain_batch(value):
    """A batch of one record, of no producer."""
    record = bytes([0, 0, 0, 1]) + varint(len(value)) + value + b"\0"
    body = struct.pack(">hiqqqhii", 0, 0, 0, 0, -1, -1, -1, 1) + varint(len(record)) + record
    return struct.pack(">qiibI", 0, len(body) + 9, 0, 2, crc32c(body)) + body


LOOKS = {it.__name__: it for it in (
    files_run_out, many_gone, killed_within_commits, the_clock_moves, idle_ones_are_closed,
    topics_are_bounded, one_partition_often, traces_fill_up, the_coordinators_trace_fills_up)}


def main():
    soft, hard = resource.getrlimit(resource.RLIMIT_NOFILE)
    resource.setrlimit(resource.RLIMIT_NOFILE, (min(8192, hard), hard))
    for name in sys.argv[2:] or LOOKS:
        LOOKS[name]()
    print(f"{len(FAILED)} failed")
    return 1 if FAILED else 0


if __name__ == "__main__":
    sys.exit(main())
