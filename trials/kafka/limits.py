#!/usr/bin/env python3
"""Connections that misbehave: silent ones, ones that ask and read nothing, ones that send no request.

    limits.py [PROGRAM]

Beside 900 silent connections, 40 that ask for pages of 1 MiB without reading any and 40 that send
half a request, one client asks 1,000 times. Then 1,024 connections are open, and one more is closed
at once; when one of them has closed, another is served.
"""
import resource
import socket
import statistics
import struct
import time

from server import Server, Trial, program

soft, hard = resource.getrlimit(resource.RLIMIT_NOFILE)
resource.setrlimit(resource.RLIMIT_NOFILE, (min(8192, hard), hard))
trial = Trial()
API_VERSIONS = bytes.fromhex("0012000000000002000772646b61666b61")
BATCH = bytes.fromhex("00000000000000000000003a00000000021bf4ac12000000000000000001a21b26382d000001a21b26382d"
    "ffffffffffffffffffffffffffff00000001100000000104703000")


def string(text):
    return struct.pack(">h", len(text)) + text


def produce(batch):
    text = bytes.fromhex("0000000400000004") + string(b"limits") + struct.pack(">hhii", -1, -1, 30000, 1)
    return text + string(b"t") + struct.pack(">iii", 1, 0, len(batch)) + batch


def fetch():
    text = bytes.fromhex("0001000400000005") + string(b"limits") + struct.pack(">iiiib", -1, 0, 1, 1 << 20, 0)
    return text + struct.pack(">i", 1) + string(b"t") + struct.pack(">iiqi", 1, 0, 0, 1 << 20)


def connect(port):
    it = socket.create_connection(("127.0.0.1", port), timeout=10)
    it.setsockopt(socket.IPPROTO_TCP, socket.TCP_NODELAY, 1)
    return it


def send(it, text):
    it.sendall(struct.pack(">I", len(text)) + text)


def receive(it):
    """The next response, or nothing once the server has closed."""
    got = b""
    while len(got) < 4 or len(got) < 4 + struct.unpack(">I", got[:4])[0]:
        try:
            piece = it.recv(1 << 20)
        except ConnectionResetError:
            return b""
        if not piece:
            return b""
        got += piece
    return got


def ask(it, text):
    send(it, text)
    return receive(it)


def memory(server):
    with open(f"/proc/{server.process.pid}/status") as status:
        return next(int(line.split()[1]) // 1024 for line in status if line.startswith("VmRSS"))


with Server(program(), "--topics", "t:1") as server:
    client = connect(server.port)
    for _ in range(20_000):
        send(client, produce(BATCH))
        receive(client)
    alone = []
    for _ in range(1000):
        begun = time.monotonic()
        ask(client, API_VERSIONS)
        alone.append(1000 * (time.monotonic() - begun))
    silent = [connect(server.port) for _ in range(900)]
    deaf = [connect(server.port) for _ in range(40)]
    for it in deaf:
        it.setsockopt(socket.SOL_SOCKET, socket.SO_RCVBUF, 4096)
        it.setblocking(False)
        try:
            for _ in range(2000):
                send(it, fetch())
        except BlockingIOError:
            pass
    half = [connect(server.port) for _ in range(40)]
    for it in half:
        it.sendall(struct.pack(">I", 1000) + API_VERSIONS)
    time.sleep(1)
    beside = []
    for _ in range(1000):
        begun = time.monotonic()
        ask(client, API_VERSIONS)
        beside.append(1000 * (time.monotonic() - begun))
    print(f"answered in {statistics.median(alone):.3f} ms alone, {statistics.median(beside):.3f} ms beside "
        f"{len(silent) + len(deaf) + len(half)} others (medians); the server has {memory(server)} MB")
    trial.look("a client is answered in the middle of them", statistics.median(beside) < 10, True)
    for it in silent + deaf + half:
        it.close()
    client.close()

with Server(program(), "--topics", "t:1") as server:
    served = [connect(server.port) for _ in range(1024)]
    trial.look("the first and the last of 1,024 are answered", [len(ask(it, API_VERSIONS)) > 0
        for it in (served[0], served[-1])], [True, True])
    trial.look("one more is closed at once", connect(server.port).recv(1), b"")
    served.pop().close()
    answered = b""
    for _ in range(100):
        time.sleep(0.05)
        it = connect(server.port)
        try:
            answered = ask(it, API_VERSIONS)
        except OSError:
            answered = b""
        if answered:
            break
    trial.look("when one has closed, another is served", len(answered) > 0, True)
trial.end()
