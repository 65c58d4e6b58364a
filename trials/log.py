#!/usr/bin/env python3
"""Looks at what a server writes to standard error with --log.

    log.py PROGRAM [PART..]

- A connection that opens and closes, and why: by the client, its frame is too long, its request isn't
  served, too many connections are open.
- A version and an API that aren't served, with the name that the client gives itself and the versions
  that are. A name with line feeds, escape characters, quotes and 10,000 bytes is one line.
- A topic that is made, and one that isn't, and why.
- 5,000 connections in a burst, or as many as there are in a minute: at most 100 lines a second, and
  each other one is counted.
- Standard error that nobody reads doesn't stop the server, and `serve` ends all the same.
- Without --log, and with --no-log, nothing is written if standard error is no terminal; on a terminal
  `kafka` writes by itself, and `serve` doesn't.

Ends with status 1 if one of these isn't so. A PART is a function below. Requests are written from
Kafka's protocol guide.
"""
import os
import pty
import re
import resource
import signal
import socket
import struct
import subprocess
import sys
import tempfile
import time

FAILED = []
TIME = r"\d{4}-\d\d-\d\dT\d\d:\d\d:\d\d\.\d{3}Z "


def say(what, is_right, *more):
    print(("ok     " if is_right else "FAILED ") + what, *more, flush=True)
    if not is_right:
        FAILED.append(what)


def text(it):
    return struct.pack(">h", len(it)) + it


class Client:
    """A connection of a client that gives itself a name."""

    def __init__(self, port, name=b"log"):
        self.socket = socket.create_connection(("127.0.0.1", port), timeout=60)
        self.name = name

    def send(self, api, version, fields=b""):
        body = struct.pack(">hhi", api, version, 7) + text(self.name) + fields
        self.socket.sendall(struct.pack(">i", len(body)) + body)

    def ask(self, api, version, fields=b""):
        """The answer; nothing if the server closed the connection."""
        try:
            self.send(api, version, fields)
            return self.take(struct.unpack(">i", self.take(4))[0])
        except (OSError, EOFError):
            return b""

    def take(self, count):
        taken = b""
        while len(taken) < count:
            more = self.socket.recv(count - len(taken))
            if not more:
                raise EOFError
            taken += more
        return taken

    def is_served(self):
        return len(self.ask(18, 0)) > 6

    def topic(self, name):
        """Asks for a topic, as a producer does."""
        return self.ask(3, 1, struct.pack(">i", 1) + text(name))

    def close(self):
        self.socket.close()


class Server:
    """PROGRAM with these words, with what it writes to standard error in a file or elsewhere."""

    def __init__(self, *words, errors=None):
        self.said = tempfile.TemporaryFile()
        self.process = subprocess.Popen(
            [sys.argv[1], *words, "--port", "0"], stdout=subprocess.PIPE, stderr=errors or self.said)
        line = self.process.stdout.readline().split()
        if len(line) != 2:
            self.process.wait()
            raise SystemExit(f"the server said {line}, and {self.bytes()}")
        self.port = int(line[1])

    def bytes(self):
        return os.pread(self.said.fileno(), 1 << 26, 0)

    def lines(self):
        """The lines, without their times."""
        found = []
        for line in self.bytes().decode("ascii").split("\n")[:-1]:
            found.append(re.sub("^" + TIME, "", line) if re.match(TIME, line) else "NO TIME: " + line)
        return found

    def wait_for(self, words, seconds=30):
        """Whether a line of this form comes within so many seconds."""
        end = time.time() + seconds
        while time.time() < end:
            if any(re.fullmatch(words, line) for line in self.lines()):
                return True
            time.sleep(0.05)
        return False

    def has(self, what, words):
        say(what, self.wait_for(words), *([] if self.wait_for(words, 0.1) else self.lines()[-5:]))

    def end(self):
        self.process.send_signal(signal.SIGKILL)
        self.process.wait()


def connections():
    server = Server("kafka", "--log")
    client = Client(server.port)
    here = client.socket.getsockname()[1]
    say("it is served", client.is_served())
    server.has("opened", rf"connection 0 from 127\.0\.0\.1:{here} opened")
    client.close()
    server.has("closed by the client", "connection 0 closed: by the client")
    client = Client(server.port)
    client.socket.sendall(b"\x7f\xff\xff\xff")
    server.has("its frame is too long", "connection 1 closed: its frame is too long, or is none")
    client = Client(server.port)
    client.socket.sendall(struct.pack(">i", 3) + b"\0\x12\0")
    server.has("its request can't be read", "connection 2 closed: its request can't be read")
    server.end()


def unserved():
    server = Server("kafka", "--log")
    client = Client(server.port, b"rdkafka")
    say("versions are answered all the same", len(client.ask(18, 3)) > 6)
    server.has("a version of ApiVersions",
               'connection 0: client "rdkafka": ApiVersions version 3 isn\'t served, 0 to 0 is')
    client = Client(server.port, b"kafka-go")
    client.ask(0, 2)
    server.has("a version of Produce",
               'connection 1: client "kafka-go": Produce version 2 isn\'t served, 3 to 4 is')
    server.has("the connection closes", "connection 1 closed: its request isn't served")
    client = Client(server.port, b"admin")
    client.ask(47, 1)
    server.has("an API", 'connection 2: client "admin": API 47 isn\'t served')
    client = Client(server.port, b"a\nb\x1b[2J\"c\\\xff\0")
    client.ask(0, 2)
    server.has("a hostile name is one line", 'connection 3: client "' + re.escape(
        'a\\x0ab\\x1b[2J\\"c\\\\\\xff\\x00') + '": Produce version 2 isn\'t served, 3 to 4 is')
    client = Client(server.port, b"n" * 10000)
    client.ask(0, 2)
    server.has("a long name is cut",
               'connection 4: client "n{256}"\\.\\.\\.: Produce version 2 isn\'t served, 3 to 4 is')
    said = server.bytes()
    say("printable ASCII and line feeds", all(c == 10 or 32 <= c < 127 for c in said))
    say("a time in front of each line", not any("NO TIME" in line for line in server.lines()))
    server.end()


def topics():
    server = Server("kafka", "--log", "--topics", "bills:15")
    client = Client(server.port)
    client.topic(b"paid")
    server.has("a topic is made", 'topic "paid" made, 1 partition')
    client.topic(b"junk")
    server.has("no partitions are free", 'topic "junk" not made: no partitions are free')
    client.topic(b"a b\n")
    server.has("a name that Kafka doesn't allow",
               re.escape('topic "a b\\x0a" not made: Kafka doesn\'t allow its name'))
    client.topic(b"__offsets")
    server.has("none of such a name",
               'topic "__offsets" not made: no such topic is made when a client asks for it')
    count = len(server.lines())
    client.topic(b"paid")
    time.sleep(0.5)
    say("one that is there is no line", len(server.lines()) == count)
    server.end()
    server = Server("kafka", "--log", "--no-auto-topics")
    Client(server.port).topic(b"bills")
    server.has("no topic is made when a client asks",
               'topic "bills" not made: no such topic is made when a client asks for it')
    server.end()


def counted(lines):
    """How many lines there are, of notices, and how many are told to be left out."""
    left = [int(found[1]) for line in lines if (found := re.fullmatch(r"(\d+) lines? left out", line))]
    return len(lines), len(lines) - len(left), sum(left)


def burst():
    server = Server("kafka", "--log")
    begun, count = time.time(), 0
    # (a slow machine takes fewer of them in this time)
    while count < 5000 and time.time() < begun + 60:
        # (one more than 1,024 at a time is closed at once, with one line)
        while len(os.listdir(f"/proc/{server.process.pid}/fd")) > 800:
            time.sleep(0.05)
        clients = [socket.create_connection(("127.0.0.1", server.port), timeout=120) for _ in range(20)]
        for it in clients:
            it.close()
        count += len(clients)
    took = time.time() - begun
    # the last second's count comes in the next one
    end, all_of_them = time.time() + 120, 0
    while time.time() < end and all_of_them < 2 * count:
        time.sleep(0.5)
        lines, notices, left = counted(server.lines())
        all_of_them = notices + left
    took_all = time.time() - begun
    say("each notice is a line or is counted", all_of_them == 2 * count,
        f"{notices} lines, {left} left out, of {2 * count}")
    say("at most 100 lines a second", lines <= 100 * (took_all + 2), f"{lines} in {took_all:.1f} s")
    seconds = {}
    for line in server.bytes().decode("ascii").split("\n")[:-1]:
        seconds[line[:19]] = seconds.get(line[:19], 0) + 1
    # two seconds of the server's clock may lie in one of the clock on the wall, and a line has the
    # time of its notice
    say("in no second many more", max(seconds.values()) <= 201, f"{max(seconds.values())}")
    if count < 5000:
        print(f"too slow here to leave lines out: {count} connections in {took:.1f} s")
    else:
        say("some are left out", left > 0, f"the burst took {took:.1f} s")
    say("it is still served", Client(server.port).is_served())
    server.end()


def full_pipe():
    """Both ends of a pipe into which nothing more goes."""
    read, write = os.pipe()
    os.set_blocking(write, False)
    try:
        while True:
            os.write(write, b"-" * 4096)
    except BlockingIOError:
        os.set_blocking(write, True)
    return read, write


def nobody_reads():
    read, write = full_pipe()
    server = Server("kafka", "--log", errors=write)
    begun, are_served = time.time(), 0
    # three notices each: more than wait at most
    for _ in range(400):
        it = Client(server.port)
        are_served += it.is_served()
        it.ask(0, 2)
        it.close()
    say("400 clients are served though nobody reads", are_served == 400,
        f"{are_served} in {time.time() - begun:.1f} s")
    server.end()
    os.close(read)
    server = Server("kafka", "--log", errors=write)
    say("it is served though the pipe is closed",
        all(Client(server.port).is_served() for _ in range(20)))
    server.end()
    os.close(write)
    read, write = full_pipe()
    server = Server("serve", "--partitions", "1", "--connections", "1", "--log", errors=write)
    socket.create_connection(("127.0.0.1", server.port)).close()
    begun = time.time()
    try:
        status = server.process.wait(timeout=60)
    except subprocess.TimeoutExpired:
        status = None
        server.end()
    say("serve ends though nobody reads", status == 0, f"after {time.time() - begun:.1f} s")
    os.close(read)
    os.close(write)


def serves():
    server = Server("serve", "--partitions", "1", "--connections", "2", "--log")
    it = socket.create_connection(("127.0.0.1", server.port))
    it.sendall(struct.pack(">i", -1))
    server.has("serve: no frame", "connection 0 closed: its frame is too long, or is none")
    it.close()
    socket.create_connection(("127.0.0.1", server.port)).close()
    status = server.process.wait(timeout=30)
    say("serve ends, and its last line is there", status == 0
        and "connection 1 closed: by the client" in server.lines(), *server.lines())


def on_terminal(*words):
    """What a server writes to a terminal while one client comes and goes."""
    mine, its = pty.openpty()
    server = Server(*words, errors=its)
    socket.create_connection(("127.0.0.1", server.port)).close()
    time.sleep(1)
    server.end()
    os.close(its)
    said = b""
    try:
        while more := os.read(mine, 65536):
            said += more
    except OSError:
        pass
    os.close(mine)
    return said.decode()


def options():
    for words, is_told in ((("kafka",), False), (("kafka", "--no-log"), False),
                           (("serve", "--partitions", "1", "--connections", "5"), False)):
        server = Server(*words)
        socket.create_connection(("127.0.0.1", server.port)).close()
        time.sleep(1)
        say(f"{' '.join(words)}: nothing, if nobody watches", not server.bytes(), server.bytes())
        server.end()
    for words, is_told in ((("kafka",), True), (("kafka", "--no-log"), False), (("kafka", "--log"), True),
                           (("serve", "--partitions", "1", "--connections", "5"), False)):
        said = on_terminal(*words)
        say(f"{' '.join(words)} on a terminal", ("connection 0" in said) == is_told, said)
    both = subprocess.run([sys.argv[1], "kafka", "--log", "--no-log"], capture_output=True, timeout=60)
    say("--log with --no-log is refused", both.returncode == 2 and not both.stdout, both.stderr)


def main():
    soft, hard = resource.getrlimit(resource.RLIMIT_NOFILE)
    resource.setrlimit(resource.RLIMIT_NOFILE, (min(8192, hard), hard))
    for part in (connections, unserved, topics, burst, nobody_reads, serves, options):
        if part.__name__ in (sys.argv[2:] or part.__name__):
            part()
    print(f"{len(FAILED)} failed")
    return 1 if FAILED else 0


if __name__ == "__main__":
    sys.exit(main())
