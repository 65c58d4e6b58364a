#!/usr/bin/env python3
"""`serve --session-timeout` drops a member of a group whose client says nothing.

    silent.py [PROGRAM]

Clients 1 and 2 join a group, and then only 1 sends anything. When the time is over 2 has been dropped:
client 3 is told that it is the second of two members, and of the generation that counts the drop. Then
the same with a restart between: the second server reads the members from the log, and 2 never speaks
to it.
"""
import os
import struct
import subprocess
import sys
import tempfile
import time

from frames import connect, next_frame

TOP = os.path.dirname(os.path.dirname(os.path.abspath(__file__)))
LIMIT = 2.0


def ask(it, client, kind, rest):
    """A request of a client, and the fields of its reply after who asked."""
    body = struct.pack(">BII", kind, client, 7) + rest
    it.sendall(struct.pack(">I", len(body)) + body)
    return next_frame(it)[4 + 9:]


def join(it, client):
    """Code, generation, place and count of a JoinReply."""
    return struct.unpack(">HiHH", ask(it, client, 13, b"\x01g"))


class Server:
    """A server of one partition that serves one connection and ends with it."""

    def __init__(self, program, *more):
        words = [program, "serve", "--partitions", "1", "--connections", "1",
            "--session-timeout", str(int(LIMIT * 1000)), *more]
        self.process = subprocess.Popen(words, stdout=subprocess.PIPE, text=True)
        self.it = connect(int(self.process.stdout.readline().split()[1]), 20)

    def speak(self):
        """Client 1 speaks until the others' time is over."""
        until = time.time() + 2 * LIMIT + 1.5
        while time.time() < until:
            join(self.it, 1)
            time.sleep(0.2)

    def end(self):
        self.it.close()
        self.process.wait(20)


def silent(program):
    server = Server(program)
    yield "client 1 joins", join(server.it, 1), (0, 1, 0, 1)
    yield "client 2 joins", join(server.it, 2), (0, 2, 1, 2)
    server.speak()
    yield "client 2 was dropped", join(server.it, 3), (0, 4, 1, 2)
    server.end()


def silent_since_a_restart(program):
    with tempfile.TemporaryDirectory() as folder:
        server = Server(program, "--dir", folder)
        yield "client 1 joins in files", join(server.it, 1), (0, 1, 0, 1)
        yield "client 2 joins in files", join(server.it, 2), (0, 2, 1, 2)
        server.end()
        server = Server(program, "--dir", folder)
        yield "both are members after a restart", join(server.it, 1), (0, 2, 0, 2)
        server.speak()
        yield "client 2 was dropped after the restart", join(server.it, 3), (0, 4, 1, 2)
        server.end()


def main():
    program = sys.argv[1] if len(sys.argv) > 1 else os.path.join(TOP, "crates/kx_main/out/kx_main")
    failed = 0
    for what, found, wanted in [*silent(program), *silent_since_a_restart(program)]:
        failed += found != wanted
        print("ok" if found == wanted else f"FAILED (found {found}, wanted {wanted})", what)
    return 1 if failed else 0


if __name__ == "__main__":
    sys.exit(main())
