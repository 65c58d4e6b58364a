"""A relay between a stock client and the server, which cuts connections in front of answers: it puts its
own port in the place of the server's where the server names its own."""
import random
import socket
import struct
import threading

PRODUCE, INIT, ADD_PARTITIONS, END = 0, 22, 24, 26


def whole(it, length):
    """So many bytes, or nothing once the other end has closed."""
    got = b""
    while len(got) < length:
        piece = it.recv(length - len(got))
        if not piece:
            return b""
        got += piece
    return got


class Relay:
    """Of each connection the third to seventh answer to a request of these kinds is cut off with it."""

    def __init__(self, server, kinds, seed):
        self.server, self.kinds, self.choice, self.cuts = server, kinds, random.Random(seed), 0
        self.listener = socket.create_server(("127.0.0.1", 0))
        threading.Thread(target=self.accept, daemon=True).start()

    @property
    def address(self):
        return f"127.0.0.1:{self.listener.getsockname()[1]}"

    def accept(self):
        while True:
            client, _ = self.listener.accept()
            threading.Thread(target=self.carry, args=(client,), daemon=True).start()

    def requests(self, client, server, asked):
        try:
            while head := whole(client, 4):
                body = whole(client, struct.unpack(">I", head)[0])
                if not body:
                    break
                key, _, correlation = struct.unpack(">hhi", body[:8])
                if key in self.kinds:
                    asked.add(correlation)
                server.sendall(head + body)
        except OSError:
            pass

    def carry(self, client):
        own = self.listener.getsockname()[1]
        try:
            server = socket.create_connection(("127.0.0.1", self.server.port))
        except OSError:
            client.close()
            return
        asked = set()
        threading.Thread(target=self.requests, args=(client, server, asked), daemon=True).start()
        left = self.choice.randint(3, 7)
        named = b"127.0.0.1" + struct.pack(">i", self.server.port)
        try:
            while head := whole(server, 4):
                body = whole(server, struct.unpack(">I", head)[0])
                if struct.unpack(">i", body[:4])[0] in asked:
                    left -= 1
                    if left == 0:
                        self.cuts += 1
                        break
                client.sendall(head + body.replace(named, b"127.0.0.1" + struct.pack(">i", own)))
        except OSError:
            pass
        for it in (client, server):
            try:
                it.shutdown(socket.SHUT_RDWR)
            except OSError:
                pass
