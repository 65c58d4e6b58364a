"""For the tests: a server that records its requests, and a client that makes the requests of a test."""
import collections
import socket
import tempfile
import threading
import time

import layouts
import options
import run
import watch
from client import read_frame, write_frame

Asked = collections.namedtuple("Asked", "name fields")


class Server:
    """Answers each request with code 0, or as `answers` says for its API: by fields, or by a function of the request."""

    def __init__(self):
        self.asked, self.answers, self.starts, self.kills = [], {}, 0, 0
        self.listener, self.links, self.hold = None, [], {}
        self.lock = threading.Lock()

    def start(self):
        self.starts += 1
        self.listener = socket.create_server(("127.0.0.1", 0))
        threading.Thread(target=self.accept, args=(self.listener,), daemon=True).start()

    def accept(self, listener):
        while True:
            try:
                it, _ = listener.accept()
            except OSError:
                return
            self.links.append(it)
            threading.Thread(target=self.serve, args=(it,), daemon=True).start()

    def serve(self, it):
        try:
            while True:
                frame = read_frame(it)
                if frame is None:
                    break
                head, fields = layouts.read_request(frame)
                name = layouts.BY_KEY[head.key].name
                with self.lock:
                    self.asked.append(Asked(name, fields))
                if name in self.hold:
                    self.hold[name].wait(10)
                if name == "Produce" and fields["acks"] == 0:
                    continue
                write_frame(it, layouts.write_response(head.key, head.version, head.correlation,
                    self.answer(name, fields, head.key)))
        except OSError:
            pass
        it.close()

    def answer(self, name, fields, key):
        if name in self.answers:
            found = self.answers[name]
            return found(fields) if callable(found) else found
        if name == "ApiVersions":
            return {"apis": [{"key": it.key, "min": it.first, "max": it.last + 1} for it in layouts.TABLE]}
        if name == "FindCoordinator":
            return {"host": "127.0.0.1", "port": self.address[1], "node": 1}
        if name == "JoinGroup":
            return {"generation": 3, "member": fields["member"] or "member-1", "leader": "member-1"}
        if name == "Metadata":
            return {"brokers": [{"id": 1, "host": "127.0.0.1", "port": self.address[1]}], "controller": 1, "topics": [
                {"name": it["name"], "parts": [{"index": part, "leader": 1} for part in (0, 1)]}
                for it in fields["topics"] or []]}
        answer = layouts.refusal(key, fields, 0)
        answer.update(pid=7, epoch=0)
        return answer

    def kill(self, how=None):
        self.kills += 1
        self.listener.close()
        for it in self.links:
            try:
                it.shutdown(socket.SHUT_RDWR)
            except OSError:
                pass

    @property
    def address(self):
        return self.listener.getsockname()

    def is_alive(self):
        return True

    def audit(self):
        return True, "audit yes"

    def names(self):
        """The APIs of the requests, without ApiVersions and FindCoordinator."""
        with self.lock:
            return [it.name for it in self.asked if it.name not in ("ApiVersions", "FindCoordinator")]


class Client:
    """One connection of a program."""

    def __init__(self, start):
        self.socket = socket.create_connection(("127.0.0.1", start.relay.main.getsockname()[1]))
        self.socket.settimeout(10)
        self.correlation, self.sent = 0, {}

    def send(self, name, version=None, **fields):
        api = layouts.BY_NAME[name]
        self.correlation += 1
        head = layouts.Head(api.key, api.last if version is None else version, self.correlation, "scripted")
        self.sent[self.correlation] = head
        write_frame(self.socket, layouts.write_request(head, fields))
        return self.correlation

    def take(self):
        """The correlation id and the fields of the next answer, or None if the connection has ended."""
        try:
            frame = read_frame(self.socket)
        except ConnectionError:
            return None
        if frame is None:
            return None
        head = self.sent[int.from_bytes(frame[:4], "big")]
        return layouts.read_response(head.key, head.version, frame)

    def ask(self, name, version=None, **fields):
        self.send(name, version, **fields)
        return self.take()

    def close(self):
        self.socket.close()


class Scene:
    """A run with a scripted server, and a program that only sleeps, whose requests the test makes."""

    def __init__(self, only=None, words=()):
        self.folder = tempfile.TemporaryDirectory(prefix="kx-test-")
        found = options.options(list(words) + ["--in", "in", "--out", "out"] + (["--only", only] if only else []) + [
            "--", "sh", "-c", "exec sleep 1000", "{bootstrap}"])
        points = tuple(watch.Point(*it) for it in found.only[0]) if only else ()
        self.run = run.Run(found, run.Case("test", points, False), self.folder.name, 60)
        self.run.server = self.server = Server()
        self.server.start()
        self.start = self.run.slots.begin(1)
        self.clients = []

    def client(self, start=None):
        self.clients.append(Client(start or self.start))
        return self.clients[-1]

    def join(self, client):
        """The program becomes a member of the group g."""
        client.ask("JoinGroup", group="g", session=10000, rebalance=10000, type="consumer")

    def wait(self, what, seconds=10):
        """Waits until something holds, in the run or at the server."""
        end = time.monotonic() + seconds
        while not what() and time.monotonic() < end:
            time.sleep(0.01)

    def told(self):
        return [it.text for it in self.run.events if it.text]

    def __enter__(self):
        return self

    def __exit__(self, *_):
        for it in self.clients:
            it.close()
        self.run.slots.end(0)
        self.run.client.close()
        self.server.kill()
        self.folder.cleanup()


def is_alive(start):
    """Whether the start's process is there."""
    return start.process.poll() is None
