"""The relay between one start of a program and the server.

It reads each request by its layout, asks the run whether a fault hits it, and passes it on. Answers go back in
the order of the requests. It answers ApiVersions itself, with the server's ranges cut to those of `layouts`, so
it is never sent a version that it can't read. In Metadata and FindCoordinator it replaces the broker's address
by its own; all other responses are passed on as they are.
"""
import collections
import select
import socket
import threading
import time

import layouts
import names
from client import Connection, read_frame, write_frame

PRODUCE, METADATA, FIND, JOIN, LEAVE, VERSIONS = 0, 3, 10, 11, 13, 18
UNSUPPORTED = 35


class Gone(Exception):
    """The connection, or the program, has ended."""


class Exchange:
    """One request and what becomes of it."""

    def __init__(self, link, head, fields, frame, number):
        self.link, self.head, self.fields, self.frame, self.number = link, head, fields, frame, number
        self.start = link.relay.start
        api = layouts.BY_KEY.get(head.key)
        self.name = api.name if api else "API %d" % head.key
        self.at = time.monotonic()
        self.answer = self.response = None
        # when a fault hit it, when it was passed on, and when its answer came
        self.struck_at = self.passed_at = self.arrived_at = None
        # its answer waits; its answer was sent; it was passed on; its answer was made up here
        self.held = self.given = self.passed = self.made_up = False
        self.arrived = threading.Event()

    def __str__(self):
        return "%s#%d" % (self.name, self.number)

    @property
    def is_answered(self):
        """Whether it has an answer: all but a Produce with acks 0."""
        return not (self.head.key == PRODUCE and self.fields is not None and self.fields["acks"] == 0)

    @property
    def code(self):
        """The first error code of its answer that isn't 0, or else 0; None without an answer."""
        if self.response is None:
            return None
        return next((it for it in layouts.codes(self.response) if it), 0)

    def pass_on(self):
        """Sends it to the server, unless the program has closed the connection meanwhile."""
        self.link.pass_on(self)

    def wait(self, seconds):
        """Waits for the server's answer, at most so long; whether it has come."""
        return self.arrived.wait(seconds)

    def give(self):
        """Sends a held answer to the program."""
        self.held = False
        self.link.flush()

    def refuse(self, code):
        """Answers it here, in the layout of its version."""
        self.made_up = True
        self.take(layouts.write_response(self.head.key, self.head.version, self.head.correlation,
            layouts.refusal(self.head.key, self.fields, code)))
        self.link.flush()

    def take(self, text):
        """The answer has come."""
        self.answer, self.arrived_at = text, time.monotonic()
        if layouts.is_known(self.head.key, self.head.version):
            try:
                _, self.response = layouts.read_response(self.head.key, self.head.version, text)
            except layouts.Fault:
                self.response = None
            prefix = self.link.relay.run.prefix
            if self.response is not None and (self.head.key in (METADATA, FIND) or prefix):
                if not self.made_up:
                    self.response = names.to_program(self.response, prefix)
                self.meet_here()
                self.answer = layouts.write_response(self.head.key, self.head.version, self.head.correlation,
                    self.response)
        self.arrived.set()

    def meet_here(self):
        """Replaces the addresses of brokers by the relay's own."""
        relay = self.link.relay
        if self.head.key == METADATA:
            for it in self.response["brokers"]:
                it["host"], it["port"] = relay.near((it["host"], it["port"]))
        elif self.head.key == FIND and self.response["error"] == 0:
            self.response["host"], self.response["port"] = relay.near((self.response["host"], self.response["port"]))

    def to_broker(self):
        """The bytes that are passed on: as they came, or with the run's own names."""
        prefix = self.link.relay.run.prefix
        if not prefix or self.fields is None:
            return self.frame
        return layouts.write_request(self.head, names.to_broker(self.fields, prefix))


class Link:
    """One connection of the program, and the connection to the server over which its requests are passed on."""

    def __init__(self, relay, client, server):
        self.relay, self.client, self.address, self.server = relay, client, server, None
        # requests whose answers the program waits for, and those of them whose answers the server owes
        self.queue, self.passed = collections.deque(), collections.deque()
        # `sending` is held while answers are sent, so that they stay in order
        self.lock, self.sending, self.closed = threading.RLock(), threading.Lock(), False

    def serve(self):
        """Reads requests until the program or a fault closes the connection."""
        try:
            while True:
                frame = read_frame(self.client)
                if frame is None:
                    return
                self.meet(frame)
        except (OSError, Gone):
            pass
        finally:
            self.close()

    def meet(self, frame):
        try:
            head, fields = layouts.read_request(frame)
        except layouts.Fault:
            head, fields = layouts.Head(int.from_bytes(frame[:2], "big"), -1, 0, None), None
        it = Exchange(self, head, fields, frame, self.relay.count(head.key))
        with self.lock:
            if it.is_answered:
                self.queue.append(it)
        if head.key == VERSIONS:
            it.take(self.relay.versions(head))
            self.flush()
            return
        self.relay.meet(it)

    def is_left(self):
        """Whether the program has closed its end, even if some of its requests are still unread."""
        poll = select.poll()
        poll.register(self.client, select.POLLRDHUP | select.POLLHUP)
        return bool(poll.poll(0))

    def pass_on(self, it):
        with self.relay.passing:
            if self.closed or self.relay.dead:
                raise Gone()
            # a LeaveGroup is passed on all the same: without it the session would end a little later
            if it.head.key != LEAVE and it.is_answered and self.is_left():
                raise Gone()
            with self.lock:
                if self.server is None:
                    self.server = self.relay.connect(self.address)
                    self.relay.spawn(self.answers, self.server)
                if it.is_answered:
                    self.passed.append(it)
                it.passed, it.passed_at = True, time.monotonic()
            write_frame(self.server, it.to_broker())

    def answers(self, server):
        """Takes the server's answers, in the order of the requests."""
        try:
            while True:
                frame = read_frame(server)
                if frame is None:
                    break
                with self.lock:
                    it = self.passed.popleft()
                it.take(frame)
                self.relay.answered(it)
                if not it.held:
                    self.flush()
                if self.closed and not self.is_owed_a_member():
                    break
        except (OSError, IndexError):
            pass
        with self.lock:
            lost = list(self.passed)
            self.passed.clear()
        for it in lost:
            it.arrived.set()
        self.close()
        server.close()

    def is_owed_a_member(self):
        """Whether a JoinGroup is still unanswered: its answer names a member that has to leave."""
        with self.lock:
            return any(it.head.key == JOIN for it in self.passed)

    def flush(self):
        """Sends the answers that are next in the order of their requests."""
        with self.sending:
            while True:
                with self.lock:
                    if not self.queue or self.queue[0].answer is None or self.queue[0].held or self.closed:
                        return
                    it = self.queue.popleft()
                it.given = True
                # noted before it is sent, since the program's next request may come before this thread goes on
                self.relay.gave(it)
                try:
                    write_frame(self.client, it.answer)
                except OSError:
                    return

    def settle(self, but, seconds):
        """Waits until the requests before this one were answered, at most so long, and sends their answers."""
        end = time.monotonic() + seconds
        with self.lock:
            before = [it for it in self.queue if it is not but]
        for it in before:
            it.arrived.wait(max(0, end - time.monotonic()))
        # the thread that took the last of them may not have sent it yet
        self.flush()

    def close(self):
        with self.lock:
            if self.closed:
                return
            self.closed = True
        shut(self.client)
        if self.server is not None and not self.is_owed_a_member():
            shut(self.server)


def shut(it):
    try:
        it.shutdown(socket.SHUT_RDWR)
    except OSError:
        pass
    it.close()


class Relay:
    """Listens at the addresses of one start. Its run decides on each request, and hears of each answer."""

    def __init__(self, run, start):
        self.run, self.start = run, start
        # requests by API, connections, and listening sockets by the broker that is behind them
        self.counts, self.links, self.ports = collections.Counter(), [], {}
        # `passing` is held while a request is passed on, so that none is after `dead` is set
        self.passing, self.dead = threading.RLock(), False
        # `lock` is for the collections; `offered` has the server's APIs and versions
        self.lock, self.offered = threading.Lock(), None
        self.main = self.listen(None)

    def listen(self, upstream):
        """Opens a port for connections to one broker. `None` is the run's server."""
        listener = socket.create_server(("127.0.0.1", 0))
        self.ports[upstream] = listener
        self.spawn(self.accept, listener, upstream)
        return listener

    def spawn(self, what, *words):
        threading.Thread(target=what, args=words, daemon=True).start()

    @property
    def address(self):
        return "127.0.0.1:%d" % self.main.getsockname()[1]

    def accept(self, listener, upstream):
        while True:
            try:
                client, _ = listener.accept()
            except OSError:
                return
            if self.run.is_down() or self.dead:
                client.close()
                continue
            client.setsockopt(socket.IPPROTO_TCP, socket.TCP_NODELAY, 1)
            link = Link(self, client, upstream)
            with self.lock:
                self.links.append(link)
            self.spawn(link.serve)

    def connect(self, upstream):
        if self.run.is_down():
            raise Gone()
        it = socket.create_connection(upstream or self.run.address(), 5)
        it.settimeout(None)
        it.setsockopt(socket.IPPROTO_TCP, socket.TCP_NODELAY, 1)
        return it

    def near(self, broker):
        """The relay's address for a broker. A server of the harness has the main address."""
        if self.run.is_alone():
            broker = None
        with self.lock:
            listener = self.ports.get(broker)
        listener = listener or self.listen(broker)
        return listener.getsockname()

    def versions(self, head):
        """The answer to ApiVersions, in the layout of version 0."""
        if self.offered is None:
            it = Connection(self.run.address())
            self.offered = it.ranges
            it.close()
        cut = []
        for key, (first, last) in sorted(self.offered.items()):
            api = layouts.BY_KEY.get(key)
            if api and max(first, api.first) <= min(last, api.last):
                cut.append({"key": key, "min": max(first, api.first), "max": min(last, api.last)})
        return layouts.write_response(VERSIONS, 0, head.correlation,
            {"error": UNSUPPORTED if head.version else 0, "apis": cut})

    def count(self, key):
        with self.lock:
            self.counts[key] += 1
            return self.counts[key]

    def meet(self, it):
        self.run.meet(it)

    def answered(self, it):
        self.run.answered(it)

    def gave(self, it):
        self.run.gave(it)

    def die(self):
        """Passes nothing on any more: the program is killed next."""
        with self.passing:
            self.dead = True

    def cut(self):
        """Closes all connections."""
        with self.lock:
            links = list(self.links)
        for it in links:
            it.close()

    def close(self):
        with self.lock:
            listeners = list(self.ports.values())
        for it in listeners:
            shut(it)
        self.cut()
