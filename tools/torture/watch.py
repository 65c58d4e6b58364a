"""The state of a run while its program works: what relays report, and what faults need.

Each connection has a thread of its own. They share this state under one lock, `changed`, whose holder may wait
until another thread changes the state.
"""
import collections
import signal
import threading
import time

import late
import processes
from client import Client, Refused
from faults import BY_NAME
from instances import Slots

Point = collections.namedtuple("Point", "api number fault")
# `exchange` and `text` may each be None: an answered request, a note, or a note on a request.
Event = collections.namedtuple("Event", "at start exchange text")
# The transaction timeout in ms of a transactional id whose InitProducerId wasn't seen.
TIMEOUT = 60000


def news_of(exchange):
    """What may be new in an answer: the records of a Fetch, if it has some; else the request and the answer."""
    if exchange.name == "Fetch" and exchange.response is not None:
        found = [part["records"] for topic in exchange.response["topics"] for part in topic["parts"] if part["records"]]
        return tuple(found) or None
    return exchange.frame[8:], (exchange.answer or b"")[4:]


class Watch:
    """What is known of a run, and the points at which faults are still to come."""

    def __init__(self, options, points, folder, prefix):
        self.options, self.folder = options, folder
        self.begun = time.monotonic()
        # put before each name, if runs share a Kafka
        self.prefix = prefix
        self.changed = threading.Condition(threading.RLock())
        self.slots, self.events = Slots(self), []
        # when something new was answered last, and all answers that were new
        self.heard, self.seen = self.begun, set()
        # points that are still to come, requests since the last one that came, and faults of several requests:
        # [start, API, fault, how many times still]
        self.left, self.since, self.sticky = list(points), collections.Counter(), []
        # how many faults have hit, and how many of them are at work now
        self.fired = self.striking = 0
        # how often each group has committed offsets, timeouts by transactional id, the longest session in seconds
        self.groups, self.txns, self.session = collections.OrderedDict(), {}, 0
        # requests of transactions, also those whose answers never came
        self.transacted = []
        # why the run can't be finished, and whether that is the server's fault
        self.fault, self.ours = None, False
        # the server, whether it is being started again, and when it was killed
        self.server, self.down, self.kills = None, False, []
        # (start, status, last words) of starts that ended and weren't killed
        self.ends = []
        self.client = Client(self.address, prefix)
        if self.is_alone():
            self.client.near = lambda _: self.address()

    # where the server is

    def is_alone(self):
        return self.options.against is None

    def address(self):
        return self.options.against or self.server.address

    def is_down(self):
        return self.down

    def restart_server(self):
        """Kills the server and starts it again. All connections are closed, and the relays keep their addresses."""
        with self.changed:
            self.down = True
        self.server.kill()
        self.kills.append(time.monotonic())
        for it in list(self.slots.all):
            it.relay.cut()
        self.client.close()
        try:
            self.server.start()
        except OSError as fault:
            self.ours = True
            self.fail("the server, started again after a kill: %s" % fault)
            return
        with self.changed:
            self.down = False
            for it in self.slots.all:
                it.members.clear()

    # what relays report

    def meet(self, it):
        """A request has come: its fault hits it, or it is passed on."""
        self.learn(it)
        strike = self.strike_for(it)
        if strike is None:
            it.pass_on()
            return
        try:
            strike(self, it)
        finally:
            with self.changed:
                self.striking -= 1
                self.heard = time.monotonic()
                self.changed.notify_all()

    def learn(self, it):
        """Notes groups, transactional ids and timeouts that a request names."""
        fields = it.fields or {}
        with self.changed:
            if it.name in late.NAMES and it.fields is not None:
                self.transacted.append(it)
            if "txn" in fields and fields["txn"] is not None:
                it.start.txns.add(fields["txn"])
                self.txns.setdefault(fields["txn"], TIMEOUT)
                if it.name == "InitProducerId":
                    self.txns[fields["txn"]] = max(1, fields["timeout"])
            if "group" in fields:
                self.groups.setdefault(fields["group"], 0)
                if it.name == "JoinGroup":
                    self.session = max(self.session, fields["session"] / 1000)
                    it.start.joins += 1
                    self.changed.notify_all()

    def strike_for(self, it):
        """The fault that hits this request, or None. The second of a pair is counted from the first on."""
        with self.changed:
            for entry in list(self.sticky):
                start, name, strike = entry[:3]
                if start is it.start and name == it.name:
                    entry[3] -= 1
                    if entry[3] == 0:
                        self.sticky.remove(entry)
                    self.striking += 1
                    return lambda run, it: strike(it)
            if not self.left or it.start.slot != 1:
                return None
            point = self.left[0]
            if self.fired:
                self.since[it.name] += 1
                number = self.since[it.name]
            else:
                number = it.number if it.start.number == 1 else None
            if (it.name, number) != (point.api, point.number):
                return None
            if point.fault.endswith("-after") and not it.is_answered:
                return None
            self.left.pop(0)
            self.since.clear()
            self.fired += 1
            self.striking += 1
            return BY_NAME[point.fault].strike

    def repeat(self, it, times, strike):
        """Hits the next requests of the same API by the same start too, so many times."""
        with self.changed:
            self.sticky.append([it.start, it.name, strike, times])

    def answered(self, it):
        """An answer has come from the server. If its program can't learn of its new member, the member leaves."""
        if it.name == "JoinGroup" and it.code == 0 and (it.link.closed or it.start.killed):
            self.forget(it)

    def forget(self, it):
        """A member leaves whose program was never told its name, since the group would wait for it."""
        if it.name == "JoinGroup" and it.code == 0 and not self.options.slow and (
                it.start.status is not None or it.start.killed or it.fields["member"] == ""):
            self.client.leave(it.fields["group"], it.response["member"])

    def gave(self, it):
        """An answer goes to the program."""
        start, code = it.start, it.code
        with self.changed:
            start.answers += 1
            if it.name == "JoinGroup" and code in (0, 79):
                start.members.add((it.fields["group"], it.response["member"]))
            elif it.name == "LeaveGroup" and code == 0:
                for member in [it.fields.get("member")] + [one["member"] for one in it.fields.get("members") or []]:
                    start.members.discard((it.fields["group"], member))
            elif it.name == "Heartbeat" and code == 27:
                start.rebalanced = True
            elif code == 0 and it.name in ("OffsetCommit", "TxnOffsetCommit"):
                self.groups[it.fields["group"]] = self.groups.get(it.fields["group"], 0) + 1
                start.commits += it.name == "OffsetCommit"
            elif it.name == "EndTxn" and code == 0 and it.fields["commit"]:
                start.commits += 1
            news = news_of(it)
            if news is not None and (start, it.name, news) not in self.seen:
                self.seen.add((start, it.name, news))
                self.heard = time.monotonic()
            self.note(start, it, None)

    def note(self, start, exchange, text):
        with self.changed:
            self.events.append(Event(time.monotonic() - self.begun, start, exchange, text))
            self.changed.notify_all()

    def tell(self, text, it):
        """Notes what a fault does to a request."""
        it.struck_at = it.struck_at or time.monotonic()
        self.note(it.start, it, text)

    def ended(self, start):
        """A start has ended: its members leave now, rather than at the end of their sessions."""
        if not self.options.slow and not self.is_down():
            self.leave(start)
        with self.changed:
            if not self.slots.ending:
                how = "was killed" if start.killed else "ended with status %s" % start.status
                if not start.killed:
                    start.gave_up = True
                    self.ends.append((str(start), start.status, start.last_words(1)))
                self.note(start, None, "%s %s" % (start, how))
                self.heard = time.monotonic()
            self.changed.notify_all()

    def fail(self, words):
        """Ends the run: it can't be finished."""
        with self.changed:
            self.fault = self.fault or words
            self.changed.notify_all()

    # what faults need

    def wait_for(self, what, seconds):
        """Waits until something holds, at most so long; whether it does."""
        with self.changed:
            return self.changed.wait_for(lambda: what() or self.fault, max(0, seconds))

    def spawn(self, what, *words):
        threading.Thread(target=what, args=words, daemon=True).start()

    def kill(self, start):
        start.relay.die()
        start.killed = True
        processes.send(start.process, signal.SIGKILL)

    def pause(self, start):
        processes.send(start.process, signal.SIGSTOP)

    def go_on(self, start):
        with self.changed:
            start.woken = time.monotonic()
        processes.send(start.process, signal.SIGCONT)

    def begin(self, slot):
        """A new start in slot 1, beside the one that is there; in slot 2 the one that is there, or a new one."""
        if slot in self.slots.current and slot != 1:
            return self.slots.current[slot]
        return self.slots.begin(slot)

    def leave(self, start):
        """The members of a start leave their groups."""
        with self.changed:
            members, start.members = sorted(start.members), set()
        for group, member in members:
            self.client.leave(group, member)

    def abort(self, txn):
        """Aborts the transaction of an id and raises its epoch."""
        try:
            self.client.init(txn, self.txns.get(txn, TIMEOUT))
        except (OSError, Refused):
            pass
