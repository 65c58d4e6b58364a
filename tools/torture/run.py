"""One run: a server, the input, the program with its faults, and the output that is left in the end."""
import collections
import os
import signal
import time

import late
import layouts
import records
import unstable
from client import Refused
from server import Server
from watch import Watch

# All in seconds. A program rests if nothing new was answered for QUIET, or for ASLEEP if it has work left.
QUIET, ASLEEP = 2, 8
# A start that has been answered nothing yet counts as resting after this.
SILENT = 10
# An instance that was stopped is watched so long after it goes on.
SLEPT = 5
# The time between two looks that find the work done.
APART = 1
# How long open transactions may take to end.
STABLE = 30
INPUT_TXN = "torture-input"

Case = collections.namedtuple("Case", "name points aborted")

Result = collections.namedtuple("Result", "case state words output events fired seconds audit points last_words "
    "groups session facts ends late")


def undisturbed(name, aborted):
    """A run without faults; with or without aborted transactions between the records."""
    return Case(name, (), aborted)


class Run(Watch):
    """One run. Its state while the program works is that of `Watch`."""

    def __init__(self, options, case, folder, patience, groups=(), prefix=""):
        super().__init__(options, case.points, folder, prefix)
        self.case, self.patience, self.watched = case, patience, list(groups)
        self.fed, self.last = None, {}
        self.input_file = os.path.join(folder, "input.txt")

    def go(self):
        """Makes the run, and ends each process that it began."""
        os.makedirs(self.folder, exist_ok=True)
        output, audit, blocked = None, (True, ""), None
        try:
            if self.is_alone():
                self.server = Server(self.options.program, self.folder, self.options.inputs + self.options.outputs)
                self.server.start()
            self.fill()
            self.slots.begin(1)
            self.feed()
            finished = self.finish()
            self.slots.end(self.options.grace)
            blocked = self.settle()
            output = self.output()
        except (OSError, Refused, layouts.Fault, records.Unreadable) as fault:
            finished = False
            self.fail(str(fault))
        finally:
            self.slots.end(0)
            self.client.close()
            if self.server:
                self.look_at_server()
                self.server.kill(signal.SIGTERM)
        if self.server and not self.fault_is_ours():
            audit = self.server.audit()
        return self.result(output, audit, finished, blocked)

    def look_at_server(self):
        """Notes a server that has ended by itself: its own fault, whatever the program did."""
        if not self.down and not self.server.is_alive():
            self.ours, self.fault = True, "the server ended by itself: " + self.server.last_words()

    def fill(self):
        """Writes the input, between aborted transactions if the case asks for them."""
        options = self.options
        if not self.is_alone():
            for topic, count in options.inputs + options.outputs:
                if self.client.create(topic, count) != count:
                    raise OSError("the broker made %s%s with another number of partitions than %d" % (
                        self.prefix, topic, count))
        if not options.inputs:
            with open(self.input_file, "w", encoding="utf-8", errors="surrogateescape") as it:
                it.write("".join(line + "\n" for line in options.input_lines.lines))
            return
        for place, (topic, count) in enumerate(options.inputs):
            for partition in range(count):
                own = options.input_lines.records(place, partition)
                if self.case.aborted:
                    self.discard(topic, partition, 1)
                for number, record in enumerate(own):
                    self.last[topic, partition] = self.client.write(topic, partition, record)
                    if self.case.aborted and number == len(own) // 2:
                        self.discard(topic, partition, 2)
                if self.case.aborted:
                    self.discard(topic, partition, 3)

    def discard(self, topic, partition, number):
        """Writes a record in a transaction that is aborted, so no reader of committed records gets it."""
        record = self.options.input_lines.similar("aborted-%d-%d" % (partition, number))
        self.client.aborted(INPUT_TXN, [(topic, partition, [record])])

    def feed(self):
        """Waits until the program has come to rest after its faults, and writes the tail."""
        end = time.monotonic() + self.patience
        while not self.fault and time.monotonic() < end and not self.is_resting():
            with self.changed:
                self.changed.wait(0.25 if self.striking else max(0.1, min(1, self.heard + QUIET - time.monotonic())))
        self.fed = time.monotonic()
        if self.fault:
            return
        self.note(None, None, "one more record is written to each input partition")
        if self.options.inputs:
            for place, (topic, count) in enumerate(self.options.inputs):
                for partition in range(count):
                    self.last[topic, partition] = self.client.write(
                        topic, partition, self.options.input_lines.tail(place, partition))
        elif self.options.done[0] != "exit":
            with open(self.input_file, "a", encoding="utf-8", errors="surrogateescape") as it:
                it.write(self.options.input_lines.tails[-1] + "\n")
        self.heard = time.monotonic()

    def is_resting(self):
        """Whether nothing new was answered for QUIET seconds, and the faults have fired or the work is done."""
        if self.striking or time.monotonic() < self.heard + QUIET:
            return False
        if self.is_exited():
            return True
        if not all(it.answers or time.monotonic() > it.begun + SILENT for it in list(self.slots.current.values())):
            return False
        return not self.left and self.fired > 0 or time.monotonic() > self.heard + ASLEEP or self.is_done()

    def is_exited(self):
        return any(it.status == 0 for it in self.slots.all)

    def is_enough(self, start):
        """Whether this start has ended because it is done, so that no other follows."""
        return self.options.done[0] == "exit" and start.status == 0

    def finish(self):
        """Waits until the work is done, at most as long as the run's patience; whether it is."""
        end, twice = time.monotonic() + self.patience, 0
        while not self.fault and time.monotonic() < end:
            if self.is_done():
                twice += 1
                if twice >= 2 and self.are_awake():
                    return True
            else:
                twice = 0
            with self.changed:
                before = self.heard
                if twice:
                    self.changed.wait_for(lambda: self.fault, APART)
                else:
                    self.changed.wait_for(lambda: self.fault or self.heard != before, APART)
        return False

    def are_awake(self):
        """Whether each instance that was stopped has gone on for SLEPT seconds, or has ended."""
        return all(it.woken is None or it.status is not None or time.monotonic() > it.woken + SLEPT
            for it in self.slots.all) and not self.striking

    def is_done(self):
        kind, limit = self.options.done
        try:
            if kind == "exit":
                return self.is_exited()
            if kind == "quiet":
                return time.monotonic() > self.heard + (limit if self.fed else QUIET)
            if kind == "count":
                return len(self.output()) >= limit
            groups = [self.options.group] if self.options.group else self.watched or self.committing()
            return bool(groups) and all(
                (self.client.committed(group, topic, partition) or -1) > last
                for group in groups for (topic, partition), last in self.last.items())
        except (OSError, Refused):
            return False

    def committing(self):
        """The groups that have committed offsets."""
        with self.changed:
            return [it for it, commits in self.groups.items() if commits]

    def settle(self):
        """Aborts open transactions, as a next start would; the transactional ids of those that stay open, or None."""
        if not self.options.outputs:
            return None
        refused = []
        for txn in list(self.txns):
            try:
                self.client.init(txn, self.txns[txn])
            except (OSError, Refused):
                refused.append(txn)
        end = time.monotonic() + STABLE
        while True:
            ends = [self.client.ends(topic, it) for topic, count in self.options.outputs for it in range(count)]
            if all(stable == last for stable, last in ends):
                return None
            if time.monotonic() > end:
                return refused or sorted(self.txns) or ["an unknown transactional id"]
            time.sleep(0.1)

    def visible(self):
        for topic, count in self.options.outputs:
            for partition in range(count):
                yield (topic, partition), self.client.read(topic, partition)

    def output(self):
        """The output that is compared: (partition, key, value) of each record. Lines have neither partition nor key."""
        found = []
        for (topic, partition), own in self.visible():
            found += [("%s-%d" % (topic, partition), it.key, it.value) for it in own]
        names = [it.files[0] for it in self.slots.all] if self.options.out_stdout else []
        if self.options.out_file:
            names.append(self.options.out_file.replace("{dir}", self.folder))
        for name in names:
            if os.path.exists(name):
                with open(name, "rb") as it:
                    found += [("", None, line) for line in it.read().split(b"\n") if line]
        return found

    def result(self, output, audit, finished, blocked):
        if self.fault:
            state, words = "failed" if self.fault_is_ours() else "unfinished", self.fault
        elif blocked:
            state, words = "blocked", "transactions stay open: " + ", ".join(blocked)
        elif not finished:
            state, words = "unfinished", "the input wasn't done %d s after its last record" % self.patience
        else:
            state, words = "ended", ""
        return Result(self.case, state, words, output, self.events, self.fired, time.monotonic() - self.begun, audit,
            self.points(), self.last_words(), self.committing(), self.session, self.facts(), self.ends,
            late.sentences(self.transacted, self.kills) + unstable.sentences(self.events))

    def last_words(self):
        """Those of the last start that ended by itself, or else of the last start that wrote some."""
        for it in sorted(reversed(self.slots.all), key=lambda it: not it.gave_up):
            words = it.last_words()
            if words:
                return words
        return []

    def fault_is_ours(self):
        """Whether the server failed: it ended by itself, or something went wrong before the program was started."""
        return self.ours or self.is_alone() and self.fault is not None and not self.slots.all

    def points(self):
        """How many requests of each API the first start made before the tail, or after it if there were none before."""
        before, all_of_it = collections.Counter(), collections.Counter()
        for it in self.events:
            if it.exchange is None or (it.start.slot, it.start.number) != (1, 1):
                continue
            name = it.exchange.name
            all_of_it[name] = max(all_of_it[name], it.exchange.number)
            if self.fed is None or it.exchange.at < self.fed:
                before[name] = max(before[name], it.exchange.number)
        return {name: before[name] or count for name, count in all_of_it.items()}

    def facts(self):
        """The requests that were answered, with their starts."""
        return [(it.start, it.exchange) for it in self.events if it.exchange is not None]
