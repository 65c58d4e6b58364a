"""The user's program: its starts, the slots in which they are, and what the relay has learnt of each."""
import os
import signal
import time

import processes
from relay import Relay

# How many starts a slot has, and the seconds between an end and the next start, at first and at most.
MOST_STARTS, FIRST_PAUSE, LONGEST_PAUSE = 20, 0.5, 4


class Start:
    """One start of the program: its processes, its relay, its members of groups and its transactional ids."""

    def __init__(self, run, slot, number):
        self.run, self.slot, self.number = run, slot, number
        self.relay = Relay(run, self)
        # its members, (group, member id) each, and its transactional ids
        self.members, self.txns = set(), set()
        # how many JoinGroups it made, commits it was told of, and answers it was given
        self.joins = self.commits = self.answers = 0
        # whether a heartbeat has told it of a rebalance, the harness killed it, or it ended by itself before the run did
        self.rebalanced = self.killed = self.gave_up = False
        # its exit status, once it has ended, and when it went on after it was stopped
        self.process = self.status = self.woken = None
        self.begun = time.monotonic()
        # its standard output and standard error
        self.files = [os.path.join(run.folder, "slot-%d-start-%d.%s" % (slot, number, it)) for it in ("out", "err")]

    def __str__(self):
        return "start %d" % self.number if self.slot == 1 else "start %d of slot %d" % (self.number, self.slot)

    def launch(self):
        words = {"bootstrap": self.relay.address, "slot": str(self.slot), "start": str(self.number),
            "dir": self.run.folder, "input": self.run.input_file}
        with open(self.files[0], "ab") as out, open(self.files[1], "ab") as err:
            self.process = processes.begin(fill(self.run.options.command, words), stdout=out, stderr=err)

    def last_words(self, lines=3):
        """The last lines that it wrote to its standard error."""
        try:
            with open(self.files[1], "rb") as it:
                it.seek(0, os.SEEK_END)
                it.seek(max(0, it.tell() - 4096))
                return [line for line in it.read().decode(errors="replace").split("\n") if line.strip()][-lines:]
        except OSError:
            return []


def fill(command, words):
    """The command with the names in braces replaced."""
    filled = []
    for word in command:
        for name, value in words.items():
            word = word.replace("{%s}" % name, value)
        filled.append(word)
    return filled


class Slots:
    """The slots that were begun. A start that ends is followed by another in its slot."""

    def __init__(self, run):
        self.run, self.current, self.all, self.ending = run, {}, [], False

    def begin(self, slot):
        """Begins a start in this slot. An earlier one that still runs goes on beside it, and has no other after it."""
        start = self.open(slot)
        self.launch(start)
        self.run.spawn(self.keep, start)
        return start

    def open(self, slot):
        with self.run.changed:
            number = 1 + sum(it.slot == slot for it in self.all)
            start = Start(self.run, slot, number)
            self.all.append(start)
            self.current[slot] = start
            self.run.changed.notify_all()
        return start

    def launch(self, start):
        with self.run.changed:
            if self.ending:
                return
            try:
                start.launch()
            except OSError as fault:
                self.run.fail(str(fault))

    def keep(self, start):
        """Waits until a start ends, and starts the next after a pause, which doubles each time."""
        pause = FIRST_PAUSE
        while start.process is not None:
            start.status = processes.wait(start.process)
            start.relay.die()
            self.run.ended(start)
            with self.run.changed:
                if self.ending or self.current[start.slot] is not start or self.run.is_enough(start):
                    return
                if sum(it.slot == start.slot for it in self.all) >= MOST_STARTS:
                    self.run.fail("%d starts, and the last ended with status %s: %s" % (
                        MOST_STARTS, start.status, " / ".join(start.last_words()) or "without a word"))
                    return
                self.run.changed.wait_for(lambda: self.ending, pause)
                if self.ending or self.current[start.slot] is not start:
                    return
            pause = min(LONGEST_PAUSE, 2 * pause)
            start = self.open(start.slot)
            self.launch(start)

    def end(self, grace):
        """Ends all starts: SIGTERM, and SIGKILL after the grace."""
        with self.run.changed:
            self.ending = True
            self.run.changed.notify_all()
        living = [it for it in self.all if it.process is not None and it.status is None]
        for it in living:
            processes.send(it.process, signal.SIGCONT)
            processes.send(it.process, signal.SIGTERM)
        end = time.monotonic() + grace
        for it in living:
            self.run.wait_for(lambda: it.status is not None, end - time.monotonic())
        for it in living:
            if it.status is None:
                it.relay.die()
                processes.send(it.process, signal.SIGKILL)
                self.run.wait_for(lambda: it.status is not None, 10)
        for it in self.all:
            it.relay.close()
