#!/usr/bin/env python3
"""Audits a server that was killed at random, and then what it left, tampered with.

    audit.py PROGRAM [TRANSACTIONS [KILLS [TAMPERINGS]]]

Clients as those of kill.py have transactions over four partitions of PROGRAM serve --dir --trace,
which is killed with SIGKILL and started again. Its audit has to say yes. Then one thing is changed
in a copy of its traces or logs, each time another: an answer, an input, what a store did, a step
left out, two traces swapped, a byte of a log, a batch at the end of a log. Each has to be refused.
The same of a server whose logs are older than its traces, which so begin with those logs: there the
log in a head is changed too, and left out. Traces are read as docs/FORMATS.md has them.
"""
import os
import random
import shutil
import struct
import subprocess
import sys
import tempfile
import time

from kill import Client, Server

HEAD = 11
MESSAGE, ANSWERED = 1, 7
PRODUCE_REPLY = 6


def log_in(text):
    """The log with which a trace begins, of version 2; nothing of version 1."""
    if text[7] == 1:
        return b""
    size = struct.unpack(">Q", text[HEAD + 8:HEAD + 16])[0]
    return text[HEAD + 16:HEAD + 16 + size]


def head_len(text):
    """How many bytes the head of a trace takes."""
    return HEAD if text[7] == 1 else HEAD + 16 + len(log_in(text))


def records(text):
    """Where each record of a trace begins and ends, with its kind."""
    found, at = [], head_len(text)
    while at + 5 <= len(text):
        size, kind = struct.unpack(">IB", text[at:at + 5])
        if at + 4 + size > len(text):
            break
        found.append((at, at + 4 + size, kind))
        at += 4 + size
    return found


def read(folder, name):
    with open(os.path.join(folder, name), "rb") as file:
        return file.read()


def write(folder, name, text):
    with open(os.path.join(folder, name), "wb") as file:
        file.write(text)


def flipped(text, at):
    return text[:at] + bytes([text[at] ^ (1 << random.randrange(8))]) + text[at + 1:]


class Left:
    """What a server left: its traces and its logs."""

    def __init__(self, traces, logs):
        self.traces, self.logs = traces, logs
        self.names = sorted(name for name in os.listdir(traces) if name.endswith(".trace"))
        self.text = {name: read(traces, name) for name in self.names}
        self.records = {name: records(self.text[name]) for name in self.names}
        self.appends = {name: self.steps(name, self.appended) for name in self.names}
        self.answers = {name: self.steps(name, lambda text, answer: len(answer) > 12) for name in self.names}

    def steps(self, name, which):
        """The pairs of a message and its answer that are such ones."""
        text, all_records = self.text[name], self.records[name]
        return [(one, next_one) for one, next_one in zip(all_records, all_records[1:])
            if one[2] == MESSAGE and next_one[2] == ANSWERED
            and which(text[one[0] + 5:one[1]], text[next_one[0] + 5:next_one[1]])]

    @staticmethod
    def appended(_frame, answer):
        """A step that sends a reply of code 0 to a Produce: it appended a batch."""
        at = 1
        while at < len(answer):
            size = struct.unpack(">I", answer[at:at + 4])[0]
            if answer[at + 4] == PRODUCE_REPLY and answer[at + 15:at + 17] == b"\0\0":
                return True
            at += 4 + size
        return False

    def some(self, kind):
        name = random.choice([name for name in self.names if kind[name]])
        return name, random.choice(kind[name])


def answer_changed(left, traces, _logs):
    name, (_, answer) = left.some(left.answers)
    write(traces, name, flipped(left.text[name], random.randrange(answer[0] + 6, answer[1])))


def store_changed(left, traces, _logs):
    name, (_, answer) = left.some(left.answers)
    text = left.text[name]
    write(traces, name, text[:answer[0] + 5] + bytes([random.randrange(1, 7)]) + text[answer[0] + 6:])


def input_changed(left, traces, _logs):
    name, (taken, _) = left.some(left.appends)
    # a byte of a batch, whose checksum is then wrong, or of a coordinator's answer, which wasn't sent
    write(traces, name, flipped(left.text[name], random.randrange(taken[1] - 8, taken[1])))


def step_left_out(left, traces, _logs):
    name, (taken, answer) = left.some(left.appends)
    text = left.text[name]
    write(traces, name, text[:taken[0]] + text[answer[1]:])


def length_changed(left, traces, _logs):
    name = random.choice([name for name in left.names if left.records[name]])
    at = random.choice(left.records[name])[0]
    text = left.text[name]
    size = struct.unpack(">I", text[at:at + 4])[0]
    write(traces, name, text[:at] + struct.pack(">I", size + 1) + text[at + 4:])


def traces_swapped(left, traces, _logs):
    one, other = random.sample(left.names, 2)
    write(traces, one, left.text[other])
    write(traces, other, left.text[one])


def heads_swapped(left, traces, _logs):
    one, other = random.sample([name for name in left.names if left.appends[name]], 2)
    # the records of each after the head of the other
    for name, from_name in ((one, other), (other, one)):
        text, records_of = left.text[name], left.text[from_name]
        write(traces, name, text[:head_len(text)] + records_of[head_len(records_of):])


def log_changed(left, _traces, logs):
    name = random.choice([name for name in os.listdir(logs) if name.endswith(".log")
        and os.path.getsize(os.path.join(logs, name))])
    text = read(logs, name)
    write(logs, name, flipped(text, random.randrange(len(text))))


def log_shorter(left, _traces, logs):
    name = random.choice([name for name in left.names if left.appends[name]]).replace(".trace", ".log")
    text, at, ends = read(logs, name), 0, []
    while at < len(text):
        ends.append(at)
        at += 12 + struct.unpack(">i", text[at + 8:at + 12])[0]
    # without its last two batches: the last one may be of a step that nobody was told of
    write(logs, name, text[:ends[-2]])


def begun(left):
    """The traces that begin with a log which has entries."""
    return [name for name in left.names if len(log_in(left.text[name])) > 64]


def head_changed(left, traces, _logs):
    name = random.choice(begun(left))
    text = left.text[name]
    write(traces, name, flipped(text, random.randrange(HEAD + 16, head_len(text))))


def head_without_log(left, traces, _logs):
    name = random.choice(begun(left))
    text = left.text[name]
    write(traces, name, text[:7] + b"\1" + text[8:HEAD] + text[head_len(text):])


TAMPERINGS = [answer_changed, store_changed, input_changed, step_left_out, length_changed, traces_swapped,
    heads_swapped, log_changed, log_shorter]
OF_HEADS = [head_changed, head_without_log]


def audit(program, traces, logs):
    began = time.monotonic()
    ran = subprocess.run([program, "audit", traces, "--dir", logs], capture_output=True, text=True, check=False)
    return ran.returncode, ran.stdout, ran.stderr, time.monotonic() - began


def serve(program, traces, logs, transactions, kills, begun=0):
    """Clients have transactions over a server that is killed at random, and writes traces if they have
    a folder. They have begun so often before."""
    server = Server(program, logs, 1024)
    server.words += ["--expire", *(["--trace", traces] if traces else [])]
    server.start()
    clients = [Client(server, n, transactions // 8) for n in range(1, 9)]
    for client in clients:
        client.begun = begun
        client.start()
    for number in range(kills):
        goal = transactions * (number + 1) // (kills + 1)
        while sum(len(c.answered) for c in clients) < goal and any(c.is_alive() for c in clients):
            time.sleep(0.02)
        time.sleep(random.random() / 5)
        server.kill()
        server.start()
    for client in clients:
        client.join()
    server.kill()


def begin(program, traces, logs, times):
    """A server begins its traces on logs that are there, and is killed before anybody asks it anything."""
    for _ in range(times):
        server = Server(program, logs, 1024)
        server.words += ["--trace", traces]
        server.start()
        time.sleep(random.random() / 3)
        server.kill()


def tampered(program, folder, traces, logs, tamperings, count):
    """Audits what a server left, and then changes one thing of it at a time. Says how much failed."""
    status, said, errors, took = audit(program, traces, logs)
    print(said.strip().replace("\n", ", "), errors.strip().replace("\n", ", "), f"in {took:.2f} s")
    failed = 0 if status == 0 and said.endswith("audit yes\n") else 1
    left, numbers = Left(traces, logs), {}
    for number in range(count):
        tamper = tamperings[number % len(tamperings)]
        other_traces, other_logs = os.path.join(folder, "t"), os.path.join(folder, "l")
        for one, other in ((traces, other_traces), (logs, other_logs)):
            shutil.rmtree(other, ignore_errors=True)
            shutil.copytree(one, other)
        tamper(left, other_traces, other_logs)
        status, said, errors, _ = audit(program, other_traces, other_logs)
        why = next((line for line in said.split("\n") if line.startswith("audit ")), errors.strip())
        numbers.setdefault((tamper.__name__, why), 0)
        numbers[tamper.__name__, why] += 1
        # a log in a head that can't be opened is no trace's
        is_refused = why.startswith("audit no") or tamper in OF_HEADS and why.endswith("is not a trace")
        if status != 1 or not is_refused:
            failed += 1
            print("NOT REFUSED", tamper.__name__, said, errors)
    for (name, why), times in sorted(numbers.items()):
        print(f"{name}: {times} times {why}")
    print(f"{count} tampered, {failed} failed")
    return failed


def main():
    program = os.path.abspath(sys.argv[1])
    if subprocess.run([program, "audit", "--help"], capture_output=True, check=False).returncode != 0:
        print("skipped: the program audits no servers")
        sys.exit(0)
    transactions = int(sys.argv[2]) if len(sys.argv) > 2 else 400
    kills = int(sys.argv[3]) if len(sys.argv) > 3 else 8
    count = int(sys.argv[4]) if len(sys.argv) > 4 else 450
    folder = tempfile.mkdtemp(prefix="kx_audit")
    traces, logs = os.path.join(folder, "traces"), os.path.join(folder, "logs")
    serve(program, traces, logs, transactions, kills)
    failed = tampered(program, folder, traces, logs, TAMPERINGS, count)
    traces, logs = os.path.join(folder, "later"), os.path.join(folder, "older")
    serve(program, None, logs, transactions // 4, 1)
    begin(program, traces, logs, 6)
    serve(program, traces, logs, transactions // 2, kills // 2, begun=100)
    failed += tampered(program, folder, traces, logs, TAMPERINGS + OF_HEADS, count // 2)
    shutil.rmtree(folder)
    sys.exit(1 if failed else 0)


if __name__ == "__main__":
    main()
