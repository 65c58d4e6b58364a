#!/usr/bin/env python3
"""Writes the gate's case of an audit: what a small server left, and what is said of it.

    audit_case.py PROGRAM FOLDER

A client has three transactions, two of which commit, over two partitions of PROGRAM serve --dir
--trace, which is killed after the first and after the second. What it left is written to
FOLDER/audit.program as bytes, with changes that have to be refused, and what an audit has to say of
each to FOLDER/audit.out: it is worked out here, by the traces as docs/FORMATS.md has them and by what
the client did.
"""
import os
import shutil
import signal
import struct
import subprocess
import sys
import tempfile
import time

from kill import CONCURRENT, Connection, batch

HEAD = 11
MESSAGE, ANSWERED, REOPENED = 1, 7, 9
PRODUCE_REPLY, ADD_REPLY = 6, 8
NODES = ["co", "p0", "p1", "po"]
TXN = b"\x01t"
RETRIED = (CONCURRENT,)


class Server:
    def __init__(self, program, folder):
        self.words = [program, "serve", "--partitions", "2", "--connections", "9", "--dir", folder, "--trace", folder]

    def start(self):
        self.process = subprocess.Popen(self.words, stdout=subprocess.PIPE, text=True)
        self.port = int(self.process.stdout.readline().split()[1])

    def kill(self):
        os.kill(self.process.pid, signal.SIGKILL)
        self.process.wait()


def transact(port, client, partition, value, outcome):
    """One transaction of a client that has just asked for its id."""
    connection, code = Connection(port, client), CONCURRENT
    while code in RETRIED:
        code, producer, epoch = struct.unpack(">hqh", connection.ask(1, TXN + struct.pack(">I", 60000)))
    text, code = batch(value, producer, epoch, 0), CONCURRENT
    while code in RETRIED:
        code = struct.unpack(">Hhq", connection.ask(5, TXN + struct.pack(">HI", partition, len(text)) + text))[1]
    ended = connection.ask(3, TXN + struct.pack(">qhB", producer, epoch, outcome))
    if code != 0 or struct.unpack(">hqh", ended)[0] != 0:
        sys.exit(f"the transaction was answered {code}, {ended.hex()}")
    time.sleep(0.5)  # its marker is written, and answered


def records(text):
    """Where each record of a trace begins and ends, with its kind."""
    found, at = [], HEAD
    while at + 5 <= len(text):
        size, kind = struct.unpack(">IB", text[at:at + 5])
        found.append((at, at + 4 + size, kind))
        at += 4 + size
    return found


def frames(answer):
    """The frames that a step sent, each with its place, by the fields of its answer."""
    found, at = [], 1
    while at < len(answer):
        size = struct.unpack(">I", answer[at:at + 4])[0]
        found.append((at, answer[at:at + 4 + size]))
        at += 4 + size
    return found


class Trace:
    """A trace, by its items: an input and its answer, or that the node was opened again."""

    def __init__(self, name, text):
        self.name, self.text, self.items, taken = name, text, [], None
        for record in records(text):
            if record[2] == ANSWERED:
                self.items.append((taken, record))
            elif record[2] == REOPENED:
                self.items.append((record, None))
            taken = record

    def sent(self, item):
        _, answer = item
        return frames(self.text[answer[0] + 5:answer[1]]) if answer else []

    def first(self, which):
        """The number of the first item that is such a one, counted from 1, and the item."""
        return next((number, item) for number, item in enumerate(self.items, 1) if which(item))

    def takes(self, item, kind):
        taken, _ = item
        return taken[2] == MESSAGE and self.text[taken[0] + 9] == kind

    def sends(self, item, kind):
        return any(frame[4] == kind for _, frame in self.sent(item))


def main():
    program, to = os.path.abspath(sys.argv[1]), sys.argv[2]
    folder = tempfile.mkdtemp(prefix="kx_case")
    server = Server(program, folder)
    for client, partition, value, outcome in ((1, 0, b"one", 1), (2, 1, b"two", 0), (3, 0, b"three", 1)):
        server.start()
        transact(server.port, client, partition, value, outcome)
        server.kill()
    left = {}
    for name in NODES:
        for ending in ("trace", "log"):
            with open(os.path.join(folder, f"{name}.{ending}"), "rb") as file:
                left[f"{name}.{ending}"] = file.read()
    shutil.rmtree(folder)
    traces = {name: Trace(name, left[f"{name}.trace"]) for name in NODES}
    items = [(trace, item) for trace in traces.values() for item in trace.items]
    counts = (f"steps {len(items)}\nmessages {sum(len(trace.sent(item)) for trace, item in items)}\n"
        "transactions 3\n")
    program_lines, out_lines = ["# A server of three transactions, which was killed after the first and the second,",
        "# left these traces and logs. Its audit says yes; with a change it says no, and where."], []

    def line(text):
        program_lines.append(text)

    def audit(words, told, status):
        line(f"run audit {words}")
        out_lines.append(f"$ audit {words}")
        out_lines.extend(told.splitlines())
        out_lines.append(f"status {status}")

    def refused(note, name, change, number, where, words="left", counted=None):
        """An audit of what is left with one file changed, which is put back then."""
        variable = f"${name.replace('.', '_')}"
        line(f"# {note}")
        line(f"file left/{name} {change}")
        verb = "run" if counted else "verdict"
        line(f"{verb} audit {words}")
        out_lines.append(f"$ audit {words}")
        out_lines.extend((counted or "").splitlines())
        out_lines.extend([f"audit no {number}", where, "status 1"])
        line(f"file left/{name} {variable}")

    for file, text in left.items():
        line(f"bytes {file.replace('.', '_')} = {text.hex() or '-'}")
    line("folder left")
    for file in left:
        line(f"file left/{file} ${file.replace('.', '_')}")
    audit("left --dir left", counts + "audit yes", 0)
    audit("left", counts + "audit yes", 0)
    for folder, why in (("nofolder", "No such file or directory (os error 2)"), ("left/co.log", "not a directory")):
        audit(f"left --dir {folder}", f"status 1\n! kx: {folder}: {why}", 0)
        out_lines.pop()
    audit("left --page left.html", counts + "audit yes", 0)
    audit("left --page nofolder/left.html", counts + "audit yes", 1)
    out_lines.append("! kx: nofolder/left.html: No such file or directory (os error 2)")
    line('run audit left --page ""')
    out_lines.extend(['$ audit left --page ""', "status 2", "words"])

    p0 = traces["p0"]
    number, (taken, answer) = p0.first(lambda item: p0.sends(item, PRODUCE_REPLY))
    at = answer[0] + 5
    refused("A trace of another node.", "p0.trace", "$p1_trace", 1, "p0.trace: the trace is of another node",
        counted="steps 0\nmessages 0\ntransactions 0\n")
    refused("A record of no kind.", "p0.trace", f"$p0_trace,{taken[0] + 4}:63", 2,
        f"p0.trace: step {number}: no trace goes on with these bytes")
    asked, _ = p0.first(lambda item: p0.takes(item, ADD_REPLY))
    refused("The coordinator sent nothing.", "co.trace", f"$co_trace,..{HEAD}", 3,
        f"p0.trace: step {asked}: a step takes a message that no step sent")
    refused("The store found what it wrote.", "p0.trace", f"$p0_trace,{at}:01", 4,
        f"p0.trace: step {number}: the store did something else")
    place = next(place for place, frame in p0.sent((taken, answer)) if frame[4] == PRODUCE_REPLY)
    # the last byte of the offset, which the reply ends with
    offset = answer[0] + 5 + place + 4 + struct.unpack(">I", p0.text[answer[0] + 5 + place:answer[0] + 9 + place])[0] - 1
    refused("A batch was answered another offset.", "p0.trace", f"$p0_trace,{offset}:07", 5,
        f"p0.trace: step {number}: the step sends something else")
    reopened, (record, _) = p0.first(lambda item: item[0][2] == REOPENED)
    refused("A restart found a byte more.", "p0.trace", f"$p0_trace,{record[1] - 1}:{(p0.text[record[1] - 1] + 1) % 256:02x}",
        6, f"p0.trace: step {reopened}: a restart found another log")
    batches = struct.unpack(">i", left["p0.log"][8:12])[0] + 12
    refused("The log ends after its first batch.", "p0.log", f"$p0_log,..{batches}", 7,
        "p0.log: the trace leads to another log", "left --dir left", counts)
    line("# The last record is torn: a step that nobody was told of.")
    line(f"file left/p1.trace $p1_trace,..{len(left['p1.trace']) - 1}")
    line("verdict audit left --dir left")
    out_lines.extend(["$ audit left --dir left", "audit yes", "status 0"])
    line("# No trace: another version, other bytes, nothing.")
    for name, change, words in (("co.trace", "$co_trace,7:03", "co.trace: the trace has another version"),
            ("co.trace", "$co_log", "co.trace is not a trace")):
        line(f"file left/{name} {change}")
        audit("left", f"status 1\n! kx: left/{words}", 0)
        out_lines.pop()
    line("file left/co.trace $co_trace")
    line("# A log whose trace is missing.")
    line("folder fewer")
    for name in ("co", "p0", "po"):
        line(f"file fewer/{name}.trace ${name}_trace")
    line("verdict audit fewer --dir left")
    out_lines.extend(["$ audit fewer --dir left", "audit no 7", "p1.log: the trace leads to another log", "status 1",
        "! kx: fewer/p1.trace: the trace is missing"])
    line("clear fewer")
    line("clear left")
    audit("left", "status 1\n! kx: left: there are no traces: No such file or directory (os error 2)", 0)
    out_lines.pop()
    line("# A server that writes traces, in two processes; one that finds another's; and one that")
    line("# finds logs, of which its traces don't tell yet.")
    line("clear traced")
    line("clear other")
    line("clients 1")

    def serves(traces):
        served = f"serve --partitions 2 --connections 1 --dir traced --trace {traces}"
        line(f"run {served}")
        out_lines.extend([f"$ {served}", "listening PORT", "served 1", "status 0"])

    def agrees(traces):
        line(f"verdict audit {traces} --dir traced")
        out_lines.extend([f"$ audit {traces} --dir traced", "audit yes", "status 0"])

    serves("traced")
    serves("traced")
    agrees("traced")
    words = "serve --partitions 2 --connections 1 --trace traced"
    line(f"run {words}")
    out_lines.extend([f"$ {words}", "status 1", "! kx: traced/co.trace: the trace is of a log that was in memory"])
    serves("other")
    agrees("other")
    line("# A server runs on the logs without these traces, and then with others: they go on with neither, and")
    line("# begin anew only where that is asked for.")

    def goes_not_on(words, traces):
        line(f"run {words} --dir traced --trace {traces}")
        out_lines.extend([f"$ {words} --dir traced --trace {traces}", "status 1", f"! kx: {traces}/co.trace: "
            "a server ran on these logs without it; --new-traces begins the traces anew"])

    words = "serve --partitions 2 --connections 1"
    line(f"run {words} --dir traced")
    out_lines.extend([f"$ {words} --dir traced", "listening PORT", "served 1", "status 0"])
    goes_not_on(words, "other")
    serves("other --new-traces")
    agrees("other")
    goes_not_on(words, "traced")
    goes_not_on("kafka --port TAKEN", "traced")
    with open(os.path.join(to, "audit.program"), "w", encoding="utf-8") as file:
        file.write("\n".join(program_lines) + "\n")
    with open(os.path.join(to, "audit.out"), "w", encoding="utf-8") as file:
        file.write("\n".join(out_lines) + "\n")


if __name__ == "__main__":
    main()
