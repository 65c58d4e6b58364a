#!/usr/bin/env python3
"""Measures how soon a server takes a connection after others are gone, what checksums beside its files
cost, and how long it takes to open its logs.

    figures.py PROGRAM [--dir FOLDER] [--turns N] [accept] [sums] [open]

- accept: 1,000 connections are open at once, each is answered, and all are closed. Then another is
  opened and answered, and ten more, one after the other; ten were before. Of `kafka` and of `serve`.
- sums: transactions of one record over 16 connections of `serve --dir`, by the load of bench/sockets.c.
  In every other turn `co.sum` is a link into a file system that is full, so that from the first append
  on no checksum is kept. (This needs gcc and `mount`.)
- open: the time from a start to `listening`, on logs of 100 MB that are in the page cache, once of
  batches of 100 records, once of transactions of one record, and on no logs at all. Of both. (This needs
  gcc.)

Logs lie in FOLDER, which has to be on the disk that is measured, or else in the folder for temporary
files. Each figure is the median of N turns (7), with the least and the most. Ends with status 1 if the
server doesn't do what is to be measured. Other work makes the figures worse, so the load is printed.
"""
import os
import re
import shutil
import statistics
import struct
import subprocess
import sys
import tempfile
import time

from frames import connect, next_frame

TOP = os.path.dirname(os.path.dirname(os.path.realpath(__file__)))
CONNECTIONS, GONE, FEW = 16, 1000, 10
SUMMED, LOGS = 16000, 100_000_000


class Server:
    """PROGRAM with these words, once it listens, and how long that took."""

    def __init__(self, *words):
        begun = time.monotonic()
        self.process = subprocess.Popen([sys.argv[1], *words], stdout=subprocess.PIPE, text=True)
        line = self.process.stdout.readline().split()
        self.took = time.monotonic() - begun
        if len(line) != 2:
            raise SystemExit(f"{' '.join(words)}: the server doesn't listen")
        self.port = int(line[1])

    def memory(self):
        """How much memory it had at most, in MB."""
        with open(f"/proc/{self.process.pid}/status") as it:
            return int(re.search(r"VmHWM:\s+(\d+)", it.read())[1]) / 1024

    def end(self):
        self.process.kill()
        self.process.wait()


def served(port, ask):
    """A connection that was just opened and answered, and how many milliseconds that took."""
    begun = time.monotonic()
    it = connect(port, 60)
    it.sendall(ask)
    next_frame(it)
    return it, (time.monotonic() - begun) * 1e3


def spread(numbers, shown):
    return f"{shown(statistics.median(numbers))} ({shown(min(numbers))} to {shown(max(numbers))})"


def millis(it):
    return f"{it:.2f} ms"


def seconds(it):
    return f"{it:.3f} s"


def one_after_the_other(port, ask):
    """How many milliseconds each of a few connections takes."""
    times = []
    for _ in range(FEW):
        it, took = served(port, ask)
        it.close()
        times.append(took)
    return times


def request_of_kafka():
    """ApiVersions of version 0, by Kafka's protocol guide."""
    body = struct.pack(">hhih", 18, 0, 1, 0)
    return struct.pack(">i", len(body)) + body


def request_of_serve():
    """A request for an id, by docs/FORMATS.md."""
    body = struct.pack(">BII", 1, 1, 1) + b"\1a" + struct.pack(">I", 60000)
    return struct.pack(">I", len(body)) + body


def accept(_room, _turns):
    for what, words, ask in (
            ("kafka", ["kafka", "--port", "0"], request_of_kafka()),
            ("serve", ["serve", "--partitions", "1", "--connections", "1024"], request_of_serve())):
        server = Server(*words)
        before = one_after_the_other(server.port, ask)
        others = [served(server.port, ask)[0] for _ in range(GONE)]
        for it in others:
            it.close()
        it, first = served(server.port, ask)
        it.close()
        after = one_after_the_other(server.port, ask)
        server.end()
        print(f"{what}: opened and answered in {spread(before, millis)} at first; at once after {GONE} are gone in "
              f"{millis(first)}; and ten more in {spread(after, millis)}", flush=True)


def build(room):
    """The load of bench/sockets.c."""
    built = f"{room}/sockets"
    sources = [f"{TOP}/bench/{it}.c" for it in ("sockets", "common", "batch", "crc")]
    subprocess.run(["gcc", "-O2", "-o", built, *sources, "-lpthread"], check=True)
    return built


def load(built, folder, count, *kind):
    """Loads a server over this folder, which ends with its last connection: how much a second."""
    words = ["serve", "--partitions", "4", "--connections", f"{CONNECTIONS}", "--dir", folder]
    server = Server(*words)
    said = subprocess.run([built, f"{server.port}", f"{CONNECTIONS}", f"{count}", *kind],
                          stdout=subprocess.PIPE, text=True, check=True).stdout
    server.process.wait()
    return float(re.search(r"(\d+) /s", said)[1])


def without_room(small):
    """An empty file in a file system that has no room for a byte."""
    os.mkdir(small)
    if subprocess.run(["mount", "-t", "tmpfs", "-o", "size=4k", "none", small], capture_output=True).returncode:
        raise SystemExit("sums: nothing can be mounted here, so there is no load without checksums")
    empty = f"{small}/co.sum"
    open(empty, "wb").close()
    with open(f"{small}/filler", "wb") as it:
        it.write(bytes(4096))
    return empty


def sums(room, turns):
    built, found = build(room), {True: [], False: []}
    small = f"{room}/small"
    empty = without_room(small)
    try:
        for _ in range(turns):
            for is_summed in (True, False):
                folder = f"{room}/logs"
                shutil.rmtree(folder, ignore_errors=True)
                os.mkdir(folder)
                if not is_summed:
                    os.symlink(empty, f"{folder}/co.sum")
                found[is_summed].append(load(built, folder, SUMMED, "1"))
                if (os.path.getsize(f"{folder}/co.sum") > 0) != is_summed:
                    raise SystemExit("sums: co.sum isn't as it was meant to be")
    finally:
        subprocess.run(["umount", small])
    for is_summed, what in ((True, "with"), (False, "without")):
        print(f"transactions a second, {what} checksums: {spread(found[is_summed], '{:,.0f}'.format)}")
    ratios = [one / other for one, other in zip(found[True], found[False])]
    print(f"the ratio of neighbouring turns: {spread(ratios, '{:.3f}'.format)}", flush=True)


def size_of(folder):
    return sum(os.path.getsize(f"{folder}/{it}") for it in os.listdir(folder))


def filled(room, built, folder, count, *kind):
    """Makes a folder with logs of 100 MB; in memory first, where that is quick."""
    with tempfile.TemporaryDirectory(dir="/dev/shm" if os.path.isdir("/dev/shm") else room) as quick:
        while not os.path.exists(f"{quick}/logs") or size_of(f"{quick}/logs") < LOGS:
            load(built, f"{quick}/logs", count, *kind)
        shutil.copytree(f"{quick}/logs", folder)
    os.sync()


def opened(room, turns):
    built = build(room)
    loads = {"batches of 100 records": (1600, "100", "idempotent"), "transactions of one record": (16000, "1"),
             "no logs": None}
    servers = (["serve", "--partitions", "4", "--connections", "1"],
               ["kafka", "--port", "0", "--topics", "load:4"])
    for what, kind in loads.items():
        folder = f"{room}/opened"
        shutil.rmtree(folder, ignore_errors=True)
        if kind:
            filled(room, built, folder, *kind)
            coordinators = os.path.getsize(f"{folder}/co.log")
            what += f", {size_of(folder) / 1e6:.1f} MB, {coordinators / 1e6:.1f} of them co.log"
        for words in servers:
            times, memory = [], 0
            for _ in range(turns):
                if not kind:
                    shutil.rmtree(folder, ignore_errors=True)
                server = Server(*words, "--dir", folder)
                times.append(server.took)
                memory = max(memory, server.memory())
                server.end()
            print(f"{words[0]} opens {what}: {spread(times, seconds)}; {memory:.0f} MB of memory at most", flush=True)


FIGURES = {"accept": accept, "sums": sums, "open": opened}


def option(words, name, other):
    """Takes an option and its value out of the words."""
    if name not in words:
        return other
    at = words.index(name)
    value = words[at + 1]
    del words[at:at + 2]
    return value


def main():
    words = sys.argv[2:]
    place, turns = option(words, "--dir", None), int(option(words, "--turns", "7"))
    load_of = "load: {:.1f}".format
    print(load_of(os.getloadavg()[0]))
    with tempfile.TemporaryDirectory(dir=place) as room:
        for name in words or FIGURES:
            FIGURES[name](room, turns)
    print(load_of(os.getloadavg()[0]))


if __name__ == "__main__":
    main()
