#!/usr/bin/env python3
"""The work of sockets.sh through the calls of a world, beside librdkafka: calls.py [PROGRAM [RUNS]].

PROGRAM is crates/kx_main/out/kx_main, which ./kx builds, where none is named. It runs scripts that
world.py writes, of one client and of sixteen, over four partitions: a world of nodes in memory, on
one thread and without sockets, each message delivered once and in order. A time is that of the whole
run: it has the reading of the script and the printing of each message. Records have 64 bytes, the
longest word of a script.

librdkafka goes over sockets to its mock cluster in the same process, on several threads (rdkafka.c);
it is left out where librdkafka-dev isn't installed. Its records have 100 bytes. Each figure is the
median of the runs, with the least and the greatest behind it.
"""
import os
import re
import statistics
import subprocess
import sys
import tempfile
import time

here = os.path.dirname(os.path.abspath(__file__))
program = sys.argv[1] if len(sys.argv) > 1 else f"{here}/../crates/kx_main/out/kx_main"
runs = int(sys.argv[2]) if len(sys.argv) > 2 else 3

# how many batches or transactions, how many records each has, whether they are in transactions
LOADS = [(20_000, 1, True), (1_000, 100, True), (50_000, 1, False), (2_000, 100, False)]
RATE = re.compile(r" *(\d+) /s +(\d+) records/s")


def shown(numbers):
    return f"{statistics.median(numbers):,.0f} ({min(numbers):,.0f} to {max(numbers):,.0f})"


def script(path, count, clients, records, in_transactions):
    words = [str(word) for word in (count, clients, 4, records)]
    with open(path, "w") as to:
        subprocess.run([sys.executable, f"{here}/world.py", *words]
            + ([] if in_transactions else ["idempotent"]), stdout=to, check=True)


def by_world(path, count):
    with open(path) as lines, open(os.devnull, "w") as to:
        start = time.monotonic()
        subprocess.run([program, "sim"], stdin=lines, stdout=to, check=True)
        return count / (time.monotonic() - start)


def by_rdkafka(binary, words):
    said = subprocess.run([binary, *words], capture_output=True, text=True, check=True).stdout
    return [float(figure) for figure in RATE.match(said).groups()]


def row(name, figures):
    print(f"| {name} | {shown(figures)} |", flush=True)


def worlds(work):
    for count, records, in_transactions in LOADS:
        for clients in (1, 16):
            script(f"{work}/script", count, clients, records, in_transactions)
            figures = [by_world(f"{work}/script", count) for _ in range(runs)]
            kind = "transactions" if in_transactions else "idempotent batches"
            row(f"world: {kind} of {records} records, {clients} clients", figures)


def mocks(work):
    binary = f"{work}/rdkafka"
    for producers in ("1", "16"):
        for records in ("1", "100"):
            figures = [by_rdkafka(binary, [producers, "2000", records])[0] for _ in range(runs)]
            row(f"librdkafka: transactions of {records} records, {producers} producers", figures)
        for name, linger in (("its own batches", []), ("linger.ms 0", ["0"])):
            words = [producers, "400000", "idempotent", *linger]
            figures = [by_rdkafka(binary, words)[1] for _ in range(runs)]
            row(f"librdkafka: idempotent records, {name}, {producers} producers", figures)


print("| Load | A second |\n|---|---|")
with tempfile.TemporaryDirectory() as work:
    worlds(work)
    if os.path.exists("/usr/include/librdkafka/rdkafka_mock.h"):
        subprocess.run(["gcc", "-O2", "-o", f"{work}/rdkafka", f"{here}/rdkafka.c",
            f"{here}/common.c", "-lrdkafka", "-lpthread"], check=True)
        mocks(work)
    else:
        print("librdkafka isn't compared, since librdkafka-dev isn't installed")
