#!/usr/bin/env python3
"""librdkafka in C: an idempotent producer over connections that are cut, so that answers are lost.

    rdkafka.py [PROGRAM [RECORDS [SEED]]]

A relay stands between, which cuts a connection after a few answers to Produce, in front of the next
one. Each record has to stand once, in order.
"""
import os
import subprocess
import sys
import tempfile

from relay import PRODUCE, Relay
from server import Server, Trial, needs, program

needs("gcc", "gcc")
needs("kcat", "kcat")
if not os.path.exists("/usr/include/librdkafka/rdkafka.h"):
    print("skipped: librdkafka isn't installed (Debian's librdkafka-dev)")
    raise SystemExit(0)

trial = Trial()
records = int(sys.argv[2]) if len(sys.argv) > 2 else 20000
seed = int(sys.argv[3]) if len(sys.argv) > 3 else 1
here = os.path.dirname(os.path.abspath(__file__))
with tempfile.TemporaryDirectory() as work:
    built = os.path.join(work, "rdkafka")
    subprocess.run(["gcc", "-O2", "-Wall", "-Wextra", "-o", built, os.path.join(here, "rdkafka.c"),
        "-lrdkafka"], check=True)
    with Server(program(), "--topics", "cut:1") as server:
        relay = Relay(server, {PRODUCE}, seed)
        done = subprocess.run([built, relay.address, str(records)], capture_output=True, text=True,
            timeout=180)
        trial.look(f"all of {records} records are answered", done.stdout,
            f"answered {records} failed 0\n")
        read = subprocess.run(["kcat", "-q", "-C", "-b", server.address, "-t", "cut", "-p", "0", "-o",
            "beginning", "-e"], capture_output=True, text=True, timeout=60)
        trial.look("each stands once, in order", read.stdout.split() == [str(n) for n in range(records)],
            True)
        print(f"{relay.cuts} answers were cut off")
trial.end()
