#!/usr/bin/env python3
"""Pages a second of a log that grows meanwhile: published.py [SECONDS].

One thread puts batches of one record of 64 bytes and publishes each at once, while 1, 2 and 4
others take pages of 64 KiB of the published log; then the same with the log under a lock, which
each reader takes for its page and the writer for each put. Each is done with twice as many puts
until it takes SECONDS (2), or there are 800,000 puts. It runs crates/kx_cases_run, which `rt run`
there proves and builds.
"""
import os
import subprocess
import sys
import tempfile
import time

PROGRAM = os.path.join(
    os.path.dirname(os.path.abspath(__file__)),
    "../crates/kx_cases_run/out/kx_cases_run",
)
SECONDS = float(sys.argv[1]) if len(sys.argv) > 1 else 2.0
MOST_PUTS = 800_000


def run(folder, script):
    """Returns the seconds that a script takes, and the last line that it tells."""
    for name, text in (("bench.shown", script), ("bench.out", "")):
        with open(os.path.join(folder, name), "w", encoding="ascii") as file:
            file.write(text)
    begun = time.monotonic()
    done = subprocess.run([PROGRAM, "bench.shown"], cwd=folder, capture_output=True, text=True)
    taken = time.monotonic() - begun
    # what it told stands between `FAILED bench`, since nothing was wanted, and the count
    return taken, done.stdout.splitlines()[-2]


def measure(folder, name, form):
    """Tells the pages and puts a second of a script with enough puts."""
    puts, taken, told = 50, 0.0, ""
    while taken < SECONDS and puts < MOST_PUTS:
        puts *= 2
        taken, told = run(folder, form.format(puts))
    pages = int(told.split()[3])
    print(f"{name}: {pages / taken:,.0f} pages and {puts / taken:,.0f} puts a second", end="")
    print(f" ({puts:,} puts in {taken:.1f} s)", flush=True)


def main():
    with tempfile.TemporaryDirectory() as folder:
        for readers in (1, 2, 4):
            form = f"node {readers}\npages {readers} {{}}\n"
            measure(folder, f"published, {readers} readers", form)
            measure(folder, f"locked, {readers} readers", f"locked {readers} {{}}\n")


if __name__ == "__main__":
    main()
