#!/usr/bin/env python3
"""Plays the demonstration again and again, each time with another seed, another share of lost
frames (0 to 50 of a hundred) and another holding (0 to 8), and tells how each ended.

    demos.py PROGRAM [RUNS]
"""
import collections
import subprocess
import sys
import time

RECORDS = 20
LINES = "inputs %d\noutputs %d\ndoubles 0\naudit yes\n" % (2 * RECORDS, 2 * RECORDS)
ENDINGS = {(0, LINES): "audit yes, each image once", (1, "gave up\n"): "gave up"}


def play(program, seed):
    options = {"records": RECORDS, "seed": seed, "lose": seed * 7 % 51, "hold": seed % 9}
    words = [program, "demo"]
    for name, value in options.items():
        words += ["--" + name, str(value)]
    done = subprocess.run(words, capture_output=True, text=True)
    how = ENDINGS.get((done.returncode, done.stdout), "otherwise")
    if how == "otherwise":
        print(options, done)
    return how


def main():
    program = sys.argv[1]
    runs = int(sys.argv[2]) if len(sys.argv) > 2 else 100
    endings, seconds = collections.Counter(), []
    for seed in range(1, runs + 1):
        begun = time.monotonic()
        endings[play(program, seed)] += 1
        seconds.append(time.monotonic() - begun)
    for how, count in sorted(endings.items()):
        print("%s: %d" % (how, count))
    seconds.sort()
    print("seconds: median %.2f, at most %.2f" % (seconds[len(seconds) // 2], seconds[-1]))
    return int(endings["otherwise"] > 0)


sys.exit(main())
