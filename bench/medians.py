#!/usr/bin/env python3
"""Makes one table of several runs of sockets.sh: medians.py FILE..

Each figure is the median of the runs, with the least and the greatest behind it.
"""
import re
import statistics
import sys

LINE = re.compile(r"(.*): +(\d+) /s +(\d+) records/s +median +([\d.]+) ms +99th +([\d.]+) ms"
    r"(?: +asked again (\d+))?")


def shown(number):
    return f"{number:,.0f}" if number >= 100 else f"{number:.3g}"


def spread(numbers):
    if min(numbers) == max(numbers):
        return shown(numbers[0])
    return f"{shown(statistics.median(numbers))} ({shown(min(numbers))} to {shown(max(numbers))})"


rows = {}
for path in sys.argv[1:]:
    with open(path) as lines:
        for line in lines:
            if found := LINE.match(line):
                figures = [float(figure or 0) for figure in found.groups()[1:]]
                rows.setdefault(" ".join(found[1].split()), []).append(figures)
print("| Load | Batches or commits a second | Records a second | Median, ms | 99 in 100, ms | Asked again |")
print("|---|---|---|---|---|---|")
for name, runs in rows.items():
    print(f"| {name} | " + " | ".join(spread(column) for column in zip(*runs)) + " |")
