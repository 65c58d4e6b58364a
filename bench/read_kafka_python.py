"""Reads the batches of a file with kafka-python, and prints the nanoseconds per record."""
import sys
import time

from kafka.record import MemoryRecords

TURNS = 5


def read(data):
    records, size = 0, 0
    batches = MemoryRecords(data)
    while batches.has_next():
        batch = batches.next_batch()
        if not batch.validate_crc():
            raise SystemExit("a checksum differs")
        for record in batch:
            records += 1
            size += len(record.value)
    return records, size


def main():
    with open(sys.argv[1], "rb") as file:
        data = file.read()
    best = None
    for _ in range(TURNS):
        start = time.perf_counter_ns()
        records, size = read(data)
        taken = (time.perf_counter_ns() - start) / records
        best = taken if best is None else min(best, taken)
    print(f"{best:.1f} {size}")


main()
