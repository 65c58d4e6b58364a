"""Compares two outputs as sets: same_without_doubles.py EXPECTED FOUND. A record a line: topic, key, value."""
import sys

expected, found = [set(open(name, encoding="utf-8")) for name in sys.argv[1:3]]
for line in sorted(expected ^ found):
    print("%s: %s" % ("lost" if line in expected else "unknown", line.strip()))
raise SystemExit(expected != found)
