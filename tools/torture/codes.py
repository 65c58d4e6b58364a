"""Kafka's error codes, by the names of its protocol guide in lower case."""

CODES = {
    -1: "unknown server error", 1: "offset out of range", 2: "corrupt message", 3: "unknown topic or partition",
    5: "leader not available", 6: "not leader or follower", 7: "request timed out", 10: "message too large",
    14: "coordinator load in progress", 15: "coordinator not available", 16: "not coordinator",
    22: "illegal generation", 25: "unknown member id", 27: "rebalance in progress",
    29: "topic authorization failed", 30: "group authorization failed", 35: "unsupported version",
    45: "out of order sequence number", 46: "duplicate sequence number", 47: "invalid producer epoch",
    48: "invalid txn state", 49: "invalid producer id mapping", 50: "invalid transaction timeout",
    51: "concurrent transactions", 53: "transactional id authorization failed", 56: "kafka storage error",
    59: "unknown producer id", 76: "unsupported compression type", 79: "member id required",
    81: "group max size reached", 82: "fenced instance id", 87: "invalid record", 88: "unstable offset commit",
    90: "producer fenced", 120: "transaction abortable",
}


def named(code):
    """A code with its name, if it has one here."""
    return "%d (%s)" % (code, CODES[code]) if code in CODES else str(code)
