"""What happened in a run, in sentences."""
import collections
import sys

import codes
import records
from verdict import text

OFFSETS = ("OffsetCommit", "TxnOffsetCommit")
WORK = OFFSETS + ("Produce", "AddPartitionsToTxn", "AddOffsetsToTxn", "EndTxn")


def values(exchange):
    """The values that a Produce sent."""
    found = []
    for topic in (exchange.fields or {}).get("topics", []):
        for part in topic["parts"]:
            try:
                for batch in records.read(part["records"] or b""):
                    found += [it.value for it in batch.records]
            except records.Unreadable:
                pass
    return found


def offsets(exchange):
    """What a commit of offsets says: (partition's name, offset)."""
    return [("%s-%d" % (topic["name"], part["index"]), part["offset"])
        for topic in exchange.fields["topics"] for part in topic["parts"]]


def answer(exchange):
    """How an exchange ended: its code, and whether the program got to know."""
    if exchange.made_up:
        return "was refused with " + codes.named(exchange.code)
    if not exchange.passed:
        return "wasn't passed on"
    if exchange.code is None:
        return "was passed on"
    return "was answered " + codes.named(exchange.code)


def short(result, found):
    """The sentences that matter: the faults, where later starts began, and what was lost or doubled."""
    told = happened(result.events)
    for item in found.doubled[:3]:
        told += written(result, item[-1])
    for item in found.lost[:3]:
        told += missing(result, item[-1])
    return told + result.late or [result.words]


class Sentences:
    """Sentences in order, of some kinds a bounded number."""

    MOST = {"end": 4, "refusal": 4, "read": 6}

    def __init__(self):
        self.all, self.counts = [], collections.Counter()

    def add(self, kind, words):
        self.counts[kind] += 1
        if self.counts[kind] <= self.MOST.get(kind, sys.maxsize):
            self.all.append(words)


def happened(events):
    """What faults did, which starts were refused something or ended, and where later starts began to read."""
    sentences, read, seen = Sentences(), set(), collections.Counter()
    notes = collections.Counter(it.exchange for it in events if it.exchange is not None and it.text)
    for it in events:
        if it.exchange is None:
            if it.start is not None and not it.start.killed:
                sentences.add("end", it.text)
        elif it.text:
            seen[it.exchange] += 1
            for words in struck(it, seen[it.exchange] == 1, seen[it.exchange] == notes[it.exchange]):
                sentences.add("fault", words)
        elif it.exchange.name in WORK and it.exchange.code and not it.exchange.made_up and it.exchange not in notes:
            sentences.add("refusal", "%s of %s %s" % (it.exchange, it.start, answer(it.exchange)))
        elif it.exchange.name == "Fetch" and (it.start.slot, it.start.number) != (1, 1):
            for words in began(it, read):
                sentences.add("read", words)
    return sentences.all


def struck(event, is_first, is_last):
    """What a fault did to a request, and how the request was answered: before that, or after it."""
    it = event.exchange
    if it.made_up:
        return ["%s of %s: %s" % (it, event.start, event.text)]
    if it.passed_at is None or it.passed_at < it.struck_at:
        return (["%s of %s %s" % (it, event.start, answer(it))] if is_first else []) + [event.text]
    named = "%s of %s: %s" % (it, event.start, event.text) if is_first else event.text
    return [named] + (["%s %s" % (it, answer(it))] if is_last else [])


def began(event, read):
    """The offsets at which a start began to read; `read` has the partitions that were told before."""
    told = []
    for topic in (event.exchange.fields or {}).get("topics", []):
        for part in topic["parts"]:
            place = (event.start, topic["name"], part["index"])
            if place not in read:
                read.add(place)
                told.append("%s read %s-%d from offset %d" % (event.start, topic["name"], part["index"], part["offset"]))
    return told


def written(result, value):
    """Who wrote a record that is there too often."""
    by = ["%s of %s" % (it.exchange, it.start) for it in exchanges(result, "Produce")
        if it.exchange.passed and value in values(it.exchange)]
    return ["\"%s\" was written by %s" % (text(value), " and by ".join(by[:4]))] if by else []


def missing(result, value):
    """Who tried to write a record that is lost, and who committed offsets."""
    by = ["%s of %s, which %s" % (it.exchange, it.start, answer(it.exchange))
        for it in exchanges(result, "Produce") if value in values(it.exchange)]
    told = ["\"%s\" was written by %s, and isn't there" % (text(value), " and by ".join(by[:3]))] if by else \
        ["\"%s\" was never written" % text(value)]
    for it in result.events:
        if it.exchange is not None and not it.text and it.exchange.name in OFFSETS and it.exchange.code == 0:
            told.append("%s of %s committed %s" % (it.exchange, it.start, ", ".join(
                "%s at %d" % place for place in offsets(it.exchange))))
    return told[:5]


def exchanges(result, name):
    seen = []
    for it in result.events:
        if it.exchange is not None and it.exchange.name == name and it.exchange not in [s.exchange for s in seen]:
            seen.append(it)
    return seen


TOLD = ("InitProducerId", "JoinGroup", "AddPartitionsToTxn", "AddOffsetsToTxn", "Produce", "EndTxn") + OFFSETS


def long(result):
    """Everything that matters in order: (seconds, who, what). The same answer again and again is told once."""
    told, last, first = [], None, None
    for it in result.events:
        who = str(it.start) if it.start else ""
        if it.text:
            told.append((it.at, who, noted(it)))
            last = None
        elif it.exchange.name in TOLD or it.exchange.code:
            name, after = it.exchange.name, answer(it.exchange) + detail(it.exchange)
            if (who, name, after) == last:
                told[-1] = (told[-1][0], who, "%s to #%d %s" % (first, it.exchange.number, after))
            else:
                told.append((it.at, who, "%s %s" % (it.exchange, after)))
                last, first = (who, name, after), it.exchange
    return told


def noted(event):
    """A note, with the request that it is about; and with its answer, if the program never got that."""
    it = event.exchange
    if it is None:
        return event.text
    if it.given:
        return "%s: %s" % (it, event.text)
    return "%s %s%s, and %s" % (it, answer(it), detail(it), event.text)


def detail(exchange):
    """What matters of a request's fields."""
    fields = exchange.fields or {}
    if exchange.name == "Produce":
        return ": " + ", ".join("\"%s\"" % text(it) for it in values(exchange)[:5])
    if exchange.name in OFFSETS:
        return ": " + ", ".join("%s at %d" % it for it in offsets(exchange)[:5])
    if exchange.name == "EndTxn":
        return ": commit" if fields.get("commit") else ": abort"
    if exchange.name == "InitProducerId":
        return ": %s" % fields.get("txn") if fields.get("txn") else ": without a transactional id"
    return ""
