"""What version 1 of Kafka's transactions can't tell apart: a batch that arrives after its transaction has ended.

A producer of version 1 keeps its id and epoch from one transaction to the next. So a broker takes a batch that
was still under way when its transaction ended into the next one (KIP-890). If a run may have had such a
batch, a wrong output needn't be the program's fault, and the run's story says so.
"""
import records

ADDS = ("AddPartitionsToTxn", "AddOffsetsToTxn")
NAMES = ADDS + ("Produce", "EndTxn")


def sentences(exchanges, kills=()):
    """A sentence for each batch that may be in the transaction after its own; `kills` has when the server was killed."""
    return ["%s of %s was under way while %s ended its transaction and %s began the next with the same id and epoch: "
        "version 1 of Kafka's protocol may take its records into that one (KIP-890)" % (
            batch, batch.start, end, begin) for batch, end, begin in late(exchanges, kills)]


def late(exchanges, kills):
    """(Produce, EndTxn, request that began the next transaction), for each batch that wasn't answered before the last."""
    found = []
    passed = sorted((it for it in exchanges if it.passed), key=lambda it: it.passed_at)
    for batch in passed:
        if batch.name != "Produce" or batch.code:
            continue
        for pair in producers(batch):
            end = first_after(batch, passed, ("EndTxn",), pair)
            begin = end and first_after(end, passed, ADDS, pair)
            if begin and is_open(batch, begin.passed_at, kills):
                found.append((batch, end, begin))
    return found


def is_open(batch, at, kills):
    """Whether the server may take a batch after this time: it hasn't answered, and wasn't killed meanwhile."""
    if batch.arrived_at is not None:
        return batch.arrived_at > at
    return not any(batch.passed_at < it < at for it in kills)


def producers(batch):
    """(transactional id, producer id, epoch) of the batches that a Produce has; none without a transaction."""
    if batch.fields is None or batch.fields["txn"] is None:
        return set()
    return {(batch.fields["txn"],) + pair for topic in batch.fields["topics"] for part in topic["parts"]
        for pair in records.producers(part["records"] or b"")}


def first_after(exchange, passed, names, pair):
    """The first request of these names and of this producer that was passed on later than the exchange."""
    return next((it for it in passed if it.name in names and it.passed_at > exchange.passed_at
        and (it.fields["txn"], it.fields["pid"], it.fields["epoch"]) == pair), None)
