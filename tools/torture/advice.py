"""What the undisturbed requests give away: mistakes of the program, and how each is mended."""


class Asked:
    """The requests of the undisturbed runs, a list for each run."""

    def __init__(self, results):
        self.runs = [[exchange for _, exchange in it.facts if exchange.fields is not None] for it in results]
        self.names = {it.name for run in self.runs for it in run}
        self.is_transactional = any(self.transactional_ids(run) for run in self.runs)

    def each(self, name):
        return [it.fields for run in self.runs for it in run if it.name == name]

    @staticmethod
    def transactional_ids(run):
        return {it.fields["txn"] for it in run if it.name == "InitProducerId" and it.fields["txn"]}


def commits_outside(asked):
    return asked.is_transactional and "OffsetCommit" in asked.names


def has_new_ids(asked):
    """No transactional id of one run is one of all the others."""
    ids = [asked.transactional_ids(run) for run in asked.runs]
    return len(ids) > 1 and all(ids) and not set.intersection(*ids)


def writes_outside(asked):
    return asked.is_transactional and any(it["txn"] is None and it["acks"] for it in asked.each("Produce"))


def has_no_metadata(asked):
    """Offsets are sent without a member, by a program that is one."""
    return "JoinGroup" in asked.names and any(it.get("member", "") == "" for it in asked.each("TxnOffsetCommit"))


def is_only_idempotent(asked):
    return not asked.is_transactional and {"InitProducerId", "OffsetCommit"} <= asked.names


def has_no_transaction(asked):
    return "InitProducerId" not in asked.names and {"OffsetCommit", "Produce"} <= asked.names


def reads_uncommitted(asked):
    return any(it["isolation"] == 0 for it in asked.each("Fetch"))


def commits_first(asked):
    """The first offset is committed before the first output is written."""
    order = [it.name for it in asked.runs[0] if it.name in ("OffsetCommit", "Produce")] if asked.runs else []
    return "Produce" in order and order[0] == "OffsetCommit"


MISTAKES = [
    (commits_outside, "Offsets are committed outside the transaction (OffsetCommit). Send them with it: "
        "send_offsets_to_transaction, before the commit."),
    (has_new_ids, "Each start has a new transactional id, so nothing fences an earlier start that still runs. "
        "Make the id of something that stays: a slot, a partition."),
    (writes_outside, "Some output is written outside a transaction. Begin the transaction before the first record."),
    (has_no_metadata, "Offsets are sent without the group's metadata, so a member that was replaced isn't fenced. "
        "Pass consumer_group_metadata()."),
    (is_only_idempotent, "The producer is idempotent only: it repeats no batch by itself, but a new start reads and writes "
        "again what the last one had not committed. Give it a transactional.id and commit offsets in the transaction."),
    (has_no_transaction, "Output and offsets are written one after the other, without a transaction: a crash in between "
        "loses or doubles. Use a transactional producer and send the offsets with its transaction."),
    (reads_uncommitted, "It reads uncommitted records (isolation.level): set read_committed."),
    (commits_first, "The first offset is committed before the first output is written, so a crash in between loses it. "
        "Commit it in the transaction of the output."),
]


def advice(results):
    """A sentence or two for each mistake that the undisturbed runs show."""
    asked = Asked(results)
    return [words for is_made, words in MISTAKES if is_made(asked)]
