"""The faults: what each does to the request that it hits, and which requests it may hit.

A fault is a function of the run and the exchange. It runs in the thread that reads the connection, so later
requests of that connection wait. It passes the request on, answers it, or closes the connection.
"""
import collections

import codes

# How long a fault waits, in seconds: for answers of earlier requests, for the server's answer, until another
# start has committed, until a second member has joined, for an answer while the program is stopped.
EARLIER, ANSWER, COMMIT, REBALANCE, STOPPED = 1, 30, 10, 5, 1
RETRIES = 3

# `group` and `short` are its column's two headings, `strike` is the function, `requests` has the APIs that it may hit.
Fault = collections.namedtuple("Fault", "name group short strike requests words")

SENT = ("InitProducerId", "AddPartitionsToTxn", "AddOffsetsToTxn", "TxnOffsetCommit", "Produce", "EndTxn",
    "OffsetCommit")
JOINED = ("JoinGroup", "SyncGroup", "OffsetFetch")
# What a client asks to find its way, or by a timer: hit with --all, and by lost connections and kills alone.
LOOKED_UP = ("Metadata", "FindCoordinator", "ListOffsets", "Heartbeat", "LeaveGroup")
LISTED = ("AddPartitionsToTxn", "AddOffsetsToTxn", "TxnOffsetCommit", "Produce", "EndTxn")
WORK = LISTED + ("OffsetCommit",)


def shut(run, it):
    """Closes the connection. A member whose program was never told its name leaves the group."""
    it.link.close()
    run.forget(it)


def before(run, it):
    """Waits for the answers of earlier requests. This one isn't passed on."""
    it.link.settle(it, EARLIER)


def after(run, it):
    """Passes it on, and reads its answer whole, which the program doesn't get."""
    it.held = True
    it.pass_on()
    if it.is_answered:
        it.wait(ANSWER)


def cut(when):
    def strike(run, it):
        when(run, it)
        run.tell("the connection was closed", it)
        shut(run, it)
    return strike


def kill(when):
    def strike(run, it):
        when(run, it)
        run.tell("the program was killed", it)
        run.kill(it.start)
        shut(run, it)
    return strike


def server(when):
    def strike(run, it):
        when(run, it)
        run.tell("the server was killed and started again", it)
        run.restart_server()
        shut(run, it)
    return strike


def zombie(slot):
    """Stops the program while another start works, and passes the request on before the program goes on."""
    def strike(run, it):
        run.pause(it.start)
        run.tell("it was held and the program stopped, while another start%s worked" % (
            "" if slot == 1 else " in slot 2"), it)
        it.held = True
        run.leave(it.start)
        other = run.begin(slot)
        run.wait_for(lambda: other.commits > 0, COMMIT)
        try:
            it.pass_on()
            if it.is_answered:
                it.wait(STOPPED)
        finally:
            run.go_on(it.start)
        run.tell("it was passed on, and the program woke up", it)
        it.give()
    return strike


def join(run, it):
    """Holds the request until a second member has joined the group."""
    run.tell("it was held while slot 2 joined", it)
    it.start.rebalanced = False
    other = run.begin(2)
    run.wait_for(lambda: other.joins > 0 and it.start.rebalanced, REBALANCE)
    it.pass_on()


def expel(run, it):
    """The program's member leaves the group first, so the server itself refuses what comes from it."""
    run.tell("the program's member had left before", it)
    run.leave(it.start)
    it.pass_on()


def expire(run, it):
    """The transaction is aborted and the epoch raised first, as after the transaction's timeout."""
    run.tell("the transaction had expired before", it)
    for txn in sorted(it.start.txns):
        run.abort(txn)
    it.pass_on()


def refuse(code):
    def strike(run, it):
        run.tell("it was refused with %s" % codes.named(code), it)
        it.refuse(code)
    return strike


def retry(code):
    """Refuses it three times with a retriable code. The fourth is passed on."""
    def strike(run, it):
        run.tell("it was refused %d times with %s, which asks to try again" % (RETRIES, codes.named(code)), it)
        it.refuse(code)
        run.repeat(it, RETRIES - 1, lambda again: again.refuse(code))
    return strike


RETRY = {14: SENT[:4] + SENT[5:] + JOINED[:1], 15: SENT[:4] + SENT[5:] + JOINED[:1],
    16: SENT[:4] + SENT[5:] + JOINED[:1], 51: ("InitProducerId", "AddPartitionsToTxn", "EndTxn"),
    6: ("Produce",), 7: ("Produce",)}
REFUSE = {10: ("Produce",), 29: ("Produce",), 87: ("Produce",), 30: ("TxnOffsetCommit", "AddOffsetsToTxn"),
    53: ("InitProducerId",)}
ANY = SENT + JOINED + ("Fetch",)
LOSABLE = ANY + LOOKED_UP

ALL = [
    Fault("cut-before", "cut", "b", cut(before), LOSABLE, "the connection is closed, the request is lost"),
    Fault("cut-after", "cut", "a", cut(after), LOSABLE, "the connection is closed, the answer is lost"),
    Fault("kill-before", "kill", "b", kill(before), LOSABLE, "the program is killed, the request is lost"),
    Fault("kill-after", "kill", "a", kill(after), LOSABLE, "the program is killed, the answer is lost"),
    Fault("server-before", "server", "b", server(before), LOSABLE, "the server is killed, the request is lost"),
    Fault("server-after", "server", "a", server(after), LOSABLE, "the server is killed, the answer is lost"),
    Fault("zombie", "zombie", "s", zombie(1), WORK, "the program sleeps, and a new start in its slot works"),
    Fault("zombie-other", "zombie", "o", zombie(2), WORK, "the program sleeps, and one in another slot works"),
    Fault("join", "join", "", join, WORK, "a second member joins"),
    Fault("expel", "expel", "", expel, WORK + ("OffsetFetch",), "the member has left the group"),
    Fault("expire", "expire", "", expire, LISTED, "the transaction expires"),
] + [
    Fault("refuse-%d" % it, "refuse", str(it), refuse(it), REFUSE[it], "the request is refused with %s" % codes.named(it))
    for it in sorted(REFUSE)
] + [
    Fault("retry-%d" % it, "retry", str(it), retry(it), RETRY[it],
        "the request is refused with %s, three times, and then passed on" % codes.named(it))
    for it in sorted(RETRY)
]
BY_NAME = {it.name: it for it in ALL}
# They need a server that the harness itself starts.
OF_SERVER = ("server-before", "server-after")
