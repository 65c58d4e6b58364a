#!/usr/bin/env python3
"""Schedules of requests in which a stock client was once refused or expired without a reason.

    schedules.py [PROGRAM [MEMBERS]]

A member that waits for its assignment; members whose process or connection ended; offsets beside a rebalance;
a disk that stalls; servers that are killed between a listing and what follows; ids that nobody knows; a group of
MEMBERS (1,000), for which a program without proof takes minutes.
Each request and answer is made and read by the harness of torture (tools/torture), apart from the library.
"""
import os
import resource
import struct
import subprocess
import sys
import tempfile
import threading
import time

TOP = os.path.dirname(os.path.dirname(os.path.dirname(os.path.abspath(__file__))))
sys.path.append(os.path.join(TOP, "tools", "torture"))

import client  # noqa: E402
import layouts  # noqa: E402
import records  # noqa: E402
from server import Server, Trial, folder, program  # noqa: E402

trial = Trial()

# Loaded before the C library: while the file of STALL is there, the next fdatasync takes five seconds.
STALL = """
#define _GNU_SOURCE
#include <dlfcn.h>
#include <stdlib.h>
#include <unistd.h>
int fdatasync(int file) {
    static int (*next)(int);
    if (!next) next = dlsym(RTLD_NEXT, "fdatasync");
    char *flag = getenv("STALL");
    if (flag && unlink(flag) == 0) sleep(5);
    return next(file);
}
"""


class Peer(client.Connection):
    """A connection that can send a request now and read its answer later."""

    def __init__(self, server, patience=60, **options):
        super().__init__(("127.0.0.1", server.port), patience)
        self.sent = []

    def send(self, name, **fields):
        key = layouts.BY_NAME[name].key
        self.correlation += 1
        head = layouts.Head(key, self.version(key), self.correlation, "schedules")
        client.write_frame(self.socket, layouts.write_request(head, fields))
        self.sent.append((key, head.version))

    def read(self):
        key, version = self.sent.pop(0)
        text = client.read_frame(self.socket)
        if text is None:
            raise OSError("the server closed the connection")
        return layouts.read_response(key, version, text)[1]

    def joins(self, member="", session=6000, rebalance=60000, group="g"):
        self.send("JoinGroup", group=group, session=session, rebalance=rebalance, member=member,
            type="consumer", protocols=[{"name": "range", "metadata": b"m"}])

    def syncs(self, joined, assigned=(), group="g"):
        self.send("SyncGroup", group=group, generation=joined["generation"], member=joined["member"],
            assignments=[{"member": member, "assignment": text} for member, text in assigned])

    def beats(self, joined, group="g"):
        self.send("Heartbeat", group=group, generation=joined["generation"], member=joined["member"])

    def commits(self, joined, offset, group="g"):
        """An OffsetCommit of a member, or of a client that doesn't say which member it is."""
        self.send("OffsetCommit", group=group, retention=-1,
            generation=joined["generation"] if joined else -1, member=joined["member"] if joined else "",
            topics=[{"name": "t", "parts": [{"index": 0, "offset": offset, "metadata": ""}]}])


def code(answer):
    """The first error code of an answer that isn't 0, else 0."""
    return next((it for it in layouts.codes(answer) if it), 0)


def settled(peer, **options):
    """A client joins a group that has no member, and assigns to itself."""
    peer.joins(**options)
    joined = peer.read()
    group = options.get("group", "g")
    peer.syncs(joined, [(joined["member"], b"all")], group=group)
    peer.read()
    return joined


def slow_leader():
    """A leader assigns after 6 s; a member with a session of 3 s waits for that in SyncGroup."""
    with Server(program(), "--topics", "t:1") as server:
        leads, follows = Peer(server), Peer(server)
        first = settled(leads, session=30000)
        follows.joins(session=3000)
        time.sleep(0.3)
        leads.joins(member=first["member"], session=30000)
        led, followed = leads.read(), follows.read()
        follows.syncs(followed)
        heard = []
        for _ in range(6):
            time.sleep(1)
            leads.beats(led)
            heard.append(code(leads.read()))
        leads.syncs(led, [(led["member"], b"L"), (followed["member"], b"F")])
        trial.look("a slow leader's heartbeats are answered 0", heard, [0] * 6)
        trial.look("its assignment is taken", code(leads.read()), 0)
        answer = follows.read()
        trial.look("a member that waited for it in SyncGroup is assigned",
            (code(answer), answer["assignment"]), (0, b"F"))


def dead_member():
    """A member's process ends; a client without a member's id commits once its session is over."""
    with Server(program(), "--topics", "t:1") as server:
        gone, commits = Peer(server), Peer(server)
        settled(gone, session=1000)
        commits.commits(None, 1)
        trial.look("offsets of a client that is no member, while there is one", code(commits.read()), 25)
        gone.close()
        time.sleep(1.5)
        commits.commits(None, 2)
        trial.look("offsets of such a client once the member's session is over", code(commits.read()), 0)


def dead_connections():
    """Forty clients join and close their connections, beside one member that takes its time."""
    with Server(program(), "--topics", "t:1") as server:
        stays = Peer(server)
        joined = settled(stays, session=60000)
        for _ in range(40):
            ghost = Peer(server)
            ghost.joins(session=30000)
            time.sleep(0.02)
            ghost.close()
        time.sleep(2)
        comes = Peer(server)
        comes.joins(session=30000)
        time.sleep(0.3)
        stays.joins(member=joined["member"], session=60000)
        again, new = stays.read(), comes.read()
        trial.look("a new member's JoinGroup after forty dead connections", code(new), 0)
        trial.look("members of the group then", len(again["members"] or new["members"]), 2)


class Member(threading.Thread):
    """A member that joins, and joins again whenever its group does."""

    def __init__(self, server, pause):
        super().__init__(daemon=True)
        self.server, self.generation, self.assigned, self.ends = server, None, None, False
        self.pause = pause

    def run(self):
        peer, member = Peer(self.server, 600), ""
        while not self.ends:
            peer.joins(member=member, session=60000, rebalance=120000)
            joined = peer.read()
            member = joined["member"]
            everybody = [it["member"] for it in joined["members"]]
            peer.syncs(joined, [(it, it.encode()) for it in everybody])
            synced = peer.read()
            if code(joined) == 0 and code(synced) == 0:
                self.generation, self.assigned = joined["generation"], synced["assignment"] == member.encode()
                while not self.ends:
                    peer.beats(joined)
                    if code(peer.read()):
                        self.generation = None
                        break
                    time.sleep(self.pause)
        peer.close()


def many_members(count):
    """So many members join at once, and settle in one generation."""
    with Server(program(), "--topics", "t:1") as server:
        members = [Member(server, max(0.2, count / 400)) for _ in range(count)]
        begun = time.time()
        for it in members:
            it.start()
        while time.time() < begun + 60 + count / 2:
            found = {it.generation for it in members}
            if len(found) == 1 and None not in found:
                break
            time.sleep(0.05)
        took = time.time() - begun
        trial.look(f"{count} members are in one generation", len(found) == 1 and None not in found, True)
        trial.look("each was assigned what its leader gave it", all(it.assigned for it in members), True)
        print(f"   after {took:.1f} s, in generation {max(it.generation or 0 for it in members)}")
        for it in members:
            it.ends = True
        for it in members:
            it.join(10)


def sixty_members():
    """Sixty members."""
    many_members(60)


def as_many_members_as_may_be():
    """A group with as many members as it may have."""
    many_members(int(sys.argv[2]) if len(sys.argv) > 2 else 1000)


def forged_ids():
    """Somebody names a member by an id that isn't the one that was answered to it."""
    with Server(program(), "--topics", "t:1") as server:
        peer, other = Peer(server), Peer(server)
        joined = settled(peer)
        member, stranger = joined["member"], "other"
        ids = {member}
        for group in ("g2", "g3"):
            other.joins(group=group)
            ids.add(other.read()["member"])
        trial.look("three members have three ids", len(ids), 3)
        changed = member[:-1] + ("0" if member[-1] != "0" else "1")
        for forged in (changed, member.replace("schedules", stranger), member.upper(), member + "-1", "schedules-1", "-1"):
            other.send("LeaveGroup", group="g", member=forged)
            trial.look(f"{forged} can't leave", code(other.read()), 25)
            other.send("Heartbeat", group="g", generation=joined["generation"], member=forged)
            trial.look(f"{forged} isn't heard", code(other.read()), 25)
        peer.beats(joined)
        trial.look("the member goes on", code(peer.read()), 0)


def offsets_while_members_join():
    """A transaction commits offsets without a member's id while a group rebalances again and again."""
    with Server(program(), "--topics", "t:1") as server:
        over, ends = [], threading.Event()

        def members():
            while not ends.is_set():
                it = Peer(server)
                joined = settled(it)
                it.send("LeaveGroup", group="g", member=joined["member"])
                it.read()
                it.close()

        crowd = threading.Thread(target=members)
        crowd.start()
        writes = Peer(server)
        writes.send("InitProducerId", txn="w", timeout=60000, pid=-1, epoch=-1)
        held = writes.read()
        for number in range(40):
            fields = {"txn": "w", "pid": held["pid"], "epoch": held["epoch"]}
            writes.send("AddOffsetsToTxn", group="g", **fields)
            writes.read()
            writes.send("TxnOffsetCommit", group="g", generation=-1, member="", instance=None, **fields,
                topics=[{"name": "t", "parts": [{"index": 0, "offset": number, "leader_epoch": -1, "metadata": ""}]}])
            over.append(code(writes.read()))
            writes.send("EndTxn", commit=True, **fields)
            over.append(code(writes.read()))
        ends.set()
        crowd.join()
        trial.look("offsets without a member's id beside rebalances, and their commits", set(over), {0})


def stalled_disk():
    """One fdatasync takes five seconds under an OffsetCommit; heartbeats go over another connection."""
    with folder() as dir, tempfile.TemporaryDirectory() as built:
        source, library = os.path.join(built, "stall.c"), os.path.join(built, "stall.so")
        with open(source, "w") as it:
            it.write(STALL)
        made = subprocess.run(["cc", "-shared", "-fPIC", "-o", library, source, "-ldl"], check=False)
        if made.returncode:
            print("skipped: a C compiler isn't installed")
            return
        flag = os.path.join(built, "flag")
        os.environ.update(LD_PRELOAD=library, STALL=flag)
        try:
            server = Server(program(), "--topics", "t:1", folder=dir).start()
        finally:
            del os.environ["LD_PRELOAD"]
        member, beats = Peer(server), Peer(server)
        joined = settled(member, session=3000)
        member.commits(joined, 1)
        member.read()
        with open(flag, "w"):
            pass
        begun = time.time()
        member.commits(joined, 2)
        heard = []
        for _ in range(7):
            asked = time.time()
            beats.beats(joined)
            heard.append((code(beats.read()), time.time() - asked < 1))
            time.sleep(1)
        trial.look("heartbeats while the disk stalls are answered 0, at once", set(heard), {(0, True)})
        trial.look("the commit that waited for the disk", code(member.read()), 0)
        trial.look("the disk stalled", time.time() - begun > 5, True)
        server.kill()
        server.audit()


def transaction(peer, held, txn="pay"):
    """One transaction of one record, committed."""
    fields = {"txn": txn, "pid": held["pid"], "epoch": held["epoch"]}
    peer.send("AddPartitionsToTxn", topics=[{"name": "t", "parts": [0]}], **fields)
    peer.read()
    text = records.write([(None, b"x")], pid=held["pid"], epoch=held["epoch"], sequence=0, transactional=True)
    peer.send("Produce", txn=txn, acks=-1, timeout=30000,
        topics=[{"name": "t", "parts": [{"index": 0, "records": text}]}])
    peer.read()
    peer.send("EndTxn", commit=True, **fields)
    return code(peer.read())


def kills_after_a_listing():
    """The server is killed after it answered a listing, before anything of the transaction was sent."""
    with folder() as dir:
        server = Server(program(), "--topics", "t:1", folder=dir).start()
        peer = Peer(server)
        peer.send("InitProducerId", txn="pay", timeout=60000, pid=-1, epoch=-1)
        held = peer.read()
        fields = {"txn": "pay", "pid": held["pid"], "epoch": held["epoch"]}
        trial.look("a transaction", transaction(peer, held), 0)
        peer.send("AddOffsetsToTxn", group="g", **fields)
        trial.look("the next one lists a group", code(peer.read()), 0)
        server.kill()
        server.start()
        peer = Peer(server)
        peer.send("TxnOffsetCommit", group="g", generation=-1, member="", instance=None, **fields,
            topics=[{"name": "t", "parts": [{"index": 0, "offset": 1, "leader_epoch": -1, "metadata": ""}]}])
        trial.look("its offsets after a kill are to be aborted", code(peer.read()), 25)
        peer.send("EndTxn", commit=False, **fields)
        trial.look("its abort", code(peer.read()), 0)
        peer.send("AddPartitionsToTxn", topics=[{"name": "t", "parts": [0]}], **fields)
        trial.look("the one after lists a partition", code(peer.read()), 0)
        server.kill()
        server.start()
        peer = Peer(server)
        text = records.write([(None, b"y")], pid=held["pid"], epoch=held["epoch"], sequence=1, transactional=True)
        peer.send("Produce", txn="pay", acks=-1, timeout=30000,
            topics=[{"name": "t", "parts": [{"index": 0, "records": text}]}])
        trial.look("its batch after a kill is to be aborted", code(peer.read()), 49)
        peer.send("EndTxn", commit=False, **fields)
        trial.look("its abort", code(peer.read()), 0)
        server.kill()
        server.audit()


def ids_of_another_server():
    """A producer goes on with its pair at a server that never heard of its transactional id."""
    with Server(program(), "--topics", "t:1") as server:
        peer = Peer(server)
        for pid, epoch in ((0, 0), (7, 3)):
            txn = f"pay-{pid}"
            peer.send("InitProducerId", txn=txn, timeout=60000, pid=pid, epoch=epoch)
            held = peer.read()
            trial.look(f"an unknown transactional id with the pair {pid}/{epoch} gets one", code(held), 0)
            trial.look("and another one", (held["pid"], held["epoch"]) != (pid, epoch), True)
            trial.look("with which a transaction commits", transaction(peer, held, txn), 0)


# (each connection is an open file)
resource.setrlimit(resource.RLIMIT_NOFILE, (resource.getrlimit(resource.RLIMIT_NOFILE)[1],) * 2)
for schedule in (slow_leader, dead_member, dead_connections, sixty_members, as_many_members_as_may_be, forged_ids,
        offsets_while_members_join, stalled_disk, kills_after_a_listing, ids_of_another_server):
    try:
        schedule()
    except (OSError, struct.error, client.Refused) as error:
        trial.look(f"{schedule.__name__} ends", repr(error), None)
trial.end()
