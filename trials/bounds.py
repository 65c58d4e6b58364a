#!/usr/bin/env python3
"""Looks at what strangers can make a server of stock clients keep, and at the numbers of its clients.

    bounds.py PROGRAM [COUNT [full]]

- COUNT requests of each kind that is refused (20,000) leave its memory and the file `clients` as they
  are, over one connection and over two at once, a hundred at a time.
- A group that its members left is forgotten, and can be joined again.
- With `full`: one transactional id more than 100,000, and one group more than 10,000, is answered 14,
  and standard error says so; once sessions have ended, a group is taken again.
- A folder in which clients 4294967295, 4294966271 and 2147483647 of `serve` have transactional ids,
  and joined groups, is served: these ids are answered 53 and named, all others are served.
- Numbers begin above those of a client of `serve` that has an id, and of one that joined a group.

Ends with status 1 if one of these isn't so. Requests are written from Kafka's protocol guide, and
frames of `serve` from docs/FORMATS.md.
"""
import os
import struct
import subprocess
import sys
import tempfile
import threading
import time

from edges import FAILED, Client, Server, request, say, text
from frames import connect, next_frame

COUNT = int(sys.argv[2]) if len(sys.argv) > 2 else 20000
IS_FULL = "full" in sys.argv[3:]

# A server may keep as much more than before as this, in KiB, whatever it is asked.
SLACK = 1024

TOPIC = struct.pack(">i", 1) + text("bills") + struct.pack(">i", 1)


def compact(it):
    assert len(it) < 127
    return bytes([len(it) + 1]) + it.encode()


def code_of(answer, place):
    return struct.unpack(">h", answer[place:place + 2])[0] if answer else None


def init(client, txn, held=-1, epoch=-1, timeout=60000):
    """Code, id and epoch that are answered to a request for an id, of version 4."""
    fields = compact(txn) + struct.pack(">iqh", timeout, held, epoch) + b"\0"
    answer = client.ask(22, 4, fields, tags=b"\0")
    return struct.unpack(">hqh", answer[5:17]) if answer else (None, -1, -1)


def join(client, group, session=60000, member="", protocols=1):
    """The code of a JoinGroup, the generation, and the member's id."""
    fields = text(group) + struct.pack(">ii", session, 60000) + text(member) + text("consumer")
    fields += struct.pack(">i", protocols) + protocols * (text("range") + struct.pack(">i", 0))
    answer = client.ask(11, 1, fields)
    if not answer:
        return None, -1, ""
    code, generation, left = *struct.unpack(">hi", answer[:6]), answer[6:]
    said = []
    for _ in range(3):
        size = struct.unpack(">h", left[:2])[0]
        said.append(left[2:2 + size].decode())
        left = left[2 + size:]
    return code, generation, said[2]


def leave(client, group, member):
    return code_of(client.ask(13, 0, text(group) + text(member)), 0)


def commit(client, group, member="", generation=-1):
    """The code of an OffsetCommit."""
    fields = text(group) + struct.pack(">i", generation) + text(member) + struct.pack(">q", -1)
    answer = client.ask(8, 2, fields + TOPIC + struct.pack(">iqh", 0, 5, -1))
    return code_of(answer, 4 + 7 + 4 + 4)


def txn_commit(client, txn, held, epoch, group):
    """The code of a TxnOffsetCommit of version 0, which names no member."""
    fields = text(txn) + text(group) + struct.pack(">qh", held, epoch)
    answer = client.ask(28, 0, fields + TOPIC + struct.pack(">iq", 0, 5) + text(""))
    return code_of(answer, 4 + 4 + 7 + 4 + 4)


def fetched(client, group):
    """The code of an OffsetFetch."""
    answer = client.ask(9, 1, text(group) + TOPIC + struct.pack(">i", 0))
    return code_of(answer, 4 + 7 + 4 + 4 + 8 + 2)


def sync(client, group, member):
    fields = text(group) + struct.pack(">i", 1) + text(member) + struct.pack(">i", 0)
    return code_of(client.ask(14, 0, fields), 0)


def beat(client, group, member):
    return code_of(client.ask(12, 0, text(group) + struct.pack(">i", 1) + text(member)), 0)


def add_partitions(client, txn):
    answer = client.ask(24, 0, text(txn) + struct.pack(">qh", 7, 0) + TOPIC + struct.pack(">i", 0))
    return code_of(answer, 4 + 4 + 7 + 4 + 4)


def add_offsets(client, txn):
    return code_of(client.ask(25, 0, text(txn) + struct.pack(">qh", 7, 0) + text("g")), 4)


def end(client, txn):
    return code_of(client.ask(26, 0, text(txn) + struct.pack(">qhb", 7, 0, 1)), 4)


# What is refused, with its code: each is asked with another name each time.
REFUSED = {
    "an id and epoch that nobody was granted": (90, lambda it, name: init(it, name, 7, 0)[0]),
    "a timeout of 0": (50, lambda it, name: init(it, name, timeout=0)[0]),
    "an id of the server's own": (53, lambda it, name: init(it, "~offsets/" + name)[0]),
    "a session timeout of 0": (26, lambda it, name: join(it, name, session=0)[0]),
    "no protocol": (23, lambda it, name: join(it, name, protocols=0)[0]),
    "an unknown member that joins": (25, lambda it, name: join(it, name, member="x-900000")[0]),
    "an unknown member that syncs": (25, lambda it, name: sync(it, name, "x-900000")),
    "an unknown member that is there": (25, lambda it, name: beat(it, name, "x-900000")),
    "an unknown member that leaves": (25, lambda it, name: leave(it, name, "x-900000")),
    "offsets of an unknown member": (25, lambda it, name: commit(it, name, "x-900000", 1)),
    "offsets in an unknown transaction": (25, lambda it, name: txn_commit(it, name, 7, 0, name)),
    "offsets with another pair": (47, lambda it, name: txn_commit(it, "granted", 900, 0, name)),
    "offsets of an unknown group": (0, lambda it, name: fetched(it, name)),
    "a partition of an unknown transaction": (49, lambda it, name: add_partitions(it, name)),
    "a group of an unknown transaction": (49, lambda it, name: add_offsets(it, name)),
    "an end of an unknown transaction": (49, lambda it, name: end(it, name)),
}


def memory(server):
    """How much a server has written to, in KiB. Pages of its program don't count, which come and go."""
    with open(f"/proc/{server.process.pid}/status") as it:
        for line in it:
            if line.startswith("RssAnon"):
                return int(line.split()[1])


class Kept:
    """In a client's place: keeps what is asked, and answers by what came before, or nothing."""

    def __init__(self, answers=()):
        self.requests, self.answers = [], iter(answers)

    def ask(self, *fields, **tags):
        self.requests.append(request(*fields, **tags))
        return next(self.answers, b"")


def asked_of(client, ask, names):
    """What is answered for each of these names; a hundred are asked for at a time."""
    found = []
    for at in range(0, len(names), 100):
        kept = Kept()
        for name in names[at:at + 100]:
            ask(kept, name)
        client.send(b"".join(kept.requests))
        kept = Kept([client.answer() for _ in kept.requests])
        found += [ask(kept, name) for name in names[at:at + 100]]
    return found


def ask_all(client, what, first, count, codes):
    """Asks for this many names from the first on, and adds the codes that are answered."""
    code, ask = REFUSED[what]
    codes.update(asked_of(client, ask, [f"{code}-{number}" for number in range(first, first + count)]))


def ask_at_once(clients, what, first, count, codes):
    """The same over each of these connections at once."""
    threads = [threading.Thread(target=ask_all, args=(it, what, first, count, codes))
        for it in clients]
    for it in threads:
        it.start()
    for it in threads:
        it.join()


def refused(room):
    # (some connections ask for nothing while others do)
    server = Server("--dir", f"{room}/refused", "--topics", "bills:1", "--idle", "0")
    client, *others = [Client(server.port) for _ in range(3)]
    say("an id is granted", init(client, "granted")[0] == 0)
    # (the first requests make room that stays, of the map and of each connection)
    for what in REFUSED:
        ask_at_once([client, *others], what, 10 ** 7, max(300, COUNT // 16), set())
    for place, what in enumerate(REFUSED):
        code, codes = REFUSED[what][0], set()
        first = place * 2 * COUNT
        ask_at_once([client, *others], what, first, 200, codes)
        before, blocks = memory(server), os.path.getsize(f"{room}/refused/clients")
        ask_all(client, what, first, COUNT, codes)
        ask_at_once(others, what, first, COUNT // 4, codes)
        more, spent = memory(server) - before, os.path.getsize(f"{room}/refused/clients") - blocks
        say(what, codes == {code} and more < SLACK and spent == 0,
            f"codes {codes}, {more} KiB more, {spent} blocks of numbers")
    server.end()


def left():
    server = Server("--topics", "bills:1")
    client = Client(server.port)
    code, generation, member = join(client, "g")
    say("a group is joined", code == 0)
    say("a member commits", commit(client, "g", member, generation) == 0)
    say("its last member leaves", leave(client, "g", member) == 0)
    say("it isn't known any more", beat(client, "g", member) == 25)
    say("offsets of the member are refused", commit(client, "g", member, generation) == 25)
    say("offsets are committed without a member", commit(client, "g") == 0)
    code, later, member = join(client, "g")
    say("it is joined again", code == 0 and later > generation, f"{generation}, then {later}")
    say("and left again", leave(client, "g", member) == 0)
    for number in range(100):
        code, _, member = join(client, f"g{number}")
        if code != 0 or commit(client, f"g{number}", member, 1) not in (0, 22):
            say("more groups commit", False, number)
        leave(client, f"g{number}", member)
    say("the server held on", server.process.poll() is None)
    server.end()


def say_it_is_said(server, line):
    """A thread of its own writes to standard error, a little later perhaps."""
    begun = time.time()
    while line not in server.words() and time.time() < begun + 10:
        time.sleep(0.1)
    say("standard error says so", server.words().count(line) == 1, server.words())


def full_of_ids():
    server = Server()
    client = Client(server.port)
    codes = set(asked_of(client, lambda it, name: init(it, name)[0], [f"t{number}" for number in range(100000)]))
    say("100,000 ids are granted", codes == {0}, codes)
    say("one more is to ask again", {init(client, f"u{number}")[0] for number in range(5)} == {14})
    say("those that are there are served", init(client, "t5")[0] == 0)
    say_it_is_said(server, "no more transactional ids are taken")
    server.end()


def full_of_groups():
    server = Server("--topics", "bills:1")
    client = Client(server.port)
    say("a group has offsets alone", commit(client, "alone") == 0)
    begun = time.time()
    codes = set(asked_of(client, lambda it, name: join(it, name, session=1800000)[0],
                         [f"g{number}" for number in range(9990)]))
    codes |= {join(client, f"h{number}", session=1000)[0] for number in range(9)}
    say("10,000 groups are taken", codes == {0}, codes, f"{time.time() - begun:.0f} s")
    say("one more takes the place of one without members", join(client, "more", 1800000)[0] == 0)
    time.sleep(2)
    codes = {join(client, f"i{number}", session=1800000)[0] for number in range(9)}
    say("others take those of sessions that ended", codes == {0}, codes)
    codes = {join(client, f"j{number}")[0] for number in range(5)}
    say("one more is to ask again", codes == {14}, codes)
    say("so are offsets of another group", commit(client, "another") == 14)
    say_it_is_said(server, "no more groups are taken")
    server.end()


class Own:
    """A connection to PROGRAM serve, over one folder, that serves one connection."""

    def __init__(self, folder):
        words = [sys.argv[1], "serve", "--partitions", "16", "--connections", "1", "--dir", folder]
        self.process = subprocess.Popen(words, stdout=subprocess.PIPE, text=True)
        self.it = connect(int(self.process.stdout.readline().split()[1]), 20)

    def ask(self, kind, client, fields):
        """The code of the reply."""
        body = struct.pack(">BII", kind, client, 7) + fields
        self.it.sendall(struct.pack(">I", len(body)) + body)
        return struct.unpack(">h", next_frame(self.it)[13:15])[0]

    def init(self, client, txn):
        named = bytes([len(txn)]) + txn.encode()
        return self.ask(1, client, named + struct.pack(">I", 60000))

    def join(self, client, group):
        return self.ask(13, client, bytes([len(group)]) + group.encode())

    def leave(self, client, group):
        return self.ask(15, client, bytes([len(group)]) + group.encode())

    def end(self):
        self.it.close()
        self.process.wait(30)


def foreign(room):
    folder = f"{room}/foreign"
    numbers = (4294967295, 4294966271, 2147483648, 2147483647)
    own = Own(folder)
    codes = {own.init(number, f"t{number}") for number in numbers}
    codes |= {own.init(numbers[0], "~offsets/0"), own.init(5000, "low")}
    codes |= {own.join(number, "g") for number in numbers}
    own.end()
    say("clients of serve have ids and joined", codes == {0}, codes)
    for turn in ("once", "again"):
        server = Server("--dir", folder)
        client = Client(server.port)
        client.ask(3, 1, struct.pack(">i", 1) + text("bills"))
        words = server.words()
        for number in numbers:
            txn = f"t{number}"
            say(f"{txn} is refused and named, {turn}", init(client, txn)[0] == 53 and txn in words)
        say(f"others are served, {turn}", [init(client, it)[0] for it in ("low", "new")] == [0, 0])
        say(f"offsets are committed, {turn}", commit(client, "g") == 0)
        code, _, member = join(client, "h")
        say(f"a group is joined, {turn}", code == 0 and int(member.split("-")[-1]) > 5000, member)
        say(f"clients is small, {turn}", os.path.getsize(f"{folder}/clients") < 10)
        server.end()


def above(room):
    folder = f"{room}/above"
    own = Own(folder)
    codes = {own.init(70000, "t"), own.join(90000, "g"), own.leave(90000, "g"), own.join(80000, "h")}
    own.end()
    say("clients of serve have an id and joined", codes == {0}, codes)
    server = Server("--dir", folder)
    client = Client(server.port)
    code, _, member = join(client, "g")
    say("numbers begin above theirs", code == 0 and int(member.split("-")[-1]) > 90000, member)
    say("their id is served", init(client, "t")[0] == 0)
    server.end()


def main():
    # (the program without proof keeps what was freed for a while, unless it is asked not to)
    os.environ.setdefault("ASAN_OPTIONS", "quarantine_size_mb=0:thread_local_quarantine_size_kb=0")
    with tempfile.TemporaryDirectory() as room:
        foreign(room)
        above(room)
        left()
        refused(room)
        if IS_FULL:
            full_of_groups()
            full_of_ids()
    print(f"{len(FAILED)} failed")
    return 1 if FAILED else 0


if __name__ == "__main__":
    sys.exit(main())
