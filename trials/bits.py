#!/usr/bin/env python3
"""Changes each bit of the files of a server's folder, cuts those that have checksums beside them, and
starts the server again.

    bits.py PROGRAM [--every N] [--jobs N] [--unlisted]

A server writes a record to each of two partitions, and a transaction that commits a record and an
offset of a group, and is killed. Then, each on a copy of its folder:

- with one bit of any file changed, the start is refused, and names the file, and the place if it is a
  log; or the bit is one of a few kinds, which are explained and counted at the end. A kind is known by
  the bit's place in the file and by what the start said. If the server starts, a client reads the same
  records and offsets as before;
- with co.log, topics or clients cut at any byte, or empty, or missing, the start is refused, and names
  the file;
- with the checksums of one of these cut anywhere, empty or missing, the server starts. If bytes of
  co.log have no checksum it says so on standard error, and from which byte on;
- on the folder as it was left the server starts without a word, and so it does once more.

--every N changes each Nth bit, and cuts at each Nth byte: 1 by default, which makes some 11,000 starts.
--jobs N makes so many starts at a time (4). With --unlisted a changed file has no lines in the list of
the folder's files, as bytes after a file's first 4,096 have none: then a log's own checksums have to
find the bit. Ends with status 1 if one of these isn't so.
"""
import os
import queue
import re
import shutil
import signal
import struct
import subprocess
import sys
import tempfile
import time
from concurrent.futures import ThreadPoolExecutor

import edges
from edges import Client, begin, commit, plain_batch, say, text

IS_UNLISTED = "--unlisted" in sys.argv

# Which file a start names for one that is changed, if it is another.
NAMED = {"co.sum": "co.log", "topics.sum": "topics", "clients.sum": "clients"}

TOPIC = struct.pack(">i", 1) + text("bills") + struct.pack(">i", 1)


def start(folder):
    """Starts a server on a folder and ends it once it listens: its exit status, or None if it
    listened, and what it said on standard error."""
    it = subprocess.Popen([sys.argv[1], "kafka", "--port", "0", "--dir", folder],
                          stdout=subprocess.PIPE, stderr=subprocess.PIPE, text=True)
    listened = it.stdout.readline().startswith("listening ")
    if listened:
        it.send_signal(signal.SIGKILL)
    words = it.communicate(timeout=300)[1]
    return None if listened else it.returncode, words


def copy_of(left, room):
    copy = f"{room}/copy"
    shutil.rmtree(copy, ignore_errors=True)
    shutil.copytree(left, copy)
    return copy


def take_from_list(copy, name):
    """Takes the lines of a file out of the list of the folder's files."""
    with open(f"{copy}/folder", "rb") as it:
        text = it.read()
    lines = [text[at:at + 22] for at in range(25, len(text), 22)]
    with open(f"{copy}/folder", "wb") as it:
        it.write(text[:25] + b"".join(line for line in lines if line[:8].decode().strip() != name))


class Folder:
    """A copy of a folder, in which one file is another."""

    def __init__(self, left, room):
        self.left, self.room = left, room

    def content(self, name):
        with open(f"{self.left}/{name}", "rb") as it:
            return it.read()

    def started_with(self, name, content):
        """What a start comes to with this content of a file, or without the file."""
        copy = copy_of(self.left, self.room)
        if content is None:
            os.remove(f"{copy}/{name}")
        else:
            with open(f"{copy}/{name}", "wb") as it:
                it.write(content)
        if IS_UNLISTED:
            take_from_list(copy, NAMED.get(name, name))
        return start(copy)


def is_refused(answer, name):
    """Whether the start was refused with status 1 and a line that names the file."""
    status, words = answer
    return status == 1 and f"/{name}: " in words and words.count("\n") == 1


def flipped(content, bit):
    changed = bytearray(content)
    changed[bit // 8] ^= 1 << bit % 8
    return bytes(changed)


def each(what, tries):
    """Says whether all tries were right, and the first that wasn't."""
    wrong = [(name, answer) for name, answer, is_right in tries if not is_right]
    say(f"{what}, {len(tries)} tries", not wrong, *wrong[:1])


def produce(client, partition, records):
    """The code and the offset that a batch is answered."""
    fields = struct.pack(">hhi", -1, -1, 30000) + struct.pack(">i", 1) + text("bills")
    fields += struct.pack(">iii", 1, partition, len(records)) + records
    answer = client.ask(0, 3, fields)
    # in front of the code: how many topics, the name, how many partitions, the partition
    return struct.unpack(">hq", answer[4 + 7 + 4 + 4:][:10])


def places_of(log):
    """Where the batches of a log begin."""
    places, at = [], 0
    while at < len(log):
        places.append(at)
        at += 12 + struct.unpack(">i", log[at + 8:at + 12])[0]
    return places


def entries_of(log):
    """Where the entries of the coordinator's log begin."""
    places, at = [], 0
    while at < len(log):
        places.append(at)
        at += 4 + struct.unpack(">I", log[at:at + 4])[0]
    return places


def commit_offset(client, held, epoch, offset=5):
    """The codes of an AddOffsetsToTxn and of a TxnOffsetCommit of version 0, which names no member."""
    answer = client.ask(25, 0, text("pay") + struct.pack(">qh", held, epoch) + text("g"))
    added = struct.unpack(">h", answer[4:6])[0]
    fields = text("pay") + text("g") + struct.pack(">qh", held, epoch)
    answer = client.ask(28, 0, fields + TOPIC + struct.pack(">iq", 0, offset) + text(""))
    return added, struct.unpack(">h", answer[4 + 4 + 7 + 4 + 4:][:2])[0]


def wait_for_batches(folder, wanted):
    """Waits until logs have so many batches each, as markers are written after the answer."""
    counts, begun = None, time.time()
    while counts != wanted and time.time() < begun + 60:
        counts = {it: len(places_of(folder.content(it))) for it in wanted}
        time.sleep(0.1)
    say("batches are in the logs", counts == wanted, counts)


def fill(folder):
    """Lets a server write what is changed afterwards, and kills it: three batches in p0.log, one in
    p1.log and three in po.log, of which the first is that a client joins the group. Markers are the last."""
    server = edges.Server("--dir", folder.left, "--topics", "bills:2")
    client = Client(server.port)
    answers = [produce(client, at, plain_batch(b"rent")) for at in range(2)]
    say("records are appended", answers == [(0, 0), (0, 0)], answers)
    client, held, epoch, code = begin(server.port, 900000)
    codes = (code, *commit_offset(client, held, epoch), commit(client, held, epoch))
    say("a transaction commits a record and an offset", codes == (0, 0, 0, 0), codes)
    wait_for_batches(folder, {"p0.log": 3, "p1.log": 1, "po.log": 3})
    server.end()


def read(folder):
    """What a client reads in both partitions of committed transactions, and the group's offset."""
    server = edges.Server("--dir", folder)
    client = Client(server.port)
    fetched = client.ask(1, 4, edges.fetch_fields([0, 1], 0, isolation=1))
    offset = client.ask(9, 1, text("g") + TOPIC + struct.pack(">i", 0))
    server.end()
    return fetched, offset


class Change:
    """One bit of a file that is changed, and what a start comes to then."""

    def __init__(self, name, content, bit):
        self.name, self.content, self.at, self.bit = name, content, bit // 8, bit
        self.changed = flipped(content, bit)
        self.answer, self.read = (None, ""), None

    def start(self, folder):
        self.answer = folder.started_with(self.name, self.changed)
        if self.answer[0] is None:
            self.read = read(f"{folder.room}/copy")

    def __str__(self):
        return f"bit {self.bit % 8} of byte {self.at} of {self.name}: {self.answer}"

    def begin(self):
        """Where the entry or the batch begins that the bit is of."""
        places = (entries_of if self.name == "co.log" else places_of)(self.content)
        return max(it for it in places if it <= self.at)

    def is_of_batch(self, first, end):
        """Whether the bit is of these bytes of a batch, of which the list says nothing."""
        is_there = re.match(r"p.\.log", self.name) and (IS_UNLISTED or self.begin() > 0)
        return is_there and first <= self.at - self.begin() < end

    def may_be_read(self, before):
        """What a client may read: the same as before, or a log with this bit changed."""
        fetched, offset = before
        places = [it.start() for it in re.finditer(re.escape(self.content), fetched)]
        return [before] + [(fetched[:at] + self.changed + fetched[at + len(self.content):], offset) for at in places]

    def is_listed(self, name):
        """Whether the start was refused since this file isn't the one of the list."""
        return is_refused(self.answer, name) and "by the list in folder" in self.answer[1]

    def names_place(self):
        """Whether the words name the place in a log, or among which of its first bytes it is."""
        words = self.answer[1]
        listed = re.search(r"its first (\d+) bytes are not those that were written", words)
        if listed:
            return self.at < int(listed[1])
        summed = re.search(r"the bytes from (\d+) up to (\d+) are not", words)
        if summed:
            return int(summed[1]) <= self.at < int(summed[2])
        found = re.search(r"byte (\d+)", words)
        return bool(found) and int(found[1]) == self.begin()

    def is_named(self):
        """Whether the start was refused and names the file, and the place if the file is a log."""
        if self.name == "folder":
            line = 1 if self.at < 25 else (self.at - 25) // 22 + 2
            return is_refused(self.answer, "folder") and f" line {line} is damaged" in self.answer[1]
        is_log = self.name.endswith(".log")
        return is_refused(self.answer, NAMED.get(self.name, self.name)) and (not is_log or self.names_place())


def is_leader_epoch(it):
    """a batch's leader epoch, if the list says nothing of it: no checksum is of it, and it says nothing of
    records; the server starts, and takes the batch for one of another program"""
    words = f"{it.name}: another program wrote a batch; pages are steps of the node\n"
    return it.is_of_batch(12, 16) and it.answer == (None, words)


def is_producer_id(it):
    """a batch's producer id, if the list says nothing of it: ids that no server would allocate are named,
    with the file and without the place, before the batch's own checksum is looked at"""
    words = f"/{it.name}: its producer ids are "
    return it.is_of_batch(43, 51) and is_refused(it.answer, it.name) and words in it.answer[1]


def is_length(it):
    """a batch's length, if the list says nothing of it: so changed that what comes after would be cut off; the
    file is named, and the place from which on"""
    words = re.search(r"from byte (\d+) on it would be cut off, and a whole batch begins at byte ", it.answer[1])
    is_after = bool(words) and int(words[1]) > it.at
    return it.is_of_batch(8, 12) and is_refused(it.answer, it.name) and is_after


def is_owner(it):
    """the highest bit of an owner in a row of co.log: that no client may have the transactional id is said
    first, and then the file and the place"""
    # in front of the owner: length, version, kind, cause, state, "pay", id, epoch, previous and next id
    is_there = it.name == "co.log" and it.at - it.begin() == 4 + 4 + 4 + 8 + 2 + 8 + 8
    said, refusal = (it.answer[1].split("\n", 1) + [""])[:2]
    is_said = said.startswith("transactional id pay is refused: no stock client has a number above its owner's")
    return is_there and is_said and is_refused((it.answer[0], refusal), "co.log") and it.names_place()


def is_trace_mark(it):
    """traced-as, which says with which traces the logs go: a start without traces writes it anew"""
    return it.name == "traced-as" and it.answer == (None, "")


def text_of(name):
    return name.decode("latin-1").strip()


def is_number(it):
    """a digit of the folder's number, in the list: no file is of that folder, and the first is named"""
    return it.name == "folder" and it.at in range(8, 24) and it.is_listed(text_of(it.content[25:33]))


def is_line(it):
    """a name or a digit in a line of the list: the file that the line names then is named"""
    place = (it.at - 25) % 22
    line = it.changed[it.at - place:][:22]
    return it.name == "folder" and it.at >= 25 and place < 21 and it.is_listed(text_of(line[:8]))


KINDS = (is_leader_epoch, is_producer_id, is_length, is_owner, is_trace_mark, is_number, is_line)


def at_once(folders, task, items):
    """Does a task with a folder of its own for each of these, as many at a time as there are folders."""
    free = queue.Queue()
    for it in folders:
        free.put(it)

    def one(item):
        folder = free.get()
        try:
            return task(folder, item)
        finally:
            free.put(folder)

    with ThreadPoolExecutor(len(folders)) as pool:
        return list(pool.map(one, items))


def change_bits(folders, name, every, before, counts):
    """Changes bits of a file, and counts those of each kind."""
    content = folders[0].content(name)
    changes = [Change(name, content, bit) for bit in range(0, len(content) * 8, every)]
    at_once(folders, lambda folder, it: it.start(folder), changes)
    others = []
    for it in changes:
        kinds = [kind for kind in KINDS if kind(it)]
        if it.read and it.read not in it.may_be_read(before):
            say(f"a client reads the same: {it}", False, it.read)
        if kinds:
            counts[kinds[0]] += 1
        elif not it.is_named():
            others.append(str(it))
    say(f"one bit of {name} changed, {len(changes)} tries", not others, len(others), *others[:20])
    return len(changes)


def cut(folders, name, sums, every):
    """Cuts a file and its checksums."""
    content, records = folders[0].content(name), folders[0].content(sums)
    say(f"each append to {name} has a checksum", len(records) % 12 == 0 and records, len(records) // 12)
    sizes = [*range(0, len(content), every), None]
    answers = at_once(folders, lambda folder, size: folder.started_with(
        name, size if size is None else content[:size]), sizes)
    each(f"{name} cut", [(f"{size} bytes", answer, is_refused(answer, name))
                         for size, answer in zip(sizes, answers)])
    sizes = [*range(0, len(records), every), None]
    answers = at_once(folders, lambda folder, size: folder.started_with(
        sums, size if size is None else records[:size]), sizes)
    tries = []
    for size, (status, words) in zip(sizes, answers):
        is_said = words.startswith("co.log: the bytes from ") and words.count("\n") == 1
        tries.append((f"{size} bytes", (status, words), status is None and (is_said or name != "co.log")))
    each(f"{sums} cut", tries)


def option(name, other):
    return int(sys.argv[sys.argv.index(name) + 1]) if name in sys.argv else other


def main():
    every, jobs = option("--every", 1), option("--jobs", 4)
    with tempfile.TemporaryDirectory() as room:
        left = f"{room}/left"
        folder = Folder(left, room)
        fill(folder)
        say("a folder as it was left", start(copy_of(left, room)) == (None, ""))
        # (the copy was served, so its log has an entry more)
        say("and once more", start(f"{room}/copy") == (None, ""))
        before = read(copy_of(left, room))
        say("a client reads all records and the offset", before[0].count(b"rent") == 3 and
            struct.unpack(">iq", before[1][-16:-4]) == (0, 5))
        folders = [Folder(left, f"{room}/{it}") for it in range(jobs)]
        counts = {kind: 0 for kind in KINDS}
        names = [it for it in sorted(os.listdir(left)) if folder.content(it)]
        if IS_UNLISTED:
            names.remove("folder")
        bits = sum(change_bits(folders, it, every, before, counts) for it in names)
        for name, sums in (("co.log", "co.sum"), ("topics", "topics.sum"), ("clients", "clients.sum")):
            cut(folders, name, sums, every)
    print(f"{bits} bits were changed; a start names the file, except for")
    for kind, count in counts.items():
        print(f"{count:6} {' '.join(kind.__doc__.split())}")
    print(f"{len(edges.FAILED)} failed")
    return 1 if edges.FAILED else 0


if __name__ == "__main__":
    sys.exit(main())
