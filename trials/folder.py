#!/usr/bin/env python3
"""Takes files out of a server's folder, exchanges them and cuts them, and starts the server again.

    folder.py PROGRAM [LOOK..]

A server writes batches to three partitions, and commits a transaction of a record and an offset, and is
killed. Then, each on a copy of its folder:

- the list `folder` is the one that follows from the files: its first line, and a line for each append
  to a file that had fewer than 4,096 bytes, with the checksum of the file's first bytes;
- a listed file that is missing, empty or cut within its first append refuses the start; so do p0.log
  and p1.log that are exchanged, and p0.log or topics of another folder. The file is named, and what to
  do: to restore it, or to remove its lines. After the latter the server starts, once checksums of the
  file are removed too;
- co.log, with its checksums, and po.log of another folder refuse the start also if their first append
  is the same in both folders;
- without `folder`, or with less than its first line, the server starts, says so, and makes the list;
- less than a line at the end of the list is cut off, and files without a line get one, without a word;
- a line that is damaged or names another file refuses the start, with the line's number;
- however soon a server is killed, the next start succeeds: during its own start (the checksum of the
  first entry may be missing then, and is said to), and while it appends to partitions for the first time;
- a changed bit of a length in the middle of p0.log, by which a start would cut off the batches after
  it, and one of the last batch's length, refuse the start, which names the file and the place;
- a torn end of a batch is cut off, and the server starts;
- after co.log, its checksums and what else the folder knows of it are removed, a record of a new
  producer is appended, and not taken for a repeated one of an earlier producer;
- with a batch in p1.log whose producer id is far above those of co.log, the start is refused, and names
  p1.log.

Each LOOK is a function of this file. Ends with status 1 if one of these isn't so. Batches and checksums
and the list are written from docs/FORMATS.md.
"""
import os
import random
import signal
import shutil
import struct
import subprocess
import sys
import tempfile
import threading
import time

import edges
from bits import Folder, commit_offset, copy_of, flipped, is_refused, places_of, produce, start
from bits import wait_for_batches
from edges import Client, begin, commit, plain_batch, say
from frames import crc32c, varint

HEAD, LINE, MOST_FIRST = 25, 22, 4096

NEW_LIST = "folder: the list of files is new"
UNSUMMED = "co.log: the bytes from 0 up to 10 have no checksum, and are taken as they are\n"


def batch(held, epoch, sequence, value):
    """A batch of one record of an idempotent producer."""
    record = bytes([0, 0, 0, 1]) + varint(len(value)) + value + b"\0"
    body = struct.pack(">hiqqqhii", 0, 0, 0, 0, held, epoch, sequence, 1)
    body += varint(len(record)) + record
    return struct.pack(">qiibI", 0, len(body) + 9, 0, 2, crc32c(body)) + body


def new_producer(client):
    """The id and the epoch that a producer without a transactional id is given."""
    answer = client.ask(22, 0, struct.pack(">hi", -1, 60000))
    _, code, held, epoch = struct.unpack(">ihqh", answer[:16])
    return (held, epoch) if code == 0 else None


def fill(folder, value=b"rent", offset=5):
    """Lets a server write batches to three partitions, and a transaction, and kills it."""
    server = edges.Server("--dir", folder.left, "--topics", "bills:3")
    client = Client(server.port)
    held, epoch = new_producer(client)
    # (not more than five a partition, so that the first would be known as repeated)
    answers = [produce(client, at % 2, batch(held, epoch, at // 2, value + b" %d" % at)) for at in range(8)]
    say("batches are appended", answers == [(0, at // 2) for at in range(8)], answers)
    say("and a long one", produce(client, 2, plain_batch(value * 2000)) == (0, 0))
    client, held, epoch, code = begin(server.port, 900000)
    codes = (code, *commit_offset(client, held, epoch, offset), commit(client, held, epoch))
    say("a transaction is committed", codes == (0, 0, 0, 0), codes)
    wait_for_batches(folder, {"p0.log": 6, "p1.log": 4, "p2.log": 1, "po.log": 3})
    server.end()


def ends_of(folder):
    """How long each file that is listed was after each append to it."""
    found = {}
    for name, sums in (("co.log", "co.sum"), ("topics", "topics.sum"), ("clients", "clients.sum")):
        found[name] = [size for size, _ in struct.iter_unpack(">QI", folder.content(sums))]
    for name in ("p0.log", "p1.log", "p2.log", "po.log"):
        log = folder.content(name)
        found[name] = [*places_of(log), len(log)][1:]
    return found


def first_appends(folder):
    """The first append of each file that is listed, as far as its checksum goes."""
    return {name: folder.content(name)[:min(ends[0], MOST_FIRST)] for name, ends in ends_of(folder).items()}


def wanted_lines(folder):
    """The lines of the list: one for each append to a file that had fewer than 4,096 bytes."""
    number, lines = number_in(folder.content("folder")), []
    for name, ends in ends_of(folder).items():
        for before, after in zip([0, *ends], ends):
            if before < MOST_FIRST:
                lines.append(line_of(number, name, folder.content(name)[:min(after, MOST_FIRST)]))
    return sorted(lines)


def line_of(number, name, first):
    padded = name.encode().ljust(8)
    return padded + b"%04x %08x\n" % (len(first), crc32c(struct.pack(">Q", number) + padded + first))


def sums_of(appends):
    """The checksums beside a file of these appends."""
    records, size, crc = b"", 0, 0
    for it in appends:
        size, crc = size + len(it), crc32c(struct.pack(">I", crc) + it)
        records += struct.pack(">QI", size, crc)
    return records


def lines_in(text):
    return [text[at:at + LINE] for at in range(HEAD, len(text), LINE)]


def number_in(text):
    return int(text[8:24], 16)


def is_list_of(copy):
    """Whether the list in a folder has lines for each file with bytes, each right for its file."""
    with open(f"{copy}/folder", "rb") as it:
        text = it.read()
    if text[:HEAD] != b"folder  %016x\n" % number_in(text):
        return False
    wanted, found = {}, lines_in(text)
    for name in os.listdir(copy):
        if name.endswith(".log") or name in ("topics", "clients"):
            with open(f"{copy}/{name}", "rb") as it:
                wanted[name] = it.read(MOST_FIRST)
    names = [it[:8].decode().strip() for it in found]
    if set(names) != {name for name, first in wanted.items() if first}:
        return False
    sizes = [int(it[8:12], 16) for it in found]
    return found == [line_of(number_in(text), name, wanted[name][:size]) for name, size in zip(names, sizes)]


def started_after(folder, change):
    """What a start comes to on a copy that was changed."""
    copy = copy_of(folder.left, folder.room)
    change(copy)
    return start(copy)


def says_what_to_do(answer, name):
    """Whether the start was refused by the list, and the words name the file and what can be done."""
    return is_refused(answer, name) and "restore the file from a copy, or remove its lines from folder" in answer[1]


def look_at_list(folder):
    """The list, as it was written."""
    text = folder.content("folder")
    number = number_in(text)
    say("the long batch is longer than what is listed", len(folder.content("p2.log")) > MOST_FIRST)
    say("the list's first line", text[:HEAD] == b"folder  %016x\n" % number, text[:HEAD])
    wanted = wanted_lines(folder)
    say("its other lines", sorted(lines_in(text)) == wanted, lines_in(text), wanted)


def look_at_files(folder):
    """Listed files that are missing, empty or cut."""
    for name, first in first_appends(folder).items():
        for what, content, why in (("missing", None, "it is missing"), ("empty", b"", "it is shorter than"),
                                   ("cut in its first append", first[:-1], "it is shorter than")):
            answer = folder.started_with(name, content)
            say(f"{name} {what}", says_what_to_do(answer, name) and why in answer[1], answer)

        def removed(copy):
            sums = f"{copy}/{name.split('.')[0]}.sum"
            for it in (f"{copy}/{name}", sums):
                if os.path.exists(it):
                    os.remove(it)
            with open(f"{copy}/folder", "wb") as it:
                it.write(without_lines(folder, name))

        answer = started_after(folder, removed)
        say(f"{name} missing, and its lines", answer[0] is None, answer)


def look_at_others(folder, other):
    """Files that are exchanged, or of another folder, whose first appends are others."""
    def exchanged(copy):
        os.rename(f"{copy}/p0.log", f"{copy}/p.log")
        os.rename(f"{copy}/p1.log", f"{copy}/p0.log")
        os.rename(f"{copy}/p.log", f"{copy}/p1.log")

    def with_topics(copy):
        write_summed(copy, "topics", [b"bills 2\n"])

    answer = started_after(folder, exchanged)
    say("p0.log and p1.log exchanged", says_what_to_do(answer, "p0.log"), answer)
    answer = folder.started_with("p0.log", other.content("p0.log"))
    say("p0.log of another folder", says_what_to_do(answer, "p0.log"), answer)
    answer = started_after(folder, with_topics)
    say("topics of another folder", says_what_to_do(answer, "topics"), answer)
    answer = folder.started_with("folder", other.content("folder"))
    is_named = any(says_what_to_do(answer, name) for name in first_appends(folder))
    say("the list of another folder", is_named, answer)


def write_summed(copy, name, appends):
    """Writes a file of these appends, and the checksums beside it."""
    for path, content in ((name, b"".join(appends)), (f"{name}.sum", sums_of(appends))):
        with open(f"{copy}/{path}", "wb") as it:
            it.write(content)


def look_at_same_beginnings(folder, other):
    """Files of another folder whose first append is the same in both."""
    def with_others(*names):
        return lambda copy: [shutil.copy(f"{other.left}/{it}", copy) for it in names]

    changes = {"co.log": with_others("co.log", "co.sum"), "po.log": with_others("po.log")}
    for name, change in changes.items():
        answer = started_after(folder, change)
        say(f"{name} of another folder that begins the same", says_what_to_do(answer, name), answer)


def look_at_lost_list(folder):
    """No list, or less than its first line."""
    text, copy = folder.content("folder"), f"{folder.room}/copy"
    for size in (None, 0, 1, 8, HEAD - 1):
        answer = folder.started_with("folder", size if size is None else text[:size])
        is_said = answer[0] is None and answer[1].startswith(NEW_LIST) and answer[1].count("\n") == 1
        what = "no list" if size is None else f"{size} bytes of the list"
        say(f"with {what} the server starts and says so", is_said, answer)
        with open(f"{copy}/folder", "rb") as it:
            say("and makes another", is_list_of(copy) and number_in(it.read()) != number_in(text))
        say("by which it starts without a word", start(copy) == (None, ""))


def look_at_torn_list(folder):
    """Less than a line at the end."""
    text, copy = folder.content("folder"), f"{folder.room}/copy"
    for size in range(LINE):
        answer = folder.started_with("folder", text[:len(text) - LINE + size])
        say(f"{size} bytes of the last line", answer == (None, "") and is_list_of(copy), answer)
        answer = folder.started_with("folder", text + line_of(number_in(text), "p9.log", b"x")[:size])
        with open(f"{copy}/folder", "rb") as it:
            # (a start appends an entry to co.log, whose line comes after)
            is_right = answer == (None, "") and it.read().startswith(text) and is_list_of(copy)
            say(f"{size} bytes of one more line", is_right, answer)


def look_at_damaged_lines(folder):
    """Lines that no server writes."""
    text = folder.content("folder")
    changes = [("a letter that is no digit, in the number,", 1, text[:10] + b"g" + text[11:])]
    for line in (2, len(lines_in(text)) + 1):
        at = HEAD + (line - 2) * LINE
        for what, place, bytes_there in (
                ("a letter that is no digit, in a length,", 9, b"x"), ("a capital digit", 14, b"A"),
                ("a letter that is no digit, in a checksum,", 20, b"g"), ("an unknown name", 0, b"p16.log "),
                ("no space", 12, b"0"), ("no end", 21, b" ")):
            end = at + place + len(bytes_there)
            changes.append((what, line, text[:at + place] + bytes_there + text[end:]))
    for what, line, changed in changes:
        answer = folder.started_with("folder", changed)
        is_right = is_refused(answer, "folder") and f" line {line} is damaged; restore the file" in answer[1]
        say(f"{what} in line {line} of the list", is_right, answer)


def killed_at_start(room):
    """A server that is killed while it starts on a folder that isn't there yet."""
    folder, wrong, listed = f"{room}/young", [], 0
    for _ in range(20):
        shutil.rmtree(folder, ignore_errors=True)
        it = subprocess.Popen([sys.argv[1], "kafka", "--port", "0", "--dir", folder, "--topics", "bills:16"],
                              stdout=subprocess.DEVNULL, stderr=subprocess.DEVNULL)
        begun = time.time()
        while not os.path.exists(f"{folder}/lock") and time.time() < begun + 60:
            time.sleep(0.001)
        time.sleep(random.uniform(0, 0.1))
        it.send_signal(signal.SIGKILL)
        it.wait()
        listed += os.path.exists(f"{folder}/folder")
        answer = start(folder)
        # (the checksum of the first entry may be missing)
        is_well = answer[0] is None and answer[1] in ("", UNSUMMED)
        if not is_well or not is_list_of(folder):
            wrong.append(answer)
    say("killed while it starts, 20 times", not wrong, *wrong[:1], f"{listed} had a list")


def killed_at_appends(room):
    """A server that is killed while it appends to partitions for the first time."""
    folder, wrong, appended = f"{room}/killed", [], 0

    def append(client, partition):
        try:
            produce(client, partition, plain_batch(b"rent"))
        except struct.error:
            # the server was killed before it answered
            pass

    for _ in range(20):
        shutil.rmtree(folder, ignore_errors=True)
        server = edges.Server("--dir", folder, "--topics", "bills:16")
        threads = [threading.Thread(target=append, args=(Client(server.port), it)) for it in range(16)]
        for it in threads:
            it.start()
        begun = time.time()
        while not any(os.path.getsize(f"{folder}/p{it}.log") for it in range(16)) and time.time() < begun + 60:
            pass
        time.sleep(random.uniform(0, 0.02))
        server.end()
        for it in threads:
            it.join()
        appended += sum(os.path.getsize(f"{folder}/p{it}.log") > 0 for it in range(16))
        answer = start(folder)
        if answer != (None, "") or not is_list_of(folder):
            wrong.append(answer)
    say("killed at first appends, 20 times", not wrong, *wrong[:1], f"{appended} of 320 logs had a batch")


def without_lines(folder, name):
    """The list without the lines of a file."""
    text = folder.content("folder")
    return text[:HEAD] + b"".join(it for it in lines_in(text) if it[:8].decode().strip() != name)


def look_at_ends(folder):
    """Lengths that are changed, and a torn end. The log isn't listed, as beyond its first bytes."""
    log, unlisted = folder.content("p0.log"), without_lines(folder, "p0.log")
    places = places_of(log)

    def started_with(content):
        def change(copy):
            for name, it in (("p0.log", content), ("folder", unlisted)):
                with open(f"{copy}/{name}", "wb") as file:
                    file.write(it)
        return started_after(folder, change)

    say("p0.log has batches in a row", len(places) > 4, len(places))
    # (the lowest byte of a length is its last; 512 bytes more end after the log)
    for name, at in (("in the middle", places[2]), ("of the last batch", places[-1])):
        changed = flipped(log, (at + 10) * 8 + 1)
        answer = started_with(changed)
        is_right = is_refused(answer, "p0.log") and f"{at}" in answer[1] and "copy" in answer[1]
        say(f"a bit of a length {name} changed", is_right, answer)
        with open(f"{folder.room}/copy/p0.log", "rb") as it:
            say("and the log stays as it was", it.read() == changed)
    for size in (1, 11, 12, 40, len(log) - places[-1] - 1):
        torn = log + log[places[-1]:][:size]
        answer = started_with(torn)
        with open(f"{folder.room}/copy/p0.log", "rb") as it:
            say(f"a torn end of {size} bytes is cut off", answer[0] is None and it.read() == log, answer)


def look_at_ids(folder):
    """A new producer after the coordinator's log is gone."""
    copy = copy_of(folder.left, folder.room)
    for name in ("co.log", "co.sum", "folder"):
        if os.path.exists(f"{copy}/{name}"):
            os.remove(f"{copy}/{name}")
    server = edges.Server("--dir", copy)
    size = os.path.getsize(f"{copy}/p1.log")
    client = Client(server.port)
    held, epoch = new_producer(client)
    answer = produce(client, 1, batch(held, epoch, 0, b"new"))
    is_there = os.path.getsize(f"{copy}/p1.log") > size
    say("a new producer's record is appended", answer == (0, 4) and is_there, (held, epoch, answer))
    server.end()


def look_at_far_ids(folder):
    """A log that names an id far above those that were given out."""
    log = folder.content("p1.log")
    far = bytearray(batch(70000, 0, 0, b"far"))
    # the batch at its place
    far[:8] = struct.pack(">q", len(places_of(log)))
    answer = folder.started_with("p1.log", log + far)
    is_right = is_refused(answer, "p1.log") and "69999 above" in answer[1] and "co.log" in answer[1]
    say("ids far above those of co.log refuse the start", is_right, answer)


def main():
    with tempfile.TemporaryDirectory() as room:
        folder, other = Folder(f"{room}/left", room), Folder(f"{room}/other", room)
        fill(folder)
        fill(other, b"food", 7)
        say("a folder as it was left", start(copy_of(folder.left, room)) == (None, ""))
        looks = {it.__name__: it for it in (
            look_at_list, look_at_files, look_at_lost_list, look_at_torn_list, look_at_damaged_lines,
            look_at_ends, look_at_ids, look_at_far_ids)}
        looks.update((it.__name__, lambda folder, it=it: it(folder, other)) for it in (
            look_at_others, look_at_same_beginnings))
        looks.update((it.__name__, lambda folder, it=it: it(room)) for it in (
            killed_at_start, killed_at_appends))
        for name in sys.argv[2:] or looks:
            looks[name](folder)
    print(f"{len(edges.FAILED)} failed")
    return 1 if edges.FAILED else 0


if __name__ == "__main__":
    sys.exit(main())
