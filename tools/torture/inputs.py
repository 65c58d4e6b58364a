"""The input of each run: made up, read from a file, or printed by a command."""
import subprocess


class Unreadable(Exception):
    """Input that can't be read, or that has too few lines."""


class Input:
    """Lines of input, and the tail: one more record for each partition, written after the fault."""

    def __init__(self, topics, lines, tails, made_up):
        self.topics, self.lines, self.tails, self.made_up = topics, lines, tails, made_up

    def records(self, topic, partition):
        """(key, value) of the records of a partition. `topic` is the place of an input topic, from 0."""
        return [split(it) for it in self.lines[self.place(topic, partition)::self.partitions()]]

    def tail(self, topic, partition):
        """The (key, value) that is written to a partition last."""
        return split(self.tails[self.place(topic, partition)])

    def similar(self, word):
        """A (key, value) to be aborted: of this word, or the user's first record, whose form the program knows."""
        return (word.encode(), word.encode()) if self.made_up else split(self.lines[0])

    def partitions(self):
        return sum(count for _, count in self.topics)

    def place(self, topic, partition):
        return sum(count for _, count in self.topics[:topic]) + partition


def split(line):
    """KEY, a tab and VALUE, or VALUE alone."""
    key, tab, value = line.partition("\t")
    return (key.encode(errors="surrogateescape"), value.encode(errors="surrogateescape")) if tab else \
        (None, line.encode(errors="surrogateescape"))


def made_up(topics, count):
    """So many lines: with keys for topics, values alone for a source, which reads a file of lines."""
    partitions = sum(it for _, it in topics)
    if not topics:
        return Input(topics, ["value-%d" % it for it in range(1, count + 1)], ["tail-1"], True)
    return Input(topics, ["key-%d\tvalue-%d" % (it, it) for it in range(1, count + 1)],
        ["tail-%d\ttail-%d" % (it, it) for it in range(1, partitions + 1)], True)


def of_user(topics, text):
    """The user's lines, the last of which are the tail."""
    lines = [it for it in text.split("\n") if it]
    count = max(1, sum(it for _, it in topics))
    if len(lines) <= count:
        raise Unreadable("too few lines of input: the last %d are the tail" % count)
    return Input(topics, lines[:-count], lines[-count:], False)


def of_file(topics, name):
    try:
        with open(name, encoding="utf-8", errors="surrogateescape") as it:
            return of_user(topics, it.read())
    except OSError as fault:
        raise Unreadable("--input: %s" % fault)


def of_command(topics, command):
    ran = subprocess.run(["sh", "-c", command], stdout=subprocess.PIPE, stdin=subprocess.DEVNULL)
    if ran.returncode:
        raise Unreadable("--input-from ended with status %d" % ran.returncode)
    return of_user(topics, ran.stdout.decode("utf-8", "surrogateescape"))
