"""The command line: its options, and what is wrong with them."""
import argparse
import os

import faults
import inputs
import layouts

TOP = os.path.dirname(os.path.dirname(os.path.dirname(os.path.realpath(__file__))))
USAGE = "./kx torture [OPTIONS] -- COMMAND WORDS.."
NAMES = """names in COMMAND: {bootstrap} the broker's address; {slot} 1 or 2, the same after a restart, of which
transactional and static ids are made; {start} the number of the start; {dir} a folder of the run; {input} the file
of input lines, if there is no --in"""
# The server's partitions, of all topics together.
MOST_PARTITIONS = 16


class Wrong(Exception):
    """Arguments that can't be meant."""


def parser():
    it = argparse.ArgumentParser(prog="./kx torture", usage=USAGE, epilog=NAMES, add_help=True, allow_abbrev=False,
        description="Runs a program undisturbed, and then once for each fault at each request, and compares its output.")
    add = it.add_argument
    add("--in", dest="inputs", action="append", default=[], metavar="NAME[:PARTITIONS]",
        help="an input topic (2 partitions); none for a source")
    add("--out", dest="outputs", action="append", default=[], metavar="NAME[:PARTITIONS]",
        help="an output topic (2 partitions)")
    add("--out-stdout", action="store_true", help="the output is lines on standard output")
    add("--out-file", metavar="FILE", help="the output is lines of a file, whose name has {dir}")
    add("--records", type=int, default=2, metavar="N", help="how many input records (2)")
    add("--input", metavar="FILE",
        help="input records, a line each: KEY, a tab and VALUE, or VALUE alone; the last lines are the tail")
    add("--input-from", metavar="COMMAND", help="a command that prints such lines")
    add("--group", metavar="NAME", help="the program's group, if its requests don't show it")
    add("--promise", choices=("exactly", "at-least", "at-most"), default="exactly",
        help="how often the program promises to write each record (exactly once)")
    add("--by-key", action="store_true", help="compares keys alone: values may differ")
    add("--ordered", action="store_true", help="compares the order of each key's values too")
    add("--check", metavar="COMMAND",
        help="a command that compares two files, the expected and the found output; status 0 if they agree")
    add("--all", action="store_true", help="each request of every API, not the first, second and last of some")
    add("--runs", type=int, metavar="N", help="so many runs, drawn by --seed")
    add("--seed", type=int, default=1, metavar="N", help="of the runs that are drawn (1)")
    add("--faults", metavar="NAMES", help="these faults alone, such as kill-after,cut-before")
    add("--only", action="append", default=[], metavar="API#N:FAULT", help="this run alone; with a comma a pair of faults")
    add("--twice", action="store_true", help="pairs of faults; the second is counted from the first on")
    add("--jobs", type=int, default=os.cpu_count() or 1, metavar="N", help="runs side by side (as many as processors)")
    add("--keep", action="store_true", help="keeps the folders of runs that differ")
    add("--dir", metavar="FOLDER", help="where the folders of runs are made")
    add("--html", default="torture.html", metavar="FILE", help="the page (torture.html)")
    add("--json", metavar="FILE", help="the verdicts as JSON")
    add("--junit", metavar="FILE", help="the verdicts as JUnit's XML, for continuous integration")
    add("--program", metavar="FILE", help="the server program")
    add("--top", default=TOP, help=argparse.SUPPRESS)
    add("--against", metavar="HOST:PORT", help="another Kafka, without faults of the server and audits")
    add("--slow", action="store_true", help="sessions of members that are gone end by time alone")
    add("--grace", type=float, default=10, metavar="SECONDS", help="how long a program may take to end (10)")
    add("--done", action="append", metavar="WHEN", nargs="+",
        help="count N, exit, or quiet SECONDS, if no group commits what was read")
    add("command", nargs=argparse.REMAINDER, help=argparse.SUPPRESS)
    return it


def topic(word):
    name, _, count = word.partition(":")
    try:
        number = int(count) if count else 2
    except ValueError:
        raise Wrong("%s: a name, a colon and a number of partitions" % word)
    if not name or number < 1:
        raise Wrong("%s: a name, a colon and a number of partitions" % word)
    return name, number


def done(words):
    """The kind and the number of --done."""
    words = " ".join(words[-1] if isinstance(words[-1], list) else words).split()
    if words == ["exit"]:
        return "exit", 0
    try:
        if len(words) == 2 and words[0] == "count":
            return "count", int(words[1])
        if len(words) == 2 and words[0] == "quiet":
            return "quiet", float(words[1])
    except ValueError:
        pass
    raise Wrong("--done is count N, exit, or quiet SECONDS")


def points(text):
    """The points of --only: API#N:FAULT, or two of them with a comma between."""
    found = []
    for word in text.split(","):
        request, _, fault = word.strip().partition(":")
        api, _, number = request.partition("#")
        if fault not in faults.BY_NAME or not number.isdigit() or api not in layouts.BY_NAME:
            raise Wrong("--only %s: API#N:FAULT is meant, such as EndTxn#1:kill-after" % text)
        if fault.split("-")[0] in ("refuse", "retry") and api not in faults.BY_NAME[fault].requests:
            raise Wrong("--only %s: no broker answers %s with that code and leaves its state so" % (text, api))
        found.append((api, int(number), fault))
    return tuple(found)


def options(words):
    """The options, or Wrong with what is wrong."""
    words, command = list(words), []
    if "--" in words:
        place = words.index("--")
        words, command = words[:place], words[place + 1:]
    found = parser().parse_args(words)
    if found.command:
        raise Wrong("%s: the program and its arguments come after --" % " ".join(found.command))
    found.command = command
    look_at_command(command)
    found.inputs, found.outputs = [topic(it) for it in found.inputs], [topic(it) for it in found.outputs]
    look_at_output(found)
    look_at_topics(found)
    found.done = done(found.done) if found.done else ("group", 0) if found.inputs else ("exit", 0)
    found.only = [points(it) for it in found.only]
    found.faults = chosen(found)
    found.against = address(found.against)
    if found.jobs < 1 or found.records < 1:
        raise Wrong("--jobs and --records are at least 1")
    found.input_lines = input_lines(found)
    return found


def look_at_command(command):
    if not command:
        raise Wrong("no program: %s" % USAGE)
    if not any("{bootstrap}" in it for it in command):
        raise Wrong("no word of the program has {bootstrap}, the address of its broker")


def look_at_output(found):
    if not (found.outputs or found.out_stdout or found.out_file):
        raise Wrong("no output: --out NAME, --out-stdout or --out-file FILE")
    if found.out_file and "{dir}" not in found.out_file:
        raise Wrong("--out-file %s: runs are side by side, so each has a file in its own folder, {dir}/NAME" %
            found.out_file)


def look_at_topics(found):
    if len({it for it, _ in found.inputs + found.outputs}) < len(found.inputs + found.outputs):
        raise Wrong("a topic is named twice")
    if found.against is None and sum(it for _, it in found.inputs + found.outputs) > MOST_PARTITIONS:
        raise Wrong("the server has %d partitions in all" % MOST_PARTITIONS)


def address(text):
    """The host and port of --against."""
    if text is None:
        return None
    host, _, port = text.rpartition(":")
    if not host or not port.isdigit():
        raise Wrong("--against HOST:PORT")
    return host, int(port)


def chosen(found):
    """The faults that may be used, in the order of the table."""
    names = found.faults.split(",") if found.faults else [it.name for it in faults.ALL]
    for name in names:
        if name not in faults.BY_NAME:
            raise Wrong("no fault %s: %s" % (name, " ".join(sorted(faults.BY_NAME))))
    if found.against:
        names = [it for it in names if it not in faults.OF_SERVER]
    return [it for it in faults.ALL if it.name in names]


def input_lines(found):
    """The input that is asked for."""
    try:
        if found.input:
            return inputs.of_file(found.inputs, found.input)
        if found.input_from:
            return inputs.of_command(found.inputs, found.input_from)
        return inputs.made_up(found.inputs, found.records)
    except inputs.Unreadable as fault:
        raise Wrong(str(fault))
