"""Whether an output is what the program promised, and what is lost and doubled."""
import collections
import os

import processes

Verdict = collections.namedtuple("Verdict", "sign words lost doubled")
SAME, DIFFERS, UNFINISHED, MISSED, OURS = ".", "X", "?", "-", "!"


def text(value):
    return "" if value is None else value.decode("utf-8", "backslashreplace")


def counted(output, options):
    """How often each item of an output is there. Items are topic, key and value, or topic and key alone."""
    if options.by_key:
        return collections.Counter((topic(place), key) for place, key, _ in output)
    return collections.Counter((topic(place), key, value) for place, key, value in output)


def topic(place):
    """The topic of a partition's name, such as paid-0."""
    return place.rpartition("-")[0]


def in_order(output, options):
    """The values of each key in order, or of each partition for records without a key."""
    found = collections.defaultdict(list)
    for place, key, value in output:
        found[(topic(place), key) if key is not None else (place, key)].append(None if options.by_key else value)
    return found


def compare(expected, output, options, folder):
    """Compares an output with that of the first undisturbed run."""
    if options.check:
        agreed, words = check(options.check, expected, output, folder)
        lost, doubled = difference(expected, output, options)
        return Verdict(SAME, "", [], []) if agreed else Verdict(DIFFERS, words, lost, doubled)
    lost, doubled = difference(expected, output, options)
    if options.promise == "at-least":
        differs = bool(lost)
    elif options.promise == "at-most":
        differs = bool(doubled)
    else:
        differs = bool(lost or doubled)
    if differs:
        return Verdict(DIFFERS, sentence(lost, doubled), lost, doubled)
    if options.ordered and options.promise == "exactly" and in_order(expected, options) != in_order(output, options):
        return Verdict(DIFFERS, "the order of a key's records differs", [], [])
    return Verdict(SAME, "", [], [])


def difference(expected, output, options):
    """The items that are lost, and those that are there too often."""
    wanted, found = counted(expected, options), counted(output, options)
    return sorted((wanted - found).elements(), key=repr), sorted((found - wanted).elements(), key=repr)


def sentence(lost, doubled):
    words = []
    if lost:
        words.append("lost: " + some(lost))
    if doubled:
        words.append("too often: " + some(doubled))
    return "; ".join(words)


def some(items, most=5):
    """The first values of some items, or their keys."""
    words = ", ".join(text(it[-1]) or text(it[1]) for it in items[:most])
    return words + (" and %d more" % (len(items) - most) if len(items) > most else "")


def lines(output):
    """An output as lines of a file: topic, key and value, with tabs between. A tab in them is \\t, a new line \\n."""
    def plain(value):
        return text(value).replace("\\", "\\\\").replace("\t", "\\t").replace("\n", "\\n")
    return "".join("%s\t%s\t%s\n" % (topic(place), plain(key), plain(value)) for place, key, value in output)


def check(command, expected, output, folder):
    """Runs the user's own comparison, COMMAND EXPECTED FOUND; whether it agrees, and its last line."""
    names = []
    for name, content in (("expected.txt", expected), ("found.txt", output)):
        names.append(os.path.join(folder, name))
        with open(names[-1], "w", encoding="utf-8") as it:
            it.write(lines(content))
    status, said = processes.run(["sh", "-c", command + ' "$@"', "check"] + names)
    last = said.strip().split("\n")[-1]
    return status == 0, last or "the check ended with status %d" % status


def judge(result, expected, options, folder):
    """The verdict on a run. The audit comes first, since a broken server proves nothing about the program."""
    if not result.audit[0]:
        return Verdict(OURS, "the server's audit said: " + result.audit[1], [], [])
    if result.state == "failed":
        return Verdict(OURS, result.words, [], [])
    if result.output is not None and result.state != "blocked":
        found = compare(expected, result.output, options, folder)
        # a lost record may still come while a run isn't finished, but a doubled one stays
        stays = found.doubled and options.promise != "at-least" and not options.check
        if found.sign == DIFFERS and (result.state == "ended" or stays):
            return found
    if result.state != "ended":
        return Verdict(UNFINISHED, result.words, [], [])
    if len(result.case.points) > result.fired:
        return Verdict(MISSED, "the request didn't come", [], [])
    return Verdict(SAME, "", [], [])
