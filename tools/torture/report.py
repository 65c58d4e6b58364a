"""What is reported: on the terminal while runs are made, and in files at the end."""
import collections
import json
import math
import shlex
import sys
import time
from xml.sax.saxutils import escape, quoteattr

import advice
import faults
import page
import plan
import story
import table
import verdict

MOST_STORIES = 3
# Options with a value that choose runs, or name what is written of all of them: a repeated run doesn't have them.
OF_MANY_RUNS = ("--only", "--faults", "--runs", "--seed", "--jobs", "--html", "--json", "--junit", "--top")
# How much longer a run with a fault takes than an undisturbed one, in seconds: a guess for the first estimate.
FAULT_SECONDS = 2


class Report:
    """Progress, the table, and the files."""

    def __init__(self, options, words, server):
        self.options, self.words, self.server = options, words, server
        self.results, self.cases, self.signs, self.begun = [], [], collections.Counter(), time.monotonic()
        self.live = sys.stdout.isatty()
        self.advice, self.expected = [], []
        # of all runs that have ended, together
        self.seconds = 0

    def prepare(self):
        print(self.server, flush=True)
        if self.live:
            self.line("undisturbed runs first", False)

    def begin(self, results, cases, expected):
        """The undisturbed runs have ended, and agree on the expected output."""
        self.results, self.cases, self.expected = results, cases, expected
        self.advice = advice.advice(results)
        seconds = sum(it.seconds for it in results) / len(results)
        if self.live:
            self.line("", False)
        print("undisturbed: %d runs of %.0f s agree on %d records of output" % (len(results), seconds, len(expected)))
        requests = sorted(results[-1].points.items(), key=lambda it: plan.order(it[0]))
        hit = faults.LOSABLE if self.options.all else faults.ANY
        print("requests: " + " ".join("%s %d" % it for it in requests if it[0] in hit))
        print("runs: %d, about %s with at most %d side by side" % (
            len(cases), self.estimate(len(cases), seconds + FAULT_SECONDS), self.options.jobs), flush=True)
        self.begun = time.monotonic()

    def estimate(self, count, seconds):
        """How long so many runs take, if each takes so many seconds."""
        return minutes(math.ceil(count / self.options.jobs) * seconds)

    def ran(self, it):
        """A run has ended."""
        self.signs[it.verdict.sign] += 1
        ran = sum(self.signs.values())
        if it.verdict.sign in (verdict.DIFFERS, verdict.UNFINISHED, verdict.OURS):
            self.line("%s %s: %s" % (it.verdict.sign, it.result.case.name, it.verdict.words), True)
        self.seconds += it.result.seconds
        words = "%d of %d · %s · about %s left" % (
            ran, len(self.cases), self.counts(), self.estimate(len(self.cases) - ran, self.seconds / ran))
        if self.live:
            self.line(words, False)
        elif ran % 50 == 0 and ran < len(self.cases):
            print(words, flush=True)

    def line(self, words, stays):
        """Writes a line that stays, or one that the next line replaces on a terminal."""
        if self.live:
            sys.stdout.write("\r\x1b[K" + words + ("\n" if stays else ""))
        else:
            sys.stdout.write(words + "\n")
        sys.stdout.flush()

    def counts(self):
        return ", ".join("%d %s" % (self.signs[it], words) for it, words in table.SIGNS.items()
            if self.signs[it]) or "none yet"

    def end(self, outcomes, status):
        """All runs have ended."""
        if self.live:
            self.line("", False)
        if len(outcomes) > 1 and not any(len(it.result.case.points) > 1 for it in outcomes):
            print("\n".join([""] + table.text(outcomes)))
        differing = [it for it in outcomes if it.verdict.sign in (verdict.DIFFERS, verdict.OURS)]
        # a killed program is the plainest story
        for it in sorted(differing, key=lambda it: not it.result.case.points[-1].fault.startswith("kill"))[:MOST_STORIES]:
            self.story(it)
        if len(differing) > MOST_STORIES:
            print("\n%d more on the page" % (len(differing) - MOST_STORIES))
        if differing:
            for it in self.advice:
                print("\nadvice: " + it)
        print("\n%s in %s: %s" % (many(len(outcomes)), minutes(time.monotonic() - self.begun), self.counts()))
        ended = sum(bool(it.result.ends) for it in outcomes)
        if ended:
            print("in %s a start ended by itself, and the program was started again" % many(ended))
        self.write(outcomes, status)

    def story(self, it):
        print("\n%s: %s" % (it.result.case.name, it.verdict.words))
        print("  " + " · ".join(story.short(it.result, it.verdict)))
        if it.result.last_words:
            print("  last words: " + it.result.last_words[-1][:200])
        print("  again: " + self.again(it))
        if self.options.keep:
            print("  kept: " + it.folder)

    def command(self):
        """The command that was given."""
        return " ".join(quoted(it) for it in ["./kx", "torture"] + self.words)

    def again(self, it):
        """The command that repeats one run, and keeps its folder and page."""
        words = ["./kx", "torture"] + kept(self.words[:self.words.index("--")])
        words += ["--only", it.result.case.name, "--keep", "--html", page.anchor(it) + ".html", "--"]
        return " ".join(quoted(it) for it in words + self.options.command)

    def write(self, outcomes, status):
        """Writes the page, and the files for programs."""
        if self.options.html:
            put(self.options.html, page.page(self, outcomes))
            print("page: %s" % self.options.html)
        if self.options.json:
            put(self.options.json, json.dumps(self.as_json(outcomes, status), indent=1) + "\n")
        if self.options.junit:
            put(self.options.junit, junit(self, outcomes))

    def as_json(self, outcomes, status):
        first = self.results[-1]
        return {"status": status, "server": self.server, "command": self.options.command,
            "promise": self.options.promise, "requests": first.points, "advice": self.advice,
            "counts": {table.SIGNS[it]: self.signs[it] for it in table.SIGNS},
            "runs": [self.run_as_json(it) for it in outcomes]}

    def run_as_json(self, it):
        result, found = it.result, it.verdict
        return {"name": result.case.name, "verdict": table.SIGNS[found.sign], "words": found.words,
            "seconds": round(result.seconds, 1), "lost": [verdict.text(lost[-1]) for lost in found.lost],
            "doubled": [verdict.text(more[-1]) for more in found.doubled],
            "ends": [{"start": who, "status": code, "last_words": " ".join(words)} for who, code, words in result.ends],
            "story": [] if found.sign == verdict.SAME else story.short(result, found), "again": self.again(it)}


def kept(words):
    """The options that a repeated run has too."""
    found, skip = [], False
    for word in words:
        name, equals, _ = word.partition("=")
        if skip:
            skip = False
        elif name in OF_MANY_RUNS:
            skip = not equals
        elif word not in ("--keep", "--all", "--twice"):
            found.append(word)
    return found


def many(count):
    return "1 run" if count == 1 else "%d runs" % count


def quoted(word):
    """A word for a shell, which leaves a name in braces as it is."""
    plain = word.replace("{", "").replace("}", "")
    return word if plain and shlex.quote(plain) == plain and "," not in word else shlex.quote(word)


def put(name, content):
    with open(name, "w", encoding="utf-8", errors="replace") as it:
        it.write(content)


def minutes(seconds):
    return "%d s" % seconds if seconds < 100 else "%d min" % round(seconds / 60)


def junit(report, outcomes):
    """JUnit's XML: a difference is a failure, and a run that isn't finished an error."""
    counts = report.signs
    return ("<?xml version=\"1.0\" encoding=\"UTF-8\"?>\n<testsuite name=\"torture\" tests=\"%d\" failures=\"%d\" "
        "errors=\"%d\" skipped=\"%d\">\n%s\n</testsuite>\n" % (len(outcomes), counts[verdict.DIFFERS],
            counts[verdict.UNFINISHED] + counts[verdict.OURS], counts[verdict.MISSED],
            "\n".join(testcase(report, it) for it in outcomes)))


def testcase(report, it):
    words, inner = quoteattr(clean(it.verdict.words)), ""
    if it.verdict.sign == verdict.DIFFERS:
        inner = "<failure message=%s>%s</failure>" % (words, escape(clean("\n".join(
            story.short(it.result, it.verdict) + [report.again(it)]))))
    elif it.verdict.sign in (verdict.UNFINISHED, verdict.OURS):
        inner = "<error message=%s/>" % words
    elif it.verdict.sign == verdict.MISSED:
        inner = "<skipped message=%s/>" % words
    return "<testcase classname=\"torture\" name=%s time=\"%.1f\">%s</testcase>" % (
        quoteattr(it.result.case.name), it.result.seconds, inner)


def clean(words):
    """Without characters that XML doesn't allow."""
    return "".join(it if it in "\t\n" or " " <= it < "\ud800" else "?" for it in words)
