"""All runs of one program: the undisturbed ones, then a run for each case; status 0 to 5."""
import collections
import concurrent.futures
import os
import shutil
import signal
import sys
import tempfile
import threading
import time

import options as command_line
import plan
import processes
import report
import server
import story
import verdict
from run import Run, undisturbed

SAME, DIFFER, WORDS, UNDISTURBED, UNFINISHED, AUDIT = range(6)
BY_HAND = 130
PATIENCE = 60

Outcome = collections.namedtuple("Outcome", "result verdict folder")


class Ended(Exception):
    """No more runs can be made: has the exit status, and words that say why."""

    def __init__(self, status, words):
        super().__init__(words)
        self.status = status


class Torture:
    """All runs, several at a time, and what the undisturbed ones have shown."""

    def __init__(self, options, report):
        self.options, self.report = options, report
        self.top = tempfile.mkdtemp(prefix="kx-torture-", dir=options.dir)
        self.lock, self.number, self.name = threading.Lock(), 0, os.urandom(2).hex()
        self.patience, self.groups, self.expected = PATIENCE, (), None

    def run(self, case):
        if processes.closed:
            raise OSError("the harness is ending")
        with self.lock:
            self.number += 1
            folder = os.path.join(self.top, "run-%03d" % self.number)
            prefix = "torture-%s-%d-" % (self.name, self.number) if self.options.against else ""
        return Run(self.options, case, folder, self.patience, self.groups, prefix).go(), folder

    def prepare(self, pool):
        """Makes the undisturbed runs, which have to agree. The first has the output that is expected of all others."""
        cases = [undisturbed("plain", False), undisturbed("plain again", False),
            undisturbed("with aborted input", True)]
        if not self.options.inputs:
            cases = cases[:2]
        results = [it.result() for it in [pool.submit(self.run, case) for case in cases]]
        for result, folder in results:
            if not result.audit[0]:
                raise Ended(AUDIT, "the server's audit said: %s (%s)" % (result.audit[1], folder))
            if result.state == "failed":
                raise Ended(AUDIT, "a fault of the server: %s" % result.words)
            if result.state != "ended":
                raise Ended(UNDISTURBED, self.failed(result))
        first = results[0][0]
        self.expected = first.output
        if not first.output:
            raise Ended(UNDISTURBED, "the undisturbed program wrote no output")
        for (result, folder), words in zip(results[1:], (
                "two undisturbed runs differ (%s), so the output isn't a function of the input: compare it --by-key, "
                "or by a --check of your own",
                "the program reads uncommitted records: with aborted transactions in its input its output differs (%s). "
                "Set isolation.level to read_committed")):
            found = verdict.compare(self.expected, result.output, self.options, folder)
            if found.sign != verdict.SAME:
                raise Ended(UNDISTURBED, words % found.words)
        last = results[-1][0]
        self.groups = tuple(self.options.group and [self.options.group] or
            [it for it in last.groups if it in first.groups] or last.groups)
        for _, folder in results:
            shutil.rmtree(folder, ignore_errors=True)
        self.patience = max(PATIENCE, 3 * max(it.seconds for it, _ in results) + max(it.session for it, _ in results))
        return results

    def failed(self, result):
        words = "the undisturbed run (%s) isn't finished: %s" % (result.case.name, result.words)
        if self.options.done[0] == "group" and not result.groups:
            words += "; no group committed offsets of the input: name it with --group, or say --done"
        if result.last_words:
            words += "\nthe program's last words:\n  " + "\n  ".join(result.last_words)
        return words

    def go(self):
        pool = concurrent.futures.ThreadPoolExecutor(self.options.jobs)
        try:
            return self.all_runs(pool)
        except BaseException:
            processes.end_all()
            pool.shutdown(wait=False)
            raise

    def all_runs(self, pool):
        self.report.prepare()
        results = self.prepare(pool)
        first = results[-1][0]
        cases = plan.plan(first.points, self.options)
        self.report.begin([it for it, _ in results], cases, self.expected)
        futures = [pool.submit(self.one, case) for case in cases]
        outcomes = []
        try:
            for it in concurrent.futures.as_completed(futures):
                outcomes.append(it.result())
                self.report.ran(outcomes[-1])
        finally:
            for it in futures:
                it.cancel()
        outcomes.sort(key=lambda it: cases.index(it.result.case))
        return results, outcomes

    def one(self, case):
        result, folder = self.run(case)
        found = verdict.judge(result, self.expected, self.options, folder)
        dull = found.sign in (verdict.SAME, verdict.MISSED)
        if dull:
            # nobody reads its story, and there may be thousands of such runs
            result = result._replace(events=[], facts=[], output=None)
        if dull or not self.options.keep:
            shutil.rmtree(folder, ignore_errors=True)
        else:
            self.keep(result, folder)
        return Outcome(result, found, folder)

    def keep(self, result, folder):
        """Writes the run's story and the page of what the server did into its folder."""
        with open(os.path.join(folder, "story.txt"), "w", encoding="utf-8", errors="replace") as it:
            it.write("".join("%7.2f %-20s %s\n" % line for line in story.long(result)))
        if self.options.program:
            processes.run(self.options.program + ["audit", os.path.join(folder, "traces"), "--dir",
                os.path.join(folder, "logs"), "--page", os.path.join(folder, "page.html")])

    def end(self):
        """Removes the folders of all runs, unless some are kept."""
        if self.options.keep and os.listdir(self.top):
            return
        for _ in range(50):
            shutil.rmtree(self.top, ignore_errors=True)
            if not os.path.exists(self.top):
                return
            # threads of abandoned runs may still write there, until they see that their processes have ended
            time.sleep(0.1)


def status(outcomes):
    signs = {it.verdict.sign for it in outcomes}
    if verdict.OURS in signs:
        return AUDIT
    if verdict.DIFFERS in signs:
        return DIFFER
    # a fault that was never reached has shown nothing
    return UNFINISHED if verdict.UNFINISHED in signs or signs == {verdict.MISSED} else SAME


def main(words):
    try:
        options = command_line.options(words)
        options.program, name = server.choose(options)
    except (command_line.Wrong, server.Missing) as wrong:
        print("torture: %s" % wrong, file=sys.stderr)
        return WORDS
    signal.signal(signal.SIGINT, stop)
    signal.signal(signal.SIGTERM, stop)
    reports = report.Report(options, words, name)
    it = Torture(options, reports)
    try:
        results, outcomes = it.go()
        reports.end(outcomes, status(outcomes))
        return status(outcomes)
    except Ended as ended:
        print("torture: %s" % ended, file=sys.stderr)
        return ended.status
    except KeyboardInterrupt:
        print("\ntorture: ended by hand", file=sys.stderr)
        return BY_HAND
    finally:
        processes.end_all()
        it.end()


def stop(*_):
    """Ends everything on SIGINT, which a shell ignores for commands in the background, and on SIGTERM."""
    raise KeyboardInterrupt
