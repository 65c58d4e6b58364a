"""The page and the files for programs, of runs that a test makes up; stories of requests that were made."""
import io
import json
import os
import signal
import tempfile
import unittest
import xml.etree.ElementTree as xml
from contextlib import redirect_stdout
from html.parser import HTMLParser
from types import SimpleNamespace

import advice
import options
import records
import report
import story
import torture
import verdict
from run import Case
from scripted import Scene
from watch import Point

OPEN = {"meta", "br", "link"}


class Balanced(HTMLParser):
    """Fails if a tag is closed that isn't open."""

    def __init__(self, test):
        super().__init__()
        self.test, self.stack, self.links, self.ids = test, [], set(), set()

    def handle_starttag(self, tag, attrs):
        attrs = dict(attrs)
        self.links |= {attrs["href"][1:]} if attrs.get("href", "").startswith("#") else set()
        self.ids |= {attrs["id"]} if "id" in attrs else set()
        if tag not in OPEN:
            self.stack.append(tag)

    def handle_endtag(self, tag):
        self.test.assertEqual(self.stack.pop(), tag)


def result(name, seconds=3.0):
    api, _, rest = name.partition("#")
    number, _, fault = rest.partition(":")
    return SimpleNamespace(case=Case(name, (Point(api, int(number), fault),), True), events=[], seconds=seconds,
        words="", last_words=["<it> & \x01"], points={"EndTxn": 2}, facts=[], session=0, ends=[], late=[])


def outcomes():
    doubled = verdict.Verdict("X", "too often: a<b", [], [("out", None, b"a<b")])
    return [torture.Outcome(result("EndTxn#1:kill-after"), doubled, ""),
        torture.Outcome(result("EndTxn#2:kill-after"), verdict.Verdict(".", "", [], []), ""),
        torture.Outcome(result("EndTxn#2:zombie"), verdict.Verdict("?", "not done", [], []), ""),
        torture.Outcome(result("EndTxn#1:zombie"), verdict.Verdict("-", "the request didn't come", [], []), "")]


class Files(unittest.TestCase):
    def setUp(self):
        self.folder = tempfile.TemporaryDirectory()
        self.names = {it: os.path.join(self.folder.name, it) for it in ("html", "json", "junit")}
        files = [word for name, file in self.names.items() for word in ("--" + name, file)]
        self.words = ["--in", "in", "--out", "out"] + files + [
            "--jobs", "2", "--", "my program", "{bootstrap}"]
        self.report = report.Report(options.options(self.words), self.words, "server: some")
        self.report.live = False
        self.report.results, self.report.cases = [result("EndTxn#1:none")], [it.result.case for it in outcomes()]
        self.report.expected = [1, 2]
        self.report.advice = ["Mend <it>."]
        for it in outcomes():
            self.report.signs[it.verdict.sign] += 1
        with redirect_stdout(io.StringIO()):
            self.report.write(outcomes(), 1)

    def tearDown(self):
        self.folder.cleanup()

    def read(self, name):
        with open(self.names[name], encoding="utf-8") as it:
            return it.read()

    def test_estimate(self):
        """Two runs side by side, of five seconds each."""
        self.assertEqual([self.report.estimate(it, 5) for it in (0, 1, 2, 3)], ["0 s", "5 s", "5 s", "10 s"])

    def test_page(self):
        text = self.read("html")
        found = Balanced(self)
        found.feed(text)
        self.assertEqual(found.stack, [])
        # each difference has its story
        self.assertEqual(found.links, {"EndTxn-1-kill-after", "EndTxn-2-zombie"})
        self.assertTrue(found.links <= found.ids)
        self.assertIn("Mend &lt;it&gt;.", text)
        self.assertIn("prefers-color-scheme: dark", text)
        self.assertNotIn("http", text)

    def test_json(self):
        found = json.loads(self.read("json"))
        self.assertEqual((found["status"], found["counts"]["differs"]), (1, 1))
        self.assertEqual([it["verdict"] for it in found["runs"]],
            ["differs", "same", "not finished or blocked", "not reached"])

    def test_junit(self):
        suite = xml.parse(self.names["junit"]).getroot()
        self.assertEqual([suite.get(it) for it in ("tests", "failures", "errors", "skipped")], ["4", "1", "1", "1"])
        self.assertEqual([[it.tag for it in case] for case in suite], [["failure"], [], ["error"], ["skipped"]])

    def test_words_that_repeat_a_run(self):
        self.assertEqual(self.report.again(outcomes()[0]),
            "./kx torture --in in --out out --only 'EndTxn#1:kill-after' --keep "
            "--html EndTxn-1-kill-after.html -- 'my program' {bootstrap}")

    def test_options_of_many_runs_are_left_out(self):
        words = ["--all", "--in", "bills", "--jobs=3", "--seed", "4", "--done", "quiet", "5", "--keep"]
        self.assertEqual(report.kept(words), ["--in", "bills", "--done", "quiet", "5"])

    def test_words_for_a_shell(self):
        for word in ("{bootstrap}", "--file={dir}/a"):
            self.assertEqual(report.quoted(word), word)
        for word in ("a b{slot}", "{slot};x", "{a,b}", "{}"):
            self.assertEqual(report.quoted(word), "'%s'" % word)


class Stories(unittest.TestCase):
    def test_of_a_record_that_is_there_twice(self):
        batch = records.write([(None, b"rent")])
        produce = dict(txn=None, acks=-1, timeout=1, topics=[{"name": "out", "parts": [{"index": 0, "records": batch}]}])
        fetch = dict(replica=-1, wait=1, min=1, max=1, topics=[{"name": "in", "parts": [{"index": 0, "offset": 4}]}])
        with Scene("Produce#1:cut-after") as scene:
            self.assertIsNone(scene.client().ask("Produce", **produce))
            other = scene.run.begin(1)
            scene.wait(lambda: other.process)
            client = scene.client(other)
            client.ask("Fetch", **fetch)
            client.ask("Produce", **produce)
            found = story.short(SimpleNamespace(events=scene.run.events, words="", late=[]),
                verdict.Verdict("X", "", [], [("out-0", None, b"rent")]))
        self.assertEqual(found, [
            "Produce#1 of start 1 was answered 0", "the connection was closed", "start 2 read in-0 from offset 4",
            "\"rent\" was written by Produce#1 of start 1 and by Produce#1 of start 2"])


    COMMIT = dict(group="g", generation=3, member="m", topics=[{"name": "in", "parts": [{"index": 0, "offset": 1}]}])

    def told(self, scene):
        return story.short(SimpleNamespace(events=scene.run.events, words="", late=[]), verdict.Verdict("X", "", [], []))

    def test_the_answer_comes_after_what_was_done_before_it(self):
        """The member leaves, and only then is the request passed on."""
        with Scene("OffsetCommit#1:expel") as scene:
            scene.server.answers["OffsetCommit"] = {"topics": [{"name": "in", "parts": [{"index": 0, "error": 25}]}]}
            client = scene.client()
            client.ask("OffsetCommit", **self.COMMIT)
            client.ask("OffsetCommit", **self.COMMIT)
            self.assertEqual(self.told(scene), ["OffsetCommit#1 of start 1: the program's member had left before",
                "OffsetCommit#1 was answered 25 (unknown member id)",
                "OffsetCommit#2 of start 1 was answered 25 (unknown member id)"])

    def test_a_made_up_refusal_is_told_once(self):
        with Scene("OffsetCommit#1:retry-14") as scene:
            client = scene.client()
            for _ in range(4):
                client.ask("OffsetCommit", **self.COMMIT)
            self.assertEqual(self.told(scene), ["OffsetCommit#1 of start 1: it was refused 3 times with "
                "14 (coordinator load in progress), which asks to try again"])

    def test_a_start_that_ended_by_itself(self):
        with Scene() as scene:
            os.killpg(scene.start.process.pid, signal.SIGTERM)
            scene.wait(lambda: scene.start.status is not None and self.told(scene) != [""])
            self.assertEqual(self.told(scene), ["start 1 ended with status -15"])

    def test_all_requests_in_order(self):
        """What the program was never told is said with the fault."""
        with Scene("EndTxn#1:cut-after") as scene:
            scene.client().ask("EndTxn", txn="t", pid=7, epoch=0, commit=True)
            scene.client().ask("OffsetCommit", **self.COMMIT)
            found = [(who, what) for _, who, what in story.long(SimpleNamespace(events=scene.run.events))]
            self.assertEqual(found, [("start 1", "EndTxn#1 was answered 0: commit, and the connection was closed"),
                ("start 1", "OffsetCommit#1 was answered 0: in-0 at 1")])


def facts(*requests):
    return SimpleNamespace(facts=[(None, SimpleNamespace(name=name, fields=fields)) for name, fields in requests])


class Advice(unittest.TestCase):
    INIT = ("InitProducerId", {"txn": "t"})

    def told(self, *runs):
        return " ".join(advice.advice([facts(*it) for it in runs]))

    def test_what_requests_give_away(self):
        commit = ("OffsetCommit", {"group": "g"})
        produce = ("Produce", {"txn": "t", "acks": -1})
        self.assertIn("outside the transaction", self.told([self.INIT, produce, commit]))
        plain = ("Produce", {"txn": None, "acks": -1})
        self.assertIn("idempotent only", self.told([("InitProducerId", {"txn": None}), plain, commit]))
        self.assertIn("without a transaction", self.told([("Produce", {"txn": None, "acks": -1}), commit]))
        self.assertIn("new transactional id", self.told([self.INIT], [("InitProducerId", {"txn": "u"})]))
        self.assertIn("uncommitted", self.told([("Fetch", {"isolation": 0})]))
        self.assertIn("group's metadata", self.told([self.INIT, ("JoinGroup", {}), ("TxnOffsetCommit", {"member": ""})]))
        self.assertIn("Begin the transaction", self.told([self.INIT, ("Produce", {"txn": None, "acks": -1})]))
        self.assertIn("before the first output", self.told([self.INIT, commit, produce]))

    def test_a_right_program_is_told_nothing(self):
        self.assertEqual(self.told([self.INIT, ("JoinGroup", {}), ("Fetch", {"isolation": 1}),
            ("Produce", {"txn": "t", "acks": -1}), ("TxnOffsetCommit", {"member": "m"}), ("EndTxn", {})]), "")


if __name__ == "__main__":
    unittest.main()
