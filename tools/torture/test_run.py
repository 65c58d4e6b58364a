"""A run from its input to its output, and what the undisturbed runs have to be, against a scripted server."""
import tempfile
import unittest
from types import SimpleNamespace
from unittest import mock

import options
import records
import run
import torture
from scripted import Scene


def offsets(stable, end):
    """An answer to ListOffsets: the last stable offset for readers of committed records, or the end."""
    return lambda asked: {"topics": [{"name": topic["name"], "parts": [
        {"index": part["index"], "offset": stable if asked["isolation"] else end} for part in topic["parts"]]}
        for topic in asked["topics"]]}


def fetched(offset, error=0):
    return lambda asked: {"topics": [{"name": topic["name"], "parts": [
        {"index": part, "offset": offset, "error": error} for part in topic["parts"]]} for topic in asked["topics"]]}


class Inputs(unittest.TestCase):
    def test_plain(self):
        with Scene() as scene:
            scene.run.fill()
            self.assertEqual([it for it in scene.server.names() if it != "Metadata"],
                ["InitProducerId", "Produce", "Produce"])

    def test_a_record_is_written_once(self):
        """If its answer is lost, it is sent again with the same id and sequence."""
        with Scene() as scene:
            answers = iter([{"topics": [{"name": "in", "parts": [{"index": 0, "error": 7}]}]}] * 2)
            scene.server.answers["Produce"] = lambda asked: next(answers, {"topics": [
                {"name": "in", "parts": [{"index": 0, "base": 4}]}]})
            self.assertEqual(scene.run.client.write("in", 0, (b"k", b"v")), 4)
            scene.run.client.write("in", 0, (b"k", b"v"))
            sent = [records.read(it.fields["topics"][0]["parts"][0]["records"])[0]
                for it in scene.server.asked if it.name == "Produce"]
            self.assertEqual([(it.pid, it.epoch, it.sequence) for it in sent], [(7, 0, 0)] * 3 + [(7, 0, 1)])

    def test_between_aborted_transactions(self):
        """Before, between and after the records of each partition."""
        with Scene() as scene:
            scene.run.case = run.undisturbed("aborted", True)
            scene.run.fill()
            names = [it for it in scene.server.names() if it != "Metadata"]
            discarded = ["InitProducerId", "AddPartitionsToTxn", "Produce", "EndTxn"]
            self.assertEqual(names, discarded + ["InitProducerId", "Produce"] + discarded * 3 + ["Produce"] + discarded * 2)
            self.assertEqual({it.fields["commit"] for it in scene.server.asked if it.name == "EndTxn"}, {False})


class Done(unittest.TestCase):
    def test_by_the_stable_committed_offset(self):
        with Scene() as scene:
            scene.run.last, scene.run.groups["g"] = {("in", 0): 4, ("in", 1): 2}, 1
            for found, wanted in ((fetched(4), False), (fetched(5), True), (fetched(5, 88), False), (fetched(-1), False)):
                scene.server.answers["OffsetFetch"] = found
                self.assertEqual(scene.run.is_done(), wanted)
            self.assertEqual(set(scene.server.names()), {"OffsetFetch"})
            self.assertEqual({it.fields["stable"] for it in scene.server.asked if it.name == "OffsetFetch"}, {True})

    def test_a_group_that_only_read_commits_nothing(self):
        with Scene() as scene:
            scene.run.last, scene.run.groups["g"] = {("in", 0): 4}, 0
            scene.server.answers["OffsetFetch"] = fetched(5)
            self.assertFalse(scene.run.is_done())


class Settling(unittest.TestCase):
    def test_what_is_open_is_aborted(self):
        """As a next start would: an id is asked for in the name of each transactional id that was seen."""
        with Scene() as scene:
            client = scene.client()
            client.ask("InitProducerId", txn="t", timeout=5000, pid=-1, epoch=-1)
            client.ask("InitProducerId", txn=None, timeout=1, pid=-1, epoch=-1)
            client.ask("EndTxn", txn="u", pid=1, epoch=0, commit=True)
            scene.server.answers["ListOffsets"] = offsets(7, 7)
            self.assertIsNone(scene.run.settle())
            asked = [(it.fields["txn"], it.fields["timeout"]) for it in scene.server.asked if it.name == "InitProducerId"]
            self.assertEqual(asked[2:], [("t", 5000), ("u", 60000)])

    def test_blocked(self):
        """If the last stable offset doesn't reach the end, the transactional ids are named."""
        kept, run.STABLE = run.STABLE, 0.2
        try:
            with Scene() as scene:
                scene.client().ask("EndTxn", txn="u", pid=1, epoch=0, commit=True)
                scene.server.answers["ListOffsets"] = offsets(3, 7)
                self.assertEqual(scene.run.settle(), ["u"])
        finally:
            run.STABLE = kept


class Outputs(unittest.TestCase):
    def test_committed_records_alone(self):
        def fetch(asked):
            first = asked["topics"][0]["parts"][0]
            batch = bytearray(records.write([(b"k", b"%d" % first["index"])], 9, 0, 0, True))
            return {"topics": [{"name": asked["topics"][0]["name"], "parts": [
                {"index": first["index"], "stable": 1, "high": 1, "records": bytes(batch),
                    "aborted": [{"pid": 9, "first": 0}] if first["index"] else []}]}]}
        with Scene() as scene:
            scene.server.answers.update(ListOffsets=offsets(1, 1), Fetch=fetch)
            self.assertEqual(scene.run.output(), [("out-0", b"k", b"0")])


class LastWords(unittest.TestCase):
    def test_of_a_start_that_ended_by_itself(self):
        """Later starts may have logged something too, which explains nothing."""
        with Scene() as scene:
            first, second = scene.start, scene.run.begin(2)
            for it, words in ((first, "a\nb\n\nc\nd\n"), (second, "a log line\n")):
                with open(it.files[1], "w", encoding="ascii") as file:
                    file.write(words)
            self.assertEqual(scene.run.last_words(), ["a log line"])
            first.gave_up = True
            self.assertEqual(scene.run.last_words(), ["b", "c", "d"])


class Undisturbed(unittest.TestCase):
    """What three undisturbed runs have to be."""

    WORDS = ["--in", "in", "--out", "out", "--", "program", "{bootstrap}"]

    def prepared(self, *outputs, state="ended", audit=(True, "audit yes")):
        given = options.options(self.WORDS)
        it = torture.Torture(given, None)
        results = iter([SimpleNamespace(case=run.undisturbed("plain", False), output=output, state=state, words="late",
            audit=audit, groups=["g"], last_words=["boom"], seconds=40, session=45) for output in outputs])
        it.run = lambda case: (next(results), it.top)
        pool = SimpleNamespace(submit=lambda what, case: SimpleNamespace(result=lambda: what(case)))
        try:
            it.prepare(pool)
        finally:
            it.end()
        return it

    ONE, TWO = [("out-0", None, b"a")], [("out-0", None, b"b")]

    def test_they_agree(self):
        it = self.prepared(self.ONE, self.ONE, self.ONE)
        self.assertEqual((it.expected, it.groups), (self.ONE, ("g",)))
        # three undisturbed runs and the longest session
        self.assertEqual(it.patience, 3 * 40 + 45)

    def ended(self, *outputs, **more):
        with self.assertRaises(torture.Ended) as found:
            self.prepared(*outputs, **more)
        return found.exception.status, str(found.exception)

    def test_they_differ(self):
        status, words = self.ended(self.ONE, self.TWO, self.ONE)
        self.assertEqual(status, 3)
        self.assertIn("--by-key", words)

    def test_uncommitted_records(self):
        status, words = self.ended(self.ONE, self.ONE, self.ONE + self.TWO)
        self.assertEqual(status, 3)
        self.assertIn("reads uncommitted records", words)

    def test_unfinished(self):
        status, words = self.ended(self.ONE, self.ONE, self.ONE, state="unfinished")
        self.assertEqual(status, 3)
        self.assertIn("boom", words)

    def test_a_server_that_failed(self):
        self.assertEqual(self.ended(self.ONE, self.ONE, self.ONE, state="failed")[0], 5)

    def test_a_broker_that_is_not_there(self):
        """That of --against isn't ours, so the run has only failed."""
        given = options.options(["--against", "127.0.0.1:9"] + self.WORDS)
        with tempfile.TemporaryDirectory() as folder, mock.patch.object(run.Run, "fill", side_effect=OSError("refused")):
            found = run.Run(given, run.undisturbed("plain", False), folder, 60).go()
        self.assertEqual((found.state, found.words), ("unfinished", "refused"))

    def test_nothing_written(self):
        self.assertEqual(self.ended([], [], [])[0], 3)

    def test_audit(self):
        self.assertEqual(self.ended(self.ONE, self.ONE, self.ONE, audit=(False, "audit no 1"))[0], 5)


if __name__ == "__main__":
    unittest.main()
