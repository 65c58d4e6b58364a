"""The command line, the plan of runs, and the table."""
import io
import os
import tempfile
import unittest
from contextlib import redirect_stderr
from types import SimpleNamespace

import faults
import options
import plan
import table
import torture
import verdict
from run import Case
from watch import Point

PROGRAM = ["--", "program", "{bootstrap}"]
TOPICS = ["--in", "in", "--out", "out"]


class Words(unittest.TestCase):
    def test_right_ones(self):
        found = options.options(["--in", "in:3", "--out", "a", "--out", "b:1", "--done", "quiet", "5"] + PROGRAM)
        self.assertEqual(found.inputs, [("in", 3)])
        self.assertEqual(found.outputs, [("a", 2), ("b", 1)])
        self.assertEqual((found.done, found.command), (("quiet", 5), PROGRAM[1:]))
        self.assertEqual(options.options(["--out", "a"] + PROGRAM).done, ("exit", 0))

    def test_wrong_ones(self):
        for words in (TOPICS, TOPICS + ["--", "program"], ["--in", "in"] + PROGRAM, ["--in", "in:x"] + TOPICS + PROGRAM,
                ["--in", "in", "--out", "in"] + PROGRAM, ["--in", "in:9", "--out", "out:8"] + PROGRAM,
                TOPICS + ["--faults", "rain"] + PROGRAM, TOPICS + ["--only", "EndTxn:kill-after"] + PROGRAM,
                TOPICS + ["--only", "End#1:kill-after"] + PROGRAM, TOPICS + ["--only", "EndTxn#1:refuse-30"] + PROGRAM,
                TOPICS + ["--done", "soon"] + PROGRAM, TOPICS + ["program"] + PROGRAM):
            with self.subTest(words), self.assertRaises(options.Wrong):
                options.options(words)

    def test_status_2(self):
        with redirect_stderr(io.StringIO()) as said:
            self.assertEqual(torture.main(TOPICS), 2)
        self.assertIn("no program", said.getvalue())

    def test_input(self):
        found = options.options(TOPICS + ["--records", "5"] + PROGRAM)
        self.assertEqual(found.input_lines.records(0, 0), [(b"key-%d" % it, b"value-%d" % it) for it in (1, 3, 5)])
        self.assertEqual(found.input_lines.tail(0, 1), (b"tail-2", b"tail-2"))

    def test_input_of_a_file(self):
        """The last line of each partition is its tail, and aborted records have the form of the others."""
        with tempfile.TemporaryDirectory() as folder:
            name = os.path.join(folder, "bills")
            with open(name, "w", encoding="utf-8") as it:
                it.write("a\t1\nb\t2\n3\nc\t4\nd\t5\n")
            found = options.options(TOPICS + ["--input", name] + PROGRAM)
            self.assertEqual(found.input_lines.records(0, 0), [(b"a", b"1"), (None, b"3")])
            self.assertEqual(found.input_lines.records(0, 1), [(b"b", b"2")])
            self.assertEqual((found.input_lines.tail(0, 0), found.input_lines.tail(0, 1)), ((b"c", b"4"), (b"d", b"5")))
            self.assertEqual(found.input_lines.similar("aborted"), (b"a", b"1"))

    def test_bytes_that_are_no_text(self):
        with tempfile.TemporaryDirectory() as folder:
            name = os.path.join(folder, "bills")
            with open(name, "wb") as it:
                it.write(b"a\t\xff\nb\t2\nc\t3\n")
            found = options.options(TOPICS + ["--input", name] + PROGRAM)
            self.assertEqual(found.input_lines.records(0, 0), [(b"a", b"\xff")])

    def test_input_of_a_command(self):
        found = options.options(["--in", "in:1", "--out", "out", "--input-from", "seq 3"] + PROGRAM)
        self.assertEqual(found.input_lines.records(0, 0), [(None, b"1"), (None, b"2")])
        self.assertEqual(found.input_lines.tail(0, 0), (None, b"3"))
        for command in ("false", "seq 1"):
            with self.assertRaises(options.Wrong):
                options.options(["--in", "in:1", "--out", "out", "--input-from", command] + PROGRAM)

    def test_a_file_of_output_is_the_runs_own(self):
        with self.assertRaises(options.Wrong):
            options.options(["--in", "in", "--out-file", "paid.txt"] + PROGRAM)
        options.options(["--in", "in", "--out-file", "{dir}/paid.txt"] + PROGRAM)

    def test_no_option_is_cut_short(self):
        """Else the words that repeat a run would keep what they have to leave out."""
        with redirect_stderr(io.StringIO()), self.assertRaises(SystemExit):
            options.options(TOPICS + ["--job", "3"] + PROGRAM)

    def test_without_faults_of_the_server_elsewhere(self):
        found = options.options(TOPICS + ["--against", "127.0.0.1:9092"] + PROGRAM)
        self.assertEqual(found.against, ("127.0.0.1", 9092))
        self.assertFalse({it.name for it in found.faults} & set(faults.OF_SERVER))


class Plans(unittest.TestCase):
    def names(self, requests, *words):
        return [it.name for it in plan.plan(requests, options.options(TOPICS + list(words) + PROGRAM))]

    def test_first_second_and_last(self):
        self.assertEqual(self.names({"EndTxn": 5}, "--faults", "kill-after"),
            ["EndTxn#%d:kill-after" % it for it in (1, 2, 5)])
        self.assertEqual(self.names({"EndTxn": 1, "Heartbeat": 7, "Metadata": 2}, "--faults", "kill-after,cut-before"),
            ["EndTxn#1:kill-after", "EndTxn#1:cut-before"][::-1])
        self.assertEqual(len(self.names({"EndTxn": 5}, "--faults", "kill-after", "--all")), 5)

    def test_lookups_are_hit_only_where_all_are(self):
        requests = {"Metadata": 7, "Heartbeat": 1, "LeaveGroup": 1}
        self.assertEqual(self.names(requests), [])
        self.assertEqual(self.names(requests, "--faults", "kill-after,expel", "--all"), [
            "Heartbeat#1:kill-after", "LeaveGroup#1:kill-after", "Metadata#1:kill-after", "Metadata#2:kill-after"])

    def test_a_last_one_has_no_meaning_where_a_timer_asks(self):
        self.assertEqual(self.names({"Fetch": 40}, "--faults", "kill-after"), ["Fetch#1:kill-after", "Fetch#2:kill-after"])

    def test_drawn(self):
        requests = {"EndTxn": 5, "Produce": 9}
        drawn = self.names(requests, "--runs", "10", "--seed", "3")
        self.assertEqual(drawn, self.names(requests, "--runs", "10", "--seed", "3"))
        self.assertEqual(len(set(drawn)), 10)
        self.assertNotEqual(drawn, self.names(requests, "--runs", "10", "--seed", "4"))

    def test_pairs(self):
        drawn = self.names({"EndTxn": 5, "Produce": 9}, "--twice", "--runs", "20")
        self.assertEqual((len(drawn), {it.count(",") for it in drawn}), (20, {1}))

    def test_only(self):
        self.assertEqual(self.names({}, "--only", "EndTxn#2:kill-after", "--only", "Fetch#1:cut-after,EndTxn#1:expire"),
            ["EndTxn#2:kill-after", "Fetch#1:cut-after,EndTxn#1:expire"])

    def test_about_250_at_ten_records(self):
        """Of a worker with a transaction for each of ten records."""
        requests = {"InitProducerId": 1, "JoinGroup": 1, "SyncGroup": 1, "OffsetFetch": 1, "Fetch": 20,
            "AddPartitionsToTxn": 10, "AddOffsetsToTxn": 10, "TxnOffsetCommit": 10, "Produce": 10, "EndTxn": 10}
        self.assertTrue(200 <= len(self.names(requests)) <= 300, len(self.names(requests)))


def outcome(api, number, fault, sign):
    case = Case("%s#%d:%s" % (api, number, fault), (Point(api, number, fault),), True)
    return torture.Outcome(SimpleNamespace(case=case), verdict.Verdict(sign, "", [], []), "")


class Tables(unittest.TestCase):
    def test_a_sign_a_cell(self):
        found = table.text([outcome("EndTxn", 1, "kill-before", "."), outcome("EndTxn", 1, "kill-after", "X"),
            outcome("EndTxn", 1, "zombie", "?"), outcome("Produce", 1, "kill-after", "-"),
            outcome("Produce", 1, "retry-6", "."), outcome("Produce", 1, "refuse-10", ".")])
        self.assertEqual([it.rstrip() for it in found[:4]], [
            "           kill zombie refuse retry",
            "           b a  s      10     6",
            "Produce#1    -         .      .",
            "EndTxn#1   . X  ?"])

    def test_status(self):
        for signs, status in ((".-", 0), (".X?", 1), (".?", 4), ("-", 4), ("X!", 5), ("", 0)):
            self.assertEqual(torture.status([outcome("EndTxn", 1, "kill-after", it) for it in signs]), status)


if __name__ == "__main__":
    unittest.main()
