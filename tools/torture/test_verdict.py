"""Verdicts: what is lost and doubled, by each promise and each way of comparing."""
import collections
import os
import sys
import tempfile
import unittest

import options
import run
import verdict
import watch

WANTED = [("out-0", b"k1", b"a"), ("out-0", b"k1", b"b"), ("out-1", b"k2", b"c")]


def given(*words):
    return options.options(list(words) + ["--in", "in", "--out", "out", "--", "program", "{bootstrap}"])


def sign(output, *words):
    with tempfile.TemporaryDirectory() as folder:
        return verdict.compare(WANTED, output, given(*words), folder).sign


class Comparing(unittest.TestCase):
    def test_a_multiset(self):
        self.assertEqual(sign(list(reversed(WANTED))), ".")
        self.assertEqual(sign([("out-1", key, value) for _, key, value in WANTED]), ".")
        self.assertEqual(sign(WANTED[1:]), "X")
        self.assertEqual(sign(WANTED + WANTED[:1]), "X")
        self.assertEqual(sign(WANTED[:2] + [("out-1", b"k3", b"c")]), "X")

    def test_what_is_told(self):
        found = verdict.compare(WANTED, WANTED[1:] + WANTED[1:2], given(), "")
        self.assertEqual(found.words, "lost: a; too often: b")

    def test_promises(self):
        self.assertEqual(sign(WANTED + WANTED, "--promise", "at-least"), ".")
        self.assertEqual(sign(WANTED[1:], "--promise", "at-least"), "X")
        self.assertEqual(sign(WANTED[1:], "--promise", "at-most"), ".")
        self.assertEqual(sign(WANTED + WANTED[:1], "--promise", "at-most"), "X")

    def test_by_key(self):
        other = [("out-0", b"k1", b"x"), ("out-0", b"k1", b"y"), ("out-0", b"k2", b"z")]
        self.assertEqual(sign(other), "X")
        self.assertEqual(sign(other, "--by-key"), ".")
        self.assertEqual(sign(other[1:], "--by-key"), "X")

    def test_ordered(self):
        turned = [WANTED[1], WANTED[0], WANTED[2]]
        self.assertEqual(sign(turned), ".")
        self.assertEqual(sign(turned, "--ordered"), "X")
        # records of different keys have no order
        self.assertEqual(sign([WANTED[2], WANTED[0], WANTED[1]], "--ordered"), ".")

    def test_check(self):
        """The user's own comparison is given both as files, and its last line is the verdict's words."""
        same = "diff"
        self.assertEqual(sign(WANTED, "--check", same), ".")
        self.assertEqual(sign(WANTED[1:], "--check", same), "X")
        program = os.path.join(options.TOP, "examples", "torture", "same_without_doubles.py")
        self.assertEqual(sign(WANTED + WANTED, "--check", sys.executable + " " + program), ".")
        self.assertEqual(sign(WANTED[1:], "--check", sys.executable + " " + program), "X")


Result = collections.namedtuple("Result", "case state words output fired audit")


def judged(output=WANTED, state="ended", fired=1, audit=(True, "audit yes"), words=()):
    case = run.Case("EndTxn#1:kill-after", (watch.Point("EndTxn", 1, "kill-after"),), True)
    with tempfile.TemporaryDirectory() as folder:
        return verdict.judge(Result(case, state, "", output, fired, audit), WANTED, given(*words), folder).sign


class Judging(unittest.TestCase):
    def test_signs(self):
        self.assertEqual(judged(), ".")
        self.assertEqual(judged(WANTED[1:]), "X")
        self.assertEqual(judged(fired=0), "-")
        self.assertEqual(judged(state="blocked", output=None), "?")
        self.assertEqual(judged(audit=(False, "audit no 1")), "!")

    def test_what_isnt_finished(self):
        """What is missing may still come; what is there too often stays."""
        self.assertEqual(judged(WANTED[1:], "unfinished"), "?")
        self.assertEqual(judged(WANTED + WANTED, "unfinished"), "X")
        self.assertEqual(judged(WANTED + WANTED, "unfinished", words=("--promise", "at-least")), "?")
        self.assertEqual(judged(WANTED + WANTED, "unfinished", words=("--check", "false #")), "?")

    def test_a_difference_without_its_fault_is_one_too(self):
        self.assertEqual(judged(WANTED[1:], fired=0), "X")


if __name__ == "__main__":
    unittest.main()
