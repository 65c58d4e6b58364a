"""Processes of the harness, and their end."""
import signal
import time
import unittest
from unittest import mock

import processes


class Processes(unittest.TestCase):
    def test_its_status_and_output(self):
        self.assertEqual(processes.run(["sh", "-c", "echo a; echo b >&2; exit 3"]), (3, "a\nb\n"))

    def test_what_is_left_of_a_group_is_killed(self):
        """The shell ends at once, and its sleep is in the same group."""
        it = processes.begin(["sh", "-c", "sleep 1000 & exit 0"])
        self.assertEqual(processes.wait(it), 0)
        end = time.monotonic() + 10
        while processes.send(it, 0) and time.monotonic() < end:
            time.sleep(0.01)
        self.assertFalse(processes.send(it, 0))

    def test_kill_after_the_grace(self):
        it = processes.begin(["sh", "-c", "trap '' TERM; while :; do sleep 0.05; done"])
        time.sleep(0.3)
        processes.end(it, signal.SIGTERM, 0.2)
        self.assertEqual(it.returncode, -signal.SIGKILL)

    def test_none_begins_once_the_harness_ends(self):
        with mock.patch.object(processes, "closed", True), self.assertRaises(OSError):
            processes.begin(["true"])

    def test_all_are_ended(self):
        with mock.patch.object(processes, "closed", False), mock.patch.object(processes, "living", {}):
            started = [processes.begin(["sleep", "1000"]) for _ in range(3)]
            processes.end_all()
            self.assertEqual([it.wait(10) for it in started], [-signal.SIGKILL] * 3)
            self.assertTrue(processes.closed)


if __name__ == "__main__":
    unittest.main()
