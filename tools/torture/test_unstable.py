"""Partitions that are read while their committed offset is unstable."""
import unittest

import unstable
from scripted import Scene


def offsets(*codes):
    """An answer to OffsetFetch with a code for each partition of `in`."""
    parts = [{"index": place, "offset": -1 if code else 5, "leader_epoch": -1, "metadata": "", "error": code}
        for place, code in enumerate(codes)]
    return {"topics": [{"name": "in", "parts": parts}]}


def fetch(client, partition):
    client.ask("Fetch", replica=-1, wait=0, min=0, max=1000, isolation=1, session_epoch=-1, rack="", topics=[
        {"name": "in", "parts": [{"index": partition, "leader_epoch": -1, "offset": 0, "log_start": -1, "max": 1000}]}])


class Unstable(unittest.TestCase):
    def told(self, *codes_and_partitions):
        """What is said after OffsetFetch was answered so, in turn, and then this partition was read."""
        *answers, partition = codes_and_partitions
        with Scene() as scene:
            client = scene.client()
            for codes in answers:
                scene.server.answers["OffsetFetch"] = offsets(*codes)
                client.ask("OffsetFetch", group="g", stable=True, topics=[{"name": "in", "parts": [0, 1]}])
            fetch(client, partition)
            fetch(client, partition)
            return unstable.sentences(scene.run.events)

    def test_read_while_it_is_unstable(self):
        self.assertEqual(self.told((0, 88), (0, 88), 1), [
            "start 1 read in-1 from offset 0 though OffsetFetch#2 for it was answered 88 (unstable offset commit), which "
            "says that its offset isn't known yet: that is a fault of the client library"])

    def test_the_other_partition(self):
        self.assertEqual(self.told((0, 88), 0), [])

    def test_read_once_it_is_stable(self):
        self.assertEqual(self.told((0, 88), (0, 0), 1), [])


if __name__ == "__main__":
    unittest.main()
