"""Record batches against captured ones, and what readers of committed records get."""
import unittest

import layouts
import records
from test_layouts import captures


class Batches(unittest.TestCase):
    def test_captured_batches(self):
        """Produce requests of a real client: their checksums are right, and their records are read."""
        count = 0
        for way, api, version, text in captures():
            if way == ">" and api.name == "Produce":
                _, fields = layouts.read_request(text)
                for topic in fields["topics"]:
                    for part in topic["parts"]:
                        batch = part["records"]
                        self.assertEqual(records.crc32c(batch[21:]), int.from_bytes(batch[17:21], "big"))
                        found = records.read(batch)
                        self.assertEqual(found[0].last, len(found[0].records) - 1)
                        count += len(found)
        self.assertEqual(count, 2)

    def test_checksum(self):
        # the check value of CRC-32C in its catalogues
        self.assertEqual(records.crc32c(b"123456789"), 0xE3069283)

    def test_what_is_written_is_read(self):
        text = records.write([(b"k", b"v"), (None, b"w" * 300), (b"", None)], 7, 1, 5, True)
        batch = records.read(text)[0]
        self.assertEqual([it[1:] for it in batch.records], [(b"k", b"v"), (None, b"w" * 300), (b"", None)])
        self.assertEqual((batch.pid, batch.epoch, batch.sequence, batch.transactional), (7, 1, 5, True))
        self.assertEqual(records.read(text[:-1]), [])

    def test_compressed(self):
        text = bytearray(records.write([(b"k", b"v")]))
        text[22] = 4
        with self.assertRaises(records.Unreadable):
            records.read(bytes(text))


def batch(first, pid, value, transactional=True):
    return records.Batch(first, first, pid, 0, 0, transactional, False, [records.Record(first, None, value)])


def marker(first, pid, commit):
    return records.Batch(first, first, pid, 0, 0, True, True, [
        records.Record(first, b"\0\0\0" + (b"\1" if commit else b"\0"), b"")])


class Committed(unittest.TestCase):
    def test_aborted_transactions_are_left_out(self):
        batches = [batch(0, 1, b"a"), batch(1, 2, b"b"), marker(2, 1, False), batch(3, 1, b"c"), marker(4, 1, True),
            marker(5, 2, True), batch(6, -1, b"d", False)]
        found = records.committed(batches, [(1, 0)])
        self.assertEqual([it.value for it in found], [b"b", b"c", b"d"])

    def test_a_transaction_over_two_pages(self):
        gone = set()
        self.assertEqual(records.committed([batch(0, 1, b"a")], [(1, 0)], gone), [])
        found = records.committed([batch(1, 1, b"b"), marker(2, 1, False), batch(3, 1, b"c")], [(1, 0)], gone)
        self.assertEqual([it.value for it in found], [b"c"])


if __name__ == "__main__":
    unittest.main()
