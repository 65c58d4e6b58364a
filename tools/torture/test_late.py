"""Batches that version 1 of Kafka's transactions may take into the transaction after their own."""
import threading
import unittest

import late
import records
from scripted import Scene

PAIR = dict(txn="t", pid=7, epoch=0)
BATCH = records.write([(None, b"rent")], 7, 0, 0, True)
PRODUCE = dict(txn="t", acks=-1, timeout=1, topics=[{"name": "out", "parts": [{"index": 0, "records": BATCH}]}])
ADD = dict(PAIR, topics=[{"name": "out", "parts": [0]}])


class Late(unittest.TestCase):
    def told(self, scene):
        return late.sentences(scene.run.transacted, scene.run.kills)

    def abort_beside(self, scene, **more):
        """A batch is under way while another connection ends its transaction; its answer comes then."""
        hold = scene.server.hold["Produce"] = threading.Event()
        batches, ends = scene.client(), scene.client()
        batches.send("Produce", **PRODUCE)
        scene.wait(lambda: "Produce" in scene.server.names())
        ends.ask("EndTxn", **dict(PAIR, commit=False))
        if more:
            ends.ask("AddPartitionsToTxn", **dict(ADD, **more))
        hold.set()
        batches.take()
        ends.ask("AddPartitionsToTxn", **ADD)

    def test_the_next_transaction_has_begun_before_the_answer(self):
        with Scene() as scene:
            self.abort_beside(scene, epoch=0)
            self.assertEqual(self.told(scene), [
                "Produce#1 of start 1 was under way while EndTxn#1 ended its transaction and AddPartitionsToTxn#1 began "
                "the next with the same id and epoch: version 1 of Kafka's protocol may take its records into that one "
                "(KIP-890)"])

    def test_a_raised_epoch_refuses_it(self):
        with Scene() as scene:
            self.abort_beside(scene, epoch=1)
            self.assertEqual(self.told(scene), [])

    def test_it_was_answered_before_the_next_transaction(self):
        with Scene() as scene:
            self.abort_beside(scene)
            self.assertEqual(self.told(scene), [])

    def test_it_was_refused(self):
        with Scene() as scene:
            scene.server.answers["Produce"] = {"topics": [{"name": "out", "parts": [{"index": 0, "error": 47}]}]}
            self.abort_beside(scene, epoch=0)
            self.assertEqual(self.told(scene), [])

    def test_its_answer_is_lost(self):
        """The server may still take it, since it was passed on."""
        with Scene("Produce#1:cut-after") as scene:
            hold = scene.server.hold["Produce"] = threading.Event()
            scene.client().send("Produce", **PRODUCE)
            scene.wait(lambda: "Produce" in scene.server.names())
            other = scene.client()
            other.ask("EndTxn", **dict(PAIR, commit=False))
            other.ask("AddPartitionsToTxn", **ADD)
            self.assertEqual(len(self.told(scene)), 1)
            hold.set()

    def test_a_server_that_was_killed_takes_it_no_more(self):
        with Scene("Produce#1:server-before") as scene:
            client = scene.client()
            scene.server.hold["Produce"] = threading.Event()
            client.send("Produce", **PRODUCE)
            scene.wait(lambda: scene.server.kills and not scene.run.striking)
            # as if it had been passed on just before the kill
            batch = scene.run.transacted[0]
            batch.passed, batch.passed_at = True, scene.run.kills[0] - 1
            other = scene.client()
            other.ask("EndTxn", **dict(PAIR, commit=True))
            other.ask("AddPartitionsToTxn", **ADD)
            self.assertEqual(self.told(scene), [])
            self.assertEqual(len(late.sentences(scene.run.transacted)), 1)

    def test_a_producer_without_transactions(self):
        with Scene() as scene:
            client = scene.client()
            client.ask("Produce", **dict(PRODUCE, txn=None))
            client.ask("EndTxn", **dict(PAIR, commit=True))
            client.ask("AddPartitionsToTxn", **ADD)
            self.assertEqual(self.told(scene), [])


if __name__ == "__main__":
    unittest.main()
