"""The relay: what it passes on, what it answers itself, and in which order answers go back."""
import threading
import unittest

import layouts
from scripted import Scene


class Passing(unittest.TestCase):
    def test_versions_are_cut_to_the_table(self):
        with Scene() as scene:
            _, answer = scene.client().ask("ApiVersions")
            self.assertEqual(answer["error"], 0)
            offered = {it["key"]: (it["min"], it["max"]) for it in answer["apis"]}
            self.assertEqual(offered, {it.key: (it.first, it.last) for it in layouts.TABLE})

    def test_a_newer_version_of_them_is_refused_with_the_list(self):
        with Scene() as scene:
            client = scene.client()
            # ApiVersions 3, as a client sends it first
            client.socket.sendall(bytes.fromhex("00000012" "00120003" "00000009" "000161" "00" "0261" "0262" "00" "00"))
            frame = client.socket.recv(4096)
            self.assertEqual(frame[4:10], bytes.fromhex("00000009" "0023"))

    def test_brokers_are_met_at_the_relay(self):
        with Scene() as scene:
            client, own = scene.client(), scene.start.relay.main.getsockname()
            for version in range(9):
                _, answer = client.ask("Metadata", version, topics=[])
                self.assertEqual([(it["host"], it["port"]) for it in answer["brokers"]], [own])
            for version in range(3):
                _, answer = client.ask("FindCoordinator", version, key="g")
                self.assertEqual((answer["host"], answer["port"]), own)

    def test_answers_keep_their_order(self):
        """An answer that the relay makes waits for those before it."""
        with Scene() as scene:
            scene.server.hold["Heartbeat"] = threading.Event()
            client = scene.client()
            first = client.send("Heartbeat", group="g", generation=1, member="m")
            second = client.send("ApiVersions")
            third = client.send("EndTxn", txn="t", pid=1, epoch=0, commit=True)
            scene.server.hold["Heartbeat"].set()
            self.assertEqual([client.take()[0] for _ in range(3)], [first, second, third])

    def test_other_bytes_pass_as_they_are(self):
        with Scene() as scene:
            client = scene.client()
            _, answer = client.ask("Produce", 3, acks=-1, timeout=1, topics=[
                {"name": "127.0.0.1", "parts": [{"index": 0, "records": b"127.0.0.1"}]}])
            self.assertEqual(answer["topics"][0]["name"], "127.0.0.1")
            self.assertEqual(scene.server.asked[-1].fields["topics"][0]["parts"][0]["records"], b"127.0.0.1")

    def test_no_answer_is_awaited_without_acks(self):
        with Scene() as scene:
            client = scene.client()
            client.send("Produce", 3, acks=0, timeout=1, topics=[])
            correlation, _ = client.ask("Heartbeat", group="g", generation=1, member="m")
            self.assertEqual(correlation, 2)

    def test_requests_are_counted_by_start(self):
        with Scene() as scene:
            for _ in range(2):
                scene.client().ask("EndTxn", txn="t", pid=1, epoch=0, commit=True)
            scene.client().ask("Heartbeat", group="g", generation=1, member="m")
            other = scene.run.begin(2)
            scene.client(other).ask("EndTxn", txn="u", pid=2, epoch=0, commit=True)
            told = [(it.start.slot, str(it.exchange)) for it in scene.run.events if it.exchange]
            self.assertEqual(told, [(1, "EndTxn#1"), (1, "EndTxn#2"), (1, "Heartbeat#1"), (2, "EndTxn#1")])

    def test_names_of_a_run(self):
        """If runs share a Kafka, each has topics, groups and ids of its own, and the program sees its own names."""
        with Scene() as scene:
            scene.run.prefix = "torture-1-"
            scene.server.answers["Metadata"] = {"topics": [{"name": "torture-1-bills"}, {"name": "torture-2-bills"}]}
            _, answer = scene.client().ask("Metadata", topics=[{"name": "bills"}])
            self.assertEqual([it["name"] for it in answer["topics"]], ["bills"])
            _, answer = scene.client().ask("TxnOffsetCommit", txn="t", group="g", pid=1, epoch=0, topics=[
                {"name": "bills", "parts": [{"index": 0, "offset": 5}]}])
            self.assertEqual(answer["topics"][0]["name"], "bills")
            asked = [it.fields for it in scene.server.asked if it.name in ("Metadata", "TxnOffsetCommit")]
            self.assertEqual([it["topics"][0]["name"] for it in asked], ["torture-1-bills"] * 2)
            self.assertEqual((asked[1]["txn"], asked[1]["group"]), ("torture-1-t", "torture-1-g"))

    def test_nothing_is_passed_on_after_the_connection_was_closed(self):
        with Scene() as scene:
            scene.server.hold["Heartbeat"] = threading.Event()
            client = scene.client()
            scene.start.relay.passing.acquire()
            client.send("EndTxn", txn="t", pid=1, epoch=0, commit=True)
            client.close()
            threading.Event().wait(0.2)
            scene.start.relay.passing.release()
            threading.Event().wait(0.2)
            self.assertEqual(scene.server.names(), [])


if __name__ == "__main__":
    unittest.main()
