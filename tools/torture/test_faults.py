"""Each fault, against a scripted client: what the server saw, and what the client got."""
import threading
import time
import unittest

import faults
import layouts
from scripted import Scene, is_alive

END = dict(txn="t", pid=7, epoch=0, commit=True)
COMMIT = dict(group="g", generation=3, member="member-1", topics=[{"name": "in", "parts": [{"index": 0, "offset": 1}]}])
TXN_COMMIT = dict(txn="t", group="g", pid=7, epoch=0, generation=3, member="member-1", topics=[
    {"name": "in", "parts": [{"index": 0, "offset": 1}]}])
PRODUCE = dict(txn="t", acks=-1, timeout=1000, topics=[{"name": "out", "parts": [{"index": 0, "records": b""}]}])


class Cuts(unittest.TestCase):
    def test_before(self):
        """The request is not passed on, the connection ends, and the program lives."""
        with Scene("EndTxn#1:cut-before") as scene:
            client = scene.client()
            self.assertIsNone(client.ask("EndTxn", **END))
            self.assertEqual(scene.server.names(), [])
            self.assertTrue(is_alive(scene.start))
            self.assertIsNotNone(scene.client().ask("EndTxn", **END))
            self.assertEqual(scene.server.names(), ["EndTxn"])

    def test_earlier_answers_are_given_first(self):
        with Scene("EndTxn#1:cut-before") as scene:
            scene.server.hold["Heartbeat"] = threading.Event()
            client = scene.client()
            beat = client.send("Heartbeat", group="g", generation=1, member="m")
            client.send("EndTxn", **END)
            threading.Timer(0.2, scene.server.hold["Heartbeat"].set).start()
            self.assertEqual(client.take()[0], beat)
            self.assertIsNone(client.take())

    def test_after(self):
        """The server has done it, and the program doesn't know."""
        with Scene("EndTxn#1:cut-after") as scene:
            self.assertIsNone(scene.client().ask("EndTxn", **END))
            self.assertEqual(scene.server.names(), ["EndTxn"])
            self.assertTrue(is_alive(scene.start))

    def test_after_without_an_answer(self):
        """A Produce with acks 0 has no answer that could be lost: it isn't hit."""
        with Scene("Produce#1:cut-after") as scene:
            client = scene.client()
            client.send("Produce", **dict(PRODUCE, acks=0))
            self.assertIsNotNone(client.ask("EndTxn", **END))
            self.assertEqual((scene.server.names(), scene.run.fired), (["Produce", "EndTxn"], 0))

    def test_a_member_that_nobody_knows_leaves(self):
        """The answer to its first JoinGroup is lost: it would keep the group waiting."""
        with Scene("JoinGroup#1:cut-after") as scene:
            self.assertIsNone(scene.client().ask("JoinGroup", group="g", session=1, rebalance=1, type="consumer"))
            scene.wait(lambda: "LeaveGroup" in scene.server.names())
            self.assertEqual(scene.server.names(), ["JoinGroup", "LeaveGroup"])
            self.assertEqual(scene.server.asked[-1].fields["members"], [{"member": "member-1", "instance": None}])

    def test_only_the_request_that_is_named(self):
        with Scene("EndTxn#2:cut-before") as scene:
            client = scene.client()
            self.assertIsNotNone(client.ask("EndTxn", **END))
            self.assertIsNone(client.ask("EndTxn", **END))


class Kills(unittest.TestCase):
    def check(self, fault, names):
        with Scene("EndTxn#1:" + fault) as scene:
            client = scene.client()
            scene.join(client)
            self.assertIsNone(client.ask("EndTxn", **END))
            scene.wait(lambda: scene.start.status is not None)
            self.assertEqual(scene.start.status, -9)
            # its member leaves, and it is started again in the same slot
            scene.wait(lambda: len(scene.run.slots.all) == 2 and "LeaveGroup" in scene.server.names())
            self.assertEqual(scene.server.names(), names)
            second = scene.run.slots.all[1]
            self.assertEqual((second.slot, second.number), (1, 2))

    def test_before(self):
        self.check("kill-before", ["JoinGroup", "LeaveGroup"])

    def test_after(self):
        self.check("kill-after", ["JoinGroup", "EndTxn", "LeaveGroup"])

    def test_all_members_of_a_start_leave(self):
        """A program may have several consumers in a group."""
        with Scene("EndTxn#1:kill-before") as scene:
            for name in ("member-1", "member-2"):
                scene.client().ask("JoinGroup", group="g", member=name, session=1, rebalance=1, type="consumer")
            scene.client().ask("EndTxn", **END)
            scene.wait(lambda: scene.server.names().count("LeaveGroup") == 2)
            left = [it.fields["members"][0]["member"] for it in scene.server.asked if it.name == "LeaveGroup"]
            self.assertEqual(left, ["member-1", "member-2"])

    def test_slow_members_stay(self):
        with Scene("EndTxn#1:kill-before", ["--slow"]) as scene:
            client = scene.client()
            scene.join(client)
            client.ask("EndTxn", **END)
            scene.wait(lambda: len(scene.run.slots.all) == 2)
            self.assertEqual(scene.server.names(), ["JoinGroup"])


class Servers(unittest.TestCase):
    def check(self, fault, names):
        with Scene("EndTxn#1:" + fault) as scene:
            client, idle = scene.client(), scene.client()
            scene.join(idle)
            self.assertIsNone(client.ask("EndTxn", **END))
            self.assertIsNone(idle.take())
            scene.wait(lambda: not scene.run.striking)
            self.assertEqual((scene.server.kills, scene.server.starts), (1, 2))
            self.assertEqual(scene.server.names(), names)
            self.assertTrue(is_alive(scene.start))
            # the relay is where it was, and the server elsewhere
            self.assertIsNotNone(scene.client().ask("EndTxn", **END))

    def test_before(self):
        self.check("server-before", ["JoinGroup"])

    def test_after(self):
        self.check("server-after", ["JoinGroup", "EndTxn"])


class Zombies(unittest.TestCase):
    def state(self, start):
        with open("/proc/%d/stat" % start.process.pid, encoding="ascii") as it:
            return it.read().rsplit(")", 1)[1].split()[0]

    def check(self, fault, slot):
        with Scene("EndTxn#1:" + fault) as scene:
            client = scene.client()
            scene.join(client)
            client.send("EndTxn", **END)
            scene.wait(lambda: len(scene.run.slots.all) == 2)
            other = scene.run.slots.all[1]
            self.assertEqual(other.slot, slot)
            self.assertEqual(self.state(scene.start), "T")
            self.assertEqual(scene.server.names(), ["JoinGroup", "LeaveGroup"])
            # the other commits: only then the held request goes on
            second = scene.client(other)
            self.assertIsNotNone(second.ask("EndTxn", **dict(END, txn="other")))
            self.assertIsNotNone(client.take())
            self.assertEqual([it.fields["txn"] for it in scene.server.asked if it.name == "EndTxn"], ["other", "t"])
            self.assertNotEqual(self.state(scene.start), "T")
            self.assertTrue(is_alive(scene.start) and is_alive(other))
            self.assertFalse(scene.run.are_awake())

    def test_same_slot(self):
        self.check("zombie", 1)

    def test_other_slot(self):
        self.check("zombie-other", 2)


class Groups(unittest.TestCase):
    def test_join(self):
        """Held until the second has joined and the first was told so by its heartbeat; both stay."""
        with Scene("EndTxn#1:join") as scene:
            client, beats = scene.client(), scene.client()
            client.send("EndTxn", **END)
            scene.wait(lambda: len(scene.run.slots.all) == 2)
            scene.join(scene.client(scene.run.slots.all[1]))
            self.assertEqual(scene.server.names(), ["JoinGroup"])
            scene.server.answers["Heartbeat"] = {"error": 27}
            beats.ask("Heartbeat", group="g", generation=3, member="m")
            self.assertEqual(client.take()[1]["error"], 0)
            self.assertEqual(scene.server.names(), ["JoinGroup", "Heartbeat", "EndTxn"])
            self.assertTrue(all(is_alive(it) for it in scene.run.slots.all))

    def test_expel(self):
        """The server itself answers then: the member has left."""
        with Scene("OffsetCommit#1:expel") as scene:
            client = scene.client()
            scene.join(client)
            client.ask("OffsetCommit", **COMMIT)
            self.assertEqual(scene.server.names(), ["JoinGroup", "LeaveGroup", "OffsetCommit"])

    def test_expire(self):
        """An id is asked for in the program's name: the epoch is raised, and what is open aborted."""
        with Scene("EndTxn#1:expire") as scene:
            client = scene.client()
            client.ask("InitProducerId", txn="t", timeout=5000, pid=-1, epoch=-1)
            client.ask("EndTxn", **END)
            self.assertEqual(scene.server.names(), ["InitProducerId", "InitProducerId", "EndTxn"])
            self.assertEqual([it.fields for it in scene.server.asked if it.name == "InitProducerId"],
                [{"txn": "t", "timeout": 5000, "pid": -1, "epoch": -1}] * 2)


class Refusals(unittest.TestCase):
    REQUESTS = {"TxnOffsetCommit": TXN_COMMIT, "Produce": PRODUCE, "OffsetCommit": COMMIT, "EndTxn": END,
        "InitProducerId": dict(txn="t", timeout=1, pid=-1, epoch=-1),
        "AddPartitionsToTxn": dict(txn="t", pid=7, epoch=0, topics=[{"name": "out", "parts": [0, 1]}]),
        "AddOffsetsToTxn": dict(txn="t", pid=7, epoch=0, group="g"),
        "JoinGroup": dict(group="g", session=1, rebalance=1, type="consumer")}

    def test_refused(self):
        """Each refusal in each version: not passed on, and answered with the code in its layout."""
        for code, names in sorted(faults.REFUSE.items()):
            for name in names:
                api = layouts.BY_NAME[name]
                for version in range(api.first, api.last + 1):
                    with self.subTest("%s %d %d" % (name, version, code)), \
                            Scene("%s#1:refuse-%d" % (name, code)) as scene:
                        _, answer = scene.client().ask(name, version, **self.REQUESTS[name])
                        self.assertEqual(set(layouts.codes(answer)), {code})
                        self.assertEqual(scene.server.names(), [])

    def test_retried(self):
        """Three times, and then it is passed on."""
        for code, names in sorted(faults.RETRY.items()):
            for name in names:
                with self.subTest("%s %d" % (name, code)), Scene("%s#1:retry-%d" % (name, code)) as scene:
                    client = scene.client()
                    found = [set(layouts.codes(client.ask(name, **self.REQUESTS[name])[1])) for _ in range(4)]
                    self.assertEqual(found, [{code}, {code}, {code}, {0}])
                    self.assertEqual(scene.server.names(), [name])

    def test_codes_that_are_never_made_up(self):
        """They say that a state has changed, which a made-up code leaves as it was."""
        self.assertFalse({22, 25, 27, 47, 90} & (set(faults.REFUSE) | set(faults.RETRY)))


class Pairs(unittest.TestCase):
    def test_the_second_is_counted_from_the_first_on(self):
        with Scene("EndTxn#2:cut-before,EndTxn#1:cut-after") as scene:
            client = scene.client()
            self.assertIsNotNone(client.ask("EndTxn", **END))
            self.assertIsNone(client.ask("EndTxn", **END))
            self.assertIsNone(scene.client().ask("EndTxn", **END))
            self.assertIsNotNone(scene.client().ask("EndTxn", **END))
            self.assertEqual((scene.run.fired, scene.server.names()), (2, ["EndTxn"] * 3))


class Rest(unittest.TestCase):
    """When a program has come to rest: nothing new is answered."""

    FETCH = dict(replica=-1, wait=1, min=1, max=1, topics=[{"name": "in", "parts": [{"index": 0, "offset": 0}]}])

    def is_news(self, scene, what):
        before = scene.run.heard
        time.sleep(0.01)
        what()
        return scene.run.heard != before

    def test_news(self):
        with Scene() as scene:
            client = scene.client()
            self.assertTrue(self.is_news(scene, lambda: client.ask("EndTxn", **END)))
            self.assertFalse(self.is_news(scene, lambda: client.ask("EndTxn", **END)))
            self.assertTrue(self.is_news(scene, lambda: client.ask("EndTxn", **dict(END, commit=False))))
            scene.server.answers["Heartbeat"] = {"error": 27}
            self.assertTrue(self.is_news(scene, lambda: client.ask("Heartbeat", group="g", generation=1, member="m")))

    def test_a_fetch_is_news_by_its_records(self):
        """A client with a fetch session asks something else each time."""
        with Scene() as scene:
            client = scene.client()
            for epoch in (1, 2):
                self.assertFalse(self.is_news(scene, lambda: client.ask("Fetch", session_epoch=epoch, **self.FETCH)))
            scene.server.answers["Fetch"] = {"topics": [{"name": "in", "parts": [{"index": 0, "records": b"some"}]}]}
            self.assertTrue(self.is_news(scene, lambda: client.ask("Fetch", session_epoch=3, **self.FETCH)))
            self.assertFalse(self.is_news(scene, lambda: client.ask("Fetch", session_epoch=4, **self.FETCH)))


class Ends(unittest.TestCase):
    def test_a_program_that_ends_is_started_again(self):
        """After half a second, then after twice as long."""
        with Scene() as scene:
            begun = time.monotonic()
            scene.run.kill(scene.start)
            scene.wait(lambda: len(scene.run.slots.all) == 2 and scene.run.slots.all[1].process)
            self.assertGreater(time.monotonic() - begun, 0.5)
            begun = time.monotonic()
            scene.run.kill(scene.run.slots.all[1])
            scene.wait(lambda: len(scene.run.slots.all) == 3)
            self.assertGreater(time.monotonic() - begun, 1)

    def test_all_processes_of_a_group_end(self):
        with Scene() as scene:
            start = scene.start
        self.assertIsNotNone(start.status)


if __name__ == "__main__":
    unittest.main()
