"""Layouts against captured bytes, and against what another client writes."""
import os
import unittest

import layouts

HERE = os.path.dirname(os.path.realpath(__file__))


def captures():
    with open(os.path.join(HERE, "captures.txt"), encoding="ascii") as it:
        for line in it:
            if not line.startswith("#"):
                way, name, version, digits = line.split()
                yield way, layouts.BY_NAME[name], int(version), bytes.fromhex(digits)


class Captured(unittest.TestCase):
    def test_each_is_read_and_written_again(self):
        count = 0
        for way, api, version, text in captures():
            if not layouts.is_known(api.key, version):
                continue
            count += 1
            with self.subTest("%s %s %d" % (way, api.name, version)):
                if way == ">":
                    head, fields = layouts.read_request(text)
                    self.assertEqual((head.key, head.version, head.client), (api.key, version, "rdkafka"))
                    self.assertEqual(layouts.write_request(head, fields), text)
                else:
                    self.assertEqual(int.from_bytes(text[:4], "big"), len(text) - 4)
                    correlation, fields = layouts.read_response(api.key, version, text[4:])
                    self.assertEqual(layouts.write_response(api.key, version, correlation, fields), text[4:])
        self.assertEqual(count, 54)

    def test_what_some_of_them_say(self):
        found = {(way, api.name, version): text for way, api, version, text in captures()}
        self.assertEqual(layouts.read_request(found[">", "EndTxn", 1])[1],
            {"txn": "pay", "pid": 1, "epoch": 0, "commit": True})
        _, fields = layouts.read_request(found[">", "TxnOffsetCommit", 3])
        self.assertEqual(fields["topics"], [{"name": "t", "parts": [
            {"index": 0, "offset": 8, "leader_epoch": -1, "metadata": ""}]}])
        _, fields = layouts.read_response(3, 4, found["<", "Metadata", 4][4:])
        self.assertEqual([(it["host"], it["port"]) for it in fields["brokers"]], [("127.0.0.1", 9292)])

    def test_too_short_and_too_long(self):
        for way, api, version, text in captures():
            if way == ">" and layouts.is_known(api.key, version):
                with self.assertRaises(layouts.Fault):
                    layouts.read_request(text + b"\0")
                with self.assertRaises((layouts.Fault, Exception)):
                    layouts.read_request(text[:-1])


class Refusals(unittest.TestCase):
    def test_each_code_is_read_in_each_version(self):
        """A made-up answer is read whole, and each of its codes is the one that was asked for."""
        for way, api, version, text in captures():
            if way == ">" and layouts.is_known(api.key, version) and api.name != "ApiVersions":
                with self.subTest("%s %d" % (api.name, version)):
                    head, fields = layouts.read_request(text)
                    _, answer = layouts.read_response(api.key, version, layouts.write_response(
                        api.key, version, 5, layouts.refusal(api.key, fields, 51)))
                    if api.name not in ("Metadata", "Fetch", "ListOffsets", "OffsetFetch"):
                        self.assertTrue(layouts.codes(answer))
                    self.assertEqual(set(layouts.codes(answer)) - {51}, set())


class AnotherClient(unittest.TestCase):
    """kafka-python has layouts of its own for versions that no capture has."""

    PLACES = {"Produce": "produce", "Fetch": "fetch", "ListOffsets": "offset", "Metadata": "metadata",
        "OffsetCommit": "commit", "OffsetFetch": "commit", "JoinGroup": "group", "SyncGroup": "group",
        "Heartbeat": "group", "LeaveGroup": "group"}
    # kafka-python 2.0.2 has a leader epoch of 64 bits in ListOffsets (32 in Kafka), and the records that
    # Produce 8 refuses after all partitions (in each partition in Kafka)
    WRONG = {("ListOffsets", "Request", 4), ("ListOffsets", "Request", 5), ("Produce", "Response", 8)}

    def test_both_read_the_same(self):
        try:
            import importlib
            from kafka.protocol import types
            modules = {name: importlib.import_module("kafka.protocol." + it) for name, it in self.PLACES.items()}
        except ImportError:
            self.skipTest("kafka-python isn't installed")
        count = 0
        for name, module in modules.items():
            api = layouts.BY_NAME[name]
            kind = "Offset" if name == "ListOffsets" else name
            for way, fields in (("Request", layouts.FIELDS[api.key][0]), ("Response", layouts.FIELDS[api.key][1])):
                for version, struct in enumerate(getattr(module, kind + way)):
                    if not layouts.is_known(api.key, version) or (name, way, version) in self.WRONG:
                        continue
                    with self.subTest("%s %s %d" % (name, way, version)):
                        values, flat = filled(types, struct.SCHEMA, [0])
                        try:
                            text = struct.SCHEMA.encode(values)
                        except TypeError:
                            continue  # it can't write some of its structs itself
                        reader = layouts.Reader(text, version, False)
                        self.assertEqual(flatten(reader.fields(fields)), flat)
                        self.assertEqual(reader.at, len(text))
                        count += 1
        self.assertGreater(count, 50)


def filled(types, kind, next_one):
    """A value of each field, all different, as kafka-python takes them; and all of them in a row."""
    if isinstance(kind, types.Schema):
        parts = [filled(types, it, next_one) for it in kind.fields]
        return tuple(it for it, _ in parts), [it for _, flat in parts for it in flat]
    if isinstance(kind, types.Array):
        parts = [filled(types, kind.array_of, next_one) for _ in range(2)]
        return [it for it, _ in parts], [it for _, flat in parts for it in flat]
    next_one[0] += 1
    if isinstance(kind, types.String):
        value = "s%d" % next_one[0]
    elif kind is types.Bytes or isinstance(kind, types.Bytes):
        value = b"b%d" % next_one[0]
    elif kind is types.Boolean:
        value = next_one[0] % 2 == 0
    else:
        value = next_one[0] % 100
    return value, [value]


def flatten(value):
    if isinstance(value, dict):
        return [it for part in value.values() for it in flatten(part)]
    if isinstance(value, list):
        return [it for part in value for it in flatten(part)]
    return [value]


if __name__ == "__main__":
    unittest.main()
