"""Which server program is taken."""
import os
import tempfile
import unittest
from types import SimpleNamespace
from unittest import mock

import server


class Choosing(unittest.TestCase):
    def setUp(self):
        self.folder = tempfile.TemporaryDirectory()
        self.built = os.path.join(self.folder.name, "crates", "kx_main", "out")
        os.makedirs(self.built)

    def tearDown(self):
        self.folder.cleanup()

    def make(self, name, at=1):
        path = os.path.join(self.built, name)
        with open(path, "w", encoding="ascii"):
            os.chmod(path, 0o755)
        os.utime(path, (at, at))
        return path

    def choose(self, program=None, against=None):
        return server.choose(SimpleNamespace(program=program, against=against, top=self.folder.name))

    def test_none(self):
        self.make("kx_unproved.lock")
        with self.assertRaises(server.Missing):
            self.choose()

    def test_the_newest_unproved_one(self):
        self.make("kx_unproved-b", 1)
        newest = self.make("kx_unproved-a", 2)
        self.assertEqual(self.choose(), ([newest], "server: an unproved program, crates/kx_main/out/kx_unproved-a"))

    def test_the_proved_one_first(self):
        self.make("kx_unproved-a", 2)
        proved = self.make("kx_main")
        self.assertEqual(self.choose(), ([proved], "server: the proved program, crates/kx_main/out/kx_main"))

    def test_one_that_is_named(self):
        self.make("kx_main")
        named = self.make("another")
        self.assertEqual(self.choose(named)[0], [named])
        with self.assertRaises(server.Missing):
            self.choose(named + "x")

    def test_another_kafka(self):
        self.assertEqual(self.choose(against=("host", 9092))[0], None)

    def test_by_the_loader_of_the_toolchain(self):
        """As ./kx marks a program that the system's C library is too old for."""
        unproved = self.make("kx_unproved-a")
        self.make("by_loader-a")
        with open(self.make("rt"), "w", encoding="ascii") as it:
            it.write("#!/bin/sh\necho /kit/page.html\n")
        with mock.patch.dict(os.environ, PATH=self.built + ":" + os.environ["PATH"]):
            self.assertEqual(self.choose()[0], ["/kit/toolchain/lib/ld-linux-x86-64.so.2", "--inhibit-cache",
                "--library-path", "/kit/toolchain/lib", unproved])


if __name__ == "__main__":
    unittest.main()
