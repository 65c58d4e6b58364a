#!/usr/bin/env python3
"""Tries the sessions of crates/kx_cases_run/data/server against a program: NAME.session has to tell
NAME.out, all of them or those that are named.

    sessions.py PROGRAM [NAME..]

There the server is a function that the program of cases calls; here it is PROGRAM serve, with its
arguments, standard output and status, or PROGRAM kafka, which is killed at the end. The language of sessions is told in
crates/kx_cases_server/src/session.rt. A program tells its fault in words alone, so the number of
a fault isn't compared, and it takes a folder of the empty name for wrong arguments (status 2).
"""
import os
import re
import resource
import shutil
import socket
import subprocess
import sys
import tempfile
import time

from frames import connect, next_frame

HERE = os.path.dirname(os.path.abspath(__file__))
DATA = os.path.join(HERE, "..", "crates", "kx_cases_run", "data", "server")


class Session:
    def __init__(self, program, folder):
        self.program, self.folder = program, folder
        self.names, self.clients, self.told, self.server = {}, [], [], None
        self.is_killed = False

    def part(self, text):
        word, *changes = text.split(",")
        part = self.names[word[1:]] if word[0] == "$" else bytes.fromhex(word)
        for change in changes:
            assert change[0] == "x", change
            part *= int(change[1:])
        return part

    def bytes(self, text):
        return b"".join(map(self.part, text.split("+")))

    def start(self, partitions, connections, folder, *more):
        words = [self.program, "serve", "--partitions", partitions, "--connections", connections]
        if folder:
            words += ["--dir", os.path.join(self.folder, folder)]
        words += more
        return self.popen(words)

    def popen(self, words):
        server = subprocess.Popen(words, stdout=subprocess.PIPE, stderr=subprocess.PIPE, text=True)
        server.folder = words[words.index("--dir") + 1] if "--dir" in words else ""
        return server

    def serve(self, partitions, connections, folder=None, *more):
        self.server = self.start(partitions, connections, folder, *more)
        words = self.server.stdout.readline().split()
        if words:
            self.told.append(words[0])
            self.port = int(words[1])

    def stock(self, options):
        """A server of stock clients, which is killed at the end."""
        words = [self.program, "kafka", "--port", "0"]
        if "with" in options:
            words += ["--topics", options["with"], "--no-auto-topics"]
        if "in" in options:
            words += ["--dir", os.path.join(self.folder, options["in"])]
        if "at" in options:
            words += ["--advertise", options["at"]]
        self.server = self.popen(words)
        words = self.server.stdout.readline().split()
        if words:
            self.told.append(words[0])
            self.port = int(words[1])
            self.is_killed = True

    def client(self, name):
        return next(it for held, it in self.clients if held == name)

    def open(self, name):
        it = connect(self.port, 20)
        self.clients.append((name, it))
        return it

    def drop(self, name):
        for held, it in self.clients:
            if held == name:
                it.close()
        self.clients = [(held, it) for held, it in self.clients if held != name]

    def receive(self, name):
        try:
            self.told.append("%s %s" % (name, next_frame(self.client(name)).hex()))
        except OSError:
            self.told.append("%s nothing" % name)

    def closed(self, name):
        try:
            is_closed = self.client(name).recv(1) == b""
        except ConnectionResetError:
            is_closed = True
        except TimeoutError:
            is_closed = False
        self.told.append("%s %s" % (name, "closed" if is_closed else "open"))

    def until(self, name, request, reply):
        for _ in range(2000):
            self.client(name).sendall(request)
            if next_frame(self.client(name)) == reply:
                self.told.append("%s came" % name)
                return
            time.sleep(0.005)
        self.told.append("%s never" % name)

    def crowd(self, name, count, request):
        answered = 0
        for _ in range(count):
            it = self.open(name)
            it.sendall(request)
            answered += len(next_frame(it)) > 0
        self.told.append("%d answered" % answered)

    def is_answered(self, name, request):
        try:
            self.client(name).sendall(request)
            return len(next_frame(self.client(name))) > 0
        except OSError:
            return False

    def turns(self, names, count, request):
        answered = sum(self.is_answered(name, request) for _ in range(count) for name in names)
        self.told.append("%d answered" % answered)

    def speak(self, name, count, request):
        answered = 0
        while answered < count and self.is_answered(name,
                request[:5] + answered.to_bytes(4, "big") + request[9:]):
            answered += 1
        self.told.append("%d answered" % answered)

    def pages(self, name):
        count = 0
        try:
            while True:
                count += next_frame(self.client(name))[4] == 12
        except TimeoutError:
            self.told.append("%s open" % name)
        except ConnectionError:
            self.told.append("%s %d pages" % (name, count))

    def send(self, name, pieces):
        try:
            for piece in pieces:
                self.client(name).sendall(piece)
        except OSError:
            pass

    def end(self, server):
        if self.is_killed:
            self.is_killed = False
            server.kill()
            server.communicate()
            return
        lines, words = server.communicate()
        if server.returncode == 2:
            self.told.append("fault the folder cannot be used: invalid input parameter")
        elif server.returncode != 0:
            # the folder that was given stands in front of the fault's words, or of the file's name
            said = words.strip().split("\n")[-1].removeprefix("kx: ").removeprefix(server.folder)
            self.told.append("fault " + said.removeprefix(": ").removeprefix("/"))
        self.told += lines.split("\n")[:-1]

    def step(self, words):
        match words:
            case ["bytes", name, "=", text]:
                self.names[name] = self.bytes(text)
            case ["serve", partitions, connections]:
                self.serve(partitions, connections)
            case ["serve", partitions, connections, "in", folder]:
                self.serve(partitions, connections, folder)
            case ["serve", partitions, connections, "nowhere"]:
                self.serve(partitions, connections, None, "--dir", "")
            case ["serve", partitions, connections, "expiring"]:
                self.serve(partitions, connections, None, "--expire")
            case ["kafka", _, *options]:
                self.stock(dict(zip(options[::2], options[1::2])))
            case ["open", name]:
                self.open(name)
            case ["crowd", name, count, request]:
                self.crowd(name, int(count), self.bytes(request))
            case ["send", name, text]:
                self.send(name, [self.bytes(text)])
            case ["bytewise", name, text]:
                self.send(name, (bytes([byte]) for byte in self.bytes(text)))
            case ["receive", name]:
                self.receive(name)
            case ["portless", name]:
                self.receive(name)
                named = b"127.0.0.1" + self.port.to_bytes(4, "big")
                self.told[-1] = self.told[-1].replace(named.hex(), (b"127.0.0.1" + bytes(4)).hex())
            case ["closed", name]:
                self.closed(name)
            case ["until", name, request, reply]:
                self.until(name, self.bytes(request), self.bytes(reply))
            case ["finish", name]:
                self.client(name).shutdown(socket.SHUT_WR)
            case ["drop", name]:
                self.drop(name)
            case ["rival", folder]:
                self.end(self.start("1", "1", folder))
            case ["end"]:
                for name in {held for held, _ in self.clients}:
                    self.drop(name)
                self.end(self.server)
            case ["clear", folder]:
                shutil.rmtree(os.path.join(self.folder, folder), ignore_errors=True)
            case ["append", file, text]:
                with open(os.path.join(self.folder, file), "ab") as it:
                    it.write(self.bytes(text))
            case ["shorten", file, count]:
                path = os.path.join(self.folder, file)
                os.truncate(path, os.path.getsize(path) - int(count))
            case ["move", one, other]:
                os.rename(os.path.join(self.folder, one), os.path.join(self.folder, other))
            case ["there", file]:
                is_there = os.path.exists(os.path.join(self.folder, file))
                self.told.append("%s %s there" % (file, "is" if is_there else "isn't"))
            case ["turns", first, second, count, request]:
                self.turns([first, second], int(count), self.bytes(request))
            case ["speak", name, count, request]:
                self.speak(name, int(count), self.bytes(request))
            case ["pages", name]:
                self.pages(name)
            case ["wait", millis]:
                time.sleep(int(millis) / 1000)
            case _:
                sys.exit("no such line: " + " ".join(words))


def main():
    program = os.path.abspath(sys.argv[1])
    hard = resource.getrlimit(resource.RLIMIT_NOFILE)[1]
    resource.setrlimit(resource.RLIMIT_NOFILE, (min(8192, hard), hard))
    failed = 0
    for name in sorted(n[:-8] for n in os.listdir(DATA) if n.endswith(".session") and (len(sys.argv) < 3 or n[:-8] in sys.argv[2:])):
        with tempfile.TemporaryDirectory() as folder:
            session = Session(program, folder)
            for line in open(os.path.join(DATA, name + ".session")):
                if line.strip() and not line.startswith("#"):
                    session.step(line.split())
        wanted = open(os.path.join(DATA, name + ".out")).read().split("\n")[:-1]
        wanted = [re.sub(r"^fault \d+ ", "fault ", line) for line in wanted]
        wanted = [line for line in wanted if not line.startswith("tried ")]
        failed += session.told != wanted
        print("ok" if session.told == wanted else "FAILED", name)
        if session.told != wanted:
            print("\n".join(session.told))
    print("%d failed" % failed)
    sys.exit(failed > 0)


main()
