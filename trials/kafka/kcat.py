#!/usr/bin/env python3
"""kcat against the program: -L, -P, -C, -o, -e.

    kcat.py [PROGRAM]
"""
import subprocess

from server import Server, Trial, needs, program

needs("kcat", "kcat")
trial = Trial()


def kcat(address, *words, given=""):
    done = subprocess.run(["kcat", "-b", address, "-q", *words], input=given, text=True,
        capture_output=True, timeout=60)
    return done.stdout if done.returncode == 0 else f"status {done.returncode}: {done.stderr}"


with Server(program(), "--topics", "orders:2,one:1") as server:
    listed = kcat(server.address, "-L")
    trial.look("topics are listed with their partitions", [line.strip() for line in
        listed.splitlines() if "partitions:" in line or "topics:" in line and "Metadata" not in line],
        ["2 topics:", 'topic "orders" with 2 partitions:', 'topic "one" with 1 partitions:'])
    trial.look("records with keys are produced", kcat(server.address, "-P", "-t", "orders", "-p", "1",
        "-K:", given="a:1\nb:2\nc:3\n"), "")
    trial.look("and consumed, with their offsets", kcat(server.address, "-C", "-t", "orders", "-p", "1",
        "-o", "beginning", "-e", "-f", "%o %k %s\n"), "0 a 1\n1 b 2\n2 c 3\n")
    trial.look("from an offset on", kcat(server.address, "-C", "-t", "orders", "-p", "1", "-o", "1",
        "-e", "-f", "%o %k %s\n"), "1 b 2\n2 c 3\n")
    trial.look("the last one", kcat(server.address, "-C", "-t", "orders", "-p", "1", "-o", "-1",
        "-e", "-f", "%o %k %s\n"), "2 c 3\n")
    trial.look("headers come back", (kcat(server.address, "-P", "-t", "one", "-H", "trace=7", "-H",
        "empty", given="x\n"), kcat(server.address, "-C", "-t", "one", "-o", "beginning", "-e", "-f",
        "%h %s\n")), ("", "trace=7,empty=NULL x\n"))
    trial.look("an idempotent producer", (kcat(server.address, "-P", "-t", "one", "-X",
        "enable.idempotence=true", given="y\nz\n"), kcat(server.address, "-C", "-t", "one", "-o", "1",
        "-e", "-X", "isolation.level=read_committed")), ("", "y\nz\n"))
    trial.look("a topic is made when it is first asked for", (kcat(server.address, "-P", "-t", "fresh",
        given="n\n"), kcat(server.address, "-C", "-t", "fresh", "-o", "beginning", "-e")), ("", "n\n"))
    trial.look("a name that Kafka doesn't allow", "Invalid topic" in kcat(server.address, "-L", "-t",
        "no:name"), True)
    trial.look("a group reads on where it was", (sorted(kcat(server.address, "-G", "readers", "-o", "beginning",
        "-e", "-q", "-X", "auto.offset.reset=earliest", "one").split()), kcat(server.address, "-G", "readers",
        "-e", "-q", "-X", "auto.offset.reset=earliest", "one")), (["x", "y", "z"], ""))
    trial.look("compression is switched off by the offer", (kcat(server.address, "-P", "-t", "orders",
        "-p", "0", "-z", "gzip", given="z" * 1000 + "\n"), kcat(server.address, "-C", "-t", "orders",
        "-p", "0", "-o", "beginning", "-e", "-f", "%S\n")), ("", "1000\n"))

with Server(program(), "--no-auto-topics", "--topics", "one:1") as server:
    trial.look("no topic is made", "Unknown topic" in kcat(server.address, "-L", "-t", "fresh"), True)
trial.end()
