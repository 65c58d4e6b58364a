#!/usr/bin/env python3
"""sarama (Go) against the program.

    sarama.py [PROGRAM]
"""
import os
import subprocess
import tempfile

from server import Server, Trial, needs, program

needs("go", "golang-go")
SOURCES = "/usr/share/gocode"
if not os.path.isdir(f"{SOURCES}/src/github.com/Shopify/sarama"):
    print("skipped: sarama isn't installed (Debian's golang-github-shopify-sarama-dev)")
    raise SystemExit(0)

trial = Trial()
here = os.path.dirname(os.path.abspath(__file__))
with tempfile.TemporaryDirectory() as work, Server(program()) as server:
    built = os.path.join(work, "sarama")
    subprocess.run(["go", "build", "-o", built, os.path.join(here, "sarama.go")], check=True,
        env={**os.environ, "GOPATH": SOURCES, "GO111MODULE": "off", "GOCACHE": f"{work}/cache"})
    done = subprocess.run([built, server.address], capture_output=True, text=True, timeout=120)
    trial.look("round trips as an old and a newer client", done.stdout.splitlines(),
        ["ok sarama as Kafka 0.11.0.0", "ok sarama as Kafka 2.1.0"])
trial.end()
