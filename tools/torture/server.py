"""The server of one run: started in a folder of its own, killed, started again there, and audited."""
import glob
import os
import signal
import subprocess

import processes

# Where ./kx keeps the programs, and how the names of unproved ones begin.
BUILT, UNPROVED = os.path.join("crates", "kx_main", "out"), "kx_unproved-"


class Missing(Exception):
    """There is no server program."""


def choose(options):
    """The server program's words, and a line that names it: the proved one if it is built, else the newest unproved one."""
    if options.against:
        return None, "against %s:%d, whose broker nobody proved" % options.against
    if options.program:
        if not os.access(options.program, os.X_OK):
            raise Missing("--program %s: no such program" % options.program)
        return [os.path.realpath(options.program)], "server: %s" % options.program
    built = os.path.join(options.top, BUILT)
    if os.access(os.path.join(built, "kx_main"), os.X_OK):
        return [os.path.join(built, "kx_main")], "server: the proved program, %s/kx_main" % BUILT
    unproved = sorted(glob.glob(os.path.join(built, UNPROVED + "*")), key=os.path.getmtime)
    if not unproved:
        raise Missing("no server program is built: ./kx try --help builds one without any proof in some minutes, "
            "and ./kx --help the proved one, which takes hours; --program FILE names another")
    return loader(unproved[-1]) + unproved[-1:], "server: an unproved program, %s/%s" % (
        BUILT, os.path.basename(unproved[-1]))


def loader(program):
    """The words before an unproved program that needs the toolchain's C library, as ./kx has them; else none."""
    folder, name = os.path.split(program)
    if not os.path.exists(os.path.join(folder, "by_loader-" + name[len(UNPROVED):])):
        return []
    try:
        page = subprocess.run(["rt", "doc"], stdout=subprocess.PIPE, universal_newlines=True, check=True).stdout.strip()
    except (OSError, subprocess.CalledProcessError) as fault:
        raise Missing("%s needs the toolchain's C library: %s" % (name, fault))
    libraries = os.path.join(os.path.dirname(page), "toolchain", "lib")
    return [os.path.join(libraries, "ld-linux-x86-64.so.2"), "--inhibit-cache", "--library-path", libraries]


class Server:
    """PROGRAM kafka --dir --trace, at any free port of 127.0.0.1."""

    def __init__(self, program, folder, topics):
        self.program, self.logs, self.traces = program, os.path.join(folder, "logs"), os.path.join(folder, "traces")
        self.topics = ",".join("%s:%d" % it for it in topics)
        self.said = os.path.join(folder, "server.txt")
        self.process, self.port = None, 0

    def start(self):
        words = self.program + ["kafka", "--port", "0", "--dir", self.logs, "--trace", self.traces]
        if self.topics:
            words += ["--topics", self.topics]
        with open(self.said, "ab") as errors:
            self.process = processes.begin(words, stdout=subprocess.PIPE, stderr=errors)
        line = self.process.stdout.readline().decode().split()
        if len(line) != 2 or line[0] != "listening":
            raise OSError("the server said %r instead of its port" % (line,))
        self.port = int(line[1])

    def kill(self, how=signal.SIGKILL):
        if self.process:
            processes.end(self.process, how)
            self.process.stdout.close()

    def is_alive(self):
        return self.process is not None and self.process.poll() is None

    def last_words(self):
        with open(self.said, encoding="utf-8", errors="replace") as it:
            return it.read().strip()[-300:] or "without a word"

    @property
    def address(self):
        return ("127.0.0.1", self.port)

    def audit(self):
        """Audits all that the server did; whether the audit says yes, and its last line."""
        status, said = processes.run(self.program + ["audit", self.traces, "--dir", self.logs])
        lines = said.strip().split("\n")
        return status == 0 and "audit yes" in lines, lines[-1]
