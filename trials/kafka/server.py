"""Starts and ends the program for a trial, and says what came of the trial."""
import os
import shutil
import signal
import subprocess
import sys
import tempfile


class Server:
    """PROGRAM kafka, on a port that is free, in a folder or in memory. When it ends it is audited by the
    traces that it wrote."""

    # what the audits said
    audits = []

    def __init__(self, program, *words, folder=None):
        self.program, self.words, self.folder, self.process, self.port = program, words, folder, None, 0
        # beside the logs, so that the next server in the folder goes on in the same traces
        self.traces = os.path.join(folder, "traces") if folder else None

    def start(self):
        words = [self.program, "kafka", "--port", str(self.port), *self.words]
        if self.folder:
            words += ["--dir", self.folder]
        else:
            # logs in memory end with the process, and so do their traces
            self.traces = tempfile.mkdtemp(prefix="kx-traces-")
        words += ["--trace", self.traces]
        self.process = subprocess.Popen(words, stdout=subprocess.PIPE, text=True)
        line = self.process.stdout.readline().split()
        if len(line) != 2 or line[0] != "listening":
            raise SystemExit(f"the server said {line}")
        self.port = int(line[1])
        return self

    def kill(self, how=signal.SIGKILL):
        self.process.send_signal(how)
        self.process.wait()

    def audit(self):
        """Whether all that the nodes of this server did was one schedule, which leads to its logs."""
        words = [self.program, "audit", self.traces, *(["--dir", self.folder] if self.folder else [])]
        ran = subprocess.run(words, capture_output=True, text=True, check=False)
        # on standard error: which traces begin with logs, or why there is no audit
        said = ran.stderr.strip().split("\n") + ran.stdout.strip().split("\n")
        Server.audits.append((ran.returncode, ", ".join(line for line in said if line)))
        if not self.folder:
            shutil.rmtree(self.traces)

    def seconds_of_processor(self):
        """User and system time that the server has taken."""
        with open(f"/proc/{self.process.pid}/stat") as stat:
            fields = stat.read().rsplit(")", 1)[1].split()
        return (int(fields[11]) + int(fields[12])) / os.sysconf("SC_CLK_TCK")

    @property
    def address(self):
        return f"127.0.0.1:{self.port}"

    def __enter__(self):
        return self.start()

    def __exit__(self, *_):
        self.kill()
        self.audit()


class Trial:
    """Counts what was looked at, and what wasn't as it should be."""

    def __init__(self):
        self.passed = self.failed = 0

    def look(self, what, found, wanted):
        if found == wanted:
            self.passed += 1
            print(f"ok {what}")
        else:
            self.failed += 1
            print(f"FAILED {what}: found {found!r:.300}, wanted {wanted!r:.300}")

    def end(self):
        for status, said in Server.audits:
            self.look(f"audit: {said}", (status, said.endswith("audit yes")), (0, True))
        print(f"{self.passed} passed, {self.failed} failed")
        raise SystemExit(1 if self.failed else 0)


def program():
    """The program of the first word, or the one that the gate has built. Ends the trial in words where
    it doesn't serve stock clients."""
    top = os.path.dirname(os.path.dirname(os.path.dirname(os.path.abspath(__file__))))
    found = sys.argv[1] if len(sys.argv) > 1 else os.path.join(top, "crates/kx_main/out/kx_main")
    if subprocess.run([found, "kafka", "--help"], capture_output=True, check=False).returncode != 0:
        print("skipped: the program serves no stock clients")
        raise SystemExit(0)
    return found


def needs(tool, package):
    """Ends the trial in words where a tool isn't installed."""
    if shutil.which(tool) is None:
        print(f"skipped: {tool} isn't installed (Debian's {package})")
        raise SystemExit(0)


def folder():
    return tempfile.TemporaryDirectory(prefix="kx-")
