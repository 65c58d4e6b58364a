#!/usr/bin/env python3
"""Torture of programs that are known to be right or wrong (examples/torture), and of some that aren't ours.

    torture.py [--program FILE] [--jobs N] [--whole] [--runs N] [NAME..]

A right program has to have the same output in each run. Its runs that differ because of the server are in KNOWN,
with the reason; one in which the client library broke the protocol, as the story of the run says, is told and
fails nothing. A wrong program has to differ at its cell. By default each right program has the default runs with
two records, or N of them with `--runs N`. `--whole` has two records and ten, and 200 pairs of faults, three times
over; with `--times 1,3` the first and the third time alone, with `--ways ten,pairs` these alone. `--keep FOLDER`
keeps the folders of runs that differ there, with their stories.

The names are those of the programs, and three more: `against` (runs that share a server which the harness doesn't
start), `mock` (syslog-ng against the mock cluster of librdkafka, mock.c) and `interrupted` (an interrupt leaves no
process and no folder). A program that isn't installed is skipped, with a line that says so.
"""
import argparse
import collections
import json
import os
import shutil
import signal
import subprocess
import sys
import tempfile
import time

sys.dont_write_bytecode = True
TOP = os.path.dirname(os.path.dirname(os.path.realpath(__file__)))
EXAMPLES = os.path.join(TOP, "examples", "torture")
PYTHON, GOPATH = "/usr/bin/python3", "/usr/share/gocode"

TOPICS = ["--in", "bills", "--out", "paid"]
RIGHT = {
    "ends": TOPICS, "rewinds": TOPICS, "batches": TOPICS, "cooperative": TOPICS, "by_hand": TOPICS,
    "doubles_are_known": TOPICS + ["--check", "%s %s/same_without_doubles.py" % (sys.executable, EXAMPLES)],
}
# Two members in each slot, from the start. The slot's command ends with the first that ends, so both are started again.
TWO = ["bash", "-c", "{0} {1}/cooperative.py {{bootstrap}} {{slot}}a & {0} {1}/cooperative.py {{bootstrap}} {{slot}}b & "
    "wait -n".format(PYTHON, EXAMPLES)]
# The cells at which each is found, and cells at which it is the same.
WRONG = {
    "offsets_after": (["EndTxn#1:kill-after"], []),
    "offsets_before": (["Produce#1:kill-before"], []),
    "idempotent_only": (["Produce#1:kill-after"], []),
    "no_rewind": (["TxnOffsetCommit#1:refuse-30"], ["TxnOffsetCommit#1:expel"]),
    "new_ids": (["TxnOffsetCommit#1:zombie"], ["EndTxn#1:zombie"]),
    "commits_when_revoked": (["Produce#2:join"], []),
}
WRONG_GO = {
    "offsets_before": (["Produce#1:kill-before"], []),
    "idempotent_only": (["Produce#1:kill-after"], []),
}
# Runs of right programs that aren't the same because of the server: (program, run) and the reason.
KNOWN = {}
# What a run's story says if the client library is at fault. Such a run is told, and fails no trial.
OF_LIBRARY = "that is a fault of the client library"

KCAT = ["kcat", "-b", "{bootstrap}", "-G", "readers", "-u", "-q", "-X", "auto.offset.reset=earliest", "-X",
    "isolation.level=read_committed", "-X", "auto.commit.interval.ms=300", "-f", "%s\\n", "bills"]
# Each slot has a folder for its state, and each start has a configuration and a process file.
RSYSLOG = """mkdir -p {dir}/{slot} && cat > {dir}/{slot}/{start}.conf <<'END'
global(workDirectory="{dir}/{slot}")
module(load="imfile")
module(load="omkafka")
template(name="line" type="string" string="%msg%")
input(type="imfile" file="{input}" tag="bill:")
action(type="omkafka" broker="{bootstrap}" topic="paid" template="line" resubmitOnFailure="on" keepFailedMessages="on"
    failedMsgFile="{dir}/{slot}/failed" action.resumeRetryCount="-1" action.resumeInterval="1")
END
exec rsyslogd -n -f {dir}/{slot}/{start}.conf -i {dir}/{slot}/{start}.pid"""
SYSLOG_NG = """mkdir -p {dir}/{slot} && cat > {dir}/{slot}/{start}.conf <<'END'
@version: 3.38
source bills { file("{input}" flags(no-parse) follow-freq(0.2)); };
destination paid { kafka-c(bootstrap-servers("{bootstrap}") topic("paid") message("$MESSAGE") sync-send(yes)
    config(transactional.id("bills-{slot}"))); };
log { source(bills); destination(paid); flags(flow-control); };
END
exec syslog-ng -F -f {dir}/{slot}/{start}.conf -R {dir}/{slot}/persist -c {dir}/{slot}/{start}.control \\
    -p {dir}/{slot}/{start}.pid --no-caps"""
# 15 seconds are longer than librdkafka waits before it connects again.
OTHERS = {
    "kcat -G": ("kcat", "kcat", ["--in", "bills", "--out-stdout", "--promise", "at-least"], KCAT),
    "rsyslog's omkafka": ("rsyslogd", "rsyslog-kafka", ["--out", "paid", "--promise", "at-least", "--done", "quiet 15"],
        ["sh", "-c", RSYSLOG]),
    "syslog-ng's kafka-c": ("syslog-ng", "syslog-ng-mod-rdkafka", ["--out", "paid", "--promise", "at-least", "--done",
        "quiet 15"], ["sh", "-c", SYSLOG_NG]),
}


class Trial:
    def __init__(self, given):
        self.given, self.passed, self.failed, self.folder = given, 0, 0, tempfile.mkdtemp(prefix="kx-trial-")
        self.verdicts = collections.Counter()

    def is_asked(self, name):
        return not self.given.names or name in self.given.names

    def look(self, what, found, wanted):
        if found == wanted:
            self.passed += 1
            print("ok %s" % what, flush=True)
        else:
            self.failed += 1
            print("FAILED %s: found %r, wanted %r" % (what, found, wanted), flush=True)

    def torture(self, words, command):
        """Status, runs by name, what was printed, and seconds."""
        out = os.path.join(self.folder, "found.json")
        if os.path.exists(out):
            os.unlink(out)
        words = words + ["--jobs", str(self.given.jobs), "--json", out, "--html", os.path.join(self.folder, "page.html")]
        if self.given.program and "--against" not in words:
            words += ["--program", self.given.program]
        if self.given.keep:
            words += ["--keep", "--dir", self.given.keep]
        begun = time.monotonic()
        ran = subprocess.run([sys.executable, os.path.join(TOP, "tools", "torture")] + words + ["--"] + command,
            stdout=subprocess.PIPE, stderr=subprocess.STDOUT, universal_newlines=True)
        runs = {}
        if os.path.exists(out):
            with open(out, encoding="utf-8") as it:
                runs = {it["name"]: it for it in json.load(it)["runs"]}
        return ran.returncode, runs, ran.stdout, time.monotonic() - begun

    def right(self, name, words, command, what):
        status, runs, said, seconds = self.torture(words, command)
        bad = {}
        for cell, it in runs.items():
            is_of_library = it["verdict"] == "differs" and any(OF_LIBRARY in line for line in it["story"])
            self.verdicts["by a fault of the client library" if is_of_library else it["verdict"]] += 1
            if it["verdict"] in ("same", "not reached"):
                continue
            if (name, cell) in KNOWN:
                print("known %s at %s: %s" % (name, cell, KNOWN[name, cell]))
            elif is_of_library:
                print("known %s at %s: %s; %s" % (name, cell, it["words"], it["story"][-1]))
            else:
                bad[cell] = "%s: %s" % (it["verdict"], it["words"])
        missed = sum(it["verdict"] == "not reached" for it in runs.values())
        print("%s, %s: %d runs in %d s, %d not reached" % (name, what, len(runs), seconds, missed))
        if not runs:
            bad["all"] = said[-1500:]
        self.look("%s, %s: no run differs, is blocked or unfinished" % (name, what), bad, {})

    def wrong(self, name, command, cells, others):
        only = [word for cell in cells + others for word in ("--only", cell)]
        _, runs, said, seconds = self.torture(TOPICS + only, command)
        found = {cell: it["verdict"] for cell, it in runs.items()}
        wanted = dict([(it, "differs") for it in cells] + [(it, "same") for it in others])
        self.look("%s is found at %s (%d s)" % (name, ", ".join(cells), seconds), found or said[-800:], wanted)


    def against(self):
        """Runs that share a server, with names of their own, find the same as runs that have a server each."""
        only = ["--only", "EndTxn#1:kill-after", "--only", "Produce#1:kill-after"]
        with subprocess.Popen(self.program() + ["kafka", "--port", "0"], stdout=subprocess.PIPE) as server:
            try:
                port = server.stdout.readline().split()[1].decode()
                words = ["--in", "bills:1", "--out", "paid:1", "--against", "127.0.0.1:" + port]
                _, runs, said, _ = self.torture(words + only, example("offsets_after"))
            finally:
                server.kill()
        self.look("against a server that is there", {name: it["verdict"] for name, it in runs.items()} or said[-800:],
            {"EndTxn#1:kill-after": "differs", "Produce#1:kill-after": "same"})

    def mock(self):
        """A program that isn't ours, against a broker that isn't."""
        if shutil.which("syslog-ng") is None or not os.path.exists("/usr/include/librdkafka/rdkafka_mock.h"):
            print("skipped: syslog-ng or librdkafka isn't installed (Debian's syslog-ng-mod-rdkafka, librdkafka-dev)")
            return
        built, words = os.path.join(self.folder, "mock"), OTHERS["syslog-ng's kafka-c"][2]
        subprocess.run(["cc", "-o", built, os.path.join(TOP, "trials", "mock.c"), "-lrdkafka"], check=True)
        with subprocess.Popen([built], stdout=subprocess.PIPE, stderr=subprocess.DEVNULL) as cluster:
            try:
                address = cluster.stdout.readline().split()[1].decode()
                words = [it.replace("paid", "paid:4") for it in words] + ["--against", address] + drawn(self.given)
                self.right("syslog-ng's kafka-c", words, ["sh", "-c", SYSLOG_NG], "against the mock cluster")
            finally:
                cluster.kill()

    def interrupted(self):
        """An interrupt while runs are under way ends all that was started."""
        folder = os.path.join(self.folder, "interrupted")
        os.mkdir(folder)
        words = TOPICS + ["--dir", folder, "--html", os.path.join(self.folder, "page.html")]
        words += ["--program", self.given.program] if self.given.program else []
        harness = subprocess.Popen([sys.executable, os.path.join(TOP, "tools", "torture")] + words + ["--"] +
            example("ends") + [folder], stdout=subprocess.DEVNULL, stderr=subprocess.DEVNULL)
        time.sleep(15)
        before = len(naming(folder))
        harness.send_signal(signal.SIGINT)
        status = harness.wait(30)
        time.sleep(1)
        self.look("an interrupt leaves nothing", (before > 2, status, naming(folder), os.listdir(folder)),
            (True, 130, [], []))

    def program(self):
        """The words of the server program that the harness would take."""
        sys.path.insert(0, os.path.join(TOP, "tools", "torture"))
        import server
        return server.choose(argparse.Namespace(against=None, program=self.given.program, top=TOP))[0]


def naming(word):
    """The processes that have this word in their command."""
    ran = subprocess.run(["ps", "-eo", "args"], stdout=subprocess.PIPE, universal_newlines=True)
    return [it for it in ran.stdout.split("\n") if word in it]


def has_clients():
    return subprocess.run([PYTHON, "-c", "import confluent_kafka"], stderr=subprocess.DEVNULL).returncode == 0


def go(trial):
    """The files of the programs in Go, which are compiled here, by name."""
    if shutil.which("go") is None or not os.path.isdir(GOPATH + "/src/github.com/Shopify/sarama"):
        print("skipped: go or sarama isn't installed (Debian's golang-go, golang-github-shopify-sarama-dev)")
        return {}
    built = {}
    for name in WRONG_GO:
        built[name] = os.path.join(trial.folder, name)
        subprocess.run(["go", "build", "-o", built[name], os.path.join(EXAMPLES, name + ".go")], check=True,
            env=dict(os.environ, GOPATH=GOPATH, GO111MODULE="off", GOCACHE=trial.folder + "/cache"),
            stderr=subprocess.DEVNULL)
    return built


def drawn(given):
    return ["--runs", str(given.runs)] if given.runs else []


def ways(given):
    """How each right program is run: options, and their name."""
    if not given.whole:
        return [(drawn(given), "two records")]
    found = []
    options = {"two": ("two records", drawn(given)), "ten": ("ten records", ["--records", "10"] + drawn(given)),
        "pairs": ("pairs", ["--twice", "--runs", str(given.runs or 200)])}
    for time_over in given.times.split(","):
        for what, more in (options[way] for way in given.ways.split(",")):
            found.append((more + ["--seed", time_over], "%s, %s" % (what, time_over)))
    return found


def in_python(trial):
    """The examples in Python: the wrong ones first, which take seconds."""
    for name, (cells, others) in WRONG.items():
        if trial.is_asked(name):
            trial.wrong(name, example(name), cells, others)
    if trial.is_asked("uncommitted"):
        status, _, said, _ = trial.torture(TOPICS, example("uncommitted"))
        trial.look("uncommitted is found without a fault", (status, "reads uncommitted records" in said), (3, True))
    if trial.is_asked("against"):
        trial.against()
    if trial.is_asked("interrupted"):
        trial.interrupted()
    for name, topics in RIGHT.items():
        if trial.is_asked(name):
            for more, what in ways(trial.given):
                trial.right(name, topics + more, example(name), what)
    if trial.is_asked("cooperative, two at once"):
        for more, what in ways(trial.given):
            trial.right("cooperative, two at once", TOPICS + more, TWO, what)


def example(name):
    return [PYTHON, "%s/%s.py" % (EXAMPLES, name), "{bootstrap}", "{slot}"]


def in_go(trial):
    built = go(trial) if any(trial.is_asked(it + ".go") for it in WRONG_GO) else {}
    for name, (cells, others) in WRONG_GO.items():
        if name in built and trial.is_asked(name + ".go"):
            trial.wrong(name + ".go", [built[name], "{bootstrap}"], cells, others)


def not_ours(trial):
    """Programs that are installed, for what they promise."""
    for name, (tool, package, more, command) in OTHERS.items():
        if not trial.is_asked(name):
            continue
        if shutil.which(tool) is None:
            print("skipped: %s isn't installed (Debian's %s)" % (tool, package))
            continue
        trial.right(name, more + drawn(trial.given), command, more[more.index("--promise") + 1])


def main():
    words = argparse.ArgumentParser()
    words.add_argument("--program")
    words.add_argument("--jobs", type=int, default=os.cpu_count())
    words.add_argument("--runs", type=int)
    words.add_argument("--whole", action="store_true")
    words.add_argument("--times", default="1,2,3")
    words.add_argument("--ways", default="two,ten,pairs")
    words.add_argument("--keep", metavar="FOLDER")
    words.add_argument("names", nargs="*")
    given = words.parse_args()
    trial = Trial(given)

    try:
        if has_clients():
            in_python(trial)
        else:
            print("skipped: confluent_kafka isn't installed (Debian's python3-confluent-kafka)")
        in_go(trial)
        not_ours(trial)
        if trial.is_asked("mock"):
            trial.mock()
    finally:
        shutil.rmtree(trial.folder, ignore_errors=True)
    counts = ", ".join("%d %s" % (count, name) for name, count in sorted(trial.verdicts.items()))
    print("runs of right programs: %s" % (counts or "none"))
    print("%d passed, %d failed" % (trial.passed, trial.failed))
    return 1 if trial.failed else 0


if __name__ == "__main__":
    sys.exit(main())
