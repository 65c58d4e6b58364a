#!/usr/bin/env python3
"""Refuses each request for memory in turn while the program runs scripts.

    memory.py PROGRAM [SCRIPT..]
    memory.py --audit CASES_PROGRAM
    memory.py --page PROGRAM SCRIPT

A step for which there is no memory changes nothing: its line prints `lost`, and what follows is as
if the line weren't in the script. So with the Nth request refused, PROGRAM sim has to print what it
prints with none refused, or what it prints without one line, and `lost` in that line's place; or,
where memory ran out for reading, for a value of a line or for writing, a front of these, with
status 1 and one line on standard error. Scripts are those below, one for each call that takes
memory, or those that are named.

With --audit it is the program of cases, which serves clients on threads and audits the traces of
the servers. Threads take memory in any order, so of each run it is asked only that it ends by
itself, with status 0 or 1; but in some run the audit has to refuse with its number for memory, 5.

With --page it is the script's page and diagram: each is the whole one, as with nothing refused, or
isn't there, and then the status is 1 and one line on standard error says why.

Needs a C compiler and the GNU C library, and skips in words where it has none.
"""
import itertools
import os
import re
import shutil
import subprocess
import sys
import tempfile

HERE = os.path.dirname(os.path.abspath(__file__))
SECONDS = 20

BEGIN = """world 2
client 1 pay
init 1
deliver 0
deliver 1
begin 1
send 1 0 rent
deliver 2
deliver 3
deliver 4
deliver 5
"""

SCRIPTS = {
    "a plain batch": "world 1\nput 0 a\nput 0 b c\nfetch 0 0 all\n",
    "a page of many batches": "world 1\n" + "put 0 value\n" * 12 + "fetch 0 3 committed\n",
    "a producer id": "world 1\nclient 1 -\ninit 1\ndeliver 0\ndeliver 1\nrows\n",
    "a batch of a producer": "world 1\nclient 1 -\ninit 1\ndeliver 0\ndeliver 1\nsend 1 0 a b\n"
                             "deliver 2\ndeliver 3\nresend 1\ndeliver 2\nfetch 0 0 all\n",
    "a partition added to a transaction": BEGIN + "rows\nfetch 0 0 all\nfetch 0 0 committed\n",
    "a transaction committed": BEGIN + "commit 1\ndeliver 6\ndeliver 7\ndeliver 8\ndeliver 9\n"
                               "rows\nfetch 0 0 committed\n",
    "a transaction aborted": BEGIN + "abort 1\ndeliver 6\ndeliver 7\ndeliver 8\ndeliver 9\n"
                             "fetch 0 0 committed\nfetch 0 0 all\n",
    "a transaction that expires": BEGIN + "expire 100000\ndeliver 6\ndeliver 7\nremind\n"
                                  "fetch 0 0 committed\nrows\n",
    "nodes opened again": BEGIN + "restart co\nrestart p0\ncommit 1\ndeliver 6\ndeliver 7\n"
                          "fetch 0 0 all\nrows\n",
    "a member of a group": "world 1\nclient 1 -\njoin 1 g\ndeliver 0\ndeliver 1\nclient 2 -\n"
                           "join 2 g\ndeliver 2\ndeliver 3\nleave 1\ndeliver 4\ndeliver 5\n",
}


def built(folder):
    """The library that refuses, or None where it can't be had."""
    compiler = shutil.which("cc")
    if compiler is None:
        return None
    library = os.path.join(folder, "refuse.so")
    made = subprocess.run([compiler, "-O2", "-shared", "-fPIC", "-o", library,
                           os.path.join(HERE, "refuse.c")], capture_output=True)
    return library if made.returncode == 0 else None


class Runner:
    def __init__(self, library, words, folder=None):
        self.library, self.words, self.folder = library, words, folder

    def run(self, script, refuse):
        """Status, standard output, standard error and whether a request was refused."""
        told, tells = os.pipe()
        ran = subprocess.Popen(
            self.words, env={"LD_PRELOAD": self.library, "REFUSE": str(refuse)}, cwd=self.folder,
            stdin=subprocess.PIPE, stdout=subprocess.PIPE, stderr=subprocess.PIPE,
            preexec_fn=lambda: os.dup2(tells, 3), pass_fds=[3, tells],
        )
        out, errors = ran.communicate(script.encode(), timeout=SECONDS)
        os.close(tells)
        has_refused = os.read(told, 1) != b""
        os.close(told)
        return ran.returncode, out.decode(), errors.decode(), has_refused


def expected(runner, script):
    """What may be printed with one line lost, and the status of each. A later line that names a
    message which was then never sent is a bad line, and ends the script."""
    lines = script.splitlines(keepends=True)
    may = set()
    for at in range(len(lines)):
        before = runner.run("".join(lines[:at]), 0)[1]
        status, out, _, _ = runner.run("".join(lines[:at] + lines[at + 1:]), 0)
        rest = re.sub(r"bad line (\d+)\n$", lambda found: f"bad line {int(found[1]) + 1}\n",
                      out[len(before):])
        may.add((status, before + "lost\n" + rest))
    return may


def tried(runner, name, script):
    """How many refusals were tried, and the faults that were found."""
    status, whole, errors, _ = runner.run(script, 0)
    if status != 0:
        return 0, [f"{name}: status {status} with nothing refused: {errors}{whole}"]
    may = expected(runner, script) | {(0, whole)}
    faults, lost = [], 0
    for at in itertools.count(1):
        status, out, errors, has_refused = runner.run(script, at)
        if not has_refused:
            break
        if (status, out) in may:
            lost += out != whole
        elif status == 1 and errors.count("\n") == 1 and any(one.startswith(out) for _, one in may):
            pass
        else:
            faults.append(f"{name}: request {at} refused: status {status}, {errors!r}, {out!r}")
    print(f"{name}: {at - 1} requests refused in turn, {lost} times a step was lost", flush=True)
    return at - 1, faults


CASES = os.path.join(HERE, "..", "crates", "kx_cases_run", "data")
AUDITED = "threads/servers_receipt_left_out.served"


def audited(program, library):
    """How many refusals were tried, and the faults that were found."""
    runner = Runner(library, [program, AUDITED], CASES)
    status, whole, errors, _ = runner.run("", 0)
    if status != 0:
        return 0, [f"status {status} with nothing refused: {errors}{whole}"]
    faults, refusals = [], 0
    for at in itertools.count(1):
        status, out, errors, has_refused = runner.run("", at)
        if not has_refused:
            break
        refusals += "audit no 5\n" in out
        if status not in (0, 1):
            faults.append(f"request {at} refused: status {status}, {errors!r}, {out!r}")
    print(f"{AUDITED}: {at - 1} requests refused in turn, {refusals} audits refused for memory")
    if refusals == 0:
        faults.append("no audit refused for memory")
    return at - 1, faults


def pictures_in(folder):
    """The page and the diagram that stand in a folder, which are taken out of it."""
    found = []
    for name in ("page", "diagram"):
        path = os.path.join(folder, name)
        found.append(open(path, "rb").read() if os.path.exists(path) else None)
        if found[-1] is not None:
            os.remove(path)
    return found


def drawn(program, library, script):
    """How many refusals were tried, and the faults that were found."""
    with tempfile.TemporaryDirectory() as folder:
        runner = Runner(library, [program, "sim", "--page", "page", "--svg", "diagram"], folder)
        status, _, errors, _ = runner.run(script, 0)
        whole = pictures_in(folder)
        if status != 0 or None in whole:
            return 0, [f"status {status} with nothing refused: {errors}"]
        faults, stood = [], 0
        for at in itertools.count(1):
            status, _, errors, has_refused = runner.run(script, at)
            if not has_refused:
                break
            found = pictures_in(folder)
            stood += found == whole
            if any(one not in (None, other) for one, other in zip(found, whole)):
                faults.append(f"request {at} refused: another picture")
            elif None in found and (status != 1 or errors.count("\n") != 1):
                faults.append(f"request {at} refused: status {status}, {errors!r}, no picture")
    print(f"{at - 1} requests refused in turn, {stood} times both pictures stood")
    return at - 1, faults


def main():
    audits, draws = sys.argv[1:2] == ["--audit"], sys.argv[1:2] == ["--page"]
    if len(sys.argv) < (4 if draws else 3 if audits else 2):
        sys.exit(__doc__)
    program = os.path.abspath(sys.argv[2] if audits or draws else sys.argv[1])
    scripts = dict(SCRIPTS)
    if sys.argv[2:] and not audits and not draws:
        scripts = {path: open(path).read() for path in sys.argv[2:]}
    with tempfile.TemporaryDirectory() as folder:
        library = built(folder)
        if library is None:
            print("skipped: no C compiler, or no GNU C library")
            return
        if audits:
            total, faults = audited(program, library)
        elif draws:
            with open(sys.argv[3]) as script:
                total, faults = drawn(program, library, script.read())
        else:
            runner, total, faults = Runner(library, [program, "sim"]), 0, []
            for name, script in scripts.items():
                count, found = tried(runner, name, script)
                total += count
                faults += found
    for fault in faults:
        print(fault)
    print(f"{total} requests refused, {len(faults)} faults")
    sys.exit(1 if faults else 0)


main()
