#!/usr/bin/env python3
"""Runs the gate, `tools/rt.py ci`, in this checkout and reports what it cost, crate by crate.

    tools/gate.py [JOBS]

Processor seconds, user and system, of each crate's proof, of building its program with both
compilers, and of its must-fail edits; then the whole run's, and how long it took. JOBS is how many
checks may run side by side (RT_JOBS); with none it is as many as there are processors. What the
gate itself says goes to gate.log. Each check is looked at every fifth of a second, so it may have
run that much longer than is counted. Checks that others run meanwhile aren't counted, but make the
figures greater.
"""
import os
import resource
import subprocess
import sys
import time

TICKS = os.sysconf("SC_CLK_TCK")
KINDS = ("proof", "builds", "edits")


def looked_at(pid, session):
    """Returns a check's crate, its kind and its processor seconds so far, or None of a process that
    isn't a check of this session."""
    try:
        with open(f"/proc/{pid}/cmdline", "rb") as it:
            words = it.read().decode(errors="replace").split("\0")
        if not words[0].endswith("/rattle") or "--crate-name" not in words:
            return None
        with open(f"/proc/{pid}/stat") as it:
            fields = it.read().rpartition(")")[2].split()
        if int(fields[3]) != session:
            return None
        folder = os.readlink(f"/proc/{pid}/cwd")
    except (OSError, IndexError):
        return None
    kind = "edits" if "/rt-edit-" in folder else "builds" if "--crate-checked" in words else "proof"
    crate = words[words.index("--crate-name") + 1]
    return crate, kind, (int(fields[11]) + int(fields[12])) / TICKS


def main():
    top = os.path.dirname(os.path.dirname(os.path.realpath(__file__)))
    env = dict(os.environ)
    if len(sys.argv) > 1:
        env["RT_JOBS"] = sys.argv[1]
    spent, started = {}, time.time()
    with open(f"{top}/gate.log", "wb") as log:
        gate = subprocess.Popen(
            [f"{top}/tools/rt.py", "ci"], cwd=top, env=env, stdout=log, stderr=subprocess.STDOUT,
            start_new_session=True,
        )
        while gate.poll() is None:
            for pid in filter(str.isdigit, os.listdir("/proc")):
                seen = looked_at(pid, gate.pid)
                if seen:
                    # a process's number may come again: its seconds then begin anew
                    crate, kind, seconds = seen
                    runs = spent.setdefault((pid, crate, kind), [0.0])
                    if seconds < runs[-1]:
                        runs.append(seconds)
                    else:
                        runs[-1] = seconds
            time.sleep(0.2)
    took = time.time() - started
    sums = {}
    for (_, crate, kind), runs in spent.items():
        sums[crate, kind] = sums.get((crate, kind), 0.0) + sum(runs)
    with open(f"{top}/crates.txt") as it:
        crates = [line.split(":")[0].split()[0] for line in it if ":" in line]
    print("| Crate | Proof | Builds | Edits |\n|---|---|---|---|")
    for crate in crates:
        print(f"| {crate} | " + " | ".join(f"{sums.get((crate, kind), 0):.0f}" for kind in KINDS) + " |")
    totals = [sum(value for (_, kind), value in sums.items() if kind == wanted) for wanted in KINDS]
    print("| all | " + " | ".join(f"{it:.0f}" for it in totals) + " |")
    used = resource.getrusage(resource.RUSAGE_CHILDREN)
    print(f"\n{(used.ru_utime + used.ru_stime) / 60:.1f} processor minutes, {took / 60:.1f} minutes, status {gate.returncode}")
    return gate.returncode


if __name__ == "__main__":
    sys.exit(main())
