#!/usr/bin/env python3
"""Checks a crate from nothing by one job, and reports where the time went, module by module.

    tools/modules.py CRATE [COUNT]

Seconds, greatest first, as many lines as COUNT says (40). Of each function there are modules: `Lts`
is its code as a machine, which a shorter function makes cheaper; `Proof` the goals without an
answer, which tactics search for; `Answers` its proof file; the others what its contract and its
types are made of. The check keeps a file for each module as it ends with it, in out/incremental;
the time since the file before is taken for the module's own.
"""
import os
import shutil
import subprocess
import sys


def kept_in(folder):
    """Returns when each module's file was written, and the module's name, in order."""
    found = []
    for at, folders, files in os.walk(folder):
        folders[:] = [it for it in folders if it != "records"]
        for name in files:
            if name.endswith(".oantt"):
                found.append((os.stat(f"{at}/{name}").st_mtime, name.removesuffix(".oantt")))
    return sorted(found)


def main():
    crate, count = sys.argv[1], int(sys.argv[2]) if len(sys.argv) > 2 else 40
    top = os.path.dirname(os.path.dirname(os.path.realpath(__file__)))
    folder = f"{top}/crates/{crate}"
    shutil.rmtree(f"{folder}/out/incremental", ignore_errors=True)
    checked = subprocess.run(["rt", "check", "--jobs", "1"], cwd=folder, stdout=subprocess.DEVNULL)
    kept = kept_in(f"{folder}/out/incremental")
    spent = [(now[0] - before[0], now[1]) for before, now in zip(kept, kept[1:])]
    for seconds, module in sorted(spent, reverse=True)[:count]:
        print(f"{seconds:7.1f} {module.replace(f'Rattle-{crate}-', '')}")
    print(f"{sum(it for it, _ in spent):7.1f} all {len(kept)} modules")
    return checked.returncode


if __name__ == "__main__":
    sys.exit(main())
