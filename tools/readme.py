#!/usr/bin/env python3
"""Runs README's commands in a clean clone, and compares what they print with what README says.

    tools/readme.py [--program PROGRAM | --try]

A block of README that is fenced as `console` has commands, each after `$ `, and below each what is
printed. In a block the commands run one after the other, in a folder of the clone's own. One that
ends in `&` goes on beside the others as a job; its lines may stand below a later command, once that
has printed its own, and `kill %1` ends the first job of the block. The clone has what is committed.
There `./kx` proves and builds the program, in an hour and a half, and `./kx try` compiles it without
proof. With --program both are PROGRAM, which was built already; with --try both are `./kx try`.
Prints a line for each command, and ends with status 1 if one printed anything else.
"""
import os
import re
import shlex
import shutil
import subprocess
import sys
import tempfile
import time

TOP = os.path.dirname(os.path.dirname(os.path.realpath(__file__)))

# How long a command may take beside the build, and a compilation without proof, in seconds.
PATIENCE, COMPILING = 60, 1200


def blocks(text):
    """The `console` blocks of a page: of each, its commands with the lines below them."""
    for body in re.findall(r"^```console\n(.*?)^```$", text, re.M | re.S):
        commands = []
        for line in body.splitlines():
            if line.startswith("$ "):
                commands.append((line[2:], []))
            else:
                commands[-1][1].append(line)
        yield commands


class Beside:
    """A command that goes on beside the others, with the lines that it has printed."""

    def __init__(self, command, folder, env):
        self.output = tempfile.TemporaryFile("w+")
        self.process = subprocess.Popen(
            ["bash", "-c", "exec " + command], cwd=folder, env=env, stdin=subprocess.DEVNULL,
            stdout=self.output,
        )
        self.taken = 0

    def lines(self, count, patience):
        """The next lines, this many or as many as are printed in time."""
        until = time.time() + patience
        while True:
            self.output.seek(0)
            printed = self.output.read().split("\n")[:-1]
            if self.taken + count <= len(printed) or until < time.time():
                found = printed[self.taken:self.taken + count]
                self.taken += len(found)
                return found
            time.sleep(0.05)

    def end(self):
        """Waits for its end, and returns the lines that nobody has taken."""
        try:
            self.process.wait(PATIENCE)
        except subprocess.TimeoutExpired:
            self.process.kill()
            self.process.wait()
        return self.lines(1_000_000, 0)


def run_block(commands, folder, env, patience):
    """Runs the commands of a block. Returns how many printed something else."""
    failed, beside = 0, []
    for at, (command, wanted) in enumerate(commands):
        job = re.fullmatch(r"kill %(\d+)", command)
        if job:
            beside[int(job[1]) - 1].process.terminate()
            printed = beside[int(job[1]) - 1].end()
        elif command.endswith("&"):
            beside.append(Beside(command[:-1], folder, env))
            printed = beside[-1].lines(len(wanted), patience)
        else:
            ran = subprocess.run(
                ["bash", "-c", command], cwd=folder, env=env, stdin=subprocess.DEVNULL,
                stdout=subprocess.PIPE, text=True, errors="replace", timeout=patience, check=False,
            )
            printed = ran.stdout.split("\n")[:-1]
            for it in beside:
                printed += it.lines(max(0, len(wanted) - len(printed)), PATIENCE)
        if at + 1 == len(commands):
            for it in beside:
                printed += it.end()
        is_right = printed == wanted
        failed += not is_right
        print("ok" if is_right else "FAILED", command, flush=True)
        if not is_right:
            print("  wanted: " + "\n          ".join(wanted))
            print("  printed: " + "\n           ".join(printed))
    return failed


def replaced(clone, how, torture):
    """Puts another `./kx` into the clone, where the program needn't be proved and built."""
    os.rename(f"{clone}/kx", f"{clone}/kx.own")
    with open(f"{clone}/kx", "w", encoding="utf-8") as it:
        it.write(f'''#!/usr/bin/env bash
case "$1" in
  try) shift ;;
  torture) shift && exec {torture} "$@" ;;
esac
exec {how} "$@"
''')
    os.chmod(f"{clone}/kx", 0o755)


def main(words):
    folder = tempfile.mkdtemp()
    clone = f"{folder}/clone"
    try:
        subprocess.run(["git", "clone", "-q", TOP, clone], check=True)
        patience = 4 * 3600
        if words[:1] == ["--program"]:
            program = shlex.quote(os.path.realpath(words[1]))
            replaced(clone, program, f"python3 {clone}/tools/torture --program {program}")
            patience = PATIENCE
        elif words == ["--try"]:
            # (the clone's own, since it looks for its sources beside itself)
            own = shlex.quote(f"{clone}/kx.own")
            replaced(clone, f"{own} try", f"{own} torture")
            patience = COMPILING
        elif words:
            print(__doc__)
            return 2
        with open(f"{clone}/README.md", encoding="utf-8") as it:
            text = it.read()
        failed = 0
        for commands in blocks(text):
            failed += run_block(commands, clone, dict(os.environ), patience)
        print(f"{failed} failed")
        return 1 if failed else 0
    finally:
        shutil.rmtree(folder, ignore_errors=True)


if __name__ == "__main__":
    sys.exit(main(sys.argv[1:]))
