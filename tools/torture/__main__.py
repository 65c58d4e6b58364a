"""./kx torture [OPTIONS] -- COMMAND WORDS..: finds the bug of a program that consumes, processes and produces.

The modules, in an order in which they can be read:

- Kafka's bytes: `layouts` has requests and responses, `records` has record batches. `client` makes the requests
  that the harness needs itself.
- One run: `relay` passes requests on between one start of the program and the server, and `faults` has what may
  happen to a request there. `server` starts the server, `instances` the program, both by `processes`. `watch` is
  the state of a run while the program works, `run` is a run from its input (`inputs`) to its output, and `names`
  keeps runs apart that share a Kafka.
- All runs: `options` reads the command line, `plan` chooses the runs, `torture` makes them, `verdict` compares.
- The report: `story`, `late` and `unstable` say what happened, `advice` names mistakes, `table`, `page` and `report` write.

The tests are in test_*.py, with `scripted` as their server and client: python3 -m unittest discover -s tools/torture.
"""
import os
import sys
import traceback

sys.dont_write_bytecode = True
sys.path.insert(0, os.path.dirname(os.path.realpath(__file__)))

import torture  # noqa: E402

for it in (sys.stdout, sys.stderr):
    it.reconfigure(errors="replace")
try:
    status = torture.main(sys.argv[1:])
except SystemExit as ended:
    status = ended.code or 0
except BaseException:
    traceback.print_exc()
    status = 70
sys.stdout.flush()
sys.stderr.flush()
# not sys.exit: threads of abandoned runs may still wait, and would keep the process
os._exit(status)
