"""Processes of the harness. Each leads a process group of its own, and all groups are killed when the harness ends."""
import atexit
import os
import signal
import subprocess
import threading

living, lock, closed = {}, threading.Lock(), False


def begin(words, **options):
    """Starts a program in a process group of its own."""
    with lock:
        if closed:
            raise OSError("the harness is ending")
        it = subprocess.Popen(words, stdin=subprocess.DEVNULL, start_new_session=True, **options)
        living[it.pid] = it
        return it


def run(words):
    """Runs a program to its end; its status, and all that it printed."""
    it = begin(words, stdout=subprocess.PIPE, stderr=subprocess.STDOUT)
    said = it.stdout.read().decode(errors="replace")
    it.stdout.close()
    return wait(it), said


def send(it, what):
    """Sends a signal to all processes of a group; whether there still are some."""
    try:
        os.killpg(it.pid, what)
        return True
    except (ProcessLookupError, PermissionError):
        return False


def wait(it):
    """Waits until a program ends, kills what is left of its group, and returns the program's status."""
    status = it.wait()
    send(it, signal.SIGKILL)
    with lock:
        living.pop(it.pid, None)
    return status


def end(it, how=signal.SIGKILL, grace=10):
    """Ends a group by a signal, and by SIGKILL after the grace."""
    send(it, how)
    send(it, signal.SIGCONT)
    try:
        it.wait(grace)
    except subprocess.TimeoutExpired:
        pass
    send(it, signal.SIGKILL)
    wait(it)


def end_all():
    """Kills all groups. No more processes can be begun."""
    global closed
    # before the lock is taken: threads that begin processes one after the other would keep it for long
    closed = True
    with lock:
        left = list(living.values())
    for it in left:
        send(it, signal.SIGKILL)


atexit.register(end_all)
