"""Runs a program until a number of seconds is over, and tells what it took."""
import os
import resource
import select
import signal
import subprocess


class Ending:
    """How a run ended: its status, the signal's name or "no end"; its seconds of the processor, and the most megabytes that it had."""

    def __init__(self, status, seconds, megabytes):
        self.status, self.seconds, self.megabytes = status, seconds, megabytes


# No run has more, so that one that asks for all there is does not take it from others.
MOST_BYTES = 3 << 30


def ran(command, script, report, complaint, folder, seconds, stack=None):
    """Runs a command on the files of these paths, until it took so many seconds of the processor, or twenty times as many of the clock. Its megabytes are
    at least those that this process has, which starts it. A stack is in bytes."""
    with open(script, "rb") as source, open(report, "wb") as sink, open(complaint, "wb") as told:
        child = subprocess.Popen(command, stdin=source, stdout=sink, stderr=told, cwd=folder)
    resource.prlimit(child.pid, resource.RLIMIT_CPU, (seconds, seconds))
    resource.prlimit(child.pid, resource.RLIMIT_AS, (MOST_BYTES, MOST_BYTES))
    if stack:
        resource.prlimit(child.pid, resource.RLIMIT_STACK, (stack, stack))
    watched = os.pidfd_open(child.pid)
    try:
        poll = select.poll()
        poll.register(watched, select.POLLIN)
        is_over = not poll.poll(20000 * seconds)
    finally:
        os.close(watched)
    if is_over:
        child.kill()
    _, status, usage = os.wait4(child.pid, 0)
    child.returncode = os.waitstatus_to_exitcode(status)
    told = "no end" if is_over or child.returncode == -signal.SIGKILL else child.returncode if child.returncode >= 0 else f"signal {-child.returncode}"
    return Ending(told, usage.ru_utime + usage.ru_stime, usage.ru_maxrss / 1024)
