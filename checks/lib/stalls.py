"""Runs a command, and stops single threads of the tests that it starts for some seconds each.

A busy machine does the same, if seldom: a thread has no processor while others go on. It is stopped as it
begins, or soon after another one of its test has begun; of each test this happens five times at most. It cannot
tell, since it is sent no signal and what it waits for in the system goes on. The last line counts how often
threads were stopped.
Usage: stalls.py SECONDS COMMAND...
"""
import ctypes
import os
import random
import signal
import sys
import time

# Requests of ptrace, the options by which it comes to what a tracee starts, and the event of a thread that
# begins or was asked to stop.
CONTINUE, SEIZE, INTERRUPT = 7, 0x4206, 0x4207
FORKS, VFORKS, CLONES = 1 << 1, 1 << 2, 1 << 3
STOP = 128

THREADS_TOO = 0x40000000  # An option of waitpid.

# What stands in the command line of a test, and how many of its threads are stopped at most.
TEST = b"\0tests::"
MOST = 5

libc = ctypes.CDLL(None)
libc.ptrace.argtypes = [ctypes.c_long] * 4


def test_of(thread):
    """The process that a thread is one of, if that is a test, or None."""
    try:
        with open(f"/proc/{thread}/cmdline", "rb") as line, open(f"/proc/{thread}/status") as status:
            if TEST in line.read():
                return next(int(it.split()[1]) for it in status if it.startswith("Tgid:"))
    except OSError:
        pass
    return None


def start(command):
    """Starts a command, and has each thread of it and of what it starts report to this one."""
    started = os.fork()
    if started == 0:
        os.kill(os.getpid(), signal.SIGSTOP)
        os.execvp(command[0], command)
    os.waitpid(started, os.WUNTRACED)
    if libc.ptrace(SEIZE, started, 0, FORKS | VFORKS | CLONES) != 0:
        os.kill(started, signal.SIGKILL)
        sys.exit("the system lets this process trace no other one")
    os.kill(started, signal.SIGCONT)


class Stalls:
    """The threads that are stopped, each with the time at which it goes on; the tests of which one is to be
    stopped, each with its time; and how many were stopped of each test."""

    def __init__(self, seconds):
        self.seconds = seconds
        self.stopped, self.due, self.asked = {}, [], set()
        self.counts = {}

    def ask(self, test):
        """Asks a thread of a test to stop, if there are several."""
        try:
            threads = [int(name) for name in os.listdir(f"/proc/{test}/task")]
        except OSError:
            return
        awake = [thread for thread in threads if thread not in self.stopped]
        if len(awake) > 1:
            thread = random.choice(awake)
            if libc.ptrace(INTERRUPT, thread, 0, 0) == 0:
                self.asked.add(thread)

    def stops(self, thread, was_asked):
        """Whether a thread that begins or was asked is stopped. Another one of its test is asked soon."""
        test = test_of(thread)
        if test is None or self.counts.get(test, 0) == MOST:
            return False
        if not was_asked:
            if thread == test:
                return False
            self.due.append((time.monotonic() + random.random() / 500, test))
            if random.random() > 0.3:
                return False
        self.counts[test] = self.counts.get(test, 0) + 1
        return True

    def hear(self, thread, status):
        """Hears what a thread reports. It goes on, if it is not to be stopped."""
        was_asked = thread in self.asked
        self.asked.discard(thread)
        if not os.WIFSTOPPED(status):
            return
        event, told = status >> 16, os.WSTOPSIG(status)
        if event == STOP and told == signal.SIGTRAP and self.stops(thread, was_asked):
            self.stopped[thread] = time.monotonic() + self.seconds
        else:
            libc.ptrace(CONTINUE, thread, 0, 0 if event else told)

    def go_on(self):
        """Does what is due, and says whether something of the command is left."""
        now = time.monotonic()
        for thread in [thread for thread, end in self.stopped.items() if end <= now]:
            del self.stopped[thread]
            libc.ptrace(CONTINUE, thread, 0, 0)
        for one in [one for one in self.due if one[0] <= now]:
            self.due.remove(one)
            self.ask(one[1])
        waits = not self.stopped and not self.due
        try:
            thread, status = os.waitpid(-1, THREADS_TOO | (0 if waits else os.WNOHANG))
        except ChildProcessError:
            return False
        if thread:
            self.hear(thread, status)
        elif not self.due:
            time.sleep(0.0005)
        return True


def main(seconds, *command):
    start(command)
    stalls = Stalls(float(seconds))
    while stalls.go_on():
        pass
    print(f"{sum(stalls.counts.values())} threads were stopped for {seconds} s each")


main(*sys.argv[1:])
