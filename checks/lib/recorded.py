"""The logs of checks/replay.sh: their lines, their executions, and the calls that the lines belong to.

A log has executions, each a head of four numbers and its lines in the order of their tickets
(checks/recorder/recorder.c). checks/recorder/executor_core/recorder.rs names what the numbers stand for.
"""
import os
import re
from copy import copy

RECORDER = f"{os.path.dirname(os.path.abspath(__file__))}/../recorder/executor_core/recorder.rs"
# The words of a line that is neither a call's beginning nor a step.
APART = ("End", "ExchangeBegins", "Made", "LetGo", "Forgotten", "Ending")
# The calls of a ticker.
TICKERS = ("Tick", "Run", "PollTick", "PollRun", "DropTick", "DropRun")


class Refused(Exception):
    """At which line a check refuses an execution, and why."""

    def __init__(self, at, why):
        super().__init__(f"line {at}: {why}")
        self.at = at


def names_of(enum):
    """The names of an enum of the recorder, in order."""
    with open(RECORDER) as file:
        body = re.search(rf"pub enum {enum} {{\n(.*?)\n}}", file.read(), re.S).group(1)
    return re.findall(r"^    (\w+),$", body, re.M)


WORDS, ANSWERS = names_of("Word"), names_of("Answer")
KINDS, ENDINGS = names_of("Kind"), names_of("Ending")


class Line:
    """A line of a log."""

    def __init__(self, at, text):
        thread, word, self.of, self.with_, answer, self.value = map(int, text.split())
        self.at, self.thread = at, thread
        self.word, self.answer = WORDS[word], ANSWERS[answer]
        self.is_step = not self.word.startswith("Call") and self.word not in APART

    def __str__(self):
        said = f"{self.word} {self.of} {self.with_} -> {self.answer} {self.value}"
        return f"{self.at}: thread {self.thread} {said}"


class Execution:
    """The body that is wrong in it, by its number, the name of the program, how it ended, and the lines."""

    def __init__(self, text):
        body, kind, number, ending = map(int, text.split())
        self.name, self.of_threads = f"{body}.{KINDS[kind].lower()}_{number}", f"{body}.locals"
        self.end, self.lines = ENDINGS[ending], []


    def parts(self):
        """The executions of each thread, if each has an executor of its own, or this one."""
        if not self.name.startswith(self.of_threads):
            return [self]
        threads = {}
        for line in self.lines:
            threads.setdefault(line.thread, []).append(line)
        return [self.part(lines) for lines in threads.values()]

    def part(self, lines):
        """The execution of the thread that wrote these lines, the last of which says which it was."""
        last, found = lines[-1], copy(self)
        if last.word != "Ending":
            raise Refused(last.at, f"thread {last.thread} does not say how its program ended")
        found.name, found.end = f"{self.of_threads}_{last.of}", ENDINGS[last.value]
        found.lines = lines
        for at, line in enumerate(lines):
            line.at = at
        return found


def executions(path):
    """The executions of a log, one after another."""
    for execution in whole_executions(path):
        yield from execution.parts()


def whole_executions(path):
    """The executions of a log, with those of threads that have an executor each as one."""
    found = None
    with open(path) as file:
        for text in file:
            if text.count(" ") == 3:
                if found:
                    yield found
                found = Execution(text)
            else:
                found.lines.append(Line(len(found.lines), text))
    if found:
        yield found


class Frame:
    """A call that a thread is in: which it is, of whom, and the signs of its own steps so far."""

    def __init__(self, line):
        self.word, self.of, self.at = line.word.removeprefix("Call"), line.of, line.at
        self.signs, self.task, self.has_left = "", None, False


def walk(lines):
    """Each step of a log with its call, and each call as it begins, and as it ends with the one around it."""
    frames = {}
    for line in lines:
        stack = frames.setdefault(line.thread, [])
        if line.word in ("CallLent", "Forgotten"):
            yield line, None, None
        elif line.word.startswith("Call"):
            stack.append(Frame(line))
            yield line, stack[-1], None
        elif line.word == "End":
            frame = stack.pop()
            yield line, frame, stack[-1] if stack else None
        elif line.is_step:
            yield line, stack[-1] if stack else None, None
